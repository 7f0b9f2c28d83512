def area(width: int, height: int) -> int:
    """The area of a rectangle.

    pre: width > 0
    pre: height > 0
    post:
        # no side is longer than the area is large
        __return__ >= width
        __return__ >= height
    """
    return width * height
