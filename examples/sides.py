def area(width: int, height: int) -> int:
    """
    pre: width > 0
    post: __return__ >= width
    """
    return width * height
