def large(x: int) -> int:
    """
    pre: x > 200
    post: __return__ == x
    """
    return x
