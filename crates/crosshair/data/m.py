def sq(x: int) -> int:
    """post: __return__ > 0"""
    return x * x
