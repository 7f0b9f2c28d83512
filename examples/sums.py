# Two functions of two integers. The second one is wrong where y is below x.


def add(x: int, y: int) -> int:
    """post: __return__ - y == x"""
    return x + y


def sub(x: int, y: int) -> int:
    """post: __return__ < 1"""
    return x - y
