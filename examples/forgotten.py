def double(x: int) -> int:
    """post: __return__ == x + x"""


def more(x: int) -> int:
    """post: __return__ > x"""
