"""Interval operations as `fix_interval`'s specs define them, on pairs (lo, hi) of whole numbers of any size.

What the scripts beside this one share: they work out the values that tests and benchmarks expect. Nothing here is taken
from the program. A unit is 2^-38, and in a wide interval 2^-76.
"""
from math import isqrt

ONE = 1 << 38
FULL = (-ONE, ONE)


def floor_over(num, den):
    """num / den rounded down, for den above 0."""
    return num // den


def ceil_over(num, den):
    """num / den rounded up, for den above 0."""
    return -(-num // den)


def outward(low, high, den):
    """From low / den rounded down to high / den rounded up."""
    return (floor_over(low, den), ceil_over(high, den))


def point(k):
    """One number of units."""
    return (k, k)


def magnitude(a):
    """The greater magnitude of the two ends."""
    return max(abs(a[0]), abs(a[1]))


def add(a, b):
    return (a[0] + b[0], a[1] + b[1])


def sub(a, b):
    return (a[0] - b[1], a[1] - b[0])


def negative(a):
    return (-a[1], -a[0])


def hull(a, b):
    """The least interval round two."""
    return (min(a[0], b[0]), max(a[1], b[1]))


def clamp(a, most):
    """The part from -most to most."""
    return (max(a[0], -most), min(a[1], most))


def widened(a):
    """A unit outward at both ends."""
    return (a[0] - 1, a[1] + 1)


def corners(a, b):
    """The four products of ends."""
    return [x * y for x in a for y in b]


def mul_wide(a, b):
    """The product at the sum of the two scales."""
    products = corners(a, b)
    return (min(products), max(products))


def narrow(a, places=38):
    """So many binary places fewer, rounded outward."""
    return outward(a[0], a[1], 1 << places)


def mul(a, b):
    """The product at scale 38."""
    return narrow(mul_wide(a, b))


def sqr_wide(a):
    """The square at twice the scale: its least is 0 where a holds 0."""
    squares = [a[0] ** 2, a[1] ** 2]
    return (0 if a[0] <= 0 <= a[1] else min(squares), max(squares))


def sqr(a):
    """The square at scale 38."""
    return narrow(sqr_wide(a))


def scale(a, p, q):
    """a times p / q, rounded outward."""
    return outward(a[0] * p, a[1] * p, q)


def scale_int(a, first, last):
    """The product with a whole number from first to last."""
    return mul_wide(a, (first, last))


def div_int(a, k):
    """a / k, rounded outward."""
    return outward(a[0], a[1], k)


def div(a, b):
    """The quotient at scale 38 of two intervals of one scale, the second above 0."""
    return (
        min(floor_over(a[0] * ONE, b[0]), floor_over(a[0] * ONE, b[1])),
        max(ceil_over(a[1] * ONE, b[0]), ceil_over(a[1] * ONE, b[1])),
    )


def from_ratio(num, den, places=38):
    """num / den, rounded outward to units of 2^-places."""
    return outward(num << places, num << places, den)


def sqrt(a):
    """The root at scale 38 of an interval at scale 76, a unit outward below and two above."""
    return (max(0, isqrt(a[0]) - 1), isqrt(a[1]) + 2)
