"""Time forms as docs/DEFINITIONS.md writes them, in whole numbers of any size.

What the scripts beside this one work out tables of forms by. A form is (centre, turning, remainder): at d of a piece of half
length h it stands for the numbers from centre + turning d / h - remainder to centre + turning d / h + remainder. Where the
program answers none, so do these. Nothing here is taken from the program.
"""
from math import isqrt

ONE = 1 << 38
NONE = (0, 0, 0)


def short(form):
    """The form, where each of its numbers has a magnitude below 2^58."""
    return form if all(abs(x) < 1 << 58 for x in form) else None


def least(f):
    return f[0] - abs(f[1]) - f[2]


def wide_product(f, g):
    """Half of the product of the turnings goes to the centre, since the square of d / h lies from 0 to 1."""
    turn = f[1] * g[1]
    return (
        f[0] * g[0] + turn // 2,
        f[0] * g[1] + f[1] * g[0],
        (abs(f[0]) + abs(f[1])) * g[2] + (abs(g[0]) + abs(g[1]) + g[2]) * f[2] + abs(turn) // 2 + 1,
    )


def narrow(f):
    return (f[0] // ONE, f[1] // ONE, f[2] // ONE + 4)


def root(f):
    """The root of the centre, with what the remainder makes of it, and how far the root bends from its line."""
    if least(f) < 1:
        return None
    centre = isqrt(f[0])
    both = centre + isqrt(least(f))
    apart = (abs(f[1]) + f[2]) // both + 1
    bend = apart * apart // (2 * centre) + 1
    return short((centre, f[1] // (2 * centre), f[2] // both + 1 + bend + 6))


def quotient(f, g):
    """The quotient of the centres, and what turns of the dividend less that of the divisor times it."""
    if least(g) < 1:
        return None
    centre = f[0] * ONE // g[0]
    turn = (f[1] * ONE - centre * g[1]) // ONE
    offset = f[2] + abs(centre) * g[2] // ONE + 2
    reach = ONE * offset // least(g) + 1
    bend = ONE * abs(turn) * (abs(g[1]) + g[2]) // (g[0] * least(g)) + 1
    return short((centre, turn * ONE // g[0], reach + bend + g[0] // least(g) + 1 + 2))


def added(f, g):
    return (f[0] + g[0], f[1] + g[1], f[2] + g[2])


def less(f, g):
    return (f[0] - g[0], f[1] - g[1], f[2] + g[2])


def negative(f):
    return (-f[0], -f[1], f[2])


def product(f, g):
    return short(narrow(wide_product(f, g)))


def steady(a):
    """Of an interval that stays."""
    middle = (a[0] + a[1]) // 2
    return (middle, 0, a[1] - middle)


def linear(a, k, h):
    """Of k + d times a choice of an interval."""
    middle = (a[0] + a[1]) // 2
    return (middle * k, middle * h, (a[1] - middle) * (abs(k) + h))
