"""Sines, cosines and Kepler's equation over intervals as docs/DEFINITIONS.md writes them.

What the tables of cases of `trig_enclose` and `kepler_bracket` are worked out by. Nothing here is taken from the program;
it goes the written way, forty halvings an end. Turns, sines and cosines are in units of 2^-38.
"""
from functools import reduce

from intervals import FULL, ONE, clamp, div_int, hull, mul, negative, point, scale, sqr, sub, widened

# a turn in radians is TURN / 10^13
TURN = 62831853071796
HALF = ONE // 2
QUARTER = ONE // 4
EIGHTH = ONE // 8
# the products of two factors each that lead from one term of a series to the next, the last first
SINE_DIVISORS = (156, 110, 72, 42, 20, 6)
COSINE_DIVISORS = (132, 90, 56, 30, 12, 2)
BRACKET = 5 * EIGHTH


def nested(y, divisors):
    """1 - y (1 - y (1 - ..) / k2) / k1, for divisors given the last first."""
    return reduce(lambda h, k: sub(point(ONE), div_int(mul(y, h), k)), divisors, point(ONE))


def trimmed(a):
    """A unit outward, for what seven terms leave out, and from -1 to 1."""
    return clamp(widened(a), ONE)


def hull_of_pairs(pairs):
    """The least pair round several."""
    return reduce(lambda p, q: (hull(p[0], q[0]), hull(p[1], q[1])), pairs)


def at_quarter(u, q):
    """The sine and the cosine of what of u is nearest to the quarter turn q."""
    radians = scale(clamp(sub(u, point(q * QUARTER)), EIGHTH), TURN, 10**13)
    y = sqr(radians)
    s = trimmed(mul(radians, nested(y, SINE_DIVISORS)))
    c = trimmed(nested(y, COSINE_DIVISORS))
    return [(s, c), (c, negative(s)), (negative(s), negative(c)), (negative(c), s)][q % 4]


def sin_cos(u):
    """The sine and the cosine of an interval of turns."""
    if u[1] - u[0] >= ONE:
        return (FULL, FULL)
    quarters = range((u[0] + EIGHTH) // QUARTER, (u[1] + EIGHTH) // QUARTER + 1)
    return hull_of_pairs([at_quarter(u, q) for q in quarters])


def mean(eps, k):
    """The mean anomaly of the eccentric anomaly k, for an eccentricity in turns."""
    return sub(point(k), mul(eps, sin_cos(point(k))[0]))


def halved(passes):
    """Forty halvings of the bracket for a test that its lower end passes and its upper end does not: what is left."""
    low, high = -BRACKET, BRACKET
    for _ in range(40):
        middle = (low + high) // 2
        low, high = (middle, high) if passes(middle) else (low, middle)
    return (low, high)


def anomalies(p, eps):
    """The eccentric anomalies of mean anomalies of at most half a turn either way, a unit outward."""
    low, _ = halved(lambda k: mean(eps, k)[1] <= p[0])
    _, high = halved(lambda k: not mean(eps, k)[0] >= p[1])
    return (low - 1, high + 1)


def at_turn(m, eps, w):
    """The sine and the cosine of the eccentric anomalies of what of m is nearest to the whole turn w."""
    return sin_cos(anomalies(clamp(sub(m, point(w * ONE)), HALF), eps))


def ecc_sin_cos(m, eps):
    """The sine and the cosine of the eccentric anomalies of the mean anomalies m, for an eccentricity in turns."""
    if m[1] - m[0] >= ONE:
        return (FULL, FULL)
    turns = range((m[0] + HALF) // ONE, (m[1] + HALF) // ONE + 1)
    return hull_of_pairs([at_turn(m, eps, w) for w in turns])
