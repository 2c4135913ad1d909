"""Where a satellite is by its almanac, over intervals, as docs/DEFINITIONS.md writes it.

What the positions that `almanac_orbit` and `call_bench` are held against are worked out by. Nothing here is taken from the
program. Lengths are in Mm, angles in turns, times in milliseconds, all in units of 2^-38 where no other is named.
"""
from dataclasses import dataclass
from math import isqrt

from intervals import add, div_int, from_ratio, mul, narrow, outward, point, scale, scale_int, sqr_wide, sqrt, sub
from sines import TURN, ecc_sin_cos, sin_cos

WEEK = 604_800_000
# 0.30 semicircles, from which a SEM file counts inclinations
THREE_TENTHS = "0.3"
# the Earth's rotation rate of IS-GPS-200, in radians per second
EARTH_RATE = ("rad", "0.000072921151467")
# the greatest whole number k for which (k TURN)^2 <= 3986005 10^10 2^264: the root of the Earth's gravitational
# constant over a turn, in units of 2^-132
MOTION_UNITS = isqrt(3986005 * 10**10 << 264) // TURN


@dataclass(frozen=True)
class Record:
    """A record of an almanac. Decimals are texts, and an angle is its form ("rad", "semi" or "semi30") with a decimal."""
    e: str
    toa_ms: int
    incl: tuple
    rate: tuple
    sqrt_a: str
    omega0: tuple
    perigee: tuple
    m0: tuple


def digits_of(decimal):
    """A decimal as a whole number over a power of ten."""
    whole, _, part = decimal.partition(".")
    return int(whole + part), 10 ** len(part)


def dec(decimal, places=38, over=1):
    """A decimal over a whole number, rounded outward to units of 2^-places."""
    num, den = digits_of(decimal)
    return from_ratio(num, den * over, places)


def above_three_tenths(decimal):
    return add(dec(decimal, 76), dec(THREE_TENTHS, 76))


def turns_of(angle):
    """An angle in turns."""
    form, decimal = angle
    if form == "rad":
        return scale(dec(decimal, 76), 10**13, TURN << 38)
    return div_int(dec(decimal, 76) if form == "semi" else above_three_tenths(decimal), 1 << 39)


def rate_of(angle):
    """A rate, which is given per second, in turns per millisecond, in units of 2^-76."""
    form, decimal = angle
    if form == "rad":
        return scale(dec(decimal, 76), 10**10, TURN)
    return div_int(dec(decimal, 76), 2000)


def product(a, b, places):
    """The product of what is not negative, so many binary places fewer."""
    return outward(a[0] * b[0], a[1] * b[1], 1 << places)


def motion_of(root):
    """The mean motion in turns per millisecond, in units of 2^-76, of the root of the semi-major axis in units of 2^-56."""
    cube = product(product(root, root, 56), root, 56)
    return (MOTION_UNITS // cube[1] - 1, -(-(MOTION_UNITS + 1) // cube[0]) + 1)


def position(rec, first, last):
    """The satellite's place from the millisecond first to last: three intervals."""
    k, l = first - rec.toa_ms, last - rec.toa_ms
    root = dec(rec.sqrt_a, 56, 1000)
    semi_major_axis = product(root, root, 74)
    eccentricity = dec(rec.e)
    semi_minor_axis = mul(semi_major_axis, sqrt(sub(point(1 << 76), sqr_wide(eccentricity))))
    week_time = rec.toa_ms % WEEK
    turned = scale_int(rate_of(EARTH_RATE), week_time, week_time)
    drift = sub(rate_of(rec.rate), rate_of(EARTH_RATE))
    mean_anomaly = add(turns_of(rec.m0), narrow(scale_int(motion_of(root), k, l)))
    node = sin_cos(add(turns_of(rec.omega0), narrow(sub(scale_int(drift, k, l), turned))))
    anomaly = ecc_sin_cos(mean_anomaly, scale(eccentricity, 10**13, TURN))
    perigee, inclination = sin_cos(turns_of(rec.perigee)), sin_cos(turns_of(rec.incl))
    x, y = turned_by(
        perigee, mul(semi_major_axis, sub(anomaly[1], eccentricity)), mul(semi_minor_axis, anomaly[0]))
    across = mul(y, inclination[1])
    return (*turned_by(node, x, across), mul(y, inclination[0]))


def turned_by(angle, x, y):
    """(x, y) turned by an angle, which its sine and its cosine give."""
    sine, cosine = angle
    return (sub(mul(x, cosine), mul(y, sine)), add(mul(x, sine), mul(y, cosine)))
