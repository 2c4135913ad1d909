#!/usr/bin/env python3
"""One satellite and one receiver by the formulas of docs/DEFINITIONS.md, in fractions, at level 100.

What is chosen at the level (roots, the eccentric anomaly, sines and cosines) is chosen here from Taylor sums and whole
square roots, and held against the condition that admits it. What is determined by it is worked out without rounding.
Everything is printed to 30 digits. The constants are written here from their sources and held against the table of the
page; the result is held against floating point and against the intervals of orbits.py and receivers.py.

Lengths are in Mm, angles in turns, times in milliseconds.
"""
import math
import re
from fractions import Fraction
from pathlib import Path

from intervals import from_ratio
from orbits import Record, position
from receivers import frame, look as seen, mask_sine

LEVEL = 100
TOLERANCE = Fraction(1, 2**LEVEL)
WEEK = 604_800_000
# sines are written to so many binary places; the remainders of 100 terms are wider
SINE_PLACES = 1300

PI = Fraction("3.1415926535898")
TAU = 2 * PI
MU = Fraction("3.986005e14") / 10**18 / 10**6
EARTH_ROTATION = Fraction("7.2921151467e-5") / 1000 / TAU
EARTH_AXIS = Fraction(6378137, 10**6)
FLATTENING = 1 / Fraction("298.257223563")
ECCENTRICITY_SQUARED = FLATTENING * (2 - FLATTENING)

# the record and the place
ECCENTRICITY = Fraction("0.01086759567")
SQRT_A = Fraction("5153.636719")
INCLINATION = Fraction("0.96013574") / TAU
RATE = Fraction("-0.000000008126052768") / 1000 / TAU
OMEGA0 = Fraction("1.296372856") / TAU
PERIGEE = Fraction("0.812318933") / TAU
M0 = Fraction("-0.9442756846") / TAU
TOA = 1414427904000
TIME = TOA + 3_600_123
LATITUDE = Fraction("35.5533") / 360
LONGITUDE = Fraction("139.7811") / 360
HEIGHT = Fraction("10668") / 10**6
MASK = Fraction("5") / 360


def text(x, digits=30):
    """A fraction to so many digits behind the point."""
    scaled = abs(x.numerator) * 10**digits // x.denominator
    return f"{'-' if x < 0 else ''}{scaled // 10**digits}.{scaled % 10**digits:0{digits}}"


def root(x):
    """A square root that the level admits."""
    w = Fraction(math.isqrt((x.numerator << 4 * LEVEL) // x.denominator), 2 ** (2 * LEVEL))
    assert w >= 0 and abs(w * w - x) <= TOLERANCE
    return w


def series(x, odd):
    """The series of sine (odd) or cosine to LEVEL terms, and its remainder."""
    term = x if odd else Fraction(1)
    total = Fraction(0)
    for k in range(LEVEL):
        total += term
        n = 2 * k + 1 + odd
        term = -term * x * x / (n * (n + 1))
    return total, abs(term)


def admitted(x, odd):
    """A number within the remainder of the series: one of SINE_PLACES binary places where there is one."""
    total, remainder = series(x, odd)
    a = Fraction(round(total * 2**SINE_PLACES), 2**SINE_PLACES)
    return a if abs(a - total) <= remainder else total


def sine_cosine(u):
    """A sine and cosine of u turns."""
    q = math.floor(4 * u + Fraction(1, 2))
    x = TAU * (u - Fraction(q, 4))
    a, b = admitted(x, 1), admitted(x, 0)
    return [(a, b), (b, -a), (-a, -b), (-b, a)][q % 4]


def anomaly(m, e):
    """An eccentric anomaly of m turns, by halving, and the two places that admit it."""
    eps = e / TAU
    low, high = (Fraction(math.floor(64 * m) - 1, 64), Fraction(math.floor(64 * m) + 2, 64))

    def mean(u):
        return u - eps * sine_cosine(u)[0]

    while high - low > TOLERANCE:
        middle = (low + high) / 2
        if mean(middle) <= m:
            low = middle
        else:
            high = middle
    assert mean(low) <= m <= mean(high)
    return low


def satellite():
    semi_root = SQRT_A / 1000
    axis = semi_root**2
    motion = root(MU / axis**3)
    since = TIME - TOA
    m = M0 + motion * since / TAU
    e_turns = anomaly(m, ECCENTRICITY)
    s_e, c_e = sine_cosine(e_turns)
    b = root(1 - ECCENTRICITY**2)
    xo, yo = axis * (c_e - ECCENTRICITY), axis * b * s_e
    s_w, c_w = sine_cosine(PERIGEE)
    xp, yp = xo * c_w - yo * s_w, xo * s_w + yo * c_w
    node = OMEGA0 + (RATE - EARTH_ROTATION) * since - EARTH_ROTATION * (TOA % WEEK)
    s_o, c_o = sine_cosine(node)
    s_i, c_i = sine_cosine(INCLINATION)
    place = (xp * c_o - yp * c_i * s_o, xp * s_o + yp * c_i * c_o, yp * s_i)
    return {"semi_major_axis": axis, "mean_motion": motion, "mean_anomaly": m, "eccentric_anomaly": e_turns,
            "node": node}, place


def receiver():
    s_f, c_f = sine_cosine(LATITUDE)
    s_l, c_l = sine_cosine(LONGITUDE)
    v = root(1 - ECCENTRICITY_SQUARED * s_f**2)
    radius = EARTH_AXIS / v
    place = ((radius + HEIGHT) * c_f * c_l, (radius + HEIGHT) * c_f * s_l,
             (radius * (1 - ECCENTRICITY_SQUARED) + HEIGHT) * s_f)
    east = (-s_l, c_l, Fraction(0))
    north = (-s_f * c_l, -s_f * s_l, c_f)
    up = (c_f * c_l, c_f * s_l, s_f)
    return {"prime_vertical_radius": radius}, place, (east, north, up)


def dot(a, b):
    return sum((x * y for x, y in zip(a, b)), Fraction(0))


def look(place, site, axes):
    d = tuple(a - b for a, b in zip(place, site))
    rho = root(dot(d, d))
    row = [dot(axis, d) / rho for axis in axes] + [Fraction(1)]
    visible = rho >= 1 and dot(axes[2], d) >= sine_cosine(MASK)[0] * rho
    return rho, row, visible


def floating():
    """The row in floating point, with the library's sines and an eccentric anomaly by Newton's way."""
    tau = float(TAU)
    axis = (float(SQRT_A) / 1000) ** 2
    since = TIME - TOA
    e = float(ECCENTRICITY)
    m = tau * float(M0) + math.sqrt(float(MU) / axis**3) * since
    u = m
    for _ in range(20):
        u -= (u - e * math.sin(u) - m) / (1 - e * math.cos(u))
    true = math.atan2(math.sqrt(1 - e * e) * math.sin(u), math.cos(u) - e)
    r = axis * (1 - e * math.cos(u))
    along = true + tau * float(PERIGEE)
    node = tau * float(OMEGA0 + (RATE - EARTH_ROTATION) * since - EARTH_ROTATION * (TOA % WEEK))
    incl = tau * float(INCLINATION)
    x, y = r * math.cos(along), r * math.sin(along)
    place = (x * math.cos(node) - y * math.cos(incl) * math.sin(node),
             x * math.sin(node) + y * math.cos(incl) * math.cos(node), y * math.sin(incl))
    f, g, h = tau * float(LATITUDE), tau * float(LONGITUDE), float(HEIGHT)
    e2 = float(ECCENTRICITY_SQUARED)
    radius = float(EARTH_AXIS) / math.sqrt(1 - e2 * math.sin(f) ** 2)
    site = ((radius + h) * math.cos(f) * math.cos(g), (radius + h) * math.cos(f) * math.sin(g),
            (radius * (1 - e2) + h) * math.sin(f))
    d = [a - b for a, b in zip(place, site)]
    rho = math.dist(place, site)
    turn = (-d[0] * math.sin(g) + d[1] * math.cos(g)) / rho
    level = d[0] * math.cos(g) + d[1] * math.sin(g)
    return place, site, rho, [turn, (d[2] * math.cos(f) - level * math.sin(f)) / rho,
                              (level * math.cos(f) + d[2] * math.sin(f)) / rho, 1.0]


def hold(intervals, values):
    for (low, high), value in zip(intervals, values):
        assert low <= value * 2**38 <= high


def value_of(words):
    """A fraction as the page writes it: whole numbers, decimals, powers of ten."""
    words = words.replace(",", "").replace(" x 10^", "e").replace("(1000 tau)", "@")
    if "@" in words:
        return Fraction(words.split("/")[0].strip()) / 1000 / TAU

    def number(part):
        part = part.strip()
        power = re.fullmatch(r"10\^(\d+)", part)
        return Fraction(10 ** int(power[1])) if power else Fraction(part)

    num, _, den = words.partition("/")
    return number(num) / (number(den) if den else 1)


def hold_the_constants():
    page = (Path(__file__).parent.parent / "docs" / "DEFINITIONS.md").read_text()
    rows = dict(re.findall(r"^\| `(\w+)` \| ([0-9][^|]*?)(?: (?:radians|Mm|turns)[^|]*)? \|", page, re.M))
    for name, value in [("tau", TAU), ("mu", MU), ("earth_rotation", EARTH_ROTATION), ("earth_axis", EARTH_AXIS),
                        ("flattening", FLATTENING)]:
        assert value_of(rows[name]) == value, name
        print(f"{name:22} {text(value)}")


if __name__ == "__main__":
    hold_the_constants()
    parts, place = satellite()
    more, site, axes = receiver()
    rho, row, visible = look(place, site, axes)
    for name, value in {**parts, **more}.items():
        print(f"{name:22} {text(value)}")
    for name, vector in [("satellite_position", place), ("site", site), ("direction_row", row)]:
        for value in vector:
            print(f"{name:22} {text(value)}")
    print(f"{'distance':22} {text(rho)}")
    print(f"{'is_visible':22} {visible}")

    near_place, near_site, near_rho, near_row = floating()
    pairs = [*zip(near_place, place), *zip(near_site, site), (near_rho, rho), *zip(near_row, row)]
    assert all(abs(a - float(b)) < 1e-9 for a, b in pairs)
    record = Record("0.01086759567", TOA, ("rad", "0.96013574"), ("rad", "-0.000000008126052768"), "5153.636719",
                    ("rad", "1.296372856"), ("rad", "0.812318933"), ("rad", "-0.9442756846"))
    over_intervals = position(record, TIME, TIME)
    hold(over_intervals, place)
    stand = frame(tuple(from_ratio(x.numerator, x.denominator) for x in (LATITUDE, LONGITUDE, HEIGHT)))
    for vector, values in zip((stand.position, stand.east, stand.north, stand.up), (site, *axes)):
        hold(vector, values)
    kind, *direction = seen(stand, over_intervals, mask_sine("5"))
    assert kind == ("V" if visible else "H")
    hold(direction, row[:3])
