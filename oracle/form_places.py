"""Forms of sines, of eccentric anomalies and of a satellite's place, as docs/DEFINITIONS.md writes them, and of a receiver's place
and frame, by the same operations in the order of the interval evaluation: in whole numbers of any size. None of these is an
answer where a number on the way does not fit.

What the scripts beside this one hold against the interval evaluation of each millisecond. Nothing here is taken from the
program.
"""
from forms import ONE, added, less, linear, narrow, negative, product, quotient, root, short, steady, wide_product
from intervals import mul, point, scale, sqr_wide, sqrt, sub
from orbits import EARTH_RATE, WEEK, dec, motion_of, product as rounded_product, rate_of, turns_of
from receivers import AXIS, ECCENTRICITY_SQUARED
from sines import TURN, anomalies, sin_cos

HALF = ONE // 2
# the radians of a turn in units, rounded
TURN_UNITS = (TURN * ONE + 5 * 10**12) // 10**13


class Lost(Exception):
    """A number left its range."""


def kept(form):
    """The form, which has to be one."""
    if form is None:
        raise Lost
    return form


def radians(turns):
    return TURN_UNITS * turns // ONE


def along_line(at, slope, turns, slack):
    """What is `at` at the centre, and changes by `slope` with the radians: with its bend 20 m^2, and `slack` units more."""
    turned = radians(turns[1])
    reach = abs(turns[1]) + turns[2]
    bend = 20 * reach * reach // ONE + 2
    lost = at[2] + slope[2] * abs(turned) // ONE + 7 * turns[2] + bend + slack + 3
    return kept(short((at[0], slope[0] * turned // ONE, lost)))


def lines(turns, slack):
    """The sine and the cosine of turns, about those of their centre."""
    if abs(turns[1]) > HALF:
        raise Lost
    sine, cosine = (steady(a) for a in sin_cos(point(turns[0])))
    return along_line(sine, cosine, turns, slack), along_line(cosine, negative(sine), turns, slack)


def form_of_sin_cos(turns):
    return lines(turns, 32 * turns[2] + 256)


def form_of_anomaly(mean, eps):
    """The eccentric anomaly: that of the centre, turning with the mean one over 1 - e cos E."""
    nearest = (mean[0] + HALF) // ONE
    low, high = anomalies(point(mean[0] - nearest * ONE), eps)
    at = steady((low + nearest * ONE, high + nearest * ONE))
    cosine = steady(sin_cos(point(at[0]))[1])
    slope = ONE - cosine[0] * radians(eps[0]) // ONE
    miss = mean[2] + 2 * at[2] + 10
    reach = abs(mean[1]) + mean[2] + 2 * at[2] + 1
    bend = eps[0] * (25 * reach * reach // ONE + 1) // ONE + 2
    return kept(short((at[0], mean[1] * ONE // slope, miss + miss // 8 + 1 + bend)))


def form_of_ecc_sin_cos(mean, eps):
    return lines(form_of_anomaly(mean, eps), 64 * mean[2] + 2048)


def turned_by(angle, x, y):
    """(x, y) turned by an angle, which its sine and its cosine give."""
    sine, cosine = angle
    return (
        less(kept(product(x, cosine)), kept(product(y, sine))),
        added(kept(product(x, sine)), kept(product(y, cosine))),
    )


def position(rec, middle, half):
    """The forms of a satellite's place from the millisecond middle - half to middle + half."""
    k = middle - rec.toa_ms
    rooted = dec(rec.sqrt_a, 56, 1000)
    semi_major_axis = rounded_product(rooted, rooted, 74)
    eccentricity = dec(rec.e)
    semi_minor_axis = mul(semi_major_axis, sqrt(sub(point(1 << 76), sqr_wide(eccentricity))))
    week_time = rec.toa_ms % WEEK
    turned = tuple(end * week_time for end in rate_of(EARTH_RATE))
    drift = sub(rate_of(rec.rate), rate_of(EARTH_RATE))
    mean = added(steady(turns_of(rec.m0)), kept(short(narrow(linear(motion_of(rooted), k, half)))))
    node = added(steady(turns_of(rec.omega0)), kept(short(narrow(less(linear(drift, k, half), steady(turned))))))
    anomaly = form_of_ecc_sin_cos(mean, scale(eccentricity, 10**13, TURN))
    perigee, inclination = ([steady(a) for a in sin_cos(turns_of(angle))] for angle in (rec.perigee, rec.incl))
    x, y = turned_by(
        perigee,
        kept(product(steady(semi_major_axis), less(anomaly[1], steady(eccentricity)))),
        kept(product(steady(semi_minor_axis), anomaly[0])),
    )
    across = kept(product(y, inclination[1]))
    return (*turned_by(form_of_sin_cos(node), x, across), kept(product(y, inclination[0])))


def along(start, stop, middle, half, over, name):
    """What runs straight from the one waypoint's interval to the other's."""
    a, b = (dec(getattr(w, name), over=over) for w in (start, stop))
    low, high = (x * (stop.at - middle) + y * (middle - start.at) for x, y in zip(a, b))
    growth = [y - x for x, y in zip(a, b)]
    centre = (low + high) // 2
    remainder = high - centre + abs(growth[1] - growth[0]) * half
    length = stop.at - start.at
    return kept(short((centre // length, growth[0] * half // length, remainder // length + 4)))


def place_over(start, stop, middle, half):
    """The forms of latitude, longitude and height from the millisecond middle - half to middle + half of a leg."""
    parts = (("lat", 360), ("lon", 360), ("height", 10**6))
    return tuple(along(start, stop, middle, half, over, name) for name, over in parts)


def frame(place):
    """The forms of a receiver's position and directions, twelve components."""
    lat, lon, height = place
    (sin_lat, cos_lat), (sin_lon, cos_lon) = form_of_sin_cos(lat), form_of_sin_cos(lon)
    square = kept(product(sin_lat, sin_lat))
    bulge = kept(root(less(steady(point(1 << 76)), wide_product(steady(ECCENTRICITY_SQUARED), square))))
    radius = kept(quotient(steady(AXIS), bulge))
    from_axis = kept(product(added(radius, height), cos_lat))
    polar = kept(product(radius, steady(sub(point(ONE), ECCENTRICITY_SQUARED))))
    return (
        kept(product(from_axis, cos_lon)), kept(product(from_axis, sin_lon)), kept(product(added(polar, height), sin_lat)),
        negative(sin_lon), cos_lon, (0, 0, 0),
        negative(kept(product(sin_lat, cos_lon))), negative(kept(product(sin_lat, sin_lon))), cos_lat,
        kept(product(cos_lat, cos_lon)), kept(product(cos_lat, sin_lon)), sin_lat,
    )
