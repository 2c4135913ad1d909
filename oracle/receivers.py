"""A receiver on a leg of its route, its frame on the WGS 84 ellipsoid, and how it sees a satellite, over intervals, as
docs/DEFINITIONS.md writes them.

What the places, frames and looks that `leg_place`, `wgs_position`, `elev_mask` and `call_bench` are held against are
worked out by. Nothing here is taken from the program. Angles are in turns, lengths in Mm, times in milliseconds, all in
units of 2^-38 where no other is named.
"""
from dataclasses import dataclass

from intervals import (
    ONE, add, clamp, div, from_ratio, hull, mul, mul_wide, narrow, negative, outward, point, sqr, sqr_wide, sqrt, sub)
from orbits import dec
from sines import sin_cos

# WGS 84: the semi-major axis is 6378137 m, and the flattening f is 1 / 298.257223563
AXIS = from_ratio(6378137, 10**6)
FLATTENING_PARTS = 298257223563
# f (2 - f)
ECCENTRICITY_SQUARED = from_ratio((2 * FLATTENING_PARTS - 10**9) * 10**9, FLATTENING_PARTS**2)
# what `frame` may be asked: a quarter turn, a turn, and from -1000 m to 30000 m, and what rounding outward adds
WIDEST = ((-ONE // 4 - 1, ONE // 4 + 1), (-ONE - 1, ONE + 1), (-274877908, 8246337210))


@dataclass(frozen=True)
class Waypoint:
    """A waypoint of a route: its time, and latitude, longitude (degrees) and height (metres) as decimal texts."""
    at: int
    lat: str
    lon: str
    height: str


@dataclass(frozen=True)
class Frame:
    """A receiver's position and its directions to the east, to the north and up, each three intervals."""
    position: tuple
    east: tuple
    north: tuple
    up: tuple


def value_at(start, stop, t):
    """What runs straight from the one waypoint's interval to the other's, at the millisecond t."""
    (before, a), (after, b) = start, stop
    low, high = (x * (after - t) + y * (t - before) for x, y in zip(a, b))
    return outward(low, high, after - before)


def place_over(start, stop, first, last):
    """Latitude, longitude and height from the millisecond first to last of the leg between two waypoints."""
    def part(name, over):
        ends = [(w.at, dec(getattr(w, name), over=over)) for w in (start, stop)]
        return hull(*(value_at(*ends, t) for t in (first, last)))

    return (part("lat", 360), part("lon", 360), part("height", 10**6))


def is_near_earth(place):
    """Whether `frame` may be asked for the place."""
    return all(low <= a[0] <= a[1] <= high for a, (low, high) in zip(place, WIDEST))


def frame(place):
    """The frame of the receiver at a place: latitude, longitude and height."""
    lat, lon, height = place
    (sin_lat, cos_lat), (sin_lon, cos_lon) = sin_cos(lat), sin_cos(lon)
    root = sqrt(sub(point(1 << 76), mul_wide(ECCENTRICITY_SQUARED, sqr(sin_lat))))
    radius = div(AXIS, root)
    from_axis = mul(add(radius, height), cos_lat)
    polar = mul(radius, sub(point(ONE), ECCENTRICITY_SQUARED))
    return Frame(
        position=(mul(from_axis, cos_lon), mul(from_axis, sin_lon), mul(add(polar, height), sin_lat)),
        east=(negative(sin_lon), cos_lon, point(0)),
        north=(negative(mul(sin_lat, cos_lon)), negative(mul(sin_lat, sin_lon)), cos_lat),
        up=(mul(cos_lat, cos_lon), mul(cos_lat, sin_lon), sin_lat),
    )


def dot(direction, line):
    """The part of a line over a direction."""
    x, y, z = (mul_wide(a, b) for a, b in zip(direction, line))
    return narrow(add(add(x, y), z))


def length(line):
    """The length of a line."""
    x, y, z = (sqr_wide(a) for a in line)
    return sqrt(add(add(x, y), z))


def share(part, distance):
    """A part of a direction: at most 1 and a unit either way."""
    return clamp(div(part, distance), ONE + 1)


def look(site, satellite, mask):
    """How a satellite is seen for the sine of a mask: "H", "S", or "V" and the parts to the east, to the north, up."""
    line = tuple(sub(a, b) for a, b in zip(satellite, site.position))
    distance = length(line)
    above = dot(site.up, line)
    least = mul(mask, distance)
    if distance[1] < ONE or above[1] < least[0]:
        return ("H",)
    if distance[0] >= ONE and above[0] >= least[1]:
        return ("V", *(share(part, distance) for part in (dot(site.east, line), dot(site.north, line), above)))
    return ("S",)


def mask_sine(degrees):
    """The sine of a mask of so many degrees, a decimal text."""
    return sin_cos(dec(degrees, over=360))[0]
