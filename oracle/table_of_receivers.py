#!/usr/bin/env python3
"""Prints the tables of the tests of leg_place, wgs_position and elev_mask, one after the other, or the one that is named:
places, frames or looks. All numbers that are ends are in units of 2^-38.

A line of places: the leg of the route, its first waypoint in degrees and metres, the second one with its time (the first
is at 2024-10-27T00:00:00.000Z), the first and the last millisecond counted from the first waypoint's time, and the ends of
latitude, longitude and height. A line of frames: the ends of a place, and of the components of the position, east, north
and up. A line of looks: the ends of a place, of a satellite's components and of a mask's sine, and what is decided: H
(hidden), S (straddling), or V with the ends of the direction's parts.
"""
import sys

from intervals import ONE
from receivers import WIDEST, Waypoint, frame, is_near_earth, look, mask_sine, place_over

DAY = 86_400_000
MEGAMETRE = ONE
FULL = (-ONE, ONE)

# the leg, the time that ends it, how many milliseconds it has, its waypoints, and pieces of it
LEGS = [
    (0, "2024-10-27T00:00:01.000Z", 1000, ("0", "179.9", "0"), ("0", "180.1", "0"), [(500, 500)]),
    (0, "2024-10-27T00:00:01.000Z", 1000, ("0", "179.9", "0"), ("0", "-179.9", "0"), [(500, 500), (0, 999)]),
    (0, "2024-10-27T00:00:00.001Z", 1, ("90", "-360", "30000"), ("-90", "360", "-1000"), [(0, 0)]),
    (0, "2024-10-27T00:00:00.002Z", 2, ("90", "-360", "30000"), ("-90", "360", "-1000"), [(0, 0), (1, 1), (0, 1)]),
    (0, "2024-10-28T00:00:00.000Z", DAY, ("-90", "360", "-1000"), ("90", "-360", "30000"),
     [(0, 0), (1, 1), (DAY - 1, DAY - 1), (0, DAY - 1), (DAY // 2, DAY // 2)]),
    (0, "2024-10-28T00:00:00.000Z", DAY, ("35.5533", "139.7811", "10668"), ("40.64", "-73.78", "4"),
     [(0, 0), (12345678, 12345678), (12345678, 12445678), (DAY - 1, DAY - 1)]),
    (1, "2024-10-27T00:00:07.001Z", 7001, ("-33.9461", "151.1772", "6.4"), ("-33.9", "151.3", "-0.001"),
     [(0, 0), (1, 6999), (7000, 7000)]),
    (1, "2024-10-27T00:00:00.001Z", 1, ("51.47", "-0.4500000000001", "25"), ("51.5", "0", "10000"), [(0, 0)]),
]


def places():
    for leg, end, long, start, stop, pieces in LEGS:
        for first, last in pieces:
            place = place_over(Waypoint(0, *start), Waypoint(long, *stop), first, last)
            assert is_near_earth(place)
            yield leg, *start, end, *stop, first, last, *ends(place)


def ends(intervals):
    return [end for a in intervals for end in a]


def still(lat, lon, height):
    """A place that a flight does not leave."""
    return place_over(Waypoint(0, lat, lon, height), Waypoint(1, lat, lon, height), 0, 0)


FRAMES = [
    *(still(lat, lon, height) for lat in ("90", "-90") for lon in ("0", "360", "-360")
      for height in ("-1000", "30000")),
    *(still("0", lon, "0") for lon in ("0", "90", "180", "-90", "-180", "359.999999", "360", "-360")),
    *(still(lat, "45", "10000") for lat in ("45", "-45", "22.5", "-67.5", "89.9999", "0.0000001")),
    still("35.5533", "139.7811", "10668"),
    still("51.47", "-0.45", "25"),
    still("-33.9461", "151.1772", "6.4"),
    still("40.64", "-73.78", "30000"),
    still("-54.8", "-68.3", "-1000"),
    still("64.13", "-21.9", "-0.5"),
    place_over(Waypoint(0, "35.5533", "139.7811", "10668"), Waypoint(DAY, "40.64", "-73.78", "4"), 40000000, 40010000),
    place_over(Waypoint(0, "89.9", "-360", "-1000"), Waypoint(DAY, "90", "360", "30000"), 0, 600_000),
    place_over(Waypoint(0, "-90", "-360", "-1000"), Waypoint(DAY, "90", "360", "30000"), 0, DAY - 1),
    (WIDEST[0], WIDEST[1], (0, 0)),
    ((0, 0), WIDEST[1], WIDEST[2]),
    ((WIDEST[0][0], WIDEST[0][0]), (WIDEST[1][1], WIDEST[1][1]), (WIDEST[2][1], WIDEST[2][1])),
    ((WIDEST[0][1], WIDEST[0][1]), (WIDEST[1][0], WIDEST[1][0]), (WIDEST[2][0], WIDEST[2][0])),
    WIDEST,
]


def frames():
    for place in FRAMES:
        assert is_near_earth(place)
        site = frame(place)
        yield *ends(place), *(end for v in (site.position, site.east, site.north, site.up) for end in ends(v))


def middle(a):
    return (a[0] + a[1]) // 2


def satellite(place, east, north, up, width=0):
    """So many units to the east, to the north and up of a place, in intervals of so many units more."""
    site = frame(place)
    parts = zip(site.position, site.east, site.north, site.up)
    corner = [
        middle(p) + (east * middle(e) + north * middle(n) + up * middle(u)) // ONE for p, e, n, u in parts]
    return tuple((x, x + width) for x in corner)


ORIGIN = still("0", "0", "0")
NORTH_POLE = still("90", "360", "30000")
SOUTH_POLE = still("-90", "-360", "-1000")
PACIFIC = still("-17.53", "180.1", "10668")
FLIGHT = place_over(Waypoint(0, "51.47", "-0.45", "25"), Waypoint(DAY, "-40.64", "73.78", "9000"), 30000000, 30060000)
MASKS = {"0": mask_sine("0"), "5": mask_sine("5"), "90": mask_sine("90"), "-90": mask_sine("-90")}
ORBIT = 20 * MEGAMETRE
# a range of ORBIT just at a mask of 5 degrees
FIVE_UP = ORBIT * middle(MASKS["5"]) // ONE
FIVE_ALONG = ORBIT * middle(mask_sine("85")) // ONE
# a tenth of a kilometre
STEP = MEGAMETRE // 10_000


def on_the_first_axis(k):
    return ((k, k), (0, 0), (0, 0))


def looks_at():
    """Places, satellites and sines of masks."""
    yield ORIGIN, on_the_first_axis(26 * ONE), (-1, 1)
    yield ORIGIN, on_the_first_axis(-26 * ONE), (-1, 1)
    yield ORIGIN, on_the_first_axis(26 * ONE), (ONE - 1, ONE)
    for place in (ORIGIN, NORTH_POLE, SOUTH_POLE, PACIFIC):
        for mask in ("0", "5", "90", "-90"):
            yield place, satellite(place, 0, 0, ORBIT), MASKS[mask]
        for mask in ("0", "5", "-90"):
            yield place, satellite(place, ORBIT, 0, 0), MASKS[mask]
    for mask in ("5", "-90"):
        yield PACIFIC, satellite(PACIFIC, 0, 0, -ORBIT), MASKS[mask]
    # at the mask, and so little above and below it
    for up in (FIVE_UP - STEP, FIVE_UP, FIVE_UP + STEP):
        yield PACIFIC, satellite(PACIFIC, 0, FIVE_ALONG, up), MASKS["5"]
    # a megametre away, and some units less and more
    for up in (MEGAMETRE - 100_000, MEGAMETRE - 100, MEGAMETRE, MEGAMETRE + 100, MEGAMETRE + 100_000):
        yield ORIGIN, satellite(ORIGIN, 0, 0, up), MASKS["-90"]
    for width in (1 << 10, 1 << 20, 1 << 34):
        yield PACIFIC, satellite(PACIFIC, -ORBIT // 2, ORBIT // 3, ORBIT // 4, width), MASKS["5"]
    yield FLIGHT, satellite(FLIGHT, ORBIT // 2, -ORBIT // 3, ORBIT // 4, 1 << 20), MASKS["5"]
    yield FLIGHT, satellite(FLIGHT, ORBIT // 2, -ORBIT // 3, ORBIT // 20, 1 << 20), MASKS["5"]
    yield FLIGHT, satellite(FLIGHT, ORBIT // 2, -ORBIT // 3, -ORBIT // 4, 1 << 20), MASKS["5"]
    yield FLIGHT, satellite(FLIGHT, ORBIT // 2, ORBIT // 2, ORBIT, 1 << 20), (-ONE, ONE)
    yield WIDEST, ((-(1 << 46), 1 << 46),) * 3, FULL


def looks():
    for place, sat, mask in looks_at():
        assert is_near_earth(place)
        kind, *row = look(frame(place), sat, mask)
        yield *ends((*place, *sat, mask)), kind, *ends(row)


TABLES = {"places": places, "frames": frames, "looks": looks}

if __name__ == "__main__":
    for name in sys.argv[1:] or TABLES:
        for line in TABLES[name]():
            print(*line)
