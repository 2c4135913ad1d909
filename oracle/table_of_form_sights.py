#!/usr/bin/env python3
"""Prints the table of crates/orbit_cases/src/form_sights.rt: how a receiver sees a satellite over a piece of time, in forms, worked
out in whole numbers of any size as docs/DEFINITIONS.md writes it. A line is the forms of latitude, longitude and height, those of
the satellite's place, the ends of the sine of the mask and of the weight, and the answer: Visible with the forms of the row, Hidden
or Unsure.
"""
from form_places import Lost, frame, kept
from forms import ONE, added, least, less, narrow, product, quotient, root, short, steady, wide_product

DEGREE, KILOMETRE = ONE // 360, ONE // 1000
# what a root is taken of has numbers below it
ROOT_ROOM = 1 << 122


def greatest(f):
    return f[0] + abs(f[1]) + f[2]


def sum_of_products(v, d):
    x, y, z = (wide_product(a, b) for a, b in zip(v, d))
    return added(added(x, y), z)


def over(direction, line):
    """What is over a direction of a line."""
    return kept(short(narrow(sum_of_products(direction, line))))


def length_of(line):
    squares = sum_of_products(line, line)
    if any(abs(x) >= ROOT_ROOM for x in squares):
        raise Lost
    return kept(root(squares))


def look(place, satellite, mask, weight):
    """Hidden where the range is surely below 1 Mm, or what the line has upward below the mask's part of the range."""
    numbers = frame(place)
    position, east, north, up = (numbers[k : k + 3] for k in (0, 3, 6, 9))
    line = [less(s, p) for s, p in zip(satellite, position)]
    length = length_of(line)
    upward = over(up, line)
    beyond = less(upward, kept(product(steady(mask), length)))
    if greatest(length) < ONE or greatest(beyond) < 0:
        return ["Hidden"]
    if least(length) < ONE or least(beyond) < 0:
        return ["Unsure"]
    direction = [kept(quotient(part, length)) for part in (over(east, line), over(north, line), upward)]
    row = [kept(product(steady(weight), part)) for part in direction] + [steady(weight)]
    return ["Visible"] + [x for form in row for x in form]


def answer(*arguments):
    try:
        return look(*arguments)
    except Lost:
        return ["Unsure"]


EQUATOR = ((0, 0, 0), (0, 0, 0), (0, 0, 0))
FLIGHT = ((48 * DEGREE, 12345, 3), (-73 * DEGREE, -23456, 3), (10 * KILOMETRE, 100, 4))
POLE = ((ONE // 4, 0, 1), (ONE, 0, 1), (-KILOMETRE, 0, 1))
TURNING = ((-30 * DEGREE, DEGREE // 60, 7), (200 * DEGREE, -DEGREE // 60, 7), (3 * KILOMETRE, KILOMETRE, 9))
# the sines of five degrees and of minus five, and that of the horizon
FIVE, BELOW, LEVEL = (23957188262, 23957188264), (-23957188264, -23957188262), (0, 0)
ALL = (ONE, ONE)


def at(x, y, z, turning=(0, 0, 0), remainder=300):
    """Forms of a place in kilometres."""
    return tuple((k * KILOMETRE, v, remainder) for k, v in zip((x, y, z), turning))


RADIUS = 1753208948762

CASES = [
    # overhead, a little below the horizon with either mask, and behind the Earth
    (EQUATOR, at(26560, 0, 0), FIVE, ALL),
    (EQUATOR, at(6000, 25000, 0), FIVE, ALL),
    (EQUATOR, at(6000, 25000, 0), BELOW, ALL),
    (EQUATOR, at(-26560, 0, 0), FIVE, ALL),
    (EQUATOR, at(-26560, 0, 0), (-ONE, -ONE), ALL),
    # on the line of the horizon, where nothing is told
    (EQUATOR, ((RADIUS, 0, 300), (25000 * KILOMETRE, 0, 300), (0, 0, 300)), LEVEL, ALL),
    # nearer than 1 Mm, at 1 Mm, and at the receiver
    (EQUATOR, at(6900, 0, 0), FIVE, ALL),
    (EQUATOR, ((RADIUS + ONE, 0, 0), (0, 0, 0), (0, 0, 0)), FIVE, ALL),
    (EQUATOR, ((RADIUS, 0, 0), (0, 0, 0), (0, 0, 0)), FIVE, ALL),
    # a flight, a satellite that moves, weights between 0 and 1 and of no width
    (FLIGHT, at(2000, -21000, 16000, (20000000, -7000000, 9000000)), FIVE, (183251937962, 183251937964)),
    (FLIGHT, at(-9000, -15000, 20000, (-4000000, 900000, 123456)), FIVE, (0, 0)),
    (FLIGHT, at(9000, 15000, -20000, (3000000000, 700000000, -900000000)), FIVE, ALL),
    # a mask that is not known well, and one that a satellite goes below
    (FLIGHT, at(2000, -21000, 16000, (20000000, -7000000, 9000000)), (0, ONE), ALL),
    (EQUATOR, at(8565, 25000, 0, (-500 * KILOMETRE, 0, 0)), FIVE, ALL),
    # over minutes, at the pole, and in the south over turns of both
    (FLIGHT, at(14000, 8000, 21000, (3000000000, 700000000, -900000000)), FIVE, ALL),
    (POLE, at(12000, 1000, 24000, (1 << 30, -(1 << 29), 12345)), FIVE, (7, 12)),
    (TURNING, at(-24000, -9000, -7000, (1 << 34, 1 << 33, -(1 << 34)), 100000), FIVE, ALL),
    # far away, and where a number is lost
    (EQUATOR, ((1 << 58, 0, 0), (0, 0, 0), (0, 0, 0)), FIVE, ALL),
    (EQUATOR, ((1 << 58, 1 << 58, 1 << 58),) * 3, FIVE, ALL),
    (EQUATOR, ((7300000000000, 1 << 56, 0), (0, 0, 0), (0, 0, 0)), FIVE, ALL),
]


def numbers(parts):
    return [x for part in parts for x in part]


if __name__ == "__main__":
    for place, satellite, mask, weight in CASES:
        print(*numbers(place), *numbers(satellite), *mask, *weight, *answer(place, satellite, mask, weight))
