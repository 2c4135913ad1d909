#!/usr/bin/env python3
"""Prints the table of cases of crates/orbit_cases/src/sine_table.rt: the ends of an interval of turns, of its sine and of
its cosine, in units of 2^-38.
"""
import random

from intervals import ONE
from sines import EIGHTH, QUARTER, sin_cos

# the greatest number of units of turns
FAR = 1 << 60


def intervals():
    """Where quarters meet, of all widths, and far away."""
    # at and beside the nearest quarter's edges, in all four quarters and on both sides of 0
    for k in (-4, -3, -2, -1, 0, 1, 2, 3, 5):
        edge = k * QUARTER + EIGHTH
        yield edge, edge
        yield edge - 1, edge - 1
        yield edge - 1, edge
    # a quarter turn itself, where the sine or the cosine is clamped
    for k in (-3, -2, -1, 0, 1, 2, 3, 4):
        yield k * QUARTER, k * QUARTER
        yield k * QUARTER - 2, k * QUARTER + 3
    # widths from a unit to a turn
    for bits in (0, 5, 20, 33, 35, 36, 37):
        low = random.randint(-ONE, ONE)
        yield low, low + (1 << bits)
    for low in (0, -EIGHTH, 12345678901, -ONE):
        yield low, low + ONE - 1
        yield low, low + ONE
        yield low, low + ONE + 1
    yield -ONE // 2, ONE // 2 - 1
    # far away
    yield -FAR, -FAR
    yield FAR, FAR
    yield FAR - 7 * ONE // 3, FAR - 2 * ONE
    yield -FAR, -FAR + ONE // 3
    yield -FAR, FAR
    for _ in range(6):
        low = random.randint(-FAR, FAR - ONE)
        yield low, low + random.randint(0, 1 << random.choice([0, 3, 30, 38]))


random.seed(38)
for u in intervals():
    s, c = sin_cos(u)
    print(*u, *s, *c)
