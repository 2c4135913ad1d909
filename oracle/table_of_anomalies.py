#!/usr/bin/env python3
"""Prints the table of cases of crates/orbit_cases/src/anomaly_table.rt: the ends of an interval of mean anomalies in turns, of
one of eccentricities in turns, and of the sine and the cosine of their eccentric anomalies, in units of 2^-38.
"""
import random

from intervals import ONE
from sines import EIGHTH, QUARTER, ecc_sin_cos

# the greatest eccentricity in turns, and the greatest mean anomaly
MOST = 1 << 31
FAR = 1 << 60


def cases():
    """Mean anomalies and eccentricities: where turns and quarters meet, wide ones and far ones."""
    eccentricities = [(0, 0), (0, 4), (MOST, MOST), (MOST - 4, MOST), (437482318, 437482322), (0, MOST)]
    # where turns meet, and where quarters do
    for eps in eccentricities:
        for low, high in [(ONE // 2, ONE // 2), (ONE // 2 - 1, ONE // 2), (-ONE // 2, -ONE // 2 + 3), (QUARTER, QUARTER), (EIGHTH - 1, EIGHTH)]:
            yield (low, high), eps
    # the ends of the quarters of the eccentric anomaly itself, some eccentricity before the mean one
    for k in (-3, -1, 0, 2, 3):
        yield (k * QUARTER + EIGHTH - MOST * 7 // 10, k * QUARTER + EIGHTH + MOST * 7 // 10), (MOST - 4, MOST)
    # wide ones
    for eps in [(0, 0), (MOST - 4, MOST), (0, MOST)]:
        yield (0, ONE), eps
        yield (-3, ONE - 4), eps
        yield (ONE // 3, ONE), eps
        yield (0, 12345678901), eps
    # far ones
    yield (FAR, FAR), (MOST, MOST)
    yield (-FAR, -FAR), (MOST, MOST)
    yield (-FAR, FAR), (0, 1)
    for _ in range(6):
        low = random.randint(-FAR, FAR - ONE)
        e = random.randint(0, MOST - 4)
        yield (low, low + random.randint(0, 1 << random.choice([0, 3, 30, 37]))), (e, e + random.randint(0, 4))


random.seed(40)
for m, eps in cases():
    s, c = ecc_sin_cos(m, eps)
    print(*m, *eps, *s, *c)
