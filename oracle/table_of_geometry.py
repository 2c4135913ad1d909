#!/usr/bin/env python3
"""Prints the table of `crates/slope_cases/src/geometry_table.rt`: lists of rows with their normal matrices, determinants, adjugates
and what rows have of them, worked out by `geometry.py`.

Usage: python3 oracle/table_of_geometry.py
"""
import random

from geometry import adjugate, alpha, determinant, gram, weighed
from intervals import ONE

PLACES = [(0, 0), (0, 1), (0, 2), (0, 3), (1, 1), (1, 2), (1, 3), (2, 2), (2, 3), (3, 3)]
FULL_WEIGHT = (ONE, ONE)


def words(*intervals):
    return " ".join(f"{low} {high}" for low, high in intervals)


def entries(h):
    return [h[j][k] for j, k in PLACES]


def show(rows):
    print("start")
    for row in rows:
        print("row", words(*row[1:]))
    h = gram(rows)
    adj = adjugate(h)
    print("gram", words(*entries(h)))
    print("det", words(determinant(h)))
    print("adjugate", words(*entries(adj)))
    for at, row in enumerate(rows[:2]):
        less = gram(rows[:at] + rows[at + 1:])
        print("alpha", at, words(*[alpha(adj, row, axis) for axis in range(3)]))
        print("without", at, words(*entries(less)), words(determinant(less)))


def thin(rng, width):
    low = rng.randint(-ONE - 1, ONE + 1 - width)
    return low, low + rng.randint(0, width)


def main():
    rng = random.Random(7)
    axes = [(1, 0, 0), (-1, 0, 0), (0, 1, 0), (0, -1, 0), (0, 0, 1)]
    directions = [[(ONE * x, ONE * x) for x in axis] for axis in axes]
    show([weighed(1, direction, FULL_WEIGHT) for direction in directions])
    show([weighed(1, direction, (ONE // 2, ONE // 2)) for direction in directions])
    show([])
    anything = (-ONE - 1, ONE + 1)
    greatest = (ONE + 1, ONE + 1)
    show([(1, anything, anything, anything, (0, ONE))] * 3)
    show([(1, greatest, greatest, greatest, FULL_WEIGHT)] * 4)
    for width in (0, 1, 5, 1000, ONE // 64, ONE // 2):
        show([(1, *(thin(rng, width) for _ in range(3)), FULL_WEIGHT) for _ in range(rng.randint(4, 7))])
    weights = [tuple(sorted((rng.randint(0, ONE), rng.randint(0, ONE)))) for _ in range(5)]
    show([weighed(1, [thin(rng, 9) for _ in range(3)], weight) for weight in weights])
    # the most rows, as large as can be
    show([(1, anything, anything, anything, FULL_WEIGHT)] * 32)
    show([(1, greatest, greatest, greatest, FULL_WEIGHT)] * 32)


main()
