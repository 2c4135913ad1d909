#!/usr/bin/env python3
"""Prints the table of `crates/slope_cases/src/slope_table.rt`: lists of rows that a formula makes from a seed, and what the tests of
slopes make of them, worked out by `geometry.py`. A line has the seed, the number of rows, the greatest width, a word for the weights, the
factor and the factor for one row fewer, and then the answers of detect and exclude, horizontally and vertically.

Usage: python3 oracle/table_of_slopes.py
"""
from geometry import ONE, detect, exclude, weighed

WRAP = 1 << 64

# how far the heights are from one half, by the word for the weights
HEIGHTS = {"level": 0, "near": ONE // 128}


def scattered(seed, row, part):
    """A number of 64 bits, as the test makes it."""
    z = (seed * 6364136223846793005 + row * 1442695040888963407 + part * 3202034522624059733 + 1) % WRAP
    z = (z ^ (z >> 29)) * 13787848793156543929 % WRAP
    return z ^ (z >> 32)


def interval(seed, row, part, width, low, high):
    """An interval from low to high, at most `width` units wide."""
    lo = low + scattered(seed, row, part) % (high - low + 1)
    return lo, min(lo + scattered(seed, row, part + 4) % (width + 1), high)


def row_of(seed, row, width, weights):
    if weights in HEIGHTS:
        # all in one plane, or near it: about the same height
        away = HEIGHTS[weights]
        heights = interval(seed, row, 2, width, ONE // 2 - away, ONE // 2 + away)
        direction = [interval(seed, row, 0, width, -ONE, ONE), interval(seed, row, 1, width, -ONE, ONE), heights]
    else:
        direction = [interval(seed, row, part, width, -ONE, ONE) for part in range(3)]
    weight = interval(seed, row, 3, width, 1, ONE) if weights == "weighed" else (ONE, ONE)
    return weighed(row + 1, direction, weight)


def text(verdict):
    word, rest = verdict[0], verdict[1:]
    if not rest:
        return word
    if word == "Overflow":
        return f"Overflow({rest[0]})"
    if len(rest) == 1:
        return f"{word}({rest[0]})"
    return f"{word}({rest[0]}({', '.join(map(str, rest[1:]))}))"


def line(seed, count, width, weights, kappa, kappa_less):
    rows = [row_of(seed, row, width, weights) for row in range(count)]
    answers = [detect(rows, kappa), exclude(rows, kappa, kappa_less), detect(rows, kappa, True), exclude(rows, kappa, kappa_less, True)]
    return f"{seed} {count} {width} {weights} {kappa[0]} {kappa[1]} {kappa_less[0]} {kappa_less[1]} : " + "; ".join(map(text, answers))


def cases():
    point = lambda k: (k, k)
    small, one = ONE // 1000, ONE
    for count in (4, 5, 6, 7, 12, 31, 32):
        for width in (0, 3, 100000):
            yield 1000 + count, count, width, "plain", point(small), point(small)
    for seed in range(1, 9):
        yield seed, 6 + seed % 4, 2, "plain", point(ONE * seed // 6), point(ONE * seed // 9)
    for seed in range(11, 19):
        yield seed, 8, 1 << (seed + 10), "plain", (small, 3 * one), (0, one)
    for seed in range(21, 27):
        yield seed, 7 + seed % 5, 5, "weighed", point(one // seed), point(one // 40)
    for seed in range(31, 33):
        yield seed, 9, seed % 2 * 1000, "level", point(one), point(one)
    # a determinant near the least one, for the list or without a row
    for seed, width in ((100, 12), (100, 27), (101, 12), (104, 20), (107, 20), (113, 12), (144, 20), (162, 20)):
        yield seed, 7, 1 << width, "near", point(10), point(10)
    # a factor of which one satellite's product alone leaves 128 bits: 8, 3, 6, 7, 4 and 1
    for seed, kappa in (
        (61, 594225010104096795420431),
        (62, 126718525658857821030384),
        (65, 171918870550938207054291),
        (66, 441798977257127081506406),
        (67, 2357912973224039436739771),
        (68, 1098592266156454394634985),
    ):
        yield seed, 8, 3, "plain", point(kappa), point(small)
    for seed in (44, 48):
        yield seed, 6 + seed % 3, 3, "plain", point(1 << (75 + 2 * (seed % 8))), point(small)
    # no factor at all, and one of which the products of the lists without a row leave 128 bits
    for seed in range(51, 59):
        yield seed, 7, 3, "plain", (0, one >> (seed % 5)), (0, 1 << (76 + 2 * (seed % 6)))


if __name__ == "__main__":
    for case in cases():
        print(line(*case))
