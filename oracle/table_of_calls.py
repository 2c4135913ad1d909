#!/usr/bin/env python3
"""Prints the table of cases of crates/number_cases/src/interval_table.rt, from the written definitions, in exact arithmetic.

A line is a call, the ends of two intervals (or numbers in place of the second), and the ends of the answer, a truth, or
none. Intervals are drawn near the greatest that a call takes, of both signs, around 0 and of one point.
"""
import random

import intervals as iv
from intervals import ONE

NONE = (0, 0)
KINDS = ["point", "edge_hi", "edge_lo", "neg", "pos", "straddle", "full", "tiny"]
LEAST_128, MOST_128 = -(1 << 127), (1 << 127) - 1
ROWS = []


def pair(draw):
    """Two numbers drawn one after the other, the smaller first."""
    x, y = draw(), draw()
    return (min(x, y), max(x, y))


def drawn(bits, kind):
    """An interval of a kind, of a magnitude of at most 2^bits."""
    top = 1 << bits
    if kind == "point":
        return iv.point(random.randint(-top, top))
    if kind == "edge_hi":
        return (top - random.randint(0, 5), top) if bits else (0, 1)
    if kind == "edge_lo":
        return (-top, -top + random.randint(0, 5))
    if kind == "neg":
        return pair(lambda: -random.randint(1, top))
    if kind == "pos":
        return pair(lambda: random.randint(1, top))
    if kind == "straddle":
        return (-random.randint(0, top), random.randint(0, top))
    if kind == "full":
        return (-top, top)
    low = random.randint(-3, 3)
    return (low, low + random.randint(0, 3))


def one_of(*choices):
    return random.choice(choices)


def kind_of(i):
    return KINDS[i % 8]


def row(call, a, b, answer):
    """A case: an answer is an interval, a truth, or None."""
    if answer is None:
        words = "none"
    elif isinstance(answer, bool):
        words = str(answer).lower()
    else:
        words = f"{answer[0]} {answer[1]}"
    ROWS.append(f"{call} {a[0]} {a[1]} {b[0]} {b[1]} {words}")


def sums():
    for i in range(13):
        a = drawn(one_of(125, 125, 60, 38), kind_of(i))
        b = drawn(one_of(125, 40), kind_of(i * 3 + 1))
        row("Add", a, b, iv.add(a, b))
        a = drawn(one_of(125, 125, 60, 38), kind_of(i + 2))
        b = drawn(one_of(125, 40), kind_of(i * 5 + 1))
        row("Sub", a, b, iv.sub(a, b))


def products():
    for i in range(14):
        bits = one_of(63, 40, 88, 126, 1)
        a = drawn(bits, kind_of(i))
        b = drawn(126 - bits, kind_of(i * 3 + 5))
        if iv.magnitude(a) * iv.magnitude(b) > 1 << 126:
            a = NONE
        row("MulWide", a, b, iv.mul_wide(a, b))
        bits = one_of(63, 40, 88, 39, 50)
        a = drawn(bits, kind_of(i + 3))
        b = drawn(126 - bits, kind_of(i * 5 + 2))
        if iv.magnitude(a) * iv.magnitude(b) > 1 << 126:
            b = NONE
        row("Mul", a, b, iv.mul(a, b))


def squares():
    for i in range(12):
        a = drawn(one_of(63, 63, 40, 38, 20), kind_of(i))
        row("SqrWide", a, NONE, iv.sqr_wide(a))
        a = drawn(one_of(63, 63, 40, 38, 20), kind_of(i + 5))
        row("Sqr", a, NONE, iv.sqr(a))
        a = drawn(one_of(126, 125, 76, 38, 3), kind_of(i + 1))
        row("Narrow76", a, NONE, iv.narrow(a))
    for a in [(LEAST_128, MOST_128), (-ONE, ONE), (-ONE - 1, ONE + 1)]:
        row("Narrow76", a, NONE, iv.narrow(a))


def quotients():
    for i in range(20):
        a = drawn(one_of(88, 88, 38, 60, 3), kind_of(i))
        bits = one_of(1, 3, 20, 38, 60, 100, 126)
        x, y = random.randint(1, 1 << bits), random.randint(1, 1 << bits)
        b = iv.point(x) if i % 5 == 0 else (min(x, y), max(x, y))
        row("Div", a, b, iv.div(a, b))
    a, b = (-(1 << 88), 1 << 88), (1, MOST_128)
    row("Div", a, b, iv.div(a, b))
    for i in range(14):
        a = drawn(one_of(126, 125, 60, 5), kind_of(i))
        k = random.choice([1, 2, 3, 156, 110, 7, 10**13, ONE, MOST_128, random.randint(1, 1 << 60)])
        row("DivInt", a, (k, k), iv.div_int(a, k))
    for k in (1, 3):
        row("DivInt", (LEAST_128, MOST_128), (k, k), iv.div_int((LEAST_128, MOST_128), k))


def whole_products():
    for i in range(12):
        a = drawn(one_of(60, 60, 30, 2), kind_of(i))
        bits = one_of(63, 40, 33, 2)
        x, y = (random.randint(-(1 << bits), (1 << bits) - 1) for _ in range(2))
        b = iv.point(x) if i % 4 == 0 else (min(x, y), max(x, y))
        row("ScaleInt", a, b, iv.scale_int(a, *b))
    a, b = (-(1 << 60), 1 << 60), (-(1 << 63), (1 << 63) - 1)
    row("ScaleInt", a, b, iv.scale_int(a, *b))


def roots():
    for i in range(14):
        bits = one_of(126, 126, 76, 40, 3)
        x, y = random.randint(0, 1 << bits), random.randint(0, 1 << bits)
        a = (min(x, y), max(x, y))
        if i % 4 == 0:
            r = random.randint(0, 1 << (bits // 2))
            a = (r * r, r * r + random.randint(0, 2))
        if i % 7 == 3:
            a = iv.point(x)
        row("Sqrt", a, NONE, iv.sqrt(a))
    for a in [(0, 1 << 126), (0, 0), (3, 4)]:
        row("Sqrt", a, NONE, iv.sqrt(a))


def hulls():
    for i in range(9):
        a = drawn(one_of(126, 38), kind_of(i))
        b = drawn(one_of(126, 38), kind_of(i * 3 + 2))
        row("Hull", a, b, iv.hull(a, b))
        a = drawn(one_of(126, 38), kind_of(i))
        most = one_of(0, 1, ONE, ONE + 1, 1 << 100, MOST_128)
        if a[0] <= most and -most <= a[1]:
            row("Clamp", a, (most, most), iv.clamp(a, most))


def comparisons():
    for i in range(6):
        a = drawn(one_of(125, 2), kind_of(i))
        b = drawn(one_of(125, 2), kind_of(i * 3 + 2))
        row("CertainlyLe", a, b, a[1] <= b[0])
        row("CertainlyLt", b, a, b[1] < a[0])
    far, near = 1 << 126, 1 << 125
    for a, b in [((-5, 7), (7, 9)), ((-5, 6), (7, 9)), ((near, near), (near, far)), ((-far, -near), (-near, 0))]:
        row("CertainlyLe", a, b, a[1] <= b[0])
        row("CertainlyLt", a, b, a[1] < b[0])


def checked(a, b):
    """A product, where each of the four products of ends fits 128 bits."""
    fits = all(LEAST_128 <= x <= MOST_128 for x in iv.corners(a, b))
    row("CheckedMul", a, b, iv.mul_wide(a, b) if fits else None)


def checked_products():
    least, middle, upper = iv.point(LEAST_128), iv.point(1 << 63), 1 << 64
    checked(least, (1, 1))
    checked(least, (-1, 1))
    checked(middle, (-upper, 1))
    checked(middle, (1 << 63, upper))
    checked((0, 1 << 126), (-2, 1))
    checked((0, 1 << 126), (-1, 2))
    checked(middle, (1, upper - 1))
    checked((-upper, 1), (0, 1 << 63))
    for i in range(12):
        bits = one_of(63, 64, 100)
        a = drawn(bits, kind_of(i))
        b = drawn(one_of(126 - bits, 127 - bits, 27), kind_of(i * 3 + 1))
        checked(a, b)


def ratios():
    for _ in range(8):
        num = one_of(-1, 1) * random.randint(0, 1 << one_of(88, 88, 20))
        den = random.randint(1, 1 << one_of(126, 40, 3))
        row("FromRatio", (num, num), (den, den), iv.from_ratio(num, den))


random.seed(20240917)
for cases in (
    sums, products, squares, quotients, whole_products, roots, hulls, comparisons, checked_products, ratios,
):
    cases()
print("\n".join(ROWS))
