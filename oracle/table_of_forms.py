#!/usr/bin/env python3
"""Prints the table of cases of crates/number_cases/src/form_table.rt: time forms, worked out in whole numbers of any size.

A form is (centre, turning, remainder): at d of a piece of half length h it stands for the numbers from
centre + turning d / h - remainder to centre + turning d / h + remainder. A line is a call, two forms (or numbers in place of
the second), and the answer or none. Beside that each answer is tried: of random numbers that lie in the operands at a
random time, the exact result lies in the answer.
"""
import random
from fractions import Fraction
from math import isqrt

from forms import NONE, ONE, narrow, quotient, root, short, wide_product


def drawn(f, time):
    """A whole number that lies in the form at a time from -1 to 1, or none where there is none."""
    middle = f[0] + f[1] * time
    low, high = -((f[2] - middle) // 1), (middle + f[2]) // 1
    return random.randint(low, high) if low <= high else None


def holds(answer, time, value):
    return abs(Fraction(value) - answer[0] - answer[1] * time) <= answer[2]


def tried(name, f, g, answer, of):
    """The answer, tried at 200 times: of numbers that lie in the operands, the exact result lies in it."""
    for _ in range(200):
        time = Fraction(random.randint(-1000, 1000), 1000)
        x, y = drawn(f, time), drawn(g, time)
        if answer is not None and x is not None and y is not None:
            assert holds(answer, time, of(x, y)), (name, f, g, time, x, y)
    return answer


def row(name, f, g, answer):
    words = "none" if answer is None else " ".join(map(str, answer))
    print(name, *f, *g, words)


def sums(f, g):
    row("Add", f, g, tried("Add", f, g, tuple(x + y for x, y in zip(f, g)), lambda x, y: x + y))
    row("Sub", f, g, tried("Sub", f, g, (f[0] - g[0], f[1] - g[1], f[2] + g[2]), lambda x, y: x - y))


def products(f, g):
    row("WideProduct", f, g, tried("WideProduct", f, g, wide_product(f, g), lambda x, y: x * y))
    row("Mul", f, g, tried("Mul", f, g, short(narrow(wide_product(f, g))), lambda x, y: Fraction(x * y, ONE)))


def multiple(f, k):
    row("Multiple", f, (k, 0, 0), tried("Multiple", f, NONE, (f[0] * k, f[1] * k, f[2] * abs(k)), lambda x, _: x * k))


def square_root(f):
    row("Sqrt", f, NONE, tried("Sqrt", f, NONE, root(f), lambda x, _: isqrt(x)))


def over(f, g):
    row("Div", f, g, tried("Div", f, g, quotient(f, g), lambda x, y: Fraction(x * ONE, y)))


def main():
    random.seed(20261202)
    place, speed = (1823451098765, -40123456789, 2103), (-274877906944, 30098765, 17)
    sums(place, speed)
    products(place, speed)
    products((3, -5, 0), (-2, 7, 1))
    products((1 << 57, 1, 0), (1 << 57, 0, 1))
    multiple(speed, -86399999)
    square_root((6 << 78, -(1 << 70), 1 << 50))
    square_root((1 << 76, 1 << 76, 0))
    over((-1 << 36, 1 << 34, 90), (25 << 38, 1 << 33, 40))
    over((1 << 40, 0, 1), (5, 5, 0))


if __name__ == "__main__":
    main()
