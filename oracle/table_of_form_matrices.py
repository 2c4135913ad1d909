#!/usr/bin/env python3
"""Prints crates/number_cases/src/matrices/tables.rt: rows of time forms, and what the calls of `matrix_forms` answer of them, worked out in
whole numbers of any size from docs/DEFINITIONS.md by itself.

A case is the rows, each of four parts of three numbers, the place of the row that is left out, and the answers in this order: the
determinant of the normal matrix; that without the row; the rows of the adjugate to the east, to the north, and up; what the
row has of the three, and the sum of the squares of the first two and the square of the third. Beside that each case is tried: for numbers
drawn from the parts at random times the exact determinant and adjugate lie in the answers, widened by what rounding takes from numbers.

Usage: python3 oracle/table_of_form_matrices.py > crates/number_cases/src/matrices/tables.rt
"""
import random
from fractions import Fraction

from forms import ONE, narrow, short, wide_product

NONE = None


def add(*forms):
    return tuple(map(sum, zip(*forms)))


def sub(f, g):
    return (f[0] - g[0], f[1] - g[1], f[2] + g[2])


def neg(f):
    return (-f[0], -f[1], f[2])


def total(products):
    """The sum of wide products, in units of 2^-38, where it fits."""
    return short(narrow(add(*products)))


def normal_matrix(rows):
    entries = {}
    for j in range(4):
        for k in range(j, 4):
            entry = total([wide_product(row[j], row[k]) for row in rows])
            if entry is None:
                return None
            entries[j, k] = entries[k, j] = entry
    return entries


def minor(h, p, q, j, k):
    return short(narrow(sub(wide_product(h[p, j], h[q, k]), wide_product(h[p, k], h[q, j]))))


def determinant(h):
    """By the minors of the first two rows and those of the last two, with the sign of the columns' order."""
    pairs = [(0, 1), (0, 2), (0, 3), (1, 2), (1, 3), (2, 3)]
    above = {c: minor(h, 0, 1, *c) for c in pairs}
    below = {c: minor(h, 2, 3, *c) for c in pairs}
    if None in above.values() or None in below.values():
        return None
    products = []
    for j, k in pairs:
        other = tuple(c for c in range(4) if c not in (j, k))
        product = wide_product(above[j, k], below[other])
        products.append(product if (j + k) % 2 else neg(product))
    return total(products)


def cofactor(h, p, q):
    """The minor without row p and column q, along its first row, with its sign."""
    rows = [r for r in range(4) if r != p]
    columns = [c for c in range(4) if c != q]
    products = []
    for place, c in enumerate(columns):
        left = [d for d in columns if d != c]
        small = minor(h, rows[1], rows[2], *left)
        if small is None:
            return None
        product = wide_product(h[rows[0], c], small)
        products.append(neg(product) if place == 1 else product)
    found = total(products)
    return found if found is None or (p + q) % 2 == 0 else neg(found)


def lines(h):
    """The rows of the adjugate that the calls answer, as its upper half has them; none of those of one call where one of its entries is none."""
    entry = {(p, q): cofactor(h, p, q) for p in range(3) for q in range(p, 4)}
    at = lambda p, q: entry[min(p, q), max(p, q)]
    across = [[at(p, q) for q in range(4)] for p in (0, 1)]
    up = [at(2, q) for q in range(4)]
    if any(f is None for row in across for f in row):
        across = [[NONE] * 4] * 2
    if any(f is None for f in up):
        up = [NONE] * 4
    return across[0], across[1], up


def share(line, row):
    return NONE if NONE in line else total([wide_product(f, g) for f, g in zip(line, row)])


def squares(*shares):
    return NONE if NONE in shares else total([wide_product(f, f) for f in shares])


def answers(rows, out):
    h = normal_matrix(rows)
    less = normal_matrix(rows[:out] + rows[out + 1 :])
    east, north, up = ([NONE] * 4,) * 3 if h is None else lines(h)
    shares = [share(line, rows[out]) for line in (east, north, up)]
    return [
        NONE if h is None else determinant(h),
        NONE if less is None else determinant(less),
        *east,
        *north,
        *up,
        *shares,
        squares(shares[0], shares[1]),
        squares(shares[2]),
    ]


# ---- trials
def exact_determinant(m):
    if len(m) == 1:
        return m[0][0]
    return sum((-1) ** k * m[0][k] * exact_determinant([r[:k] + r[k + 1 :] for r in m[1:]]) for k in range(len(m)))


def drawn(form, at):
    """A number of the form at a share of the half length."""
    return form[0] + form[1] * at + random.randint(-form[2], form[2])


def tries(rows, found):
    """Without rounding the determinant of what is drawn lies in the answer; rounding takes a unit of what a product has a hundred of."""
    for _ in range(100):
        at = Fraction(random.randint(-1000, 1000), 1000)
        numbers = [[drawn(part, at) / ONE for part in row] for row in rows]
        gram = [[sum(row[j] * row[k] for row in numbers) for k in range(4)] for j in range(4)]
        exact = exact_determinant(gram) * ONE
        assert abs(exact - found[0] - found[1] * at) <= found[2] + 1000, (exact, found)


def case(rows, out):
    found = answers(rows, out)
    if found[0] is not None:
        tries(rows, found[0])
    print("    Case {")
    print("        rows: &[")
    for row in rows:
        print("            [")
        for c, v, r in row:
            print(f"                ({c}, {v}, {r}),")
        print("            ],")
    print("        ],")
    print(f"        out: {out},")
    print("        answers: &[")
    for form in found:
        print("            None," if form is None else f"            Some(({form[0]}, {form[1]}, {form[2]})),")
    print("        ],")
    print("    },")


def direction(turns, remainder, weight=ONE):
    """A row like that of a satellite: a direction of length 1 that turns a little, and the weight."""
    parts = [random.gauss(0, 1) for _ in range(3)]
    length = sum(x * x for x in parts) ** 0.5
    parts = [int(x / length * weight) for x in parts]
    return [*((x, random.randint(-turns, turns), random.randint(0, remainder)) for x in parts), (weight, 0, 0)]


def main():
    random.seed(20261202)
    print("// Rows of time forms and what is answered of them, made by `oracle/table_of_form_matrices.py`, which works them out by itself.")
    print("use super::Case;\n")
    print("pub(super) const CASES: &[Case] = &[")
    case([direction(1 << 28, 1 << 10) for _ in range(6)], 2)
    case([direction(1 << 34, 1 << 20, ONE // (k + 1)) for k in range(5)], 4)
    case([direction(1 << 20, 40) for _ in range(32)], 0)
    big = [[(1 << 54, 5, 7)] * 4 for _ in range(5)]
    case(big, 1)
    print("];")


if __name__ == "__main__":
    main()
