#!/usr/bin/env python3
"""Prints `crates/edge_cases/src/demonstrations/tables.rt`: the four texts of the demonstration with number 0, made from the rules of docs/FORMATS.md,
in fractions.

Usage: python3 oracle/demo_texts.py > crates/edge_cases/src/demonstrations/tables.rt
"""
from fractions import Fraction

LIMITS = ["leap 18", "mask 5", "alert approach", "bias 5 100000"]
OUTAGES = ["05 2024-10-27T00:02:00.000Z 2024-10-27T00:04:00.000Z"]
ROUTE = ["2024-10-27T00:00:00.000Z 70 0 10000", "2024-10-27T00:10:00.000Z 71 3 10000"]
NODES = ["0.0000", "0.3333", "0.6667", "1.0000", "-0.6667", "-0.3333"]


def anomaly(number, k):
    """The mean anomaly of satellite k, in half turns, from -1 to below 1."""
    plane, place = divmod(k, 4)
    shift = Fraction(place, 2) + plane * Fraction(833, 10000) + (number % 1000) * Fraction(37, 10000)
    return shift % 2 - 1


def decimals(x):
    """A fraction with exactly four decimals."""
    sign = "-" if x < 0 else ""
    whole, rest = divmod(abs(x), 1)
    digits = rest * 10000
    assert digits.denominator == 1
    return f"{sign}{whole}.{digits.numerator:04d}"


def almanac(number):
    lines = ["24 DEMO", "2338 0"]
    for k in range(24):
        lines += [str(k + 1), str(k + 1), "0", "0.01 0.0056 -2.6E-09", f"5153.6 {NODES[k // 4]} 0.0", f"{decimals(anomaly(number, k))} 0.0 0.0", "0", "9"]
    return lines


def text(lines):
    return "".join(line + "\n" for line in lines)


def phases(number):
    """The sixth lines of the records, by rising PRN."""
    return [f"{decimals(anomaly(number, k))} 0.0 0.0" for k in range(24)]


def function(about, name, lines):
    return f'// {about}\npub fn {name}() -> &\'static str {{\n    "{text(lines)}"\n}}'


def main():
    parts = [
        "// The texts of demonstrations, made by `oracle/demo_texts.py` from the rules by itself.",
        function("The limits.", "limits", LIMITS),
        function("The outages.", "outages", OUTAGES),
        function("The route.", "route", ROUTE),
        function("The almanac of number 0.", "almanac", almanac(0)),
        function("Of the almanac of number 345 the sixth line of each record.", "phases_of_345", phases(345)),
        function("Of the almanac of the greatest number the same, which is that of number 295.", "phases_of_the_greatest", phases(2**32 - 1)),
    ]
    assert (2**32 - 1) % 1000 == 295
    assert decimals(anomaly(0, 0)) == "-1.0000" and decimals(anomaly(0, 23)) == "0.9165"
    print("\n\n".join(parts))


if __name__ == "__main__":
    main()
