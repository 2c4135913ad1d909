#!/usr/bin/env python3
"""Prints the tables of `crates/verdict_cases/src/tests/looks.rt`: what is seen of the satellites over pieces of small flights, worked
out by `verdicts.py`, what the test upwards makes of the rows, and factors for alert limits.

Usage: python3 oracle/table_of_looks.py
"""
from geometry import detect
from table_of_flights import FIVE, MILD, WEEK, constellation, record, satellites, second
from verdicts import Case, Limits, Outage, kappa, least_count, seen, weighed_rows


def looks(case, first, last):
    """Too few, the first satellite that straddles the mask, or the rows of the visible ones."""
    sights = seen(case, first, last)
    if sum(sight[0] != "H" for _, sight in sights) < least_count(case.limits):
        return ("Few",)
    for prn, sight in sights:
        if sight[0] == "S":
            return "Straddle", prn
    return "Rows", *weighed_rows(case, sights)


def words(answer):
    """The answer in one line: a row is its satellite and the ends of its four parts."""
    for part in answer:
        if isinstance(part, tuple):
            yield str(part[0])
            yield from (str(end) for interval in part[1:] for end in interval)
        else:
            yield str(part)


def upwards(case, limit, first, last):
    rows = list(looks(case, first, last)[1:])
    limits = Limits(case.limits.mask, limit, case.limits.biases)
    return detect(rows, kappa(limits, len(rows)), vertical=True)


def flights():
    """Each with its pieces, from its first millisecond on."""
    weights = {1: "0.5", 3: "0.25", 4: "0.75", 5: "1"}
    weighed = Limits("-90", 1000000000, (1,), weights=weights)
    yield "weighed", Case(weighed, [satellites(FIVE)], [], second()), [(0, 0), (0, 999)]
    over = second("40", "-30", "10000", ("40.001", "-29.999", "10000"), long=10000)
    setting = lambda outages: Case(Limits("9.99", 3704000, (2000000,)), [constellation(8)], outages, over)
    yield "setting", setting([]), [(0, 0), (4815, 4816), (9000, 9999)]
    # four remain beside the one that sets, and three
    yield "five may be visible", setting([Outage(prn, WEEK) for prn in (1, 2, 3)]), [(0, 9999), (9999, 9999)]
    yield "four may be visible", setting([Outage(prn, WEEK) for prn in (1, 2, 3, 4)]), [(0, 9999)]
    overhead = satellites([record(inclination="-0.30")] * 5)
    yield "overhead", Case(Limits("90", 1000000000, (1,)), [overhead], [], second()), [(0, 0)]


if __name__ == "__main__":
    for name, case, pieces in flights():
        print(name)
        for first, last in pieces:
            print(first, last, *words(looks(case, WEEK + first, WEEK + last)))
            if looks(case, WEEK + first, WEEK + last)[0] == "Rows":
                print("  upwards", *(f"{limit}: {upwards(case, limit, WEEK + first, WEEK + last)}" for limit in (1, 10, 1852000, 1000000000)))
    biases = (260000, 252000, 244000)
    for n, limit in [(5, 556000), (6, 556000), (7, 556000), (8, 556000), (32, 556000), (6, 1), (6, 1000000000), (5, 260000)]:
        print(n, limit, *kappa(Limits("5", limit, biases), n))
