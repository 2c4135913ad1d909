#!/usr/bin/env python3
"""Prints what the vertical slopes of `slope_cases` and the vertical flights of `verdict_cases` expect: the vertical tests of satellites on the
axes, worked out by `geometry.py`, and the runs of small flights, each of whose milliseconds is judged by itself, by `verdicts.py`. It
takes some minutes.

Usage: python3 oracle/table_of_verticals.py
"""
from geometry import detect, exclude, weighed
from intervals import ONE
from table_of_flights import FIVE, MILD, WEEK, constellation, satellites, second
from verdicts import Case, Limits, Outage, runs_singly

AXES = [(ONE, 0, 0), (-ONE, 0, 0), (0, ONE, 0), (0, -ONE, 0), (0, 0, ONE), (0, 0, -ONE)]
FOUR_THIRDS = 366503875925
THIRD = 91625968981


def point(x):
    return x, x


def on_axes(weight=ONE):
    return [weighed(prn, [point(x) for x in part], point(weight)) for prn, part in enumerate(AXES, 1)]


def axes():
    six, half, open_ = on_axes(), on_axes(ONE // 2), (0, 1)
    five = six[:5]
    for name, rows, factors in [
        ("six", six, [point(FOUR_THIRDS), point(FOUR_THIRDS + 1), (FOUR_THIRDS, FOUR_THIRDS + 1), point(2**100)]),
        ("five", five, [point(1), point(0), open_]),
        ("four", five[:4], [point(ONE)]),
        ("one place", [five[4]] * 5, [point(0)]),
        ("half", half, [point(THIRD), point(THIRD + 1)]),
    ]:
        print(name, [detect(rows, kappa, True) for kappa in factors])
    factors = [(point(ONE), point(0)), (point(ONE), point(1)), (point(ONE), open_), (point(ONE), point(ONE)), (point(FOUR_THIRDS + 1), point(0))]
    print("without one", [exclude(six, kappa, less, True) for kappa, less in factors], exclude(five, point(ONE), point(ONE), True))


def flights():
    """Each with its vertical alert limits."""
    steep = Limits("-90", 1, (1000000000,))
    unseen = Limits("90", 1000000000, (1,))
    outage = [Outage(3, WEEK + 200, WEEK + 500)]
    yield "an outage", Case(MILD, [satellites(FIVE)], outage, second()), (3, 2)
    yield "under a small alert limit", Case(Limits("-90", 1, (1,)), [satellites(FIVE)], outage, second()), (3,)
    yield "steep", Case(steep, [satellites(FIVE)], [], second(long=10)), (1, 1000000000)
    yield "unseen", Case(unseen, [satellites(FIVE)], [], second()), (1000000000,)

    def over(limits, count, long=500):
        return Case(limits, [constellation(count)], [], second("40", "-30", "10000", ("40.001", "-29.999", "10000"), long=long))

    yield "a slope falls", over(Limits("-90", 3704000, (919775,)), 6), (2320070, 3704000)
    yield "a slope of exclusion falls", over(Limits("-90", 3704000, (919775,), True), 7), (3936277,)


if __name__ == "__main__":
    axes()
    for name, case, limits in flights():
        for limit in limits:
            found = runs_singly(case, limit)
            print(name, limit, [(first - WEEK, end - WEEK, *said) for first, end, said in found])
