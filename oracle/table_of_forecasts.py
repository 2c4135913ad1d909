#!/usr/bin/env python3
"""Prints what the stored run of `crates/raim_sequence` expects under 18 leap seconds, as `table_of_flights.py` works it out: of a second at one place on the
equator, from the begin of a week of UTC on, the runs and the report under an outage, the verdict of the first millisecond where
a slope overflows, and the horizontal and the vertical runs under alert limits of a millimetre and of a kilometre.

Usage: python3 oracle/table_of_forecasts.py
"""
from datetime import datetime, timedelta

from table_of_flights import FIVE, MILD, WEEK, runs, satellites, second
from verdicts import Case, Limits, Outage, runs_singly, verdict

LEAP = 18
START = WEEK + 1000 * LEAP


def flight(limits, outages):
    return Case(limits=limits, almanacs=[satellites(FIVE)], outages=outages, route=second(at=START))


def utc(ms):
    """The text of an instant."""
    at = datetime(1980, 1, 6) + timedelta(milliseconds=ms - 1000 * LEAP)
    return at.strftime("%Y-%m-%dT%H:%M:%S.") + f"{at.microsecond // 1000:03}Z"


if __name__ == "__main__":
    found = runs(flight(MILD, [Outage(3, START + 200, START + 500)]))
    print([(first - START, end - START, *said) for first, end, said in found])
    for first, end, said in found:
        print(utc(first), utc(end), *said)
    print(verdict(flight(Limits("-90", 1, (1000000000,)), []), START, START))
    for vertical_mm in (None, 1000000):
        found = runs_singly(flight(Limits("-90", 1, (1,)), []), vertical_mm)
        print([(first - START, end - START, *said) for first, end, said in found])
