#!/usr/bin/env python3
"""Prints what the stored run of `crates/raim_sequence` expects of the vertical verdicts of a second at one place on the equator, under several
vertical alert limits, each millisecond judged by itself by `verdicts.py`; and the horizontal verdicts, which differ.

Usage: python3 oracle/table_of_vertical_runs.py
"""
from table_of_flights import FIVE, WEEK, record, satellites, second
from verdicts import Case, Limits, runs_singly

ROWS = [
    # the satellites, the alert limit, the bias and the vertical alert limit in millimetres, and how many milliseconds
    (5, 1000000000, 1, 1000000000, 1000),
    (5, 1000000000, 1, 50000, 1000),
    (5, 1000000000, 1, 1, 3),
    (5, 1, 1, 1000000000, 3),
    (5, 1000000000, 1000, 2000, 3),
    (5, 1000000000, 1000, 10000, 3),
    (6, 1000000000, 1000, 1000, 3),
    (6, 1000000000, 1000, 100, 3),
    (5, 1000000000, 1000000000, 1, 3),
]


def words(runs):
    return [" ".join(map(str, said)) for _, _, said in runs]


if __name__ == "__main__":
    for count, alert, bias, vertical, long in ROWS:
        records = (FIVE + [record()])[:count]
        flight = Case(limits=Limits("-90", alert, (bias,)), almanacs=[satellites(records)], outages=[], route=second(long=long))
        brief = Case(limits=flight.limits, almanacs=flight.almanacs, outages=[], route=second(long=1))
        print(count, alert, bias, vertical, long, words(runs_singly(flight, vertical)), "horizontal", words(runs_singly(brief)))
