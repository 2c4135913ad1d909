#!/usr/bin/env python3
"""Prints the line of each demonstration whose number is given, and how many judgements its halving takes, worked out by `verdicts.py`
from the rules of docs/FORMATS.md.

Usage: python3 oracle/demonstrations.py NUMBER..
"""
import sys

from demo_texts import NODES, anomaly, decimals
from orbits import Record
from receivers import Waypoint
from verdicts import Case, Limits, Outage, Satellite, cuts, verdict

WEEK = 1414022400000
LEAP = 18000


def case_of(number):
    """Ten minutes from the begin of GPS week 2338, in UTC; satellite 5 is out for two of them."""
    semi = lambda x: ("semi", x)
    records = [
        Record("0.01", WEEK, ("semi30", "0.0056"), semi("-0.0000000026"), "5153.6", semi(NODES[k // 4]), semi("0.0"), semi(decimals(anomaly(number, k))))
        for k in range(24)
    ]
    start = WEEK + LEAP
    route = [Waypoint(start, "70", "0", "10000"), Waypoint(start + 600000, "71", "3", "10000")]
    outages = [Outage(5, start + 120000, start + 240000)]
    # the alert limit of an approach is 556 m
    return Case(Limits("5", 556000, (100000,)), [[Satellite(k + 1, 0, r) for k, r in enumerate(records)]], outages, route)


def halved(case, first, last, judged):
    """The runs of a root piece, with the count of its judgements in `judged`."""
    judged[0] += 1
    v = verdict(case, first, last)
    if v[0] in ("Available", "Unavailable") or first == last:
        return [(first, last + 1, v)]
    middle = first + (last - first) // 2
    return halved(case, first, middle, judged) + halved(case, middle + 1, last, judged)


def line_of(number):
    case, judged, found = case_of(number), [0], []
    edges = cuts(case)
    for a, b in zip(edges, edges[1:]):
        for first, end, v in halved(case, a, b - 1, judged):
            if found and found[-1][2] == v:
                found[-1] = (found[-1][0], end, v)
            else:
                found.append((first, end, v))
    total = lambda kind: sum(end - first for first, end, v in found if v[0] == kind)
    return (f"demo {number} satellites 24 intervals {len(found)} available {total('Available')} "
            f"unavailable {total('Unavailable')} undecided {total('Undecided')}"), judged[0]


for word in sys.argv[1:]:
    text, judgements = line_of(int(word))
    print(text)
    print(f"{judgements} judgements")
