#!/usr/bin/env python3
"""Prints the cuts and the runs of the flights of `crates/raim_sequence`, worked out by `verdicts.py`. Of flights up to a
second each millisecond is judged by itself; of longer ones a verdict that is decided over a whole piece is that of its milliseconds,
and any other piece is halved. It takes some minutes.

Usage: python3 oracle/table_of_flights.py
"""
from orbits import Record
from receivers import Waypoint
from verdicts import Case, Limits, Outage, Satellite, cuts, runs_singly, verdict

WEEK = 1414022400000
MILD = Limits("-90", 1000000000, (1,))


def record(e="0.0", inclination="0.2", omega0="0.0", m0="0.0", toa_ms=WEEK):
    semi = lambda x: ("semi", x)
    return Record(e, toa_ms, ("semi30", inclination), semi("0.0"), "5153.6", semi(omega0), semi("0.0"), semi(m0))


def satellites(records):
    return [Satellite(prn, 0, r) for prn, r in enumerate(records, 1)]


def second(lat="0", lon="0", height="0", to=None, at=WEEK, long=1000):
    end = to or (lat, lon, height)
    return [Waypoint(at, lat, lon, height), Waypoint(at + long, *end)]


FOUR = [record(omega0="0.5"), record(omega0="-0.5"), record(m0="0.5"), record(m0="-0.25")]
FIVE = FOUR + [record()]
AT_ONE_PLACE = lambda toa_ms: satellites([record(m0="0.5", toa_ms=toa_ms)] * 5)


def halved(case, first, last):
    """The runs of a root piece."""
    v = verdict(case, first, last)
    if v[0] in ("Available", "Unavailable") or first == last:
        return [(first, last + 1, v)]
    middle = first + (last - first) // 2
    return halved(case, first, middle) + halved(case, middle + 1, last)


def runs(case):
    """The runs of a flight."""
    found = []
    edges = cuts(case)
    if edges[-1] - edges[0] <= 1000:
        return runs_singly(case)
    for a, b in zip(edges, edges[1:]):
        for first, end, v in halved(case, a, b - 1):
            if found and found[-1][2] == v:
                found[-1] = (found[-1][0], end, v)
            else:
                found.append((first, end, v))
    return found


# of eight satellites on nearly circular orbits: the node at the begin of the week and the mean anomaly, in semicircles
PLACES = [("0.9477", "0.6276"), ("-0.8473", "0.8241"), ("-0.1886", "0.3039"), ("-0.4594", "0.1209"), ("0.7210", "0.6224"),
          ("-0.7027", "0.8057"), ("-0.6915", "0.1983"), ("-0.3251", "0.6267")]


def constellation(count, toa_ms=WEEK):
    """The first of the eight satellites."""
    return satellites([record("0.01", "0.0056", omega0, m0, toa_ms) for omega0, m0 in PLACES[:count]])


def changing():
    """Flights of half a second and of a minute, in which the verdict changes."""
    def flight(limits, count, long=500, **other):
        over = second("40", "-30", "10000", ("40.001", "-29.999", "10000"), long=long)
        return Case(**{"limits": limits, "almanacs": [constellation(count)], "outages": [], "route": over, **other})

    weights = {1: "0.5", 2: "0.4", 3: "0.45", 4: "0.35", 5: "0.3", 6: "0.57881"}
    yield "a satellite sets", flight(Limits("9.9", 3704000, (2000000,)), 8, long=60000)
    yield "a slope falls", flight(Limits("-90", 3704000, (919775,)), 6)
    yield "a slope of exclusion falls", flight(Limits("-90", 3704000, (919775,), True), 7)
    yield "a determinant falls", flight(Limits("-90", 1000000000, (1,), weights=weights), 6)
    middle = WEEK + 302400000
    legs = [Waypoint(middle - 30000, "40", "-30", "10000"), Waypoint(middle + 12000, "40", "-30", "10000"), Waypoint(middle + 30000, "40.01", "-29.99", "0")]
    outages = [Outage(3, middle - 20000, middle - 10000), Outage(5, middle - 13000)]
    both = [constellation(8), constellation(7, WEEK + 604800000)]
    yield "cuts", flight(Limits("-90", 3704000, (923222,)), 8, almanacs=both, outages=outages, route=legs)


def flights():
    mild = lambda **other: Case(**{"limits": MILD, "almanacs": [satellites(FIVE)], "outages": [], "route": second(), **other})
    yield "outage", mild(outages=[Outage(3, WEEK + 200, WEEK + 500)])
    yield "over", mild(outages=[Outage(3, WEEK - 1000, WEEK)])
    yield "lasting", mild(outages=[Outage(3, WEEK)])
    overhead = satellites([record(inclination="-0.30")] * 5)
    yield "overhead", mild(limits=Limits("90", 1000000000, (1,)), almanacs=[overhead], route=second(long=1))
    yield "at one place", mild(almanacs=[AT_ONE_PLACE(WEEK)])
    excluding = Limits("-90", 1000000000, (1,), True)
    six = [satellites(FIVE + [record()])]
    yield "exclusion of five", mild(limits=excluding)
    yield "exclusion of six", mild(limits=excluding, almanacs=six)
    yield "detection of six", mild(almanacs=six)
    yield "approach", mild(limits=Limits("-90", 556000, (100000,)))
    yield "narrow", mild(limits=Limits("-90", 100, (1000,)))
    yield "overflowing", mild(limits=Limits("-90", 1, (1000000000,)))
    yield "whole weights", mild(limits=Limits("-90", 1000000000, (1,), weights={p: "1" for p in range(1, 6)}))
    yield "weights of a tenth", mild(limits=Limits("-90", 1000000000, (1,), weights={p: "0.1" for p in range(1, 6)}))
    yield "pole", mild(route=second("90"))
    yield "around", mild(route=second("90", "-360", "30000", ("90", "360", "-1000")))
    nearest = [satellites(FOUR), AT_ONE_PLACE(WEEK + 604800000)]
    yield "nearest", mild(almanacs=nearest, route=second(at=WEEK + 302399500))


if __name__ == "__main__":
    for name, case in (*flights(), *changing()):
        first = case.route[0].at
        print(name, [c - first for c in cuts(case)], [(a - first, b - first, *v) for a, b, v in runs(case)])
