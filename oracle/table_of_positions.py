#!/usr/bin/env python3
"""Prints the table of positions of crates/orbit_cases/src/position_table.rt: the name of a record, the first and the last
millisecond of a piece, and the ends of the satellite's three coordinates, in units of 2^-38 Mm.

The records are those of crates/orbit_cases/src/records.rt. The last two are one satellite of a published almanac (week
566 of the second count of weeks, PRN 2) in its two forms.
"""
from orbits import WEEK, Record, position

HOUR = 3_600_000
NINETY_DAYS = 7_776_000_000
RECORDS = {
    # a circle in the plane of 90 degrees, from a time of applicability at a week's begin
    "circle": Record(
        "0", 1414022400000, ("semi30", "0.2"), ("semi", "0"), "5153.6", ("semi", "0"), ("semi", "0"), ("semi", "0")),
    "yuma": Record(
        "0.01086759567", 1414427904000, ("rad", "0.96013574"), ("rad", "-0.000000008126052768"), "5153.636719",
        ("rad", "1.296372856"), ("rad", "0.812318933"), ("rad", "-0.9442756846")),
    "sem": Record(
        "0.01", 1414022400000, ("semi30", "0.0056"), ("semi", "-0.0000000026"), "5153.6", ("semi", "-0.6667"),
        ("semi", "0.25"), ("semi", "0.9165")),
    # at the ends of the ranges, in radians
    "extreme": Record(
        "0.03125", -123456789, ("rad", "3.1415926535898"), ("rad", "-0.000001"), "7000", ("rad", "-10"),
        ("rad", "10"), ("rad", "-10")),
    # at the ends of the ranges, in semicircles, a millisecond before the epoch
    "fast": Record(
        "0.03125", -1, ("semi30", "-0.05"), ("semi", "0.000001"), "4000.5", ("semi", "3.9"), ("semi", "-3.5"),
        ("semi", "-4")),
    # a time of applicability at the last millisecond of a week
    "late": Record(
        "0.02", 1414022399999, ("rad", "0.96"), ("rad", "-0.0000000081"), "5153.7", ("rad", "-2.25"), ("rad", "3.1"),
        ("rad", "1.75")),
    "published_yuma": Record(
        "0.009608650696", 962037504000, ("rad", "0.9393661061"), ("rad", "-0.000000008186769583"), "5153.599472",
        ("rad", "-1.27509041"), ("rad", "3.097910679"), ("rad", "-2.171226212")),
    "published_sem": Record(
        "0.009608650696460001", 962037504000, ("semi30", "-0.0009904816805941796"),
        ("semi", "-0.000000002605929694254038"), "5153.59947205", ("semi", "-0.4058738833407042"),
        ("semi", "0.9860955956400375"), ("semi", "-0.6911227684553344")),
}


def pieces(name, toa):
    """The pieces of a record: at its time of applicability, hours from it, where a week ends, 90 days away, and wide ones."""
    if name.startswith("published"):
        return [(toa + t, toa + t) for t in (-HOUR, 0, HOUR)]
    week_end = (toa // WEEK + 1) * WEEK
    points = [toa, toa + HOUR + 123, week_end - 1, week_end, toa - NINETY_DAYS, toa + NINETY_DAYS]
    wide = {"sem": (toa - HOUR, toa - HOUR + 10_000), "extreme": (toa - NINETY_DAYS + 1000_000, toa + NINETY_DAYS)}
    return [(t, t) for t in points] + ([wide[name]] if name in wide else [])


if __name__ == "__main__":
    for name, record in RECORDS.items():
        for first, last in pieces(name, record.toa_ms):
            ends = [end for coordinate in position(record, first, last) for end in coordinate]
            print(name, first, last, *ends)
