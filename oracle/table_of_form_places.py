#!/usr/bin/env python3
"""Prints the tables of crates/orbit_cases/src/form_tables.rt: forms of sines, of eccentric anomalies, of satellites' places and of
receivers' frames, worked out in whole numbers of any size. A line is what is asked, the arguments, and the numbers of the answer
or none.

The records are those of crates/orbit_cases/src/records.rt.
"""
import form_places
from form_places import Lost
from forms import ONE
from table_of_positions import HOUR, NINETY_DAYS, RECORDS

EPS = (240_000_000, 240_000_002)
# a degree of latitude and of longitude, and a kilometre
DEGREE, KILOMETRE = ONE // 360, ONE // 1000


def row(asked, arguments, answer):
    try:
        numbers = [x for form in answer() for x in form]
    except Lost:
        numbers = ["none"]
    print(asked, *arguments, *numbers)


def sines():
    for turns in [
        (0, 0, 0),
        (ONE // 8, 1 << 20, 3),
        (-5 * ONE - 12345, -(1 << 31), 100),
        (3 * ONE // 4 + 7, ONE // 2, 1),
        (3 * ONE // 4 + 7, ONE // 2 + 1, 1),
        (ONE // 3, -ONE // 2 - 1, 0),
        (1 << 58, 0, 1 << 40),
        (1 << 58, 0, 1 << 55),
    ]:
        row("Sine", turns, lambda: form_places.form_of_sin_cos(turns))


def anomalies():
    for mean, eps in [
        ((0, 0, 0), (0, 0)),
        ((ONE // 2, 1 << 22, 5), EPS),
        ((-7 * ONE // 2 + 99, -(1 << 30), 12), EPS),
        ((2 * ONE + 4321, ONE // 3, 2), (1 << 31, 1 << 31)),
        ((2 * ONE + 4321, ONE // 2, 2), (1 << 31, 1 << 31)),
        ((ONE // 5, 1 << 57, 2), EPS),
        ((ONE // 5, 3, 1 << 57), EPS),
    ]:
        row("Anomaly", (*mean, *eps), lambda: form_places.form_of_ecc_sin_cos(mean, eps))


def positions():
    pieces = [(0, 8), (HOUR + 123, 500), (-NINETY_DAYS, 30_000), (NINETY_DAYS - 1, 300_000)]
    for name, (k, half) in zip(["circle", "yuma", "sem", "fast", "extreme", "late"], pieces + [(5, 8), (5, 50_000_000)]):
        rec = RECORDS[name]
        middle = rec.toa_ms + k
        row("Position", (name, middle, half), lambda: form_places.position(rec, middle, half))


def frames():
    for place in [
        ((0, 0, 0), (0, 0, 0), (0, 0, 0)),
        ((48 * DEGREE, 12345678, 3), (-73 * DEGREE, -23456789, 3), (10 * KILOMETRE, 1, 4)),
        ((ONE // 4, 0, 1), (ONE, 0, 1), (-KILOMETRE, 0, 1)),
        ((-30 * DEGREE, DEGREE, 7), (200 * DEGREE, -DEGREE, 7), (3 * KILOMETRE, KILOMETRE, 9)),
        ((48 * DEGREE, 1 << 57, 3), (-73 * DEGREE, 0, 3), (0, 0, 0)),
        ((48 * DEGREE, ONE // 2, 3), (-73 * DEGREE, 0, 3), (0, 0, 0)),
    ]:
        row("Frame", [x for form in place for x in form], lambda: form_places.frame(place))


if __name__ == "__main__":
    sines()
    anomalies()
    positions()
    frames()
