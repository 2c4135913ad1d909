#!/usr/bin/env python3
"""Holds forms of satellites' places and of receivers' places and frames against the interval evaluation of single milliseconds:
of the real constellation and the real flight of examples/new-york-london, over pieces from 16 ms to 10 minutes. Prints for
each length of pieces how many milliseconds were tried, how many intervals lay outside their forms (none may), and the greatest
remainder of a satellite's place, of a receiver's and of a direction, in units of 2^-38.

Usage: python3 oracle/forms_hold.py [MILLISECONDS]
"""
import random
import sys
from datetime import datetime, timedelta
from decimal import Decimal
from fractions import Fraction
from pathlib import Path

import form_places
from orbits import WEEK, Record, position
from receivers import Waypoint, frame, place_over

FILES = Path(__file__).resolve().parent.parent / "examples" / "new-york-london"
EPOCH = datetime(1980, 1, 6)
LEAP = 15
LENGTHS = (16, 128, 1_000, 8_000, 60_000, 240_000, 600_000)
# the times of applicability are of week 566 of the second count of weeks
WEEKS = 1024


def records():
    text = (FILES / "gps.alm").read_text()
    values = [line.split(":")[1].strip() for line in text.splitlines() if ":" in line]
    for k in range(0, len(values), 13):
        _, _, e, toa, incl, rate, root, omega0, perigee, m0, _, _, week = values[k:k + 13]
        plain = lambda x: format(Decimal(x), "f")
        rad = lambda x: ("rad", plain(x))
        toa_ms = (int(week) + WEEKS) * WEEK + int(Decimal(toa) * 1000)
        yield Record(plain(e), toa_ms, rad(incl), rad(rate), plain(root), rad(omega0), rad(perigee), rad(m0))


def waypoints():
    for line in (FILES / "jfk-lhr.route").read_text().split("\n"):
        if line.strip():
            at, *place = line.split()
            since = datetime.fromisoformat(at.removesuffix("Z")) - EPOCH
            yield Waypoint(since // timedelta(milliseconds=1) + 1000 * LEAP, *place)


def outside(form, interval, time):
    """Whether an interval lies outside its form."""
    centre, turning, remainder = form
    middle = centre + turning * time
    return not (middle - remainder <= interval[0] <= interval[1] <= middle + remainder)


def flat(site):
    return (*site.position, *site.east, *site.north, *site.up)


def tried(records, route, length, times):
    """One piece of so many milliseconds, tried at so many times: how many intervals lie outside, and the remainders."""
    half = length // 2
    leg = random.randrange(len(route) - 1)
    start, stop = route[leg:leg + 2]
    middle = random.randint(start.at + half, stop.at - half - 1)
    rec = random.choice(records)
    satellite = form_places.position(rec, middle, half)
    place = form_places.place_over(start, stop, middle, half)
    site = form_places.frame(place)
    out = 0
    for _ in range(times):
        d = random.randint(-half, half)
        t = middle + d
        at = place_over(start, stop, t, t)
        pairs = [*zip(satellite, position(rec, t, t)), *zip(place, at), *zip(site, flat(frame(at)))]
        out += sum(outside(form, interval, Fraction(d, half)) for form, interval in pairs)
    return out, max(f[2] for f in satellite), max(f[2] for f in site[:3]), max(f[2] for f in site[3:])


def main():
    random.seed(20261202)
    milliseconds = int(sys.argv[1]) if len(sys.argv) > 1 else 10_000
    times = 4
    pieces = -(-milliseconds // (times * len(LENGTHS)))
    all_records, route = list(records()), list(waypoints())
    wrong = 0
    for length in LENGTHS:
        found = [tried(all_records, route, length, times) for _ in range(pieces)]
        out, *remainders = (sum(column) if k == 0 else max(column) for k, column in enumerate(zip(*found)))
        wrong += out
        print(f"{length:7} ms: {pieces * times} milliseconds, {out} outside, remainders up to", *remainders)
    return wrong != 0


if __name__ == "__main__":
    sys.exit(main())
