#!/usr/bin/env python3
"""Holds the pieces of `crates/judged_pieces/data` against `verdicts.py`, over the files that its stored run names: prints for each list
how many of its verdicts are those that are worked out here.

Usage: python3 oracle/judged_pieces.py
"""
from datetime import datetime, timedelta
from decimal import Decimal
from pathlib import Path

from orbits import Record
from receivers import Waypoint
from verdicts import Case, Limits, Outage, Satellite, verdict

CRATE = Path(__file__).resolve().parent.parent / "crates" / "judged_pieces"
DATA = CRATE / "data"
EPOCH = datetime(1980, 1, 6)
WEEK = 604_800_000
PRESETS = {"approach": 556_000, "enroute": 3_704_000}


def plain(text):
    """A decimal without an exponent."""
    return format(Decimal(text), "f")


def lines_of(name):
    """The words of each line that has some."""
    return [line.split() for line in (DATA / name).read_text().splitlines() if line.strip()]


def milliseconds(text, leap):
    """UTC in milliseconds of GPS time since the GPS epoch."""
    return (datetime.fromisoformat(text.removesuffix("Z")) - EPOCH) // timedelta(milliseconds=1) + 1000 * leap


def limits_of(name):
    """The limits, and the leap seconds."""
    lines = lines_of(name)
    one = {words[0]: words[1] for words in lines}
    biases = tuple(int(words[2]) for words in lines if words[0] == "bias")
    weights = {int(words[1]): words[2] for words in lines if words[0] == "weight"}
    return Limits(one["mask"], PRESETS[one["alert"]], biases, one.get("mode") == "exclude", weights), int(one["leap"])


def applicability(week, seconds, at):
    """The time of applicability, its week counted modulo 1024 and taken nearest the instant `at`."""
    weeks = range(int(week), at // WEEK + 2048, 1024)
    return min(weeks, key=lambda w: abs(w - at // WEEK)) * WEEK + int(Decimal(seconds) * 1000)


def yuma(name, at):
    values = [line.split(":")[1].strip() for line in (DATA / name).read_text().splitlines() if ":" in line]
    records = [values[k:k + 13] for k in range(0, len(values), 13)]
    for prn, health, e, seconds, incl, rate, root, omega0, perigee, m0, _, _, week in records:
        rad = lambda x: ("rad", plain(x))
        record = Record(plain(e), applicability(week, seconds, at), rad(incl), rad(rate), plain(root), rad(omega0), rad(perigee), rad(m0))
        yield Satellite(int(prn), int(health), record)


def sem(name, at):
    lines = lines_of(name)
    toa_ms = applicability(*lines[1], at)
    for k in range(2, len(lines), 8):
        (prn,), _, _, (e, incl, rate), (root, omega0, perigee), (m0, _, _), (health,), _ = lines[k:k + 8]
        semi = lambda x: ("semi", plain(x))
        record = Record(plain(e), toa_ms, ("semi30", plain(incl)), semi(rate), plain(root), semi(omega0), semi(perigee), semi(m0))
        yield Satellite(int(prn), int(health), record)


def case_of(limits, almanacs, outages, route):
    limits, leap = limits_of(limits)
    waypoints = [Waypoint(milliseconds(at, leap), *place) for at, *place in lines_of(route)]
    read = lambda name: list((sem if name.endswith(".al3") else yuma)(name, waypoints[0].at))
    ends = lambda text: None if text == "-" else milliseconds(text, leap)
    out = [Outage(int(prn), milliseconds(start, leap), ends(end)) for prn, start, end in lines_of(outages)]
    return Case(limits, [read(name) for name in almanacs.split(",")], out, waypoints)


def spelled(answer):
    """A verdict as a report has it."""
    return [word if isinstance(word, str) else f"{word:02d}" for word in answer]


if __name__ == "__main__":
    words = (CRATE / "args").read_text().split()
    for *files, pieces in (words[k:k + 5] for k in range(0, len(words), 5)):
        if pieces.isdigit():
            continue
        case = case_of(*files)
        lines = lines_of(pieces)
        agree = sum(spelled(verdict(case, int(first), int(last))) == said for first, last, *said in lines)
        print(f"{pieces}: {agree} of {len(lines)} pieces agree", flush=True)
