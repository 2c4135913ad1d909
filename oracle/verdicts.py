"""The written verdict on a piece of time, over intervals, as docs/DEFINITIONS.md writes it: which satellites are usable, how each is
seen, and what the test of their rows makes of it.

What the verdicts that `verdict_cases` is held against are worked out by, and the cuts of a flight. Nothing here is taken from the
program. Times are in milliseconds since the GPS epoch, in GPS time.
"""
from dataclasses import dataclass, field, replace

from geometry import detect, exclude, weighed
from intervals import ONE, from_ratio
from orbits import dec, position
from receivers import frame, look, mask_sine, place_over

from table_of_almanacs import in_force


@dataclass(frozen=True)
class Satellite:
    """A record of an almanac with its satellite's number and its health."""
    prn: int
    health: int
    record: object


@dataclass(frozen=True)
class Outage:
    """An outage of a satellite: from start on, and before its end, where it has one."""
    prn: int
    start: int
    end: object = None


@dataclass(frozen=True)
class Limits:
    """What a limits file says: decimals are texts, biases and the alert limit millimetres."""
    mask: str
    alert: int
    biases: tuple
    exclude: bool = False
    weights: dict = field(default_factory=dict)


@dataclass(frozen=True)
class Case:
    limits: Limits
    almanacs: list
    outages: list
    route: list


def time_of(almanac):
    """The time of an almanac: that of its record of least PRN."""
    return min(almanac, key=lambda s: s.prn).record.toa_ms


def almanac_at(case, t):
    return case.almanacs[in_force([time_of(a) for a in case.almanacs], t)]


def holds(outage, t):
    return outage.start <= t and (outage.end is None or t < outage.end)


def usable(case, t):
    """The satellites that count at t, by rising PRN."""
    counts = [s for s in almanac_at(case, t) if s.health == 0 and not any(o.prn == s.prn and holds(o, t) for o in case.outages)]
    return sorted(counts, key=lambda s: s.prn)


def kappa(limits, n):
    """The squared bias for n satellites over the squared alert limit."""
    bias = limits.biases[min(n - 5, len(limits.biases) - 1)]
    return from_ratio(bias**2, limits.alert**2)


def weight(limits, prn):
    return dec(limits.weights[prn]) if prn in limits.weights else (ONE, ONE)


def leg(case, t):
    """The two waypoints between which t lies."""
    return next((a, b) for a, b in zip(case.route, case.route[1:]) if a.at <= t < b.at)


def least_count(limits):
    """How many satellites the test asks for."""
    return 6 if limits.exclude else 5


def seen(case, first, last):
    """How each usable satellite is seen over a piece inside one root piece, by rising PRN."""
    start, stop = leg(case, first)
    site = frame(place_over(start, stop, first, last))
    mask = mask_sine(case.limits.mask)
    return [(s.prn, look(site, position(s.record, first, last), mask)) for s in usable(case, first)]


def weighed_rows(case, sights):
    """The rows of the visible satellites."""
    return [weighed(prn, sight[1:], weight(case.limits, prn)) for prn, sight in sights if sight[0] == "V"]


def verdict(case, first, last, vertical_mm=None):
    """The verdict on a piece inside one root piece, as words: the horizontal one, or the vertical one under a vertical alert limit."""
    limits, sights = case.limits, seen(case, first, last)
    if sum(sight[0] != "H" for _, sight in sights) < least_count(limits):
        return ("Unavailable", "Few")
    for prn, sight in sights:
        if sight[0] == "S":
            return ("Undecided", "Mask", prn)
    rows = weighed_rows(case, sights)
    n, vertical = len(rows), vertical_mm is not None
    held = replace(limits, alert=vertical_mm) if vertical else limits
    return exclude(rows, kappa(held, n), kappa(held, n - 1), vertical) if limits.exclude else detect(rows, kappa(held, n), vertical)


def cuts(case):
    """The first millisecond of the flight, its end, and strictly between them each millisecond at which a waypoint's time is, an
    outage starts or ends, or another almanac is handed over to."""
    first, end = case.route[0].at, case.route[-1].at
    times = {w.at for w in case.route} | {o.start for o in case.outages} | {o.end for o in case.outages if o.end is not None}
    of_almanacs = sorted({time_of(a) for a in case.almanacs})
    times |= {(a + b) // 2 + 1 for a, b in zip(of_almanacs, of_almanacs[1:])}
    return [first] + sorted(t for t in times if first < t < end) + [end]


def runs_singly(case, vertical_mm=None):
    """The runs of a flight, each of its milliseconds judged by itself: for short flights."""
    found = []
    for t in range(case.route[0].at, case.route[-1].at):
        v = verdict(case, t, t, vertical_mm)
        if found and found[-1][2] == v:
            found[-1] = (found[-1][0], t + 1, v)
        else:
            found.append((t, t + 1, v))
    return found
