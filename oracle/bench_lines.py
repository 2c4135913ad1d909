#!/usr/bin/env python3
"""Prints the lines that `call_bench KIND N` must print, for the kinds and numbers of calls that bench/calls.py measures.

Each is worked out in whole numbers of any size, from the written definitions, on the arguments that a call's number
determines.

Usage: python3 oracle/bench_lines.py [KIND N ..]
"""
import sys
from functools import reduce

import form_places
import forms
import geometry
import intervals as iv
import orbits
import receivers
import sines

WEIGHTS = (1, 3, 5, 7, 11, 13)
MODULUS = 2**61 - 1


def scattered(i):
    return i * 2654435761


def starting_at(low, width):
    return (low, low + width)


def added(total, answers):
    """31 times the sum before, and the ends of the answers times the weights: modulo 2^61 - 1."""
    ends = [end for answer in answers for end in answer]
    return (31 * total + sum(w * end for w, end in zip(WEIGHTS, ends))) % MODULUS


def summed(n, answers_of):
    """The sum of a call's answers, for each call."""
    return reduce(added, map(answers_of, range(n)), 0)


def summed_vectors(n, vectors_of):
    """The sum of a call's vectors, one after the other, for each call."""
    return reduce(added, (vector for i in range(n) for vector in vectors_of(i)), 0)


def dividend(i):
    return starting_at(scattered(i) % 2**40 - 2**39, i % 4)


def factor(i):
    return starting_at((i * 40503 + 7) % 2**38 - 2**37, i // 4 % 4)


def divisor(i):
    return starting_at(1 + scattered(i) % 2**38, i % 4)


def radicand(i):
    return starting_at((scattered(i) % 2**40) ** 2, i % 4)


def decimal(i):
    """A decimal over a whole number, rounded outward."""
    digits = 10 * (scattered(i) % 10**11) + 1
    return iv.from_ratio(-digits if i % 2 else digits, 10 ** (i % 13) * (1 + i * 7919 % 1000000))


def turns(i):
    return starting_at(scattered(i) % 2**40 - 2**39, i % 4)


def eccentricity(i):
    return starting_at(scattered(i) % 1367130551, 1)


# a record as a SEM file has it
RECORD = orbits.Record(
    "0.01", 1414022400000, ("semi30", "0.0056"), ("semi", "-0.0000000026"), "5153.6",
    ("semi", "-0.6667"), ("semi", "0.25"), ("semi", "0.9165"))


def place(i):
    """Its place seven seconds a call from its time of applicability on, within 90 days."""
    t = RECORD.toa_ms + i * 7000 % 7_776_000_000
    return orbits.position(RECORD, t, t)


# the numbers of the verdicts on a list of rows, and of what it is undecided by
VERDICTS = {("Available",): 1, ("Unavailable", "Few"): 2, ("Unavailable", "Singular"): 3, ("Unavailable", "Slope"): 4}
UNDECIDED = {"Mask": 5, "Det": 6, "Slope": 7, "DetWithout": 8, "SlopeWithout": 9}
OVERFLOW = 10


def direction_part(i, prn):
    low = (scattered(i % 2**32) + prn * 40503000001) % 2**64 % 549755813880
    return starting_at(low - iv.ONE, low % 4)


def rows(i):
    """Twelve rows with the weight 1."""
    return [geometry.weighed(prn, [direction_part(i + apart, prn) for apart in (0, 77, 7777)], iv.point(iv.ONE))
            for prn in range(1, 13)]


def kappa(i):
    """The factor for twelve rows, from 1/32 to 2."""
    return iv.point((i % 64 + 1) << 33)


def kappa_less(i):
    """The factor for eleven rows, half of that for twelve."""
    return iv.point((i % 64 + 1) << 32)


def numbers_of(verdict):
    """The number of a verdict, and the satellites that it names."""
    if verdict in VERDICTS:
        return [VERDICTS[verdict]]
    word, *rest = verdict
    return [OVERFLOW, *rest] if word == "Overflow" else [UNDECIDED[rest[0]], *rest[1:]]


def summed_verdicts(n, verdict_of):
    """31 times the sum before and a number, for each number of the verdicts: modulo 2^61 - 1."""
    total = 0
    for i in range(n):
        for number in numbers_of(verdict_of(i)):
            total = (31 * total + number) % MODULUS
    return total


# the factors of numbers that scatter
SPREAD = (2654435761, 2246822519, 3266489917)
SPREAD_OF_MASKS = 668265263


def place_of_receiver(i):
    """Any latitude, at most a turn of longitude either way, and a height from -1000 m to 30000 m."""
    lat, lon, height = (i * factor for factor in SPREAD)
    return (starting_at(lat % 137438953470 - 68719476736, i % 4), starting_at(lon % 549755813886 - 274877906944, i % 4),
            starting_at(height % 8521215112 - 274877906, i % 4))


def frame_of(i):
    found = receivers.frame(place_of_receiver(i))
    return [found.position, found.east, found.north, found.up]


# a receiver at 48 degrees north, 11 degrees east and 10000 m
RECEIVER = receivers.frame([starting_at(low, 1) for low in (36650387592, 8399047156, 2748779069)])
# from how many Mm on the components of satellites are: high above it, and beyond the Earth
ABOVE = (15, -5, 10)
BEYOND = (-25, -5, -20)


def satellite(side, i):
    """Components from so many Mm to ten more, at most 2^20 units wide."""
    places = [i * factor for factor in SPREAD]
    return [starting_at(least * iv.ONE + at % (10 * iv.ONE), at % (2**20 + 1)) for least, at in zip(side, places)]


def mask_of(i):
    """The sine of a mask from 0 to 30 degrees."""
    return starting_at(i * SPREAD_OF_MASKS % 2**37, i % 4)


def seen(side, i):
    """A direction that is seen; or one number for a satellite that is hidden, and another for one that straddles."""
    kind, *direction = receivers.look(RECEIVER, satellite(side, i), mask_of(i))
    return {"H": [iv.point(1)], "S": [iv.point(2)], "V": direction}[kind]


def judgements(first, last, is_open):
    """How many judgements a piece takes: one, and those of its halves where it is open and longer."""
    if first == last or not is_open(first, last):
        return 1
    middle = first + (last - first) // 2
    return 1 + judgements(first, middle, is_open) + judgements(middle + 1, last, is_open)


def halved(n, runs, judged):
    return f"runs {n * runs} judgements {n * judged}"


def form_of_turns(i):
    """From two turns below 0 to two above, turning by at most 2^20 units."""
    return (scattered(i) % 2**40 - 2**39, scattered(i) % 2**21 - 2**20, i % 1000 + 1)


def form_of_second(i):
    """The place of the record's satellite over a second."""
    return form_places.position(RECORD, RECORD.toa_ms + i * 7000 % 7_776_000_000, 500)


def form_of_frame(i):
    """The frame at any latitude, at most a turn of longitude either way, and a height from -1000 m to 30000 m."""
    ranges = ((-68719476736, 137438953470), (-274877906944, 549755813886), (-274877906, 8521215112))
    return form_places.frame([(i * factor % most + least, i % 2001 - 1000, 4) for factor, (least, most) in zip(SPREAD, ranges)])


def signed(total):
    """The number from -2^63 on that 64 bits stand for."""
    return total - 2**64 if total >= 2**63 else total


def summed_forms(n, forms_of):
    """31 times the sum before, and the numbers of a form times 1, 3 and 5, for each form of a call that has some: in 64 bits."""
    total = 0
    for i in range(n):
        try:
            found = forms_of(i)
        except form_places.Lost:
            continue
        for centre, turning, remainder in found:
            total = (31 * total + centre + 3 * turning + 5 * remainder) % 2**64
    return signed(total)


KINDS = {
    "mul": lambda n: summed(n, lambda i: [iv.mul(dividend(i), factor(i))]),
    "sqr": lambda n: summed(n, lambda i: [iv.sqr(dividend(i))]),
    "div": lambda n: summed(n, lambda i: [iv.div(dividend(i), divisor(i))]),
    "sqrt": lambda n: summed(n, lambda i: [iv.sqrt(radicand(i))]),
    "decimal": lambda n: summed(n, lambda i: [decimal(i)]),
    "sine": lambda n: summed(n, lambda i: sines.sin_cos(turns(i))),
    "kepler": lambda n: summed(n, lambda i: sines.ecc_sin_cos(turns(i), eccentricity(i))),
    "position": lambda n: summed(n, place),
    "detect": lambda n: summed_verdicts(n, lambda i: geometry.detect(rows(i), kappa(i))),
    "exclude": lambda n: summed_verdicts(n, lambda i: geometry.exclude(rows(i), kappa(i), kappa_less(i))),
    "frame": lambda n: summed_vectors(n, frame_of),
    "look": lambda n: summed(n, lambda i: seen(ABOVE, i)),
    "hidden_look": lambda n: summed(n, lambda i: seen(BEYOND, i)),
    "form_product": lambda n: summed_forms(n, lambda i: [form_places.kept(forms.product(form_of_turns(i), form_of_turns(i ^ 1)))]),
    "form_sine": lambda n: summed_forms(n, lambda i: form_places.form_of_sin_cos(form_of_turns(i))),
    "form_position": lambda n: summed_forms(n, form_of_second),
    "form_frame": lambda n: summed_forms(n, form_of_frame),
    # 2^40 milliseconds, of which the first is undecided; and 65,536 that are each a run
    "island": lambda n: halved(n, 2, judgements(0, 2**40 - 1, lambda first, last: first <= 0 <= last)),
    "alternating": lambda n: halved(n, 65_536, judgements(0, 65_535, lambda first, last: True)),
}


def line(kind, n):
    return f"{kind} {n} {KINDS[kind](n)}"


if __name__ == "__main__":
    words = sys.argv[1:]
    for kind, n in zip(words[::2], words[1::2]):
        print(line(kind, int(n)))
