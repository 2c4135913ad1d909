#!/usr/bin/env python3
"""Makes the almanacs of this folder from round orbital elements.

They have the form of published YUMA and SEM almanacs, but are no real ones: six planes of 55 degrees,
their ascending nodes 60 degrees apart, and the satellites of a plane evenly spread over it. The week is
2338 modulo 1024, and the time of applicability 405504 seconds. Each YUMA file has a SEM file of the same
satellites, in semicircles and with more digits.

Usage: python3 examples/make_almanacs.py FOLDER
"""
import math
import sys
from pathlib import Path
from typing import NamedTuple

WEEK = 2338
TIME_OF_APPLICABILITY = 405504
PLANES = 6
INCLINATION = math.radians(55)
SQRT_A = 5153.6
ECCENTRICITY = 0.01
PERIGEE = 0.5
NODE_RATE = -8.0e-9


class Satellite(NamedTuple):
    """What differs from one satellite to the next; angles in radians, from -pi to pi."""
    prn: int
    health: int
    node: float
    anomaly: float


def turned(angle):
    """The angle in radians, from -pi to pi."""
    return math.remainder(angle, 2 * math.pi)


def scientific(number):
    """A number as published YUMA almanacs write it: 0.1086759567E-001."""
    if number == 0:
        return " 0.0000000000E+000"
    sign = "-" if number < 0 else " "
    exponent = math.floor(math.log10(abs(number))) + 1
    return f"{sign}{abs(number) / 10 ** exponent:.10f}E{exponent:+04}"


def yuma_record(satellite):
    """The fourteen lines of a satellite."""
    return [
        f"******** Week {WEEK % 1024} almanac for PRN-{satellite.prn:02} ********",
        f"ID:                         {satellite.prn:02}",
        f"Health:                     {satellite.health:03}",
        f"Eccentricity:              {scientific(ECCENTRICITY)}",
        f"Time of Applicability(s):  {TIME_OF_APPLICABILITY:.4f}",
        f"Orbital Inclination(rad):   {INCLINATION:.10f}",
        f"Rate of Right Ascen(r/s):  {scientific(NODE_RATE)}",
        f"SQRT(A)  (m 1/2):           {SQRT_A:.6f}",
        f"Right Ascen at Week(rad):  {scientific(satellite.node)}",
        f"Argument of Perigee(rad):   {PERIGEE:.9f}",
        f"Mean Anom(rad):            {scientific(satellite.anomaly)}",
        f"Af0(s):                    {scientific(0)}",
        f"Af1(s/s):                  {scientific(0)}",
        f"week:                        {WEEK % 1024}",
    ]


def semicircles(angle):
    """An angle in radians as published SEM almanacs write it: -8.54933738708496E-01."""
    return f"{angle / math.pi: .14E}"


def sem_record(satellite):
    """The eight lines of a satellite."""
    return [
        f"{satellite.prn}",
        f"{40 + satellite.prn}",
        "0",
        f"{ECCENTRICITY: .14E} {semicircles(INCLINATION - 0.30 * math.pi)} {semicircles(NODE_RATE)}",
        f"{SQRT_A: .14E} {semicircles(satellite.node)} {semicircles(PERIGEE)}",
        f"{semicircles(satellite.anomaly)} {0: .14E} {0: .14E}",
        f"{satellite.health}",
        "9",
    ]


def constellation(prns, unhealthy=()):
    """These satellites, spread over the planes."""
    satellites = []
    for place, prn in enumerate(prns):
        plane, slot = place % PLANES, place // PLANES
        slots = (len(prns) - plane + PLANES - 1) // PLANES
        node = turned(2 * math.pi * plane / PLANES)
        anomaly = turned(2 * math.pi * slot / slots + math.pi * plane / (3 * PLANES))
        satellites.append(Satellite(prn, 63 if prn in unhealthy else 0, node, anomaly))
    return satellites


def yuma(satellites, end):
    """Each line ended, and a blank line behind each record."""
    return "".join(line + end for s in satellites for line in yuma_record(s) + [""])


def sem(satellites, name, end):
    """The count and the name, the week and the time, and a blank line before each record."""
    head = [f"{len(satellites)} {name}", f" {WEEK % 1024} {TIME_OF_APPLICABILITY}"]
    return "".join(line + end for line in head + [line for s in satellites for line in [""] + sem_record(s)])


def main():
    folder = Path(sys.argv[1])
    four = constellation([1, 2, 3, 4])
    full = constellation(range(1, 32), unhealthy=[13])
    files = {
        "four-satellites.alm": yuma(four, "\n"),
        "four-satellites.al3": sem(four, "FOUR.AL3", "\n"),
        "full-constellation.alm": yuma(full, "\r\n"),
        "full-constellation.al3": sem(full, "FULL.AL3", "\r\n"),
    }
    for name, content in files.items():
        (folder / name).write_bytes(content.encode("ascii"))


main()
