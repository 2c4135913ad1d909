#!/usr/bin/env python3
"""Which of several almanacs is in force, and the handovers, from the times alone, in whole numbers.

The one in force at t is found by sorting, and the handovers by trying each millisecond: no formula of the program is used.

Usage: python3 oracle/table_of_almanacs.py prints the table of `crates/slope_cases/src/almanacs_in_force.rt`.
"""


def in_force(times, t):
    """The place of the time that serves t: the nearest, of several the earliest, of several of one time the first."""
    places = sorted(range(len(times)), key=lambda k: (abs(t - times[k]), times[k], k))
    return places[0]


def handovers(times):
    """The milliseconds at which another time serves than a millisecond before."""
    found = []
    for t in range(min(times) - 1, max(times) + 2):
        if times[in_force(times, t)] != times[in_force(times, t - 1)]:
            found.append(t)
    return found


CASES = [[7], [0, 10], [0, 11], [10, 0], [5, 5, 5], [3, 9, 3, 20, 9, -8, 4, 3], [-7, -2], [100, 101, 103, 106]]


def line(times):
    """A line of the test's table: the times, a bar, a first millisecond, the places from it on, and the handovers."""
    low, high = min(times) - 3, max(times) + 3
    places = "".join(str(in_force(times, t)) for t in range(low, high + 1))
    return " ".join(map(str, [*times, "|", low, places, *handovers(times)]))


if __name__ == "__main__":
    for times in CASES:
        print(line(times))
