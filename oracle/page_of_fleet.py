#!/usr/bin/env python3
"""Prints the page of the text of a fleet, whose blocks are cut here and whose flights and lines are drawn by `chart_pages.py`.

Usage: python3 oracle/page_of_fleet.py crates/raim_chart_cli/data/fleet > crates/raim_chart_cli/stdout
"""
import sys

from chart_pages import flight_of, fleet_lines, page


def bodies(text):
    """What stands under each line `route k`."""
    found = []
    for line in text.split("\n"):
        if line.startswith("route "):
            found.append("")
        else:
            found[-1] += line + "\n"
    return found


def row_of(body):
    """The runs of a report, or the bytes of the line in its place."""
    return flight_of(body) if body == "" or body[0].isdigit() else body.rstrip("\n").encode("latin-1")


if __name__ == "__main__":
    with open(sys.argv[1], encoding="latin-1", newline="\n") as fleet:
        sys.stdout.write(page(fleet_lines([row_of(body) for body in bodies(fleet.read().removesuffix("\n"))])))
