#!/usr/bin/env python3
"""Prints `crates/text_cases/src/charts/tables.rt`: texts for a chart, with what they show or the line and the cause of their
refusal. They are read here by a pattern and the calendar of Python.

Usage: python3 oracle/table_of_charts.py > crates/text_cases/src/charts/tables.rt
"""
import re

from utc import ms_of

DAY = 86_400_000
# what a percent sign and a digit stand for in a row
TIMES = {
    "%0": "2024-10-27T00:00:00.000Z",
    "%1": "2024-10-27T00:00:01.000Z",
    "%2": "2024-10-27T00:00:02.000Z",
    "%8": "2024-10-28T00:00:00.000Z",
    "%9": "2024-10-28T00:00:00.001Z",
}
LINE = re.compile(r"(\S+Z) (\S+Z) (Available|Unavailable Few|Undecided Mask (\d\d))\n", re.ASCII)
REASON = re.compile(r"refused |overflow at |more than ")

READ = [
    ("A report without a line is a flight of no runs.", [""]),
    ("A flight of one run, and of several.", ["%0 %1 Available\n", "%0 %1 Available\n%1 %2 Unavailable Few\n%2 %8 Undecided Mask 07\n"]),
    ("Runs of one verdict may follow one another.", ["%0 %1 Available\n%1 %2 Available\n"]),
    ("A flight may take a day.", ["%0 %8 Available\n", "%0 %1 Available\n%1 %8 Available\n"]),
    ("A fleet of one route and of several, with and without runs.", [
        "route 1\n",
        "route 1\nroute 2\n",
        "route 1\n%0 %1 Available\n",
        "route 1\n%0 %1 Available\n%1 %2 Unavailable Few\nroute 2\nroute 3\n%0 %8 Available\n",
    ]),
    ("Lines in the place of a report.", [
        "route 1\nrefused route line 1: TooFew\nroute 2\n%0 %1 Available\nroute 3\noverflow at %0 PRN 07\nroute 4\nmore than 65536 intervals\n",
        "route 1\nrefused \n",
    ]),
    ("Such a line has any bytes.", ["route 1\nrefused <b>&\"\xff\x00\r\nroute 2\nmore than route 3\n"]),
    ("Numbers of two digits.", ["".join(f"route {k}\n" for k in range(1, 13))]),
]
REFUSED = [
    ("A report is refused as such first.", ["x\n", "%0 %1 Available", "%0 %2 Available\n%1 %8 Available\n\n", "%0 %9 Available\n%0 %0 Available\n", "\n"]),
    ("A run begins where the one before it ends.", ["%0 %1 Available\n%2 %8 Available\n", "%0 %2 Available\n%1 %8 Available\n", "%0 %1 Available\n%1 %2 Available\n%0 %1 Available\n%2 %8 Available\n"]),
    ("A flight takes a day at most.", ["%0 %9 Available\n", "%0 %1 Available\n%1 %9 Available\n", "%0 %1 Available\n%2 %9 Available\n", "%0 %1 Available\n%1 %8 Available\n%8 %9 Available\n"]),
    ("Other first lines are no fleet's.", ["route 1", "route 1 \n", "route 2\n", "route 01\n", "Route 1\n", " route 1\n", "route 1\r\n", "refused route line 1: TooFew\n"]),
    ("Heads are in order.", ["route 1\nroute 3\n", "route 1\nroute 1\n", "route 1\nroute 02\n", "route 1\nroute 2 \n", "route 1\nroute 2", "route 1\nroute \n", "route 1\n%0 %1 Available\nroute 2\nroute 2\n", "route 1\nroute 2\r\n"]),
    ("What is no head is a line of the block.", ["route 1\nroute\n", "route 1\nRoute 2\n", "route 1\n\nroute 2\n"]),
    ("A report in a block is refused as any.", [
        "route 1\n%0 %1 Available\nroute 2\n%0 %1 Available\n%2 %8 Available\nroute 3\n",
        "route 1\nrefused x\nroute 2\n%0 %1 Available\n%1 %9 Available\n",
        "route 1\n%0 %1 Available\n%1 %2 Undecided Mask 33\nroute 5\n",
        "route 1\n%0 %1 Available",
    ]),
    ("A line in the place of a report stands alone.", ["route 1\nrefused x\nrefused y\nroute 2\n", "route 1\nmore than x\n%0 %1 Available\n", "route 1\noverflow at x\n\n", "route 1\nrefused x\ny"]),
    ("And has its line feed.", ["route 1\nrefused x", "route 1\nroute 2\nmore than "]),
    ("Other beginnings are a report's.", ["route 1\nrefused\n", "route 1\nmore  than x\n", "route 1\n refused x\n", "route 1\n%0 %1 Available\nrefused x\n"]),
    ("The first block that is refused is named.", ["route 1\nx\nroute 3\n", "route 1\nroute 3\nx\n"]),
]


def lines_of(text):
    """The lines of a text, each with its line feed."""
    return re.findall(r"[^\n]*\n|[^\n]+", text)


def flight_of(lines):
    """The runs (first, end, verdict) of a flight's report, or the index of the first line that is refused and the cause."""
    runs = []
    for k, line in enumerate(lines):
        if not line.endswith("\n"):
            return k, "Short"
        match = LINE.fullmatch(line)
        if not match:
            return k, "Word"
        first, end = ms_of(match[1]), ms_of(match[2])
        if match[4] and not 1 <= int(match[4]) <= 32:
            return k, "Range"
        if end <= first:
            return k, "NotRising"
        runs.append((first, end, match[3]))
    for k, (first, end, _) in enumerate(runs):
        if k and first != runs[k - 1][1]:
            return k, "NotRising"
        if end - runs[0][0] > DAY:
            return k, "TooLong"
    return runs


def fleet_of(lines):
    """What the blocks say, or the index of the first line that is refused and the cause."""
    said, at = [], 0
    while at < len(lines):
        if lines[at] != f"route {len(said) + 1}\n":
            return at, "Label"
        end = next((k for k in range(at + 1, len(lines)) if lines[k].startswith("route ")), len(lines))
        body = lines[at + 1:end]
        if body and REASON.match(body[0]):
            if not body[0].endswith("\n"):
                return at + 1, "Short"
            if len(body) > 1:
                return at + 2, "Word"
            said.append(body[0][:-1])
        else:
            flight = flight_of(body)
            if isinstance(flight, tuple):
                return at + 1 + flight[0], flight[1]
            said.append(flight)
        at = end
    return said


def spelled(row):
    return re.sub(r"%\d", lambda m: TIMES[m[0]], row)


def literal(text):
    escapes = {"\n": "\\n", "\r": "\\r", '"': '\\"', "\\": "\\\\"}
    return 'b"' + "".join(escapes.get(c) or (c if " " <= c <= "~" else f"\\x{ord(c):02x}") for c in text) + '"'


def verdict(words):
    kind, *rest = words.split()
    if kind == "Undecided":
        return f"Verdict::Undecided(Cmp::Mask({int(rest[1])}))"
    return f"Verdict::Unavailable(Why::{rest[0]})" if rest else f"Verdict::{kind}"


def runs_text(runs):
    return "&[" + ", ".join(f"Run {{ first: {f}, end: {e}, verdict: {verdict(v)} }}" for f, e, v in runs) + "]"


def said_text(said):
    return f"Said::Reason({literal(said)})" if isinstance(said, str) else f"Said::Flight({runs_text(said)})"


def main():
    print("""// Texts for a chart and what they show, and texts that are refused, made by `oracle/table_of_charts.py`, which reads them
// by itself. A percent sign and a digit stand for a time: `%0`, `%1`, `%2` for 2024-10-27T00:00:00.000Z and one and two
// seconds later, `%8` for a day later, `%9` for a day and a millisecond later.
use raim_model::{Cmp, Run, TextWhy, Verdict, Why};

// What a block says.
pub enum Said {
    Flight(&'static [Run]),
    Reason(&'static [u8]),
}

// What a text shows.
pub enum Shown {
    Flight(&'static [Run]),
    Fleet(&'static [Said]),
}

pub type Read = (&'static [u8], Shown);

pub type Refused = (&'static [u8], u32, TextWhy);

pub static SHOWN: &[Read] = &[""")
    for title, rows in READ:
        print("    //", title)
        for row in rows:
            lines = lines_of(spelled(row))
            fleet = lines[:1] == ["route 1\n"]
            read = (fleet_of if fleet else flight_of)(lines)
            assert isinstance(read, list), (row, read)
            inside = f"Shown::Fleet(&[{', '.join(map(said_text, read))}])" if fleet else f"Shown::Flight({runs_text(read)})"
            print(f"    ({literal(row)}, {inside}),")
    print("];\n\npub static REFUSED: &[Refused] = &[")
    for title, rows in REFUSED:
        print("    //", title)
        for row in rows:
            lines = lines_of(spelled(row))
            fault = (fleet_of if lines[:1] == ["route 1\n"] else flight_of)(lines)
            assert isinstance(fault, tuple), (row, fault)
            print(f"    ({literal(row)}, {fault[0] + 1}, TextWhy::{fault[1]}),")
    print("];")


main()
