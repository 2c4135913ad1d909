#!/usr/bin/env python3
"""Counts the instructions that `read_yuma` and `read_sem` take on almanacs of 1 MiB, by `valgrind --tool=callgrind`.

For each kind of almanac it prints the instructions a byte, above those for an empty file, and what the
program answers. Instructions are counted and not timed, so the figures are the same on every run.

Usage: python3 bench/read_records.py
"""
import sys
import tempfile
from pathlib import Path

from callgrind import LONGEST, count, padded, within, worst_of

HERE = Path(__file__).resolve().parent.parent
PROGRAM = HERE / "crates/almanac_reader/out/almanac_reader"
# The most instructions a byte that each form may take.
MOST_INSTRUCTIONS = {"yuma": 60, "sem": 75}
YUMA = (HERE / "examples/four-satellites.alm").read_bytes()
SEM = (HERE / "examples/four-satellites.al3").read_bytes()
# The lines of a record in each form.
LINES = {"yuma": YUMA.split(b"\n\n")[0].split(b"\n"), "sem": SEM.split(b"\n\n")[1].split(b"\n")}


def yuma_of(longer):
    """32 records whose lines are made longer."""
    records = []
    for prn in range(1, 33):
        lines = list(LINES["yuma"])
        lines[1] = b"ID: %02d" % prn
        records.append(b"\n".join(longer(k, line) for k, line in enumerate(lines)))
    return b"\n".join(records) + b"\n"


def sem_of(longer):
    """32 records whose lines are made longer."""
    records = []
    for prn in range(1, 33):
        lines = list(LINES["sem"])
        lines[0] = b"%d" % prn
        records.append(b"\n".join(longer(line) for line in lines))
    return b"32\n290 405504\n" + b"\n".join(records) + b"\n"


DECIMAL_LINES = range(3, 13)
YUMA_ROOM = LONGEST // 32 // 14 - 60
SEM_ROOM = LONGEST // 32 // 8 - 80


def yuma_zeros(k, line):
    """Zeros in front of the digits of every decimal."""
    if k not in DECIMAL_LINES:
        return line
    label, value = line.split(b":")
    sign = b"-" if b"-0" in value.strip()[:2] else b""
    return label + b": " + sign + b"0" * (YUMA_ROOM * 14 // 10 - 80) + value.strip().lstrip(b"-")


def sem_zeros(line):
    """Zeros in front of the digits of every decimal."""
    words = line.split()
    if len(words) < 3:
        return line
    each = b"0" * (SEM_ROOM * 8 // 9 - 60)
    return b" ".join(w[:1] + each + w[1:] if w[:1] == b"-" else each + w for w in words)


ALMANACS = {
    "yuma": {
        "line feeds behind four satellites": padded(YUMA, b"\n"),
        "blank lines behind four satellites": padded(YUMA, b" \t\r\n"),
        "blanks behind four satellites": padded(YUMA, b" "),
        "32 records of blanks behind values": yuma_of(lambda k, line: line + b" " * YUMA_ROOM),
        "32 records of blanks in the labels": yuma_of(
            lambda k, line: line.replace(b":", b" " * YUMA_ROOM + b":") if k else line),
        "32 records of stars": yuma_of(lambda k, line: line if k else b"*" * (LONGEST // 32 - 600)),
        "32 records of long decimals": yuma_of(yuma_zeros),
        "one line of stars": b"*" * LONGEST,
        "one label of blanks": padded(b"*\n", b" i d"),
        "one decimal": padded(b"\n".join(LINES["yuma"][:3]) + b"\nEccentricity: ", b"0"),
        "all bytes": (bytes(range(256)) * LONGEST)[:LONGEST],
    },
    "sem": {
        "line feeds behind four satellites": padded(SEM, b"\n"),
        "blank lines behind four satellites": padded(SEM, b" \t\r\n"),
        "blanks behind four satellites": padded(SEM, b" "),
        "32 records of blanks between words": sem_of(
            lambda line: (b" " * (LONGEST // 32 // 6 - 100)).join(line.split())),
        "32 records of blanks behind words": sem_of(lambda line: line + b" " * SEM_ROOM),
        "32 records of long decimals": sem_of(sem_zeros),
        "a long name": padded(b"1 ", b"name "),
        "one line of words": padded(b"1\n", b"1 "),
        "one decimal": padded(b"1\n290 ", b"0"),
        "all bytes": (bytes(range(256)) * LONGEST)[:LONGEST],
    },
}


def run(path, form, content):
    """The instructions, and what the program answers, for an almanac of this content."""
    path.write_bytes(content)
    return count([PROGRAM, form, path.name], path.parent)


def main():
    if not PROGRAM.exists():
        sys.exit("build it first: rt run in crates/almanac_reader")
    status = 0
    with tempfile.TemporaryDirectory() as folder:
        path = Path(folder) / "almanac"
        for form, almanacs in ALMANACS.items():
            least, _ = run(path, form, b"")

            def show(name, content, each, answer, form=form):
                print(f"{form:5}{name:36} {len(content):>9} bytes {each:8.1f} a byte   {answer.splitlines()[0]}")

            worst = worst_of(almanacs, least, lambda content, form=form: run(path, form, content), show)
            status = max(status, within(worst, MOST_INSTRUCTIONS[form]))
    return status


sys.exit(main())
