#!/usr/bin/env python3
"""Counts the instructions of judgements and of whole runs, by `valgrind --tool=callgrind`.

A judgement of one millisecond is counted as the difference of twenty and none by `judged_pieces` over a real constellation of 31
satellites, for detection and for exclusion; its line is held against the one that oracle/judgements.py works out. Whole runs are those
of `raim`, and one of `raim_vert`. Of the longest one the memory is looked at too, while it runs by itself: the greatest resident set that the system has
counted. Each figure is printed beside the most that it may be.

Usage: python3 bench/judgements.py [detect|exclude|demo|flight|vertical|memory ..]
Build the programs first: `rt run` in crates/judged_pieces, in crates/raim_cli and in crates/raim_vert_cli.
"""
import re
import subprocess
import sys
import time
from pathlib import Path

from callgrind import count

HERE = Path(__file__).resolve().parent.parent
BENCH = HERE / "crates/judged_pieces/out/judged_pieces"
RAIM = HERE / "crates/raim_cli/out/raim_cli"
RAIM_VERT = HERE / "crates/raim_vert_cli/out/raim_vert_cli"
DATA = HERE / "crates/judged_pieces/data"
FILES = ["gps.alm", "two.outages", "jfk-lhr.route"]
TIMES = 20
# name: the limits, the place of the line in the stored run, the most instructions a judgement
JUDGEMENTS = {"detect": ("approach.limits", 0, 150_000), "exclude": ("enroute.limits", 1, 330_000)}
# name: whole runs, by their words, and the most instructions of each
RUNS = {
    "demo": [(["demo", "1"], 6_000_000), (["demo", "345"], 600_000_000)],
    "flight": [
        (["predict", "approach.limits", *FILES], 2_000_000_000),
        (["predict", "enroute.limits", *FILES], 14_000_000_000),
    ],
}


# the vertical flight under 50 m, with the biases of a receiver that is held to it, and its most instructions
VERTICAL = ([HERE / "examples/new-york-london/vertical-50m.limits", *FILES, "50000"], 2_100_000_000)

# the most kilobytes that a run may hold
MEMORY = 8192


def shown(name, taken, most, good=True, unit="instructions"):
    """Prints a figure beside its limit: whether it is kept."""
    good = good and taken <= most
    print(f"{name:32} {taken:16,.0f} {unit}, at most {most:,}{'' if good else '  TOO MANY OR WRONG'}", flush=True)
    return good


def memory(words):
    """The greatest resident set of a run in kilobytes, as far as it was seen."""
    run = subprocess.Popen([RAIM, *words], cwd=DATA, stdout=subprocess.DEVNULL)
    most = 0
    while run.poll() is None:
        found = re.search(r"VmHWM:\s*(\d+)", Path(f"/proc/{run.pid}/status").read_text())
        if found:
            most = max(most, int(found.group(1)))
        time.sleep(0.05)
    return most


def judgement(name):
    limits, place, most = JUDGEMENTS[name]
    lines = (HERE / "crates/judged_pieces/stdout").read_text().splitlines()
    stored = [line for line in lines if line.startswith("judged ")][place]
    words = [limits, *FILES]
    instructions, printed = count([BENCH, *words, TIMES], DATA)
    least, _ = count([BENCH, *words, 0], DATA)
    return shown(f"one judgement, {name}", (instructions - least) / TIMES, most, printed == stored)


def main():
    for program in (BENCH, RAIM, RAIM_VERT):
        if not program.exists():
            sys.exit(f"build it first: {program}")
    good = True
    for name in sys.argv[1:] or [*JUDGEMENTS, *RUNS, "vertical", "memory"]:
        if name in JUDGEMENTS:
            good &= judgement(name)
        elif name == "vertical":
            words, most = VERTICAL
            good &= shown("vertical flight under 50 m", count([RAIM_VERT, *words], DATA)[0], most)
        elif name == "memory":
            good &= shown("memory of the longest run", memory(RUNS["flight"][1][0]), MEMORY, unit="kB")
        else:
            for words, most in RUNS[name]:
                good &= shown(" ".join(words[:2]), count([RAIM, *words], DATA)[0], most)
    return 0 if good else 1


sys.exit(main())
