#!/usr/bin/env python3
"""Counts the instructions of public calls, by `valgrind --tool=callgrind`.

For each kind of call it runs `call_bench KIND N` and `call_bench KIND 0`, checks the line that it prints against the one
that oracle/bench_lines.py works out by the written definitions, and prints the instructions a call (of halving: a
judgement), the arguments' and the sum's own cost included, beside the most that they may be.

Usage: python3 bench/calls.py [KIND ..]
"""
import sys
from pathlib import Path

from callgrind import count

HERE = Path(__file__).resolve().parent.parent
PROGRAM = HERE / "crates/call_bench/out/call_bench"
sys.path.insert(0, str(HERE / "oracle"))
from bench_lines import line  # noqa: E402

# kind: the calls of the run, the judgements a call, the most instructions a call or a judgement
KINDS = {
    "mul": (10_000, 1, 388),
    "sqr": (10_000, 1, 354),
    "div": (10_000, 1, 934),
    "sqrt": (10_000, 1, 763),
    "decimal": (10_000, 1, 547),
    "sine": (10_000, 1, 1_000),
    "kepler": (300, 1, 3_000),
    "position": (300, 1, 3_200),
    "detect": (256, 1, 30_000),
    "exclude": (64, 1, 120_000),
    "frame": (1_000, 1, 4_500),
    "look": (1_000, 1, 3_500),
    "hidden_look": (1_000, 1, 1_500),
    "form_product": (10_000, 1, 60),
    "form_sine": (1_000, 1, 900),
    "form_position": (300, 1, 6_500),
    "form_frame": (300, 1, 6_000),
    "island": (1_000, 81, 60),
    "alternating": (10, 131_071, 60),
}


def main():
    if not PROGRAM.exists():
        sys.exit("build it first: rt run in crates/call_bench")
    status = 0
    for kind in sys.argv[1:] or KINDS:
        calls, each, most = KINDS[kind]
        instructions, printed = count([PROGRAM, kind, calls])
        least, _ = count([PROGRAM, kind, 0])
        taken = (instructions - least) / (calls * each)
        good = printed == line(kind, calls) and taken <= most
        status |= not good
        print(f"{kind:12} {taken:8.1f} instructions, at most {most}{'' if good else '  TOO SLOW OR WRONG'}")
    return status


sys.exit(main())
