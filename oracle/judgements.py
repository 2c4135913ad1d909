#!/usr/bin/env python3
"""The line that `judged_pieces LIMITS ALMANAC OUTAGES ROUTE N` prints, worked out by `verdicts.py`: N milliseconds spread evenly over a
flight, each judged by itself, and a checksum of their verdicts' texts.

Usage: python3 oracle/judgements.py
It prints the lines of the stored run of `crates/judged_pieces` that have a number in place of a list, over the files that they name.
"""
from judged_pieces import CRATE, case_of, spelled
from verdicts import verdict

KINDS = ("Available", "Unavailable", "Undecided", "Overflow")


def fnv(text):
    """FNV-1a of 64 bits."""
    state = 14_695_981_039_346_656_037
    for byte in text:
        state = (state ^ byte) * 1_099_511_628_211 % 2**64
    return state


def line(count, limits, almanac, outages, route):
    case = case_of(limits, almanac, outages, route)
    first, end = case.route[0].at, case.route[-1].at
    times = [first + k * (end - first) // count for k in range(count)]
    verdicts = [spelled(verdict(case, t, t)) for t in times]
    counts = [sum(words[0] == kind for words in verdicts) for kind in KINDS]
    texts = "".join(" ".join(words) + "\n" for words in verdicts)
    said = " ".join(f"{kind.lower()} {n}" for kind, n in zip(KINDS, counts))
    return f"judged {count} {said} checksum {fnv(texts.encode()):016x}"


if __name__ == "__main__":
    words = (CRATE / "args").read_text().split()
    for *files, asked in (words[k:k + 5] for k in range(0, len(words), 5)):
        if asked.isdigit():
            print(line(int(asked), *files), flush=True)
