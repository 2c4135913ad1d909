#!/usr/bin/env python3
"""Prints `crates/book_cases/src/message_rows.rt`: messages with one line changed, and files of messages, each with what a run of it says.
The texts are read here by the tables of the format, and times by Python's own calendar; what a book says of notices comes from
`table_of_books.py`, the rule for a whole list of notices.

Usage: python3 oracle/table_of_messages.py > crates/book_cases/src/message_rows.rt
"""
import datetime
import random
import re

import table_of_books as rule

EPOCH = datetime.datetime(1980, 1, 6)
LABELS = ["nanutype", "nanunumber", "reference", "prn", "start", "stop"]
KINDS = dict.fromkeys(["FCSTDV", "FCSTMX", "UNUSUFN", "UNUNOREF"], "add") | dict.fromkeys(["FCSTRESCD", "UNUSABLE"], "move") | {"FCSTCANC": "cancel"}


class Refused(Exception):
    pass


def need(test, why):
    if not test:
        raise Refused(why)


def seven(value):
    need(re.fullmatch(r"[0-9]{7}", value), "Word")
    need(int(value) >= 1, "Range")
    return int(value)


def time(value):
    found = re.fullmatch(r"([0-9]{4})[ \t]+([0-9]{3})[ \t]+([0-9]{2})([0-9]{2})", value)
    need(found, "Word")
    year, day, hour, minute = map(int, found.groups())
    try:
        start = datetime.datetime(year, 1, 1)
        at = start + datetime.timedelta(days=day - 1)
        need(day >= 1 and at.year == year and hour < 24 and minute < 60, "Time")
    except (ValueError, OverflowError):
        raise Refused("Time")
    at += datetime.timedelta(hours=hour, minutes=minute)
    need(at >= EPOCH, "Time")
    return (at - EPOCH) // datetime.timedelta(milliseconds=1)


def value_of(place, line):
    label, colon, value = line.partition(":")
    need(colon and re.sub(r"[ \t]", "", label).lower() == LABELS[place], "Label")
    return value.strip(" \t")


def none(value):
    need(value == "N/A", "Word")


def field(message, place, value):
    """What the value of a line says after those before it."""
    if place == 0:
        need(value in KINDS, "Word")
        return KINDS[value]
    kind = message[0]
    if place == 1:
        return seven(value)
    if place == 2:
        return none(value) if kind == "add" else seven(value)
    if place == 3:
        need(re.fullmatch(r"[0-9]{1,10}", value), "Word")
        need(1 <= int(value) <= 32, "Range")
        return int(value)
    if kind == "cancel":
        return none(value)
    if place == 4:
        return time(value)
    end = None if value == "UFN" else time(value)
    need(end is None or end > message[4], "EmptySpan")
    return end


def notice(message):
    kind, number, target, prn, start, end = message
    return (kind, number, target) if kind == "cancel" else (kind, number, prn if kind == "add" else target, start, end)


def read(text):
    """The notices that a text says, or the line and the cause of its refusal."""
    notices, message, last = [], [], 0
    for at, line in enumerate(text.replace("\r\n", "\n").split("\n"), 1):
        if not line.strip(" \t"):
            continue
        last = at
        try:
            message.append(field(message, len(message), value_of(len(message), line)))
        except Refused as refused:
            return at, str(refused)
        if len(message) == 6:
            notices.append(notice(message))
            message = []
    return notices if notices and not message else (last, "Short")


def answer(text):
    """What a run of the text says over an empty book."""
    found = read(text)
    if isinstance(found, tuple):
        return f"line {found[0]}: {found[1]}"
    held = []
    for at, said in enumerate(found, 1):
        # No file here says more of times than that they are in order, which `read` has seen.
        plain = said if said[0] == "cancel" else (*said[:3], "A", "-")
        why = rule.answer(held, plain)
        if why != "Done":
            return f"message {at}: {why}"
        held.append(plain)
    return ""


WHOLE = {
    "A": ["NANU TYPE: FCSTDV", "NANU NUMBER: 2024061", "REFERENCE: N/A", "PRN: 05", "START: 2024 301 0002", "STOP: 2024 301 0004"],
    "R": ["NANU TYPE: FCSTRESCD", "NANU NUMBER: 2024062", "REFERENCE: 2024061", "PRN: 05", "START: 2024 301 0003", "STOP: UFN"],
    "C": ["NANU TYPE: FCSTCANC", "NANU NUMBER: 2024063", "REFERENCE: 2024061", "PRN: 05", "START: N/A", "STOP: N/A"],
}
CHANGES = [
    ("A", 1, ["NANU TYPE FCSTDV", "", "TYPE: FCSTDV", "NANU TYPES: FCSTDV", "NANU TYP: FCSTDV", ": FCSTDV", "NANU TYPE:", "NANU TYPE: fcstdv",
              "NANU TYPE: FCSTDV X", "NANU TYPE: FCSTDVX", "NANU TYPE:: FCSTDV", "nAnUtYpE:FCSTMX", "\tn a\tnu type : UNUSUFN\t ", "NANU TYPE: UNUNOREF",
              "NANU TYPE: FCSTRESCD", "NANU TYPE: UNUSABLE", "NANU TYPE: FCSTCANC"]),
    ("A", 2, ["NANU NUMBER: 0000000", "NANU NUMBER: 202406", "NANU NUMBER: 20240610", "NANU NUMBER: 202406X", "NANU NUMBER: +202406", "NANU NUMBER: 2024 061",
              "NANU NUMBER:", "NUMBER: 2024061", "NANU NUMBER 2024061", "NANU NUMBER: 0000001", "NANU NUMBER: 9999999", "nanunumber:2024061"]),
    ("A", 3, ["REFERENCE: 2024060", "REFERENCE: n/a", "REFERENCE: N / A", "REFERENCE:", "REFERENCES: N/A", "PRN: 05", "Reference :\tN/A"]),
    ("A", 4, ["PRN: 0", "PRN: 33", "PRN: 256", "PRN: 9999999999", "PRN: 00000000005", "PRN: -5", "PRN: 5.0", "PRN: 5 6", "PRN: N/A", "PRN:", "SVN: 5", "PRN: 5",
              "PRN: 0000000032", "P R N: 1"]),
    ("A", 5, ["START: N/A", "START: UFN", "START: 2024 301 2400", "START: 2024 301 0060", "START: 2024 000 0000", "START: 2023 366 0000", "START: 2024 367 0000",
              "START: 1980 005 2359", "START: 0000 001 0000", "START: 24 301 0002", "START: 2024 31 0002", "START: 2024 301 002", "START: 2024 301 00:02",
              "START: 2024 301 00002", "START: 2024 301", "START: 2024 301 0002 0", "START: 2024301 0002", "START: 2024-301 0002", "STOP: 2024 301 0002",
              "START: 2024 301 0004", "START: 9999 365 2359", "START: 1980 006 0000", "START:2024\t301\t \t0003"]),
    ("A", 6, ["STOP: 2024 301 0002", "STOP: 2024 301 0001", "STOP: 2023 365 2359", "STOP: 2024 301 0003", "STOP: 2024 366 2359", "STOP: 2024 367 0000", "STOP: 9999 365 2359",
              "STOP: UFN", "STOP: ufn", "STOP: UFN UFN", "STOP: N/A", "STOP:", "END: UFN", "STOP 2024 301 0004", "STOP: 2024 301 0004 X"]),
    ("R", 2, ["NANU NUMBER: 0000000", "NANU NUMBER: 2024061"]),
    ("R", 3, ["REFERENCE: N/A", "REFERENCE: 0000000", "REFERENCE: 202406", "REFERENCE: 20240611", "REFERENCE: 9999999"]),
    ("R", 4, ["PRN: 0", "PRN: 33", "PRN: N/A", "PRN: 32"]),
    ("R", 5, ["START: N/A", "START: 2024 301 0060", "START: 2024 3010003"]),
    ("R", 6, ["STOP: N/A", "STOP: 2024 301 0003", "STOP: 2024 301 0004", "STOP: 2024 301 2460"]),
    ("C", 3, ["REFERENCE: N/A", "REFERENCE: 0000000", "REFERENCE:2024061"]),
    ("C", 4, ["PRN: 0", "PRN: 33", "PRN:"]),
    ("C", 5, ["START: 2024 301 0002", "START: UFN", "START: n/a", "start:N/A"]),
    ("C", 6, ["STOP: UFN", "STOP: 2024 301 0004", "STOP: N/A N/A", "STOP : N/A "]),
]


def spelled(text):
    return text.replace("\t", "\\t")


def files(seeds):
    """Notices of a file, the answer to all of them and the outages in effect at the end."""
    for seed in seeds:
        random.seed(seed)
        notices, answers, held = [], [], []
        for said in rule.random_book(seed):
            times = [letter for letter in said[3:] if letter in "AZ"]
            if not rule.is_well_formed(said) or times or said[1] > 9_999_999 or (said[0] != "add" and said[2] > 9_999_999):
                continue
            # Few are refused, so that files come to their end.
            why = rule.answer(held, said)
            if why != "Done" and random.random() < 0.85:
                continue
            notices.append(said)
            if why != "Done":
                answers.append(f"message {len(notices)}: {why}")
                break
            held.append(said)
        if notices:
            yield notices, answers, rule.in_effect(held)


def main():
    print("// Messages with one line changed, and files of messages, made by `oracle/table_of_messages.py`, which reads the texts by itself.\n")
    print("// A line a row: the message, the number of its line, what stands there, and what a run says, nothing where all is accepted.")
    print('pub const CHANGES: &str = "', end="")
    for name, at, lines in CHANGES:
        for line in lines:
            text = "".join(old + "\n" for old in WHOLE[name][: at - 1] + [line] + WHOLE[name][at:])
            print(f"{name}|{at}|{spelled(line)}|{answer(text)}")
    print('";\n')
    print("// A line a file: its notices, each ended by `;`, what a run says, and the lines of the outages at the end. `B` to `G` stand for six")
    print("// minutes of 2024-10-27 from 00:00 on.")
    print('pub const FILES: &str = "', end="")
    for notices, answers, entries in files(range(100, 116)):
        print("|".join(["".join(rule.words(n) + ";" for n in notices), "".join(answers), "".join(rule.line(e) + ";" for e in entries)]))
    print('";')


if __name__ == "__main__":
    main()
