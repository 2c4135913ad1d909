#!/usr/bin/env python3
"""Prints `crates/text_cases/src/reports/tables.rt`: reports, and texts that differ from them, with the runs that they say or the line and
the cause of their refusal. They are read here from the rules of docs/FORMATS.md, by a pattern and the calendar of Python.

Usage: python3 oracle/table_of_reports.py > crates/text_cases/src/reports/tables.rt
"""
import re

from utc import ms_of

LEAP = 18
# what the letters of a row stand for
TIMES = {"X": "2024-10-27T00:00:00.000Z", "Y": "2024-10-27T00:00:01.000Z"}
FORMS = [
    "Available",
    "Unavailable Few",
    "Unavailable Singular",
    "Unavailable Slope",
    r"Undecided Mask (\d\d)",
    "Undecided Det",
    r"Undecided Slope (\d\d)",
    r"Undecided DetWithout (\d\d)",
    r"Undecided SlopeWithout (\d\d) (\d\d)",
]

READ = [
    ("No run has no line.", [""]),
    ("The nine verdicts.", ["X Y " + re.sub(r"\(\\d\\d\)", "%02d", form) % prns + "\n" for form, prns in zip(FORMS, [(), (), (), (), (1,), (), (32,), (10,), (7, 31)])]),
    ("A line feed ends a line, and the next begins.", ["X Y Available\nX Y Undecided Det\nX Y Unavailable Few\n"]),
    ("The first and the last millisecond that have a text.", ["1980-01-06T00:00:00.000Z 9999-12-31T23:59:59.999Z Available\n"]),
]
REFUSED = [
    ("No line feed ends the last line: tried before all else.", ["X Y Unavailable Few", "X Y Available\nX Y Available", "x"]),
    ("Blanks are one space, and only where one belongs.", ["X  Y Unavailable Few\n", "X Y  Available\n", " X Y Available\n", "X Y Available \n", "X\tY Available\n", "XY Available\n"]),
    ("A carriage return is a byte of its line.", ["X Y Unavailable Few\r\n", "X Y Available\n\rX Y Available\n"]),
    ("A line may not be empty.", ["\n", "X Y Available\n\n", "X Y\n", "X Y \n"]),
    ("A PRN has two digits.", ["X Y Undecided Mask 7\n", "X Y Undecided Mask 007\n", "X Y Undecided Mask 0x\n", "X Y Undecided SlopeWithout 07\n", "X Y Undecided Mask +7\n"]),
    ("Other words are no verdict.", ["X Y available\n", "X Y Unavailable\n", "X Y Undecided\n", "X Y Overflow 01\n", "X Y Undecided Det 01\n", "X Y Availablf\n"]),
    ("The words are tried before the times, the times before the PRNs.", ["Z Y Few\n", "Z Y Available\n", "X Z Undecided Mask 33\n", "X - Available\n"]),
    ("The PRNs are tried before the order of the times.", ["X Y Undecided Mask 33\n", "X Y Undecided Mask 00\n", "Y X Undecided SlopeWithout 07 33\n", "X Y Undecided DetWithout 99\n"]),
    ("The end is after the start.", ["Y X Available\n", "X X Undecided Det\n"]),
    ("The first line that is refused is named.", ["X Y Available\nY Z Undecided Mask 33\nX\n"]),
]


def run_of(line):
    """The run that a line without its line feed says, or the cause of its refusal."""
    words = line.split(" ", 2)
    if len(words) < 3 or not words[0] or not words[1]:
        return "Word"
    found = [(k, match) for k, form in enumerate(FORMS) if (match := re.fullmatch(form, words[2], re.ASCII))]
    if not found:
        return "Word"
    first, end = ms_of(words[0], LEAP), ms_of(words[1], LEAP)
    if first is None or end is None:
        return "Time"
    form, prns = found[0][0], [int(digits) for digits in found[0][1].groups()]
    if not all(1 <= prn <= 32 for prn in prns):
        return "Range"
    if end <= first:
        return "NotRising"
    kind, *rest = re.sub(r"\(.*", "", FORMS[form]).split()
    inside = f"({kind_of(kind)}::{rest[0]}" + (f"({', '.join(map(str, prns))})" if prns else "") + ")" if rest else ""
    return f"Run {{ first: {first}, end: {end}, verdict: Verdict::{kind}{inside} }}"


def kind_of(kind):
    return "Cmp" if kind == "Undecided" else "Why"


def answer(text):
    """The runs of a text, or the line and the cause of its refusal."""
    lines = text.split("\n")
    runs = []
    for number, line in enumerate(lines[:-1], 1):
        run = run_of(line)
        if not run.startswith("Run"):
            return number, run
        runs.append(run)
    return (len(lines), "Short") if lines[-1] else runs


def spelled(text):
    for letter, time in TIMES.items():
        text = text.replace(letter, time)
    return text


def literal(text):
    return 'b"' + text.replace("\r", "\\r").replace("\n", "\\n").replace("\t", "\\t") + '"'


def main():
    print("// Reports and what they say, and texts that are refused, made by `oracle/table_of_reports.py`, which reads them")
    print("// by itself. `X` stands for 2024-10-27T00:00:00.000Z, and `Y` for one second later.")
    print("use raim_model::{Cmp, Run, TextWhy, Verdict, Why};\n")
    print("pub type Read = (&'static [u8], &'static [Run]);\n\npub type Refused = (&'static [u8], u32, TextWhy);\n")
    print("pub fn reports() -> &'static [Read] {\n    &[")
    for about, texts in READ:
        print(f"        // {about}")
        for text in texts:
            print(f"        ({literal(text)}, &[{', '.join(answer(spelled(text)))}]),")
    print("    ]\n}\n\npub fn damaged_reports() -> &'static [Refused] {\n    &[")
    for about, texts in REFUSED:
        print(f"        // {about}")
        for text in texts:
            line, why = answer(spelled(text))
            print(f"        ({literal(text)}, {line}, TextWhy::{why}),")
    print("    ]\n}")


main()
