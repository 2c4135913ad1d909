#!/usr/bin/env python3
"""Runs the program `notice` on random commands, and holds status, output and note of each against a book that is kept here.

What is wanted comes from `oracle/table_of_books.py`: the rule for a whole list of notices. After each book its file is read by the shell
of SQLite, which knows nothing of this project: its own check of the file, the accepted notices, and the entries in effect.

Usage: python3 trials/notice_commands.py [BOOKS]
The program is built by `./notice` before, and the shell is `sqlite3`.
"""
import os
import subprocess
import sys
import tempfile

HERE = os.path.dirname(os.path.abspath(__file__))
sys.path.insert(0, os.path.join(HERE, "..", "oracle"))
import table_of_books as rule  # noqa: E402

PROGRAM = os.path.join(HERE, "..", "notice")
TEXTS = {
    "A": "1980-01-06T00:00:00.000Z", "B": "2024-10-27T00:00:00.000Z", "C": "2024-10-27T00:01:00.000Z", "D": "2024-10-27T00:02:00.000Z",
    "E": "2024-10-27T00:03:00.000Z", "F": "2024-10-27T00:04:00.000Z", "G": "2024-10-27T00:05:00.000Z", "Z": "9999-12-31T23:59:59.999Z", "-": "-",
}
MISSING, NO_BOOK = ((3, "", f"notice: keeper fault: {why}\n") for why in ("missing", "no book"))
KINDS = {"add": 0, "move": 1, "cancel": 2}


def words(notice):
    times = [TEXTS[letter] for letter in notice[3:]]
    return [str(word) for word in notice[:3]] + times


def run(book, command):
    done = subprocess.run([PROGRAM, book, *command], capture_output=True, text=True)
    return done.returncode, done.stdout, done.stderr


def listing(held):
    return "".join(f"{prn:02d} {TEXTS[start]} {TEXTS[end]}\n" for _, prn, start, end in rule.in_effect(held))


def shell(book, sql):
    done = subprocess.run(["sqlite3", book, sql], capture_output=True, text=True)
    return (done.stdout + done.stderr).splitlines()


def row(notice):
    kind, number, about = notice[:3]
    start, end = (str(rule.TIMES[notice[3]]), str(rule.TIMES.get(notice[4], ""))) if kind != "cancel" else ("0", "")
    target, prn = (0, about) if kind == "add" else (about, 0)
    return "|".join(str(value) for value in (number, KINDS[kind], target, prn, start, end))


def entry(live):
    number, prn, start, end = live
    return f"{number}|{prn}|{rule.TIMES[start]}|{rule.TIMES.get(end, '')}"


def differences(book, held):
    """What the shell of SQLite reads of a book otherwise than is wanted."""
    for sql, wanted in [
        ("PRAGMA integrity_check", ["ok"]),
        ("SELECT * FROM notice ORDER BY number", [row(notice) for notice in held]),
        ("SELECT * FROM live ORDER BY number", [entry(live) for live in rule.in_effect(held)]),
    ]:
        found = shell(book, sql)
        if found != wanted:
            yield f"{sql}: {found}, wanted {wanted}"


def try_book(book, notices):
    """Runs the commands, with a list behind each; answers how many were run, and what differed."""
    held, wrong, is_made = [], [], False
    for notice in notices:
        answer = rule.answer(held, notice)
        if answer == "Done":
            held.append(notice)
        # A move or a cancel makes no book.
        is_made = is_made or notice[0] == "add"
        for command, wanted in [
            (words(notice), (0, "", "") if answer == "Done" else (2, "", f"notice: refused {answer}\n")),
            (["list"], (0, listing(held), "")),
        ]:
            found = run(book, command)
            if found != (wanted if is_made else MISSING):
                wrong.append(f"{command}: {found}, wanted {wanted if is_made else MISSING}")
    wrong.extend(differences(book, held) if is_made else ["a file was made"] * os.path.exists(book))
    return 2 * len(notices), wrong


def main():
    count = int(sys.argv[1]) if len(sys.argv) > 1 else 60
    books = [book for book in rule.WRITTEN if book]
    books += [rule.random_book(seed) for seed in range(1000, 1000 + max(0, count - len(books)))]
    commands, faults = 0, 0
    with tempfile.TemporaryDirectory() as folder:
        for number, notices in enumerate(books[:count]):
            run_count, wrong = try_book(os.path.join(folder, f"book{number}.db"), notices)
            commands += run_count
            faults += len(wrong)
            for line in wrong:
                print(f"book {number}: {line}")
    print(f"{min(count, len(books))} books, {commands} commands, {faults} differences")
    return 1 if faults else 0


if __name__ == "__main__":
    sys.exit(main())
