#!/usr/bin/env python3
"""Runs the program `notice` on random files of messages, and kills it while it takes one in.

What is wanted comes from `oracle/table_of_messages.py` and the rule for a whole list of notices. After each file its book is listed, and
read by the shell of SQLite. After a kill the book has the first notices of the file, however many, and is whole.

Usage: python3 trials/notice_files.py [FILES [KILLS [SEED]]]
The program is built by `./notice` before, and the shell is `sqlite3`.
"""
import os
import random
import subprocess
import sys
import tempfile
import time

import notice_commands as commands
import table_of_messages as table

BINARY = os.path.join(commands.HERE, "..", "crates", "notice_cli", "out", "notice_cli")
MINUTES = {"B": "2024 301 0000", "C": "2024 301 0001", "D": "2024 301 0002", "E": "2024 301 0003", "F": "2024 301 0004", "G": "2024 301 0005", "-": "UFN"}
TYPES = {"add": "FCSTMX", "move": "FCSTRESCD", "cancel": "FCSTCANC"}


def message(notice):
    kind, number, about = notice[:3]
    start, end = ("N/A", "N/A") if kind == "cancel" else (MINUTES[letter] for letter in notice[3:])
    target, prn = ("N/A", about) if kind == "add" else (f"{about:07d}", 1)
    return f"NANU TYPE: {TYPES[kind]}\nNANU NUMBER: {number:07d}\nREFERENCE: {target}\nPRN: {prn}\nSTART: {start}\nSTOP: {end}\n"


def write(path, notices):
    with open(path, "w", encoding="ascii") as file:
        file.write("".join(message(notice) for notice in notices))


def accepted(notices, answers):
    """The notices of a file that are accepted: all, or those before the last, which was refused."""
    return notices[:-1] if answers else notices


def try_files(folder, count):
    wrong = 0
    for number, (notices, answers, _) in enumerate(table.files(range(1000, 1000 + count))):
        book, path = (os.path.join(folder, f"{name}{number}") for name in ("book", "file"))
        write(path, notices)
        held = accepted(notices, answers)
        for command, wanted in [
            (["file", path], (2, "", f"notice: {answers[0]}\n") if answers else (0, "", "")),
            (["list"], (0, commands.listing(held), "")),
        ]:
            found = commands.run(book, command)
            if found != wanted:
                wrong += 1
                print(f"file {number}: {command}: {found}, wanted {wanted}")
        for line in commands.differences(book, held):
            wrong += 1
            print(f"file {number}: {line}")
    return wrong


def try_kills(folder, count):
    """Kills the program while it takes a file of a hundred Adds; answers how many ended by themselves, how many left no book, what was held, and what was wrong."""
    notices = [("add", number, 1 + number % 32, "B", "-") for number in range(1, 101)]
    path = os.path.join(folder, "file")
    write(path, notices)
    begin = time.monotonic()
    subprocess.run([BINARY, os.path.join(folder, "times.db"), "file", path], check=True)
    usual, ended, unmade, held_counts, wrong = time.monotonic() - begin, 0, 0, set(), 0
    for number in range(count):
        book = os.path.join(folder, f"killed{number}.db")
        process = subprocess.Popen([BINARY, book, "file", path], stdout=subprocess.DEVNULL, stderr=subprocess.DEVNULL)
        time.sleep(random.uniform(0, 1.1 * usual))
        process.kill()
        has_ended = process.wait() == 0
        ended += has_ended
        status, output, note = commands.run(book, ["list"])
        if not has_ended and (status, output, note) in (commands.MISSING, commands.NO_BOOK):
            # It was killed before there was a book.
            unmade += 1
            continue
        held = notices[: output.count("\n")]
        held_counts.add(len(held))
        if (status, note) != (0, "") or output != commands.listing(held) or (has_ended and held != notices):
            wrong += 1
            print(f"kill {number}: list ended with {status} {note!r} {output!r}")
        for line in commands.differences(book, held):
            wrong += 1
            print(f"kill {number}: {line}")
    return ended, unmade, len(held_counts), wrong


def main():
    files = int(sys.argv[1]) if len(sys.argv) > 1 else 60
    kills = int(sys.argv[2]) if len(sys.argv) > 2 else 60
    random.seed(int(sys.argv[3]) if len(sys.argv) > 3 else 1)
    with tempfile.TemporaryDirectory() as folder:
        wrong = try_files(folder, files)
        ended, unmade, counts, torn = try_kills(folder, kills)
    print(f"{files} files, {wrong} differences; {kills} kills, {ended} too late, {unmade} before there was a book, {counts} different numbers of notices held, {torn} differences")
    return 1 if wrong or torn else 0


if __name__ == "__main__":
    sys.exit(main())
