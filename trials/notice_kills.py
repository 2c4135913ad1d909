#!/usr/bin/env python3
"""Kills the program `notice` at random moments, and looks at the book after each kill.

Each round starts an `add`, kills it after a random time, and then lists. The book has the notice or has it not, both in the output of
`list` and in what the shell of SQLite reads, and its check of the file finds nothing wrong.

Usage: python3 trials/notice_kills.py [ROUNDS [SEED]]
The program is built by `./notice` before, and the shell is `sqlite3`.
"""
import os
import random
import subprocess
import sys
import tempfile
import time

import notice_commands as commands

BINARY = os.path.join(commands.HERE, "..", "crates", "notice_cli", "out", "notice_cli")


def add_words(number):
    return ["add", str(number), str(1 + number % 32), commands.TEXTS["B"], "-"]


def killed(book, number, wait):
    """Starts an add and kills it; answers whether it had ended by itself."""
    process = subprocess.Popen([BINARY, book, *add_words(number)], stdout=subprocess.DEVNULL, stderr=subprocess.DEVNULL)
    time.sleep(wait)
    process.kill()
    return process.wait() == 0


def usual_time(folder):
    """How long an add takes, in seconds: the middle of nine."""
    times = []
    for number in range(1, 10):
        begin = time.monotonic()
        subprocess.run([BINARY, os.path.join(folder, "times.db"), *add_words(number)], check=True)
        times.append(time.monotonic() - begin)
    return sorted(times)[4]


def main():
    rounds = int(sys.argv[1]) if len(sys.argv) > 1 else 200
    random.seed(int(sys.argv[2]) if len(sys.argv) > 2 else 1)
    ended, unmade, kept, wrong, held = 0, 0, 0, 0, []
    with tempfile.TemporaryDirectory() as folder:
        usual = usual_time(folder)
        for round_number in range(rounds):
            # A book for each hundred rounds, since one has 256 outages at most.
            book = os.path.join(folder, f"book{round_number // 100}.db")
            number = 1 + round_number % 100
            held = held if number > 1 else []
            has_ended = killed(book, number, random.uniform(0, 1.1 * usual))
            ended += has_ended
            status, output, note = commands.run(book, ["list"])
            notice = ("add", number, 1 + number % 32, "B", "-")
            if not held and not has_ended and (status, output, note) in (commands.MISSING, commands.NO_BOOK):
                # It was killed before there was a book.
                unmade += 1
                continue
            before, after = commands.listing(held), commands.listing(held + [notice])
            if (status, note) != (0, "") or output not in ([after] if has_ended else [before, after]):
                wrong += 1
                print(f"round {round_number}: list ended with {status} {note!r} {output!r}")
            elif output == after:
                kept += 1
                held = held + [notice]
            for line in commands.differences(book, held):
                wrong += 1
                print(f"round {round_number}: {line}")
    print(f"{rounds} kills, {ended} too late, {unmade} before there was a book, {kept} notices kept, {wrong} differences")
    return 1 if wrong else 0


if __name__ == "__main__":
    sys.exit(main())
