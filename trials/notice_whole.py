#!/usr/bin/env python3
"""Runs the program `notice` on books that are copied, damaged, shared and killed, and holds each answer against the rule for whole books.

A list either ends with status 0 and is what the rule says of the accepted notices, or it is refused with status 3. The parts:

  alone      after each kind of command BOOK is copied without the file beside it, and the copy has the same list
  damage     a book is cut at each 512 bytes, and one byte of each 512 is changed; the same of the file beside one whose command was killed,
             which is also deleted
  old        a book whose notices stand in the file beside it, as a command leaves it that is killed before it closes the book, is read, and
             the next command folds it into one file
  limits     an add to a book, where no file may grow past so many bytes: what is done is whole in the file, and where the closing failed
             the notice is held all the same, as the next command shows
  kills      an add is killed at random, three hundred times
  turns      twenty adds at once, twenty lists at once, and two hundred commands of four processes at once

Usage: python3 trials/notice_whole.py [PART..]
The program is built by `./notice` before, and the shell is `sqlite3`.
"""
import os
import random
import resource
import signal
import subprocess
import sys
import tempfile
import time

import notice_commands as commands

rule = commands.rule
BINARY = os.path.join(commands.HERE, "..", "crates", "notice_cli", "out", "notice_cli")
REFUSED = 3
TABLES = """CREATE TABLE notice (number INTEGER PRIMARY KEY, kind INTEGER NOT NULL, target INTEGER NOT NULL, prn INTEGER NOT NULL, start_ms INTEGER NOT NULL, end_ms INTEGER);
CREATE TABLE live (number INTEGER PRIMARY KEY, prn INTEGER NOT NULL, start_ms INTEGER NOT NULL, end_ms INTEGER);"""
MESSAGES = "NANU TYPE: FCSTDV\nNANU NUMBER: 0000009\nREFERENCE: N/A\nPRN: 7\nSTART: 2024 301 0001\nSTOP: 2024 301 0002\n"


def run(book, words):
    done = subprocess.run([BINARY, book, *words], capture_output=True, text=True)
    return done.returncode, done.stdout, done.stderr


def start(book, words):
    return subprocess.Popen([BINARY, book, *words], stdout=subprocess.PIPE, stderr=subprocess.PIPE, text=True)


def ended(process):
    out, note = process.communicate()
    return process.returncode, out, note


def add(number):
    return ("add", number, 1 + number % 32, "B", "-")


def outcome(book, helds):
    """'same' where the list is that of one of these books, 'refused' where it is refused, and otherwise what was said."""
    status, out, note = run(book, ["list"])
    if (status, note) == (0, "") and out in [commands.listing(held) for held in helds]:
        return "same"
    if status == REFUSED and out == "" and note.startswith("notice: keeper fault"):
        return "refused"
    return f"{status} {out!r} {note!r}"


class Count:
    def __init__(self):
        self.seen = {}
        self.wrong = 0

    def note(self, name, found):
        self.seen[found if found in ("same", "refused") else "wrong"] = self.seen.get(found if found in ("same", "refused") else "wrong", 0) + 1
        if found not in ("same", "refused"):
            self.wrong += 1
            print(f"{name}: {found}")

    def line(self, part):
        print(f"{part}: " + ", ".join(f"{count} {name}" for name, count in sorted(self.seen.items())))
        return self.wrong


def copied(folder, name, files):
    """A book of these files' bytes, in a folder of its own."""
    place = tempfile.mkdtemp(dir=folder)
    for suffix, content in files.items():
        if content is not None:
            with open(os.path.join(place, name + suffix), "wb") as file:
                file.write(content)
    return os.path.join(place, name)


def content(path):
    if not os.path.exists(path):
        return None
    with open(path, "rb") as file:
        return file.read()


def alone(folder, count):
    book, held = os.path.join(folder, "alone.db"), []
    for notice in [add(1), add(2), ("move", 3, 1, "C", "D"), ("cancel", 4, 2), add(5)]:
        found = run(book, commands.words(notice))
        if found != (0, "", ""):
            count.note(str(notice), str(found))
        held.append(notice)
        count.note(f"a copy after {notice}", "same" if outcome(copied(folder, "copy.db", {"": content(book)}), [held]) == "same" else "no copy")
    path = os.path.join(folder, "messages")
    with open(path, "w") as file:
        file.write(MESSAGES)
    run(book, ["file", path])
    held.append(("add", 9, 7, "C", "D"))
    count.note("a copy after a file", "same" if outcome(copied(folder, "copy.db", {"": content(book)}), [held]) == "same" else "no copy")
    return book, held


def damaged(folder, count, files, which, helds):
    """Cuts and changes one of the files at each 512 bytes."""
    whole = files[which]
    for at in range(0, len(whole), 512):
        cut = dict(files) | {which: whole[:at]}
        count.note(f"cut {which or 'book'} at {at}", outcome(copied(folder, "cut.db", cut), helds))
        spot = min(len(whole) - 1, at + random.randrange(512))
        other = bytearray(whole)
        other[spot] ^= 1 << random.randrange(8)
        count.note(f"a bit of {which or 'book'} at {spot}", outcome(copied(folder, "bit.db", dict(files) | {which: bytes(other)}), helds))
    count.note(f"without {which or 'book'}", outcome(copied(folder, "gone.db", dict(files) | {which: None}), helds))


def damage(folder, count):
    book, held = alone(folder, Count())
    damaged(folder, count, {"": content(book), "-wal": content(book + "-wal")}, "", [held])
    for at, (files, helds) in enumerate(killed_books(folder, 3)):
        damaged(folder, count, files, "", helds)
        damaged(folder, count, files, "-wal", helds)


def killed_books(folder, wanted):
    """Books beside which a killed command left a file with something in it, and the lists that they may have."""
    found, tries, number, held = 0, 0, 0, []
    book = os.path.join(folder, "killed.db")
    while found < wanted and tries < 2000:
        tries += 1
        number += 1
        process = start(book, commands.words(add(number)))
        time.sleep(random.uniform(0, 0.03))
        process.kill()
        has_ended = ended(process)[0] == 0
        files = {"": content(book), "-wal": content(book + "-wal")}
        helds = [held + [add(number)]] if has_ended else [held, held + [add(number)]]
        if not has_ended and files["-wal"] and files[""] and held:
            found += 1
            yield files, helds
        # What was kept goes on.
        out = run(book, ["list"])[1]
        held = next((h for h in reversed(helds) if commands.listing(h) == out), held)
        if len(held) > 20:
            book, held, number = os.path.join(folder, f"killed{tries}.db"), [], 0


def old(folder, count):
    for files, helds in killed_books(folder, 5):
        book = copied(folder, "old.db", files)
        count.note(f"a list of an old book with {len(files['-wal'])} bytes beside it", outcome(book, helds))
        out = run(book, ["list"])[1]
        held = next((held for held in helds if commands.listing(held) == out), None)
        if held is None:
            count.note("an old book", f"{out!r}")
            continue
        last = held[-1][1] + 5
        found = run(book, commands.words(add(last)))
        count.note("an add to it", "same" if found == (0, "", "") else str(found))
        count.note("the one file after it", "same" if outcome(copied(folder, "fold.db", {"": content(book)}), [held + [add(last)]]) == "same" else "no copy")
        for line in commands.differences(book, held + [add(last)]):
            count.note("the shell", line)


def limited(book, words, most):
    """Runs a command where no file may grow past so many bytes."""
    def limit():
        signal.signal(signal.SIGXFSZ, signal.SIG_IGN)
        resource.setrlimit(resource.RLIMIT_FSIZE, (most, most))
    done = subprocess.run([BINARY, book, *words], capture_output=True, text=True, preexec_fn=limit)
    return done.returncode, done.stdout, done.stderr


def long_book(book):
    """A book that the shell makes, with so many moves of its first outage that it is longer than the file beside a book; and its notices."""
    held = [add(1), add(2)] + [("move", number, 1, "BCDE"[number % 4], "-") for number in range(3, 20003)]
    rows = ", ".join("(" + ", ".join(word or "NULL" for word in commands.row(notice).split("|")) + ")" for notice in held)
    live = ", ".join("(" + ", ".join(word or "NULL" for word in commands.entry(entry).split("|")) + ")" for entry in rule.in_effect(held))
    said = subprocess.run(["sqlite3", book], input=f"{TABLES}INSERT INTO notice VALUES {rows};INSERT INTO live VALUES {live};", capture_output=True, text=True)
    assert (said.returncode, said.stdout, said.stderr) == (0, "", ""), said
    return held


def limits(folder, count):
    book, unclosed = os.path.join(folder, "limits.db"), 0
    held = long_book(book)
    more = held + [add(30000)]
    for most in range(0, os.path.getsize(book) + 16384, 4096):
        place = copied(folder, "limits.db", {"": content(book)})
        status, out, note = limited(place, commands.words(add(30000)), most)
        alone = copied(folder, "limits.db", {"": content(place)})
        if (status, out, note) == (0, "", ""):
            count.note(f"a copy after an add within {most} bytes", "same" if outcome(alone, [more]) == "same" else "no copy")
        elif (status, out) == (REFUSED, "") and note.startswith("notice: keeper fault"):
            listed = run(place, ["list"])
            unclosed += listed == (0, commands.listing(more), "")
            count.note(f"the book after an add that failed within {most} bytes", "same" if listed in [(0, commands.listing(kept), "") for kept in (held, more)] else str(listed))
        else:
            count.note(f"an add within {most} bytes", f"{status} {out!r} {note!r}")
    print(f"limits: {unclosed} with status 3 whose notice is held")


def kills(folder, count):
    held, number, late, kept = [], 0, 0, 0
    book = os.path.join(folder, "kills.db")
    begin = time.monotonic()
    run(os.path.join(folder, "time.db"), commands.words(add(1)))
    usual = time.monotonic() - begin
    for turn in range(300):
        number += 1
        process = start(book, commands.words(add(number)))
        time.sleep(random.uniform(0, 1.2 * usual))
        process.kill()
        has_ended = ended(process)[0] == 0
        late += has_ended
        helds = [held + [add(number)]] if has_ended else [held, held + [add(number)]]
        found = outcome(book, helds)
        if found == "refused" and held:
            found = "refused, and the book had notices"
        count.note(f"kill {turn}", found)
        out = run(book, ["list"])[1]
        if commands.listing(held + [add(number)]) == out:
            held = held + [add(number)]
            kept += 1
        if len(held) > 100:
            book, held, number = os.path.join(folder, f"kills{turn}.db"), [], 0
    for line in commands.differences(book, held):
        count.note("the shell", line)
    print(f"kills: {late} too late, {kept} notices kept")


def accepted(found, notice):
    """The notice as a list where it was accepted, nothing where it was refused as the rule has it, and otherwise what was said."""
    status, out, note = found
    if (status, out, note) == (0, "", ""):
        return [notice]
    if status == 2 and out == "" and note.startswith("notice: refused "):
        return []
    return str(found)


def turns(folder, count):
    book = os.path.join(folder, "turns.db")
    for round_number in range(5):
        at_once = [(add(number), start(book, commands.words(add(number)))) for number in range(1 + 20 * round_number, 21 + 20 * round_number)]
        for notice, process in at_once:
            status, out, note = ended(process)
            good = (status, out, note) == (0, "", "") or (status == 2 and note.startswith("notice: refused Old "))
            count.note(f"{notice} among twenty", "same" if good else f"{status} {note!r}")
    wanted = run(book, ["list"])
    for process in [start(book, ["list"]) for _ in range(20)]:
        found = ended(process)
        count.note("a list among twenty", "same" if found == wanted else str(found))
    four_at_once(folder, count)


WORKER = """
import json, random, subprocess, sys, time
binary, book, seed, texts = sys.argv[1], sys.argv[2], int(sys.argv[3]), json.loads(sys.argv[4])
dice, said = random.Random(seed), []
for turn in range(50):
    number = 1 + turn * 4 + dice.randrange(8)
    kind = dice.choice(["add", "add", "move", "cancel", "list"])
    about = 1 + dice.randrange(max(1, number)) if kind in ("move", "cancel") else 1 + dice.randrange(32)
    notice = [kind, number, about] + (["B", dice.choice(["C", "D", "-"])] if kind in ("add", "move") else [])
    words = ["list"] if kind == "list" else [str(word) for word in notice[:3]] + [texts[letter] for letter in notice[3:]]
    done = subprocess.run([binary, book, *words], capture_output=True, text=True)
    said.append([notice, done.returncode, done.stdout, done.stderr])
print(json.dumps(said))
"""


def four_at_once(folder, count):
    import json
    book = os.path.join(folder, "four.db")
    run(book, commands.words(add(0)))
    workers = [subprocess.Popen([sys.executable, "-c", WORKER, BINARY, book, str(seed), json.dumps(commands.TEXTS)], stdout=subprocess.PIPE, text=True) for seed in range(4)]
    said = [row for worker in workers for row in json.loads(worker.communicate()[0])]
    held = sorted((tuple(row[0]) for row in said if row[0][0] != "list" and row[1] == 0), key=lambda notice: notice[1])
    answers, _ = rule.evaluate(held)
    count.note("the accepted notices by number", "same" if set(answers) <= {"Done"} else str(answers))
    lists = {commands.listing(held[:front]) for front in range(len(held) + 1)}
    for notice, status, out, note in said:
        if notice[0] == "list":
            good = (status, note) == (0, "") and out in lists
            # Before the first notice was accepted there is a file that is no book yet.
            good = good or (status == REFUSED and note in ("notice: keeper fault: missing\n", "notice: keeper fault: no book\n"))
        else:
            good = isinstance(accepted((status, out, note), notice), list) or (status == REFUSED and notice[0] != "add" and note in ("notice: keeper fault: missing\n", "notice: keeper fault: no book\n"))
        count.note(f"{notice} among two hundred", "same" if good else f"{status} {out!r} {note!r}")
    for line in commands.differences(book, held):
        count.note("the shell", line)


PARTS = {"alone": alone, "damage": damage, "old": old, "limits": limits, "kills": kills, "turns": turns}


def main():
    random.seed(1)
    wrong = 0
    for part in sys.argv[1:] or PARTS:
        count = Count()
        with tempfile.TemporaryDirectory() as folder:
            PARTS[part](folder, count)
        wrong += count.line(part)
    return 1 if wrong else 0


if __name__ == "__main__":
    sys.exit(main())
