#!/usr/bin/env python3
"""Runs the program `notice` on files that are no book, or no longer one, and on files that it cannot use.

Each case prepares a file, by hand or by the shell of SQLite, and names the status and the note that a command has to end with. Whatever
happens, nothing else is written.

Usage: python3 trials/notice_faults.py
The program is built by `./notice` before, and the shell is `sqlite3`.
"""
import os
import subprocess
import sys
import tempfile

import notice_commands as commands

BINARY = os.path.join(commands.HERE, "..", "crates", "notice_cli", "out", "notice_cli")
ADD = ["add", "2", "7", commands.TEXTS["B"], "-"]
FAULT = (3, "", "notice: keeper fault\n")
IN_USE, MISSING, NO_BOOK, NOT_READABLE = ((3, "", f"notice: keeper fault: {why}\n") for why in ("in use", "missing", "no book", "not readable"))
TABLES = """CREATE TABLE notice (number INTEGER PRIMARY KEY, kind INTEGER NOT NULL, target INTEGER NOT NULL, prn INTEGER NOT NULL, start_ms INTEGER NOT NULL, end_ms INTEGER);
CREATE TABLE live (number INTEGER PRIMARY KEY, prn INTEGER NOT NULL, start_ms INTEGER NOT NULL, end_ms INTEGER);"""
ENTRY = "INSERT INTO live (number, prn, start_ms, end_ms) VALUES "


def made(book):
    """A book of one notice."""
    status = commands.run(book, ["add", "1", "5", commands.TEXTS["B"], "-"])
    assert status == (0, "", ""), status


def written(content):
    def prepare(book):
        with open(book, "wb") as file:
            file.write(content)
    return prepare


def cut(length):
    """A book that lost its end."""
    def prepare(book):
        made(book)
        assert os.path.getsize(book) > length
        os.truncate(book, length)
    return prepare


def planted(sql):
    """A book of one notice that the shell made, whose pages have no sums, after some statements."""
    def prepare(book):
        said = commands.shell(book, TABLES)
        assert not said, said
        made(book)
        said = commands.shell(book, sql)
        assert not said, said
    return prepare


def random_bytes(book):
    written(os.urandom(8192))(book)


CASES = [
    ("a folder", os.mkdir, ["list"], NO_BOOK),
    ("random bytes", random_bytes, ["list"], NO_BOOK),
    ("a text", written(b"05 2024-10-27T00:02:00.000Z -\n" * 400), ["list"], NO_BOOK),
    ("the first page alone", cut(4096), ["list"], NO_BOOK),
    ("half of the first page", cut(2048), ["list"], NO_BOOK),
    ("another notice table", planted("DROP TABLE notice; CREATE TABLE notice (id INTEGER PRIMARY KEY)"), ADD, NO_BOOK),
    ("a notice table of fewer columns", planted("DROP TABLE notice; CREATE TABLE notice (number INTEGER PRIMARY KEY, kind INTEGER NOT NULL, target INTEGER NOT NULL, prn INTEGER NOT NULL, start_ms INTEGER NOT NULL)"), ADD, NO_BOOK),
    ("another live table", planted("DROP TABLE live; CREATE TABLE live (number INTEGER PRIMARY KEY, prn INTEGER)"), ["list"], NO_BOOK),
    ("satellite 0", planted(ENTRY + "(2, 0, 0, NULL)"), ["list"], FAULT),
    ("satellite 33", planted(ENTRY + "(2, 33, 0, NULL)"), ["list"], FAULT),
    ("satellite 257", planted(ENTRY + "(2, 257, 0, NULL)"), ["list"], FAULT),
    ("a text for a satellite", planted(ENTRY + "(2, 'five', 0, NULL)"), ["list"], FAULT),
    ("a start before the epoch", planted(ENTRY + "(2, 5, -1, NULL)"), ["list"], FAULT),
    ("a start after the year 9999", planted(ENTRY + "(2, 5, 253086336000000, NULL)"), ["list"], FAULT),
    ("a start of half a millisecond", planted(ENTRY + "(2, 5, 0.5, NULL)"), ["list"], FAULT),
    ("an end that is the start", planted(ENTRY + "(2, 5, 7, 7)"), ["list"], FAULT),
    ("an end after the year 9999", planted(ENTRY + "(2, 5, 7, 253086336000000)"), ["list"], FAULT),
    ("an entry of number 4294967296", planted(ENTRY + "(4294967296, 5, 7, NULL)"), ["list"], FAULT),
    ("a notice of number 4294967296", planted("INSERT INTO notice VALUES (4294967296, 0, 0, 5, 0, NULL)"), ADD, FAULT),
    ("a notice of number 4294967295", planted("INSERT INTO notice VALUES (4294967295, 0, 0, 5, 0, NULL)"), ADD, (2, "", "notice: refused Old 4294967295\n")),
    ("an empty file", written(b""), ["list"], NO_BOOK),
    ("an empty file that becomes a book", written(b""), ADD, (0, "", "")),
    ("a database of another kind", lambda book: commands.shell(book, "CREATE TABLE other (x)"), ADD, NO_BOOK),
    ("a book in which nothing is wrong", made, ["list"], (0, f"05 {commands.TEXTS['B']} -\n", "")),
    ("a book that has another table as well", planted("CREATE TABLE other (x)"), ["list"], (0, f"05 {commands.TEXTS['B']} -\n", "")),
]


def content(path):
    if not os.path.isfile(path):
        return None
    with open(path, "rb") as file:
        return file.read()


def try_case(folder, number, case):
    name, prepare, command, wanted = case
    book = os.path.join(folder, f"case{number}.db")
    prepare(book)
    before = content(book)
    found = commands.run(book, command)
    if found == NO_BOOK and content(book) != before:
        return name, "its bytes changed", wanted
    return name, found, wanted


def path_cases(folder):
    """Paths that name no file of a book."""
    for name, path, wanted in [
        ("an empty path", "", MISSING), ("a book that is missing", os.path.join(folder, "bokk.db"), MISSING),
        ("a folder that is missing", os.path.join(folder, "missing", "book.db"), MISSING), ("a database in memory", ":memory:", MISSING),
        ("a URI", "file:" + os.path.join(folder, "uri.db"), MISSING), ("a device", "/dev/full", NO_BOOK), ("a path that is too long", os.path.join(folder, "b" * 300), NOT_READABLE),
    ]:
        yield name, commands.run(path, ["list"]), wanted
        yield name + " and nothing made", os.path.exists(path), path == "/dev/full"
    for words in ([], ["lists"], ["--help"]):
        path = os.path.join(folder, "words.db")
        yield f"words of no form {words}", commands.run(path, words), (1, "", "notice: usage\n")
        yield "and nothing made", os.path.exists(path), False


def locked(folder):
    """Another process is writing the book."""
    book = os.path.join(folder, "locked.db")
    made(book)
    holder = subprocess.Popen(["sqlite3", book], stdin=subprocess.PIPE, stdout=subprocess.PIPE, text=True)
    holder.stdin.write("BEGIN EXCLUSIVE;\nSELECT 'held';\n")
    holder.stdin.flush()
    holder.stdout.readline()
    found = commands.run(book, ADD)
    holder.communicate("ROLLBACK;\n")
    yield "an add to a book that another process writes", found, IN_USE
    yield "the book after that", commands.run(book, ["list"]), (0, f"05 {commands.TEXTS['B']} -\n", "")


def small_files(folder):
    """No file may grow past a few blocks."""
    for blocks in range(0, 24, 2):
        book = os.path.join(folder, f"small{blocks}.db")
        done = subprocess.run(["sh", "-c", f"trap '' XFSZ; ulimit -f {blocks}; exec \"$@\"", "sh", BINARY, book, *ADD], capture_output=True, text=True)
        found = (done.returncode, done.stdout, done.stderr)
        yield f"an add with files of {blocks} blocks", found[0] == 3 and found[1] == "" if found[0] else found == (0, "", ""), True
        after = commands.run(book, ["list"])
        held = commands.listing([("add", 2, 7, "B", "-")])
        yield f"the book after {blocks} blocks", after == (0, held, "") or (found[0] == 3 and (after[0] == 3 or after == (0, "", ""))), True


def protected(folder):
    """A user who is not the owner, of a book that only the owner may write."""
    book = os.path.join(folder, "protected.db")
    made(book)
    os.chmod(book, 0o444)
    os.chmod(folder, 0o755)
    words = [BINARY, book, *ADD]
    if os.getuid() == 0:
        words = ["setpriv", "--reuid=65534", "--regid=65534", "--clear-groups", *words]
    done = subprocess.run(words, capture_output=True, text=True)
    yield "an add to a book that is read only", (done.returncode, done.stdout, done.stderr), NOT_READABLE


def main():
    wrong = count = 0
    with tempfile.TemporaryDirectory() as folder:
        results = [try_case(folder, number, case) for number, case in enumerate(CASES)]
        for group in (path_cases, locked, small_files, protected):
            results.extend(group(folder))
        for name, found, wanted in results:
            count += 1
            if found != wanted:
                wrong += 1
                print(f"{name}: {found}, wanted {wanted}")
    print(f"{count} cases, {wrong} differences")
    return 1 if wrong else 0


if __name__ == "__main__":
    sys.exit(main())
