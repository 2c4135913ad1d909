#!/usr/bin/env python3
"""Prints `crates/book_cases/src/book_rows.rt`: books of notices, with the answer to each notice and the outages in effect at the end.
Both are worked out here from the rule for a whole list of notices, and from no entry that is kept: an Add is in effect where no Cancel of
the list names it, at the times of the Reschedule of greatest number that names it.

Usage: python3 oracle/table_of_books.py > crates/book_cases/src/book_rows.rt
"""
# Milliseconds that the letters of a row stand for: the first and the last of UTC that a notice may have, and six minutes of a day.
TIMES = {"A": 0, "B": 1_414_022_400_000, "C": 1_414_022_460_000, "D": 1_414_022_520_000, "E": 1_414_022_580_000, "F": 1_414_022_640_000, "G": 1_414_022_700_000, "Z": 253_086_335_999_999}
MOST = 256
GREATEST = 4_294_967_295


def target(notice):
    return None if notice[0] == "add" else notice[2]


def is_well_formed(notice):
    kind, number = notice[:2]
    if number < 1:
        return False
    if kind == "cancel":
        return notice[2] >= 1
    start, end = TIMES[notice[3]], TIMES.get(notice[4])
    if end is not None and end <= start:
        return False
    return 1 <= notice[2] <= 32 if kind == "add" else notice[2] >= 1


def in_effect(held):
    """The outages in effect after a whole list of notices, by rising number."""
    entries = []
    for notice in held:
        if notice[0] != "add" or any(n[0] == "cancel" and n[2] == notice[1] for n in held):
            continue
        moves = [n for n in held if n[0] == "move" and n[2] == notice[1]]
        times = max(moves, key=lambda n: n[1])[3:] if moves else notice[3:]
        entries.append((notice[1], notice[2], *times))
    return sorted(entries)


def announces(held, number):
    """The list has an Add of this number, and no Cancel of it after that."""
    for at, notice in enumerate(held):
        if notice[0] == "add" and notice[1] == number:
            return not any(n[0] == "cancel" and n[2] == number for n in held[at:])
    return False


def answer(held, notice):
    last = max((n[1] for n in held), default=0)
    if not is_well_formed(notice):
        return "BadNotice"
    if notice[1] <= last:
        return f"Old {last}"
    if target(notice) is not None and not announces(held, target(notice)):
        return "Unknown"
    if notice[0] == "add" and len(in_effect(held)) >= MOST:
        return "Full"
    return "Done"


def evaluate(notices):
    held, answers = [], []
    for notice in notices:
        answers.append(answer(held, notice))
        if answers[-1] == "Done":
            held.append(notice)
    return answers, in_effect(held)


class Dice:
    """Numbers that are the same in each run, on each machine."""

    def __init__(self, seed):
        self.state = seed

    def below(self, n):
        self.state = (self.state * 6364136223846793005 + 1442695040888963407) % 2**64
        return (self.state >> 33) % n

    def one_of(self, things):
        return things[self.below(len(things))]


def random_span(dice):
    start = dice.one_of("BCDEF")
    later = [letter for letter in "CDEFG" if letter > start] + ["-"]
    return start, dice.one_of(later) if dice.below(12) else start


def random_book(seed):
    """Six to eleven notices, some of which are refused."""
    dice, notices, number, announced = Dice(seed), [], 0, []
    for _ in range(6 + dice.below(6)):
        number = number + 1 + dice.below(2) if dice.below(10) or not number else number - dice.below(2)
        kind = dice.one_of(["add", "add", "move", "move", "cancel"]) if announced else "add"
        about = dice.one_of(announced) if announced and dice.below(6) else 1 + dice.below(max(1, number))
        if kind == "add":
            notices.append(("add", number, 1 + dice.below(32) if dice.below(12) else 33, *random_span(dice)))
            announced.append(number)
        elif kind == "move":
            notices.append(("move", number, about, *random_span(dice)))
        else:
            notices.append(("cancel", number, about))
    return notices


WRITTEN = [
    # no notice
    [],
    # the ends of numbers, PRNs and times
    [("add", 1, 1, "A", "Z"), ("add", 2, 32, "Z", "-"), ("add", 3, 33, "A", "-"), ("add", 3, 0, "A", "-"), ("add", 3, 255, "A", "-"), ("add", 0, 5, "A", "-")],
    [("add", GREATEST, 7, "B", "C"), ("add", GREATEST, 8, "B", "C"), ("cancel", GREATEST, GREATEST), ("move", GREATEST, GREATEST, "B", "-"), ("add", GREATEST, 33, "B", "C")],
    [("add", GREATEST - 1, 7, "B", "C"), ("cancel", GREATEST, GREATEST - 1), ("add", 1, 7, "B", "C")],
    # an end that is not after the start
    [("add", 1, 5, "C", "C"), ("add", 1, 5, "D", "C"), ("add", 1, 5, "C", "D"), ("move", 2, 1, "D", "D"), ("move", 2, 1, "D", "E")],
    # a number is used once, also where its notice was refused
    [("add", 3, 5, "B", "-"), ("add", 3, 6, "B", "-"), ("cancel", 3, 3), ("cancel", 4, 4), ("cancel", 4, 3), ("cancel", 5, 3), ("move", 6, 3, "B", "-")],
    # what is refused is in no list
    [("cancel", 9, 1), ("move", 9, 1, "B", "-"), ("add", 1, 5, "B", "-")],
    # a notice about a Reschedule, or a Cancel, is about none
    [("add", 1, 5, "B", "C"), ("move", 2, 1, "C", "D"), ("move", 3, 2, "D", "E"), ("cancel", 4, 2), ("cancel", 5, 1), ("cancel", 6, 5)],
    # the Reschedule of greatest number holds, also where it takes the end away
    [("add", 1, 5, "B", "C"), ("move", 2, 1, "C", "D"), ("move", 3, 1, "E", "-"), ("add", 4, 5, "B", "C"), ("move", 5, 4, "D", "G"), ("move", 6, 1, "F", "G")],
    # entries stand by their numbers, whatever their satellites and times
    [("add", 1, 30, "F", "G"), ("add", 2, 2, "B", "C"), ("add", 5, 11, "D", "E"), ("move", 6, 1, "G", "-"), ("cancel", 7, 2), ("add", 8, 1, "B", "-")],
    # one satellite may be out twice
    [("add", 1, 5, "B", "D"), ("add", 2, 5, "C", "E"), ("cancel", 3, 1), ("add", 4, 5, "B", "D")],
    # the target is tested before the book is old, and a Cancel before what it names
    [("add", 2, 5, "B", "-"), ("cancel", 2, 0), ("cancel", 1, 9), ("cancel", 3, 9), ("move", 2, 0, "B", "-"), ("move", 1, 9, "C", "B")],
]


def words(notice):
    return " ".join(str(word) for word in notice)


def line(entry):
    number, prn, start, end = entry
    return f"{prn:02d} {start} {end}"


def main():
    books = WRITTEN + [random_book(seed) for seed in range(1, 61 - len(WRITTEN))]
    print("// Books of notices, with the answer to each and the outages in effect at the end, made by `oracle/table_of_books.py`,")
    print("// which works them out from the whole list of notices. `A` stands for the first millisecond that a notice may have, `Z`")
    print("// for the last, and `B` to `G` for six minutes of 2024-10-27 from 00:00 on.\n")
    print("// A line a book: the notices, their answers and the lines of the outages, each ended by `;`, with `|` between the three.")
    print('pub const BOOKS: &str = "', end="")
    for notices in books:
        answers, entries = evaluate(notices)
        parts = ["".join(part + ";" for part in parts) for parts in ([words(n) for n in notices], answers, [line(e) for e in entries])]
        print("|".join(parts))
    print('";')


if __name__ == "__main__":
    main()
