#!/usr/bin/env python3
"""What the gate costs, a line a crate: the processor seconds of its proof, of the proofs of its tests and of its edits, with sums.

    python3 bench/gate.py [--to FILE] [COMMAND ..]    runs COMMAND (`rt ci` if none is given) and watches the provers below it
    python3 bench/gate.py --watch PID [--to FILE]     watches a run that goes already, until it ends
    python3 bench/gate.py --read FILE                 prints the table of an earlier run again

A prover is seen by its words and the folder it runs in: /proc is read five times a second, so that of each at most a fifth of
a second is lost; what the sum of all lines lacks to `all` is that, the reading of files and the running of programs and tests.
With a COMMAND the last line is what the system itself counted, user and system. The table has the longest chain of crates too:
no number of processors makes a run shorter than the proofs along it, one after the other.
"""
import json
import os
import re
import resource
import subprocess
import sys
import time

TOP = os.path.dirname(os.path.dirname(os.path.abspath(__file__)))
TICKS = os.sysconf("SC_CLK_TCK")
PERIOD = 0.2
KINDS = ("proof", "tests", "edits")


def processes():
    """Each process by its number: its parent, its start, its name and the seconds that it took."""
    found = {}
    for name in os.listdir("/proc"):
        if not name.isdigit():
            continue
        try:
            with open(f"/proc/{name}/stat", encoding="utf-8", errors="replace") as file:
                text = file.read()
        except OSError:
            continue
        title = text[text.index("(") + 1 : text.rindex(")")]
        rest = text[text.rindex(")") + 2 :].split()
        found[int(name)] = int(rest[1]), rest[19], title, (int(rest[11]) + int(rest[12])) / TICKS
    return found


def below(found, top):
    """The numbers of the processes that stand below `top`."""
    children = {}
    for number, (parent, *_) in found.items():
        children.setdefault(parent, []).append(number)
    left, every = [top], []
    while left:
        for child in children.get(left.pop(), []):
            every.append(child)
            left.append(child)
    return every


def role_of(number):
    """The crate that a prover works for and what it does there, or None where it is none or has ended."""
    try:
        with open(f"/proc/{number}/cmdline", encoding="utf-8", errors="replace") as file:
            words = file.read().split("\0")
        folder = os.readlink(f"/proc/{number}/cwd")
    except OSError:
        return None
    if "--crate-name" not in words:
        return None
    crate = words[words.index("--crate-name") + 1]
    if "/rt-edit" in folder:
        return crate, "edits"
    # of a crate's tests the name is the crate's own, and a word asks for them
    return crate, "tests" if "--test" in words else "proof"


def sums_of(roles, taken):
    """The seconds by crate and kind."""
    sums = {}
    for key, seconds in taken.items():
        crate, kind = roles[key]
        sums.setdefault(crate, dict.fromkeys(KINDS, 0.0))[kind] += seconds
    return sums


def watch(top, is_going, to):
    """Watches what stands below `top` until it is no longer going, and returns the seconds by crate and kind.
    What was seen so far is written to `to` now and then, so that a run that is cut off says something too."""
    roles, taken, written = {}, {}, time.time()
    while is_going():
        if to and time.time() > written + 30:
            written = time.time()
            write(to, {"sums": sums_of(roles, taken)})
        found = processes()
        for number in below(found, top):
            _, start, title, seconds = found[number]
            key = number, start
            if title != "rattle":
                continue
            if key not in roles:
                role = role_of(number)
                if role is None:
                    continue
                roles[key] = role
            taken[key] = max(seconds, taken.get(key, 0.0))
        time.sleep(PERIOD)
    return sums_of(roles, taken)


def write(to, record):
    with open(to, "w", encoding="utf-8") as file:
        json.dump(record, file)


def crates():
    """The crates of crates.txt with those that each stands on, in the order of the file."""
    found = {}
    with open(f"{TOP}/crates.txt", encoding="utf-8") as file:
        for line in file:
            line = line.split("#")[0].strip()
            if line:
                name, _, rest = line.partition(":")
                found[name.split()[0]] = rest.split()
    return found


def longest_chain(below_of, sums):
    """The chain of crates, lowest first, whose proofs take longest one after the other, and their seconds."""
    best = {}

    def ending_at(name):
        if name not in best:
            chains = [ending_at(it) for it in below_of[name] if it in below_of]
            seconds, chain = max(chains, default=(0.0, ()))
            best[name] = seconds + sums.get(name, {}).get("proof", 0.0), (*chain, name)
        return best[name]

    return max(ending_at(name) for name in below_of)


def edits_of(name):
    folder = f"{TOP}/crates/{name}/must-fail"
    return len([it for it in os.listdir(folder) if it.endswith(".edit")]) if os.path.isdir(folder) else 0


def table(record):
    sums, below_of = record["sums"], crates()
    names = [*below_of, *sorted(set(sums) - set(below_of))]
    lines = ["| Crate | proof | its tests | its edits | edits |", "|---|---|---|---|---|"]
    for name in names:
        taken = sums.get(name, dict.fromkeys(KINDS, 0.0))
        lines.append(f"| {name} | {taken['proof']:.0f} | {taken['tests']:.0f} | {taken['edits']:.0f} | {edits_of(name)} |")
    totals = [sum(it[kind] for it in sums.values()) for kind in KINDS]
    edits = sum(edits_of(it) for it in names)
    lines.append("| **all** | " + " | ".join(f"{it:.0f}" for it in totals) + f" | {edits} |")
    seconds, chain = longest_chain(below_of, sums)
    lines += ["", f"Provers {sum(totals) / 60:.1f} processor minutes."]
    lines.append(f"Longest chain {seconds:.0f} s: {' '.join(chain)}.")
    if "wall" in record:
        lines.append(f"Wall {record['wall'] / 60:.1f} minutes on {os.cpu_count()} processors.")
    if "all" in record:
        lines.append(f"User and system {record['all'] / 60:.1f} processor minutes.")
    return "\n".join(lines)


def main(words):
    to, pid, read = None, None, None
    while words and words[0] in ("--to", "--watch", "--read"):
        flag, value, *words = words
        to, pid, read = value if flag == "--to" else to, int(value) if flag == "--watch" else pid, value if flag == "--read" else read
    status = 0
    if read:
        with open(read, encoding="utf-8") as file:
            record = json.load(file)
    else:
        begun = time.time()
        if pid:
            record = {"sums": watch(pid, lambda: os.path.isdir(f"/proc/{pid}"), to)}
        else:
            run = subprocess.Popen(words or ["rt", "ci"], cwd=TOP)
            record = {"sums": watch(run.pid, lambda: run.poll() is None, to)}
            status = run.returncode
            used = resource.getrusage(resource.RUSAGE_CHILDREN)
            record["all"] = used.ru_utime + used.ru_stime
        record["wall"] = time.time() - begun
    if to:
        write(to, record)
    print(table(record), flush=True)
    return status


if __name__ == "__main__":
    sys.exit(main(sys.argv[1:]))
