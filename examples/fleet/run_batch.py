#!/usr/bin/env python3
"""Runs raim_fleet on one file of routes, and writes one report a route.

    run_batch.py PROGRAM LIMITS ALMANAC OUTAGES REPORTS BATCH

BATCH is a file NNNN.routes that split_routes.py made, with NNNN.names beside it. For each flight NAME the folder REPORTS
gets NAME.report: what `raim predict` writes for that route alone, or the one line that says why there is no report. A
report is written under a name of its own that begins with a dot, and renamed when it is whole, so NAME.report is whole or
absent. Nothing is run where every report is there. The status is that of PROGRAM, and 70 where its text does not have a
block for each name; where it is not 0 nothing is written.
"""

import os
import pathlib
import socket
import subprocess
import sys


def bodies_of(text):
    """The bodies of the blocks of a fleet's text. No line of a body begins as the first line of a block."""
    bodies = []
    for line in text.splitlines(keepends=True):
        if line == b"route %d\n" % (len(bodies) + 1):
            bodies.append([])
        elif not bodies or line.startswith(b"route "):
            return None
        else:
            bodies[-1].append(line)
    return [b"".join(body) for body in bodies]


def write_whole(path, text):
    """Writes a file that is whole or absent, also where the machine is lost meanwhile."""
    draft = path.with_name(".%s.%s.%d" % (path.name, socket.gethostname(), os.getpid()))
    with open(draft, "wb") as file:
        file.write(text)
        file.flush()
        os.fsync(file.fileno())
    os.replace(draft, path)


def main(words):
    if len(words) != 7:
        sys.exit(__doc__)
    program, limits, almanac, outages = words[1:5]
    reports, batch = pathlib.Path(words[5]), pathlib.Path(words[6])
    names = batch.with_suffix(".names").read_text().splitlines()
    reports.mkdir(parents=True, exist_ok=True)
    paths = [reports / (name + ".report") for name in names]
    if all(path.exists() for path in paths):
        return 0
    run = subprocess.run([program, limits, almanac, outages, str(batch)], stdout=subprocess.PIPE)
    if run.returncode != 0:
        print("run_batch.py: %s: %s ended with status %d" % (batch, program, run.returncode), file=sys.stderr)
        return run.returncode if run.returncode > 0 else 70
    bodies = bodies_of(run.stdout)
    if bodies is None or len(bodies) != len(paths):
        print("run_batch.py: %s: the text has not %d blocks" % (batch, len(paths)), file=sys.stderr)
        return 70
    for path, body in zip(paths, bodies):
        if not path.exists():
            write_whole(path, body)
    return 0


if __name__ == "__main__":
    sys.exit(main(sys.argv))
