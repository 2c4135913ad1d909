#!/usr/bin/env python3
"""Packs a folder of routes into files of several routes, for raim_fleet.

    split_routes.py ROUTES BATCHES [MOST]

ROUTES has a file NAME.route for each flight. BATCHES, which is made, gets the files 0001.routes, 0002.routes ..: up to
MOST routes each (64, which is also the most), parted by `---` lines, and beside each NNNN.names, the flights' names, one a
line, in the order of the routes. Every route keeps its bytes. A file that no batch can hold is named on standard error and
left out, and the status is then 1: one of more than 1,048,576 bytes, and one with a `---` line of its own.
"""

import pathlib
import sys

MOST_ROUTES = 64
MOST_BYTES = 1048576
SEPARATOR = b"---\n"


def parts_routes(line):
    """Whether a line, without its line feed, is a `---` line."""
    return line.removesuffix(b"\r").strip(b" \t") == b"---"


def hindrance(text):
    """Why no batch can hold a route, or nothing."""
    if len(text) > MOST_BYTES:
        return "has more than %d bytes" % MOST_BYTES
    lines = text.split(b"\n")
    if any(parts_routes(line) for line in lines[:-1]) or lines[-1].strip(b" \t") == b"---":
        return "has a line --- of its own"
    return None


def batches_of(routes, most):
    """Packs (name, text) pairs, in their order, into lists that raim_fleet takes."""
    batch, size = [], 0
    for name, text in routes:
        more = len(SEPARATOR) + len(text)
        # A last line without a line feed would run into the separator: such a route ends its batch.
        unended = batch and batch[-1][1] and not batch[-1][1].endswith(b"\n")
        if batch and (unended or len(batch) == most or size + more > MOST_BYTES):
            yield batch
            batch, size = [], 0
        size += more if batch else len(text)
        batch.append((name, text))
    if batch:
        yield batch


def main(words):
    if len(words) not in (3, 4):
        sys.exit(__doc__)
    folder, target = pathlib.Path(words[1]), pathlib.Path(words[2])
    most = int(words[3]) if len(words) == 4 else MOST_ROUTES
    if not 1 <= most <= MOST_ROUTES:
        sys.exit("split_routes.py: a file has 1 to %d routes" % MOST_ROUTES)
    target.mkdir(parents=True, exist_ok=True)
    if any(target.glob("*.routes")):
        sys.exit("split_routes.py: %s has batches already" % target)
    routes, status = [], 0
    for path in sorted(folder.glob("*.route")):
        text = path.read_bytes()
        why = hindrance(text)
        if why is None and "\n" not in path.stem:
            routes.append((path.stem, text))
        else:
            print("split_routes.py: %s %s" % (path, why or "has a line feed in its name"), file=sys.stderr)
            status = 1
    for number, batch in enumerate(batches_of(routes, most), start=1):
        name = "%04d" % number
        (target / (name + ".names")).write_text("".join(flight + "\n" for flight, _ in batch))
        (target / (name + ".routes")).write_bytes(SEPARATOR.join(text for _, text in batch))
    return status


if __name__ == "__main__":
    sys.exit(main(sys.argv))
