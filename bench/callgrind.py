"""What the benchmarks share: counting a program's instructions by `valgrind --tool=callgrind`, and long files."""
import re
import subprocess
import sys

LONGEST = 1_048_576


def count(words, folder=None):
    """The instructions of a program's run in a folder, and what it printed."""
    done = subprocess.run(
        ["valgrind", "--tool=callgrind", "--callgrind-out-file=/dev/null", *map(str, words)],
        capture_output=True, text=True, check=False, cwd=folder,
    )
    found = re.search(r"Collected : (\d+)", done.stderr)
    if found is None:
        sys.exit("no count from valgrind: " + done.stderr[-500:])
    return int(found.group(1)), done.stdout.strip()


def padded(front, filler):
    """The front, and filler up to the longest file."""
    return front + (filler * LONGEST)[: LONGEST - len(front)]


def worst_of(contents, least, run, show):
    """The most instructions a byte above `least` over named contents: each is written to a file, and shown as it is run.

    `run(content)` answers the instructions and what it found, and `show(name, content, each, found)` prints a line.
    """
    worst = 0.0
    for name, content in contents.items():
        assert len(content) <= LONGEST, (name, len(content))
        instructions, found = run(content)
        each = (instructions - least) / len(content)
        worst = max(worst, each)
        show(name, content, each, found)
    return worst


def within(worst, most):
    """Prints the most instructions a byte beside their limit: the status to exit with."""
    print(f"most: {worst:.1f} instructions a byte; the limit is {most}")
    return 0 if worst <= most else 1
