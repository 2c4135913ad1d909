#!/usr/bin/env python3
"""Runs 200 made routes through the scripts of examples/fleet, and compares every report with that of a single run.

The routes are flights of a few minutes over real ground, one of which in five is refused, each time for another cause. They
are run by `one_machine.sh`, and once more after some reports were lost; where `sbatch` is at hand also by `slurm_array.sh`. A
report has to be, byte for byte, what `raim predict` writes for its route alone, or the line that its note says.

Usage: python3 trials/fleet_reports.py [RAIM RAIM_FLEET]
Without words the programs are those that `./raim` and `./raim_fleet` built before.
"""
import pathlib
import random
import shutil
import subprocess
import sys
import tempfile

HERE = pathlib.Path(__file__).resolve().parent.parent
SCRIPTS = HERE / "examples" / "fleet"
FLIGHT = HERE / "examples" / "new-york-london"
FILES = [str(FLIGHT / name) for name in ("approach.limits", "gps.alm", "two.outages")]
ROUTES = 200
AT_ONCE = 4


def program(name):
    return str(HERE / "crates" / (name + "_cli") / "out" / (name + "_cli"))


def line(minute, latitude, longitude, height):
    return "2010-07-02T%02d:%02d:00.000Z %.4f %.4f %d\n" % (minute // 60, minute % 60, latitude, longitude, height)


def made_route(number, draw):
    """The text of a route; each fifth is refused."""
    minute = draw.randrange(0, 360)
    latitude, longitude = draw.uniform(-60, 60), draw.uniform(-170, 170)
    ends = [line(minute, latitude, longitude, 9000), line(minute + draw.randrange(1, 6), latitude + 0.3, longitude + 0.3, 9000)]
    refused = [
        "",
        ends[0],
        ends[1] + ends[0],
        ends[0] + "north\n" + ends[1],
        ends[0] + "\n" + ends[1].replace("2010-07-02", "2010-07-32"),
        ends[0] + line(minute + 1, latitude, longitude, 99999999),
        ends[0] + ends[1].replace("2010", "2011"),
    ]
    text = refused[number // 5 % len(refused)] if number % 5 == 4 else "".join(ends)
    # Some files have no last line feed, and some have carriage returns.
    if number % 7 == 3:
        text = text.removesuffix("\n")
    return text.replace("\n", "\r\n") if number % 11 == 6 else text


def single(raim, route):
    """What a single run says of a route, as the body of a block."""
    run = subprocess.run([raim, "predict", *FILES, str(route)], capture_output=True)
    if run.returncode == 0:
        return run.stdout
    assert run.stdout == b"" and run.returncode in (2, 5, 6), (route, run)
    said = run.stderr.removeprefix(b"raim: ")
    assert said != run.stderr, (route, run)
    return (b"refused " if run.returncode == 2 else b"") + said


def compare(reports, wanted):
    """Every report is there, whole, and nothing else is."""
    assert sorted(path.name for path in reports.iterdir()) == sorted(wanted), "other files than the reports"
    for name, body in wanted.items():
        assert (reports / name).read_bytes() == body, name


def run_here(fleet, reports, batches):
    subprocess.run([SCRIPTS / "one_machine.sh", str(AT_ONCE), fleet, *FILES, reports, batches], check=True)


def try_one_machine(fleet, folder, batches, wanted):
    reports = folder / "reports"
    run_here(fleet, reports, batches)
    compare(reports, wanted)
    lost = sorted(wanted)[::9]
    for name in lost:
        (reports / name).unlink()
    kept = {name: (reports / name).stat().st_mtime_ns for name in wanted if name not in lost}
    run_here(fleet, reports, batches)
    compare(reports, wanted)
    assert all((reports / name).stat().st_mtime_ns == when for name, when in kept.items()), "a whole report was written again"
    print("one machine: %d reports, %d of them made again" % (len(wanted), len(lost)))


def try_slurm(fleet, folder, batches, wanted):
    if shutil.which("sbatch") is None:
        print("slurm: no sbatch here")
        return
    reports = folder / "slurm_reports"
    count = len(list(batches.glob("*.routes")))
    subprocess.run(["sbatch", "--wait", "--array=1-%d" % count, "--output=" + str(folder / "slurm-%a.log"), SCRIPTS / "slurm_array.sh",
                    SCRIPTS / "run_batch.py", fleet, *FILES, reports, batches], check=True)
    compare(reports, wanted)
    print("slurm: %d reports of %d tasks" % (len(wanted), count))


def main(words):
    raim, fleet = words[1:] if len(words) == 3 else (program("raim"), program("raim_fleet"))
    draw = random.Random(20)
    # Slurm's nodes see the folder of the repository, and may have a /tmp of their own.
    with tempfile.TemporaryDirectory(dir=HERE) as name:
        folder = pathlib.Path(name)
        routes, batches = folder / "routes", folder / "batches"
        routes.mkdir()
        for number in range(ROUTES):
            (routes / ("flight-%03d.route" % number)).write_bytes(made_route(number, draw).encode())
        subprocess.run([SCRIPTS / "split_routes.py", routes, batches], check=True)
        wanted = {path.stem + ".report": single(raim, path) for path in sorted(routes.glob("*.route"))}
        refused = sum(body.startswith(b"refused ") for body in wanted.values())
        print("single runs: %d, of which %d are refused" % (len(wanted), refused))
        try_one_machine(fleet, folder, batches, wanted)
        try_slurm(fleet, folder, batches, wanted)


if __name__ == "__main__":
    main(sys.argv)
