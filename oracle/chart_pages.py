#!/usr/bin/env python3
"""The pages of charts, made from the written rules of crates/report_chart/README.md by the calendar of Python, fractions and lists of
lines.

Usage: python3 oracle/chart_pages.py REPORT.. > PAGE.html     (of one report a flight's page, of several that of a fleet)
       python3 oracle/chart_pages.py many                     (how many bytes the page of the most runs has)
"""
import sys
from datetime import datetime, timedelta, timezone
from fractions import Fraction

EPOCH = datetime(1980, 1, 6, tzinfo=timezone.utc)
MS = timedelta(milliseconds=1)
DAY = timedelta(days=1)
KINDS = ["Available", "Unavailable", "Undecided"]
CLASSES = dict(zip(KINDS, "aud"))
ENTITIES = {"&": "&amp;", "<": "&lt;", ">": "&gt;", '"': "&quot;"}

HEAD = """\
<!DOCTYPE html>
<html lang=en>
<meta charset=utf-8>
<meta name=viewport content="width=device-width">
<title>RAIM availability</title>
"""

STYLE = """\
<style>
body{margin:1em auto;padding:0 1em;max-width:100em;background:#fff;color:#111;font:1em/1.4 system-ui,sans-serif}
h1{font-size:1.4em;margin:0}
h2{font-size:1.2em;margin:2em 0 0;padding-top:.5em;border-top:1px solid #999}
p{margin:.6em 0;overflow-wrap:anywhere}
time,.key span{white-space:nowrap}
i,.band li{box-sizing:border-box;print-color-adjust:exact;-webkit-print-color-adjust:exact}
.a{height:2em;background:#0072B2}
.u{height:4em;background:repeating-linear-gradient(45deg,#D55E00 0 5px,#fff 5px 8px);border:solid #D55E00;border-width:1px 0 1px 1px;z-index:1}
.d{height:3em;background:radial-gradient(#111 1.5px,transparent 2px) 0 0/6px 6px #F0E442;box-shadow:0 0 0 1px #111;z-index:2}
i{display:inline-block;width:4em;margin-right:1em;font-size:.4em}
.key span{margin-right:.6em}
.band,.hours{position:relative;margin:0;padding:0;list-style:none}
.band{height:4.2em;overflow:hidden;border-bottom:1px solid #111}
.band li{position:absolute;bottom:0;left:min(calc(var(--x)*.001%),100% - 1px);width:calc(var(--w)*.001%);min-width:1px}
.hours{height:1.5em;font-size:.8em}
.hours li{position:absolute;left:calc(var(--x)*.001%);width:2em;margin-left:-1em;text-align:center}
.hours li::before{content:"";position:absolute;left:1em;top:0;height:.3em;border-left:1px solid #111}
.utc{margin:0;font-size:.8em;text-align:center}
table{border-collapse:collapse;margin:.6em 0;font-variant-numeric:tabular-nums}
td,th{padding:.15em .4em;text-align:left;vertical-align:top;border-bottom:1px solid #ccc}
td~th{background:#ddd}
td~th::after{content:" longest"}
@media(max-width:40em){
.hours:has(li:nth-child(13)) li:not(:nth-child(3n+1)){font-size:0}
.gaps,.gaps tbody{display:block}
.gaps tr{display:grid;grid-template-columns:1fr 1fr 1fr;border-bottom:1px solid #ccc}
.gaps td,.gaps th{border:0}
.gaps tr>:last-child{grid-column:2/4}
}
</style>
"""

LEGEND = """\
<h1>RAIM availability</h1>
<p>Where the receiver's own check of the integrity of GPS (RAIM) is available. All times are UTC.
<p class=key><span><i class=a></i>Available</span><span><i class=u></i>Unavailable</span><span><i class=d></i>Undecided</span>
"""


def instant(ms):
    return EPOCH + ms * MS


def stamp(ms):
    """YYYY-MM-DDThh:mm:ss.sssZ"""
    return instant(ms).strftime("%Y-%m-%dT%H:%M:%S.") + f"{instant(ms).microsecond // 1000:03d}Z"


def clock(ms):
    """HH:MM:SS.mmm"""
    return stamp(ms)[11:23]


def lasting(ms):
    """H:MM:SS.mmm"""
    seconds, rest = divmod(ms, 1000)
    return f"{seconds // 3600}:{seconds // 60 % 60:02d}:{seconds % 60:02d}.{rest:03d}"


def place(flight, ms):
    """Where a time stands on a band of 100,000 units."""
    first, end = flight[0][0], flight[-1][1]
    return Fraction(100000 * (ms - first), end - first).__floor__()


def kind(words):
    return words.split()[0]


def reason(words):
    match words.split()[1:]:
        case ["Few"]:
            return "too few satellites"
        case ["Singular"] | ["Det"]:
            return "geometry"
        case ["Slope"]:
            return "slope"
        case ["Mask", prn]:
            return f"PRN {prn} at the mask"
        case ["Slope", prn]:
            return f"slope of PRN {prn}"
        case ["DetWithout", left]:
            return f"geometry without PRN {left}"
        case ["SlopeWithout", left, prn]:
            return f"slope of PRN {prn} without PRN {left}"


def bars(flight):
    yield "<ul class=band>"
    for first, end, words in flight:
        x, w = place(flight, first), place(flight, end) - place(flight, first)
        yield f'<li class={CLASSES[kind(words)]} style=--x:{x};--w:{w} title="{clock(first)} to {clock(end)} {kind(words)}">'
    yield "</ul>"


def hours(flight):
    first, end = instant(flight[0][0]), instant(flight[-1][1])
    hour = first.replace(minute=0, second=0, microsecond=0)
    yield "<ol class=hours>"
    while hour <= end:
        if hour >= first:
            yield f"<li style=--x:{place(flight, (hour - EPOCH) // MS)}>{hour.hour:02d}"
        hour += timedelta(hours=1)
    yield "</ol>"
    yield "<p class=utc>hours of UTC"


def totals(flight):
    yield "<table>"
    yield "<tr><th>Kind<th>Runs<th>Time"
    for name in KINDS:
        of_kind = [end - first for first, end, words in flight if kind(words) == name]
        yield f"<tr><td>{name}<td>{len(of_kind)}<td>{lasting(sum(of_kind))}"
    yield f"<tr><td>Whole flight<td>{len(flight)}<td>{lasting(flight[-1][1] - flight[0][0])}"
    yield "</table>"


def gaps(flight):
    rows = [run for run in flight if kind(run[2]) != "Available"]
    if not rows:
        yield "<p>The whole flight is Available."
        return
    longest = max(end - first for first, end, words in rows)
    yield f"<p>Runs that are not Available: {len(rows)}. The longest lasts {lasting(longest)}."
    if any(kind(words) == "Undecided" for first, end, words in rows):
        yield "<p>Count undecided times as not available: there the evaluation cannot tell."
    yield "<table class=gaps>"
    yield "<tr><th>Start<th>End<th>Length<th>Kind<th>Reason"
    for first, end, words in rows:
        cell = "th" if end - first == longest else "td"
        yield f"<tr><td>{clock(first)}<td>{clock(end)}<{cell}>{lasting(end - first)}<td>{kind(words)}<td>{reason(words)}"
    yield "</table>"


def flight_lines(flight):
    if not flight:
        yield "<p>The report has no runs."
        return
    yield f"<p>From <time>{stamp(flight[0][0])}</time> to <time>{stamp(flight[-1][1])}</time>."
    for part in [bars, hours, totals, gaps]:
        yield from part(flight)


def escaped(line):
    """Bytes as text of HTML."""
    return "".join(ENTITIES.get(chr(b), chr(b)) if 32 <= b < 127 else "?" for b in line)


def fleet_lines(rows):
    for number, row in enumerate(rows, 1):
        yield f"<h2>Route {number}</h2>"
        if isinstance(row, bytes):
            yield f"<p>{escaped(row)}"
        else:
            yield from flight_lines(row)


def page(lines):
    return HEAD + STYLE + LEGEND + "".join(line + "\n" for line in lines)


def run_of(line):
    first, end, words = line.split(" ", 2)
    at = [(datetime.strptime(t, "%Y-%m-%dT%H:%M:%S.%fZ").replace(tzinfo=timezone.utc) - EPOCH) // MS for t in (first, end)]
    return at[0], at[1], words


def flight_of(report):
    return [run_of(line) for line in report.splitlines()]


def length_of_many():
    """The length of the page of as many runs as a flight may have, none of them Available, with the longest reason."""
    return len(page(flight_lines([(1318 * k, 1318 * (k + 1), "Undecided SlopeWithout 10 31") for k in range(65536)])))


if __name__ == "__main__":
    if sys.argv[1:2] == ["many"]:
        print(length_of_many())
    else:
        flights = [flight_of(open(name).read()) for name in sys.argv[1:]]
        lines = flight_lines(flights[0]) if len(flights) == 1 else fleet_lines(flights)
        sys.stdout.write(page(lines))
