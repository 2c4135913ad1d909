#!/usr/bin/env python3
"""Opens the pages of the stored runs of raim_chart in headless Chromium at widths 400 and 1600, and looks at what it shows.

By the document as the browser has it: each band has as many bars as the report has runs, each table as many rows as there are
runs that are not Available, no bar is outside its band, each is at least a pixel wide, their left edges rise, and the page is no
wider than the window. The pictures are left in the folder that is named, or thrown away.

Usage: python3 trials/chart_pages.py [FOLDER]
It is skipped where there is no Chromium (Debian's package `chromium`).
"""
import html.parser
import json
import pathlib
import re
import shutil
import subprocess
import sys
import tempfile

HERE = pathlib.Path(__file__).resolve().parent.parent
SEQUENCE = HERE / "crates" / "raim_sequence"
NAMED = ["new-york-london.report", "three-tenths.report"]
WIDTHS = (400, 1600)
# Bars are laid out in fractions of a pixel.
NEAR = 0.02

PROBE = """
<script>
window.addEventListener("load", () => {
  const bands = [...document.querySelectorAll(".band")].map(band => {
    const edge = band.getBoundingClientRect();
    return {edges: [edge.left, edge.right], bars: [...band.children].map(bar => {
      const at = bar.getBoundingClientRect();
      return [at.left, at.right];
    })};
  });
  const rows = [...document.querySelectorAll(".gaps")].map(table => table.querySelectorAll("tr").length - 1);
  const said = document.createElement("pre");
  said.id = "said";
  said.textContent = JSON.stringify({bands, rows, wide: document.documentElement.scrollWidth, window: window.innerWidth});
  document.body.append(said);
});
</script>
"""


class Said(html.parser.HTMLParser):
    """The text of the element that the probe left in the page."""

    def __init__(self):
        super().__init__()
        self.inside, self.text = False, ""

    def handle_starttag(self, tag, attrs):
        self.inside = self.inside or ("id", "said") in attrs

    def handle_endtag(self, tag):
        self.inside = self.inside and tag != "pre"

    def handle_data(self, data):
        self.text += data if self.inside else ""


def chromium(*words):
    return ["chromium", "--headless", "--no-sandbox", "--disable-gpu", "--hide-scrollbars", *words]


def shown(page, folder, width):
    """What the browser makes of a page at a width. A window of its own is never narrower than 500 pixels, so the page stands in a frame."""
    probed = folder / "probed.html"
    probed.write_text(page + PROBE)
    frame = folder / "frame.html"
    frame.write_text('<!DOCTYPE html><body style="margin:0"><iframe src="probed.html" style="border:0;width:%dpx;height:3000px"></iframe>'
                     '<script>window.addEventListener("load",()=>setTimeout(()=>{const p=document.createElement("pre");p.id="said";'
                     'p.textContent=document.querySelector("iframe").contentDocument.getElementById("said").textContent;document.body.append(p)},200))</script>' % width)
    run = subprocess.run(chromium("--allow-file-access-from-files", "--virtual-time-budget=3000", "--dump-dom", frame.as_uri()), capture_output=True, text=True, check=True)
    said = Said()
    said.feed(run.stdout)
    return json.loads(said.text)


def flights_of(text):
    """The verdicts of each flight of a report or of a fleet, in their order; a refused route has none."""
    flights, fleet = [], text.startswith("route 1\n")
    for line in text.splitlines():
        if line.startswith("route "):
            flights.append([])
        elif line[0].isdigit():
            if not fleet and not flights:
                flights.append([])
            flights[-1].append(line.split(" ", 2)[2])
    return [flight for flight in flights if flight]


def stored():
    """The stored pages that are looked at: a name, what is drawn, and the page."""
    fleet = HERE / "crates" / "raim_chart_cli"
    yield "fleet", (fleet / "data" / "fleet").read_text(), (fleet / "stdout").read_text()
    lines = [line.split() for line in (SEQUENCE / "data" / "commands").read_text().splitlines()]
    drawn = [words[1] for words in lines if words[:1] == ["raim_chart"] and len(words) == 2]
    pages = re.findall(r"^<!DOCTYPE html>.*?(?=^status 0$)", (SEQUENCE / "stdout").read_text(), re.S | re.M)
    for name, page in zip(drawn, pages):
        if name in NAMED:
            yield name, (SEQUENCE / "data" / name).read_text(), page


def look(name, text, page, folder, width):
    flights = flights_of(text)
    seen = shown(page, folder, width)
    assert [len(band["bars"]) for band in seen["bands"]] == [len(flight) for flight in flights], "bars"
    gaps = [sum(verdict != "Available" for verdict in flight) for flight in flights]
    assert seen["rows"] == [count for count in gaps if count], "rows"
    for band in seen["bands"]:
        left, right = band["edges"]
        for bar in band["bars"]:
            assert left - NEAR <= bar[0] and bar[1] <= right + NEAR, (bar, band["edges"])
            assert bar[1] - bar[0] >= 1 - NEAR, bar
        starts = [bar[0] for bar in band["bars"]]
        assert starts == sorted(starts), "order"
    assert seen["wide"] <= seen["window"] == width, "wider than the window"
    print("%s at %d: %d bands, %d bars, %d rows" % (name, width, len(flights), sum(map(len, flights)), sum(gaps)))


def picture(name, page, folder, width):
    file = folder / (name + ".html")
    file.write_text(page)
    frame = folder / "picture.html"
    frame.write_text('<!DOCTYPE html><body style="margin:0"><iframe src="%s" style="border:0;width:%dpx;height:1200px"></iframe>' % (file.name, width))
    subprocess.run(chromium("--window-size=%d,1200" % max(width, 500), "--screenshot=%s" % (folder / ("%s-%d.png" % (name, width))), frame.as_uri()), capture_output=True, check=True)


def main(words):
    if shutil.which("chromium") is None:
        print("skipped: no chromium here")
        return
    with tempfile.TemporaryDirectory() as name:
        folder = pathlib.Path(words[1]) if len(words) == 2 else pathlib.Path(name)
        folder.mkdir(exist_ok=True)
        looked = list(stored())
        assert [title for title, text, page in looked] == ["fleet", *NAMED], "pages"
        for title, text, page in looked:
            for width in WIDTHS:
                look(title, text, page, pathlib.Path(name), width)
                picture(title, page, folder, width)


if __name__ == "__main__":
    main(sys.argv)
