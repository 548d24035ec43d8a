"""The page of marks in a browser without a window, in the widths of a phone and a screen: nothing is cut off, rows unfold and are sorted."""

from __future__ import annotations

import html
import json
import pathlib
import re
import shutil
import subprocess
import sys
import tempfile
from typing import List, Optional

sys.path.insert(0, str(pathlib.Path(__file__).resolve().parents[1]))

from checks import COMPILER, REPO, SECONDS, Part, Tally, Tool  # noqa: E402
from marked import Bench  # noqa: E402

BROWSERS = ("chromium", "chromium-browser", "google-chrome")
WIDTHS = (400, 1400)
HEIGHT = 3000
# What each frame tells of the page in it, with all rows unfolded and sorted by points.
AROUND = """<!DOCTYPE html><meta charset="utf-8"><body><pre class="found"></pre><script>
const told = [];
async function look(width) {
  const frame = document.createElement('iframe');
  frame.style = `border: 0; width: ${width}px; height: 900px`;
  frame.src = 'm.html';
  const loaded = new Promise((done) => { frame.onload = done; });
  document.body.append(frame);
  await loaded;
  const inside = frame.contentDocument, row = (body) => body.rows[1].hidden;
  const bodies = () => [...inside.querySelector('table.marks').tBodies];
  const folded = bodies().every(row);
  for (const button of inside.querySelectorAll('td.name button'))
    button.click();
  const unfolded = bodies().every((it) => !row(it));
  inside.querySelectorAll('thead button')[1].click();
  const points = bodies().map((it) => Number(it.rows[0].cells[1].dataset.value));
  const outside = [...inside.querySelectorAll('td, pre, li, svg, h3')].filter((it) => it.getBoundingClientRect().right > width + 1);
  told.push({
    width: width, folded: folded, unfolded: unfolded, scroll: inside.documentElement.scrollWidth, points: points, title: inside.title,
    outside: outside.slice(0, 3).map((it) => it.outerHTML.slice(0, 80)), pictures: inside.querySelectorAll('svg rect').length,
  });
}
(async () => {
  for (const width of WIDTHS)
    await look(width);
  document.querySelector('pre').textContent = JSON.stringify(told);
})();
</script>
"""


def browser() -> Optional[str]:
    """The browser that is installed."""
    return next(filter(None, map(shutil.which, BROWSERS)), None)


BROWSER = Tool("chromium", "chromium", lambda _: browser() is not None)


def looked_at(tally: Tally, folder: pathlib.Path) -> None:
    """The page of a sheet's hand-ins."""
    bench = Bench(folder / "page")
    sheet = "01-broadcast"
    bench.run(REPO / "course" / sheet / "sheet.toml", *sorted((folder / "hand-ins" / sheet).glob("*.c")), words=["--html", "m.html"])
    around = bench.write("around.html", AROUND.replace("WIDTHS", json.dumps(WIDTHS)))
    with tempfile.TemporaryDirectory() as place:
        words = [browser() or "chromium", "--headless", "--no-sandbox", "--disable-gpu", "--disable-dev-shm-usage", f"--user-data-dir={place}"]
        words += ["--allow-file-access-from-files", "--virtual-time-budget=5000", "--enable-logging=stderr", "--dump-dom", around.as_uri()]
        done = subprocess.run(words, capture_output=True, text=True, check=False, timeout=SECONDS, stdin=subprocess.DEVNULL)
    told = re.search(r'<pre class="found">(\[.*?\])</pre>', done.stdout)
    found = json.loads(html.unescape(told[1])) if told else []
    console = [it for it in done.stderr.splitlines() if "CONSOLE" in it]
    tally.expect("the page is loaded", len(found) == len(WIDTHS) and not console, f"{console} {done.stderr[-300:]}")
    for it in found:
        name = f"the page at {it['width']} pixels"
        tally.expect(f"{name}: rows unfold", it["folded"] and it["unfolded"], it)
        tally.expect(f"{name}: nothing is cut off", it["scroll"] <= it["width"] and not it["outside"], it)
        tally.expect(f"{name}: it is sorted", it["points"] == sorted(it["points"]) and len(set(it["points"])) > 1, it)
        tally.expect(f"{name}: pictures", it["pictures"] > 0, it)


def parts(tally: Tally, folder: pathlib.Path) -> List[Part]:
    """The parts of this file."""
    return [Part("page", lambda: looked_at(tally, folder), (*COMPILER, BROWSER))]
