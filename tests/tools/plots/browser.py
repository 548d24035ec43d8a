"""The page in a browser without a window: it loads without an error, fits each width, and no text is cut off."""

from __future__ import annotations

import html
import json
import pathlib
import re
import shutil
import struct
import subprocess
import tempfile
from typing import Any, Dict, List, Optional

from base import REPO, SECONDS, Check, Parts
from checks import Part, Tool
from pictures import SWEEP
from profiles import file_of

NAMES = ("chromium", "chromium-browser", "google-chrome")
# The widths of a telephone and of a screen. A page stands in a frame of each.
WIDTHS = (400, 1600)
HEIGHT = 3600
# What is looked at in the page, by a script that is put into a copy of it: what lies outside the window's width, texts of pictures outside
# their picture or over one another's middle, texts that are hard to see, and what the page would load from elsewhere.
LOOK = """
<script>
window.onerror = (text) => { document.title = 'error: ' + text; };
const light = (color) => {
  const [r, g, b] = color.match(/[0-9.]+/g).map((it) => it / 255).map((it) => it <= 0.04045 ? it / 12.92 : ((it + 0.055) / 1.055) ** 2.4);
  return 0.2126 * r + 0.7152 * g + 0.0722 * b + 0.05;
};
window.onload = () => {
  const outside = [], over = [];
  for (const picture of document.querySelectorAll('svg')) {
    const frame = picture.getBoundingClientRect();
    for (const text of picture.querySelectorAll('text')) {
      const place = text.getBoundingClientRect();
      if (place.left < frame.left - 1 || place.right > frame.right + 1 || place.top < frame.top - 1 || place.bottom > frame.bottom + 1)
        outside.push(picture.id + ': ' + text.textContent);
    }
    const texts = [...picture.querySelectorAll('text')].map((it) => [it.textContent, it.getBoundingClientRect()]);
    for (let i = 0; i < texts.length; i++)
      for (let j = 0; j < i; j++) {
        const [one, here] = texts[i], [other, there] = texts[j];
        if (here.left < there.right - 1 && there.left < here.right - 1 && here.top < there.bottom - 4 && there.top < here.bottom - 4)
          over.push(picture.id + ': ' + one + ' over ' + other);
      }
  }
  const small = [...document.querySelectorAll('svg text')].filter((it) => it.getBoundingClientRect().height < 8).length;
  const paper = light(getComputedStyle(document.body).backgroundColor);
  const contrasts = [...document.querySelectorAll('h1, h2, p, th, td, code, .number')].map((it) => light(getComputedStyle(it).color) / paper);
  const found = {
    name: NAME,
    window: window.innerWidth,
    width: document.documentElement.scrollWidth,
    dark: matchMedia('(prefers-color-scheme: dark)').matches,
    contrast: Math.min(...contrasts.map((it) => Math.max(it, 1 / it))),
    page: paper,
    papers: [...new Set([...document.querySelectorAll('svg')].map((it) => getComputedStyle(it).backgroundColor))],
    pictures: [...document.querySelectorAll('svg')].map((it) => it.id),
    outside: outside,
    over: over,
    small: small,
    rows: [...document.querySelectorAll('table')].pop().querySelectorAll('tr').length,
    names: new Set([...document.querySelectorAll('[id]')].map((it) => it.id)).size,
    named: document.querySelectorAll('[id]').length,
    texts: [...document.querySelectorAll('svg text, td')].map((it) => it.textContent),
    tags: document.querySelectorAll('b:not(.source b), i:not(.source i, .legend i)').length,
    loaded: performance.getEntriesByType('resource').length,
  };
  parent.postMessage(JSON.stringify(found), '*');
};
</script>
"""
# The page around the frames, which writes down what each of them tells.
AROUND = """<!DOCTYPE html><meta charset="utf-8"><body style="margin: 0"><script>
window.onmessage = (told) => {
  const line = document.createElement('pre');
  line.textContent = told.data;
  line.className = 'found';
  document.body.append(line);
};
</script>
"""
# A program of this name is in the table, and one has costs of lines. It would be parts of a page where it is not escaped.
WILD = '<i>&amp;id="x".s'


def browser() -> Optional[str]:
    """The browser that is installed."""
    return next(filter(None, map(shutil.which, NAMES)), None)


def loaded(program: str, path: pathlib.Path, is_dark: bool) -> subprocess.CompletedProcess[str]:
    """What a page is after it was loaded, and what its console says. A picture of it stands beside it."""
    with tempfile.TemporaryDirectory() as folder:
        size = f"--window-size={sum(WIDTHS)},{HEIGHT}"
        words = [program, "--headless", "--no-sandbox", "--disable-gpu", size, "--hide-scrollbars", f"--user-data-dir={folder}"]
        # 0 is dark, and 1 is light.
        words += [f"--blink-settings=preferredColorScheme={0 if is_dark else 1}", f"--screenshot={path.with_suffix('.png')}"]
        # Containers have little shared memory.
        words += ["--disable-dev-shm-usage", "--enable-logging=stderr", "--virtual-time-budget=5000", "--dump-dom", path.as_uri()]
        return subprocess.run(words, capture_output=True, text=True, check=False, timeout=SECONDS, stdin=subprocess.DEVNULL)


BROWSER = Tool("chromium", "chromium", lambda _: browser() is not None)
OF_PROFILE = ["costs", "matrix", "timeline"]
# Each page, with the names of its pictures, and how many rows its table has.
PAGES = {
    "lu": (OF_PROFILE, 15),
    "total_exchange": (OF_PROFILE, 4),
    "table": (["compare", "sweep"], 8),
    "large": (OF_PROFILE, 15),
    "lines": (["costs", "lines"], 7),
    "many lines": (["costs", "lines"], 7),
}
# Those that are looked at by someone who likes dark pages.
DARK = ("total_exchange", "large", "many lines")


def parts(make: Parts) -> List[Part]:
    """The pages of those who like light ones and of those who like dark ones: most of the time of one page is that of the browser's start."""
    return [make.part(f"{kind} pages in a browser", load, kind == "dark", tools=(BROWSER,)) for kind in ("light", "dark")]


def load(check: Check, is_dark: bool) -> None:
    """Makes pages and loads them."""
    texts = {name: page(check, name) for name in PAGES if (name in DARK) == is_dark}
    path = check.folder / "around.html"
    path.write_text(AROUND + "".join(framed(name, text) for name, text in texts.items()))
    done = loaded(browser() or BROWSER.name, path, is_dark)
    console = [line for line in done.stderr.splitlines() if "CONSOLE" in line or "error: " in line.lower() and "dbus" not in line.lower()]
    found = [json.loads(html.unescape(it)) for it in re.findall(r'<pre class="found">(\{.*?)</pre>', done.stdout)]
    shot = path.with_suffix(".png").read_bytes()
    is_shot = struct.unpack(">II", shot[16:24]) == (sum(WIDTHS), HEIGHT)
    check.expect(f"{'dark' if is_dark else 'light'} pages", is_shot and not console, f"{console} {done.stderr[-300:]}")
    for name, text in texts.items():
        check.tell(f"page of {name}", faults(name, text, [it for it in found if it["name"] == name], is_dark))


def page(check: Check, name: str) -> str:
    """A page that bspplot makes."""
    path = check.folder / f"{name}.html"
    kind = "--source" if "lines" in name else "--html"
    prices = [] if name == "table" else ["--g", "4", "--l", "1000"]
    words = [kind, str(path), *prices, "--title", f"The page of {name}", "--setting", "program=<b>.c"]
    done = check.tool("bspplot", *words, str(source_of(check, name)))
    check.expect(f"page of {name}, made", done.returncode == 0, done.stderr)
    return path.read_text()


def source_of(check: Check, name: str) -> pathlib.Path:
    """What a page is made of."""
    if name == "large":
        return large(check)
    if name == "table":
        path = check.folder / "table.csv"
        path.write_text(SWEEP.replace("two.s", '"' + WILD.replace('"', '""') + '"'))
        return path
    return costs_of_lines(check, 20 if name == "many lines" else 4) if "lines" in name else file_of(name)


def costs_of_lines(check: Check, nodes: int) -> pathlib.Path:
    """The costs of lines of a text whose name and whose lines would be parts of a page."""
    text = (REPO / "examples/total_exchange.s").read_text()
    (check.folder / WILD).write_text(f"# <b>{WILD}</b> {'a long line ' * 20}\n{text}")
    done = check.tool("bsprun", "-n", str(nodes), "--lines-as", "json=lines.json", WILD)
    check.expect(f"costs of lines on {nodes} nodes", (check.folder / "lines.json").exists(), done.stderr)
    return check.folder / "lines.json"


def large(check: Check) -> pathlib.Path:
    """A profile with numbers that are as long as they get."""
    path = check.folder / "large.csv"
    rows = [line.split(",") for line in file_of("lu").read_text().splitlines()]
    for row in rows[1:]:
        row[3] = row[3] and str(int(row[3]) * 50_000_003)
        row[4:7] = [it and str(int(it) * 50_003) for it in row[4:7]]
    path.write_text("".join(",".join(row) + "\n" for row in rows))
    return path


def framed(name: str, text: str) -> str:
    """A frame of each width, in which this page is."""
    content = html.escape(text.replace("</head>", LOOK.replace("NAME", json.dumps(name)) + "</head>"))
    return "".join(f'<iframe style="border: 0; width: {width}px; height: {HEIGHT}px" srcdoc="{content}"></iframe>' for width in WIDTHS)


def faults(name: str, text: str, found: List[Dict[str, Any]], is_dark: bool) -> str:
    """What is wrong with a page, of which each frame has told."""
    if re.search(r"""(?:src|href)=["']?(?:https?:|//|file:)""", text):
        return "it asks for files from elsewhere"
    if "program</th><td>&lt;b&gt;.c</td>" not in text:
        return "a setting is missing"
    if sorted(it["window"] for it in found) != sorted(WIDTHS):
        return f"it was not loaded: {found}"
    return "".join(f"in {it['window']} pixels {fault}; " for it in found for fault in [fault_of(it, *PAGES[name], is_dark)] if fault)


def fault_of(found: Dict[str, Any], names: List[str], rows: int, is_dark: bool) -> str:
    """What is wrong with a page in one of the frames."""
    texts = found.pop("texts")
    if sorted(found["pictures"]) != names or found["rows"] != rows:
        return f"it has the pictures {found['pictures']} and {found['rows']} rows"
    if found["width"] > found["window"] or found["outside"] or found["over"] or found["small"] or found["loaded"]:
        return f"it does not stand in its width, or texts are cut off or small, or it loads more: {found}"
    if found["dark"] != is_dark or (found["page"] < 0.2) != is_dark or found["contrast"] < 4.5 or found["papers"] != ["rgb(255, 255, 255)"]:
        return f"it is hard to read: {found}"
    is_named = texts.count(WILD) > 2 if "compare" in names else "lines" not in names or any(WILD in it for it in texts)
    if found["tags"] or not is_named:
        return f"a name is not as it is written: {texts}"
    return "" if found["names"] == found["named"] else "two of its parts have one name"
