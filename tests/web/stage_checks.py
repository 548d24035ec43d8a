"""Pages of runs, in Chromium from files, compared with the native debugger, profile and report.

Also moves, links and mistakes; many ranks and supersteps; widths, print, keys and labels; hostile names and contents.
"""

from __future__ import annotations

import base64
import contextlib
import gzip
import json
import os
import pathlib
import random
import re
import resource
import struct
import subprocess
from typing import Any, Dict, Iterator, List, Tuple

import devtools
from checks import REPO, Tally

from bsptools.framed.session import Session
from bsptools.program import elf

HERE = pathlib.Path(__file__).resolve().parent
SEED = 89
# The most bytes of a page beyond the program's sources and input, and the most processor seconds that writing it takes beyond compiling.
MOST_PAGE, MOST_SECONDS = 800_000, 2.0
MOST_RECORD = 8 << 20
# Elements of a page that shows values in values.
MOST_DRAWN = 30_000
WIDTHS = (400, 1400)
STOPS = 10
FEWEST_CELLS = 400
# The programs whose values are compared: the source, the words of bsprun, and of variables the formats of their elements. A text has "s".
Formats = Dict[str, str]
PROGRAMS: List[Tuple[str, List[str], Formats]] = [
    ("tests/web/programs/kinds.c", ["-n", "3"], {"table": "i", "grid": "d", "word": "s", "x": "d", "own[]": "d", "square": "i"}),
    ("tests/web/programs/ring.c", ["-n", "5"], {"left": "i", "right": "i"}),
    ("examples/c/jacobi.c", ["-n", "4"], {"cells": "d", "next": "d"}),
    (
        "examples/c/samplesort.c",
        ["-n", "4", "--input", str(REPO / "examples/c/numbers.txt")],
        {"numbers": "i", "own[]": "i", "sample[]": "i", "all[]": "i"},
    ),
    ("course/solutions/10-stencil/stencil.c", ["-n", "4", "-D", "N=24"], {"rod": "i", "next": "i"}),
    ("examples/c/psum.c", ["-n", "4"], {}),
]
# What a page shows: each box with its rank, name, address and cells, of which each has its first byte, its bytes and its text.
BOXES = """[...document.querySelectorAll('#ranks td.box')].map((it) => ({
  rank: Number(it.dataset.rank), name: it.dataset.name, address: Number(it.dataset.address),
  cells: [...it.querySelectorAll('.cell')].map((cell) => [Number(cell.dataset.at), Number(cell.dataset.size), cell.firstChild.textContent]),
}))"""
STILL = "document.documentElement.dataset.still"
EVERYTHING = (
    "['what', 'ranks', 'bars', 'output', 'notes', 'asked'].map((it) => document.getElementById(it).innerText).join('|')"
    " + document.querySelectorAll('path.arrow').length"
)
# How light a colour is against another one, as WCAG has it.
CONTRAST = """(() => {
  const light = (color) => {
    const [r, g, b] = color.match(/[0-9.]+/g).map((it) => it / 255).map((it) => it <= 0.04045 ? it / 12.92 : ((it + 0.055) / 1.055) ** 2.4);
    return 0.2126 * r + 0.7152 * g + 0.0722 * b + 0.05;
  };
  const paper = (it) => {
    for (let at = it; at !== null; at = at.parentElement) {
      const color = getComputedStyle(at).backgroundColor;
      if (!/, 0\\)$/.test(color) && color !== 'transparent' && !/0\\.\\d+\\)$/.test(color)) {
        return light(color);
      }
    }
    return light('rgb(255, 255, 255)');
  };
  const inks = [...document.querySelectorAll('h1, h2, p, th, td, label, summary, button:not(:disabled), code, .cell, .index, .note, #output')];
  const shares = inks.filter((it) => it.offsetParent !== null).map((it) => light(getComputedStyle(it).color) / paper(it)).map((it) => Math.max(it, 1 / it));
  return Math.min(...shares);
})()"""
# What stands outside of the page's width and in no part of it that can be scrolled.
OUTSIDE = """[...document.querySelectorAll('body *')].filter((it) => it.offsetParent !== null && !it.closest('#stage, #listing, .wide, .aside, svg')
  && it.getBoundingClientRect().right > innerWidth + 1).map((it) => it.id || it.tagName).join(' ')"""
UNNAMED = """[...document.querySelectorAll('button, input, select, textarea, [tabindex]')].filter((it) => !it.textContent.trim() && !it.ariaLabel
  && !(it.labels?.length > 0) || it.tagName === 'INPUT' && !it.ariaLabel && it.labels.length === 0).map((it) => it.id || it.tagName).join(' ')"""


class Maker:
    """Programs and their pages, each made once."""

    def __init__(self, folder: pathlib.Path, program: str) -> None:
        self.folder, self.program = folder, program

    def elf(self, source: str, words: List[str]) -> pathlib.Path:
        """A program in C, compiled as bsprun compiles it."""
        defined = [it for at, word in enumerate(words) if word == "-D" for it in ("-D", words[at + 1])]
        path = self.folder / f"{pathlib.Path(source).stem}{''.join(defined).replace('/', '')}.elf"
        if not path.exists():
            subprocess.run([str(REPO / "bspcc"), "-g", *defined, "-o", str(path), str(REPO / source), "-lm"], check=True, capture_output=True)
        return path

    def page(self, program: pathlib.Path, words: List[str], name: str = "") -> pathlib.Path:
        """The page of a program."""
        path = self.folder / f"{name or program.stem}{''.join(it for it in words if it.isdigit())}.html"
        given = [it for at, it in enumerate(words) if it != "-D" and words[at - 1 : at] != ["-D"]]
        asked = [str(REPO / "bsprun"), "--page", str(path), *given, str(program)]
        done = self.bsprun(asked)
        if done.returncode != 0:
            raise AssertionError(done.stderr)
        return path

    def bsprun(self, words: List[str], folder: pathlib.Path = REPO) -> "subprocess.CompletedProcess[str]":
        """What bsprun does with this emulator."""
        env = {**os.environ, "BSPEMU": self.program}
        return subprocess.run(words, cwd=folder, stdin=subprocess.DEVNULL, capture_output=True, text=True, check=False, env=env)


class Look:
    """A page of a run that is looked at, and the same run in the native emulator."""

    def __init__(self, page: devtools.Page, maker: Maker) -> None:
        self.page, self.maker = page, maker
        self.settings: List[str] = []

    def open(self, path: pathlib.Path, stop: str = "") -> None:
        """Opens a page at a stop."""
        self.page.open("about:blank")
        self.page.open(path.as_uri() + (f"#{stop}" if stop else ""))
        self.page.wait("document.documentElement.dataset.ready || document.getElementById('status')?.className === 'error'")
        said = self.page.run("document.getElementById('status').textContent")
        if said:
            raise AssertionError(f"{path.name} says {said}")

    def go(self, stop: str) -> str:
        """Follows a link in the page that is open. What the page then says that it shows."""
        self.page.run(f"moves.ask(() => moves.linked({json.dumps(stop)}))")
        return self.what()

    def what(self) -> str:
        """What the page says that it shows."""
        said: str = self.page.run("document.getElementById('status').textContent + document.getElementById('what').textContent")
        return said

    def press(self, key: str) -> None:
        """Presses a key and waits for what comes of it."""
        before = self.page.run(f"{STILL} || '0'")
        self.page.press(key)
        self.page.wait(f"{STILL} !== {json.dumps(before)}")

    def boxes(self) -> List[Dict[str, Any]]:
        """The boxes that are shown."""
        found: List[Dict[str, Any]] = self.page.run(BOXES)
        return found

    def arrows(self) -> List[Tuple[int, int, int]]:
        """From where to where the requests that are shown go, with the bytes that count for h."""
        found = self.page.run("moves.seen.requests.arrows.map((it) => [it.from, it.to, it.bytes + (it.call.request.tagBytes ?? 0)])")
        return [(it[0], it[1], it[2]) for it in found]

    def stops(self) -> List[str]:
        """Links to all stops of the run that is open: of the first supersteps and the last one."""
        script = (
            "(async () => { const found = []; for (const k of new Set([0, 1, 2, 3, moves.machine.last])) if (k <= moves.machine.last)"
            " for (const it of await moves.stops.list(k)) found.push({begin: `${k}`, call: `${k}.${it.at}`, barrier: `${k}.end`, over: 'over'}[it.kind]);"
            " return found; })()"
        )
        found: List[str] = self.page.run(script)
        return found


def settings_of(program: pathlib.Path, words: List[str], name: str) -> List[str]:
    """The words with which the native emulator makes the run of a page."""
    content = program.read_bytes()
    nodes, given = words[words.index("-n") + 1], words[words.index("--input") + 1] if "--input" in words else ""
    units = ["--float"] if elf.wants_floats(content) else []
    found = [name, str(program), "--nodes", nodes, "--memory", str(1 << 24), "--limit", str(1 << 40), "--clock", *units]
    return [*found, "--input", given] if given else found


@contextlib.contextmanager
def native(maker: Maker, program: pathlib.Path, words: List[str], place: Dict[str, Any]) -> Iterator[Session]:
    """The native debugger at a place of a page."""
    with contextlib.closing(Session([maker.program, *settings_of(program, words, "debug")])) as session:
        for _ in range(place["superstep"]):
            session.ask("phase")
            session.ask("turn")
        for rank, ticks in enumerate(place["ticks"]):
            session.ask(f"step {rank} {ticks}")
        yield session


def decoded(content: bytes, form: str) -> str:
    """Bytes as the page should show them, but for how many digits a number has."""
    if form == "s":
        return '"' + content.split(b"\0")[0].decode() + '"'
    return str(struct.unpack(f"<{form}", content)[0])


def is_right(text: str, content: bytes, form: str) -> bool:
    """Whether a cell shows these bytes."""
    if form == "d":
        value: float = struct.unpack("<d", content)[0]
        return abs(float(text) - value) <= 2e-5 * abs(value)
    return text == decoded(content, form)


def compared(look: Look, session: Session, formats: Formats, memory: int = 1 << 24) -> Tuple[int, str]:
    """How many cells agree with the native debugger, and the first that does not."""
    count = 0
    for box in look.boxes():
        form = formats.get(box["name"])
        # A pointer may have the name of what it points to.
        is_value = form and box["address"] is not None and not box["cells"][0][2].startswith(("→", "0x", "NULL"))
        for at, size, text in box["cells"] if is_value else ():
            content = session.memory(box["rank"], box["address"] + at, size, memory)
            if text.endswith(("more", "× 0")):
                if text.endswith("× 0") and any(content):
                    return count, f"{box['name']} of rank {box['rank']} is not {text}"
            elif not is_right(text, content, form or ""):
                return count, f"{box['name']} of rank {box['rank']} at {at} shows {text}, and has {content.hex()}"
            count += 1
    return count, ""


def values(look: Look) -> str:
    """Values in boxes at ten stops of six programs are those of the native debugger, and calls are where it makes them."""
    chance, count = random.Random(SEED), 0
    for source, words, formats in PROGRAMS:
        program = look.maker.elf(source, words)
        look.open(look.maker.page(program, words))
        stops = look.stops()
        for stop in sorted(chance.sample(stops, min(STOPS, len(stops)))):
            said = look.go(stop)
            place = look.page.run("moves.stop.place")
            with native(look.maker, program, words, place) as session:
                more, fault = compared(look, session, formats)
                fault = fault or states(look, session)
            count += more
            if fault or "uperstep" not in said:
                return f"{source} at {stop}: {fault or said}"
    return "" if count >= FEWEST_CELLS else f"{count} cells were compared"


def states(look: Look, session: Session) -> str:
    """What is wrong with the states of the ranks, and with the call that the page says was made."""
    shown = look.page.run("moves.seen.now.looks.map((it) => [it.node.pc, it.node.state])")
    there = [re.match(r"rank \d+ pc (\S+) superstep \d+ state (.*)", it) for it in session.ask("where").accepted()]
    wanted = [[int(it[1], 16), it[2]] for it in there if it]
    call = look.page.run("moves.stop.call && [moves.stop.call.rank, moves.stop.call.pc, moves.stop.call.number]")
    if call is not None:
        node = session.node(call[0])
        behind = call[1] + 4
        if node is None or node.pc not in (behind, call[1]) or node.x[17] != call[2]:
            return f"the call {call} was not made: {node}"
    return "" if shown == wanted else f"ranks are at {shown}, and natively at {wanted}"


def profile_of(look: Look, program: pathlib.Path, words: List[str]) -> Dict[int, Dict[Tuple[int, int], int]]:
    """The bytes from rank to rank in each superstep, by the native profile."""
    path = look.maker.folder / "profile.csv"
    subprocess.run([look.maker.program, *settings_of(program, words, "run"), "--profile", str(path)], stdout=subprocess.DEVNULL, check=True)
    found: Dict[int, Dict[Tuple[int, int], int]] = {}
    for line in path.read_text().splitlines()[1:]:
        superstep, rank, to, _, sent, *_ = line.split(",")
        if to:
            found.setdefault(int(superstep), {})[int(rank), int(to)] = int(sent)
    return found


def arrows(look: Look) -> str:
    """Arrows bring what the profile counts, before and after they land."""
    for source, words, _ in PROGRAMS[:5]:
        program = look.maker.elf(source, words)
        look.open(look.maker.page(program, words))
        wanted = profile_of(look, program, words)
        for superstep in range(min(4, int(look.page.run("moves.machine.last")))):
            for stop in (f"{superstep}.end", f"{superstep + 1}"):
                look.go(stop)
                found: Dict[Tuple[int, int], int] = {}
                for origin, to, count in look.arrows():
                    found[origin, to] = found.get((origin, to), 0) + count
                drawn = look.page.run("document.querySelectorAll('path.arrow').length")
                if found != wanted.get(superstep, {}) or drawn < len(found):
                    return f"{source} at {stop}: {drawn} arrows {found}, and not {wanted.get(superstep)}"
    return ""


def totals(look: Look) -> str:
    """Totals are those of the native report for three pairs of g and l, at once and without another run."""
    source, words, _ = PROGRAMS[2]
    program = look.maker.elf(source, words)
    look.open(look.maker.page(program, words))
    for g, l in ((1, 0), (4, 100), (3000, 123456)):
        look.page.run(f"$('g').value = '{g}'; $('g').oninput(); $('l').value = '{l}'; $('l').oninput()")
        asked = [look.maker.program, *settings_of(program, words, "run"), "--g", str(g), "--l", str(l), "--report"]
        done = subprocess.run(asked, stdout=subprocess.PIPE, text=True, check=True)
        total = done.stdout.splitlines()[-2].split()[1]
        shown = look.page.run("$('total').textContent").replace(",", "")
        if not shown.endswith(f"= {total}."):
            return f"g {g}, l {l}: {shown}, and not {total}"
    look.page.run("$('g-slider').value = '40'; $('g-slider').oninput()")
    return "" if look.page.run("$('g').value") == "99" else "the slider does not set g"


def moves(look: Look) -> str:
    """Keys, buttons, the slider and links lead to the same stops, and what was seen is seen again on the way back."""
    source, words, _ = PROGRAMS[0]
    look.open(look.maker.page(look.maker.elf(source, words), words))
    seen = []
    for _ in range(12):
        seen.append((look.page.run("location.hash"), look.page.run(EVERYTHING)))
        look.press("ArrowRight")
    for hash_of, shown in reversed(seen):
        look.press("ArrowLeft")
        if (look.page.run("location.hash"), look.page.run(EVERYTHING)) != (hash_of, shown):
            return f"back at {look.page.run('location.hash')} something else is seen than at {hash_of} before"
    look.press("PageDown")
    look.press("PageDown")
    at_two = look.page.run(EVERYTHING)
    look.press("Home")
    look.page.run("$('superstep').value = '2'; $('superstep').oninput()")
    look.page.wait("location.hash === '#2'")
    look.open(look.maker.folder / "kinds3.html", "2")
    if look.page.run(EVERYTHING) != at_two:
        return "the link and the slider show something else than the keys"
    look.press("End")
    if "ended" not in look.what():
        return look.what()
    look.press("PageUp")
    look.press("n")
    return "" if "line by line" in look.what() else f"n leads to {look.what()}"


def plays(look: Look) -> str:
    """A run plays by itself up to its end, and can be paused."""
    source, words, _ = PROGRAMS[0]
    look.open(look.maker.page(look.maker.elf(source, words), words), "2")
    look.page.run("$('speed').value = '3'; $('play-by').value = 'half'")
    look.page.click("#play")
    look.page.wait("location.hash === '#2.end' || moves.stop.kind === 'over'")
    look.page.run("$('play-by').value = 'stop'")
    look.page.wait("moves.stop.kind === 'over'")
    look.page.wait("$('play').textContent === 'Play'")
    return ""


def again(look: Look) -> str:
    """Another number of ranks, and another input, are tried in the page."""
    source, words, _ = PROGRAMS[3]
    look.open(look.maker.page(look.maker.elf(source, words), words))
    look.page.run("$('nodes').value = '2'; $('input').value = '5 -3 9 1 2 8'; document.documentElement.dataset.still = '0'")
    look.page.click("#run")
    look.page.wait(f"{STILL} !== '0'")
    look.press("End")
    shown = look.page.run("[$('output').textContent, document.querySelectorAll('#ranks th.rank').length, location.hash]")
    return "" if shown == ["-3\n1\n2\n5\n8\n9\n", 2, "#over&nodes=2"] else f"{shown}"


def many(look: Look) -> str:
    """Pages of 2, 16 and 64 ranks, and one of 10,000 supersteps."""
    program = look.maker.elf("tests/web/programs/ring.c", [])
    for nodes, columns in ((2, 2), (16, 16), (64, 16)):
        look.open(look.maker.page(program, ["-n", str(nodes)]), "3.end")
        found = look.page.run("[document.querySelectorAll('#ranks th.rank').length, $('all').children.length]")
        if found != [columns, nodes if nodes > columns else 0]:
            return f"{nodes} ranks have {found}"
    look.page.run("moves.choose(48)")
    if look.page.run("document.querySelector('#ranks th.rank').textContent") != "rank 48":
        return "no other ranks can be chosen"
    words = ["-n", "4", "-D", "STEPS=10000"]
    program = look.maker.elf("tests/web/programs/ring.c", words)
    path = look.maker.page(program, words, "long")
    if path.stat().st_size > MOST_PAGE:
        return f"a page of 10,000 supersteps has {path.stat().st_size} bytes"
    look.open(path, "9000")
    with native(look.maker, program, words, look.page.run("moves.stop.place")) as session:
        count, fault = compared(look, session, {"left": "i", "right": "i"})
    look.go("17")
    look.go("9990.end")
    return fault or ("" if count == 8 and "Superstep 9990" in look.what() else f"{count} {look.what()}")


def chosen(look: Look) -> str:
    """Rows are hidden, arrays opened and the arrows of one rank shown, and a link keeps that; the table of bytes has the profile's."""
    source, words, _ = PROGRAMS[4]
    words = ["-n", "4", "-D", "N=160"]
    program = look.maker.elf(source, words)
    look.open(look.maker.page(program, words, "halo"), "1.end")
    # The cells of a halo are shown, though they are far behind the first ones of the array.
    halo = "[...document.querySelectorAll('td.box[data-name=rod][data-rank=\"0\"] .cell.brought.asked')].map((it) => [Number(it.dataset.at), it.title])"
    if look.page.run(halo) != [[164, "put from rank 1"]]:
        return f"the halo is {look.page.run(halo)}"
    look.page.run("$('traffic').open = true; moves.traffic()")
    table = look.page.run("[...document.querySelectorAll('#traffic-table tbody tr')].map((row) => [...row.children].map((it) => it.textContent))")
    if ["|".join(row) for row in table] != ["0||4|||4", "1|4||4||8", "2||4||4|8", "3|||4||4", "received|4|8|8|4|h = 8"]:
        return f"the table is {table}"
    look.page.click("td.box[data-name=rod] .fold")
    look.page.click("th.rank[data-rank='3']")
    look.page.run("$('rows').open = true; stage.view.list(); document.querySelector('[aria-label=\"Show sum\"]').click()")
    link = look.page.run("location.hash.slice(1)")
    script = "[document.querySelectorAll('td.box[data-name=sum]').length, document.querySelectorAll('path.arrow').length,"
    script += " document.querySelectorAll('td.box[data-name=rod][data-rank=\"1\"] .element').length]"
    seen = look.page.run(script)
    look.open(look.maker.folder / "halo4.html", link)
    again_seen = look.page.run(script)
    look.page.run("$('stop').value = '3'; $('stop').oninput()")
    look.page.wait("location.hash.startsWith('#1.3&')")
    is_kept = link == "1.end&hide=sum&all=rod&arrows=3" and seen == again_seen == [0, 2, 162]
    return "" if is_kept else f"{link}: {seen}, and by the link {again_seen}"


def mistakes(look: Look) -> str:
    """A run that faults or is refused ends with the words of a terminal, its call is marked, and the arrow of a refused one is red."""
    for to, offset, wrong in (("9", "0", 0), ("0", "16", 1)):
        words = ["-n", "4", "-D", f"TO={to}", "-D", f"OFFSET={offset}"]
        program = look.maker.elf("tests/web/programs/fails.c", words)
        look.open(look.maker.page(program, words, f"fails{to}"), "over")
        done = look.maker.bsprun([str(REPO / "bsprun"), "-n", "4", str(program)])
        told = [it for it in done.stderr.splitlines() if not it.startswith("  gdb ") and not it.startswith("bsprun: run again")]
        shown = look.page.run("[...$('notes').children].map((it) => it.textContent)")
        marked = look.page.run("document.querySelector('.line.call.wrong')?.textContent ?? ''")
        red = look.page.run("document.querySelectorAll('path.arrow.wrong').length")
        if shown != told or "bsp_put(TO" not in marked or red != wrong:
            return f"{shown}, {marked!r}, {red}; and not {told}"
    return contests(look)


def contests(look: Look) -> str:
    """What is wrong with the marks of contested bytes, beside those that the native emulator finds."""
    source = REPO / "examples/wrong_put.s"
    look.open(look.maker.page(source, ["-n", "4"], "contested"), "1.end")
    path = look.maker.folder / "contested.csv"
    asked = [look.maker.program, "run", str(source), "--nodes", "4", "--format", "asm", "--contested", str(path)]
    subprocess.run(asked, stdout=subprocess.DEVNULL, check=True)
    rows = [it.split(",") for it in path.read_text().splitlines()[1:]]
    wanted = sorted((int(row[1]), int(row[2], 16) + k) for row in rows for k in range(int(row[3])))
    found = look.page.run("[...moves.seen.contested].flatMap(([rank, them]) => [...them].map((it) => [rank, it]))")
    marked = look.page.run("document.querySelectorAll('.cell.contested').length")
    is_same = sorted((it[0], it[1]) for it in found) == wanted and len(wanted) > 0 and marked > 0
    return "" if is_same else f"contested are {found}, and natively {wanted}; {marked} marks"


def exposures(look: Look) -> str:
    """Exposed bytes are marked, and those that a buffered put reads are not."""
    program = look.maker.elf("tests/web/programs/unbuffered.c", [])
    look.open(look.maker.page(program, ["-n", "2"]), "1.end")
    place = next(it["address"] for it in look.boxes() if it["name"] == "number")
    wanted = [[rank, place + k] for rank in (0, 1) for k in range(4)]
    script = "[...moves.seen.exposed].flatMap(([rank, them]) => [...them].map((it) => [rank, it])).sort((a, b) => a[0] - b[0] || a[1] - b[1])"
    found, marked = look.page.run(script), look.page.run("document.querySelectorAll('.cell.exposed').length")
    look.go("2.end")
    later = look.page.run("document.querySelectorAll('.cell.exposed').length")
    return "" if found == wanted and marked == 2 and later == 0 else f"{found}, {marked} and {later} marks"


def records(look: Look) -> str:
    """A recorded run looks the same at each stop, and is shown where a browser cannot run the machine; a long one says what is left out."""
    source, words, _ = PROGRAMS[0]
    program = look.maker.elf(source, words)
    look.open(look.maker.page(program, words))
    live = {stop: (look.go(stop), look.page.run(EVERYTHING)) for stop in look.stops()}
    look.open(look.maker.page(program, [*words, "--recorded"], "recorded"))
    for stop, seen in live.items():
        if (look.go(stop), look.page.run(EVERYTHING)) != seen:
            return f"at {stop} the record shows {look.page.run(EVERYTHING)}, and not {seen}"
    added = look.page.call("Page.addScriptToEvaluateOnNewDocument", source="delete WebAssembly.Suspending")["identifier"]
    look.open(look.maker.folder / "kinds3.html", "1.end")
    note = look.page.run("$('recorded').textContent")
    fallback = (look.what(), look.page.run(EVERYTHING)) == live["1.end"] and "cannot run the machine" in note
    look.page.call("Page.removeScriptToEvaluateOnNewDocument", identifier=added)
    words = ["-n", "2", "-D", "STEPS=10000"]
    path = look.maker.page(look.maker.elf("tests/web/programs/ring.c", words), [*words, "--recorded"], "long recorded")
    look.open(path)
    said = look.page.run("$('recorded').textContent")
    is_told = "supersteps are left out" in said and path.stat().st_size <= MOST_RECORD and "left out" in look.go("9000")
    return "" if fallback and is_told else f"{fallback}, {said}, {path.stat().st_size} bytes"


def hostile(look: Look) -> str:
    """Names, sources, input and output are text, whatever they have."""
    name = "<img src=x onerror=document.title=1><!--.c"
    text = '/* </script><script>document.title = "2"</script> <!-- */\n#include <bsp.h>\n#include <stdio.h>\nchar word[40] = "<b onclick=x>&lt;";\n'
    text += 'int main(void) { bsp_begin(2); bsp_push_reg(word, 40); bsp_sync(); printf("<img src=x onerror=document.title=3>%s</pre>", word); bsp_end(); }\n'
    folder = look.maker.folder / "hostile"
    folder.mkdir(exist_ok=True)
    (folder / name).write_text(text)
    (folder / "input").write_text("</textarea><script>document.title=4</script>")
    words = [str(REPO / "bsprun"), "--page", "page.html", "-n", "2", "--input", "input", name]
    done = look.maker.bsprun(words, folder)
    if done.returncode != 0:
        return done.stderr
    look.open(folder / "page.html", "over")
    title = look.page.run("document.title")
    made = look.page.run("document.querySelectorAll('img, b, body script:not([type]):not(:last-of-type)').length + document.scripts.length")
    output = look.page.run("$('output').textContent")
    has_source = "</script><script>" in look.page.run("$('listing').textContent")
    is_kept = title == f"{name}: a run" and made == 7 and output.count("onerror") == 2 and has_source
    return "" if is_kept else f"{title!r}, {made} scripts and images, {output!r}, {has_source}"


def nested(look: Look) -> str:
    """Of values that lie in each other, as in unions of unions, no more is shown than a browser can draw; nor of numbers of any size."""
    unions = [f"union u{k} {{ {'int' if k == 0 else f'union u{k - 1}'} {', '.join(f'a{i}' for i in range(24))}; }};" for k in range(4)]
    text = "#include <bsp.h>\n" + "\n".join(unions) + "\nunion u3 all;\nint main(void) { bsp_begin(1); bsp_push_reg(&all, 4); bsp_sync(); bsp_end(); }\n"
    (look.maker.folder / "unions.c").write_text(text)
    look.open(look.maker.page(look.maker.folder / "unions.c", ["-n", "1"]))
    count = look.page.run("document.getElementsByTagName('*').length")
    has_some = look.page.run("[...document.querySelectorAll('#stage .cell')].filter((it) => it.textContent === '0').length > 100")
    # DW_OP_lit1 and DW_OP_stack_value, of a type of 16 MB.
    size = look.page.run("located(new Uint8Array([0x31, 0x9f]), {}, 1 << 24).bytes.length")
    return "" if has_some and count < MOST_DRAWN and size < 100 else f"{count} elements, {size} bytes"


def widths(look: Look) -> str:
    """Nothing stands outside of a telephone's width or a screen's, and all can be read, also in dark pages."""
    for path, stop in (("kinds3.html", "1.end"), ("ring64.html", "3.end"), ("fails94.html", "over")):
        for width in WIDTHS:
            for is_dark in (False, True):
                look.page.look(width, 900, is_dark)
                look.open(look.maker.folder / path, stop)
                look.page.run("document.querySelectorAll('details').forEach((it) => { it.open = true; })")
                found = [look.page.run(it) for it in ("document.documentElement.scrollWidth", OUTSIDE, CONTRAST)]
                if found[0] > width or found[1] or found[2] < 4.5:
                    return f"{path} at {width}, {'dark' if is_dark else 'light'}: {found}"
    return ""


def printed(look: Look) -> str:
    """One stop is printed as one page."""
    for path, stop in (("samplesort4.html", "1.end"), ("ring16.html", "3.end"), ("kinds3.html", "over")):
        look.open(look.maker.folder / path, stop)
        answer = look.page.call("Page.printToPDF", preferCSSPageSize=True, printBackground=True)
        count = len(re.findall(rb"/Type\s*/Page[^s]", base64.b64decode(answer["data"])))
        if count != 1:
            return f"{path} has {count} pages"
    return ""


def named(look: Look) -> str:
    """Everything that can be pressed, chosen or scrolled has a name, and is reached by the Tab key."""
    look.open(look.maker.folder / "kinds3.html", "1.end")
    unnamed = look.page.run(UNNAMED)
    look.page.run("document.activeElement.blur()")
    reached = []
    for _ in range(48):
        look.page.press("Tab")
        reached.append(look.page.run("document.activeElement.id"))
    wanted = "first on superstep stop line-rank listing stage arrows size plain g l-slider output nodes input run"
    missing = set(wanted.split()) - set(reached)
    return unnamed or " ".join(sorted(missing))


def sizes(look: Look) -> str:
    """A page has no more than 800 KB beyond its sources and its input, takes a moment to write, and loads nothing."""
    source, words, _ = PROGRAMS[3]
    program = look.maker.elf(source, words)
    before = resource.getrusage(resource.RUSAGE_CHILDREN)
    path = look.maker.page(program, words)
    after = resource.getrusage(resource.RUSAGE_CHILDREN)
    seconds = after.ru_utime + after.ru_stime - before.ru_utime - before.ru_stime
    given = sum(len(base64.b64encode(gzip.compress(pathlib.Path(it).read_bytes()))) for it in (str(REPO / source), words[-1]))
    size = os.path.getsize(path) - given
    look.open(path)
    loaded = look.page.run("performance.getEntriesByType('resource').map((it) => it.name).filter((it) => !it.startsWith('blob:')).join(' ')")
    is_small = size <= MOST_PAGE and seconds <= MOST_SECONDS
    return loaded or ("" if is_small else f"{size} bytes, written in {seconds:.2f} s")


def look_at(tally: Tally, browser: str, folder: pathlib.Path, program: str) -> None:
    """Makes all of the checks."""
    devtools.KEYS.update({"ArrowRight": 39, "ArrowLeft": 37, "PageDown": 34, "PageUp": 33, "Home": 36, "End": 35, "n": 78})
    maker = Maker(folder, program)
    with devtools.browser(browser) as page:
        look = Look(page, maker)
        checks = (values, arrows, totals, moves, plays, chosen, again, many, mistakes, exposures, records, hostile, nested, sizes, named, widths)
        for check in (*checks, printed):
            page.look(WIDTHS[1], 900)
            tally.tell(f"pages of runs: {str(check.__doc__).rstrip('.')}", check(look))
        tally.tell("pages of runs: what they tell the console", "; ".join(page.pipe.told[:3]))
