"""The page in which programs run, in Chromium from a file: actions of users, and attacks by hostile programs and links."""

from __future__ import annotations

import base64
import json
import os
import pathlib
import subprocess
import time
import zlib
from typing import Dict, Iterator, List, Tuple

import devtools
from checks import REPO, Tally

# In milliseconds, from the browser's first byte of the page to its first run; and how many times as long a start may take on a busy host.
MOST_START, MOST_BUSY = 300, 4.0
MOST_TRIES = 20
WIDTHS = (400, 1400)
# A program that makes 600 million instructions, and one that writes what would be markup.
LONG = "li s0, 100000000\nloop: addi s1, s1, 3\nxor s2, s2, s1\nsw s2, 512(x0)\nlw s3, 512(x0)\naddi s0, s0, -1\nbnez s0, loop\nli a7, 1\necall\n"
MARKUP = "<img src=x onerror=document.title=1><b>bold</b>"
WRITES = f'la a0, text\nli a1, {len(MARKUP)}\nli a7, 17\necall\nli a7, 1\necall\ntext: .ascii "{MARKUP}"\n'
# How light a colour is against another one, as WCAG has it.
CONTRAST = """(() => {
  const light = (color) => {
    const [r, g, b] = color.match(/[0-9.]+/g).map((it) => it / 255).map((it) => it <= 0.04045 ? it / 12.92 : ((it + 0.055) / 1.055) ** 2.4);
    return 0.2126 * r + 0.7152 * g + 0.0722 * b + 0.05;
  };
  const paper = light(getComputedStyle(document.body).backgroundColor);
  const inks = [...document.querySelectorAll('h1, h2, p, th, td, label, summary, #status, #output, .CodeMirror span')];
  const shares = inks.map((it) => light(getComputedStyle(it).color) / paper).map((it) => Math.max(it, 1 / it));
  return Math.min(...shares);
})()"""
EDITOR = "document.querySelector('.CodeMirror').CodeMirror"
STATUS = "document.getElementById('status').textContent"
IS_STILL = "document.getElementById('run').getAttribute('aria-disabled') === 'false'"
FOCUS = "document.activeElement.id || document.activeElement.tagName"
# Programs that fail, with what the page says of them and the lines that it marks.
FAILING: Tuple[Tuple[str, str, List[int]], ...] = (
    ("li a7, 3\necall\nli t0, 2\nbne a0, t0, fine\nla t1, 0xFFFFF000\nlw t2, 0(t1)\nfine: li a7, 1\necall\n",
     "rank 2 stopped in superstep 0 at line 6: fault LoadOutside. The address", [6]),
    ("li a7, 3\necall\nbeqz a0, out\nli a7, 4\necall\nout: li a7, 1\necall\n",
     "desync: rank 0 ended at line 7, and rank 1 waits at line 5 for the end of superstep 0.", [5, 7]),
    ("li a7, 4\necall\n", "rank 0 stopped in superstep 1 outside of the program: fault IllegalInstruction. There is no", []),
    ("la a0, here\nhere: li a7, 99\n ecall\n", "rank 0 stopped in superstep 0 at line 3: fault UnknownCall. There is no call", [3]),
)
MARKED = "[...Array(document.querySelector('.CodeMirror').CodeMirror.lineCount()).keys()].filter((it) => EDITOR.lineInfo(it).bgClass === 'bad')"


class Look:
    """A page that is looked at."""

    def __init__(self, page: devtools.Page, url: str, program: str) -> None:
        self.page, self.url, self.program, self.script = page, url, program, ""

    def fresh(self, code: str = "") -> None:
        """Opens the page anew, with what stands behind the # of its address."""
        self.page.open("about:blank")
        self.page.open(self.url + code)
        self.page.wait("document.documentElement.dataset.ready || document.getElementById('status').className === 'error'")

    def forget(self, is_forgotten: bool) -> None:
        """Lets pages that are opened from now on find what the tab has kept, or not."""
        if self.script:
            self.page.call("Page.removeScriptToEvaluateOnNewDocument", identifier=self.script)
        source = "try { sessionStorage.clear(); } catch {}"
        self.script = self.page.call("Page.addScriptToEvaluateOnNewDocument", source=source)["identifier"] if is_forgotten else ""

    def text(self, name: str) -> str:
        """The text of a part of the page."""
        found: str = self.page.run(f"document.getElementById('{name}').innerText")
        return found

    def set(self, name: str, value: str) -> None:
        """Gives a field a value."""
        place = f"document.getElementById('{name}')"
        self.page.run(f"{place}.value = {json.dumps(value)}; {place}.dispatchEvent(new Event('change'))")

    def write(self, text: str) -> None:
        """Puts a program into the editor."""
        self.set("examples", "")
        self.page.run(f"{EDITOR}.setValue({json.dumps(text)})")

    def do(self, name: str) -> str:
        """Presses a button and waits until what it does is over. What the page says then."""
        self.page.click(f"#{name}")
        self.page.wait(IS_STILL)
        said: str = self.page.run(STATUS)
        return said

    def native(self, *words: str) -> Tuple[str, str]:
        """The output and the report of the program."""
        asked = [self.program, "run", *words]
        output, whole = (subprocess.run(it, stdout=subprocess.PIPE, text=True, check=False).stdout for it in (asked, [*asked, "--report"]))
        return output, whole[len(output) :]


def faults(page: devtools.Page, path: pathlib.Path, program: str) -> Iterator[Tuple[str, str]]:
    """The names of the checks, with what is wrong, or nothing."""
    look = Look(page, path.as_uri(), program)
    look.forget(True)
    checks = (
        starts, runs, compiled, refuses, fails, many, settings, steps, points, places, still, links, long_links, keeps, full, ends, blank_lines, hostile,
        drops, keys, focus, named, prints, widths,
    )  # fmt: skip
    for check in checks:
        look.page.look(WIDTHS[1], 900)
        look.fresh()
        yield str(check.__doc__).rstrip("."), check(look)
    yield "what the page tells the console", "; ".join(page.pipe.told[:3])


def starts(look: Look) -> str:
    """The page starts soon and loads nothing."""
    times: List[int] = []
    busy = os.getloadavg()[0] / len(os.sched_getaffinity(0))
    most = round(MOST_START * min(max(busy, 1.0), MOST_BUSY))
    # Only the fastest start counts, since the host has other work too.
    while len(times) < MOST_TRIES and min(times, default=most) >= most:
        look.fresh()
        times.append(int(look.page.run("document.documentElement.dataset.ready || 100000")))
    loaded = look.page.run("performance.getEntriesByType('resource').map((it) => it.name).filter((it) => !it.startsWith('blob:')).join(' ')")
    return f"it started after {times} ms, and not before {most} ms" if min(times) >= most else loaded and f"it loaded {loaded}"


def same(look: Look, native: Tuple[str, str]) -> str:
    """What the page shows of a run that is over otherwise than the program tells."""
    output, report = native
    total = next(line.split()[1] for line in report.splitlines() if line.startswith("total "))
    said, shown = look.page.run(STATUS), look.text("output")
    is_right = said.startswith(report.splitlines()[-1]) and shown.rstrip("\n") == output.rstrip("\n")
    is_right = is_right and look.text("total").replace(",", "").startswith(f"{report.count('superstep ')} superstep") and total in look.text("total").replace(",", "")
    return "" if is_right else f"{said!r}, {shown!r} and {look.text('total')!r}, and not {native}"


def runs(look: Look) -> str:
    """A text runs on eight ranks, and its costs are drawn."""
    look.set("examples", "prefix_sum_put.s")
    for name, value in (("nodes", "8"), ("g", "4"), ("l", "100")):
        look.set(name, value)
    look.do("run")
    words = [str(REPO / "examples/prefix_sum_put.s"), "--format", "asm", "--nodes", "8", "--g", "4", "--l", "100"]
    fault = same(look, look.native(*words))
    look.do("profile")
    drawn = look.page.run("[...document.querySelectorAll('#result svg')].map((it) => it.querySelectorAll('rect').length)")
    return fault or ("" if len(drawn) == 3 and min(drawn) > 5 else f"its pictures have {drawn} parts")


def compiled(look: Look) -> str:
    """A C program runs with its source beside it."""
    look.set("examples", "psum.c")
    if "bsp_begin" not in look.text("c") and "bsp_init" not in look.text("c"):
        return "its source is not there"
    look.do("run")
    return same(look, look.native(str(REPO / "examples/c/psum.elf"), "--float", "--nodes", "4", "--limit", "1000000000"))


def refuses(look: Look) -> str:
    """A line that is refused is marked."""
    look.write("nop\n nop\n nopp\n")
    said = look.do("run")
    marked = look.page.run(f"{EDITOR}.lineInfo(2).bgClass")
    return "" if said.startswith("line 3: UnknownMnemonic") and marked == "bad" else f"{said} {marked}"


def fails(look: Look) -> str:
    """A run that fails tells the superstep, the line and the reason."""
    for text, wanted, lines in FAILING:
        look.write(text)
        said = look.do("run")
        look.page.wait(f"{STATUS} !== 'It runs.' && {IS_STILL}")
        said = look.page.run(STATUS)
        marked = [it + 1 for it in look.page.run(MARKED.replace("EDITOR", EDITOR))]
        if not said.startswith(wanted) or marked != lines:
            return f"{said} {marked}"
    return ""


def many(look: Look) -> str:
    """Of more supersteps than are shown, the costs are still those of all, and it says so."""
    look.write("li s0, 1200\nnext: li a7, 4\necall\naddi s0, s0, -1\nbnez s0, next\nli a7, 1\necall\n")
    look.do("run")
    shown: str = look.text("total") + look.page.run("document.querySelector('#picture svg').textContent") + look.text("rows")
    return "" if all(it in shown for it in ("first 200", "work, w: 4,803 ticks", "and 201 more supersteps")) else shown[:200] + shown[-100:]


def settings(look: Look) -> str:
    """A field with a number that cannot be used is named and gets the focus, and a large machine is one."""
    look.set("memory", "5000")
    said, place = look.do("run"), look.page.run(FOCUS)
    look.set("memory", "4096")
    look.set("nodes", "2000")
    large = look.do("run")
    is_right = said.startswith("Memory of a rank, in bytes: ") and place == "memory" and large.startswith("ended")
    return "" if is_right and "rank 0" in look.text("output") else f"{said} {place} {large}"


def points(look: Look) -> str:
    """A breakpoint is set before stepping too, and moves with its line."""
    look.set("examples", "broadcast.s")
    line = line_of("broadcast.s", "check:") + 1
    look.page.run(f"{EDITOR}.focus(); {EDITOR}.setCursor({{line: {line}, ch: 0}})")
    look.page.press("F9")
    look.page.run(f"{EDITOR}.replaceRange('# more\\n', {{line: 0, ch: 0}})")
    look.do("debug")
    said = look.do("go")
    look.do("stop")
    look.do("debug")
    again = look.do("go")
    return "" if said == again == f"stopped at rank 0, line {line + 2}." else f"{said} {again}"


def places(look: Look) -> str:
    """Memory is found by label, register and number, and a rank inside a statement of two instructions is at its line."""
    look.write("li s0, 64\nla a0, box\nli a7, 1\necall\nbox: .word -7\n")
    look.do("debug")
    look.do("step")
    look.do("step")
    line = look.text("where").split()[1]
    found = []
    for text, base in (("box", "decimal"), ("s0", "decimal"), ("0x14", "hexadecimal"), ("boxes", "decimal")):
        look.set("base", base)
        look.page.wait(IS_STILL)
        look.set("address", text)
        look.page.wait(IS_STILL)
        found.append(look.text("bytes").split()[:2])
    wanted = [["00000014", "-7"], ["00000040", "0"], ["00000014", "f9"], ["This", "is"]]
    return "" if line == "2" and found == wanted else f"{line} {found}"


def still(look: Look) -> str:
    """A step moves neither the page nor its buttons, and the line of the rank comes into view."""
    moved = []
    for width in (390, WIDTHS[1]):
        look.page.look(width, 844)
        look.fresh()
        look.set("examples", "psum.c")
        look.do("debug")
        for name in ("step", "superstep", "step", "go"):
            at = f"document.getElementById('{name}').getBoundingClientRect().top"
            look.page.run(f"document.getElementById('{name}').scrollIntoView({{block: 'center'}})")
            before = look.page.run(at)
            look.page.run(f"document.getElementById('{name}').click()")
            look.page.wait(IS_STILL)
            if abs(look.page.run(at) - before) > 1:
                moved.append(f"{width} {name} {before} {look.page.run(at)}")
        look.do("back")
        look.page.wait(IS_STILL)
        if not look.page.run("!!document.querySelector('.CodeMirror-linebackground.here')"):
            moved.append(f"{width}: no line is marked")
    return "; ".join(moved)


def steps(look: Look) -> str:
    """Steps go forwards and back, by instruction and by superstep, to a breakpoint and to the end."""
    look.set("examples", "broadcast.s")
    registers = []
    for name in ("debug", "step", "step", "step", "back", "superstep"):
        look.do(name)
        registers.append((look.text("where").split()[4], look.page.run("document.querySelectorAll('#registers .changed').length")))
    wanted = [("00000000", 0), ("00000004", 1), ("00000008", 0), ("0000000c", 0), ("00000008", 0)]
    if registers[:5] != wanted or look.text("where").split()[2] != "1":
        return f"{registers}"
    line = line_of("broadcast.s", "check:") + 1
    look.page.run(f"{EDITOR}.focus(); {EDITOR}.setCursor({{line: {line}, ch: 0}})")
    look.page.press("F9")
    look.page.wait(f"{IS_STILL} && {EDITOR}.lineInfo({line}).gutterMarkers")
    said = [look.do("go"), look.do("go")]
    look.do("point")
    said.append(look.do("go"))
    is_right = said[0].startswith("stopped at rank 0") and said[1].startswith("stopped at rank") and said[2] == "ended"
    return "" if is_right and "3 right" in look.text("written") else f"{said} {look.text('written')}"


def line_of(name: str, text: str) -> int:
    """The line of an example that begins so, from 0."""
    lines = (REPO / "examples" / name).read_text(encoding="utf-8").splitlines()
    return next(number for number, line in enumerate(lines) if line.startswith(text))


def links(look: Look) -> str:
    """A link holds the program and its settings, and runs nothing."""
    look.write("li a7, 1\necall # of a link\n")
    look.set("nodes", "7")
    look.page.click("#link")
    look.page.wait("location.hash.length > 10")
    code = look.page.run("location.hash")
    look.fresh(code)
    has_all = "of a link" in look.page.run(f"{EDITOR}.getValue()") and look.page.run("document.getElementById('nodes').value") == "7"
    has_run = look.page.run("!document.getElementById('result').hidden")
    said = look.do("run")
    look.fresh("#" + "A" * 40)
    damaged = look.page.run(STATUS)
    is_right = has_all and not has_run and said.startswith("ended") and "damaged" in damaged
    return "" if is_right else f"{code} {has_all} {has_run} {said} {damaged}"


def long_links(look: Look) -> str:
    """A link whose few bytes stand for very many shows nothing of them."""
    packer = zlib.compressobj(9, zlib.DEFLATED, -15)
    content = b"".join([packer.compress(b'{"text":"'), packer.compress(b"nop\\n" * (2 << 20)), packer.compress(b'"}'), packer.flush()])
    look.fresh("#" + base64.urlsafe_b64encode(content).decode().rstrip("="))
    said, length = look.page.run(STATUS), look.page.run(f"{EDITOR}.getValue().length")
    return "" if "damaged" in said and length < 1 << 16 else f"{said}, {length}"


def keeps(look: Look) -> str:
    """Programs of one's own stay in the list when another one is chosen, and when the page is loaded again."""
    look.set("examples", "ranks.s")
    look.page.run(f"{EDITOR}.replaceSelection('x', 'end', '+input')")
    look.set("examples", "broadcast.s")
    is_example = "x" != look.page.run(f"{EDITOR}.getValue()[0]")
    look.set("examples", "own 0")
    look.set("nodes", "9")
    look.forget(False)
    look.page.open("about:blank")
    look.page.open(look.url)
    look.page.wait("document.documentElement.dataset.ready")
    look.forget(True)
    first, name = look.page.run(f"[{EDITOR}.getValue()[0], document.getElementById('examples').selectedOptions[0].text]")
    nodes = look.page.run("document.getElementById('nodes').value")
    look.page.run("URL.createObjectURL = (blob) => { blob.text().then((it) => { document.saved = it; }); return 'about:blank'; };")
    look.page.run("HTMLAnchorElement.prototype.click = function () { document.savedName = this.download; };")
    look.page.click("#save")
    saved = look.page.wait("document.saved")
    is_right = is_example and first == "x" and name == "my ranks.s" and nodes == "9" and saved.startswith("x# Each rank")
    return "" if is_right and look.page.run("document.savedName") == "ranks.s" else f"{is_example} {first} {name} {nodes} {saved[:20]}"


def full(look: Look) -> str:
    """If the browser has no room for a program, the page says so, and the browser asks before it loses it."""
    asks = "(() => { const it = new Event('beforeunload', { cancelable: true }); dispatchEvent(it); return it.defaultPrevented; })()"
    look.page.run("window.setItem = Storage.prototype.setItem; Storage.prototype.setItem = () => { throw new DOMException('full', 'QuotaExceededError'); };")
    before = look.page.run(asks)
    look.page.run(f"{EDITOR}.replaceSelection('x', 'end', '+input')")
    said, after = look.page.run(STATUS), look.page.run(asks)
    look.page.run("Storage.prototype.setItem = window.setItem;")
    again = look.page.run(asks)
    is_right = said.startswith("The browser cannot keep your programs: save each before") and (before, after, again) == (False, True, False)
    return "" if is_right else f"{said} {before} {after} {again}"


def ends(look: Look) -> str:
    """A run of 600 million instructions leaves the page usable, and can be stopped."""
    look.write(LONG)
    look.page.run("document.getElementById('nodes').value = 1; window.beats = 0; setInterval(() => window.beats += 1, 10)")
    look.page.click("#run")
    look.page.wait("window.beats > 30")
    was_busy = not look.page.run(IS_STILL)
    look.page.click("#stop")
    look.page.wait(IS_STILL)
    said = look.page.run(STATUS)
    look.write("li a7, 1\necall\n")
    return "" if was_busy and said == "You stopped it." and look.do("run").startswith("ended") else f"{was_busy} {said}"


def blank_lines(look: Look) -> str:
    """A program may have very many lines without anything: the page looks through each of them once, before it runs."""
    look.write("\n" * 40000 + "li a7, 1\necall\n")
    begin = time.monotonic()
    said = look.do("run")
    taken = time.monotonic() - begin
    return "" if said.startswith("ended") and taken < 8 else f"{said}, {taken} seconds"


def hostile(look: Look) -> str:
    """Output is text, and a run gets no more memory than it may have."""
    look.write(WRITES)
    look.do("run")
    shown, made = look.text("output"), look.page.run("document.querySelectorAll('#output b, #output img').length")
    look.set("nodes", "1024")
    look.set("most", "16")
    look.write("li t0, 0\nli t1, 0x80000\nloop: sw t0, 0(t0)\nli t2, 4096\nadd t0, t0, t2\nbltu t0, t1, loop\nli a7, 4\necall\nli a7, 1\necall\n")
    said = look.do("run")
    return "" if shown.startswith(MARKUP) and made == 0 and said.startswith("no memory: ") and "16 MiB" in said else f"{shown} {made} {said}"


def drops(look: Look) -> str:
    """An executable that is dropped on the page is taken, and what is none is not."""
    content = list((REPO / "examples/c/inner.elf").read_bytes())
    drop = (
        "(bytes, name) => { const given = new DataTransfer(); given.items.add(new File([new Uint8Array(bytes)], name));"
        " document.dispatchEvent(new DragEvent('drop', {dataTransfer: given, cancelable: true})); }"
    )
    look.page.run(f"({drop})({content}, 'mine.elf')")
    look.page.wait("document.getElementById('kind').textContent.startsWith('mine.elf')")
    look.do("run")
    fault = same(look, look.native(str(REPO / "examples/c/inner.elf"), "--float", "--nodes", "4", "--limit", "1000000000"))
    look.page.run(f"({drop})([127, 69, 76, 70, 1, 2, 3], 'bad.elf')")
    look.page.wait(f"{STATUS}.includes('image refused')")
    for name, odd, said in (("mine.c", b"int x;", "a program in C"), ("picture.png", b"\x89PNG\xff", "neither a text nor an executable")):
        look.page.run(f"({drop})({list(odd)}, '{name}')")
        look.page.wait(f"{STATUS}.includes('{said}')")
    return fault


def keys(look: Look) -> str:
    """All of it can be done by keys."""
    look.page.run(f"{EDITOR}.focus()")
    reached = []
    for _ in range(20):
        look.page.press("Tab")
        reached.append(look.page.run("document.activeElement.id || document.activeElement.tagName"))
        if reached[-1] == "run":
            break
    look.page.press("Enter")
    look.page.wait(f"{STATUS}.startsWith('ended') && {IS_STILL}")
    look.page.run(f"document.getElementById('result').hidden = true; {EDITOR}.focus()")
    look.page.press("Enter", 2)
    look.page.wait(f"!document.getElementById('result').hidden && {IS_STILL}")
    return "" if {"nodes", "g", "l", "run"} <= set(reached) else f"Tab leads to {reached}"


def focus(look: Look) -> str:
    """Who presses a button by a key can press it again, and hears where the rank is."""
    found = []
    for name, times in (("run", 2), ("debug", 1), ("step", 2), ("superstep", 1), ("back", 1), ("stop", 1)):
        look.page.run(f"document.getElementById('{name}').focus()")
        for _ in range(times):
            look.page.press("Enter")
            look.page.wait(f"{IS_STILL} && {STATUS} !== 'It runs.'")
            found.append((name, look.page.run(FOCUS), look.page.run(STATUS)))
    lost = [it for it in found if it[1] != {"debug": "step"}.get(it[0], it[0])]
    told = [it[2] for it in found if it[0] in ("debug", "step")]
    wanted = ["Rank 0 is at line 3, li a7, 3.", "Rank 0 is at line 4, ecall. Changed: a7 = 3.", "Rank 0 is at line 5, addi a0, a0, 48."]
    return "" if not lost and told == wanted else f"{lost} {told}"


def named(look: Look) -> str:
    """All that the focus can reach has a name."""
    look.do("run")
    look.do("debug")
    look.page.run("document.getElementById('result').hidden = false")
    reached = "[...document.querySelectorAll('button, input:not([hidden]), select, textarea, [tabindex=\"0\"]')]"
    names = "!(it.getAttribute('aria-label') || it.labels?.length || (it.tagName === 'BUTTON' && it.textContent.trim()))"
    nameless = look.page.run(f"{reached}.filter((it) => {names}).map((it) => it.id || it.className || it.tagName).join(' ')")
    return f"{nameless}"


def prints(look: Look) -> str:
    """What is printed has the whole program, and no buttons."""
    wanted = 300
    look.write("nop\n" * wanted)
    look.page.call("Emulation.setEmulatedMedia", media="print")
    look.page.run("dispatchEvent(new Event('beforeprint'))")
    lines = look.page.run("document.querySelectorAll('.CodeMirror-line').length")
    tall = look.page.run("document.querySelector('.CodeMirror').clientHeight / document.querySelector('.CodeMirror-line').clientHeight")
    seen = look.page.run("[...document.querySelectorAll('button')].filter((it) => it.offsetParent).length")
    look.page.run("dispatchEvent(new Event('afterprint'))")
    look.page.call("Emulation.setEmulatedMedia", media="")
    return "" if lines >= wanted and tall > 0.95 * wanted and seen == 0 else f"{lines} lines, as high as {tall:.0f}, and {seen} buttons"


def widths(look: Look) -> str:
    """Nothing stands outside of a telephone's width or a screen's, and all can be read, also in dark pages."""
    found: Dict[str, object] = {}
    for width in WIDTHS:
        for is_dark in (False, True):
            look.page.look(width, 900, is_dark)
            look.fresh()
            look.page.run("document.querySelectorAll('details').forEach((it) => { it.open = true; })")
            look.do("run")
            look.do("profile")
            sizes = [look.page.run("document.documentElement.scrollWidth"), look.page.run(CONTRAST)]
            look.do("debug")
            look.do("step")
            sizes += [look.page.run("document.documentElement.scrollWidth"), look.page.run(CONTRAST)]
            if max(sizes[0], sizes[2]) > width or min(sizes[1], sizes[3]) < 4.5:
                found[f"{width} {'dark' if is_dark else 'light'}"] = sizes
    return json.dumps(found) if found else ""


def look_at(tally: Tally, browser: str, path: pathlib.Path, program: str) -> None:
    """Makes all of the checks of a page."""
    with devtools.browser(browser) as page:
        for name, fault in faults(page, path, program):
            tally.tell(f"the page: {name}", fault)
