"""The marks of hand-ins as a page in one file: a table that can be sorted by its columns, and whose rows unfold.

What hand-ins print stands in it as text alone, and the page asks a browser to run and to load nothing but what it has itself.
"""

from __future__ import annotations

import base64
import hashlib
import html
import pathlib
from typing import Callable, List, Sequence, Tuple

from ..refusals import counted
from .cost_bars import picture
from .marks import RIGHT, Check, Marks, Wanted
from .sheet import Sheet, points_told

STYLE = "\n" + pathlib.Path(__file__).with_name("marks.css").read_text(encoding="utf-8")
SCRIPT = "\n" + pathlib.Path(__file__).with_name("marks.js").read_text(encoding="utf-8")
HEADS = (("Hand-in", ""), ("Points", "number"), ("Verdict", ""), ("First fault", ""))
MOST_LINES, MOST_LETTERS = 24, 400
NO_LINE = '<td class="none">no such line</td>'
LEGEND = "Blue is work (w), orange the exchange (g h), violet the barrier (l); a line ends each superstep. Point at a piece for its number."

# The commands that make a run again and that write a page to watch it, by the name of a hand-in and the number of the run.
Again = Callable[[str, int], Tuple[str, str]]


def page(sheet: Sheet, found: Sequence[Marks], wanted: Sequence[Wanted], again: Again) -> str:
    """The page."""
    right = sum(it.verdict == RIGHT for it in found)
    mean = sum(it.points for it in found) / max(len(found), 1)
    head = f"{counted(len(found), 'hand-in')}, {right} right; {points_told(mean)} of {points_told(sheet.points)} points on average."
    heads = "".join(f'<th class="{kind}" scope="col"><button type="button">{name}</button></th>' for name, kind in HEADS)
    rows = "".join(body(sheet, it, wanted, again) for it in found)
    policy = f"default-src 'none'; style-src '{sum_of(STYLE)}'; script-src '{sum_of(SCRIPT)}'; base-uri 'none'; form-action 'none'"
    return (
        '<!DOCTYPE html>\n<html lang="en">\n<head>\n<meta charset="utf-8">\n'
        f'<meta http-equiv="Content-Security-Policy" content="{policy}">\n'
        '<meta name="viewport" content="width=device-width, initial-scale=1">\n<meta name="color-scheme" content="light dark">\n'
        f"<title>{text(sheet.title)}</title>\n<style>{STYLE}</style>\n</head>\n<body>\n<h1>{text(sheet.title)}</h1>\n<p>{text(head)}</p>\n"
        f'<div class="scroll"><table class="marks">\n<thead><tr>{heads}</tr></thead>\n{rows}</table></div>\n'
        f"<script>{SCRIPT}</script>\n</body>\n</html>\n"
    )


def sum_of(content: str) -> str:
    """What a policy knows a script or a style by."""
    return "sha256-" + base64.b64encode(hashlib.sha256(content.encode()).digest()).decode()


def text(value: object) -> str:
    """A text of a page, in which nothing is markup, and what cannot be printed is spelled."""
    shown = "".join(it if it.isprintable() or it in "\t\n" else it.encode("unicode_escape", "replace").decode() for it in str(value))
    return html.escape(shown)


def body(sheet: Sheet, marks: Marks, wanted: Sequence[Wanted], again: Again) -> str:
    """The row of a hand-in, and what unfolds below it."""
    fault = marks.first.told if marks.first else ""
    kind = "wrong" if marks.first else "right"
    return (
        f'<tbody><tr><td class="name" data-value="{text(marks.spelled)}"><button type="button">{text(marks.spelled)}</button></td>'
        f'<td class="number" data-value="{marks.points:.4f}">{points_told(marks.points)} of {points_told(sheet.points)}</td>'
        f'<td data-value="{marks.verdict}"><span class="{kind}">{marks.verdict}</span></td>'
        f'<td class="fault" data-value="{text(cut(fault))}">{text(cut(fault))}</td></tr>\n'
        f'<tr class="more"><td colspan="{len(HEADS)}">{"".join(details(sheet, marks, wanted, again))}</td></tr></tbody>\n'
    )


def cut(line: str) -> str:
    """A line that is not longer than a person reads."""
    return line if len(line) <= MOST_LETTERS else line[: MOST_LETTERS - 3] + "..."


def details(sheet: Sheet, marks: Marks, wanted: Sequence[Wanted], again: Again) -> List[str]:
    """All that was looked at, and of the first fault of a run what came and what was wanted."""
    parts = ["<h3>What was looked at</h3><ul class=\"checks\">", *map(check_line, marks.checks), "</ul>"]
    shown = next((it for it in marks.checks if not it.is_kept and it.run >= 0), None)
    number = shown.run if shown else 0 if marks.evidence.runs else -1
    if shown is not None and any(not it.is_same for it in shown.rows):
        parts += [f"<h3>Output on {text(sheet.runs[number])}</h3>", side_by_side(shown)]
    if number >= 0:
        run, case = marks.evidence.runs[number], sheet.runs[number].case
        if run.errors.strip():
            parts += ["<h3>Standard error</h3>", block(run.errors.splitlines())]
        bars = [("this", run.supersteps), ("solution", wanted[number].supersteps)]
        bars = [it for it in bars if it[1]]
        if bars:
            parts.append(f"<h3>Costs on {text(sheet.runs[number])}, g = {case.g}, l = {case.l}</h3>")
            parts += [picture(bars, case.g, case.l), f"<p>{LEGEND}</p>"]
        repeated, watched = again(marks.name, number)
        parts += ["<h3>The same run again</h3>", block([repeated]), "<h3>The same run in a page, to watch it</h3>", block([watched])]
    if marks.evidence.said:
        parts += ["<h3>What the compiler said</h3>", block(marks.evidence.said)]
    return parts


def check_line(check: Check) -> str:
    """A line for what was looked at."""
    points = f"{points_told(check.points)} of {points_told(check.of)}" if check.of else ""
    kind, word = ("right", "ok") if check.is_kept else ("wrong", "wrong") if check.verdict else ("open", "open")
    fault = "" if check.is_kept else f": {text(cut(check.fault))}"
    lines = "" if check.is_kept else "".join(f"<li>{text(cut(it))}</li>" for it in check.more[:MOST_LINES])
    more = f'<ul class="lines">{lines}</ul>' if lines else ""
    return f'<li><span class="points">{points}</span> <span class="{kind}">{word}</span> {text(check.name)}{fault}{more}</li>'


def side_by_side(check: Check) -> str:
    """The output beside the wanted one."""
    rows = []
    for it in check.rows:
        came, wanted = (NO_LINE if line is None else f"<td>{text(cut(line))}</td>" for line in (it.came, it.wanted))
        kind = "same" if it.is_same else "differs"
        rows.append(f'<tr class="{kind}"><td class="number">{it.number}</td>{came}{wanted}</tr>')
    heads = '<tr><th class="number">line</th><th>printed</th><th>expected</th></tr>'
    return f'<table class="side"><colgroup><col class="count"><col><col></colgroup>{heads}{"".join(rows)}</table>'


def block(lines: Sequence[str]) -> str:
    """Lines as they stand."""
    shown = [*(cut(it) for it in lines[:MOST_LINES]), *(["..."] if len(lines) > MOST_LINES else [])]
    return f"<pre>{text(chr(10).join(shown))}</pre>"
