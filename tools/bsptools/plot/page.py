"""A page in one file: pictures, the table of supersteps or runs, the program and its settings."""

from __future__ import annotations

import html
import pathlib
import re
from collections.abc import Sequence
from typing import NamedTuple

from ..prices import spelled
from .canvas import Picture, thousands
from .profile import Profile, Reading
from .superstep_costs import Cost, Prices, printed, total
from .sweep_table import Row

MOST_ROWS = 500
# Of a row with letters of the usual size.
MOST_LETTERS = 75
STYLE = "\n" + pathlib.Path(__file__).with_name("page.css").read_text(encoding="utf-8")

TIMELINE = (
    "A superstep begins for all ranks together. Each rank works (blue) until it calls sync or ends, and then waits (grey) for the slowest"
    " one, whose work is w. Then the bytes are exchanged, which takes g·h ticks, and all ranks wait for one another, which takes l."
    " A line separates two supersteps. Little grey means that the work is shared evenly."
)
COSTS = "Each superstep costs w + g·h + l ticks. The greatest of the three parts is the one to make smaller."
LINES = (
    "What the most expensive lines cost, in steps of the slowest ranks, which add up to w: by themselves (blue), which is exact, and with the"
    " library functions that they call (grey), whose work is apportioned by numbers of calls where several lines called them."
)
MATRIX = (
    "How many bytes went from each rank (row) to each rank (column) in {these}. The bars on the right are what each rank"
    " sent, and those below what each received; the greatest of all is orange. In one superstep it is h: the fullest row or column. In"
    " several, h is made by one rank after another, so that its sum may be more. {kept}"
)
KEPT = {Reading.OTHERS: "What is hatched stayed at its rank and is not in h.", Reading.ALL: "What stayed at its rank is in h, too."}
SWEEP = (
    "The speedup is the total on the fewest nodes divided by the total on so many. The efficiency is the speedup divided by how many times"
    " more nodes there are: 1 is the best that can be hoped for. On a logarithmic axis equal steps are equal factors: from 1 to 2 it is as"
    " far as from 2 to 4."
)
COMPARE = (
    "The same totals, on logarithmic axes: equal steps are equal factors. A dotted line marks the first number of nodes at which a"
    " program costs less than another one that was cheaper on fewer."
)


class Section(NamedTuple):
    """A part of a page: its heading, what to look at in it, and a picture or a table as HTML."""

    heading: str
    text: str
    body: str


def inline(picture: Picture, name: str) -> str:
    """A picture as part of a page, in which its parts' names begin with that of the picture."""
    svg = picture.svg()
    svg = svg[svg.index("<svg") :]
    svg = re.sub(r"<metadata>.*?</metadata>", "", svg, flags=re.DOTALL)
    # Texts have no such signs as tags begin and end with, so that they stay as they are.
    svg = re.sub(r"<[^>]*>", lambda tag: re.sub(r'(\bid="|href="#|url\(#)', rf"\g<1>{name}-", tag[0]), svg)
    head, rest = svg.split(">", 1)
    head = re.sub(r' (?:width|height)="[^"]*"', "", head)
    return head.replace("<svg", f'<svg id="{name}" role="img" aria-label="{name}"') + ">" + rest


def table(heads: Sequence[str], rows: Sequence[Sequence[object]]) -> str:
    """A table below the names of its columns."""
    top = "".join(f"<th>{html.escape(it)}</th>" for it in heads)
    lines = ["".join(f"<td>{html.escape(str(it))}</td>" for it in row) for row in rows]
    longest = max((sum(len(str(it)) for it in row) for row in rows), default=0)
    kind = ' class="wide"' if longest > MOST_LETTERS else ""
    return f"<table{kind}>\n<tr>" + top + "</tr>\n" + "".join(f"<tr>{line}</tr>\n" for line in lines) + "</table>"


def cut(rows: list[list[object]]) -> tuple[list[list[object]], str]:
    """The first rows, and a text that says so if there are more."""
    return rows[:MOST_ROWS], f" The first {MOST_ROWS} of {len(rows)} are shown." if len(rows) > MOST_ROWS else ""


def cost_table(costs: list[Cost], profile: Profile | None, prices: Prices, reading: Reading) -> Section:
    """What each superstep cost, and what a profile tells beside it."""
    whole = max(total(costs, prices), 1)
    is_told = printed(costs) > 0
    heads = ["superstep", "w", *(["printing"] if is_told else []), "h", "g·h", "l", "cost", "share"]
    rows: list[list[object]] = []
    for cost in costs:
        w, exchange, l = cost.parts(prices)
        numbers = [w, *([cost.printed or 0] if is_told else []), cost.h, exchange, l, cost.total(prices)]
        rows.append([cost.number, *map(thousands, numbers), f"{float(100 * cost.total(prices) / whole):.1f} %"])
    text = "What each superstep cost."
    if is_told:
        text += " Printing is how much of w was made in output functions."
    if profile:
        heads += ["slowest", "balance", "bytes moved", "messages"]
        for row, it in zip(rows, profile.supersteps):
            moved = sum(share.sent + (share.kept if reading is Reading.ALL else 0) for share in it.shares)
            messages = sum(share.messages for share in it.shares)
            row += [f"rank {it.slowest}", f"{it.balance:.2f}", thousands(moved), thousands(messages)]
        text += " The slowest rank is the one that makes w. The balance is the mean work of the ranks divided by w: 1 if all work alike."
    shown, more = cut(rows)
    return Section("The table", text + more, table(heads, shown))


def sweep_table(rows: list[Row]) -> Section:
    """The total of each run."""
    values: list[list[object]] = []
    for it in rows:
        settings = ", ".join([f"{name} {value}" for name, value in it.settings] + [it.machine] * bool(it.machine))
        result = "did not end" if it.total is None else thousands(it.total)
        values.append([it.program, settings, it.nodes, spelled(it.g), spelled(it.l), result])
    shown, more = cut(values)
    return Section("The table", "Each run, and what it cost." + more, table(["program", "settings", "nodes", "g", "l", "total"], shown))


def scrolled(section: Section) -> str:
    """Its picture or table, which is moved to and fro within its frame where a window is narrow."""
    return f'<div class="scroll" tabindex="0" role="region" aria-label="{html.escape(section.heading)}">\n{section.body}\n</div>'


def written(title: str, settings: list[tuple[str, str]], sections: list[Section], style: str = "") -> str:
    """The page, with more of a style."""
    rows = "".join(f"<tr><th>{html.escape(name)}</th><td>{html.escape(value)}</td></tr>\n" for name, value in settings)
    parts = "".join(f"<h2>{html.escape(it.heading)}</h2>\n<p>{html.escape(it.text)}</p>\n{scrolled(it)}\n" for it in sections)
    return (
        '<!DOCTYPE html>\n<html lang="en">\n<head>\n<meta charset="utf-8">\n'
        '<meta name="viewport" content="width=device-width, initial-scale=1">\n<meta name="color-scheme" content="light dark">\n'
        f"<title>{html.escape(title)}</title>\n<style>{STYLE}{style}</style>\n</head>\n<body>\n<h1>{html.escape(title)}</h1>\n"
        f'<table class="settings">\n{rows}</table>\n{parts}</body>\n</html>\n'
    )
