"""The marks of hand-ins as a table: for a terminal, and as CSV."""

from __future__ import annotations

import csv
import io
import re
from typing import List, Sequence, Set

from ..refusals import counted, printable
from . import formulas
from .evidence import WARNS
from .marks import RIGHT, Marks, Wanted
from .sheet import QUANTITIES, Sheet, points_told, settings_of

# What makes a spreadsheet take a cell for a formula.
FORMULA = re.compile(r"[=+\-@\t\r]")
NUMBER = re.compile(r"-?\d+(\.\d+)?$", re.ASCII)
MOST_LETTERS, MOST_NAME, MOST_LINES = 160, 40, 12


def lines(sheet: Sheet, found: Sequence[Marks]) -> List[str]:
    """A row a hand-in, and a line that counts them. Of a single one all is told that was looked at."""
    if len(found) == 1:
        return one(sheet, found[0])
    names = [named(it.spelled) for it in found]
    width, wide = max(map(len, names)), max(len(it.verdict) for it in found)
    of = points_told(sheet.points)
    room = max(len(of) + 1, *(len(points_told(it.points)) for it in found))
    rows = [sheet.said()]
    for name, it in zip(names, found):
        fault = it.first.told if it.first else ""
        points = f"{points_told(it.points).rjust(room)} of {of}"
        rows.append(f"{name.ljust(width)}  {points}  {it.verdict.ljust(wide)}  {shown(fault)}".rstrip())
    kinds = [it.verdict for it in found]
    told = ", ".join(f"{kinds.count(it)} {it}" for it in dict.fromkeys(sorted(kinds, key=lambda kind: kind != RIGHT)))
    mean = sum(it.points for it in found) / len(found)
    return [*rows, f"{counted(len(found), 'hand-in')}: {told}; {points_told(mean)} of {of} points on average"]


def one(sheet: Sheet, marks: Marks) -> List[str]:
    """All that was looked at in a hand-in."""
    rows = [f"{shown(marks.spelled)}: {points_told(marks.points)} of {points_told(sheet.points)} points, {marks.verdict}"]
    told: Set[str] = set()
    of_checks = [f"{points_told(it.points)} of {points_told(it.of)}" if it.of else "" for it in marks.checks]
    room = max([11, *map(len, of_checks)])
    for it, points in zip(marks.checks, of_checks):
        fault = "" if it.is_kept else f": {shown(it.fault, 1000)}"
        word = "ok   " if it.is_kept else "WRONG" if it.verdict else "open "
        rows.append(f"  {word} {points.rjust(room)}  {it.name}{fault}")
        # What the first of a kind has to say others have too: a program goes wrong on each number of nodes alike.
        if not it.is_kept and it.verdict not in told:
            rows += [f"{'':{room + 12}}{shown(line, 1000)}" for line in it.more[:MOST_LINES]]
            told.add(it.verdict)
    warnings = [line for line in marks.evidence.said if WARNS in line]
    if marks.evidence.is_built and warnings:
        rows += ["  the compiler warns:", *(f"    {shown(line, 1000)}" for line in warnings)]
    return rows


def named(path: str) -> str:
    """The name of a hand-in in a table: of a long one its end, which tells it from others."""
    name = shown(path, len(path) + 1000)
    return name if len(name) <= MOST_NAME else f"...{name[3 - MOST_NAME :]}"


def costs(sheet: Sheet, wanted: Sequence[Wanted]) -> List[str]:
    """What the solution costs in each run, and what each bound comes to there."""
    rows = [sheet.said()]
    for run, it in zip(sheet.runs, wanted):
        told = ", ".join(f"{name} {formulas.told(it.costs[name])}" for name in QUANTITIES if name in it.costs)
        rows.append(f"{run}: {told or 'no solution'}")
        for bound in sheet.bounds if it.costs else ():
            if bound.holds_for(run):
                try:
                    found = bound.formula.bound({**settings_of(run), **it.costs}, it.costs)
                except ValueError as error:
                    rows.append(f"  NO VALUE  {bound.formula.text}: {error}")
                    continue
                kept = "kept" if found.is_kept else "NOT KEPT"
                rows.append(f"  {kept}  {bound.formula.text}: {formulas.told(found.left)}, and {found.told}")
    return rows


def shown(text: str, most: int = MOST_LETTERS) -> str:
    """A text in a line of the terminal, of which nothing is a command to it."""
    line = printable(" ".join(text.split("\n")))
    return line if len(line) <= most else f"{line[: most - 3]}..."


def cell(value: object) -> str:
    """A cell that no spreadsheet takes for a formula. Numbers stay numbers, and what cannot be printed is spelled: names would be alike
    without it."""
    text = printable(str(value).replace("\n", " "))
    return f"'{text}" if FORMULA.match(text) and not NUMBER.match(text) else text


def as_csv(sheet: Sheet, found: Sequence[Marks]) -> str:
    """A row a hand-in: points, the verdict, the first fault, and the points of all that was looked at."""
    text = io.StringIO()
    rows = csv.writer(text, lineterminator="\n")
    names = [f"output on {run}" for run in sheet.runs] + [it.formula.text for it in sheet.bounds]
    names += (["portable"] if sheet.portable else []) + (["no warnings"] if sheet.warning_points else [])
    rows.writerow(["hand-in", "points", "of", "verdict", "fault", *map(cell, names)])
    for it in found:
        # These come last, in this order. Two bounds may have the same name, each for a case of its own.
        points = [points_told(check.points) for check in it.checks[-len(names) :]]
        fault = it.first.told if it.first else ""
        first = [cell(it.spelled), points_told(it.points), points_told(sheet.points), it.verdict, cell(fault)]
        rows.writerow([*first, *points])
    return text.getvalue()
