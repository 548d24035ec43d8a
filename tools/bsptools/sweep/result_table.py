"""The table of a sweep: a row for each point."""

from __future__ import annotations

import csv
import io

from ..outputs.report_formats import NOTES
from ..prices import spelled
from ..refusals import counted
from .result_store import Place, Record
from .sweep_points import Point, Run

FIRST = ["program", "nodes", "g", "l"]
# The column of a table in which machines have prices.
MACHINE = "machine"
INPUTS = ["input", "args"]
# All columns but those of constants, so no constant may have such a name.
COLUMNS = (*FIRST, MACHINE, *INPUTS, "supersteps", "w", "h", "m", "total", "outcome")


def table(points: list[Point], found: dict[Run, Record | None], defines: list[str]) -> str:
    """All points in their order, as CSV: the program with its settings, its costs, its total at the prices, and its outcome. A machine has a
    column if the prices of one are asked for."""
    costs = next((list(it["costs"]) for it in found.values() if it), ["w", "h"])
    text = io.StringIO()
    rows = csv.writer(text, lineterminator="\n")
    has_machines = any(it.machine for it in points)
    rows.writerow([*FIRST, *[MACHINE] * has_machines, *INPUTS, *defines, "supersteps", *costs, "total", "outcome"])
    for point in points:
        rows.writerow(row(point, found.get(point.run), costs, [point.machine] * has_machines, defines))
    return text.getvalue()


def row(point: Point, found: Record | None, costs: list[str], machine: list[str], defines: list[str]) -> list[object]:
    """The row of a point. One whose run could not be made has no costs."""
    run = point.run
    constants = dict(run.program.defines)
    given = [*machine, run.given, run.words, *(constants.get(it, "") for it in defines)]
    first = [run.program.name, run.nodes, spelled(point.g), spelled(point.l), *given]
    if found is None:
        return [*first, "", *("" for _ in costs), "", "not run"]
    sums = found["costs"]
    total = sums["w"] + point.g * sums["h"] + point.l * found["supersteps"]
    return [*first, found["supersteps"], *sums.values(), spelled(total), found["outcome"]]


def failures(places: dict[Run, Place], found: dict[Run, Record | None]) -> list[str]:
    """Lines for each run that could not be made."""
    return [f"{run}: {line}" for run, place in places.items() if found[run] is None for line in place.why_unmade()]


def stopped(found: dict[Run, Record | None]) -> list[str]:
    """A line where runs were made that did not end well, with the first of them."""
    ends = {run: it["outcome"] for run, it in found.items() if it is not None}
    return first_of({run: outcome for run, outcome in ends.items() if outcome != "ended"}, len(ends), "did not end well")


def doubts(found: dict[Run, Record | None]) -> list[str]:
    """A line for each kind of notes by which the figures of runs may be in doubt, with the first of these runs and what bsprun says of it."""
    made = {run: it.get(NOTES, []) for run, it in found.items() if it is not None}
    kinds: dict[str, dict[Run, str]] = {}
    for run, notes in made.items():
        for what, line in notes:
            kinds.setdefault(what, {}).setdefault(run, line)
    return [line for what, told in kinds.items() for line in first_of(told, len(made), what)]


def unasked(found: dict[Run, Record | None]) -> list[str]:
    """A line where programs read files that nobody gave them: a table shows some of what is in them."""
    files = {run: [name for name, content in it["sought"].items() if content] for run, it in found.items() if it is not None}
    told = {run: names[0] + (f" and {counted(len(names) - 1, 'more file')}" if names[1:] else "") for run, names in files.items() if names}
    return [f"{it}; --file gives them, and --no-files forbids them" for it in first_of(told, len(files), "read files that nobody gave")]


def first_of(told: dict[Run, str], count: int, what: str) -> list[str]:
    """A line where some of so many runs did something, with the first of them and what is told of it."""
    first = next((f"{run}: {text}" for run, text in told.items()), "")
    return [f"{len(told)} of {counted(count, 'run')} {what}{', the first one ' if len(told) > 1 else ': '}{first}"] if told else []
