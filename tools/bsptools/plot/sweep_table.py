"""The reader of the table that `bspsweep` writes, and its curves: one program and its settings over numbers of nodes."""

from __future__ import annotations

import csv
import io
from dataclasses import dataclass, field
from typing import Any, NamedTuple

from ..files import whole
from ..limits import MOST_NODES, MOST_POINTS
from ..outputs.report import OUTCOME
from ..prices import TOTAL, Exact, of_table, spelled
from ..refusals import Refused, Unfit, counted, printable, why_unfit

# The columns that each table has; between `l` and `supersteps` stand the settings, and from `supersteps` on what came out.
FIRST = ["program", "nodes", "g", "l"]
# The one that says whose prices a row has, if it has those of a machine: these differ from one number of nodes to another.
MACHINE = "machine"
RESULTS = "supersteps"
NOT_RUN, ENDED = "not run", "ended"
# More than a sum of w, h or supersteps is.
MOST_SUM = 1 << 60
# A label has at most so many letters, of which so many are its end: the font's library fails at a line of 100,000.
MOST_LABEL, LABEL_END = 60, 20


class Prices(NamedTuple):
    """The prices of a line: g and l, or those of a machine, which has its own on each number of nodes."""

    g: Exact
    l: Exact
    machine: str = ""

    def __str__(self) -> str:
        return self.machine or f"g {spelled(self.g)}, l {spelled(self.l)}"


class Sums(NamedTuple):
    """What came of a run whatever the prices are: its supersteps, and its work and its h-relations in all."""

    supersteps: int
    w: int
    h: int

    def total(self, g: Exact, l: Exact) -> Exact:
        """What it costs."""
        return self.w + g * self.h + l * self.supersteps


class Row(NamedTuple):
    """A run: a program with its settings at these prices, its total and its sums, and how it ended; no total and no sums if not well."""

    program: str
    nodes: int
    g: Exact
    l: Exact
    settings: tuple[tuple[str, str], ...]
    total: Exact | None
    machine: str = ""
    sums: Sums | None = None
    outcome: str = ENDED

    @property
    def prices(self) -> Prices:
        """The prices of the line that it is in."""
        return Prices(0, 0, self.machine) if self.machine else Prices(self.g, self.l)

    @property
    def run(self) -> tuple[object, ...]:
        """What it has in common with rows that have other prices alone."""
        return self.program, self.nodes, self.settings


@dataclass(frozen=True)
class Line:
    """The totals of one program, with its settings and prices, by the number of nodes, the fewest first."""

    program: str
    settings: tuple[tuple[str, str], ...]
    prices: Prices
    totals: dict[int, Exact] = field(default_factory=dict)

    @property
    def fewest(self) -> int:
        """The fewest nodes, which speedups are told against."""
        return min(self.totals)

    def speedup(self, nodes: int) -> float:
        """How many times quicker it is than on the fewest nodes."""
        return float(self.totals[self.fewest] / max(self.totals[nodes], 1))

    def efficiency(self, nodes: int) -> float:
        """The speedup for each time that there are more nodes."""
        return self.speedup(nodes) * self.fewest / nodes


def is_table(text: str) -> bool:
    """Whether a text begins as the table of a sweep does."""
    return text.startswith(",".join(FIRST))


def parse(text: str) -> list[Row]:
    """The runs of a table; it refuses one that is none that bspsweep writes, and names the line."""
    table = csv.DictReader(io.StringIO(text), strict=True)
    try:
        names = list(table.fieldnames or [])
        if names[: len(FIRST)] != FIRST or not set(names) >= {RESULTS, "w", "h", "total", "outcome"} or len(set(names)) < len(names):
            raise Unfit("the table of a sweep has columns supersteps, w, h, total and outcome")
        settings = names[len(FIRST) : names.index(RESULTS)]
        return [row_of(row, settings) for row in table]
    except (ValueError, TypeError, csv.Error) as error:
        raise Refused(f"line {table.line_num}: {why_unfit(error)}") from error


def row_of(row: dict[Any, Any], settings: list[str]) -> Row:
    """A run from its values by their names."""
    if None in row or None in row.values():
        raise Unfit("its columns are not those of the first line")
    known = tuple((printable(name), printable(row[name])) for name in settings if row[name] and name != MACHINE)
    nodes, g, l = whole(row["nodes"], MOST_NODES), of_table(row["g"]), of_table(row["l"])
    if nodes == 0:
        raise Unfit("0 nodes")
    first = Row(printable(row["program"]), nodes, g, l, known, None, printable(row.get(MACHINE) or ""), outcome=printable(row["outcome"]))
    if row["outcome"] == NOT_RUN:
        return first
    total, sums = of_table(row["total"], TOTAL), Sums(*(whole(row[name], MOST_SUM) for name in (RESULTS, "w", "h")))
    if not OUTCOME.match(row["outcome"].encode()):
        raise Unfit(f"{row['outcome']!r} is not an outcome")
    if sums.supersteps == 0 or total != sums.total(g, l):
        told = f"{sums.w} + {row['g']} * {sums.h} + {row['l']} * {sums.supersteps}"
        raise Unfit(f"the total {spelled(total)} is not {told}")
    return first._replace(total=total, sums=sums) if row["outcome"] == ENDED else first


def left_out(rows: list[Row]) -> list[str]:
    """A line with the number of runs that pictures leave out, as they did not end well, and the first. Rows of one run differ in prices alone."""
    runs = {it.run for it in rows}
    unended: dict[tuple[object, ...], Row] = {}
    for row in rows:
        if row.total is None:
            unended.setdefault(row.run, row)
    if not unended:
        return []
    are = "is" if len(unended) == 1 else "are"
    return [f"{len(unended)} of {counted(len(runs), 'run')} did not end well and {are} left out{first_of(list(unended.values()))}"]


def none_ended(rows: list[Row]) -> str:
    """Why nothing can be drawn of runs none of which ended well."""
    return f"no run in it ended well{first_of(rows) if rows else ''}"


def first_of(unended: list[Row]) -> str:
    """The first of runs that did not end well, and where the others are."""
    row, *more = unended
    settings = "".join(f", {name} {value}" for name, value in row.settings)
    told = ": ".join(shortened([f"{row.program.rpartition('/')[2]}, {counted(row.nodes, 'node')}{settings}", row.outcome]))
    return f", the first one {told}; the column outcome has the others" if more else f": {told}"


def lines(rows: list[Row]) -> list[Line]:
    """The lines of a table in the order in which they begin in it; runs that did not end are left out."""
    found: dict[tuple[str, tuple[tuple[str, str], ...], Prices], Line] = {}
    names = short_names({it.program for it in rows})
    for row in rows:
        if row.total is not None:
            key = (names[row.program], row.settings, row.prices)
            found.setdefault(key, Line(*key)).totals[row.nodes] = row.total
    if not found:
        raise Refused(none_ended(rows))
    if len(found) > MOST_POINTS:
        raise Refused(f"its runs make {len(found)} lines; the limit of a picture is {MOST_POINTS}: draw a part of the table")
    return [Line(it.program, it.settings, it.prices, dict(sorted(it.totals.items()))) for it in found.values()]


def short_names(programs: set[str]) -> dict[str, str]:
    """The programs without the folders that they lie in, where that tells them apart."""
    names = {it: it.rpartition("/")[2] for it in programs}
    return names if len(set(names.values())) == len(programs) else {it: it for it in programs}


def labels(them: list[Line]) -> list[str]:
    """A text for each line, of what tells them apart; the program if nothing does."""
    return telling([[*named(it), ("", str(it.prices))] for it in them])


def named(line: Line) -> list[tuple[str, str]]:
    """A line's program and its settings."""
    return [("", line.program), *line.settings]


def telling(parts: list[list[tuple[str, str]]]) -> list[str]:
    """A text for each of these lists of names and values, of the values that not all of them have; the first one if there are none."""
    common = set(parts[0]).intersection(*parts[1:])
    texts = []
    for part in parts:
        words = [f"{name} {value}".strip() for name, value in part if (name, value) not in common]
        texts.append(", ".join(words) or part[0][1])
    return shortened(texts)


def shortened(texts: list[str]) -> list[str]:
    """These texts, without the middle of long ones. If two become the same, a number tells them apart."""
    cut = [it if len(it) <= MOST_LABEL else f"{it[: MOST_LABEL - LABEL_END - 1]}\u2026{it[-LABEL_END:]}" for it in texts]
    return cut if len(set(cut)) == len(set(texts)) else [f"{number}: {it}" for number, it in enumerate(cut, 1)]


class Crossing(NamedTuple):
    """The first number of nodes at which a line, which cost more on fewer nodes, costs less than another; and a name for it."""

    cheaper: Line
    nodes: int
    name: str

    def __str__(self) -> str:
        prices = self.cheaper.prices
        where = f"on {prices.machine}" if prices.machine else f"at g {spelled(prices.g)} and l {spelled(prices.l)}"
        return f"from {self.nodes} nodes on {self.name} costs less, {where}"


def crossings(them: list[Line]) -> list[Crossing]:
    """The crossings of each two lines with the same prices that differ in the program, or in one setting, and in nothing else."""
    names = telling([named(it) for it in them])
    found = []
    for i, one in enumerate(them):
        for j, other in enumerate(them[i + 1 :], i + 1):
            differing = set(named(one)).symmetric_difference(named(other))
            if one.prices == other.prices and len(differing) == 2:
                found += crossings_of(one, other, (names[i], names[j]))
    return found


def crossings_of(one: Line, other: Line, names: tuple[str, str]) -> list[Crossing]:
    """The crossings of two lines, along the numbers of nodes that both have."""
    found: list[Crossing] = []
    ahead = None
    for nodes in (it for it in one.totals if it in other.totals and one.totals[it] != other.totals[it]):
        cheaper, name = (one, names[0]) if one.totals[nodes] < other.totals[nodes] else (other, names[1])
        if ahead is not None and cheaper is not ahead:
            found.append(Crossing(cheaper, nodes, name))
        ahead = cheaper
    return found
