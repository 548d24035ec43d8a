"""The tables and files of `--lines`: work by line and by function, and the source of h."""

from __future__ import annotations

import pathlib
from collections.abc import Sequence
from functools import cached_property
from typing import NamedTuple

from .. import files
from ..counts import callgrind, folded_stacks, source_listing, step_counts, trace_events
from ..counts.h_relations import Amount, Relation, Traffic
from ..counts.line_costs import Cost, Work
from ..framed.environment_calls import Tracer
from ..outputs.report import Report
from ..program.line_table import Place
from ..refusals import counted

# Lines of each table, and supersteps of which h is told.
MOST_LINES, MOST_FUNCTIONS, MOST_PLACES, MOST_SUPERSTEPS, MOST_PARTS = 20, 15, 10, 5, 4
# Of a line's text.
MOST_LETTERS = 60
EXPLAINED = (
    "paid: instructions of the slowest rank of each superstep, which add up to w; all ranks: instructions of all ranks. Both are exact.",
    "with calls: paid there and in the functions that it calls; exact, or, after a ~, apportioned by numbers of calls",
)
FOLDED = ("the work of library functions is added to the lines that called them, apportioned by numbers of calls if several lines did",)
HEADS = ("paid", "of w", "of total", "with calls", "all ranks")


class Row(NamedTuple):
    """A row of a table: its cells, each under one of the heads; what they are of; and the text that stands there."""

    cells: Sequence[str]
    name: str
    text: str = ""


def share(part: int, whole: int) -> str:
    """A part in the hundred."""
    return f"{100 * part / max(whole, 1):.1f} %"


def aligned(heads: Sequence[str], rows: Sequence[Row]) -> list[str]:
    """A table with its cells to the right, and names and texts behind them."""
    table = [Row(heads, ""), *rows]
    widths = [max(len(it.cells[at]) for it in table) for at in range(len(heads))]
    width = max((len(it.name) for it in rows if it.text), default=0)
    lines = []
    for it in table:
        cells = [cell.rjust(most) for cell, most in zip(it.cells, widths)]
        lines.append("  " + "  ".join([*cells, it.name.ljust(width), it.text]).rstrip())
    return lines


class Told:
    """What is told of a run's work at these prices."""

    def __init__(self, work: Work, report: Report) -> None:
        self.work, self.report = work, report
        self.w = sum(it.costs["w"] for it in report.supersteps)
        self.every = sum(sum(it.ticks) for it in work.counts.supersteps)
        self.costs = {it.place: it for it in work.lines()}
        self.sources: dict[str, list[str]] = {}

    def lines(self, is_folded: bool) -> list[str]:
        """The tables by line and by function."""
        head = f"w {self.w}, {share(self.w, self.report.total)} of the total {self.report.total}; all ranks {self.every}"
        by_line = self.folded() if is_folded else self.table(list(self.costs.values()), MOST_LINES)
        return [
            f"bsprun: where the work is, by line: {head}",
            *(f"  {it}" for it in (EXPLAINED[:1] + FOLDED if is_folded else EXPLAINED)),
            *by_line,
            "bsprun: by function",
            *self.table(self.work.by_functions(), MOST_FUNCTIONS),
        ]

    def table(self, costs: list[Cost], most: int) -> list[str]:
        """The first of these costs, and what the others come to."""
        rows = [self.row(self.cells(it), it) for it in costs[:most]]
        return [*aligned(HEADS, rows), *self.rest([it.paid for it in costs[most:]])]

    def cells(self, cost: Cost) -> list[str]:
        """The numbers of a cost."""
        whole = "-" if cost.with_calls is None else f"{'' if cost.is_exact else '~'}{cost.with_calls}"
        return [str(cost.paid), share(cost.paid, self.w), share(cost.paid, self.report.total), whole, str(sum(cost.ranks))]

    def folded(self) -> list[str]:
        """The table by line, with the work of library functions at the lines that called them."""
        sums: dict[Place, int] = {}
        for part in self.work.folded_parts:
            for place, count in part.items():
                sums[place] = sums.get(place, 0) + count
        paid = sorted(sums.items(), key=lambda it: (-it[1], it[0]))
        rows = []
        for place, count in paid[:MOST_LINES]:
            cells = [str(count), share(count, self.w), share(count, self.report.total)]
            rows.append(self.row(cells, self.costs[place]))
        return [*aligned(HEADS[:3], rows), *self.rest([count for _, count in paid[MOST_LINES:]])]

    def rest(self, paid: list[int]) -> list[str]:
        """What the rows come to that are not shown."""
        return [f"  {len(paid)} more: {sum(paid)}, {share(sum(paid), self.w)} of w"] if paid else []

    def exchanged(self, relations: list[Relation]) -> list[str]:
        """Where h comes from: by line over all supersteps, and superstep by superstep."""
        h = sum(it.costs["h"] for it in self.report.supersteps)
        sums: dict[tuple[Place, str], Amount] = {}
        for relation in relations:
            for key, part in relation.parts.items():
                sums[key] = sums.get(key, Amount()).more(*part)
        rows = [
            self.row([str(part.size), share(part.size, h), counted(part.requests, kind)], self.costs[place])
            for (place, kind), part in sorted(sums.items(), key=lambda it: (-it[1].size, it[0]))
        ]
        most = sorted(relations, key=lambda it: (-it.h, it.superstep))[:MOST_SUPERSTEPS]
        return [
            f"bsprun: where h comes from, by line: h {h} in all, of the rank that sends or receives most in each superstep",
            *aligned(("bytes", "of h", "requests"), rows[:MOST_PLACES]),
            *map(told, most),
        ]

    def row(self, cells: list[str], cost: Cost) -> Row:
        """A row of a line with its function and what stands there, or of a function."""
        place = cost.place
        if not place.is_own:
            return Row(cells, f"{place.name} (library)" if cost.is_library else place.name)
        if place.path not in self.sources:
            self.sources[place.path] = source_listing.source(place.path).text
        text = "".join(self.sources[place.path][place.number - 1 : place.number]).strip()
        shown = text if len(text) <= MOST_LETTERS else text[: MOST_LETTERS - 3] + "..."
        return Row(cells, place.short if cost.function.startswith("0x") else f"{cost.function}, {place.short}", shown)


def told(relation: Relation) -> str:
    """The h of a superstep and its parts, the largest first."""
    parts = sorted(relation.parts.items(), key=lambda it: (-it[1].size, it[0]))
    texts = [f"{part.size} by {counted(part.requests, kind)} at {place.short}" for (place, kind), part in parts[:MOST_PARTS]]
    texts += ["..."] if len(parts) > MOST_PARTS else []
    way = "sent" if relation.is_sent else "received"
    return f"  superstep {relation.superstep}: h {relation.h}, {way} by rank {relation.rank}: {', '.join(texts)}"


class Measured:
    """A run with its counts, its report and its prices. `program` is its path."""

    def __init__(self, counts: pathlib.Path, nodes: int, trace: Tracer, report: Report, prices: tuple[int, int], program: str) -> None:
        self.counts, self.nodes, self.trace = counts, nodes, trace
        self.report, self.prices, self.program = report, prices, program

    @cached_property
    def work(self) -> Work:
        """Its work."""
        return Work(self.trace.code, step_counts.read(self.counts, self.nodes, self.report))

    @cached_property
    def traffic(self) -> Traffic:
        """Its requests."""
        return Traffic(self.work, self.trace)

    @cached_property
    def relations(self) -> list[Relation]:
        """Where its h comes from."""
        return self.traffic.relations(self.report)

    def tables(self, is_folded: bool) -> list[str]:
        """What is told of it."""
        told = Told(self.work, self.report)
        lines = told.lines(is_folded) + (told.exchanged(self.relations) if self.relations else [])
        missing = sum(it.costs["h"] > 0 for it in self.report.supersteps) - len(self.relations)
        if missing:
            why = f"{self.traffic.stops} calls of BSPlib are too many to check"
            lines.append(f"bsprun: where h comes from is unknown for {counted(missing, 'superstep')}: {why}")
        return lines

    def write(self, kind: str, path: str) -> list[str]:
        """Writes a file of this kind; lines say what is left out."""
        g, l = self.prices
        if kind == "callgrind":
            files.write(path, callgrind.text(self.work, self.program))
        elif kind == "folded":
            exchange = g * sum(it.costs["h"] for it in self.report.supersteps)
            files.write(path, folded_stacks.text(self.work, exchange, l * len(self.report.supersteps)))
        elif kind == "trace":
            files.write(path, trace_events.text(self.work.counts, self.report, g, l, self.program))
            most, count = trace_events.most_supersteps(self.nodes), len(self.report.supersteps)
            return [f"{path} has the first {most} of {count} supersteps"] if most < count else []
        else:
            files.write(path, source_listing.as_json(source_listing.listing(self.work, self.report, self.relations, self.program)))
        return []
