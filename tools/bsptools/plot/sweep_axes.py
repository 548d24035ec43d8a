"""The table of a sweep along any of its columns: the axes, which points form a line, and what does not fit."""

from __future__ import annotations

import argparse
import functools
from dataclasses import dataclass, field
from fractions import Fraction
from typing import NamedTuple

from ..prices import Exact, number, spelled
from ..refusals import Refused
from .sweep_table import Row, none_ended, short_names, telling

PROGRAM, NODES, G, L, MACHINE = "program", "nodes", "g", "l", "machine"
PRICES = (G, L, MACHINE)
# What prices change of what can be along the axis at the side.
PRICED = ("total", "speedup", "efficiency")
# What a table has beside its columns of settings.
MEASURED = ("w", "h", "m", "supersteps", "total", "outcome")
# A picture has at most so many lines in a panel, and so many panels.
MOST_LINES, MOST_PANELS = 24, 12
# Of the values of a column, so many are named.
MOST_NAMED = 8


class Curve(NamedTuple):
    """A line: its name, and its values by what is along the axis below, the least first."""

    name: str
    values: dict[Exact, Exact]


class Panel(NamedTuple):
    """The lines of one small picture among several, by a title that tells it from the others."""

    title: str
    curves: list[Curve]


@dataclass(frozen=True)
class Axes:
    """What is along each axis, which columns part lines, and which part panels."""

    x: str = NODES
    y: str = "total"
    by: tuple[str, ...] | None = None
    panels: tuple[str, ...] = ()
    only: dict[str, list[str]] = field(default_factory=dict)


def of_options(options: argparse.Namespace) -> Axes:
    """The axes that a command line asks for."""
    only: dict[str, list[str]] = {}
    for name, values in options.only:
        if name in only:
            raise Refused(f"--only is given twice for {name}: give all values at once, as --only {name}={','.join([*only[name], *values])}")
        only[name] = values
    return Axes(options.x, options.y, options.by, options.panels or (), only)


class Frame:
    """The runs of a table that ended, by columns."""

    def __init__(self, rows: list[Row], axes: Axes) -> None:
        self.axes = axes
        self.programs = short_names({it.program for it in rows})
        self.columns = list(dict.fromkeys([PROGRAM, NODES, *PRICES, *(name for it in rows for name, _ in it.settings)]))
        for name in [axes.x, *(axes.by or ()), *axes.panels, *axes.only]:
            self.expect_column(name)
        self.expect_values(rows)
        self.chosen = [it for it in rows if all(self.cell(it, name) in values for name, values in axes.only.items())]
        if rows and not self.chosen:
            raise Refused(f"no run in it has {', '.join(f'{name} {values[0]}' for name, values in axes.only.items())}")
        self.rows = [it for it in self.chosen if it.total is not None]
        if not self.rows:
            raise Refused(none_ended(self.chosen))

    def expect_values(self, rows: list[Row]) -> None:
        """Refuses a value that was asked for and no run has, with what there is."""
        for name, values in self.axes.only.items():
            known = dict.fromkeys(self.cell(it, name) for it in rows)
            there = [it or "none" for it in known]
            for value in values if rows else ():
                if value not in known:
                    more = f" and {len(there) - MOST_NAMED} more" if len(there) > MOST_NAMED else ""
                    is_other = "=" in value and value.partition("=")[0] in self.columns
                    again = f"; each column has an --only of its own, as --only {value}" if is_other else ""
                    raise Refused(f"no run in it has {name} {value}; there is {name} {', '.join(there[:MOST_NAMED])}{more}{again}")

    def expect_column(self, name: str) -> None:
        """Refuses a column that the table does not have."""
        if name in MEASURED:
            raise Refused(f"{name} is what runs cost, and not a setting: only --y can show it; --x, --by, --panels and --only take"
                          f" {', '.join(self.columns)}")  # fmt: skip
        if name not in self.columns:
            raise Refused(f"the table has no column {name}: it has {', '.join(self.columns)}")

    def cell(self, row: Row, name: str) -> str:
        """What a row has in a column. g and l of a machine differ for each number of nodes, and part no lines."""
        if name == PROGRAM:
            return self.programs[row.program]
        if name == NODES:
            return str(row.nodes)
        if name == MACHINE:
            return row.machine
        if name in PRICES:
            return "" if row.machine else spelled(row.g if name == G else row.l)
        return dict(row.settings).get(name, "")

    def panel(self, row: Row, name: str) -> str:
        """What a row has in a column that parts panels. Prices that were given are a machine without a name, and have a panel of their own."""
        return self.cell(row, name) or (f"{G} {spelled(row.g)}, {L} {spelled(row.l)}" if name == MACHINE else "")

    def varying(self, rows: list[Row] | None = None) -> list[str]:
        """The columns in which rows differ."""
        return [name for name in self.columns if len({self.cell(it, name) for it in rows or self.rows}) > 1]

    def x_of(self, row: Row) -> Exact:
        """Where a row is along the axis below."""
        cell = self.cell(row, self.axes.x)
        found = number(cell)
        if found is None:
            own = f"the prices of {row.machine} differ for each number of nodes" if row.machine and self.axes.x in PRICES else ""
            raise Refused(f"--x {self.axes.x}: {own or f'{cell!r} is not a number'}; {self.fitting()}")
        return found

    def fitting(self) -> str:
        """What can be along the axis below."""
        found = [it for it in self.varying() if all(number(self.cell(row, it)) is not None for row in self.rows)]
        return f"use --x {' or --x '.join(found)}" if found else "no column of it has several numbers"

    def expect_several(self) -> None:
        """Refuses an axis with one place, on which all points would stand one above the other."""
        if self.axes.x in (*self.axes.panels, *(self.axes.by or ())):
            raise Refused(f"{self.axes.x} is on the axis, so it separates neither lines nor panels: leave it out of --by and --panels")
        places = {self.x_of(it) for it in self.rows}
        if len(places) < 2:
            raise Refused(f"all runs have {self.axes.x} {spelled(places.pop())}, but a line needs several; {self.fitting()}")

    @functools.cached_property
    def parting(self) -> list[str]:
        """The columns that part lines: those that were asked for, or all that differ and are on no axis."""
        if self.axes.by is not None:
            return list(self.axes.by)
        aside = {self.axes.x, *self.axes.panels, *(PRICES if self.axes.y not in PRICED or MACHINE in self.axes.panels else ())}
        # One number of nodes is measured against another.
        return [it for it in self.varying() if it not in aside]

    def panels(self) -> list[Panel]:
        """All panels with their lines; a table that does not fit the axes is refused, with what would."""
        self.expect_several()
        groups: dict[tuple[str, ...], list[Row]] = {}
        for row in self.rows:
            groups.setdefault(tuple(self.panel(row, name) for name in self.axes.panels), []).append(row)
        if len(groups) > MOST_PANELS:
            raise Refused(f"the picture would have {len(groups)} panels; the limit is {MOST_PANELS}: choose some by --only NAME=VALUE,..")
        titles = [", ".join(f"{name} {it}" if name not in (PROGRAM, MACHINE) else it for name, it in zip(self.axes.panels, key)) for key in groups]
        names = self.names()
        return [Panel(title, self.curves(rows, names)) for title, rows in zip(titles, groups.values())]

    def key(self, row: Row) -> tuple[str, ...]:
        """What parts the line of a row from others."""
        return tuple(self.cell(row, name) for name in self.parting)

    def names(self) -> dict[tuple[str, ...], str]:
        """A name for each line, the same in all panels."""
        keys = list(dict.fromkeys(map(self.key, self.rows)))
        if len(keys) > MOST_LINES:
            raise Refused(f"the picture would have {len(keys)} lines; the limit is {MOST_LINES}: choose some by --only NAME=VALUE,.., or separate"
                          " them by --panels NAME")  # fmt: skip
        plain = (PROGRAM, MACHINE)
        parts = [[("" if name in plain else name, it) for name, it in zip(self.parting, key) if it] or [("", self.axes.y)] for key in keys]
        return dict(zip(keys, telling(parts)))

    def curves(self, rows: list[Row], names: dict[tuple[str, ...], str]) -> list[Curve]:
        """The lines of a panel, in the order in which they begin in the table."""
        found: dict[tuple[str, ...], dict[Exact, Row]] = {}
        for row in rows:
            line, place = found.setdefault(self.key(row), {}), self.x_of(row)
            other = line.setdefault(place, row)
            if self.y_of(other) != self.y_of(row):
                raise Refused(self.ambiguous(other, row))
        return [Curve(names[key], {it: self.y_of(line[it]) for it in sorted(line)}) for key, line in found.items()]

    def ambiguous(self, one: Row, other: Row) -> str:
        """Why two rows do not make one point, and what parts them."""
        name = next(it for it in self.varying([one, other]) if it != self.axes.x)
        values = f"{name} {self.cell(one, name) or 'none'} and {name} {self.cell(other, name) or 'none'}"
        where = f"{self.axes.x} {self.cell(one, self.axes.x)}"
        asked = ",".join([*(self.axes.by or ()), name])
        return f"at {where} a line has two values, those of {values}: give --by {asked}, --panels {name} or --only {name}={self.cell(one, name)}"

    def y_of(self, row: Row) -> Exact:
        """What a row has along the axis at the side."""
        assert row.total is not None and row.sums is not None
        if self.axes.y == "total":
            return row.total
        if self.axes.y in ("w", "h", "supersteps"):
            return int(getattr(row.sums, self.axes.y))
        base = self.base_of(row)
        assert base.total is not None
        speedup = quotient(base.total, row.total)
        return speedup if self.axes.y == "speedup" else quotient(speedup * base.nodes, row.nodes)

    def base_of(self, row: Row) -> Row:
        """The same on the fewest nodes."""
        return self.bases[row.program, row.settings, row.prices]

    @functools.cached_property
    def bases(self) -> dict[tuple[object, ...], Row]:
        """The row on the fewest nodes, of each program with its settings and prices."""
        found: dict[tuple[object, ...], Row] = {}
        for row in sorted(self.rows, key=lambda it: it.nodes):
            found.setdefault((row.program, row.settings, row.prices), row)
        return found


def quotient(above: Exact, below: Exact) -> Fraction:
    """How many times as much one total is as another, of which nothing counts as 1."""
    return Fraction(above) / Fraction(below or 1)
