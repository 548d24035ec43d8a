"""The points of a sweep: which runs it makes, and for which prices it reports each."""

from __future__ import annotations

import argparse
import itertools
from typing import NamedTuple

from ..limits import NODES
from ..machines import Family
from ..prices import Exact
from ..refusals import Refused, counted
from .sweep_programs import Program

MOST_POINTS = 100_000


class Run(NamedTuple):
    """A run: a program, and what it is given. Prices have no part in it: they change neither w nor h."""

    program: Program
    nodes: int
    given: str
    words: str

    def __str__(self) -> str:
        texts = [self.program.name, *(f"{name}={value}" for name, value in self.program.defines)]
        return ", ".join([*texts, *filter(None, (self.given, self.words)), counted(self.nodes, "node")])


class Point(NamedTuple):
    """A run at prices g and l, which may be those of a machine: a row of the table."""

    run: Run
    g: Exact
    l: Exact
    machine: str


class Priced(NamedTuple):
    """A number of nodes, and the prices on so many."""

    nodes: int
    g: Exact
    l: Exact
    machine: str = ""


def prices(options: argparse.Namespace) -> list[tuple[Exact, Exact]]:
    """Each g with each l, and then the pairs that were given as such."""
    pairs = list(options.prices or [])
    if options.g or options.l or not (pairs or options.machine):
        pairs = [*itertools.product(options.g or [1], options.l or [0]), *pairs]
    return list(dict.fromkeys(pairs))


def nodes_of(options: argparse.Namespace) -> list[int]:
    """The numbers of nodes that were given, or those that the machines have."""
    return options.nodes or list(dict.fromkeys(nodes for it in options.machine for nodes in it.sizes)) or [NODES]


def priced(options: argparse.Namespace) -> list[Priced]:
    """All prices over all numbers of nodes, and then each machine over those that it is wanted on."""
    found = [Priced(nodes, g, l) for g, l in prices(options) for nodes in nodes_of(options)]
    return found + [it for family in options.machine for it in of_machine(family, options)]


def of_machine(family: Family, options: argparse.Namespace) -> list[Priced]:
    """The prices of a machine over the numbers of nodes that were given, or else over its own. A number without prices is refused."""
    is_interpolated = options.interpolate is not None
    wanted = {nodes: family.at(nodes, is_interpolated) for nodes in options.nodes or family.sizes}
    missing = [nodes for nodes, found in wanted.items() if found is None]
    if missing:
        sizes = ", ".join(map(str, family.sizes))
        within = all(min(family.sizes) < it < max(family.sizes) for it in missing)
        more = ", or add --interpolate linear" if within and not is_interpolated else ""
        lines = f"{family.name} has no prices on {counted(missing[0], 'node')}; it has them on {sizes}"
        raise Refused(f"{lines}: give such numbers by --nodes{more}, or add a line to a table of your own (BSP_MACHINES)")
    name = family.name if wanted.keys() <= family.sizes.keys() else f"{family.name} ({options.interpolate})"
    return [Priced(nodes, *found, name) for nodes, found in wanted.items() if found is not None]


def expect_few(options: argparse.Namespace) -> None:
    """Refuses a sweep of too many points, before any list of them is made."""
    pairs = len(options.prices or [])
    if options.g or options.l or not (pairs or options.machine):
        pairs += len(options.g or [1]) * len(options.l or [0])
    lists = [options.program, options.input or [""], options.args or [""], *(values for _, values in options.define)]
    count = pairs * len(nodes_of(options)) + sum(len(options.nodes or it.sizes) for it in options.machine)
    for it in lists:
        count *= len(it)
    if count > MOST_POINTS:
        raise Refused(f"the sweep has {count} points; the limit is {MOST_POINTS}")


def points(options: argparse.Namespace, programs: list[Program]) -> list[Point]:
    """All points in the order of the table: by program, input, arguments and prices, and over the nodes within these. What is given twice is
    one point."""
    lists = (programs, options.input or [""], options.args or [""], priced(options))
    found = (Point(Run(program, it.nodes, given, words), it.g, it.l, it.machine) for program, given, words, it in itertools.product(*lists))
    return list(dict.fromkeys(found))
