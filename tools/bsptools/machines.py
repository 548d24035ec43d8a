"""BSP machines by their names: nodes, speed and prices of communication, from a table with sources."""

from __future__ import annotations

import argparse
import os
import pathlib
from fractions import Fraction
from typing import Any, NamedTuple

from . import limits
from .files import text_content
from .prices import Exact, number, settled
from .refusals import Refused

TABLE = pathlib.Path(__file__).resolve().with_name("machines.txt")
# In the environment: a table of one's own.
OWN = "BSP_MACHINES"


class Machine(NamedTuple):
    """A machine: its nodes, the operations of one in a second, and what a byte of the h-relation and the end of a superstep cost, in these."""

    nodes: int
    rate: float
    g: Exact
    l: Exact
    source: str


def machine_of(line: str) -> tuple[str, Machine] | None:
    """The name and the machine of a line of a table, or none if it is not of that form. g is that of a byte, exactly."""
    words = line.split(None, 6)
    if len(words) < 7:
        return None
    try:
        nodes, rate, g, l, size = int(words[1]), float(words[2]), exact(words[3]), exact(words[4]), int(words[5])
    except (ValueError, OverflowError):
        return None
    is_good = 1 <= nodes <= limits.MOST_NODES and 1 <= rate <= limits.MOST_RATE and size > 0
    if not is_good or not 0 <= g / size < 1 << 32 or not 0 <= l < 1 << 32:
        return None
    return words[0], Machine(nodes, rate, settled(Fraction(g) / size), l, words[6])


def exact(word: str) -> Exact:
    """A number of a table: as prices are spelled, or with an exponent."""
    found = number(word)
    return found if found is not None else settled(Fraction(repr(float(word))))


def read(path: pathlib.Path) -> dict[str, Machine]:
    """The machines of a table, by their names."""
    text = text_content(path, limits.MOST_TABLE).decode(errors="replace")
    found: dict[str, Machine] = {}
    for number, line in enumerate(text.splitlines(), 1):
        if line.strip() and not line.startswith("#"):
            machine = machine_of(line)
            if machine is None:
                raise Refused(f"{path}, line {number}: a machine has a name, p, r, g, l, the bytes of a word, and a source")
            found.setdefault(*machine)
    return found


def machines() -> dict[str, Machine]:
    """All machines that are known."""
    own = os.environ.get(OWN)
    return {**read(TABLE), **(read(pathlib.Path(own)) if own else {})}


def machine_named(name: str) -> Machine:
    """The machine of a name."""
    known = machines()
    if name not in known:
        raise Refused(unknown(name, known))
    return known[name]


class Family(NamedTuple):
    """A machine in the sizes that were measured: each by its number of nodes, the fewest first."""

    name: str
    sizes: dict[int, Machine]

    def __hash__(self) -> int:
        return hash(self.name)

    def at(self, nodes: int, is_interpolated: bool) -> tuple[Exact, Exact] | None:
        """g and l on so many nodes; None if they were not measured there, and are not to be interpolated between the sizes beside it."""
        if nodes in self.sizes:
            return self.sizes[nodes].g, self.sizes[nodes].l
        below, above = [it for it in self.sizes if it < nodes], [it for it in self.sizes if it > nodes]
        if not (is_interpolated and below and above):
            return None
        low, high = self.sizes[below[-1]], self.sizes[above[0]]
        share = Fraction(nodes - low.nodes, high.nodes - low.nodes)
        return settled(low.g + share * (high.g - low.g)), settled(low.l + share * (high.l - low.l))


def family_named(name: str) -> Family:
    """The machine of this name, or the machines whose names have the number of their nodes behind it: t3e is t3e-2, t3e-4, .."""
    known = machines()
    if name in known:
        return Family(name, {known[name].nodes: known[name]})
    sizes = {it.nodes: it for full, it in known.items() if full == f"{name}-{it.nodes}"}
    if sizes:
        return Family(name, dict(sorted(sizes.items())))
    raise Refused(unknown(name, known))


def unknown(name: str, known: dict[str, Machine]) -> str:
    """A line that says which machines there are."""
    return f"{name!r} is not a known machine; these are: {', '.join(known)}; {TABLE} has them"


class Take(argparse.Action):
    """Takes nodes, prices and rate of a machine, if the options after it say nothing else. The emulator's own prices are whole numbers."""

    def __call__(self, _parser: argparse.ArgumentParser, found: argparse.Namespace, value: Any, _option: str | None = None) -> None:
        taken = machine_named(value)
        found.nodes, found.g, found.l, found.rate = taken.nodes, round(taken.g), round(taken.l), taken.rate
