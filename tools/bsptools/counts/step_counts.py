"""The reader of what `run --counts` writes: the steps of each rank at each address in each superstep."""

from __future__ import annotations

import csv
import itertools
import operator
import os
import re
from array import array
from collections.abc import Iterable, Iterator
from typing import NamedTuple

from ..files import whole
from ..limits import MOST_NODES, MOST_TICKS
from ..outputs.report import MOST_COST, Report
from ..refusals import Refused, Unfit, about, why_unfit

HEADER = ["superstep", "rank", "address", "count"]
ADDRESSES = re.compile(r"(?:[0-9a-f]{8} )+")
NUMBERS = re.compile(r"(?:[1-9][0-9]{0,19} )+")
# Of a file of counts. Some 20 bytes are a row, of which those of the slowest ranks are kept.
MOST_BYTES = 1 << 28


class Part(NamedTuple):
    """What one rank made in one superstep: the addresses in their order, and the steps at each."""

    superstep: int
    rank: int
    addresses: array[int]
    steps: array[int]

    @property
    def made(self) -> dict[int, int]:
        """The steps by address."""
        return dict(zip(self.addresses, self.steps))


class Superstep(NamedTuple):
    """A superstep: the steps of each rank, and the part of the lowest rank with the most of them; none if no rank made a step."""

    ticks: array[int]
    slowest: Part | None

    @property
    def w(self) -> int:
        """The work: the most steps of a rank."""
        return self.ticks[self.slowest.rank] if self.slowest else 0

    @property
    def made(self) -> dict[int, int]:
        """The steps that make w, by address."""
        return self.slowest.made if self.slowest else {}


class Counts(NamedTuple):
    """The counts of a run: superstep by superstep, and over all of them for each address how many steps each rank made there; and the file
    that has all of them."""

    path: str | os.PathLike[str]
    supersteps: list[Superstep]
    by_rank: dict[int, array[int]]

    @property
    def nodes(self) -> int:
        """How many ranks there are."""
        return len(self.supersteps[0].ticks)

    def paid(self) -> dict[int, int]:
        """The steps at each address that make w: those of the slowest rank of each superstep."""
        found = dict.fromkeys(self.by_rank, 0)
        for superstep in self.supersteps:
            for address, steps in superstep.made.items():
                found[address] += steps
        return found

    def by_all(self) -> dict[int, int]:
        """The steps of all ranks at each address."""
        return {address: sum(steps) for address, steps in self.by_rank.items()}


def parts(path: str | os.PathLike[str]) -> Iterator[Part]:
    """The parts of a file of counts, in the order of superstep and rank; what is none raises ValueError."""
    with about(path), open(path, encoding="ascii", errors="replace", newline="") as file:
        if os.fstat(file.fileno()).st_size > MOST_BYTES:
            raise Refused(f"the counts exceed {MOST_BYTES} bytes: use fewer nodes or fewer supersteps")
        rows = csv.reader(file)
        try:
            if next(rows, []) != HEADER:
                raise Unfit("it does not begin as counts do")
            last = (-1, -1)
            for (superstep, rank), them in itertools.groupby(rows, operator.itemgetter(0, 1)):
                part = part_of(whole(superstep, MOST_COST), whole(rank, MOST_NODES - 1), list(them))
                if part[:2] <= last:
                    raise Unfit(f"superstep {superstep}, rank {rank} is not in its place")
                last = part[:2]
                yield part
        except (csv.Error, IndexError) as error:
            raise Unfit(f"line {rows.line_num}: {why_unfit(error)}") from error


def part_of(superstep: int, rank: int, rows: list[list[str]]) -> Part:
    """A part of its rows."""
    if any(len(row) != len(HEADER) for row in rows):
        raise Unfit(f"superstep {superstep}, rank {rank}: a row has other columns than the first one")
    texts = [row[2] for row in rows], [row[3] for row in rows]
    if not all(form.fullmatch(" ".join(them) + " ") for form, them in zip((ADDRESSES, NUMBERS), texts)):
        raise Unfit(f"superstep {superstep}, rank {rank}: a row is not a count")
    addresses, steps = [int(it, 16) for it in texts[0]], list(map(int, texts[1]))
    if any(one >= other for one, other in zip(addresses, addresses[1:])) or sum(steps) > MOST_TICKS:
        raise Unfit(f"superstep {superstep}, rank {rank}: its counts are not in their order, or too many")
    return Part(superstep, rank, array("I", addresses), array("Q", steps))


def read(path: str | os.PathLike[str], nodes: int, report: Report) -> Counts:
    """The counts of the run that has this report. It is refused if they are not those of it: the most steps of a rank are w."""
    found = Counts(path, [], {})
    try:
        add_all(found, parts(path), nodes, report)
    except (ValueError, IndexError) as error:
        raise Refused(f"the counts are not those of the run: {why_unfit(error)}") from error
    return found


def add_all(found: Counts, them: Iterable[Part], nodes: int, report: Report) -> None:
    """Adds the supersteps of these parts. One has none if all ranks were at their limit."""
    groups = itertools.groupby(them, lambda part: part.superstep)
    group = next(groups, None)
    for told in report.supersteps:
        is_there = group is not None and group[0] == told.number
        found.supersteps.append(superstep_of(group[1] if group and is_there else (), nodes, found.by_rank))
        group = next(groups, None) if is_there else group
        if found.supersteps[-1].w != told.costs["w"]:
            raise Unfit(f"superstep {told.number} has w {told.costs['w']}, and {found.supersteps[-1].w} by the counts")
    if group is not None:
        raise Unfit(f"there is no superstep {group[0]}")


def superstep_of(them: Iterable[Part], nodes: int, by_rank: dict[int, array[int]]) -> Superstep:
    """A superstep of its parts, which are added to what each rank made at each address."""
    ticks = array("Q", bytes(8 * nodes))
    slowest = None
    for part in them:
        ticks[part.rank] = sum(part.steps)
        for address, steps in zip(part.addresses, part.steps):
            if address not in by_rank:
                by_rank[address] = array("Q", bytes(8 * nodes))
            by_rank[address][part.rank] += steps
        if slowest is None or ticks[part.rank] > ticks[slowest.rank]:
            slowest = part
    return Superstep(ticks, slowest)
