"""Contested bytes by the two places in the code that contest them, and what has the other of two requests count.

A request of which bytes are left out comes to the same as one that lands before those that write there too.
"""

from __future__ import annotations

from collections.abc import Iterator, Sequence
from dataclasses import dataclass, field
from typing import Dict, List, NamedTuple, Tuple

from ..framed.environment_calls import PUTS
from ..outputs.contested_bytes import Contested, Request
from ..prepare.library_choices import MOST_CUTS, Cut
from .call_log import Logged, Superstep
from .exposed_bytes import Bytes

# A request in the order in which the machine has them land: gets, then puts, each by rank and then by number.
Landing = Tuple[bool, int, int]


class Place(NamedTuple):
    """Bytes of a superstep that are contested: a request, one that lands before it and counts in the other order, what has it count, and the
    row that says of these two that they bring other values, where there is one."""

    superstep: int
    where: Bytes
    last: Logged
    other: Logged
    cuts: Tuple[Cut, ...]
    row: Contested | None


@dataclass
class Pair:
    """Two places in the code that contest bytes: the first of these, how many there are, and what has the others count everywhere, as far as
    there is room for it in an image."""

    first: Place
    count: int = 0
    cuts: List[Cut] = field(default_factory=list)

    @property
    def places(self) -> Tuple[int, ...]:
        """The two places."""
        return pair_of(self.first)


def pair_of(place: Place) -> Tuple[int, ...]:
    """The two places in the code, in one order."""
    return tuple(sorted((place.last.place, place.other.place)))


def pairs(rows: Sequence[Contested], steps: Sequence[Superstep]) -> List[Pair]:
    """The pairs of places that contest bytes, in the order of the first of each."""
    found: Dict[Tuple[int, ...], Pair] = {}
    for place in places(rows, steps):
        pair = found.setdefault(pair_of(place), Pair(place))
        pair.count += 1
        pair.cuts += place.cuts if len(pair.cuts) <= MOST_CUTS else ()
        pair.first = place if pair.first.row is None and place.row is not None else pair.first
    return list(found.values())


class Landed(NamedTuple):
    """What has landed at some bytes, in that order, and the pairs of requests among it that count: of each the first and the last, and
    whether the row of these bytes names the two."""

    here: List[Tuple[Bytes, Logged]]
    both: List[Tuple[int, int, bool]]


def places(rows: Sequence[Contested], steps: Sequence[Superstep]) -> Iterator[Place]:
    """The places of contested bytes, each of which two requests contest as a whole."""
    known: Tuple[int, int] | None = None
    landed: List[Tuple[Bytes, Logged]] = []
    going: List[Tuple[Bytes, Logged]] = []
    edges: List[int] = []
    found: Dict[Tuple[int, ...], Landed] = {}
    at = 0
    for row in rows:
        if (row.superstep, row.rank) != known:
            known, at, going, edges = (row.superstep, row.rank), 0, [], []
            landed = landings(steps[row.superstep], row.rank) if row.superstep < len(steps) else []
            found.clear()
        start, end = row.address, row.address + row.size
        # Of many rows side by side the same has landed.
        if (at < len(landed) and landed[at][0].start < end) or (edges and edges[0] < end):
            going = [it for it in going if it[0].end > start]
            while at < len(landed) and landed[at][0].start < end:
                going += [landed[at]] if landed[at][0].end > start else []
                at += 1
            edges = sorted({edge for it, _ in going for edge in (it.start, it.end) if edge > start})
            found.clear()
        inside = [it for it in edges if it < end]
        for low, high in zip([start, *inside], [*inside, end]):
            key = (*row.first[1:3], *row.second[1:3], *((low, high) if inside else ()))
            if key not in found:
                found[key] = landed_at(row, low, high, going)
            yield from places_in(row, low, high, found[key])


def landings(step: Superstep, rank: int) -> List[Tuple[Bytes, Logged]]:
    """What a superstep writes into a rank's memory, by the first bytes."""
    found = ((step.written(it), it) for made in step.requests.values() for it in made if it.nbytes > 0)
    return sorted((where, it) for where, it in found if where is not None and where.rank == rank)


def landed_at(row: Contested, low: int, high: int, landed: Sequence[Tuple[Bytes, Logged]]) -> Landed:
    """What has landed at a part of a row between the ends of requests."""
    here = sorted(((order(it), where, it) for where, it in landed if where.start <= low and high <= where.end), key=lambda it: it[0])
    if len(here) < 2:
        return Landed([], [])
    named = [at for at, (_, _, it) in enumerate(here) if is_asked(it, row.first) or is_asked(it, row.second)]
    is_known = len(named) == 2
    both = [(named[0], named[1]) if is_known else (0, len(here) - 1)]
    # Of more than two the others may bring other values, too: the first of each place in the code.
    firsts = {it.place: at for at, (_, _, it) in reversed(list(enumerate(here)))}
    both += [(at, len(here) - 1) for at in firsts.values() if at < len(here) - 1] if len(here) > 2 else []
    both = list({tuple(sorted((here[one][2].place, here[two][2].place))): (one, two) for one, two in reversed(both)}.values())[::-1]
    return Landed([it[1:] for it in here], [(one, two, is_known and which == 0) for which, (one, two) in enumerate(both)])


def places_in(row: Contested, low: int, high: int, landed: Landed) -> Iterator[Place]:
    """The places of a part of a row."""
    here = landed.here
    for other, last, is_known in landed.both:
        cuts = [Cut(row.superstep, it.rank, it.request, low - where.start, high - where.start) for where, it in here[other + 1 :]]
        yield Place(row.superstep, Bytes(row.rank, low, high), here[last][1], here[other][1], tuple(cuts), row if is_known else None)


def order(it: Logged) -> Landing:
    """Where the machine has a request land."""
    return it.number in PUTS, it.rank, it.request


def is_asked(it: Logged, request: Request) -> bool:
    """Whether a request of a row is this one."""
    return (it.rank, it.request) == (request.rank, request.number)
