"""Exposed bytes by the two places in the code that expose them, and what the emulator found beside them.

All calls of the library are made from one place in the machine's code for each function. So the emulator, which is proved to find what is
exposed, tells one pair of functions of a superstep once, and the pairs of lines are found among the calls of the run.
"""

from __future__ import annotations

from collections.abc import Iterator, Sequence
from dataclasses import dataclass, field
from typing import Dict, FrozenSet, List, NamedTuple, Set, Tuple

from ..outputs import exposed_ranges
from . import exposed_bytes
from .call_log import DIRECT_GET, Logged, Superstep
from .exposed_bytes import Exposed


class Place(NamedTuple):
    """Bytes that two calls of a superstep expose, and these calls as they were told."""

    superstep: int
    found: Exposed
    reader: Logged
    writer: Logged


@dataclass
class Pairs:
    """Of each pair of places in the code the first bytes that they expose; and which functions expose some, by supersteps."""

    places: Dict[FrozenSet[int], Place] = field(default_factory=dict)
    functions: Set[Tuple[int, FrozenSet[str]]] = field(default_factory=set)

    def untold(self, rows: Sequence[exposed_ranges.Exposed]) -> List[exposed_ranges.Exposed]:
        """What the emulator found of functions that expose nothing among the calls, the first of each two: calls that the library did not
        make."""
        left: Dict[FrozenSet[str], exposed_ranges.Exposed] = {}
        for row in rows:
            functions = frozenset((f"bsp_{row.reader.kind}", f"bsp_{row.writer.kind}"))
            if (row.superstep, functions) not in self.functions:
                left.setdefault(functions, row)
        return list(left.values())


def pairs(steps: Sequence[Superstep], known: exposed_ranges.Found) -> Pairs:
    """The pairs of places that expose bytes, in the order of the first of each. The emulator, if it has found all that its calls expose, has
    named the supersteps: only bsp_direct_get is no call of it."""
    found = Pairs()
    named = {row.superstep for row in known.rows}
    end = len(steps) if known.is_whole else known.rows[-1].superstep if known.rows else 0
    for superstep, step in enumerate(steps):
        if step.has_unbuffered and (superstep in named or superstep >= end or DIRECT_GET in step.numbers):
            for pair, it in exposed_in(superstep, step):
                found.places.setdefault(pair, it)
                found.functions.add((superstep, frozenset((it.found.reader.kind, it.found.writer.kind))))
    return found


def exposed_in(superstep: int, step: Superstep) -> Iterator[Tuple[FrozenSet[int], Place]]:
    """The bytes that each pair of places in the code exposes in a superstep, once, by the two calls that are nearest."""
    calls = dict(step.transfers())
    pairs_of: Dict[FrozenSet[int], Exposed] = {}
    for it in exposed_bytes.exposed(list(calls), lambda it: calls[it].place):
        pairs_of.setdefault(frozenset((calls[it.reader].place, calls[it.writer].place)), it)
    for pair, it in pairs_of.items():
        readers, writers = ([one for one, call in calls.items() if call.place == calls[of].place] for of in (it.reader, it.writer))
        it = exposed_bytes.nearest(it, readers, writers)
        yield pair, Place(superstep, it, calls[it.reader], calls[it.writer])
