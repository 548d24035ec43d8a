"""What ranks read and write themselves where an unbuffered call has the same bytes, in the same superstep.

Who comes first is open. The library of `bspcc --portable=accesses` tells these accesses in records: bsplib/src/accesses.c. It is given the
bytes of the calls, which a run before has told, and looks at each access of the program.

    the source of a call    its rank may read it, and may not change it
    the target of a call    its rank may neither read nor write it

For the rank that makes the call this is so from the call on, and for another one in all of the superstep.
"""

from __future__ import annotations

import heapq
from collections.abc import Iterator, Sequence
from typing import Dict, List, NamedTuple, Tuple

from ..framed.environment_calls import HPGET, HPPUT
from ..prepare.library_choices import MOST_RANGES, SOURCES, TARGETS, Range
from .call_log import ACCESSES, WRITTEN, Logged, Superstep
from .exposed_bytes import Bytes

# Bytes of a call from how many requests of their rank on.
Named = Tuple[int, int, int]


class Access(NamedTuple):
    """An access of a rank, and the call that has the same bytes."""

    superstep: int
    made: Logged
    call: Logged
    where: Bytes
    is_target: bool

    @property
    def is_write(self) -> bool:
        """Whether it is a write."""
        return self.made.number == WRITTEN


def named_by(step: Superstep, it: Logged) -> Iterator[Tuple[int, Bytes, int]]:
    """The bytes of an unbuffered call: which kind they are, where, and from how many requests of the rank there on."""
    if it.number not in (HPPUT, HPGET) or it.nbytes <= 0:
        return
    source, target = next(iter(step.read(it)), None), step.written(it)
    for kind, where in (SOURCES, source), (TARGETS, target):
        # What comes to its own place is only read.
        if where is not None and not (kind == TARGETS and source == target):
            yield kind, where, it.request + 1 if where.rank == it.rank else 0


def ranges(steps: Sequence[Superstep]) -> Tuple[List[Range], int | None]:
    """The bytes of the unbuffered calls of a run, as far as there is room for them, and the first superstep that is left out."""
    found: List[Range] = []
    for superstep, step in enumerate(steps):
        if not step.has_unbuffered:
            continue
        named: Dict[Tuple[int, int], List[Named]] = {}
        for made in step.requests.values():
            for it in made:
                for kind, where, requests in named_by(step, it):
                    named.setdefault((where.rank, kind), []).append((where.start, where.end, requests))
        here = [Range(superstep, rank, kind, *it) for (rank, kind), them in sorted(named.items()) for it in apart(them)]
        if len(found) + len(here) > MOST_RANGES:
            return found, superstep
        found += here
    return found, None


def apart(named: Sequence[Named]) -> Iterator[Named]:
    """The same bytes in ranges that have none in common, each with the fewest requests from which on one of its calls has it: as requests,
    start and end."""
    edges = sorted({edge for start, end, _ in named for edge in (start, end)})
    left = sorted(named, reverse=True)
    going: List[Tuple[int, int]] = []
    last: Named | None = None
    for low, high in zip(edges, edges[1:]):
        while left and left[-1][0] <= low:
            _, end, requests = left.pop()
            heapq.heappush(going, (requests, end))
        while going and going[0][1] <= low:
            heapq.heappop(going)
        if not going:
            continue
        requests = going[0][0]
        if last is not None and last[0] == requests and last[2] == low:
            last = (requests, last[1], high)
            continue
        if last is not None:
            yield last
        last = (requests, low, high)
    if last is not None:
        yield last


def accesses(steps: Sequence[Superstep]) -> List[Access]:
    """The accesses that a run has told, the first of each pair of places in the code."""
    found: Dict[Tuple[int, int], Access] = {}
    for superstep, step in enumerate(steps):
        if step.numbers.isdisjoint(ACCESSES):
            continue
        for made in step.all():
            it = access(superstep, step, made) if made.number in ACCESSES else None
            if it is not None:
                found.setdefault((it.call.place, it.made.place), it)
    return list(found.values())


def access(superstep: int, step: Superstep, made: Logged) -> Access | None:
    """An access that is told, with the call that it meets: one of a target before one of a source."""
    touched = Bytes(made.rank, made.src, made.src + made.nbytes)
    met: List[Access] = []
    for calls in step.requests.values():
        for it in calls:
            for kind, where, requests in named_by(step, it):
                common = where.common(touched)
                if common is not None and requests <= made.request and (kind == TARGETS or made.number == WRITTEN):
                    met.append(Access(superstep, made, it, common, kind == TARGETS))
    return max(met, key=lambda it: it.is_target) if met else None
