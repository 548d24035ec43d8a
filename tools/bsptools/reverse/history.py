"""The way back for a machine, found by running the program again.

The history of a machine is that of the debugger's `go`: the ranks one after another through a superstep, and then the turn. Back it goes
the other way round, from where the machine stands: what the highest rank has done in this superstep, then the one below it, and so on to
where the superstep began; then to the end of the superstep before that, and through that from its highest rank.
"""

from __future__ import annotations

import contextlib
from itertools import islice
from typing import Callable, FrozenSet, Iterator, List, NamedTuple, Optional, Sequence, Tuple

from ..framed.session import ALL, Node
from .reversible_machine import MOST_BREAKPOINTS, Machine
from .run_places import Asked, AtRank, Interrupted, Place, Point

# Of how many instructions it is kept what they change: of few at first, and of more where it goes back over all of these.
LEAST_RECORDED, MORE_RECORDED, MOST_RECORDED = 16, 8, 4096
# How many times a rank is stopped at breakpoints, one after another, before the last time is looked for from the end on: in so many
# instructions first, and then in more.
MOST_STOPS, WINDOW, WIDER = 32, 4096, 16
# The rank, in the order of history, of the beginning of a superstep itself.
BEGIN = -1


class Hit(NamedTuple):
    """Where a rank stands at a breakpoint, or a superstep begins, in the order of history."""

    superstep: int
    rank: int
    ticks: int


class Goal(NamedTuple):
    """What is looked for in history: a rank at one of these addresses that is accepted there, any rank or this one alone, or the beginning
    of a superstep."""

    addresses: FrozenSet[int]
    supersteps: FrozenSet[int]
    rank: Optional[int]
    accepts: Callable[[Node], bool] = lambda node: True


class History:
    """Takes a machine back. If that is broken off, the machine stands where it stood."""

    def __init__(self, machine: Machine, must_break_off: Asked) -> None:
        self._machine = machine
        self._must_break_off = must_break_off
        self._recorded = LEAST_RECORDED

    def step_back(self, rank: int) -> bool:
        """A rank goes an instruction back. If it has made none in this superstep, all go back over the turn, and then this rank.
        Answers whether there was one."""
        if self._machine.recall(rank):
            return True
        self._recorded = min(MORE_RECORDED * self._recorded, MOST_RECORDED) if self._machine.has_recalled(rank) else LEAST_RECORDED
        before = self._before(self._machine.place(), rank)
        if before is None:
            return False
        other = self._at(before._replace(ticks=_with(before.ticks, rank, max(0, before.ticks[rank] - self._recorded))))
        try:
            other.record(rank, before.ticks[rank] - other.node(rank).ticks, self._must_break_off)
        except BaseException:
            other.close()
            raise
        self._become(other)
        return True

    def last(self, goal: Goal) -> Optional[Hit]:
        """The last place that is looked for."""
        return self._last(goal, self._machine.place())

    def go_to(self, hit: Optional[Hit], alone: Optional[int]) -> None:
        """Goes back to a place, or to the start; one rank alone, if it is said."""
        self._become(self._at(self._place_of(hit or Hit(0, BEGIN, 0), alone, self._machine.place())))

    def _become(self, other: Machine) -> None:
        self._machine.become(other)
        self._machine.spare.follow(self._machine.superstep)

    # Places.

    def _before(self, place: Place, rank: int) -> Optional[Place]:
        """The place of an instruction of a rank less."""
        begin = self._begin_of(place.superstep)
        if place.ticks[rank] > begin[rank]:
            return Place(place.superstep, _with(place.ticks, rank, place.ticks[rank] - 1), False)
        if place.superstep == 0:
            return None
        return Place(place.superstep - 1, _with((ALL,) * len(begin), rank, begin[rank] - 1), False)

    def _place_of(self, hit: Hit, alone: Optional[int], place: Place) -> Place:
        """Where the machine stands at a hit, as it comes there from a place behind it."""
        ends = place.ticks if hit.superstep == place.superstep else (ALL,) * self._machine.ranks
        if hit.rank == BEGIN:
            ticks = (0,) * self._machine.ranks
        elif alone is not None:
            ticks = _with(ends, hit.rank, hit.ticks)
        else:
            ticks = ends[: hit.rank] + (hit.ticks,) + (0,) * (self._machine.ranks - hit.rank - 1)
        return Place(hit.superstep, ticks, False)

    def _at(self, place: Place) -> Machine:
        return self._machine.at(place, self._must_break_off)

    def _begin_of(self, superstep: int) -> Tuple[int, ...]:
        return self._machine.begin_of(superstep, self._must_break_off)

    # What is looked for.

    def _last(self, goal: Goal, place: Place) -> Optional[Hit]:
        """The last hit before a place."""
        if not goal.addresses and not goal.supersteps:
            return None
        begin = self._begin_of(place.superstep)
        moved = [rank for rank, ticks in enumerate(place.ticks) if ticks > begin[rank]]
        hit = self._last_begun(goal, place, begin, moved)
        if hit is not None:
            return hit
        begun = [it for it in goal.supersteps if it < place.superstep or it == place.superstep and (moved or place.is_over)]
        first = max(begun, default=0)
        superstep = self._last_superstep(first, place.superstep, goal)
        if superstep is not None:
            return self._last_in(superstep, goal, range(self._machine.ranks), (ALL,) * self._machine.ranks)
        return Hit(first, BEGIN, 0) if begun else None

    def _last_begun(self, goal: Goal, place: Place, begin: Sequence[int], moved: Sequence[int]) -> Optional[Hit]:
        """The last hit of the ranks that have moved in the superstep that has begun."""
        free = self._machine.first_running
        for rank in reversed([it for it in moved if it >= free and goal.addresses and goal.rank in (None, it)]):
            # Where it stands it may go on for ever, or one below it may.
            hit = self._last_of_rank(goal, place, rank, begin[rank], place.ticks[rank])
            if hit is not None:
                return hit
        # These, and all below them, stop by themselves where they stand.
        return self._last_in(place.superstep, goal, [it for it in moved if it < free], place.ticks)

    def _last_of_rank(self, goal: Goal, place: Place, rank: int, start: int, end: int) -> Optional[Hit]:
        """The last hit of a rank in the superstep of a place, from so many of its instructions on, and before so many: looked for from the
        end on."""
        width = WINDOW
        while start < end:
            first = max(start, end - width)
            ticks = self._last_ticks(goal, place, rank, first, end)
            if ticks is not None:
                return Hit(place.superstep, rank, ticks)
            end, width = first, WIDER * width
        return None

    def _last_ticks(self, goal: Goal, place: Place, rank: int, start: int, end: int) -> Optional[int]:
        """The same, by one hit after another. If there are many, they are looked for in the second half of what is left first."""
        while start < end:
            with contextlib.closing(self._at(place._replace(ticks=_with(place.ticks, rank, start)))) as machine:
                ticks = [node.ticks for node in islice(hits_of(machine, rank, end, goal, self._must_break_off), MOST_STOPS)]
            if len(ticks) < MOST_STOPS:
                return ticks[-1] if ticks else None
            middle = (ticks[-1] + 1 + end) // 2
            later = self._last_ticks(goal, place, rank, middle, end)
            if later is not None:
                return later
            start, end = ticks[-1], middle
        return None

    def _last_superstep(self, first: int, end: int, goal: Goal) -> Optional[int]:
        """The last superstep from a first one on, and before an end, in which a rank was at a breakpoint."""
        found: Optional[int] = None
        for ranks in self._groups(goal, range(self._machine.ranks)):
            start = first if found is None else found + 1
            if start == end:
                break
            # From where states are kept, the latest first.
            begins = [it for it in self._machine.begun_before(end) if it > start]
            for window, behind in reversed(list(zip([start, *begins], [*begins, end]))):
                later = self._last_between(window, behind, ranks, goal)
                if later is not None:
                    found = later
                    break
        return found

    def _last_between(self, first: int, end: int, ranks: Sequence[int], goal: Goal) -> Optional[int]:
        """The same of some ranks that have room for their points."""
        found: Optional[int] = None
        with self._scout(self._start_of(first), ranks, goal, is_in_superstep=False) as scout:
            while scout.superstep < end and scout.next(end) is not None:
                found = scout.superstep
                scout.skip_superstep()
        return found

    def _last_in(self, superstep: int, goal: Goal, ranks: Sequence[int], ends: Sequence[int]) -> Optional[Hit]:
        """The last hit of these ranks in a superstep, before each has made so many instructions."""
        for group in reversed(self._groups(goal, ranks)):
            hit = self._last_of(superstep, goal, group, ends)
            if hit is not None:
                return hit
        return None

    def _last_of(self, superstep: int, goal: Goal, ranks: Sequence[int], ends: Sequence[int]) -> Optional[Hit]:
        """The same for ranks that have room for their points."""
        found: Optional[Hit] = None
        stops = end = 0
        with self._scout(self._start_of(superstep), ranks, goal, is_in_superstep=True) as scout:
            hit = scout.next(superstep + 1)
            while hit is not None:
                if hit.ticks >= ends[hit.rank]:
                    scout.skip_rank(hit.rank)
                else:
                    stops = stops + 1 if found is not None and found.rank == hit.rank else 1
                    found = hit
                    if stops == MOST_STOPS:
                        end = min(ends[hit.rank], scout.skip_rank(hit.rank))
                hit = scout.next(superstep + 1)
        if found is None or stops < MOST_STOPS:
            return found
        return self._last_of_rank(goal, self._start_of(superstep), found.rank, found.ticks, end)

    def _start_of(self, superstep: int) -> Place:
        return Place(superstep, (0,) * self._machine.ranks, False)

    def _groups(self, goal: Goal, ranks: Sequence[int]) -> List[Sequence[int]]:
        """The ranks that are looked at, in parts of which each has room for its points."""
        looked_at = [rank for rank in ranks if goal.rank in (None, rank)]
        size = max(1, MOST_BREAKPOINTS // max(1, len(goal.addresses)))
        return [looked_at[first : first + size] for first in range(0, len(looked_at) if goal.addresses else 0, size)]

    @contextlib.contextmanager
    def _scout(self, place: Place, ranks: Sequence[int], goal: Goal, is_in_superstep: bool) -> Iterator[Scout]:
        machine = self._at(place)
        try:
            yield Scout(machine, ranks, goal, self._must_break_off, is_in_superstep)
        finally:
            machine.close()


class Scout:
    """Another machine, which goes through history from breakpoint to breakpoint."""

    def __init__(self, machine: Machine, ranks: Sequence[int], goal: Goal, must_break_off: Asked, is_in_superstep: bool = False) -> None:
        """Where it stays in one superstep, it does not go past the last of the ranks."""
        self._machine = machine
        self._ranks = frozenset(ranks)
        self._last = max(ranks) if is_in_superstep else machine.ranks
        self._goal = goal
        self._points: List[Point] = [(rank, addr) for rank in ranks for addr in goal.addresses]
        if is_in_superstep and max(ranks) + 1 < machine.ranks:
            # The rank behind them, which has not begun.
            self._points.append((max(ranks) + 1, machine.node(max(ranks) + 1).pc))
        self._must_break_off = must_break_off
        # `go` does not look where it begins.
        self._must_look = True

    @property
    def superstep(self) -> int:
        """The superstep that has begun last."""
        return self._machine.superstep

    def next(self, end: int) -> Optional[Hit]:
        """Goes on to the next breakpoint, if there is one before this superstep."""
        while True:
            if self._must_break_off():
                raise Interrupted
            first = self._machine.first_running if self._must_look else 0
            if self._last < first < self._machine.ranks:
                return None
            rank = self._standing() if self._must_look else None
            self._must_look = False
            if rank is None:
                arrival = self._machine.advance([*self._points, end], self._must_break_off)
                if not isinstance(arrival, AtRank) or arrival.rank not in self._ranks:
                    return None
                rank = arrival.rank
            node = self._machine.node(rank)
            if self._goal.accepts(node):
                return Hit(self.superstep, rank, node.ticks)

    def skip_rank(self, rank: int) -> int:
        """Goes past what this rank still does in this superstep. Answers how many instructions it has made then."""
        self._machine.step(rank, ALL, self._must_break_off)
        self._must_look = True
        return self._machine.node(rank).ticks

    def skip_superstep(self) -> None:
        """Goes past what is left of this superstep."""
        self._machine.finish(self._must_break_off)
        self._must_look = True

    def _standing(self) -> Optional[int]:
        """The rank that stands at a breakpoint, and goes on next."""
        running = next((node for node in self._machine.nodes() if node.runs), None)
        return running.rank if running and running.rank in self._ranks and running.pc in self._goal.addresses else None


def hits_of(machine: Machine, rank: int, end: int, goal: Goal, must_break_off: Asked) -> Iterator[Node]:
    """A rank goes on until it has made so many instructions. The node before each of these where it stands at what is looked for."""
    points = [(rank, addr) for addr in goal.addresses]
    node = machine.node(rank)
    while node.ticks < end and node.runs:
        if must_break_off():
            raise Interrupted
        if node.pc in goal.addresses and goal.accepts(node):
            yield node
        machine.run_to(points, rank, end - node.ticks, must_break_off)
        node = machine.node(rank)


def _with(ticks: Tuple[int, ...], rank: int, count: int) -> Tuple[int, ...]:
    """The same numbers of instructions, but this one of a rank."""
    return (*ticks[:rank], count, *ticks[rank + 1 :])
