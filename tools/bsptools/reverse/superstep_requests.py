"""The requests of supersteps and where they landed, found by running the supersteps again."""

from __future__ import annotations

import contextlib
from typing import Dict, FrozenSet, Iterable, List, NamedTuple, Sequence, Tuple

from ..framed.environment_calls import CHANGES, FUNCTIONS, GETS, NAMES, PUTS, REQUESTS, Areas, Call
from ..framed.session import Node
from ..program.code import Code
from ..refusals import Refused
from .history import Goal, Scout, hits_of
from .reversible_machine import MOST_BREAKPOINTS, Machine
from .run_places import Asked, Place
from .symbol_names import STACK, Names


class Made(NamedTuple):
    """A call that a rank has made in a superstep: the node before it, with some of its stack."""

    superstep: int
    call: Call

    @property
    def node(self) -> Node:
        """The node before the call."""
        return self.call.node

    @property
    def rank(self) -> int:
        """The rank that made it."""
        return self.call.node.rank


def sites(code: Code, numbers: Iterable[int]) -> List[int]:
    """The addresses from which calls of these numbers may be made: all environment calls of the image, but for those in functions of the
    library that make others alone."""
    wanted = {name for number in numbers for name in FUNCTIONS[number]}
    others = {name for names in FUNCTIONS.values() for name in names} - wanted
    found = [site for site in code.calls() if code.name_at(site) not in others]
    if len(found) > MOST_BREAKPOINTS:
        raise Refused(f"the program makes calls from {len(found)} places; the limit is {MOST_BREAKPOINTS}")
    return found


class Requests:
    """What ranks have asked for in supersteps, up to a place."""

    def __init__(self, machine: Machine, names: Names, place: Place, must_break_off: Asked) -> None:
        self._machine, self._names, self._place, self._must_break_off = machine, names, place, must_break_off
        self._areas: Dict[int, List[Areas]] = {}

    def of(self, superstep: int) -> List[Made]:
        """The requests of a superstep, its registrations too, in the order of its ranks: up to the place where that is in it."""
        if superstep < self._place.superstep or self._place.is_over:
            return self.within(superstep, superstep + 1, (*REQUESTS, *CHANGES))
        begin = self._machine.begin_of(superstep, self._must_break_off)
        return [it for rank, ticks in enumerate(self._place.ticks) if ticks > begin[rank] for it in self._so_far(rank, begin[rank])]

    def within(self, first: int, end: int, numbers: Sequence[int]) -> List[Made]:
        """The calls of these numbers in the supersteps from one up to before another, by their supersteps and ranks."""
        found: List[Made] = []
        goal = self._goal(numbers)
        for ranks in self._groups(goal.addresses):
            start = Place(first, (0,) * self._machine.ranks, False)
            with contextlib.closing(self._machine.at(start, self._must_break_off)) as machine:
                found += self._made(machine, end, Scout(machine, ranks, goal, self._must_break_off))
        return sorted(found, key=lambda it: (it.superstep, it.rank, it.node.ticks))

    def _so_far(self, rank: int, begin: int) -> List[Made]:
        """The requests and registrations of a rank in the superstep of the place, up to there: it may go on for ever behind that."""
        ticks, goal = self._place.ticks, self._goal((*REQUESTS, *CHANGES))
        start = self._place._replace(ticks=(*ticks[:rank], begin, *ticks[rank + 1 :]))
        with contextlib.closing(self._machine.at(start, self._must_break_off)) as machine:
            made = [_made_at(machine, node, start.superstep) for node in hits_of(machine, rank, ticks[rank], goal, self._must_break_off)]
            return _without_fault(made, {rank: machine.node(rank)})

    def _goal(self, numbers: Sequence[int]) -> Goal:
        """What is looked for where these calls are."""
        wanted = set(numbers)
        return Goal(frozenset(sites(self._names.code, numbers)), frozenset(), None, lambda node: node.x[17] in wanted)

    def areas(self, superstep: int) -> List[Areas]:
        """The registrations of each rank that are in effect in a superstep."""
        if superstep not in self._areas:
            areas = [Areas() for _ in range(self._machine.ranks)]
            for made in self.within(0, superstep, CHANGES) if superstep > 0 else []:
                areas[made.rank].take(made.call)
            self._areas = {superstep: areas}
        return [Areas(list(it.entries)) for it in self._areas[superstep]]

    def _groups(self, addresses: FrozenSet[int]) -> List[Tuple[int, ...]]:
        """The ranks in parts, of which each has room for its points."""
        ranks = tuple(range(self._machine.ranks))
        size = max(1, MOST_BREAKPOINTS // max(1, len(addresses)))
        return [ranks[first : first + size] for first in range(0, len(ranks), size)] if addresses else []

    def _made(self, machine: Machine, end: int, scout: Scout) -> List[Made]:
        found: List[Made] = []
        hit = scout.next(end)
        while hit is not None:
            found.append(_made_at(machine, machine.node(hit.rank), hit.superstep))
            hit = scout.next(end)
        return _without_fault(found, {node.rank: node for node in machine.nodes()})


def _made_at(machine: Machine, node: Node, superstep: int) -> Made:
    """The call before which a node stands."""
    return Made(superstep, Call(node._replace(stack=machine.memory(node.rank, node.x[2], STACK)), 0))


def _without_fault(made: Sequence[Made], nodes: Dict[int, Node]) -> List[Made]:
    """Those that have asked for something: a call that had a fault has not. Behind all of them the ranks are these nodes."""
    return [it for it in made if not _has_failed(it.node, nodes[it.rank])]


def _has_failed(node: Node, last: Node) -> bool:
    return last.state.startswith("fault") and last.pc == node.pc and last.ticks == node.ticks + 1


def called(made: Made) -> str:
    """The name of a call."""
    return NAMES[made.call.number][0]


class Landing(NamedTuple):
    """Bytes of a rank's memory that an exchange has written, from an address on, and the request for that."""

    addr: int
    length: int
    made: Made


def landings(rank: int, asked: Sequence[Made], areas: Sequence[Areas]) -> List[Landing]:
    """What the exchange at the end of a superstep has written into a rank's memory, in that order: what it got, and then what was put there.
    `asked` are the requests of the superstep, and `areas` the registrations in it."""
    got = [Landing(it.call.operand("dst"), _size(it), it) for it in asked if it.call.number in GETS and it.rank == rank]
    put = [(it, areas[it.rank].position(it.call.area)) for it in asked if it.call.number in PUTS and it.call.operand("pid") == rank]
    areas_here = areas[rank].entries if put else []
    return got + [Landing(areas_here[at][0] + it.call.operand("offset"), _size(it), it) for it, at in put if at is not None]


def _size(made: Made) -> int:
    return made.call.operand("nbytes")
