"""Finds who last wrote bytes of a rank's memory, by going back piece by piece.

What has run in a piece is made once more, instruction by instruction, and so are the requests of its supersteps. A piece lies in one
superstep, or is of whole ones. The first is small, and each one before it is larger, so that what was written lately is found soon.
"""

from __future__ import annotations

import contextlib
from typing import Dict, Iterator, List, NamedTuple, Optional, Sequence, Union

from ..framed.environment_calls import CHANGES, GETS, PUTS, SEND, Areas
from ..framed.session import Node
from .reversible_machine import Machine
from .run_places import Asked, Place
from .single_steps import SingleSteps, Step
from .superstep_requests import Made, Requests, landings
from .symbol_names import Names

# Instructions of the first piece, how many times as many are in the next one, and of how many it is at the most.
PIECE, WIDER, MOST_PIECE = 1 << 10, 4, 1 << 16
# How many instructions are made once more until it is given up. A call takes as long as so many of them.
MOST, CALL = 1 << 18, 8
# How many supersteps are gone back over.
MOST_SUPERSTEPS = 4_000


class Own(NamedTuple):
    """An instruction of the rank itself, a store or a call, with the message that it has moved, counted from the last one that waited."""

    superstep: int
    node: Node
    message: int = 0


# What has written a byte: an instruction of its rank, or a request that has landed.
Writer = Union[Own, Made]


class Found(NamedTuple):
    """The writers of bytes by their addresses; over how many instructions it was gone back for the others, into which superstep and up to
    how many instructions of the rank, of the run and of this superstep, and whether that is the start of the run."""

    writers: Dict[int, Writer]
    instructions: int
    superstep: int
    ticks: int
    into: int
    is_whole: bool


class Search:
    """Looks for the writers of a rank's bytes before a place."""

    def __init__(self, machine: Machine, names: Names, place: Place, rank: int, must_break_off: Asked) -> None:
        self._machine, self._place, self._rank, self._must_break_off = machine, place, rank, must_break_off
        self.requests = Requests(machine, names, place, must_break_off)
        self._wanted: Sequence[int] = ()
        self._found: Dict[int, Writer] = {}
        self._left = MOST
        # Where it is given up, and how many instructions the rank had made where supersteps began.
        self._first = max(0, place.superstep - MOST_SUPERSTEPS)
        self._begins: Dict[int, int] = {}

    def find(self, addr: int, count: int, is_any_enough: bool = False) -> Found:
        """The last writer of each of so many bytes, as far as it is found; or the last writers of some, with those of the others left out."""
        self._wanted, self._found, self._left = range(addr, addr + count), {}, MOST
        made = 0
        superstep, end = self._place.superstep, self._place.ticks[self._rank]
        first = self._first
        width = PIECE
        wanted = 1 if is_any_enough else count
        while len(self._found) < wanted and self._left > 0 and (superstep > first or end > self._begin(first)):
            begin, last = self._begin(superstep), end
            width = min(width, self._left)
            if end > begin:
                end = max(begin, end - width)
                self._note(self._instructions(superstep, end, last - end))
            else:
                earlier = superstep - 1
                while earlier > first and begin - self._begin(earlier - 1) <= width:
                    earlier -= 1
                is_small = begin - self._begin(earlier) <= width
                self._note(self._supersteps(earlier, superstep) if is_small else self._landed(earlier, superstep))
                superstep, end = earlier, self._begin(earlier) if is_small else begin
            made += last - end
            self._left -= last - end
            width = min(WIDER * width, MOST_PIECE)
        return Found(self._found, made, superstep, end, end - self._begin(superstep), (superstep, end) == (0, 0))

    def message(self, own: Own) -> Optional[Made]:
        """The request by which the message was sent that a call has moved."""
        if not own.message or own.superstep == 0:
            return None
        sent = [it for it in self.requests.within(own.superstep - 1, own.superstep, (SEND,)) if it.call.operand("pid") == self._rank]
        return sent[-own.message] if own.message <= len(sent) else None

    def _note(self, written: Dict[int, Writer]) -> None:
        """Keeps what a piece has written, as far as nothing behind it has written that again."""
        for addr, writer in written.items():
            self._found.setdefault(addr, writer)

    def _begin(self, superstep: int) -> int:
        """How many instructions the rank had made where a superstep began. With one that is not known yet some before it come to be known, of
        which more each time: most searches end in the first ones."""
        if superstep not in self._begins:
            first = max(self._first, superstep - len(self._begins))
            with self._at(first) as machine:
                for it in range(first, superstep):
                    self._begins[it] = machine.node(self._rank).ticks
                    machine.finish(self._must_break_off)
                self._begins[superstep] = machine.node(self._rank).ticks
        return self._begins[superstep]

    @contextlib.contextmanager
    def _at(self, superstep: int, ticks: int = 0) -> Iterator[Machine]:
        """A machine where a superstep begins, but this rank if it has made so many instructions."""
        all_ticks = [0] * self._machine.ranks
        all_ticks[self._rank] = ticks
        with contextlib.closing(self._machine.at(Place(superstep, tuple(all_ticks), False), self._must_break_off)) as machine:
            yield machine

    # Pieces.

    def _instructions(self, superstep: int, start: int, count: int) -> Dict[int, Writer]:
        """What so many instructions of the rank have written."""
        with self._at(superstep, start) as machine:
            return self._walk(SingleSteps(machine, self._rank, self._must_break_off), superstep, count)

    def _landed(self, first: int, end: int) -> Dict[int, Writer]:
        """What the exchanges at the ends of some supersteps have written."""
        written: Dict[int, Writer] = {}
        asked = self._asked(first, end)
        areas = self._areas(first, asked)
        for superstep in range(first, end):
            self._land(written, asked[superstep], areas)
        return written

    def _supersteps(self, first: int, end: int) -> Dict[int, Writer]:
        """What these supersteps have written, with the exchanges at their ends."""
        written: Dict[int, Writer] = {}
        asked = self._asked(first, end)
        areas = self._areas(first, asked)
        # A walk is told how many instructions the rank makes: each one more would be asked for, and answered, in vain.
        counts = {it: self._begin(it + 1) - self._begin(it) for it in range(first, end)}
        with self._at(first) as machine:
            walk = SingleSteps(machine, self._rank, self._must_break_off)
            for superstep in range(first, end):
                written.update(self._walk(walk, superstep, counts[superstep]))
                has_landed = self._land(written, asked[superstep], areas)
                machine.finish(self._must_break_off)
                walk.begin(has_landed)
        return written

    def _walk(self, walk: SingleSteps, superstep: int, count: int) -> Dict[int, Writer]:
        """What a rank writes in its next instructions, up to so many of them."""
        written: Dict[int, Writer] = {}
        for step in walk.steps(count):
            addresses = [addr for addr in self._wanted if any(it.addr <= addr < it.addr + it.length for it in step.stores)]
            written.update(dict.fromkeys(addresses, _own(superstep, step)))
        return written

    def _asked(self, first: int, end: int) -> Dict[int, List[Made]]:
        """The requests of some supersteps that may have written here, and the registrations."""
        asked = self.requests.within(first, end, (*PUTS, *GETS, *CHANGES))
        self._left -= CALL * len(asked)
        found: Dict[int, List[Made]] = {superstep: [] for superstep in range(first, end)}
        for it in asked:
            found[it.superstep].append(it)
        return found

    def _areas(self, superstep: int, asked: Dict[int, List[Made]]) -> List[Areas]:
        """The registrations in a superstep, if there is a put into this rank's memory from then on."""
        is_put = any(it.call.number in PUTS and it.call.operand("pid") == self._rank for made in asked.values() for it in made)
        return self.requests.areas(superstep) if is_put else [Areas() for _ in range(self._machine.ranks)]

    def _land(self, written: Dict[int, Writer], asked: Sequence[Made], areas: Sequence[Areas]) -> bool:
        """Adds what the exchange at the end of a superstep has written, and then has the registrations of that superstep take effect. Answers
        whether anything has landed."""
        landed = landings(self._rank, asked, areas)
        for landing in landed:
            for addr in self._wanted:
                if landing.addr <= addr < landing.addr + landing.length:
                    written[addr] = landing.made
        for made in asked:
            if made.call.number in CHANGES:
                areas[made.rank].take(made.call)
        return bool(landed)


def _own(superstep: int, step: Step) -> Own:
    return Own(superstep, step.node, step.message)
