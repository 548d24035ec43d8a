"""The calls of each rank, superstep by superstep, and where requests land."""

from __future__ import annotations

from collections.abc import Iterator
from typing import List, NamedTuple, Tuple, Union

from .environment_calls import CHANGES, POP, PUSH, QSIZE, REQUESTS, SEND, SYNC, TAGSIZE, TAKES, Areas, Call, Tracer
from .replays import MOST_STOPS

TRACED = (*REQUESTS, *CHANGES, *TAKES, QSIZE, TAGSIZE, SYNC)

# Pieces of a line that tells of something that was found: texts, and calls with their ranks, of which the places are looked for where
# the line is told, since that takes runs.
Finding = List[Union[str, Tuple[int, Call]]]


class Landing(NamedTuple):
    """The bytes of an area that a put writes, and the call that made it."""

    start: int
    end: int
    rank: int
    call: Call


class SuperstepCalls:
    """The calls of each rank, superstep by superstep."""

    def __init__(self, trace: Tracer, nodes: int) -> None:
        self.trace, self.nodes = trace, nodes
        self.is_whole = True
        # The supersteps of which the calls of all ranks are known; None where they are of all.
        self.known: int | None = None
        self.made: list[list[list[Call]]] = [self.parted(rank) for rank in range(nodes)]

    def parted(self, rank: int) -> list[list[Call]]:
        """The calls of a rank, a list for each superstep."""
        steps: list[list[Call]] = [[]]
        calls = self.trace.calls(rank, TRACED)
        self.is_whole &= not calls or calls[-1].stop < MOST_STOPS
        replays = self.trace.replays
        is_cut, replays.is_cut = replays.is_cut, False
        for call in calls:
            if call.number == SYNC:
                steps.append([])
            else:
                steps[-1].append(call)
        if is_cut:
            self.known = min(len(steps) - 1, self.known if self.known is not None else len(steps))
        return steps

    def of(self, rank: int, superstep: int) -> list[Call]:
        """The calls of a rank in a superstep."""
        return self.made[rank][superstep] if superstep < len(self.made[rank]) else []

    def sent_to(self, rank: int, superstep: int) -> list[Call]:
        """The calls that send messages to a rank in a superstep."""
        return [it for of in range(self.nodes) for it in self.of(of, superstep) if it.number == SEND and it.operand("pid") == rank]

    def tag_size(self, rank: int, call: Call) -> int:
        """The tag size that a call sets."""
        script = self.trace.up_to(rank, TRACED, 0, call)
        return int.from_bytes(self.trace.replays.bytes(script, rank, call.node.x[10], 4), "little", signed=True)

    def told(self, piece: str | tuple[int, Call]) -> str:
        """A piece of a finding: of a call its rank, and where it stands."""
        return piece if isinstance(piece, str) else f"rank {piece[0]} at {self.trace.place_of(piece[0], TRACED, 0, piece[1])}"


def landings_in(steps: SuperstepCalls, last: int, numbers: tuple[int, ...]) -> Iterator[tuple[int, list[tuple[int, Landing]]]]:
    """Each superstep but the last, with where its requests of these numbers land or read, by the targets' ranks and the first bytes."""
    areas = [Areas() for _ in range(steps.nodes)]
    for superstep in range(last):
        yield superstep, sorted(landings_of(steps, areas, superstep, numbers), key=lambda it: (it[0], it[1].start))
        for rank in range(steps.nodes):
            for call in steps.of(rank, superstep):
                if call.number in (PUSH, POP):
                    areas[rank].take(call)


def landings_of(steps: SuperstepCalls, areas: list[Areas], superstep: int, numbers: tuple[int, ...]) -> list[tuple[int, Landing]]:
    """The bytes of areas that the requests of these numbers name in a superstep, with the target's rank."""
    found = []
    for rank in range(steps.nodes):
        for call in steps.of(rank, superstep):
            if call.number in numbers and call.operand("nbytes") > 0:
                target, position = call.operand("pid"), areas[rank].position(call.area)
                if position is not None and 0 <= target < steps.nodes and position < len(areas[target].entries):
                    start = areas[target].entries[position][0] + call.operand("offset")
                    found.append((target, Landing(start, start + call.operand("nbytes"), rank, call)))
    return found
