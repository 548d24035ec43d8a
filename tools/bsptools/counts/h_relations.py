"""The source of h: the requests of the rank that sent or received most in a superstep, by line."""

from __future__ import annotations

from collections.abc import Iterator
from typing import NamedTuple

from ..framed.environment_calls import GETS, PUTS, SEND, SYNC, TAGSIZE, Call, Tracer
from ..framed.session import node_of
from ..framed.superstep_calls import TRACED, SuperstepCalls
from ..outputs.report import Report
from ..program.line_table import Place
from .line_costs import Work

# Stops of all ranks in the debugger, which makes some 20,000 in a second.
MOST_STOPS = 200_000


class Moved(NamedTuple):
    """What a request moves: from which rank to which, how many bytes, by which call, and at which place it was asked for."""

    source: int
    target: int
    size: int
    kind: str
    place: Place


class Amount(NamedTuple):
    """Bytes of an h, and the number of requests that move them."""

    size: int = 0
    requests: int = 0

    def more(self, size: int, requests: int = 1) -> Amount:
        """With so many more."""
        return Amount(self.size + size, self.requests + requests)


class Relation(NamedTuple):
    """The h of a superstep: the lowest rank of which all sent or all received bytes are it, which of the two, and which places asked for
    how much of it by which kind of call."""

    superstep: int
    h: int
    rank: int
    is_sent: bool
    parts: dict[tuple[Place, str], Amount]


class Traffic:
    """The requests of a run. The run is made again for each rank."""

    def __init__(self, work: Work, trace: Tracer) -> None:
        self.work, self.trace = work, trace
        self.stops = sum(work.made.get(it, 0) for it in trace.sites(TRACED))

    def relations(self, report: Report) -> list[Relation]:
        """The h of each superstep in which there is one; none if there are too many requests for it."""
        if self.stops > MOST_STOPS or not any(it.costs["h"] for it in report.supersteps):
            return []
        steps = SuperstepCalls(self.trace, self.work.counts.nodes)
        has_messages = any(call.number == SEND for made in steps.made for calls in made for call in calls)
        tags = tag_sizes(self.trace, len(report.supersteps)) if has_messages else [0] * len(report.supersteps)
        found: list[Relation] = []
        for superstep in report.supersteps:
            number, h = superstep.number, superstep.costs["h"]
            if h > 0:
                moved = [self.moved(rank, it, tags[number]) for rank in range(self.work.counts.nodes) for it in steps.of(rank, number)]
                found += relation(number, h, [it for it in moved if it and it.source != it.target])
        return found

    def moved(self, rank: int, call: Call, tag: int) -> Moved | None:
        """What a call of a rank moves, if it is a request."""
        if call.number in PUTS:
            return Moved(rank, call.operand("pid"), call.operand("nbytes"), "put", self.place(call))
        if call.number in GETS:
            return Moved(call.operand("pid"), rank, call.operand("nbytes"), "get", self.place(call))
        if call.number == SEND:
            return Moved(rank, call.operand("pid"), call.operand("payload_nbytes") + tag, "send", self.place(call))
        return None

    def place(self, call: Call) -> Place:
        """The line that made a call, or the function if it has none. bsplib's functions for the calls save no register, so that the
        register of return addresses leads to it."""
        here = self.work.places[call.node.pc]
        site = self.trace.code.call_before(call.node.x[1])
        return here if here.is_own or site is None else self.work.places.get(site, here)


def relation(number: int, h: int, moved: list[Moved]) -> Iterator[Relation]:
    """The h of a superstep of what was moved from one rank to another."""
    for is_sent in (True, False):
        sums: dict[int, dict[tuple[Place, str], Amount]] = {}
        for it in moved:
            parts = sums.setdefault(it.source if is_sent else it.target, {})
            parts[it.place, it.kind] = parts.get((it.place, it.kind), Amount()).more(it.size)
        for rank, parts in sorted(sums.items()):
            if sum(it.size for it in parts.values()) == h:
                yield Relation(number, h, rank, is_sent, parts)
                return


def tag_sizes(trace: Tracer, supersteps: int) -> list[int]:
    """The size of a message's tag in each superstep, by the calls of rank 0."""
    sizes, size = [0], 0
    with trace.replays.session() as session:
        session.ask_all([f"break 0 {it}" for it in trace.sites((TAGSIZE, SYNC))])
        while len(sizes) < supersteps and session.ask("go").lines[0].startswith("stopped at rank"):
            node = node_of(session.ask("regs 0").lines)
            if node and node.x[17] == TAGSIZE:
                reply = session.ask(f"bytes 0 {node.x[10]} 4")
                size = int.from_bytes(bytes.fromhex("".join(reply.lines)), "little") if reply.is_done else size
            elif node and node.x[17] == SYNC:
                sizes.append(size)
    return sizes + [size] * (supersteps - len(sizes))
