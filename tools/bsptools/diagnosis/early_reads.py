"""Targets of gets that are read before the bsp_sync that fills them."""

from __future__ import annotations

from collections.abc import Iterator
from typing import NamedTuple

from ..framed.backtrace import place
from ..framed.environment_calls import GETS, PUTS, SEND, WRITE, Call, read_by
from ..framed.session import BATCH, Node, Session, node_of
from ..framed.superstep_calls import Finding, SuperstepCalls
from ..program.code import ECALL, Code
from ..program.memory_accesses import loaded

# How many instructions behind a get are looked at, how many in all, and of a rank in any case.
MOST_BEHIND, MOST_LOOKED_AT, LEAST_LOOKED_AT = 5_000, 60_000, 500
# Calls at which a run stops, and lines that are left to a session for what follows.
MOST_SITES, RESERVE = 1000, 1 << 18
# For how many seconds of the debugger a rank is followed.
MOST_SECONDS = 0.5


class Target(NamedTuple):
    """The bytes that a get is to write, and its call."""

    start: int
    end: int
    call: Call


def read_at(code: Code, node: Node) -> tuple[int, int]:
    """Address and number of the bytes of memory that a node reads next: by a load, or by a call."""
    stored = code.stored(node.pc)
    if stored != ECALL:
        return loaded(stored, node.x)
    return read_by(node) if node.x[17] in (*PUTS, SEND, WRITE) else (0, 0)


def moves(session: Session, rank: int, most: int) -> Iterator[Node]:
    """A node before each of its next instructions, up to so many of them."""
    for _ in range(0, most, BATCH // 2):
        for reply in session.ask_all([f"regs {rank}", f"step {rank} 1"] * (BATCH // 2))[::2]:
            node = node_of(reply.lines)
            if node is None or not node.runs:
                return
            yield node


class Looks:
    """Looks for reads of targets behind gets, in one run for each rank, as long as there are instructions left to look at."""

    def __init__(self, steps: SuperstepCalls, last: int) -> None:
        self.steps, self.last, self.is_whole = steps, last, True
        self.most = max(MOST_LOOKED_AT // steps.nodes, LEAST_LOOKED_AT)
        self.seen: set[tuple[int, int]] = set()
        self.told: set[str] = set()

    def look(self, rank: int) -> list[Finding]:
        """What a rank reads too early, each place once."""
        made = enumerate(self.steps.made[rank][: self.last])
        gets = {it.node.ticks: (superstep, it) for superstep, calls in made for it in calls if it.number in GETS}
        found: list[Finding] = []
        looked_at = 0
        with self.steps.trace.replays.session() as session:
            sites = self.steps.trace.sites(GETS)[:MOST_SITES] if gets else []
            session.ask_all([f"break {rank} {site}" for site in sites])
            targets: list[Target] = []
            while sites and looked_at < self.most and session.room > RESERVE:
                session.send("go")
                if not session.has_reply_in(MOST_SECONDS - session.seconds):
                    self.is_whole = False
                    return found
                reply = session.reply()
                node = session.node(rank) if reply.is_done and reply.lines[0].startswith("stopped at rank") else None
                if node is None:
                    return found
                if node.ticks in gets:
                    targets = [it for it in targets if gets[it.call.node.ticks][0] == gets[node.ticks][0]]
                    for node in moves(session, rank, MOST_BEHIND):
                        looked_at += 1
                        found += self.read(session, node, targets, gets)
                        targets += targets_of(gets[node.ticks][1]) if node.ticks in gets else []
                    end = session.node(rank)
                    self.is_whole &= end is not None and not end.runs
        self.is_whole &= not sites
        return found

    def read(self, session: Session, node: Node, targets: list[Target], gets: dict[int, tuple[int, Call]]) -> list[Finding]:
        """What is told of a node that reads a target next, unless it was told of this place before."""
        code, replays = self.steps.trace.code, self.steps.trace.replays
        start, size = read_at(code, node)
        target = next((it for it in targets if size > 0 and it.start < start + size and start < it.end), None)
        if target is None or (node.pc, node.x[1]) in self.seen:
            return []
        self.seen.add((node.pc, node.x[1]))
        where = place(code, replays.with_stack(session, node))
        if where in self.told:
            return []
        self.told.add(where)
        begin = f"the target of a get is read in superstep {gets[target.call.node.ticks][0]}, before bsp_sync, by rank {node.rank} at {where}"
        return [[f"{begin}; the get is that of ", (node.rank, target.call)]]


def targets_of(call: Call) -> list[Target]:
    """The bytes that a get is to write, if there are any."""
    start, count = call.operand("dst"), call.operand("nbytes")
    return [Target(start, start + count, call)] if count > 0 else []


def early_reads(steps: SuperstepCalls, last: int) -> tuple[list[Finding], bool]:
    """Reads of targets of gets in the superstep of the get, and whether all instructions were looked at that may read them."""
    looks = Looks(steps, last)
    found = [it for rank in range(steps.nodes) for it in looks.look(rank)]
    return found, looks.is_whole
