"""Where the ranks were when a run was interrupted, found by running it again for as long."""

from __future__ import annotations

import time
from typing import NamedTuple

from ..framed.backtrace import place
from ..framed.replays import Replays
from ..framed.session import Node, Session, node_of
from ..prepare.job import Job
from ..refusals import numbered

# A run is followed for so many seconds at the most, of the debugger's processor time, so that a busy host changes nothing; by the clock it takes
# no longer than this. In its last superstep a rank makes so many steps at a time.
MOST_SECONDS, MOST_OF_CLOCK, SLICE = 5.0, 60.0, 1 << 20
# By the clock it takes this long where a person waits for it who has typed Ctrl-C: up to the superstep, and then in it. The way to the
# superstep is gone twice, and then names are looked for, up to the last of these.
AWAITED, AWAITED_IN_ALL, MOST_AWAITED = 0.25, 0.5, 0.8
# Up to how many seconds some supersteps take together, and from how many on one takes long.
PIECE, LONG = 0.02, 0.5
# Lines are left for the last superstep's steps.
RESERVE = 1 << 18
# So many places are told.
MOST_PLACES = 4


class Reached(NamedTuple):
    """A superstep that a run had come to, after how many seconds it began, and whether all that was written was written before it."""

    superstep: int
    seconds: float
    is_far: bool


def reached(replays: Replays, seconds: float, written: int, latest: float) -> Reached:
    """The superstep that a run comes to in so many seconds, and later if it has to have written so many bytes, before a time of the clock.

    Short supersteps are gone through some at a time, which makes their steps slower, and saves a line and its reply for each. If one of
    some takes long, they are gone through one by one.
    """
    superstep, began, count, is_far = 0, 0.0, 1, False
    with replays.session() as session:
        while session.room > RESERVE:
            passed = session.seconds
            is_far = has_written(session, written)
            left = (seconds if is_far else 2 * MOST_SECONDS) - passed
            if left <= 0 or time.monotonic() >= latest:
                return Reached(superstep, began, is_far)
            if not has_turned(session, superstep, count, left if count == 1 else min(left, seconds), latest):
                break
            superstep, began = superstep + count, session.seconds
            count = 2 * count if began - passed < PIECE else max(1, count // 2)
    at = Reached(superstep, began, is_far)
    return one_by_one(replays, at, count, written, latest) if count > 1 else at


def one_by_one(replays: Replays, at: Reached, count: int, written: int, latest: float) -> Reached:
    """The first superstep that takes long of so many behind one that a run came to."""
    with replays.session() as session:
        session.ask_all(replays.begin(at.superstep))
        for _ in range(count):
            at = at._replace(is_far=has_written(session, written))
            if not has_turned(session, at.superstep, 1, LONG, latest):
                break
            at = at._replace(superstep=at.superstep + 1)
    return at


def has_written(session: Session, written: int) -> bool:
    """Whether a run has written so many bytes: what comes from a byte on is refused if there are fewer."""
    return session.ask(f"output {written}").is_done


def has_turned(session: Session, superstep: int, count: int, seconds: float, latest: float) -> bool:
    """Whether a run goes on from the beginning of a superstep to that of a later one in this time, and before a time of the clock."""
    if count == 1:
        session.send("phase", "turn")
        return session.is_answered_in(seconds, latest) and session.reply().is_done and session.reply().lines == ["turned"]
    later = superstep + count
    session.ask(f"break superstep {later}")
    session.send("go")
    if not session.is_answered_in(seconds, latest) or session.reply().lines != [f"stopped at superstep {later}"]:
        return False
    return session.ask(f"clear superstep {later}").is_done


def nodes_after(session: Session, ranks: int, seconds: float, latest: float) -> list[Node]:
    """The nodes, after they ran for so many seconds in a superstep, or up to a time of the clock."""
    found: dict[int, Node] = {}
    running = list(range(ranks))
    until = session.seconds + seconds
    while running:
        session.ask_all([f"step {rank} {SLICE}" for rank in running])
        for reply in session.ask_all([f"regs {rank}" for rank in running]):
            node = node_of(reply.accepted())
            assert node is not None
            found[node.rank] = node
        running = [rank for rank in running if found[rank].runs]
        if session.seconds >= until or time.monotonic() >= latest or session.room < RESERVE // 2:
            break
    return [found[rank] for rank in range(ranks)]


def ranks_at(job: Job, seconds: float, written: int, is_awaited: bool) -> str:
    """The superstep, and for each place the ranks that were there, after a run of so many seconds that has written so many bytes. Where a
    person waits for it, that may be an earlier place."""
    replays, now = job.replays(), time.monotonic()
    wanted, latest = min(seconds, MOST_SECONDS), now + (AWAITED_IN_ALL if is_awaited else MOST_OF_CLOCK)
    at = reached(replays, wanted, written, min(latest, now + AWAITED) if is_awaited else latest)
    texts: dict[str, list[int]] = {}
    with replays.session() as session:
        session.ask_all(replays.begin(at.superstep))
        alike: dict[object, list[Node]] = {}
        for node in nodes_after(session, job.options.nodes, wanted - at.seconds, latest):
            alike.setdefault((node.pc, node.x[1], node.x[2], node.state), []).append(node)
        for nodes in alike.values():
            text = "its end" if nodes[0].state == "ended" else place(job.code, replays.with_stack(session, nodes[0]))
            texts.setdefault(text, []).extend(it.rank for it in nodes)
    told = [f"{numbered(sorted(ranks))} at {text}" for text, ranks in list(texts.items())[:MOST_PLACES]]
    more = sum(len(it) for it in list(texts.values())[MOST_PLACES:])
    later = " or later" if wanted < seconds or not at.is_far or is_awaited and at.seconds < wanted and time.monotonic() >= latest else ""
    return f"superstep {at.superstep}{later}: " + "; ".join([*told, *([f"{more} more elsewhere"] if more else [])])
