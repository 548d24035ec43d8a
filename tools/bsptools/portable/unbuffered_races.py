"""Unbuffered calls whose bytes are written by the rank in whose memory they lie, in the same superstep.

Who comes first is open. A run in the debugger shows these bytes where each superstep begins, and where all ranks have come to its end. Calls
name the same bytes or bytes side by side, so they are asked for together.
"""

from __future__ import annotations

import bisect
import collections
from collections.abc import Callable, Iterator
from typing import Deque, Dict, List, NamedTuple, Sequence, Tuple

from ..framed.environment_calls import HPGET, HPPUT, REQUESTS, Tracer
from ..framed.replays import bytes_of
from ..framed.session import Session
from ..limits import MOST_MEMORY
from .call_log import Logged, Superstep
from .exposed_bytes import Bytes
from .trial_runs import MOST_SHOWN, memory_of

# Bytes that lie so near to one another are asked for together; and for how many places one run asks in a superstep.
NEAR, MOST_ASKED = 64, 1 << 13
# No line to the debugger has more bytes here.
LINE = 48


class Race(NamedTuple):
    """A call of a rank, and the bytes that it names at another one, or at its own: where they are, what they are where a script comes to,
    and what when that rank has come to the end of the superstep."""

    superstep: int
    call: Logged
    where: Bytes
    script: List[str]
    before: bytes
    after: bytes


class Asked(NamedTuple):
    """Bytes of a superstep for which a run asks, by rank and address. No two have a byte in common."""

    superstep: int
    places: List[Bytes]


class Shown(NamedTuple):
    """The same with what they are at the beginning and at the end of the superstep, as the debugger spells them."""

    places: List[Bytes]
    before: List[bytes]
    after: List[bytes]

    def both(self, where: Bytes) -> Tuple[bytes, bytes] | None:
        """What bytes are at the beginning and at the end, if one place has all of them."""
        at = bisect.bisect_right(self.places, (where.rank, where.start, MOST_MEMORY)) - 1
        place = self.places[at] if at >= 0 else None
        if place is None or place.rank != where.rank or place.start > where.start or place.end < where.end:
            return None
        part = slice(where.start - place.start, where.end - place.start)
        return content_of(self.before[at])[part], content_of(self.after[at])[part]


def content_of(told: bytes) -> bytes:
    """Bytes as they are, which the debugger has spelled."""
    return bytes_of(told.decode().split())


def races(trace: Tracer, steps: Sequence[Superstep], are_wanted: Callable[[], bool] = lambda: True) -> List[Race]:
    """The first such call of each place in the code. Before each superstep it is asked whether they are still wanted."""
    found: Dict[int, Race] = {}
    left = collections.deque(it for superstep, step in enumerate(steps) if step.has_unbuffered for it in asked_in(superstep, step))
    while left:
        here = left[0].superstep
        with trace.replays.session() as session:
            session.ask_all(trace.replays.begin(here))
            for asked in taken(left, session):
                if not are_wanted():
                    return []
                session.ask_all(["phase", "turn"] * (asked.superstep - here))
                here = asked.superstep
                for it in races_in(trace, session, asked, steps[here]):
                    if it.call.place not in found:
                        race = it if it.where.rank != it.call.rank else behind_call(trace, it)
                        if race.before != race.after:
                            found[it.call.place] = race
    return sorted(found.values(), key=lambda it: (it.superstep, it.call.rank, it.call.request))


def taken(left: Deque[Asked], session: Session) -> Iterator[Asked]:
    """What is asked for in a run, one for each superstep, as long as the debugger takes so many lines."""
    superstep = -1
    while left and left[0].superstep > superstep:
        # Each place is asked for twice, and a superstep is left by two lines.
        lines = 2 * (len(left[0].places) + left[0].superstep - max(superstep, 0))
        if superstep >= 0 and session.room < LINE * lines:
            return
        superstep = left[0].superstep
        yield left.popleft()


def asked_in(superstep: int, step: Superstep) -> Iterator[Asked]:
    """The bytes of areas that unbuffered calls name in a superstep."""
    places: List[Bytes] = []
    for rank, named in sorted(step.unbuffered_areas().items()):
        for start, end in joined(named):
            places += [Bytes(rank, it, min(end, it + MOST_SHOWN)) for it in range(start, end, MOST_SHOWN)]
    for at in range(0, len(places), MOST_ASKED):
        yield Asked(superstep, places[at : at + MOST_ASKED])


def joined(named: List[Tuple[int, int]]) -> List[Tuple[int, int]]:
    """Ranges of bytes, of which those are one that overlap or lie near to one another."""
    found: List[Tuple[int, int]] = []
    for start, end in sorted(set(named)):
        if found and start <= found[-1][1] + NEAR:
            found[-1] = found[-1][0], max(end, found[-1][1])
        else:
            found.append((start, end))
    return found


def named_in(step: Superstep) -> Iterator[Tuple[Bytes, Logged]]:
    """The bytes of areas that unbuffered calls name."""
    for made in step.requests.values():
        for it in made:
            if it.number in (HPPUT, HPGET) and it.nbytes > 0:
                where = step.written(it) if it.number == HPPUT else next(iter(step.read(it)), None)
                if where is not None:
                    yield where, it


def races_in(trace: Tracer, session: Session, asked: Asked, step: Superstep) -> Iterator[Race]:
    """The calls of a superstep, at whose beginning a session is, whose bytes are others at its end. It comes to there."""
    lines = [f"bytes {it.rank} {it.start} {it.end - it.start}" for it in asked.places]
    before, _, after = session.ask_all(lines), session.ask("phase"), session.ask_all(lines)
    shown = [(place, *(it.data if it.is_done else b"" for it in both)) for place, *both in zip(asked.places, before, after)]
    changed = [it for it in shown if it[1] != it[2]]
    if not changed:
        return
    found = Shown(*(list(it) for it in zip(*changed)))
    ends = {place.rank: max(it.end for it in found.places if it.rank == place.rank) for place in found.places}
    script = trace.replays.begin(asked.superstep)
    for where, it in named_in(step):
        if where.start >= ends.get(where.rank, 0):
            continue
        both = found.both(where)
        if both is None and any(where.common(place) for place in found.places):
            both = contents(trace, script, where), contents(trace, [*script, "phase"], where)
        if both is not None and both[0] != both[1]:
            yield Race(asked.superstep, it, where, script, *both)


def contents(trace: Tracer, script: List[str], where: Bytes) -> bytes:
    """Bytes of a rank's memory where a script comes to."""
    with trace.replays.session() as session:
        session.ask_all(script)
        return content(session, where)
    return b""


def content(session: Session, where: Bytes) -> bytes:
    """Bytes of a rank's memory, piece by piece."""
    pieces = range(where.start, where.end, MOST_SHOWN)
    return b"".join(memory_of(session, where.rank, it, min(where.end - it, MOST_SHOWN)) for it in pieces)


def behind_call(trace: Tracer, it: Race) -> Race:
    """The same from the call on: what a rank has written before its own call comes before it."""
    rank, replays = it.call.rank, trace.replays
    script = replays.begin(it.superstep)
    made, start = trace.calls_in(rank, REQUESTS, it.superstep), replays.look(script, rank)
    if start is None or it.call.request >= len(made):
        return it
    here = [*script, f"step {rank} {made[it.call.request].node.ticks - start.ticks}"]
    with replays.session() as session:
        session.ask_all(here)
        return it._replace(script=here, before=content(session, it.where))
    return it
