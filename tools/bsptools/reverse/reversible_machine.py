"""The machine that also goes to places it has left.

A place, which is a superstep and how many instructions each rank has made, says all of a machine's state, since each run of a program is the
same. So a machine can be brought to a place that it has left: from a state that its process has kept, from one that the process of a spare
machine has kept, which goes the same way, or by a new process. And for some instructions of one rank it is kept what each has changed: there
it goes back without all that.
"""

from __future__ import annotations

import contextlib
import copy
import time
from typing import Callable, Dict, Iterable, List, Optional, Sequence, Tuple

from ..framed.session import Floats, Session, floats_of
from ..limits import MOST_POINTS
from ..program.memory_accesses import changes_floats, stored
from ..refusals import Refused
from .checkpoints import Checkpoints, State
from .debugger_process import Process
from .run_places import Arrival, Asked, AtSuperstep, BrokenOff, Interrupted, Place, Point, never
from .spare_machine import PIECE, Spare
from .undo_log import Moment, UndoLog

# How many addresses may have breakpoints: beside these a superstep and a rank are points of the bridge's own.
MOST_BREAKPOINTS = MOST_POINTS - 2
# How many bytes of lines are kept back for what a machine has to ask before it goes on in another process.
RESERVE = 1 << 16
# From how many seconds on a run is so long that a spare machine is kept.
LONG = 0.2
# From how many seconds on a run to a place is so long that the state there is kept.
SHORT = 0.05
# Of how many supersteps it is kept how many instructions had been made where they began.
MOST_BEGINS = 64
# After how many recorded instructions it is asked whether to break off.
RECORDED = 64


class Machine(Process):
    """A machine that is shown and moved by the lines of the debugger, also back."""

    def __init__(self, command: Sequence[str]) -> None:
        super().__init__(command)
        self._begins: Dict[int, Tuple[int, ...]] = {}
        self._kept = Checkpoints(self._session)
        # What is done with a machine of which another one has no more need; without that its process ends.
        self._give_back: Optional[Callable[[Machine], None]] = None
        # The state that comes back then, where the process is that of another machine, and the rank that goes on by itself.
        self._mark: Optional[int] = None
        self._stepping: Optional[int] = None
        self.spare: Spare[Machine] = Spare(self.started)

    def close(self) -> None:
        """Ends the process, and that of the spare machine; or gives it back, where it was lent."""
        give_back, self._give_back = self._give_back, None
        if give_back is None:
            self.discard()
        else:
            give_back(self)

    def discard(self) -> None:
        """Ends the process, and that of the spare machine."""
        self._session.close()
        self.spare.close()

    @property
    def is_used_up(self) -> bool:
        """Whether the debugger would soon read no more lines."""
        return self._session.room < RESERVE

    def go(self, points: Iterable[Point], must_break_off: Asked = never) -> Arrival:
        """Goes on to the first of these points, or to the outcome. If that is broken off, it stands where it stood."""
        start = Place(self.superstep, (0,) * self.ranks, False) if self._is_at_begin else self.place()
        try:
            arrival = self.advance(points, must_break_off)
        except Interrupted:
            self.restart_at(start)
            return BrokenOff()
        self._keep_if_due()
        return arrival

    # Where it stands.

    def place(self) -> Place:
        """Where the machine stands."""
        self._make_room()
        return self._place()

    def at(self, place: Place, must_break_off: Asked = never) -> Machine:
        """Another machine, with the same program and input, that stands at this place.

        It may have this one's process. So nothing is asked of this one before the other is closed, or this one has become it.
        """
        with contextlib.suppress(Refused):
            # A process may have ended since.
            other = self.spare.take(self._full(place), self._nearest_kept(place), must_break_off) or self._lent(place)
            if other is not None:
                other._give_back = other._give_back or self.spare.give
                return self._brought(other, place, must_break_off)
        other = self.started()
        other._give_back = self.spare.give
        return self._brought(other, place, must_break_off)

    def started(self) -> Machine:
        """Another machine, at the start of the run, which it keeps."""
        other = Machine(self.command)
        other._begins = self._begins
        other.keep()
        return other

    def restart_at(self, place: Place) -> None:
        """Brings the machine to a place, also one that it has left."""
        if self.is_lost or self.is_used_up or self._nearest_kept(place) is None:
            self._session.close()
        self.become(self.at(place))

    def hand_over(self) -> Session:
        """The session of a machine that is of no more use, without a point in it, and with nothing that it keeps."""
        self._set_points(frozenset())
        self._kept.clear()
        self.spare.close()
        return self._session

    def become(self, other: Machine) -> None:
        """From now on this is the other one, which is of no more use."""
        old = copy.copy(self)
        self._session, self._points, self._nodes, self._kept = other._session, other._points, other._nodes, other._kept
        self._superstep, self._is_at_begin = other._superstep, other._is_at_begin
        self._trace, self.outcome, self._is_unheard = other._trace, other.outcome, other._is_unheard
        if old._session is self._session:
            if other._mark is not None:
                self._kept.forget(other._mark)
            return
        # Where it stood, it goes on as the spare one.
        old._give_back, old._trace, old._nodes, old._superstep, old._is_at_begin = None, None, {}, None, False
        old.spare = Spare(old.started)
        if self.spare.is_wanted and not old.is_lost and old.keeps and old.outcome is None:
            self.spare.give(old)
        else:
            old.discard()

    def begin_of(self, superstep: int, must_break_off: Asked = never) -> Tuple[int, ...]:
        """How many instructions each rank had made where a superstep began that is over, or has begun."""
        if superstep not in self._begins:
            other = self.at(Place(superstep, (0,) * self.ranks, False), must_break_off)
            self._note_begin(superstep, other.place().ticks)
            other.close()
        return self._begins[superstep]

    def _brought(self, other: Machine, place: Place, must_break_off: Asked) -> Machine:
        """Another machine, from where it stands, or from a state that it has kept, to a place."""
        other._begins = self._begins
        started = time.monotonic()
        try:
            other._return_before(place)
            other._go_to(place, must_break_off)
        except BaseException as fault:
            if isinstance(fault, Refused):
                other.discard()
            other.close()
            raise
        seconds = time.monotonic() - started
        if seconds > SHORT:
            other.keep()
        self.spare.is_wanted = self.spare.is_wanted or seconds > LONG
        return other

    def _lent(self, place: Place) -> Optional[Machine]:
        """A machine with this one's process, if that has kept a state before a place. When it is closed, the process comes back to where
        it stands now."""
        if self.is_lost or self._nearest_kept(place) is None:
            return None
        here, marked = self._place(), self._kept.mark()
        if marked is None:
            return None
        number: int = marked
        other = copy.copy(self)
        other.spare, other._mark, other._trace = Spare(self.started), number, None
        # Where this one has gone back without its process, the process stands elsewhere.
        other._nodes = dict(self._nodes) if self._trace is None else {}

        def give_back(lent: Machine) -> None:
            if lent.is_lost or lent._session is not self._session:
                lent.discard()
                self._session.close()
                self.restart_at(here)
            else:
                self._points = lent._points
                self._kept.back(number)
                self._kept.forget(number)

        other._give_back = give_back
        return other

    def _go_to(self, place: Place, must_break_off: Asked) -> None:
        """To a place, or as far towards it as each rank comes in its superstep. Once in a while a state is kept on the way."""
        count = 1
        while self.superstep < place.superstep:
            started = time.monotonic()
            if not isinstance(self.advance([min(place.superstep, self.superstep + count)], must_break_off), AtSuperstep):
                break
            count = 2 * count if time.monotonic() - started < LONG else max(1, count // 2)
            self._keep_if_due()
        nodes = self._look_at(range(self.ranks))
        if self._is_at_begin:
            self._note_begin(self.superstep, tuple(node.ticks for node in nodes))
        for node, ticks in zip(nodes, place.ticks):
            left = ticks - node.ticks if node.runs else 0
            while left > 0:
                made = self.step(node.rank, min(PIECE, left), must_break_off)
                left = left - made if made == PIECE else 0
                self._keep_if_due()
        if place.is_over:
            self.turn()

    def _note_begin(self, superstep: int, ticks: Tuple[int, ...]) -> None:
        if len(self._begins) >= MOST_BEGINS:
            self._begins.clear()
        self._begins[superstep] = ticks

    # What it keeps.

    @property
    def keeps(self) -> bool:
        """Whether the process keeps states."""
        return not self._kept.is_refused

    def keep(self) -> None:
        """Keeps the state of the machine, where the run is not over."""
        if self.outcome is None and not self.is_lost and (self._trace is None or not self._trace.is_behind):
            place = self._place()
            if self._is_at_begin:
                self._note_begin(place.superstep, place.ticks)
            self._kept.keep(place, self._is_at_begin)

    def nearest(self, place: Place) -> Optional[State]:
        """Where it stands, or the last state that is kept before a place: whichever is nearer; nothing if both are beyond."""
        kept = self._kept.nearest(place)
        if self.outcome is not None:
            return kept
        here = State(None, self._place(), self._is_at_begin)
        return here if here.leads_to(place) and (kept is None or here.progress >= kept.progress) else kept

    def begun_before(self, superstep: int) -> List[int]:
        """The supersteps before this one where a state is kept that leads to their beginning."""
        return [it for it in self._kept.begins() if it < superstep]

    def _nearest_kept(self, place: Place) -> Optional[State]:
        return self._kept.nearest(self._full(place))

    def _keep_if_due(self) -> None:
        if self._kept.is_due:
            self.keep()

    def _return_before(self, place: Place) -> None:
        """Brings the process to the last state before a place, if it does not stand nearer."""
        state = self.nearest(self._full(place))
        if state is not None and state.number is not None:
            self._kept.back(state.number)
            self._nodes, self._superstep, self._is_at_begin = {}, state.place.superstep, state.is_begin
            self._trace, self.outcome = None, None

    def _full(self, place: Place) -> Place:
        """The same place, with what is known of how many instructions each rank had made before its superstep."""
        begin = self._begins.get(place.superstep, (0,) * self.ranks)
        return place._replace(ticks=tuple(max(made, ticks) for made, ticks in zip(begin, place.ticks)))

    # On the way by itself, as a spare one.

    def is_at_begin_of(self, superstep: int) -> bool:
        """Whether it comes to where a superstep begins at once."""
        return self._is_at_begin and self._superstep == superstep or superstep in self._kept.begins()

    @property
    def is_stepping(self) -> bool:
        """Whether it is on its way into a superstep, and so arrives soon."""
        return self._stepping is not None

    def depart_on_the_way(self, superstep: int, is_long: bool) -> bool:
        """Begins to go on to where a superstep begins; or a little into that which has begun, if this takes long. Answers whether it does so.
        Then nothing else may be asked before it has arrived."""
        if self.outcome is not None or self.superstep > superstep:
            return False
        if self.superstep < superstep:
            self.depart([superstep])
            return True
        running = next((node.rank for node in self.nodes() if node.runs), None) if is_long and self.keeps else None
        if running is None:
            return False
        if self._is_at_begin:
            self.keep()
        self._is_at_begin, self._stepping = False, running
        self._nodes.pop(running)
        self._session.send(f"step {running} {PIECE}")
        return True

    def arrive_on_the_way(self, must_break_off: Asked = never) -> None:
        """Waits for that."""
        if self._stepping is None:
            self.arrive(must_break_off)
        else:
            self._reply(must_break_off).accepted()
            self._stepping = None
        self._keep_if_due()

    # Back.

    def record(self, rank: int, count: int, must_break_off: Asked = never) -> None:
        """A rank makes instructions one by one. What each has changed is kept, from the last one on of which that is not known."""
        self._is_at_begin = False
        moments: List[Moment] = []
        code: Dict[int, bytes] = {}
        floats: Optional[Floats] = None
        for number in range(count):
            if number % RECORDED == 0 and must_break_off():
                raise Interrupted
            node = self.node(rank)
            instruction = self.code_at(rank, node.pc, code)
            change = stored(instruction, node.x)
            lines = [] if not change else [f"bytes {rank} {change.addr} {change.length}"]
            # Most instructions leave the registers of floating point as they are.
            asked = [f"fregs {rank}"] if self.has_floats and floats is None else []
            replies = self._session.ask_all([*lines, *asked, f"step {rank} 1", f"regs {rank}"])
            old = bytes.fromhex("".join(replies[0].lines)) if change and replies[0].is_done else b""
            floats = floats_of(replies[-3].accepted()) if asked else floats
            moments.append(Moment(node, floats, 0 if change is None else change.addr, old))
            if changes_floats(instruction):
                floats = None
            for place in range(moments[-1].addr - 3, moments[-1].addr + len(old)):
                code.pop(place, None)
            if change is None:
                moments.clear()
                code.clear()
            self._keep(replies[-1])
        self._trace = UndoLog(rank, moments)

    def recall(self, rank: int) -> bool:
        """A rank goes an instruction back, if it is the one of which it is kept what this has changed."""
        if self._trace is None or self._trace.rank != rank:
            return False
        node = self._trace.back()
        if node is not None:
            self._nodes[rank] = node
        return node is not None

    def has_recalled(self, rank: int) -> bool:
        """Whether this rank has gone back so, and nothing has gone on since."""
        return self._trace is not None and self._trace.rank == rank and self._trace.is_behind

    def settle(self, must_break_off: Asked = never) -> None:
        """Brings the process to where the machine went back to, since it is to change there. If it is broken off, nothing is different."""
        if self._trace is not None and self._trace.is_behind:
            self.become(self.at(self._place(), must_break_off))
            self.spare.follow(self.superstep)
        self._trace = None

    def _make_room(self) -> None:
        """Goes on in a new process where the debugger would soon read no more lines. The reserve is what that takes itself, and any
        of what is asked for at once."""
        if self.is_used_up:
            self.restart_at(self._place())
