"""How the machine goes on or back as gdb says: in pieces of supersteps, or one rank alone."""

from __future__ import annotations

import time
from typing import Callable, Iterable, List, Optional, Sequence, Set

from ..framed.session import Node
from ..refusals import Refused
from ..reverse import named_views
from ..reverse.history import BEGIN, Goal, History, Hit
from ..reverse.reversible_machine import LONG, MOST_BREAKPOINTS, Machine
from ..reverse.run_places import Arrival, AtRank, AtSuperstep, BrokenOff, Interrupted, Over, Place, Point, rank_of
from ..reverse.symbol_names import Names
from . import gdb_terms
from .catchpoints import Awaited, addresses_of
from .stop_replies import Exit, Halt, Stop, halt_of_outcome
from .watchpoints import Watch, Watches, Written, last_written

# For how many seconds an interrupt waits for the superstep's end, and for how many the ranks then go on a little.
PATIENCE, LOOK = 0.15, 0.1
# How far a rank goes on after an interrupt where there is no breakpoint that it could pass.
FAR = 1_000_000
# From how many seconds on one of some supersteps takes so long that they are made singly, for an interrupt to find the spare machine there.
SINGLY = 0.5
# Up to how many seconds some supersteps take together before output and interrupts are looked at again.
PIECE = 0.01
# What is said where gdb's program ends with a run: then gdb has nothing any more that could go back.
ENDS = b"bspgdb: the run has ended. To go back from its end, start bspgdb again and type monitor end before continue\n"


class Runner:
    """Makes a machine go on.

    `show` shows bytes on gdb's console, and `is_interrupted` asks whether gdb wants a run to be broken off. What is kept here is gdb's:
    where its breakpoints are, at which supersteps and calls it wants to stop, and whether at the end, and how much of the output it has been
    shown. `spell` says which call a node is about to make.
    """

    def __init__(self, machine: Machine, show: Callable[[bytes], None], is_interrupted: Callable[[], bool]) -> None:
        self.machine, self.show, self.is_interrupted = machine, show, is_interrupted
        self.breakpoints: Set[int] = set()
        self.supersteps: Set[int] = set()
        self.calls: List[Awaited] = []
        self.stops_at_end = False
        self.spell: Callable[[Node], str] = lambda node: "a call"
        self._shown = 0
        # Of which watches it was said that they do not stop on the way back.
        self._told: Set[Watch] = set()
        # Until when an interrupt waits, and whether it is already known that some superstep takes longer.
        self._deadline: Optional[float] = None
        self._is_searching = False
        # How many seconds have gone by as it went on; of how many supersteps the last piece is, and when and in which of them it was begun.
        self._seconds, self._started = 0.0, 0.0
        self._count, self._superstep = 1, 0
        self._history = History(machine, is_interrupted)
        self.watches = Watches(machine)
        self.names = Names(machine.command)

    # What gdb can say.

    def go(self, current: int) -> Halt:
        """All ranks go on, in the debugger's order. A stop that is at no rank is told at the current one."""
        self._deadline = None
        self.watches.resume()
        count = 1
        while self.watches.all:
            halt = self._go_watching(current)
            if halt is not None:
                return halt
        while True:
            started = time.monotonic()
            halt = self._go_piece(count, current)
            if halt is not None:
                return halt
            count = 2 * count if time.monotonic() - started < PIECE else max(1, count // 2)

    def go_alone(self, rank: int) -> Halt:
        """A rank goes on by itself, and where it fails stops there. Where it has come to the superstep's end, the others go on to that, and
        then it again."""
        self._deadline = None
        self.watches.resume()
        while True:
            nodes = self.machine.nodes()
            if nodes[rank].runs and self.watches.of(rank):
                halt = self._follow(rank)
            elif nodes[rank].runs:
                halt = self._run_alone(rank)
            else:
                halt = self._go_watching(rank)
            if halt is not None:
                return halt

    def step(self, rank: int) -> Halt:
        """A rank makes an instruction; before that, if it has stopped by itself, the others go on, and the turn is made."""
        self._deadline = None
        self.watches.resume()
        while not self.machine.node(rank).runs:
            halt = self._go_watching(rank)
            if halt is not None:
                return self._as_end_of_step(halt)
        if self.watches.of(rank):
            watch = self.watches.step(rank)
            if watch is not None:
                return Stop(rank, gdb_terms.TRAP, watch=watch)
        else:
            self.machine.step(rank, 1)
        return self._as_end_of_step(self._stop_at(rank) or Stop(rank, gdb_terms.TRAP))

    def step_range(self, rank: int, start: int, end: int) -> Halt:
        """A rank makes an instruction, and more as long as it stands in this range and at no breakpoint."""
        while True:
            halt = self.step(rank)
            if halt != Stop(rank, gdb_terms.TRAP):
                return halt
            node = self.machine.node(rank)
            if not start <= node.pc < end or node.pc in self.breakpoints:
                return halt
            if self._stops_at(node):
                return self._stop_before(node)
            if self.is_interrupted():
                return Stop(rank, gdb_terms.INTERRUPTED)

    def step_back(self, rank: int, is_over: bool = False) -> Halt:
        """A rank goes an instruction back, and where it has made none in this superstep, all go back over the turn.

        If that changes bytes of this rank which are watched, it goes none: gdb wants to know of it before, and takes that back by a step.
        But `is_over` says that gdb only steps over a breakpoint, from which it then looks further back.
        """
        self.watches.resume()
        before = {} if is_over else self.watches.contents(rank)
        try:
            place = self.machine.place()
            is_begin = not self._history.step_back(rank)
            watch = None if is_begin or self.watches.passed is not None else self.watches.changed(before)
            if watch is not None:
                self.watches.stay_at(place, watch)
            return Stop(rank, gdb_terms.TRAP, is_begin=is_begin, watch=watch)
        except (Interrupted, Refused) as fault:
            return self._stay(rank, fault)

    def go_back(self, rank: Optional[int], current: int, begun: Optional[Place] = None) -> Halt:
        """All ranks go back, or one alone, to the last breakpoint, the last beginning of a superstep that is wanted, the last write of what
        is watched, or the start.

        One alone stops for what it has come to itself, and for what is watched of its own bytes. `begun` is from where, if that is not from
        where they stand.
        """
        self.watches.resume()
        self._tell_of_reads()
        try:
            if begun is not None:
                self.machine.restart_at(begun)
            elif self.watches.passed is not None:
                self._history.step_back(current)
            addresses = frozenset([*self.breakpoints, *addresses_of(self.calls)])
            hit = self._history.last(Goal(addresses, frozenset(self.supersteps), rank, self._stops_at))
            watched = self.watches.all if rank is None else self.watches.of(rank)
            written = last_written(self.machine, self.names, watched, self.is_interrupted)
            if written is not None and written.is_behind(hit):
                return self._go_back_to(written, rank)
            self._history.go_to(hit, rank)
        except (Interrupted, Refused) as fault:
            return self._stay(current, fault)
        if hit is None:
            return Stop(current, gdb_terms.TRAP, is_begin=True)
        if hit.rank != BEGIN:
            return self._stop_before(self.machine.node(hit.rank))
        self.show(f"superstep {hit.superstep} begins\n".encode())
        return Stop(current, gdb_terms.NONE)

    def _tell_of_reads(self) -> None:
        """Says once of each watch for reads that it does not stop on the way back: gdb goes back several times for one command."""
        reads = {it for it in self.watches.all if it.kind == "rwatch"}
        if not reads <= self._told:
            self.show(b"bspgdb: rwatch stops nowhere on the way back; awatch stops at the last write\n")
        self._told |= reads

    def _go_back_to(self, written: Written, alone: Optional[int]) -> Halt:
        """All ranks go back, or one alone, to where bytes have just been written that are watched, or as far as was looked for that. From
        there gdb makes the step back over the write."""
        hit = written.hit
        if written.is_landing:
            hit = Hit(hit.superstep + 1, BEGIN, 0)
        elif written.watch is not None:
            hit = hit._replace(ticks=hit.ticks + 1)
        self._history.go_to(hit, None if hit.rank == BEGIN else alone)
        if written.watch is not None:
            self.watches.meet()
        else:
            self.show(b"bspgdb: what is watched was not written from here on; reverse-continue looks further back\n")
        return Stop(written.hit.rank, gdb_terms.TRAP if written.watch else gdb_terms.NONE, watch=written.watch)

    def settle(self, current: int) -> Optional[Halt]:
        """To be called before anything goes on: what stands where it has gone back to is made to go on from there. Answers if it is
        not."""
        try:
            self.machine.settle(self.is_interrupted)
        except (Interrupted, Refused) as fault:
            return self._stay(current, fault)
        return None

    def _stay(self, current: int, fault: Exception) -> Halt:
        """What gdb is told where it was broken off that a machine comes to another place, or another process was not to be had."""
        if isinstance(fault, Refused):
            self.show(f"bspgdb: it does not move: {fault}\n".encode())
            return Stop(current, gdb_terms.NONE)
        return Stop(current, gdb_terms.INTERRUPTED)

    def turn(self) -> str:
        """Makes the turn, if no rank runs. Answers the debugger's line."""
        line = self.machine.turn()
        self._show_output()
        return line

    # Pieces of a run.

    def _go_watching(self, current: int) -> Optional[Halt]:
        """All ranks go on for a piece of a superstep: up to where one stands that is watched, that one by itself, or to the superstep's end."""
        running = [node for node in self.machine.nodes() if node.runs]
        watched = next((at for at, node in enumerate(running) if self.watches.of(node.rank)), None)
        if watched is None or self.machine.outcome is not None:
            before = self.watches.contents()
            halt = self._go_piece(1, current)
            watch = self.watches.changed(before)
            return halt if watch is None or isinstance(halt, Exit) else Stop(watch.rank, gdb_terms.TRAP, watch=watch)
        if watched == 0:
            return self._follow(running[0].rank)
        size = min(watched, max(1, MOST_BREAKPOINTS // max(1, self._size())))
        guard = AtRank(running[size].rank, running[size].pc)
        points = self._points([node.rank for node in running[:size]]) + [(guard.rank, guard.pc), self.machine.superstep + 1]
        arrival = self._go_to(points, [guard])
        return None if arrival == guard and not self._stops_at(self.machine.node(guard.rank)) else self._halt_of(arrival, current)

    def _follow(self, rank: int) -> Optional[Halt]:
        """A rank that is watched goes on by itself, to the next stop or to where it stops by itself."""
        addresses = {*self.breakpoints, *addresses_of(self.calls)}
        watch = self.watches.follow(rank, lambda it: it.pc in addresses and self._stops_at(it.node), self.is_interrupted)
        node = self.machine.node(rank)
        if watch is not None:
            return Stop(rank, gdb_terms.TRAP, watch=watch)
        if node.runs:
            return self._stop_before(node) if self._stops_at(node) else Stop(rank, gdb_terms.INTERRUPTED)
        return None

    def _go_piece(self, count: int, current: int) -> Optional[Halt]:
        """All ranks go on for up to so many supersteps. Answers nothing if there is nothing to stop for."""
        if self.machine.outcome is not None:
            return Exit(gdb_terms.status_of(self.machine.outcome))
        before, self._count = self.machine.superstep, count
        if self._size() * self.machine.ranks <= MOST_BREAKPOINTS:
            ahead = [superstep for superstep in self.supersteps if superstep > before]
            arrival = self._go_to(self._points(range(self.machine.ranks)) + [min([before + count] + ahead)])
        else:
            arrival = self._go_by_windows(before)
        if isinstance(arrival, BrokenOff) and count > 1:
            return self._go_singly(count, current) if self._deadline is None else self._search(count, current)
        halt = self._halt_of(arrival, current)
        if isinstance(arrival, Over) or self.machine.superstep > before:
            self._show_output()
        if isinstance(arrival, Over):
            self.show(f"{arrival.outcome}\n".encode() + (ENDS if isinstance(halt, Exit) else b""))
            self._tell_extension_wanted(rank_of(arrival.outcome, current))
        elif arrival == AtSuperstep(self.machine.superstep) and halt is not None:
            self.show(f"superstep {self.machine.superstep} begins\n".encode())
        return halt

    def _go_by_windows(self, superstep: int) -> Arrival:
        """To the end of a superstep, if there are not points enough for all ranks at once.

        `go` takes the ranks in their order. So some first ones have their points, and the one behind them has one where it stands.
        """
        size = max(1, MOST_BREAKPOINTS // self._size())
        while True:
            running = [node for node in self.machine.nodes() if node.runs]
            points = self._points([node.rank for node in running[:size]]) + [superstep + 1]
            guards = [AtRank(node.rank, node.pc) for node in running[size : size + 1]]
            arrival = self._go_to(points + [(guard.rank, guard.pc) for guard in guards], guards)
            if arrival not in guards or self._stops_at(self.machine.node(guards[0].rank)):
                return arrival

    def _run_alone(self, rank: int) -> Optional[Halt]:
        """A rank runs by itself to a breakpoint or to where it stops, though lower ones have not done so, and may never do."""
        points = self._points([rank])
        while self.machine.node(rank).runs:
            self.machine.run_to(points, rank, FAR)
            node = self.machine.node(rank)
            if node.runs and self._stops_at(node):
                return self._stop_before(node)
            if self.is_interrupted():
                return Stop(rank, gdb_terms.INTERRUPTED)
        return self._stop_at(rank)

    def _go_singly(self, count: int, current: int) -> Optional[Halt]:
        """Goes on for so many supersteps, one by one."""
        for _ in range(count):
            halt = self._go_piece(1, current)
            if halt is not None:
                return halt
        return None

    def _search(self, count: int, current: int) -> Halt:
        """After an interrupt in some supersteps of which one takes long: goes on to that one."""
        self._is_searching = True
        try:
            for _ in range(count):
                self._deadline = time.monotonic() + PATIENCE
                halt = None if self._size() else self._creep(self._deadline)
                halt = halt or self._go_piece(1, current)
                if halt is not None:
                    return halt
        finally:
            self._is_searching = False
        return Stop(current, gdb_terms.INTERRUPTED)

    def _creep(self, until: float) -> Optional[Halt]:
        """All ranks go on to the superstep's end, if there are no breakpoints, for no longer than this. Answers where that ends it."""
        for rank in range(self.machine.ranks):
            while self.machine.node(rank).runs:
                if time.monotonic() > until:
                    return Stop(rank, gdb_terms.INTERRUPTED)
                self.machine.step(rank, FAR)
        return None

    def _look_on(self, rank: int) -> Halt:
        """After an interrupt, with the machine where it stood before: a rank that runs goes on a little, for gdb to show where it is."""
        until = time.monotonic() + LOOK
        count = 1 if self._size() else FAR
        while self.machine.node(rank).runs and time.monotonic() < until:
            self.machine.step(rank, count)
            if self._stops_at(self.machine.node(rank)):
                return self._stop_before(self.machine.node(rank))
        return Stop(rank, gdb_terms.INTERRUPTED)

    # Parts of a piece.

    def _points(self, ranks: Iterable[int]) -> List[Point]:
        return [(rank, addr) for rank in ranks for addr in {*self.breakpoints, *addresses_of(self.calls, rank)}]

    def _size(self) -> int:
        """How many points a rank may have."""
        return len({*self.breakpoints, *addresses_of(self.calls)})

    def _stops_at(self, node: Node) -> bool:
        """Whether gdb wants to stop where a node stands."""
        return node.pc in self.breakpoints or any(it.is_at(node) for it in self.calls)

    def _stop_before(self, node: Node) -> Stop:
        """The stop at such a place. Of a call gdb knows nothing, so that a line says which it is."""
        if node.pc in self.breakpoints:
            return Stop(node.rank, gdb_terms.TRAP, is_breakpoint=True)
        self.show(f"rank {node.rank} is about to call {self.spell(node)}\n".encode())
        return Stop(node.rank, gdb_terms.NONE)

    def _go_to(self, points: List[Point], guards: Sequence[AtRank] = ()) -> Arrival:
        """Goes on to one of these points at which gdb wants to stop, or to a guard."""
        self._started, self._superstep = time.monotonic(), self.machine.superstep
        arrival = self.machine.go(points, self._must_break_piece)
        while isinstance(arrival, AtRank) and arrival not in guards and not self._stops_at(self.machine.node(arrival.rank)):
            arrival = BrokenOff() if self._must_break_off() else self.machine.go(points, self._must_break_piece)
        self._seconds += time.monotonic() - self._started
        if not isinstance(arrival, Over):
            self.machine.spare.follow(self.machine.superstep)
        return arrival

    def _must_break_piece(self) -> bool:
        """Whether a piece is to be broken off: by an interrupt, or as one of its supersteps takes long. The spare machine, which is for that,
        is sent to where the piece began."""
        seconds = time.monotonic() - self._started
        spare = self.machine.spare
        spare.is_wanted = spare.is_wanted or self._seconds + seconds > LONG
        spare.follow(self._superstep)
        if self._must_break_off():
            return True
        return self._deadline is None and self._count > 1 and seconds > SINGLY and spare.stands_at(self._superstep)

    def _must_break_off(self) -> bool:
        """Whether a run was to be interrupted, and has not come to the end of a superstep for a while since."""
        return self._has_interrupt() and time.monotonic() > (self._deadline or 0.0)

    def _has_interrupt(self) -> bool:
        if self._deadline is None and self.is_interrupted():
            self._deadline = time.monotonic() + PATIENCE
        return self._deadline is not None

    def _halt_of(self, arrival: Arrival, current: int) -> Optional[Halt]:
        """What gdb is told of where a piece has come to; nothing if it is to go on."""
        if isinstance(arrival, AtRank):
            return self._stop_before(self.machine.node(arrival.rank))
        if isinstance(arrival, Over):
            return halt_of_outcome(arrival.outcome, current, self.stops_at_end)
        if isinstance(arrival, BrokenOff):
            running = [node.rank for node in self.machine.nodes() if node.runs]
            return self._look_on(running[0] if running else current)
        if arrival.superstep in self.supersteps:
            return Stop(current, gdb_terms.NONE)
        return Stop(current, gdb_terms.INTERRUPTED) if self._has_interrupt() and not self._is_searching else None

    def _stop_at(self, rank: int) -> Optional[Stop]:
        """The stop of a rank that has failed by itself, with a line that says at what."""
        state = self.machine.node(rank).state
        if state in ("running", "synced", "ended"):
            return None
        self.show(f"rank {rank}: {state}\n".encode())
        self._tell_extension_wanted(rank)
        return Stop(rank, gdb_terms.signal_of(state))

    def _tell_extension_wanted(self, rank: int) -> None:
        """Says what gives nodes an extension where a rank has stopped for want of it."""
        if self.machine.has_floats:
            return
        node = self.machine.node(rank)
        for line in named_views.extension_wanted(node.state, self.machine.memory(rank, node.pc, 4)):
            self.show(f"bspgdb: {line}\n".encode())

    def _as_end_of_step(self, halt: Halt) -> Halt:
        """gdb takes the signal of EBREAK for the end of a step, and would go on. So at a step another one says it."""
        if isinstance(halt, Stop) and self.machine.node(halt.rank).state == "fault Break":
            return halt._replace(signal=gdb_terms.NONE)
        return halt

    def _show_output(self) -> None:
        """Shows what was written since the last time."""
        output = self.machine.output(self._shown)
        self.show(output)
        self._shown += len(output)
