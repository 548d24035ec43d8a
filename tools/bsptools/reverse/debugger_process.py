"""The machine as the debugger's lines show and move it, with a cache that each change clears."""

from __future__ import annotations

import abc
from typing import Dict, Iterable, List, Optional, Sequence

from ..framed.session import Floats, Node, Reply, Session, Shown, floats_of
from .run_places import Arrival, Asked, AtRank, AtSuperstep, Interrupted, Over, Place, Point, Points, never, spelled, told
from .undo_log import UndoLog

# How long an answer is waited for before it is asked whether to break off, in seconds.
POLL = 0.05
# How many bytes of code are read at once.
CODE = 64


class Process(abc.ABC):
    """A machine as far as it goes forwards."""

    def __init__(self, command: Sequence[str]) -> None:
        self.command = list(command)
        self.has_floats = "--float" in self.command
        self._session = Session(self.command)
        self._points: Points = frozenset()
        self._nodes: Dict[int, Node] = {}
        self._superstep: Optional[int] = 0
        self._is_at_begin = True
        self._trace: Optional[UndoLog] = None
        self.outcome: Optional[str] = None
        # Whether an answer was not waited for.
        self._is_unheard = False
        settings = self._session.settings()
        self.ranks, self.size, self.limit = settings["nodes"], settings["memory"], settings["limit"]

    @property
    def is_lost(self) -> bool:
        """Whether the process has ended, or is in the midst of what was broken off."""
        return self._is_unheard or not self._session.is_open

    @abc.abstractmethod
    def settle(self, must_break_off: Asked = never) -> None:
        """Brings the process to where the machine went back to, since it is to change there. If it is broken off, nothing is different."""

    @abc.abstractmethod
    def _make_room(self) -> None:
        """Goes on in a new process where the debugger would soon read no more lines."""

    # What there is.

    def node(self, rank: int) -> Node:
        """A node."""
        self._make_room()
        return self._look_at([rank])[0]

    def nodes(self) -> List[Node]:
        """All nodes."""
        self._make_room()
        return self._look_at(range(self.ranks))

    def floats(self, rank: int) -> Floats:
        """The registers of floating point of a node, where the nodes have them."""
        self._make_room()
        if self._trace is not None and self._trace.rank == rank and self._trace.floats is not None:
            return self._trace.floats
        return floats_of(self._session.ask(f"fregs {rank}").accepted())

    @property
    def first_running(self) -> int:
        """The lowest rank that runs; if none does, how many there are."""
        return next((node.rank for node in self.nodes() if node.runs), self.ranks)

    @property
    def superstep(self) -> int:
        """The superstep that has begun last."""
        self._make_room()
        return self._look_at_superstep()

    def memory(self, rank: int, addr: int, length: int) -> bytes:
        """Memory of a rank: these bytes, or those of them that come before the memory's end."""
        count = min(length, self.size - addr)
        if count <= 0:
            return b""
        self._make_room()
        data = self._session.memory(rank, addr, count, self.size)
        return data if self._trace is None or self._trace.rank != rank else self._trace.restored(addr, data)

    def queue(self, rank: int) -> List[str]:
        """The lines of the messages that wait at a rank."""
        self._make_room()
        return self._session.ask(f"queue {rank}").accepted()

    def costs(self) -> List[str]:
        """The lines of the costs of the supersteps that are over, and of their total."""
        self._make_room()
        return self._session.ask("costs").accepted()

    def output(self, start: int = 0) -> bytes:
        """What was written in the supersteps that are over, from this byte on; nothing if there are fewer."""
        self._make_room()
        reply = self._session.ask(f"output {start}")
        return reply.data[:-1] if reply.is_done else b""

    def code_at(self, rank: int, pc: int, code: Dict[int, bytes]) -> bytes:
        """The bytes of an instruction, or of the memory's end, by way of a table."""
        if pc not in code:
            data = self.memory(rank, pc, CODE)
            code.update((pc + place, data[place : place + 4]) for place in range(0, max(1, len(data) - 3), 2))
        return code[pc]

    # What changes it.

    def step(self, rank: int, count: int, must_break_off: Asked = never) -> int:
        """Steps of a rank, fewer if it stops by itself. Answers how many were made."""
        self.settle(must_break_off)
        self._make_room()
        return self._moved(f"step {rank} {count}", rank, must_break_off)

    def run_to(self, points: Iterable[Point], rank: int, count: int, must_break_off: Asked = never) -> int:
        """The same, and to the first of these points that the rank comes to."""
        self.settle(must_break_off)
        self._make_room()
        self._set_points(frozenset(points))
        return self._moved(f"go {rank} {count}", rank, must_break_off)

    def trail(self, rank: int, count: int) -> List[Shown]:
        """A rank makes so many instructions one by one. The node after each."""
        self.settle()
        self._make_room()
        self._is_at_begin = False
        replies = self._session.ask_all([f"step {rank} 1", f"regs {rank}"] * count)
        self._keep(replies[-1])
        return [Shown(reply) for reply in replies[1::2]]

    def turn(self) -> str:
        """Makes the turn, if no rank runs. Answers the debugger's line."""
        self.settle()
        self._make_room()
        reply = self._session.ask("turn")
        line = reply.lines[0]
        if line == "turned":
            self._nodes.clear()
            self._superstep = None if self._superstep is None else self._superstep + 1
            self._is_at_begin = True
        elif reply.is_done and line != "not turned":
            self.outcome = line
        return line

    def finish(self, must_break_off: Asked = never) -> str:
        """All ranks go on to the superstep's end, past all points, and the turn is made. Answers the debugger's line for that."""
        self.settle(must_break_off)
        self._make_room()
        self._ask("phase", must_break_off)
        self._nodes.clear()
        self._is_at_begin = False
        return self.turn()

    def advance(self, points: Iterable[Point], must_break_off: Asked = never) -> Arrival:
        """Goes on so, but is broken off by an exception."""
        if self.outcome is not None:
            return Over(self.outcome)
        self.settle(must_break_off)
        self.depart(points)
        return self.arrive(must_break_off)

    def depart(self, points: Iterable[Point]) -> None:
        """Begins to go on. Nothing else may be asked before it is waited for."""
        self._make_room()
        self._set_points(frozenset(points))
        self._session.send("go")

    def has_arrived(self) -> bool:
        """Whether it has come there."""
        return self._session.is_answered(0)

    def arrive(self, must_break_off: Asked = never) -> Arrival:
        """Waits for it. If that is broken off, it can be waited for again."""
        return self._arrive(self._reply(must_break_off), self._points)

    # Parts of these.

    def _arrive(self, reply: Reply, points: Points) -> Arrival:
        """What the reply to `go` says, and what it leaves of the cache."""
        arrival = told(reply.accepted()[0])
        self._is_at_begin = isinstance(arrival, AtSuperstep)
        if isinstance(arrival, AtRank):
            self._forget_up_to(arrival.rank, points)
            return arrival
        self._nodes.clear()
        if isinstance(arrival, AtSuperstep):
            self._superstep = arrival.superstep
        elif isinstance(arrival, Over):
            self.outcome, self._superstep = arrival.outcome, None
        return arrival

    def _forget_up_to(self, rank: int, points: Points) -> None:
        """Drops what a `go` that stopped at a rank may have changed: if it has made no turn, the nodes up to this one that ran."""
        if self._superstep is None or self._superstep + 1 not in points:
            self._nodes.clear()
            self._superstep = None
        else:
            self._nodes = {it.rank: it for it in self._nodes.values() if it.rank > rank or not it.runs}

    def _moved(self, line: str, rank: int, must_break_off: Asked) -> int:
        """How many steps of a rank a line makes."""
        self._is_at_begin = False
        moved = self._ask(line, must_break_off).accepted()[0]
        self._nodes.pop(rank, None)
        return int(moved.split()[1])

    # How it is asked.

    def _ask(self, line: str, must_break_off: Asked) -> Reply:
        """The reply to a line that may take long."""
        self._session.send(line)
        return self._reply(must_break_off)

    def _reply(self, must_break_off: Asked) -> Reply:
        while not self._session.is_answered(POLL):
            if must_break_off():
                self._is_unheard = True
                raise Interrupted
        self._is_unheard = False
        return self._session.reply()

    def _place(self) -> Place:
        ticks = tuple(node.ticks for node in self._look_at(range(self.ranks)))
        return Place(self._look_at_superstep(), ticks, self.outcome is not None)

    def _look_at_superstep(self) -> int:
        if self._superstep is None:
            self._superstep = self._session.superstep()
        return self._superstep

    def _look_at(self, ranks: Iterable[int]) -> List[Node]:
        """Nodes, by way of the cache."""
        wanted = [rank for rank in ranks if rank not in self._nodes]
        for reply in self._session.ask_all([f"regs {rank}" for rank in wanted]):
            self._keep(reply)
        return [self._nodes[rank] for rank in ranks]

    def _keep(self, reply: Reply) -> None:
        """Keeps a node that is shown."""
        node = Shown(reply).node
        self._nodes[node.rank] = node

    def _set_points(self, points: Points) -> None:
        """Sets just these points."""
        lines = [f"clear {spelled(point)}" for point in self._points - points]
        lines += [f"break {spelled(point)}" for point in points - self._points]
        for reply in self._session.ask_all(lines):
            reply.accepted()
        self._points = points
