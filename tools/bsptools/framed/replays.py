"""Repeats runs in the debugger, by scripts of lines.

Runs are the same each time, so each question is a run of its own. Points make a run some four times as slow, so that supersteps before the
one that is asked for are made without.
"""

from __future__ import annotations

import contextlib
from collections.abc import Iterator

from ..limits import MOST_TICKS
from .session import BATCH, DebuggerEnded, Node, Session, node_of

# The debugger takes 1 MiB of lines, of which a stop takes 12 bytes at most; a superstep has 65,536 requests at most.
MOST_STOPS = 80_000
# A superstep without points takes two lines, `phase` and `turn`, of which there is room for so many beside these stops.
MOST_TURNS = 3_000
STACK_BYTES = 1 << 17


class Replays:
    """Runs of one program, with its input and settings. `memory` is the bytes of a node, and `nodes` how many there are."""

    def __init__(self, words: list[str], memory: int, nodes: int = 1) -> None:
        self.words, self.memory, self.nodes = words, memory, nodes
        # For how many seconds of the debugger stops are looked for in a run, if that has an end, and whether it has been that long.
        self.most_seconds: float | None = None
        self.is_cut = False

    @contextlib.contextmanager
    def session(self) -> Iterator[Session]:
        """A run at its start. If it cannot go on, the block is left."""
        with contextlib.closing(Session(self.words, is_quiet=True)) as session, contextlib.suppress(DebuggerEnded):
            yield session

    def ask(self, script: list[str]) -> list[list[str]]:
        """The lines of the replies to a script; none if a line was refused, or the run could not go on."""
        replies: list[list[str]] = []
        with self.session() as session:
            replies += [reply.lines if reply.is_done else [] for reply in session.ask_all(script)]
        return replies + [[]] * (len(script) - len(replies))

    def begin(self, superstep: int) -> list[str]:
        """A script that comes to the beginning of a superstep."""
        far = superstep - MOST_TURNS
        return [*([f"break superstep {far}", "go", f"clear superstep {far}"] if far > 0 else []), *["phase", "turn"] * min(superstep, MOST_TURNS)]

    def begin_for(self, rank: int, superstep: int) -> list[str]:
        """A script that comes to where a rank begins a superstep, after the others have gone through it: these need no points."""
        return [*self.begin(superstep), *(f"step {other} {MOST_TICKS}" for other in range(self.nodes) if other != rank)]

    @contextlib.contextmanager
    def end_of(self, superstep: int) -> Iterator[Session]:
        """A run in which each rank has stopped by itself in a superstep. If it cannot go on, the block is left."""
        with self.session() as session:
            session.ask_all([*self.begin(superstep), "phase"])
            yield session

    def with_stack(self, session: Session, node: Node, most: int = STACK_BYTES) -> Node:
        """A node with so many bytes of its stack; from 0 on where it left the memory."""
        start = node.x[2] if node.x[2] < self.memory else 0
        return node._replace(stack=bytes_of(session.ask(f"bytes {node.rank} {start} {min(self.memory - start, most)}").accepted()))

    @contextlib.contextmanager
    def after(self, superstep: int, rank: int, ticks: int) -> Iterator[Session]:
        """A run in which a rank has made so many instructions, the last of them in a superstep."""
        with self.session() as session:
            session.ask_all(self.begin(superstep))
            node = session.node(rank)
            if node is not None:
                session.ask(f"step {rank} {ticks - node.ticks}")
                yield session

    def look_after(self, superstep: int, rank: int, ticks: int) -> Node | None:
        """A node, with its stack, there."""
        found = None
        with self.after(superstep, rank, ticks) as session:
            node = session.node(rank)
            found = node and self.with_stack(session, node)
        return found

    def bytes_after(self, superstep: int, node: Node, address: int, count: int) -> bytes:
        """Memory of a rank where it was this node; nothing if it does not lie in the memory."""
        found = b""
        with self.after(superstep, node.rank, node.ticks) as session:
            reply = session.ask(f"bytes {node.rank} {address} {count}")
            found = bytes_of(reply.lines) if reply.is_done else b""
        return found

    def look(self, script: list[str], rank: int) -> Node | None:
        """A node, with its stack, where a script comes to."""
        found = None
        with self.session() as session:
            session.ask_all(script)
            node = session.node(rank)
            found = node and self.with_stack(session, node)
        return found

    def bytes(self, script: list[str], rank: int, address: int, count: int) -> bytes:
        """Memory of a node where a script comes to; nothing if it does not lie in the memory."""
        return bytes_of(self.ask([*script, f"bytes {rank} {address} {count}"])[-1])

    def stops(self, script: list[str], rank: int, places: list[int]) -> list[Node]:
        """The node of a rank each time that it comes to one of these addresses, after this script, in this run's order, up to
        MOST_STOPS. A point of a superstep that the script sets ends them."""
        nodes: list[Node] = []
        with self.session() as session:
            session.ask_all([*script, *(f"break {rank} {place}" for place in places[:1000])])
            while len(nodes) < MOST_STOPS:
                session.send(*["go", f"regs {rank}"] * (BATCH // 2))
                for _ in range(BATCH // 2):
                    if self.most_seconds is not None and not session.has_reply_in(self.most_seconds - session.seconds):
                        self.is_cut = True
                        return nodes
                    go, regs = session.reply(), session.reply()
                    node = node_of(regs.lines) if go.is_done and go.lines[0].startswith("stopped at rank") else None
                    if node is None:
                        return nodes
                    nodes.append(node)
        return nodes


def bytes_of(reply: list[str]) -> bytes:
    """The bytes that a reply shows."""
    return bytes.fromhex("".join(reply))
