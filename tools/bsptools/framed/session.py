"""A framed session with the debugger: a line goes in, and its reply comes out.

A header in front of each reply says how long it is.
"""

from __future__ import annotations

import contextlib
import fcntl
import os
import re
import select
import struct
import subprocess
import time
from collections.abc import Sequence
from typing import NamedTuple

from .. import children, limits
from ..refusals import Refused, printable

# As many steps as a node can make.
ALL = (1 << 64) - 1
# Of how many lines there may be replies in the pipes at once, so that neither side waits for the other one; and of how many where the pipe of
# lines has so many bytes for each. With more of them both sides wait for one another less often, which on a busy host is most of the time.
BATCH, MOST_BATCH, LINE = 64, 1024, 64
# The size of the pipe of replies, where the system gives it, and what asks for that. Python has names for these from 3.10 on.
REPLIES, SET_SIZE, GET_SIZE = 1 << 18, 1031, 1032
# After its replies have ended, the process ends at once: this many seconds only pass on a host that is very busy. How many bytes of replies are
# taken at once.
ENDING, CHUNK = 60.0, 1 << 16
# After how many seconds without an answer the debugger's processor time is looked at.
LOOK = 0.05
# gdb reads memory by a few bytes, which lie side by side: so many bytes are read at once, and so many of these blocks are kept of a rank.
BLOCK, MOST_BLOCKS = 256, 256
# The lines that only show something, or only say where to stop.
SHOWING = ("regs ", "bytes ", "queue ", "costs", "output ", "where ", "nodes", "help", "break ", "clear ")

_HEADER = re.compile(rb"(done|refused) (\d+)\n")
_REFUSAL = re.compile(rb"refused: (\w+)")
_NODE = re.compile(r"rank (\d+) pc ([0-9a-f]{8}) ticks (\d+) state (.+)")
_REGISTER = re.compile(r"=([0-9a-f]{8})")
_FCSR = re.compile(r"rank \d+ fcsr ([0-9a-f]{8}) .+")
_FLOAT = re.compile(r"=([0-9a-f]{16})")


class RefusalCode:
    """The names of the debugger's refusals."""

    BAD_COMMAND, BAD_RANK, BAD_RANGE, NO_FLOAT_UNIT = "BadCommand", "BadRank", "BadRange", "NoFloatUnit"
    TOO_MANY, NO_SUCH_BREAK, NO_SUCH_KEPT, OVER = "TooMany", "NoSuchBreak", "NoSuchKept", "Over"


class DebuggerEnded(Refused):
    """The debugger has ended, though it was not told to, or answers nothing that it could. What it had to say of that stands on standard
    error. `status` is its exit status, if it has one."""

    def __init__(self, status: int | None) -> None:
        super().__init__("the debugger has ended")
        self.status = status


class Node(NamedTuple):
    """A node as the debugger shows it: its rank, pc, ticks, state, registers, and its memory from x2 on if it was asked for."""

    rank: int
    pc: int
    ticks: int
    state: str
    x: tuple[int, ...]
    stack: bytes = b""

    @property
    def runs(self) -> bool:
        """Whether it can make a step."""
        return self.state == "running"

    def at(self, address: int) -> int | None:
        """The word of the stack at an address."""
        place = address - (self.x[2] if self.x[2] < 1 << 31 else 0)
        return int.from_bytes(self.stack[place : place + 4], "little") if 0 <= place <= len(self.stack) - 4 else None


class LineForm(NamedTuple):
    """A form of lines, as a row of the debugger's help has it: their first word, what stands behind that, and what they do. Operands are in
    capitals, and what can be left out is in brackets."""

    verb: str
    operands: str
    purpose: str


def signed(word: int) -> int:
    """A word as a C program sees an int."""
    return word - (1 << 32) if word >= 1 << 31 else word


def node_of(reply: Sequence[str], stack: bytes = b"") -> Node | None:
    """The node that a reply to `regs` shows."""
    head = _NODE.fullmatch(reply[0]) if len(reply) == 9 else None
    if head is None:
        return None
    values = _REGISTER.findall(" ".join(reply[1:]))
    x = struct.unpack(f">{len(values)}I", bytes.fromhex("".join(values)))
    return Node(int(head[1]), int(head[2], 16), int(head[3]), head[4], x, stack)


class Floats(NamedTuple):
    """The registers of floating point of a node as the debugger shows them: fcsr, and the 64 bits of each of f0 to f31."""

    fcsr: int
    f: tuple[int, ...]

    @property
    def fflags(self) -> int:
        """The flags."""
        return self.fcsr & 31

    @property
    def frm(self) -> int:
        """The rounding mode."""
        return self.fcsr >> 5 & 7


def floats_of(reply: Sequence[str]) -> Floats:
    """What a reply to `fregs` shows."""
    head = _FCSR.fullmatch(reply[0]) if len(reply) == 9 else None
    if head is None:
        raise Refused("the debugger shows no floating-point registers")
    return Floats(int(head[1], 16), tuple(int(value, 16) for line in reply[1:] for value in _FLOAT.findall(line)))


class Reply(NamedTuple):
    """A reply: whether the line was done and not refused, and what came. Each line of it is bytes with a line feed at the end."""

    is_done: bool
    data: bytes

    @property
    def lines(self) -> list[str]:
        """The lines of a reply that is text."""
        return self.data.decode(errors="replace").split("\n")[:-1]

    @property
    def code(self) -> str:
        """The name of its refusal; nothing of a line that was done."""
        found = None if self.is_done else _REFUSAL.match(self.data)
        return found[1].decode() if found else ""

    def accepted(self) -> list[str]:
        """The lines of a reply to what cannot be refused."""
        if not self.is_done:
            raise Refused(f"the debugger answered {self.lines[0]}")
        return self.lines


class Shown:
    """A node as a reply shows it, of which no more is read than is asked for."""

    def __init__(self, reply: Reply) -> None:
        self._reply = reply
        head = reply.data.split(b" ", 7)
        if not reply.is_done or len(head) < 8:
            raise Refused("the debugger shows no node")
        self.pc = int(head[3], 16)
        self.runs = head[7].startswith(b"running")
        self.has_failed = head[7].startswith(b"fault")

    @property
    def node(self) -> Node:
        """All of it."""
        node = node_of(self._reply.lines)
        if node is None:
            raise Refused("the debugger shows no node")
        return node


class Session:
    """A session with the debugger. `room` is how many bytes of lines it still reads."""

    def __init__(self, command: Sequence[str], is_quiet: bool = False) -> None:
        told = subprocess.DEVNULL if is_quiet else None
        self._process = children.start([*command, "--framed"], stdin=subprocess.PIPE, stdout=subprocess.PIPE, stderr=told)
        assert self._process.stdin is not None and self._process.stdout is not None
        self._lines, self._replies = self._process.stdin, self._process.stdout
        self._batch = BATCH
        with contextlib.suppress(OSError):
            fcntl.fcntl(self._replies, SET_SIZE, REPLIES)
            self._batch = max(BATCH, min(MOST_BATCH, fcntl.fcntl(self._lines, GET_SIZE) // LINE))
        # What was read of replies, from where on it was not taken, and blocks of each rank's memory by their addresses.
        self._read, self._taken = bytearray(), 0
        self._blocks: dict[int, dict[int, bytes]] = {}
        self.room = limits.MOST_LINES
        self.is_open = True

    def close(self) -> None:
        """Ends the process, also in the midst of a long `go`."""
        self.is_open = False
        children.end(self._process)

    def send(self, *lines: str) -> None:
        """Sends lines, whose replies are still to be received."""
        data = "".join(line + "\n" for line in lines).encode()
        self.room -= len(data)
        if self._blocks:
            self._forget(lines)
        try:
            self._lines.write(data)
            self._lines.flush()
        except BrokenPipeError as fault:
            raise self._ended() from fault

    def reply(self) -> Reply:
        """The reply to the first line that has none yet. A header says how many lines it has."""
        header = _HEADER.fullmatch(self._take(1))
        if header is None:
            raise self._ended()
        return Reply(header[1] == b"done", self._take(int(header[2])))

    def is_answered(self, seconds: float) -> bool:
        """Whether the only line that is not answered yet is answered within this time."""
        return bool(select.select([self._replies], [], [], seconds)[0])

    def is_answered_in(self, seconds: float, latest: float) -> bool:
        """Whether it is answered before the debugger has computed for so many seconds, and before a time of `time.monotonic`."""
        until = self.seconds + seconds
        while not self.is_answered(min(max(seconds, 0.0), LOOK)):
            if self.seconds >= until or time.monotonic() >= latest:
                return False
        return True

    def has_reply_in(self, seconds: float) -> bool:
        """Whether the next reply is there, or comes before the debugger has computed for so many seconds."""
        return self._taken < len(self._read) or self.is_answered_in(seconds, float("inf"))

    @property
    def seconds(self) -> float:
        """For how many seconds the debugger has computed since it began. Other processes of a busy host do not change that."""
        return children.processor_seconds(self._process)

    def ask(self, line: str) -> Reply:
        """The reply to a line."""
        self.send(line)
        return self.reply()

    def ask_all(self, lines: Sequence[str]) -> list[Reply]:
        """The replies to lines, which are as many where the debugger does not end before."""
        replies = []
        for start in range(0, len(lines), self._batch):
            part = lines[start : start + self._batch]
            self.send(*part)
            replies += [self.reply() for _ in part]
        return replies

    def settings(self) -> dict[str, int]:
        """The number of nodes and the other settings, by the names of their options."""
        words = self.ask("nodes").accepted()[0].split()
        return {name: int(value) for name, value in zip(words[::2], words[1::2])}

    def line_forms(self) -> list[LineForm]:
        """The forms of the lines that a framed session has, from the debugger's table of help."""
        forms = []
        for line in self.ask("help").accepted():
            fields = line.split("\t")
            if len(fields) != len(LineForm._fields):
                raise Refused(f"the debugger has another version than this tool: its help has the row {printable(line)}")
            forms.append(LineForm(*fields))
        return forms

    def node(self, rank: int) -> Node | None:
        """A node as it is, if there is one of this rank."""
        return node_of(self.ask(f"regs {rank}").lines)

    def memory(self, rank: int, addr: int, count: int, size: int) -> bytes:
        """Bytes of a rank, whose memory has this size and all of them. What lies beside few of them is read too, and kept until something
        moves that can change it."""
        if count > BLOCK:
            return self._bytes(rank, addr, count)
        blocks = self._blocks.setdefault(rank, {})
        if len(blocks) > MOST_BLOCKS:
            blocks.clear()
        first = addr - addr % BLOCK
        wanted = range(first, addr + count, BLOCK)
        for at in wanted:
            if at not in blocks:
                blocks[at] = self._bytes(rank, at, min(BLOCK, size - at))
        return b"".join(blocks[at] for at in wanted)[addr - first : addr - first + count]

    def superstep(self) -> int:
        """The superstep that has begun last."""
        return int(self.ask("where 0").accepted()[0].split()[5])

    def output(self, start: int = 0) -> bytes:
        """What was written in the supersteps that are over, from this byte on. A line feed follows it."""
        reply = self.ask(f"output {start}")
        reply.accepted()
        return reply.data[:-1]

    def _bytes(self, rank: int, addr: int, count: int) -> bytes:
        return bytes.fromhex(" ".join(self.ask(f"bytes {rank} {addr} {count}").accepted()))

    def _forget(self, lines: Sequence[str]) -> None:
        """Drops the blocks of memory that these lines may change: steps of a rank change that of this one alone."""
        for line in lines:
            rank = line.split(" ", 2)[1] if line.startswith(("step ", "go ")) else ""
            if rank.isdecimal():
                self._blocks.pop(int(rank), None)
            elif not line.startswith(SHOWING):
                self._blocks.clear()

    def _take(self, count: int) -> bytes:
        """The next lines, each with its line feed."""
        read, end = self._read, self._taken
        for _ in range(count):
            found = read.find(b"\n", end)
            while found < 0:
                known = len(read)
                read += self._more()
                found = read.find(b"\n", known)
            end = found + 1
        data = bytes(read[self._taken : end])
        self._taken = end
        if end == len(read):
            read.clear()
            self._taken = 0
        return data

    def _more(self) -> bytes:
        """More of what it answers."""
        data = os.read(self._replies.fileno(), CHUNK)
        if not data:
            raise self._ended()
        return data

    def _ended(self) -> DebuggerEnded:
        """What says that the debugger has ended."""
        with contextlib.suppress(subprocess.TimeoutExpired):
            self._process.wait(ENDING)
        return DebuggerEnded(self._process.returncode)
