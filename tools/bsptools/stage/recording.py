"""A record of a run for pages in browsers that cannot run the machine: what the debugger answers at its stops, as far as there is room.

A record has the run's profile, outcome and output, and for each stop of it what the ranks have there: their registers, areas, requests and
messages, and the bytes of their memory that have changed since the stop before. Of the memory the program's data, the part of the heap that
is in use, the top of the stack and the areas are looked at.
"""

from __future__ import annotations

import contextlib
import json
import pathlib
import struct
import subprocess
import zlib
from typing import Any, Dict, Iterator, List, NamedTuple, Tuple

from .. import children
from ..files import content_of
from ..framed.environment_calls import GETS, REQUESTS, SEND
from ..framed.session import ALL, Node, Session, node_of, signed
from ..outputs.report import of_run
from ..prepare.job import Job
from ..program import elf

# The calls at which a page does not stop, by their numbers: those that only answer a number, read the input or the clock.
QUIET = (2, 3, 18, 19)
# The memory is looked at by pages, and what changed is told by blocks. The most bytes of data, pages of the heap, bytes of the stack and of
# an area.
PAGE, BLOCK, MOST_DATA, MOST_HEAP, MOST_STACK, MOST_AREA = 4096, 32, 1 << 17, 32, 8192, 1 << 16
ZEROS = bytes(PAGE)
MOST_BROUGHT, MOST_TAG, CALL_STACK = 4096, 64, 512
MOST_PROFILE, MOST_OUTPUT = 1 << 26, 1 << 20
# A session that takes fewer bytes of lines is followed by another one, before a superstep.
LEAST_ROOM = 1 << 19
# How much of the room all stops of a superstep may take, before only its begin and its end are recorded.
WHOLE = 0.7


class Room(NamedTuple):
    """How large a record may be: its bytes as a page holds them, the stops, and the instructions that all ranks make."""

    size: int
    stops: int
    steps: int


class Recorder:
    """A run that is recorded."""

    def __init__(self, job: Job, points: List[int], room: Room) -> None:
        self.job, self.room = job, room
        self.session = self.begun()
        self.points, self.nodes, self.memory = points[: 900 // max(1, job.options.nodes)], job.options.nodes, job.options.memory
        self.ranges = list(data_ranges(job))
        self.known: List[Dict[int, bytes]] = [{} for _ in range(self.nodes)]
        self.places: List[Dict[str, Any]] = []
        self.supersteps: Dict[int, Dict[str, Any]] = {}
        self.packer, self.size, self.printed, self.whole = zlib.compressobj(), 0, 0, 0

    @property
    def share(self) -> float:
        """How much of the room is taken."""
        return max(self.size / self.room.size, len(self.places) / self.room.stops)

    def ask(self, line: str) -> str:
        """The text that answers a line."""
        reply = self.session.ask(line)
        return reply.data.decode(errors="replace") if reply.is_done else ""

    def ask_all(self, lines: List[str]) -> List[str]:
        """The texts that answer lines."""
        return [it.data.decode(errors="replace") if it.is_done else "" for it in self.session.ask_all(lines)]

    def begun(self) -> Session:
        """A session at the begin of the run."""
        return Session([*self.job.program, "debug", *self.job.settings], is_quiet=True)

    def set_points(self) -> None:
        """Has ranks stop at their calls."""
        for rank in range(self.nodes):
            self.session.ask_all([f"break {rank} {it}" for it in self.points])

    def begin_again(self, superstep: int) -> None:
        """Comes to the begin of a superstep in another session, since one takes so many bytes of lines and no more."""
        self.session.close()
        self.session = self.begun()
        self.session.ask_all([f"break superstep {superstep}", "go"])
        self.set_points()

    def record(self, w: List[List[int]]) -> None:
        """Goes through a run of which the profile tells how many instructions each rank makes in each superstep."""
        self.set_points()
        whole = len(w)
        for superstep, steps in enumerate(w):
            if self.share >= 1:
                break
            if self.share >= WHOLE:
                whole = min(whole, superstep)
            if self.session.room < LEAST_ROOM and superstep > 0:
                self.begin_again(superstep)
            self.superstep(superstep, steps, superstep < whole)
            said = self.ask("turn")
            if superstep == len(w) - 1 and said:
                self.place(superstep, steps, is_over=True)
        self.whole = whole

    def superstep(self, superstep: int, steps: List[int], is_whole: bool) -> None:
        """Records a superstep, from where it begins to where all ranks have stopped."""
        self.place(superstep, [0] * self.nodes)
        self.printed += len(self.session.output(self.printed))
        row: Dict[str, Any] = {"areas": [self.ask(f"areas {rank}") for rank in range(self.nodes)], "calls": [], "printed": self.printed}
        for rank in range(self.nodes):
            if is_whole:
                self.calls(superstep, rank, steps, row["calls"])
            self.session.ask(f"step {rank} {ALL}")
        self.place(superstep, steps)
        row["requests"] = [self.ask(f"requests {rank}") for rank in range(self.nodes)]
        self.supersteps[superstep] = row
        self.count(row)

    def calls(self, superstep: int, rank: int, steps: List[int], found: List[Dict[str, Any]]) -> None:
        """Records the calls that a rank makes, each with the stop behind it."""
        node = self.session.node(rank)
        begun = node.ticks if node is not None else 0
        while node is not None and node.runs and self.share < 1:
            self.session.ask(f"go {rank} {ALL}")
            node = self.session.node(rank)
            if node is None or not node.runs or node.pc not in self.points:
                break
            if node.x[17] not in QUIET:
                found.append(self.call(node, begun))
                self.session.ask(f"step {rank} 1")
                ticks = [it if at < rank else min(node.ticks - begun + 1, it) if at == rank else 0 for at, it in enumerate(steps)]
                self.place(superstep, ticks, rank)
                node = self.session.node(rank)

    def call(self, node: Node, begun: int) -> Dict[str, Any]:
        """A call that a rank is about to make: where it is, its stack, and the bytes that it brings."""
        a, number = node.x[10:15], node.x[17]
        row: Dict[str, Any] = {"rank": node.rank, "before": node.ticks - begun, "regs": self.ask(f"regs {node.rank}")}
        row["stack"] = self.hex(node.rank, node.x[2], CALL_STACK)
        if number in REQUESTS and number not in GETS:
            start, count = (a[2], signed(a[3])) if number == SEND else (a[1], signed(a[4]))
            row["brings"] = self.hex(node.rank, start, min(count, MOST_BROUGHT))
        if number == SEND:
            row["tag"] = self.hex(node.rank, a[1], MOST_TAG)
        return row

    def hex(self, rank: int, start: int, count: int) -> str:
        """Bytes of a rank's memory, as far as they lie in it."""
        count = min(count, self.memory - start)
        return "".join(self.ask(f"bytes {rank} {start} {count}").split()) if count > 0 else ""

    def place(self, superstep: int, ticks: List[int], moved: int | None = None, is_over: bool = False) -> None:
        """Records what each rank has where the machine stands. If only one has moved since then, the others have what they had."""
        ranks = [self.rank(it) if moved in (None, it) else {**self.places[-1]["ranks"][it], "memory": []} for it in range(self.nodes)]
        row = {"superstep": superstep, "ticks": ticks, "isOver": is_over, "ranks": ranks}
        self.places.append(row)
        self.count(row)

    def rank(self, rank: int) -> Dict[str, Any]:
        """What one rank has."""
        names = ("regs", "areas", "queue", *(["fregs"] if self.job.code.is_float else []))
        row: Dict[str, Any] = dict(zip(names, self.ask_all([f"{it} {rank}" for it in names])))
        pages = sorted(set(self.pages(rank, node_of(row["regs"].splitlines()), row["areas"])))
        contents = self.ask_all([f"bytes {rank} {it * PAGE} {PAGE}" for it in pages])
        row["memory"] = [it for page, text in zip(pages, contents) for it in self.changed(rank, page, bytes.fromhex(text))]
        return row

    def pages(self, rank: int, node: Node | None, areas: str) -> Iterator[int]:
        """The pages of a rank's memory that are looked at."""
        places = [*self.ranges]
        if node is not None and node.x[2] < self.memory:
            places.append((node.x[2], MOST_STACK))
        places += [(int(words[3], 16), min(int(words[5]), MOST_AREA)) for words in map(str.split, areas.splitlines())]
        for start, count in places:
            yield from range(start // PAGE, -(-min(start + count, self.memory) // PAGE))
        # The heap is in use from its begin to the first page that has nothing.
        first = -(-self.job.code.need // PAGE)
        for page in range(first, first + MOST_HEAP):
            yield page
            if page not in self.known[rank]:
                break

    def changed(self, rank: int, page: int, content: bytes) -> Iterator[List[Any]]:
        """What has changed of a page, and is known from now on: an address and hexadecimal digits."""
        old = self.known[rank].get(page, ZEROS)
        if content == old:
            return
        self.known[rank][page] = content
        run: List[Any] = []
        for at in range(0, len(content), BLOCK):
            piece = content[at : at + BLOCK]
            if piece != old[at : at + BLOCK]:
                run = [run[0], run[1] + piece.hex()] if run else [page * PAGE + at, piece.hex()]
            elif run:
                yield run
                run = []
        if run:
            yield run

    def count(self, row: Dict[str, Any]) -> None:
        """Counts what a row takes in the page."""
        content = self.packer.compress(json.dumps(row).encode()) + self.packer.flush(zlib.Z_SYNC_FLUSH)
        self.size += 4 * len(content) // 3


def data_ranges(job: Job) -> Iterator[Tuple[int, int]]:
    """The program's data: of an executable what can be written, and of an image all of it."""
    left = MOST_DATA
    for start, count in parts_of(job):
        if count > 0 and left > 0:
            yield start, min(count, left)
        # Of each part whole pages are looked at, and there may be very many parts.
        left -= max(count, PAGE if count > 0 else 0)


def parts_of(job: Job) -> Iterator[Tuple[int, int]]:
    """Start and length of the parts of an image that can be written."""
    if job.kind != "elf":
        yield 0, job.code.need
        return
    with contextlib.suppress(struct.error):
        (start,) = struct.unpack_from("<I", job.content, 28)
        size, count = struct.unpack_from("<HH", job.content, 42)
        for i in range(count):
            kind, _, address, _, stored, room, flags = struct.unpack_from("<7I", job.content, start + i * size)
            if kind == elf.LOAD and flags & 2:
                yield address, room
            elif kind == elf.LOAD and flags & 1 == 0:
                yield address, stored


def record(job: Job, folder: pathlib.Path, points: List[int], room: Room) -> Dict[str, Any] | None:
    """The record of a run; nothing of one that takes more instructions than there is room for, whose profile and output take all of the room,
    or that has no profile."""
    profile = folder / "profile.csv"
    words = [*job.program, "run", *job.settings, "--report", "--profile", str(profile)]
    limit = min(job.options.limit, max(1, room.steps // job.options.nodes))
    words[words.index("--limit") + 1] = str(limit)
    done = children.call(words, stdout=subprocess.PIPE, stderr=subprocess.DEVNULL)
    found = of_run(done.stdout, done.returncode, writes_more=True)
    if found is None or len(done.stdout) > MOST_PROFILE:
        return None
    output, report = found
    if report.outcome.endswith("exhausted") and limit < job.options.limit:
        return None
    text = content_of(profile, MOST_PROFILE).decode()
    w = steps_of(text, job.options.nodes)
    whole = {"profile": text, "outcome": report.outcome, "output": bytes(output[:MOST_OUTPUT]).hex()}
    recorder = Recorder(job, points, room)
    try:
        recorder.count(whole)
        if recorder.share >= 1:
            return None
        recorder.record(w)
    finally:
        recorder.session.close()
    return {
        **whole,
        "supersteps": recorder.supersteps,
        "places": recorder.places,
        "left": left_out(recorder, len(w)),
    }


def left_out(recorder: Recorder, count: int) -> str:
    """What a record has, and what it does without, as a sentence."""
    last, whole = max(recorder.supersteps, default=-1), recorder.whole
    if whole >= count and last == count - 1:
        return "All stops of the run are recorded."
    parts = [f"All stops of the first {whole} supersteps are recorded"]
    if last >= whole:
        parts.append(f"of supersteps {whole} to {last} only where they begin and where all ranks wait")
    return "; ".join(parts) + (f"; {count - 1 - last} more supersteps are left out." if last < count - 1 else ".")


def steps_of(profile: str, nodes: int) -> List[List[int]]:
    """The instructions of each rank in each superstep, by a profile."""
    found: List[List[int]] = []
    for line in profile.splitlines()[1:]:
        superstep, rank, to, ticks, *_ = line.split(",")
        if not to:
            if int(superstep) == len(found):
                found.append([0] * nodes)
            found[int(superstep)][int(rank)] = int(ticks)
    return found
