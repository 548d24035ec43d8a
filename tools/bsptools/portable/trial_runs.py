"""Runs of one program under choices, how they end, and the first choice that changes that."""

from __future__ import annotations

import argparse
import concurrent.futures
import functools
import itertools
import pathlib
import subprocess
from collections.abc import Callable, Iterator, Sequence
from dataclasses import dataclass, field
from typing import NamedTuple

from .. import emulator, limits
from ..framed.replays import Replays, bytes_of
from ..framed.session import Node, Session
from ..limits import MOST_POINTS, MOST_TICKS
from ..outputs import contested_bytes, output_records, report
from ..outputs.output_demux import OUTPUT, Marks
from ..outputs.written_files import Files
from ..prepare.library_choices import WORD, Choices, Cut, Point, image_with
from ..program.code import Code
from ..refusals import Refused, lines_of, show
from .call_log import CALLS, Superstep, supersteps

# Bytes above the program's memory, where messages and calls are kept, and what the library says where they are too few.
ROOM = 1 << 22
NO_ROOM = b": there is no room for what bsprun --portable keeps\n"
# The kind of the record with a sum over a rank's variables.
SUM = ord("v")
# What stands in front of the records of a run, where its program writes no others. No text has such bytes.
LOG_MARK = b"\0bsprun\5\0\1\2\3\4\5\6"
# How many more instructions a run under choices may make, and how many times as many.
MORE_TICKS, TIMES = 100_000_000, 20
# Bytes that are looked at where a call names some.
MOST_SHOWN = 1 << 16


# Numbers of images, which have a folder in common.
IMAGES = itertools.count()


class NoRoom(Exception):
    """The messages or calls of a superstep find no room above the program's memory."""


@dataclass(frozen=True)
class Ending:
    """What a run wrote, and how it ended; files are there where --out has the program write them, each with its rank and its name. Its last
    superstep, the sum of all w, the largest m, and sums of ranks over their variables, are no part of what is compared."""

    output: bytes
    outcome: str
    files: tuple[tuple[int, bytes, bytes], ...]
    last: int = field(compare=False)
    ticks: int = field(compare=False)
    messages: int = field(compare=False)
    sums: tuple[tuple[int, bytes], ...] = field(compare=False, default=())


class Subject(NamedTuple):
    """A program that is tried: what the command line says, the words that start the emulator, what is known of its code, the settings of
    its run, a folder for images, what stands before the records of files that it writes, nothing where it writes none, and what makes runs
    beside one another."""

    options: argparse.Namespace
    program: list[str]
    code: Code
    settings: list[str]
    folder: pathlib.Path
    mark: bytes
    runs: emulator.Runs

    @property
    def log_mark(self) -> bytes:
        """What stands before the records of a run that is logged."""
        return self.mark or LOG_MARK

    @property
    def limit(self) -> int:
        """The most instructions of a node in the run as it is."""
        return int(self.settings[self.settings.index("--limit") + 1])

    def begin(self, file: pathlib.Path) -> concurrent.futures.Future[subprocess.CompletedProcess[bytes]]:
        """Begins a run of the program as it is, which writes what is contested into a file."""
        workers = ["--workers", str(self.options.workers)]
        return self.runs.begin([*self.program, "run", *self.settings, *workers, "--report", "--contested", str(file)])

    def command(self, nodes: int, limit: int) -> list[str]:
        """What runs the program as it is, on some number of nodes and with another limit."""
        settings = list(self.settings)
        settings[settings.index("--nodes") + 1] = str(nodes)
        settings[settings.index("--limit") + 1] = str(limit)
        return [*self.program, "run", *settings, "--report"]


def ending_of(done: subprocess.CompletedProcess[bytes], mark: bytes, calls: list[bytes] | None = None) -> Ending:
    """What a run with a report came to: its output without the records, the files and the sums that these tell of. Records of calls are added
    to a list, if one is given."""
    found = report.brief(done.stdout) if report.is_reported(done.returncode) else None
    if found is None:
        raise Refused("the program could not be run again", *lines_of(done.stderr))
    marks, written, output, sums = Marks(mark), Files(), bytearray(), {}
    for kind, piece in marks.take(bytes(found.output)):
        if kind == OUTPUT:
            output += piece
        elif kind == CALLS:
            if calls is not None:
                calls.append(piece)
        elif kind != output_records.NOTE and (record := output_records.record_of(kind, piece)) is not None:
            if kind == SUM:
                sums[record.rank] = record.content
            else:
                written.take(record)
    files = tuple((it.rank, it.name, bytes(it.content)) for it in written.files.values())
    return Ending(bytes(output + marks.left()), found.outcome, files, found.last, found.work, found.messages, tuple(sorted(sums.items())))


def with_log(content: bytes, mark: bytes, writes_files: bool) -> bytes:
    """An image that tells of itself behind this mark, and has no other records but where it writes files."""
    flags = output_records.RECORDS | output_records.WRITES_FILES if writes_files else 0
    return output_records.settings_in(content, flags, 0, mark)


class Stop(NamedTuple):
    """A rank at one of the addresses at which it was to stop: which of its stops it is, from 0 on, bytes that the call names, and the tag that
    it names."""

    node: Node
    number: int
    content: bytes
    tag: bytes = b""


class Begun(NamedTuple):
    """A run that was begun, the file into which it writes what is contested, if it does, and whether it is logged."""

    run: concurrent.futures.Future[subprocess.CompletedProcess[bytes]]
    file: pathlib.Path | None
    is_logged: bool


class Trials:
    """Runs of a build of the program under choices. `ticks` is no fewer than the instructions of a node in the run as it is."""

    def __init__(self, subject: Subject, content: bytes, code: Code, ticks: int) -> None:
        self.subject, self.content, self.code, self.ticks = subject, content, code, ticks
        # The program has as much memory behind its variables as it has as it is, but where a node has not so much.
        self.most_memory = limits.of(subject.options.large).memory
        self.memory = min(subject.options.memory + max(code.need - subject.code.need, 0), self.most_memory - ROOM)
        self.room = ROOM if code.need <= self.memory else 0
        self.begun: dict[Choices, list[Begun]] = {}
        self.known: dict[Choices, Ending] = {}
        self.contested: dict[Choices, contested_bytes.Found] = {}
        self.logs: dict[Choices, list[Superstep]] = {}
        # The runs that found no room for what is kept.
        self.roomless: set[Choices] = set()
        # Where the variables lie of which sums are told, and the runs in which nobody asks for them.
        self.summed: tuple[Cut, ...] = ()
        self.unsummed: set[Choices] = set()

    @property
    def nodes(self) -> int:
        """The number of nodes."""
        return int(self.subject.options.nodes)

    @property
    def limit(self) -> int:
        """The most instructions of a node: a run under choices that goes on and on has an end."""
        return min(TIMES * self.ticks + MORE_TICKS, MOST_TICKS)

    def _settings_for(self, choices: Choices, is_told: bool) -> list[str]:
        """The settings of a run, of which the image is written. It has records, unless it is one of the debugger, which parts none."""
        image = self.subject.folder / f"chosen{next(IMAGES)}.elf"
        if is_told and not choices.cuts and choices not in self.unsummed:
            choices = choices._replace(is_summed=bool(self.summed), cuts=self.summed)
        content = image_with(self.content, self.with_memory(choices))
        image.write_bytes(with_log(content, self.subject.log_mark, bool(self.subject.mark)) if is_told else content)
        settings = [str(image), *self.subject.settings[1:]]
        settings[settings.index("--memory") + 1] = str(min(self.subject.options.memory + self.room, self.most_memory))
        settings[settings.index("--limit") + 1] = str(self.limit)
        return settings

    def with_memory(self, choices: Choices) -> Choices:
        """Choices with the memory that is left to the program."""
        return choices._replace(memory=self.memory if self.room else 0)

    def go_without_room(self) -> None:
        """Leaves messages and calls to the machine, which has room for them."""
        self.room = 0
        for begun in self.begun.values():
            for it in begun:
                it.run.cancel()
        self.begun.clear()
        self.roomless.clear()
        self.known.clear()
        self.contested.clear()
        self.logs.clear()

    def run(self, choices: Choices) -> Ending:
        """What a run comes to."""
        return self.run_all([choices])[0]

    def run_all(self, tried: Sequence[Choices], is_contested: bool = False) -> list[Ending]:
        """What runs come to, which are made side by side; also what is contested in each, if that is asked for."""
        self.begin_all(tried, is_contested)
        for it in tried:
            self.end(it)
        if not self.roomless.isdisjoint(tried):
            raise NoRoom
        return [self.known[it] for it in tried]

    def begin_all(self, tried: Sequence[Choices], is_contested: bool = False, logged: Sequence[Choices] = ()) -> None:
        """Begins those of these runs that are neither known nor begun. Some are logged."""
        for it in dict.fromkeys(tried):
            is_logged = it in logged
            if it in self.roomless or not self.lacks(it, is_contested, is_logged):
                continue
            file = self.subject.folder / f"contested{next(IMAGES)}.csv" if is_contested else None
            # The image is made once there is a processor for the run: whether sums are wanted may be known by then.
            run = self.subject.runs.begin(functools.partial(self.command, it._replace(is_logged=is_logged), file))
            self.begun.setdefault(it, []).append(Begun(run, file, is_logged))

    def is_over(self, choices: Choices) -> bool:
        """Whether a run that was begun is over."""
        return all(it.run.done() for it in self.begun.get(choices, ()))

    def end(self, choices: Choices) -> None:
        """Waits for a run that was begun."""
        for run, file, is_logged in self.begun.pop(choices, ()):
            if not run.done():
                show("bsprun: trying other choices")
            self.take(choices, run.result(), file, is_logged)

    def take(self, choices: Choices, done: subprocess.CompletedProcess[bytes], file: pathlib.Path | None = None, is_logged: bool = False) -> None:
        """Takes down what a run came to."""
        calls: list[bytes] = []
        ending = ending_of(done, self.subject.log_mark, calls if is_logged else None)
        if NO_ROOM in ending.output and ending.outcome != "ended":
            self.roomless.add(choices)
            return
        self.known[choices] = ending
        if is_logged:
            self.logs[choices] = supersteps(calls, ending.last)
        if file is not None:
            self.contested[choices] = contested_bytes.read(file, self.nodes, ending.last)

    def lacks(self, choices: Choices, is_contested: bool, is_logged: bool) -> bool:
        """Whether something is not known of a run, and none was begun that tells it."""
        begun = self.begun.get(choices, ())
        is_known = choices in self.known or bool(begun)
        is_contested = is_contested and choices not in self.contested and all(it.file is None for it in begun)
        return not is_known or is_contested or (is_logged and choices not in self.logs and not any(it.is_logged for it in begun))

    def command(self, choices: Choices, file: pathlib.Path | None = None) -> list[str]:
        """What makes a run, which also writes what is contested into a file where one is given."""
        workers = ["--workers", str(self.subject.options.workers)]
        more = ["--contested", str(file)] if file is not None else []
        return [*self.subject.program, "run", *self._settings_for(choices, is_told=True), *workers, "--report", *more]

    def log(self, choices: Choices) -> list[Superstep]:
        """The calls of a run."""
        self.begin_all([choices], logged=[choices])
        self.end(choices)
        if choices in self.roomless:
            raise NoRoom
        return self.logs[choices]

    def replays(self, choices: Choices) -> Replays:
        """The same run in the debugger, up to the next one that is asked for."""
        return Replays([*self.subject.program, "debug", *self._settings_for(choices, is_told=False)], self.subject.options.memory)

    def first(self, choices: Choices, is_other: Callable[[Choices], bool]) -> Choices:
        """The same choices up to the first that, with those before it, makes the run come to something else; `until` is that point."""

        def at(point: Point) -> bool:
            return is_other(choices._replace(until=point))

        supersteps = max(self.run(it).last for it in (choices, Choices())) + 1
        superstep = least(0, supersteps, lambda it: at(Point(it, 0, 0))) - 1
        rank = least(0, self.nodes, lambda it: at(Point(superstep, it, 0))) - 1
        most = 1
        while most < WORD >> 1 and not at(Point(superstep, rank, most)):
            most *= 2
        index = least(most // 2, most, lambda it: at(Point(superstep, rank, it))) - 1
        return choices._replace(until=Point(superstep, rank, index))


def least(low: int, high: int, holds: Callable[[int], bool]) -> int:
    """A number above `low` for which something holds, and not for the one before it: it holds at `high`, and not at `low`."""
    while high - low > 1:
        middle = (low + high) // 2
        low, high = (low, middle) if holds(middle) else (middle, high)
    return high


def stops(
    replays: Replays,
    code: Code,
    script: list[str],
    points: list[tuple[int, int]],
    named: Callable[[Node], tuple[int, int]],
    tagged: Callable[[Node], tuple[int, int]] | None = None,
) -> Iterator[Stop]:
    """The stops of a run at these points, each a rank and an address, from where a script comes to. `named` says which bytes of the memory
    a call names, by address and number, and `tagged` which tag."""
    counts: dict[int, int] = {}
    with replays.session() as session:
        session.ask_all([*script, *(f"break {rank} {address}" for rank, address in points[: MOST_POINTS - 24])])
        while (found := session.ask("go").accepted()[0].split())[:3] == ["stopped", "at", "rank"]:
            node = looked(session, code, int(found[3]))
            counts[node.rank] = counts.get(node.rank, -1) + 1
            tag = memory_of(session, node.rank, *tagged(node)) if tagged is not None else b""
            yield Stop(node, counts[node.rank], memory_of(session, node.rank, *named(node)), tag)


def looked(session: Session, code: Code, rank: int) -> Node:
    """A node as it stands, with what is on its stack, which is not looked at in full where it is deep."""
    node = session.node(rank)
    if node is None:
        raise Refused(f"there is no rank {rank}")
    depth = code.names.get("__stack_top", 0) - node.x[2]
    return node._replace(stack=memory_of(session, rank, node.x[2], depth))


def memory_of(session: Session, rank: int, address: int, count: int) -> bytes:
    """Memory of a node, of which not too much is shown; nothing where it does not lie in the memory."""
    reply = session.ask(f"bytes {rank} {address} {min(max(count, 0), MOST_SHOWN)}")
    return bytes_of(reply.lines) if reply.is_done else b""
