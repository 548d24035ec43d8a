"""A second run of the program, built so that it notes values that do not fit into a `long` of 32 bits.

It is no part of the run, and what it finds is told behind all else.
"""

from __future__ import annotations

import argparse
import contextlib
import os
import pathlib
import re
import select
import signal
import subprocess
import time
from collections.abc import Iterator
from typing import Tuple

from .. import children
from ..children import patience
from ..files import content_of
from ..limits import MOST_PROGRAM, MOST_TICKS
from ..outputs import output_records
from ..outputs.library_notes import Note, NoteTeller, note_of
from ..outputs.output_demux import Marks
from ..prepare.clock_rate import with_clock_rate
from ..prepare.job import Job
from ..refusals import Refused
from .second_builds import ADVICE, SecondBuild, of_executable, of_sources

# The tables of bspcc --check=long: a text, a type, and a place with the types of the values there, of which a number with a point that becomes
# a whole one is the first.
TEXT = r'(?m)^(\.LC\d+):\n\t\.string\t"(.*)"$'
TYPE = r"(?m)^(\.Lubsan_type\d+):\n\t\.half\t(\d+)\n\t\.half\t\d+\n\t\.string\t\"'(.*)'\"$"
PLACE = (
    r"(?m)^\.Lubsan_data\d+:\n\t\.dword\t(\.LC\d+)\n\t\.word\t(\d+)\n\t\.word\t(\d+)\n\t\.dword\t(\.Lubsan_type\d+)(?:\n\t\.dword\t(\.Lubsan_type\d+))?"
)
WHOLE, LONG_TYPES = "0", ("long int", "long unsigned int")
# For how long this may go on behind the run, where the host is not busy, and in how many threads, since what looks
# at values makes half as many instructions again.
MORE_SECONDS, MOST_WORKERS = 0.5, 2
# For how long a build goes on behind the run of an executable, of which nothing was compiled before.
AGAIN_SECONDS = 20.0
# What is found in a superstep comes at its end. So the nodes have few instructions at first, of all of them together, and as long as they come
# to the end of these and nothing is found, the run is made again with more.
FIRST, TIMES = 1 << 27, 4
EXHAUSTED = 3
CHUNK = 1 << 16


def spare(options: argparse.Namespace) -> int:
    """How many processors a run leaves to others."""
    return len(os.sched_getaffinity(0)) - int(options.workers)


Place = Tuple[str, int, int]


def long_places(tables: str) -> dict[Place, str]:
    """Where a value of one source has 32 bits here and 64 elsewhere: path, line and column, and the type."""
    paths = {name: unescaped(text) for name, text in re.findall(TEXT, tables)}
    types = {name: spelled for name, kind, spelled in re.findall(TYPE, tables) if kind == WHOLE}
    found = {}
    for text, line, column, *names in re.findall(PLACE, tables):
        spelled = next((types[it] for it in names if it in types), "")
        if spelled in LONG_TYPES and text in paths:
            found[paths[text], int(line), int(column)] = spelled
    return found


def unescaped(text: str) -> str:
    """A path as the assembler would have it."""
    return os.fsdecode(text.encode("ascii", "replace").decode("unicode_escape").encode("latin-1", "replace"))


class Beside:
    """A build of a program's sources that notes if something does not fit into a `long`, and then a run of it. It goes on by itself but
    for what there is to `take` from its file `number`. If it cannot go on, it is over."""

    def __init__(self, folder: pathlib.Path) -> None:
        self.image = folder / "long.elf"
        self.began = self.run_began = 0.0
        self.notes: list[Note] = []
        self._options: argparse.Namespace | None = None
        self._second = SecondBuild([], {})
        self._is_again = False
        self._job: Job | None = None
        self._said = b""
        self._built = b""
        self._places: dict[Place, str] = {}
        self._marks: Marks | None = None
        self._limit = 0
        self._child: subprocess.Popen[bytes] | None = None
        self._left = contextlib.ExitStack()

    @property
    def number(self) -> int:
        """The file that has something to take at times, or -1."""
        stream = self._child.stdout if self._child is not None else None
        return -1 if stream is None else stream.fileno()

    def build(self, options: argparse.Namespace, content: bytes) -> None:
        """Begins the build where it may find something, once there is a processor for it: of sources, or of those of an executable, which
        has this content."""
        self.began, self._is_again = time.monotonic(), bool(content)
        if options.check or options.no_check:
            return
        self._second = of_executable(options.program, content, self.image) if content else of_sources(options, self.image)
        if self._second.words:
            self._options = options
            if spare(options) > 0:
                self._build()

    def run(self, job: Job) -> None:
        """Has the run be that of a job, in the place of any other."""
        self._job, self.notes = job, []
        if self._built:
            self._run_anew()

    def take(self) -> None:
        """Takes what there is, and goes on behind the end of the build."""
        with self._or_over():
            assert self._child is not None
            content = os.read(self.number, CHUNK)
            if content and self._marks is None:
                self._said += content
            elif content:
                self._note(content)
            if content:
                return
            status = self._child.wait()
            if self._marks is None:
                self._end()
                self._take_build(status)
            elif status == EXHAUSTED and not self.notes and self._limit < MOST_TICKS:
                self._run(min(TIMES * self._limit, MOST_TICKS))
            else:
                self._end()

    def wait(self, seconds: float) -> None:
        """Waits for its end behind a run that took so long: for as long again if it is being built, and half a second."""
        now, begin, more = time.monotonic(), self.began, patience(MORE_SECONDS)
        whole = now - begin
        if self._options is not None and spare(self._options) <= 0:
            begin = now
            self._build()
        while self._child is not None:
            is_built = self._marks is not None
            # Nothing is taken of it while more is told of the run.
            until = max(self.run_began + seconds if is_built else begin + 2 * whole, now) + more
            until += 0.0 if is_built or not self._is_again else patience(AGAIN_SECONDS)
            if not select.select([self.number], [], [], max(until - time.monotonic(), 0.0))[0]:
                self._cannot(is_built, "it was not built again in time")
                break
            self.take()
        self.close()

    def lines(self) -> list[str]:
        """What was found."""
        if self._job is None:
            return []
        why_not = [f"bsprun: {self._second.why_not}"] if self._second.why_not else []
        return why_not + NoteTeller(self._job.code, self._job.options.memory, {}, None, "", lambda _: "").lines(self.notes)

    def close(self) -> None:
        """Ends it."""
        self._options, self._built = None, b""
        self._end()

    def _build(self) -> None:
        with self._or_over():
            self._begin(self._second.words, signal.SIGTERM, self._second.environment)
            assert self._child is not None
            self._left.enter_context(children.kept(self._child))

    def _take_build(self, status: int) -> None:
        for tables in self._said.decode(errors="replace").split("\t.file\t"):
            self._places.update(long_places(tables))
        if status != 0:
            self._cannot(False, "its sources could not be compiled again")
        if status == 0 and self._places:
            self._built = content_of(self.image, MOST_PROGRAM)
            if self._job is not None:
                self._run_anew()

    def _cannot(self, is_built: bool, why: str) -> None:
        """Notes why an executable was not looked at."""
        if self._is_again and not is_built and self._options is not None:
            self._second = self._second._replace(why_not=f"{self._options.program}: {why}, {ADVICE}")

    def _run_anew(self) -> None:
        """Begins the run, which writes no files, and is the job's else."""
        assert self._job is not None
        options, job = self._job.options, self._job
        flags = output_records.RECORDS | (output_records.WRITES_FILES if options.out is not None else 0)
        flags |= output_records.FILLED if options.fill is not None else 0
        content = output_records.settings_in(self._built, flags, options.fill or 0, job.mark)
        with self._or_over():
            self._end()
            self.image.write_bytes(with_clock_rate(content, options.rate))
            self.run_began = time.monotonic()
            self._run(FIRST // options.nodes)

    def _run(self, limit: int) -> None:
        assert self._job is not None
        job, workers = self._job, max(1, min(MOST_WORKERS, self._job.options.nodes, spare(self._job.options)))
        settings = [str(self.image), *job.settings[1:], "--workers", str(workers), "--live"]
        settings[settings.index("--limit") + 1] = str(limit)
        self._end()
        self._begin([*job.program, "run", *settings], signal.SIGKILL, None)
        self._marks, self._limit = Marks(job.mark), limit

    def _begin(self, words: list[str], by: signal.Signals, environment: dict[str, str] | None) -> None:
        running = children.running(words, by, stdin=subprocess.DEVNULL, stdout=subprocess.PIPE, stderr=subprocess.DEVNULL, env=environment)
        self._child = self._left.enter_context(running)

    def _note(self, content: bytes) -> None:
        for kind, piece in self._marks.take(content) if self._marks is not None else ():
            record = output_records.record_of(kind, piece) if kind == output_records.NOTE else None
            note = note_of(record) if record is not None else None
            found = note.too_short if note is not None else None
            if note is not None and found and (spelled := self._places.get((found.path, note.one, note.other))):
                self.notes.append(note._replace(text=found.text(spelled)))

    def _end(self) -> None:
        self._left.close()
        self._child = self._marks = None

    @contextlib.contextmanager
    def _or_over(self) -> Iterator[None]:
        try:
            yield
        except (Refused, OSError, MemoryError, subprocess.SubprocessError):
            self.close()
