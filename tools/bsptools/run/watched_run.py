"""A run in a terminal: writes output superstep by superstep, until the run, the time limit or Ctrl-C ends it."""

from __future__ import annotations

import array
import contextlib
import errno
import fcntl
import importlib
import os
import re
import select
import signal
import stat
import subprocess
import sys
import termios
import time
from typing import NamedTuple

from .. import children, files, streams
from ..outputs import report
from ..outputs.library_notes import KeptNotes, note_of
from ..outputs.output_demux import ERROR, OUTPUT, Marks, Tail, new_digest
from ..outputs.output_records import NOTE, Record, record_of
from ..outputs.written_files import Files
from ..prepare.job import Job
from ..refusals import UNWRITTEN, put, show, tell
from .found_files import Finder, Wanted
from .long_overflows import Beside
from .repeated_output import Repeated

# How a program says at its start that it takes fewer nodes: bsplib/src/bsp.c.
FEWER = re.compile(rb"^bsp: rank 0: there are more nodes than the program takes in bsp_begin: bsprun -n (\d+) ", re.MULTILINE)
# The first superstep's output is kept until nothing has come for so long, or so much, since that line may stand in it.
PAUSE, MOST_KEPT = 0.1, 1 << 20
# After how many seconds the time is shown, at a terminal. Where the output is a pipe, for how many nothing has come and all has been read.
QUIET_SECONDS, PIPED_SECONDS = 2, 0.9
CHUNK = 1 << 16
# What a program of bspcc finds at address 0: bsplib/src/machine.h, BSP_NULL_WORD.
NULL_TEXT = (0xE5A6D39B).to_bytes(4, "little") * 4
# Stands behind a line that the program has not ended, in reverse video where the terminal has that.
PLAIN_MARK = "%"
MARK = f"\033[7m{PLAIN_MARK}\033[m"


class Done(NamedTuple):
    """How a run ended: its status, its report if it has one, what the emulator said, and the notes and files of its program. `seconds` is how
    long it took, `is_line_whole` whether its output has ended its last line, `has_null` whether that has what NULL points to, and `digest`
    that of its output and standard error, where it will be compared with those of other runs."""

    status: int
    report: report.Report | None
    said: bytes
    seconds: float
    notes: KeptNotes
    files: Files
    is_line_whole: bool
    has_null: bool
    digest: bytes | None


class Stopped(Exception):
    """The clock has ended a run, after so long. The emulator has written so many bytes up to then, and its program these files."""

    def __init__(self, seconds: float, written: int, files: Files) -> None:
        super().__init__(seconds, written)
        self.seconds, self.written, self.files = seconds, written, files


class Interrupted(Stopped):
    """Ctrl-C has."""


class Fewer(Exception):
    """A run was given up at its start: the program takes so many nodes. Nothing of what it wrote was written."""

    def __init__(self, count: int) -> None:
        super().__init__(count)
        self.count = count


class Outputs:
    """The standard streams of nodes, written as they come."""

    def __init__(self, mark: bytes, nodes: int, finder: Finder, repeated: Repeated, is_compared: bool) -> None:
        self.marks, self.tail = Marks(mark), Tail()
        self.finder, self.repeated = finder, repeated
        # Of all that was written, if that is wanted.
        self._sum = new_digest() if is_compared else None
        self.nodes, self.received = nodes, 0
        self.notes = KeptNotes()
        # A run without an end may write to files without an end, so no more is kept than the files have.
        self.files = Files()
        # Whether what stands at address 0 was written, as by puts(NULL).
        self.has_null = False
        self.kept: list[tuple[bool, bytes]] | None = [] if nodes > 1 else None
        # Whether the last line at the terminal, to which both may go, is a whole one, and whether the time is shown behind it.
        self.is_line_whole, self.is_shown = True, False
        # Who reads a pipe may write to the terminal too, somewhat later.
        self.is_piped, self.given = stat.S_ISFIFO(os.fstat(streams.STDOUT).st_mode), 0.0

    def take(self, content: bytes) -> None:
        """Writes what has come, but for what may be a mark or the report. Where that begins is found first: a program can print its mark with
        a length that would reach into the report."""
        self.received += len(content)
        self._take(self.tail.take(content))
        if self.finder.names and not self.repeated.is_long:
            raise Wanted(self.finder.names)
        if sum(len(it) for _, it in self.kept or []) > MOST_KEPT:
            self.begin()

    def _take(self, content: bytes) -> None:
        """Writes what certainly is none of the report, but for what may be a mark."""
        for kind, piece in self.marks.take(content):
            self.has_null = self.has_null or NULL_TEXT in piece
            if kind not in (OUTPUT, ERROR):
                self._keep(record_of(kind, piece))
            # What a run writes behind a question for a file is another with that file.
            elif not self.finder.names:
                self._give(kind == ERROR, piece)

    def _keep(self, record: Record | None) -> None:
        if record is None:
            return
        note = note_of(record) if record.kind == NOTE else None
        if note is not None:
            self.notes.take(note)
        elif record.kind != NOTE:
            self.files.take(record)
        self.finder.look(record, note, self.repeated.is_long)

    def begin(self) -> None:
        """Writes what was kept of the first superstep."""
        kept, self.kept = self.kept or [], None
        found = FEWER.search(b"".join(it for _, it in kept))
        if found and int(found[1]) < self.nodes:
            raise Fewer(int(found[1]))
        for is_error, piece in kept:
            self._give(is_error, piece)

    def end(self, is_reported: bool = True) -> report.Report | None:
        """Writes what is left, but for the report, which is answered if there is one."""
        left = self.tail.left()
        parted = report.part(left) if is_reported else None
        output, found = parted or (memoryview(left), None)
        self._take(bytes(output))
        self._give(False, self.marks.left())
        self.begin()
        self.clear()
        self.end_line()
        return found

    @property
    def digest(self) -> bytes | None:
        """That of all that was written."""
        return self._sum.digest() if self._sum is not None else None

    def end_line(self) -> None:
        """Ends a line at the terminal that the program has not ended, so that what is shown next has a line of its own, as a shell's
        prompt: with a mark, since it is none of the program's."""
        if not self.is_line_whole and sys.stderr.isatty() and os.isatty(streams.STDOUT):
            print(MARK if os.environ.get("TERM", "dumb") != "dumb" else PLAIN_MARK, file=sys.stderr, flush=True)
            self.is_line_whole = True

    def _give(self, is_error: bool, content: bytes) -> None:
        if not content:
            return
        if self.kept is not None:
            self.kept.append((is_error, content))
            return
        content = self.repeated.fresh(is_error, content)
        if not content:
            return
        self.clear()
        if self._sum is not None:
            self._sum.update(content)
        if is_error:
            sys.stderr.buffer.write(content)
        else:
            put(content)
        self.is_line_whole, self.given = content.endswith(b"\n"), time.monotonic()

    def show(self, seconds: float) -> None:
        """Shows the time at a terminal, so that one sees that a long run lives."""
        if self.is_line_whole and (not self.is_piped or time.monotonic() - self.given >= PIPED_SECONDS and is_all_read(streams.STDOUT)):
            show(f"bsprun: running, {int(seconds)} s")
            self.is_shown = True

    def clear(self) -> None:
        """Takes the time away."""
        if self.is_shown:
            show("")
            self.is_shown = False


def is_all_read(pipe: int) -> bool:
    """Whether nothing that was written into a pipe is left in it. On a busy host its reader may come to it late."""
    left = array.array("i", [0])
    with contextlib.suppress(OSError):
        fcntl.ioctl(pipe, termios.FIONREAD, left)
    return left[0] == 0


class Watch:
    """A run of a job, which the clock ends after so many seconds if it is given. What goes beside it is looked after."""

    def __init__(self, job: Job, wall: float | None, beside: Beside, repeated: Repeated) -> None:
        self.job, self.wall, self.beside = job, wall, beside
        self.start = time.monotonic()
        self.outputs = Outputs(job.mark, job.options.nodes, Finder(job), repeated, job.options.warn)
        self.said = bytearray()
        self.is_prepared = False

    @property
    def seconds(self) -> float:
        """How long it goes on already."""
        return time.monotonic() - self.start

    def run(self) -> Done:
        """Runs it to its end. `Stopped` is raised if the clock ends it, and `Interrupted` where Ctrl-C does; what was written stands then."""
        options = self.job.options
        words = [*self.job.program, "run", *self.job.settings, "--workers", str(options.workers), "--report"]
        if options.profile is None:
            return self._run([*words, "--live"])
        # The emulator tells the output of a run with a profile at its end.
        with files.replaced(options.profile) as written:
            is_new = os.path.isfile(written)
            with files.as_text(written) as name, children.removed(written) if is_new else contextlib.nullcontext():
                done = self._run([*words, "--profile", name])
                if is_new and (done.status == UNWRITTEN or done.status < 0):
                    # There is a part of it at the most, and what stands in its place stays.
                    os.truncate(written, 0)
                return done

    def _run(self, words: list[str]) -> Done:
        with children.running(words, stdin=subprocess.DEVNULL, stdout=subprocess.PIPE, stderr=subprocess.PIPE) as child:
            try:
                self._follow(child)
                status, seconds = child.wait(), self.seconds
            except (Stopped, children.Ended) as ended:
                if isinstance(ended, children.Ended) and ended.number != signal.SIGINT:
                    raise
                seconds = self.seconds
                child.kill()
                kind = Interrupted if isinstance(ended, children.Ended) else Stopped
                try:
                    with contextlib.suppress(Fewer, Wanted):
                        self._follow(child, is_ended=True)
                        self.outputs.end()
                except BrokenPipeError:
                    # Ctrl-C ends who reads the output too, as a tee. Where the ranks were is told on standard error.
                    if kind is not Interrupted:
                        raise
                    streams.drop_output()
                raise kind(seconds, self.outputs.received, self.outputs.files) from None
            finally:
                self.outputs.clear()
        found = self.outputs.end(report.is_reported(status, self.job.options.profile is not None))
        outputs = self.outputs
        return Done(status, found, bytes(self.said), seconds, outputs.notes, outputs.files, outputs.is_line_whole, outputs.has_null, outputs.digest)

    def _follow(self, child: subprocess.Popen[bytes], is_ended: bool = False) -> None:
        """Takes what an emulator writes until it ends. One that was ended is not waited for any more."""
        assert child.stdout is not None and child.stderr is not None
        ready = select.poll()
        left = {child.stdout.fileno(), child.stderr.fileno()}
        for number in left:
            ready.register(number, select.POLLIN)
        # It tells where who reads it has gone.
        ready.register(streams.STDOUT, 0)
        while left:
            found = self._ready(ready, PAUSE if self.outputs.kept else self._patience(is_ended))
            if found.pop(streams.STDOUT, 0) & select.POLLERR and stat.S_ISFIFO(os.fstat(streams.STDOUT).st_mode):
                raise BrokenPipeError(errno.EPIPE, os.strerror(errno.EPIPE))
            for number in found:
                content = os.read(number, CHUNK)
                if not content:
                    ready.unregister(number)
                    left.remove(number)
                elif number == child.stdout.fileno():
                    self.outputs.take(content)
                else:
                    self.said += content
            if not found and self.outputs.kept:
                self.outputs.begin()
            if not is_ended:
                self._look_at_clock()

    def _ready(self, ready: select.poll, seconds: float) -> dict[int, int]:
        """What there is to look at within so many seconds, but for what goes beside, which has its turns here."""
        until = time.monotonic() + seconds
        while True:
            number = self.beside.number
            if number >= 0:
                ready.register(number, select.POLLIN)
            found = dict(ready.poll(1000 * max(until - time.monotonic(), 0.0)))
            if number >= 0:
                ready.unregister(number)
            if found.pop(number, 0):
                self.beside.take()
            elif not found:
                return found
            if found:
                return found

    def _patience(self, is_ended: bool) -> float:
        """For how many seconds nothing need be looked at."""
        left = 1.0 if self.wall is None or is_ended else min(self.wall - self.seconds, 1.0)
        return max(left, 0.0)

    def _look_at_clock(self) -> None:
        if self.wall is not None and self.seconds >= self.wall:
            raise Stopped(self.seconds, self.outputs.received, self.outputs.files)
        if self.seconds >= QUIET_SECONDS:
            self.outputs.show(self.seconds)
            if not self.is_prepared:
                self._prepare()
            for name in self.outputs.finder.missing:
                tell([f"bsprun: the program looks for {name}, which is not here: give a file from elsewhere by --file PATH"])
            self.outputs.finder.missing.clear()

    def _prepare(self) -> None:
        """Reads what is wanted where Ctrl-C ends a long run, whose person waits then."""
        importlib.import_module(".rank_positions", __package__)

        self.is_prepared = True
        with contextlib.suppress(OSError, MemoryError, ImportError):
            self.job.code.know_names()
