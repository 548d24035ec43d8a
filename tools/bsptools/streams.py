"""The standard streams, also when they are closed or full.

No file takes the number of one that is closed, what cannot be told on standard error changes no status, and what cannot be written on
standard output is told with its name.
"""

from __future__ import annotations

import contextlib
import errno
import io
import os
import sys
from typing import Any

from .refusals import LONE, about

STDIN, STDOUT, STDERR = range(3)
# Those that were closed when this process began.
_closed: set[int] = set()


class Output(io.FileIO):
    """Standard output. What the system refuses of it has its name, as it has of a file."""

    def write(self, content: Any) -> int:
        """Writes some of these bytes; answers how many."""
        try:
            return super().write(content)
        except OSError as error:
            error.filename = "standard output"
            raise


class Told(io.RawIOBase):
    """Standard error, of which what cannot be written is left out."""

    def writable(self) -> bool:
        """It is."""
        return True

    def fileno(self) -> int:
        """Its number."""
        return STDERR

    def isatty(self) -> bool:
        """Whether a person sees it."""
        return os.isatty(STDERR)

    def write(self, content: Any) -> int:
        """Takes all bytes."""
        with contextlib.suppress(OSError):
            write_all(content)
        return len(content)


def write_all(content: bytes) -> None:
    """Writes bytes on standard error."""
    rest = memoryview(content)
    while rest:
        rest = rest[os.write(STDERR, rest) :]


def report(content: bytes) -> None:
    """Writes what was asked for on standard error, or refuses to go on."""
    with about("standard error"):
        if STDERR in _closed:
            raise OSError(errno.EBADF, os.strerror(errno.EBADF))
        write_all(content)


def prepare() -> None:
    """Opens what is closed, and puts the streams above in the place of Python's own. A closed standard output takes nothing."""
    for number in (STDIN, STDOUT, STDERR):
        try:
            os.fstat(number)
        except OSError:
            _closed.add(number)
            opened = os.open(os.devnull, os.O_WRONLY if number == STDERR else os.O_RDONLY)
            if opened != number:
                os.dup2(opened, number)
                os.close(opened)
            # What this process starts would have it closed, and could take its number for something else.
            os.set_inheritable(number, True)
    # Python has none where it was closed.
    sys.stdin = sys.stdin or open(STDIN, encoding="utf-8", errors="surrogateescape", closefd=False)  # pylint: disable=consider-using-with
    output = io.BufferedWriter(Output(STDOUT, "w", closefd=False))
    sys.stdout = io.TextIOWrapper(output, encoding="utf-8", errors=LONE, line_buffering=output.isatty())
    # TextIOWrapper wants no more of what is below it than that it can be written to.
    told: Any = Told()
    sys.stderr = io.TextIOWrapper(told, encoding="utf-8", errors="backslashreplace", write_through=True)


def drop_output() -> None:
    """Leaves out what was not written on standard output, which Python would try to write once more."""
    # The number that this frees is the next one to be taken: there may be no other.
    os.close(STDOUT)
    opened = os.open(os.devnull, os.O_WRONLY)
    if opened != STDOUT:
        os.dup2(opened, STDOUT)
        os.close(opened)
