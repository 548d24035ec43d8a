"""Lines for a file of machines, from measurements."""

from __future__ import annotations

import contextlib
import fcntl
import os
import pathlib
import platform
import re
import time
from collections.abc import Iterator

from .. import files, limits, machines
from ..refusals import LONE, Refused, about, tell
from .estimates import Estimate, Fit

# A host's own name, as far as the first column of the file takes it.
UNFIT = re.compile(r"[^A-Za-z0-9_.+-]+")
# How long a run waits for others that write the same table, in seconds, and how often it looks. Each holds the lock for milliseconds.
MOST_WAIT, PAUSE = 60.0, 0.02
# How often a table is read again that another program has changed meanwhile.
MOST_TRIES = 100
HEAD = "# name   p   r   g   l   bytes   source\n"


def host() -> str:
    """The name of this host."""
    return UNFIT.sub("-", platform.node().partition(".")[0]).strip("-") or "host"


def of(name: str, found: Fit, how: str) -> str:
    """The line of a machine. How it was measured is told behind, with the intervals."""
    date = time.strftime("%Y-%m-%d")
    intervals = ", ".join(f"{it} {spelled(value)}" for it, value in (("r", found.rate), ("g", found.g), ("l", found.l)))
    source = " ".join(f"{host()}, {date}, {how}; 95 %: {intervals}".split())
    line = f"{name}-{found.p}  {found.p}  {found.rate.value:.4g}  {found.g.value:.4g}  {found.l.value:.4g}  {found.word}  {source}"
    if machines.machine_of(line) is None:
        raise Refused(f"p = {found.p}: the measured figures are impossible: {line}", "the host may have been too busy: measure again with more --rounds")
    return line


def spelled(value: Estimate) -> str:
    """An interval."""
    return f"{value.low:.4g} to {value.high:.4g}"


def expect_table(path: str | None) -> None:
    """Refuses a file that is there and has something else than lines of machines."""
    if path is not None and os.path.isfile(path):
        machines.read(pathlib.Path(path))


class Changed(Exception):
    """Another program has changed the table since it was read."""


def add(path: str, lines: list[str]) -> None:
    """Adds lines to a file, in the place of those of the same names. Lines that other runs add at the same time stay."""
    with _locked(path):
        for _ in range(MOST_TRIES):
            with contextlib.suppress(Changed):
                _replace(path, lines)
                return
    raise Refused(f"{path} was not written: another program changes it all the time")


def _replace(path: str, lines: list[str]) -> None:
    """Reads a table, and replaces it by one with these lines."""
    expect_table(path)
    old = _text(path)
    names = {it.split(None, 1)[0] for it in lines}
    kept = [it for it in old.splitlines() if it.split(None, 1)[:1] == [] or it.split(None, 1)[0] not in names]
    text = "".join(f"{it}\n" for it in [*kept, *lines])
    with files.replaced(path) as written, about(path):
        with open(written, "wb") as file:
            file.write((("" if old else HEAD) + text).encode(errors=LONE))
        # An editor takes no lock, nor does a run on a file system that has none.
        if _text(path) != old:
            raise Changed


def _text(path: str) -> str:
    """What a table has; nothing if it is not there, or is a pipe."""
    return files.text_content(path, limits.MOST_TABLE).decode(errors="surrogateescape") if os.path.isfile(path) else ""


@contextlib.contextmanager
def _locked(path: str) -> Iterator[None]:
    """A block in which no other run changes a table. The lock is on its folder, since the table itself is replaced. If the folder cannot be
    locked, a line says so."""
    if os.path.exists(path) and not os.path.isfile(path):
        yield
        return
    folder = os.path.dirname(os.path.realpath(path))
    number, why = -1, ""
    try:
        try:
            number = os.open(folder, os.O_RDONLY | os.O_DIRECTORY)
            _lock(number)
        except OSError as error:
            why = error.strerror or ""
        if why:
            told = f"if another run writes {path} at the same time, check that all lines are there"
            tell([f"bspprobe: {folder} cannot be locked ({why}): {told}"])
        yield
    finally:
        if number >= 0:
            os.close(number)


def _lock(number: int) -> None:
    """Waits for the lock of an open folder. Whoever may read the folder may hold it, so it does not wait forever."""
    end = time.monotonic() + MOST_WAIT
    while True:
        try:
            fcntl.flock(number, fcntl.LOCK_EX | fcntl.LOCK_NB)
            return
        except BlockingIOError:
            if time.monotonic() >= end:
                raise
        time.sleep(PAUSE)
