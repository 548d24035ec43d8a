"""The progress of a sweep: runs done, runs left, and the longest run."""

from __future__ import annotations

import contextlib
import os
import select
import signal
import subprocess
import time

from .. import children
from ..files import own_content
from ..refusals import Refused, counted, show
from .result_store import Place
from .sweep_points import Run

PAUSE = 0.1
# Files that another host wrote may be seen here a little later.
LATE = 20
# Of what an engine says, bytes that are read at once, and that are kept.
CHUNK = 1 << 16
# Bytes of a number of seconds.
MOST_SECONDS = 40


class Progress:
    """Looks at the places of runs while an engine makes them."""

    def __init__(self, wanted: dict[Run, Place], copy: str) -> None:
        self.left = dict(wanted)
        self.copy = copy
        self.count = len(wanted)
        self.slowest: tuple[float, str] = (0.0, "")
        self.start = time.monotonic()

    def look(self) -> None:
        """Takes note of the runs that are over."""
        for run, place in list(self.left.items()):
            if place.is_over(self.copy):
                del self.left[run]
                with contextlib.suppress(Refused, ValueError):
                    self.slowest = max(self.slowest, (float(own_content(place.file("seconds", self.copy), MOST_SECONDS)), str(run)))

    def text(self) -> str:
        """What is done, what is left, and the slowest."""
        done = self.count - len(self.left)
        slowest = f"; the slowest took {self.slowest[0]:.1f} s: {self.slowest[1]}" if self.slowest[1] else ""
        return f"bspsweep: {done} of {counted(self.count, 'run')} done, {len(self.left)} left, {time.monotonic() - self.start:.0f} s{slowest}"

    def follow(self, words: list[str]) -> str:
        """Starts an engine and shows how far it is until it ends; what it said is answered."""
        # The commands are sh's, and GNU parallel has those of hosts run by none where the user has no SHELL.
        environment = {**os.environ, "SHELL": "/bin/sh"}
        given = {"stdin": subprocess.DEVNULL, "stdout": subprocess.PIPE, "stderr": subprocess.STDOUT, "env": environment}
        with children.running(words, signal.SIGTERM, **given) as child:
            said = self.heard(child)
        for _ in range(LATE):
            self.look()
            if not self.left:
                break
            time.sleep(PAUSE)
        show(self.text(), "\n")
        return said.decode(errors="replace")

    def heard(self, child: subprocess.Popen[bytes]) -> bytes:
        """Shows how far an engine is until it ends. Of what it says the end is answered: a host may write without one."""
        assert child.stdout is not None
        pipe, said, shown = child.stdout.fileno(), b"", 0.0
        is_over = False
        while not is_over:
            is_over = child.poll() is not None
            if time.monotonic() - shown >= PAUSE:
                self.look()
                show(self.text())
                shown = time.monotonic()
            if select.select([pipe], [], [], 0 if is_over else PAUSE)[0]:
                piece = os.read(pipe, CHUNK)
                said = (said + piece)[-CHUNK:]
                if not piece and not is_over:
                    time.sleep(PAUSE)
        return said
