"""Runs a program with limits on its time and its output."""

from __future__ import annotations

import os
import select
import signal
import subprocess
import time
from collections.abc import Mapping, Sequence
from typing import NamedTuple, Optional

from .. import children
from ..refusals import tell

CHUNK, MOST_SAID = 1 << 16, 1 << 18
ENDED, LATE, LONG = "ended", "late", "long"
# The part of its time that a busy program has a processor at least, how many times its time it may take without that, and for how many seconds
# more it is waited for at least.
LEAST_SHARE, MOST_WAITS, PAUSE, POLL = 0.5, 10, 0.1, 0.002
# For how many seconds what a program has started may go on after it, and after how many a person is told what takes so long.
AFTER, QUIET = 1.0, 10.0


class Ran(NamedTuple):
    """What came of a program: whether it ended by itself, ran too long or wrote too much; its status, negative where a signal has ended it; and
    what it wrote, of the second stream so much as a person would read."""

    how: str
    status: int
    output: bytes
    said: bytes


def run(
    words: Sequence[str], seconds: float, most: int, environment: Optional[Mapping[str, str]] = None, is_busy: bool = False, name: str = ""
) -> Ran:
    """Runs a program with nothing to read. One that is busy all the time, as a run of the emulator, has more time if the host gave it less of
    a processor, or stopped it. What it has started ends soon after it. If it has a name, a line says that it takes long."""
    given = {"stdin": subprocess.DEVNULL, "stdout": subprocess.PIPE, "stderr": subprocess.PIPE, "env": environment}
    until = time.monotonic() + seconds
    last = until + (MOST_WAITS - 1) * seconds if is_busy else until
    parts = {1: bytearray(), 2: bytearray()}
    how, over = ENDED, 0.0
    quiet = time.monotonic() + QUIET if name else last
    with children.running(words, signal.SIGKILL, **given) as child:
        assert child.stdout is not None and child.stderr is not None
        left = {child.stdout.fileno(): 1, child.stderr.fileno(): 2}
        while left and how == ENDED:
            ready, _, _ = select.select(list(left), [], [], min(max(until - time.monotonic(), 0), AFTER))
            for number in ready:
                content = os.read(number, CHUNK)
                part = parts[left[number]]
                if not content:
                    del left[number]
                elif left[number] == 1 or len(part) < MOST_SAID:
                    part += content
            over = over or (time.monotonic() + AFTER if children.has_ended(child) else 0.0)
            if over and time.monotonic() >= over:
                children.end_group(child)
            if time.monotonic() >= quiet < last:
                tell([f"bspcheck: {name} has not ended yet: it may take {seconds:g} s"])
                quiet = last
            if len(parts[1]) > most:
                how = LONG
            elif time.monotonic() >= until:
                rest = seconds * LEAST_SHARE - children.processor_seconds(child)
                if rest <= 0 or time.monotonic() >= last:
                    how = LATE
                until = min(time.monotonic() + max(rest, PAUSE), last)
        last = time.monotonic() + max(until - time.monotonic(), 1)
        while how == ENDED and not children.has_ended(child):
            time.sleep(POLL)
            how = LATE if time.monotonic() >= last else ENDED
        children.end_group(child)
        children.end(child)
    return Ran(how, child.returncode, bytes(parts[1]), bytes(parts[2]))
