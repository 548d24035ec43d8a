"""Runs tasks in parallel, each in a forked process that returns its result by a pipe."""

from __future__ import annotations

import json
import os
import select
import signal
import sys
import traceback
from collections.abc import Callable, Sequence
from typing import Any, Dict, List, NoReturn, Tuple, TypeVar

from .. import children

Task = TypeVar("Task")
CHUNK, PAUSE = 1 << 16, 0.2
# What is told of a process that was killed, as by a kernel that is short of memory.
KILLED = "the process that tried it was ended: Killed"


def processors() -> int:
    """How many processors this process may take."""
    return len(os.sched_getaffinity(0))


def each(
    tasks: Sequence[Task], jobs: int, make: Callable[[Task], Any], take: Callable[[Task, Any], None], look: Callable[[], None]
) -> None:
    """Has `make` answer for each task in a process of its own what JSON can spell, and gives it to `take` here; where that process has broken
    off, a text that says why as far as that is known. `look` is called now and then."""
    left = list(tasks)[::-1]
    running: Dict[int, Tuple[int, Task, bytearray]] = {}
    try:
        while left or running:
            while left and len(running) < jobs:
                task = left.pop()
                pipe, number = _begun(task, make)
                running[pipe] = number, task, bytearray()
            ready, _, _ = select.select(list(running), [], [], PAUSE)
            for pipe in ready:
                number, task, content = running[pipe]
                piece = os.read(pipe, CHUNK)
                content += piece
                if not piece:
                    del running[pipe]
                    os.close(pipe)
                    _, status = os.waitpid(number, 0)
                    take(task, json.loads(content) if content.endswith(b"\n") else f"the process that tried it was ended: {_ended(status)}")
            look()
    finally:
        _end([number for number, _, _ in running.values()], list(running))


def _end(numbers: List[int], pipes: List[int]) -> None:
    """Ends what still goes on, with all that it has started."""
    for number in numbers:
        os.kill(number, signal.SIGTERM)
    for pipe, number in zip(pipes, numbers):
        os.close(pipe)
        os.waitpid(number, 0)


def _begun(task: Task, make: Callable[[Task], Any]) -> Tuple[int, int]:
    """Splits a process off for a task. Answers the end of its pipe, and its number."""
    here, there = os.pipe()
    parent = os.getpid()
    sys.stdout.flush()
    sys.stderr.flush()
    # What comes between the two would be for both.
    mask = signal.pthread_sigmask(signal.SIG_BLOCK, (signal.SIGINT, *children.SIGNALS))
    number = os.fork()
    if number == 0:
        _work(task, make, there, parent, mask)
    signal.pthread_sigmask(signal.SIG_SETMASK, mask)
    os.close(there)
    return here, number


def _work(task: Task, make: Callable[[Task], Any], pipe: int, parent: int, mask: Any) -> NoReturn:
    """What a process does that was split off. Whatever comes of it, it ends here."""
    status = 1
    try:
        # Ctrl-C at a terminal is for the process that was started there.
        os.setsid()
        children.end_with_parent(signal.SIGTERM, parent)
        children.end_by_signals_again()
        signal.pthread_sigmask(signal.SIG_SETMASK, mask)
        _tell(pipe, make(task))
        status = 0
    except Exception as error:  # pylint: disable=broad-except
        last = traceback.extract_tb(error.__traceback__)[-1]
        _tell(pipe, f"{type(error).__name__} at {os.path.basename(last.filename)}:{last.lineno}: {error}")
    except BaseException:  # pylint: disable=broad-except
        pass
    finally:
        os._exit(status)


def _tell(pipe: int, answer: Any) -> None:
    """Writes an answer into a pipe."""
    rest = memoryview(json.dumps(answer).encode() + b"\n")
    while rest:
        rest = rest[os.write(pipe, rest) :]


def _ended(status: int) -> str:
    """How a process ended."""
    return signal.strsignal(os.WTERMSIG(status)) or "by a signal" if os.WIFSIGNALED(status) else f"with status {os.WEXITSTATUS(status)}"
