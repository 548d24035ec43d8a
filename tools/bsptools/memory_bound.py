"""A block of code with a limit on its memory and its time."""

from __future__ import annotations

import contextlib
import pathlib
import resource
import signal
import threading
from collections.abc import Iterator

from .refusals import Unfit

# For how many seconds of a processor such a block may go on. What these blocks read takes a few at most, if nobody has made it to take longer.
MOST_SECONDS = 60.0
# A signal may come where it is lost, as in what Python does as it frees memory. It is sent again after so many more.
AGAIN = 5.0
# The bounds of the process outside of such a block, and whether one has taken too long.
_outside: list[tuple[int, int]] = []
_overran: list[bool] = []


class Late(BaseException):
    """The time of something is over. Where this is lost, its signal comes again."""


class TooLong(Late):
    """The time of a block is over. A block that leaves out what it cannot read does not go on after this one."""


@contextlib.contextmanager
def at_most(more: int) -> Iterator[None]:
    """A block in which this process may take so many bytes more than it has; `MemoryError` is raised if that is not enough. Processes
    that are started in it have the bound too. `Unfit` is raised if it takes too long, and in each later block at once."""
    if _overran:
        raise Unfit("it takes too long to read")
    soft, hard = resource.getrlimit(resource.RLIMIT_AS)
    _outside.append((soft, hard))
    # Without /proc the size of this process is not known, and time alone is limited.
    with contextlib.suppress(FileNotFoundError):
        most = int(pathlib.Path("/proc/self/statm").read_text(encoding="ascii").split()[0]) * resource.getpagesize() + more
        resource.setrlimit(resource.RLIMIT_AS, (most if soft == resource.RLIM_INFINITY else min(most, soft), hard))
    try:
        with _timed():
            yield
    except TooLong as late:
        raise Unfit("it takes too long to read") from late
    finally:
        resource.setrlimit(resource.RLIMIT_AS, _outside.pop())


def lift() -> None:
    """Gives this process all the memory that it may take outside of such blocks. What a signal raises would be lost without any."""
    if _outside:
        resource.setrlimit(resource.RLIMIT_AS, _outside[0])


@contextlib.contextmanager
def _timed() -> Iterator[None]:
    """A block that is left by `TooLong` after its time. Inside of another one, the time of that one counts."""
    if len(_outside) > 1 or threading.current_thread() is not threading.main_thread():
        yield
        return

    def stop(_number: int, _frame: object) -> None:
        lift()
        _overran.append(True)
        raise TooLong

    before = signal.signal(signal.SIGVTALRM, stop)
    signal.setitimer(signal.ITIMER_VIRTUAL, MOST_SECONDS, AGAIN)
    try:
        yield
    finally:
        signal.setitimer(signal.ITIMER_VIRTUAL, 0)
        signal.signal(signal.SIGVTALRM, before)
