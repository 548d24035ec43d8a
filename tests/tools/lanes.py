"""Lanes: the number of parts that run at a time, over all checks that run in parallel.

The gate makes a pipe with a name, which has a byte for each lane that is free, and gives each check that it starts one lane. Whatever else
the check makes at the same time takes another one, and gives it back. A check that is run by itself has a lane for each processor.
"""

from __future__ import annotations

import collections
import contextlib
import os
import pathlib
import select
import threading
from typing import Callable, Deque, Generic, Iterable, Iterator, List, Mapping, TypeVar

# The path of the pipe, in the environment of the checks.
LANES = "BSPEMU_LANES"
BYTE = b"."
# How long nobody looks whether there is still something to make.
SECONDS = 0.1

Thing = TypeVar("Thing")


def processors() -> int:
    """How many processors this process may take."""
    return len(os.sched_getaffinity(0))


class Lanes:
    """The gate's lanes: as many as there are processors."""

    def __init__(self, folder: pathlib.Path) -> None:
        self.path = folder / "lanes"
        os.mkfifo(self.path, 0o600)
        # Open for both, so that the bytes stay while no check is there.
        self.pipe = os.open(self.path, os.O_RDWR)
        os.write(self.pipe, BYTE * processors())

    def environment(self) -> Mapping[str, str]:
        """What the checks have in their environment."""
        return {LANES: str(self.path)}

    def take(self) -> None:
        """Waits for a lane, and takes it."""
        os.read(self.pipe, len(BYTE))

    def give(self) -> None:
        """Gives one back."""
        os.write(self.pipe, BYTE)

    def close(self) -> None:
        """Lets go of the pipe."""
        os.close(self.pipe)


class Queue(Generic[Thing]):
    """Things that are to be made: the first in this thread, which has a lane, and others beside it as lanes are free."""

    def __init__(self, make: Callable[[Thing], object], things: Iterable[Thing]) -> None:
        self.make = make
        self.left: Deque[Thing] = collections.deque(things)
        self.errors: List[BaseException] = []
        path = os.environ.get(LANES)
        self.pipe = os.open(path, os.O_RDWR | os.O_NONBLOCK) if path else None

    def run(self) -> None:
        """Makes all. What the first of them raised that raises anything is raised when all are over."""
        count = min(processors(), len(self.left)) - 1
        beside: List[threading.Thread] = []
        try:
            for _ in range(count):
                thread = threading.Thread(target=self._beside)
                thread.start()
                beside.append(thread)
            while self._next():
                pass
        finally:
            self.left.clear()
            for thread in beside:
                thread.join()
            if self.pipe is not None:
                os.close(self.pipe)
        if self.errors:
            raise self.errors[0]

    def _next(self) -> bool:
        """Makes the next thing, if there is one."""
        try:
            thing = self.left.popleft()
        except IndexError:
            return False
        try:
            self.make(thing)
        except Exception as error:  # pylint: disable=broad-except
            self.errors.append(error)
        return True

    def _beside(self) -> None:
        """Makes things in lanes that are free."""
        while self.left:
            with self._lane() as is_free:
                if is_free:
                    self._next()

    @contextlib.contextmanager
    def _lane(self) -> Iterator[bool]:
        """A block that has a lane, if one was free soon."""
        if self.pipe is None:
            yield True
            return
        select.select([self.pipe], [], [], SECONDS)
        try:
            os.read(self.pipe, len(BYTE))
        except BlockingIOError:
            yield False
            return
        try:
            yield True
        finally:
            os.write(self.pipe, BYTE)


def each(make: Callable[[Thing], object], things: Iterable[Thing]) -> None:
    """Calls this for each thing, in their order, as many at a time as there are lanes."""
    Queue(make, things).run()
