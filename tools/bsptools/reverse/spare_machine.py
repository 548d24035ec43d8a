"""A second machine, which follows the first one and keeps checkpoints.

It keeps states on its way, so that the first one is brought back to any place without the whole run. If the emulator keeps none, it stands
where a superstep begins.
"""

from __future__ import annotations

import time
from typing import Callable, Generic, Optional, Protocol, TypeVar

from ..refusals import Refused
from .checkpoints import State
from .run_places import Asked, Place, never

# For how many seconds a superstep has gone on when the second machine goes into it, and how many instructions it makes there at once.
PATIENCE, PIECE = 0.2, 1 << 24


class Sparable(Protocol):
    """What a machine has that may be the second one."""

    @property
    def superstep(self) -> int:
        """The superstep that has begun last."""

    @property
    def is_lost(self) -> bool:
        """Whether its process has ended, or is in the midst of what was broken off."""

    @property
    def is_used_up(self) -> bool:
        """Whether the debugger would soon read no more lines."""

    @property
    def keeps(self) -> bool:
        """Whether its process keeps states."""

    @property
    def is_stepping(self) -> bool:
        """Whether it is on its way into a superstep, and so arrives soon."""

    def discard(self) -> None:
        """Ends its process."""

    def nearest(self, place: Place) -> Optional[State]:
        """Where it stands, or the last state that it has kept before a place."""

    def is_at_begin_of(self, superstep: int) -> bool:
        """Whether it comes to where a superstep begins at once."""

    def depart_on_the_way(self, superstep: int, is_long: bool) -> bool:
        """Begins to go on to where a superstep begins; answers whether it does so."""

    def has_arrived(self) -> bool:
        """Whether it has come there."""

    def arrive_on_the_way(self, must_break_off: Asked = never) -> None:
        """Waits for that."""


Machine = TypeVar("Machine", bound=Sparable)


class Spare(Generic[Machine]):
    """At most one machine, which stands somewhere in the run, or is on its way there. It is kept once that is worth a process."""

    def __init__(self, start: Callable[[], Machine]) -> None:
        self._start = start
        self._machine: Optional[Machine] = None
        self._is_under_way = False
        # Where the first machine is, and since when.
        self._target, self._since = 0, 0.0
        self.is_wanted = self._is_refused = False

    def close(self) -> None:
        """Ends its process."""
        if self._machine is not None:
            self._machine.discard()
        self._machine, self._is_under_way = None, False

    def follow(self, superstep: int) -> None:
        """Sends it on to where a superstep begins, or into that if it is there, if it is wanted. As long as it is under way, it is sent
        no further."""
        if superstep != self._target:
            self._target, self._since = superstep, time.monotonic()
        if self.is_wanted and not self._is_refused:
            try:
                self._send(superstep)
            except (Refused, OSError):
                # The host has no room for a second one.
                self.close()
                self._is_refused = True

    def stands_at(self, superstep: int) -> bool:
        """Whether it comes to where this superstep begins at once."""
        if self._machine is None:
            return False
        if self._is_under_way and not self._machine.is_stepping and not self._has_arrived():
            return False
        return self._machine.is_at_begin_of(superstep)

    def take(self, place: Place, other: Optional[State], must_break_off: Asked) -> Optional[Machine]:
        """The machine, if there is a way from it to this place, and a shorter one than from another state. From then on there is none, until
        it is given back."""
        if self._machine is None:
            return None
        try:
            if self._is_under_way and other is not None and not self._machine.is_stepping and not self._has_arrived():
                return None
            if self._is_under_way:
                self._machine.arrive_on_the_way(must_break_off)
                self._is_under_way = False
            nearest = self._machine.nearest(place)
        except Refused:
            self.close()
            return None
        if nearest is None or other is not None and other.progress >= nearest.progress:
            return None
        taken, self._machine = self._machine, None
        return taken

    def give(self, machine: Machine) -> None:
        """Keeps this machine, if there is none that has kept states."""
        if machine.is_lost or self._machine is not None and self._machine.keeps:
            machine.discard()
        else:
            self.close()
            self._machine = machine

    def _send(self, superstep: int) -> None:
        if self._machine is not None and self._is_under_way and not self._has_arrived():
            return
        if self._machine is not None and (self._machine.is_used_up or self._machine.superstep > superstep and not self._machine.keeps):
            self.close()
        if self._machine is None:
            self._machine = self._start()
        self._is_under_way = self._machine.depart_on_the_way(superstep, time.monotonic() - self._since > PATIENCE)

    def _has_arrived(self) -> bool:
        if self._machine is None or not self._machine.has_arrived():
            return False
        self._machine.arrive_on_the_way()
        self._is_under_way = False
        return True
