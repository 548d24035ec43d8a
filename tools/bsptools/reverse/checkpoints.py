"""The checkpoints of a process, and the choice of the one from which to reach a place.

It comes back to such a state within milliseconds, from wherever it is.
"""

from __future__ import annotations

import time
from typing import List, NamedTuple, Optional, Tuple

from ..framed.session import Session
from .run_places import Place

# How many states are kept of a machine, and how many of these, the latest, are left as they are where others make room.
MOST_KEPT, LATEST = 32, 8
# After how many seconds of running another one is kept.
EVERY = 0.2


class State(NamedTuple):
    """A state: its number, if it is kept, where the machine stands there, and whether a superstep has just begun there."""

    number: Optional[int]
    place: Place
    is_begin: bool

    def leads_to(self, place: Place) -> bool:
        """Whether there is a way forwards from here to a place."""
        if self.place.superstep != place.superstep:
            return self.place.superstep < place.superstep
        return self.is_begin or all(made <= ticks for made, ticks in zip(self.place.ticks, place.ticks))

    @property
    def progress(self) -> Tuple[int, int]:
        """How far it has come: what gives all states of a run their order."""
        return self.place.superstep, sum(self.place.ticks)


class Checkpoints:
    """What a process keeps."""

    def __init__(self, session: Session) -> None:
        self._session = session
        self._states: List[State] = []
        self._since = time.monotonic()
        # An emulator may be of an earlier version, which keeps nothing.
        self.is_refused = False

    @property
    def is_due(self) -> bool:
        """Whether it has run for so long that another state is to be kept."""
        return not self.is_refused and time.monotonic() - self._since > EVERY

    def mark(self) -> Optional[int]:
        """Keeps the state as it is. Answers its number, of which `forget` is to be told at some time; none if nothing can be kept."""
        self._since = time.monotonic()
        reply = None if self.is_refused else self._session.ask("keep")
        if reply is None or not reply.is_done:
            self.is_refused = True
            return None
        return int(reply.lines[0].split()[1])

    def keep(self, place: Place, is_begin: bool) -> None:
        """Keeps the state as it is, which is at this place, for `nearest` to tell of it."""
        if any(it.place == place for it in self._states):
            self._since = time.monotonic()
            return
        if len(self._states) >= MOST_KEPT:
            self._thin()
        number = self.mark()
        if number is not None:
            self._states = sorted([*self._states, State(number, place, is_begin)], key=lambda it: it.progress)

    def nearest(self, place: Place) -> Optional[State]:
        """The last state that is kept before a place, or at it."""
        return next((it for it in reversed(self._states) if it.leads_to(place)), None)

    def begins(self) -> List[int]:
        """The supersteps of which a state is kept where they began."""
        return [it.place.superstep for it in self._states if it.is_begin]

    def back(self, number: int) -> None:
        """Brings the process to a state."""
        self._session.ask(f"back {number}").accepted()
        self._since = time.monotonic()

    def forget(self, *numbers: int) -> None:
        """Keeps these states no longer."""
        for reply in self._session.ask_all([f"forget {number}" for number in numbers]):
            reply.accepted()

    def clear(self) -> None:
        """Keeps nothing any more."""
        self._drop(self._states)
        self._states = []

    def _thin(self) -> None:
        """Forgets every second one but the first and the latest ones."""
        dropped = self._states[1:-LATEST:2]
        self._states = [it for it in self._states if it not in dropped]
        self._drop(dropped)

    def _drop(self, states: List[State]) -> None:
        self.forget(*(it.number for it in states if it.number is not None))
