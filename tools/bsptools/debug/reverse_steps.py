"""Steps back over a breakpoint that gdb makes by itself, before it goes back with all ranks.

Where a rank has stopped at a breakpoint that is not for it, or the user has gone to another rank since, gdb takes this breakpoint away,
steps the rank back, and puts it in again. What stood behind that step in history, the ranks below and above, would be passed unseen, and
all of a superstep where the rank was at its beginning. So from where gdb began with that it is looked back.
"""

from __future__ import annotations

from typing import Optional, Set

from ..reverse.run_places import Place

# Packets that gdb may send in between: it chooses ranks, reads registers and memory, and has watched what it watches.
BETWEEN = ("H", "g", "p", "m", "Z", "z")
# What settings.gdb has gdb read where the user types a command that goes back: what came before is none of that command's.
TYPED = "m0,1"


class ReverseSteps:
    """Follows the packets that came, up to such a step."""

    def __init__(self) -> None:
        # Which breakpoints are taken away, and where the machine stood before the first step.
        self._away: Set[int] = set()
        self._from: Optional[Place] = None

    def note(self, packet: str) -> None:
        """A packet has come that moves nothing."""
        if packet == TYPED or not packet.startswith(BETWEEN):
            self.forget()

    def forget(self) -> None:
        """What came so far is of no such step."""
        self._away.clear()
        self._from = None

    def take_away(self, addr: int) -> None:
        """A breakpoint is taken away."""
        self._away.add(addr)

    def put_in(self, addr: int) -> None:
        """A breakpoint is put in."""
        self._away.discard(addr)

    def is_begun_at(self, pc: int, place: Place) -> bool:
        """Whether a step back from this address, where the machine stands at this place, may be such a one."""
        if pc not in self._away:
            self.forget()
            return False
        self._from = self._from or place
        return True

    def end(self) -> Optional[Place]:
        """From where it is to be looked back, as gdb goes back now, if that is not from where the machine stands."""
        place = None if self._away else self._from
        self.forget()
        return place
