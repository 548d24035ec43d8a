"""The values that the last instructions of a rank have overwritten, so that it can go back over them."""

from __future__ import annotations

from typing import Dict, List, NamedTuple, Optional

from ..framed.session import Floats, Node


class Moment(NamedTuple):
    """A rank before an instruction, with its registers of floating point, if it has them, and the bytes that the instruction has overwritten."""

    node: Node
    floats: Optional[Floats]
    addr: int
    overwritten: bytes


class UndoLog:
    """Moments of a rank, one instruction apart, the last of which stands just before where the machine is."""

    def __init__(self, rank: int, moments: List[Moment]) -> None:
        self.rank = rank
        self._moments = moments
        self._old: Dict[int, int] = {}
        self.is_behind = False
        # The registers of floating point where it has gone back to.
        self.floats: Optional[Floats] = None

    def back(self) -> Optional[Node]:
        """Goes an instruction back, if there is one. Answers the node there."""
        if not self._moments:
            return None
        moment = self._moments.pop()
        self._old.update(enumerate(moment.overwritten, moment.addr))
        self.is_behind = True
        self.floats = moment.floats
        return moment.node

    def restored(self, addr: int, data: bytes) -> bytes:
        """Bytes from the memory of the machine, as they were here."""
        if not self._old:
            return data
        return bytes(self._old.get(addr + place, byte) for place, byte in enumerate(data))
