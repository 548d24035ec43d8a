"""Environment calls before which the machine stops, set by `monitor call`."""

from __future__ import annotations

from typing import Dict, FrozenSet, List, NamedTuple, Optional, Sequence

from ..framed.environment_calls import ALSO, NAMES, REQUESTS
from ..framed.session import Node
from ..program.memory_accesses import A0, A7
from ..refusals import Refused, printable
from ..reverse.superstep_requests import sites
from ..reverse.symbol_names import Names

# The numbers of calls by the names that BSPlib has for them.
NUMBERS: Dict[str, int] = {
    **{name: number for number, (name, _) in NAMES.items() if name.startswith("bsp_")},
    **{name: number for number, name in ALSO.items()},
}


class Awaited(NamedTuple):
    """Calls of one kind: of all ranks, or of this one; to any rank, or to this one."""

    name: str
    number: int
    target: Optional[int]
    caller: Optional[int]
    sites: FrozenSet[int]

    def __str__(self) -> str:
        target = "" if self.target is None else f" to {self.target}"
        return f"{self.name}{target}" + ("" if self.caller is None else f" from {self.caller}")

    def is_at(self, node: Node) -> bool:
        """Whether a node is about to make such a call."""
        if node.pc not in self.sites or node.x[A7] != self.number or not node.runs:
            return False
        return self.caller in (None, node.rank) and self.target in (None, node.x[A0])


def awaited(names: Names, words: Sequence[str], ranks: int) -> Awaited:
    """What the words say behind `monitor call`: a name, and then ranks behind `to` and `from`."""
    name, rest = words[0], list(words[1:])
    if name not in NUMBERS:
        raise Refused(f"{printable(name)} is not a call: the calls are {', '.join(sorted(NUMBERS))}")
    number = NUMBERS[name]
    found: Dict[str, Optional[int]] = {"to": None, "from": None}
    while rest:
        which, value = rest[0], rest[1] if len(rest) > 1 else ""
        if which not in found or not value.isascii() or not value.isdigit():
            raise Refused(f"{printable(' '.join(words))}: only `to RANK` and `from RANK` can follow the name")
        if int(value) >= ranks:
            raise Refused(f"there is no rank {int(value)}: the ranks are 0 to {ranks - 1}")
        if found[which] is not None:
            raise Refused(f"{printable(' '.join(words))}: `{which}` is given twice: stop at one rank, and give another line for the other")
        found[which] = int(value)
        rest = rest[2:]
    if found["to"] is not None and number not in REQUESTS:
        raise Refused(f"{name} has no target rank: leave out `to {found['to']}`")
    places = sites(names.code, [number])
    if not places:
        raise Refused(f"no instruction of the program calls {name}")
    return Awaited(name, number, found["to"], found["from"], frozenset(places))


def addresses_of(calls: Sequence[Awaited], rank: Optional[int] = None) -> List[int]:
    """Where a rank may be about to make one of these calls, or any rank."""
    return sorted({site for it in calls if rank is None or it.caller in (None, rank) for site in it.sites})
