"""Bytes of a rank's memory at which a run stops when they are written or read."""

from __future__ import annotations

import contextlib
from typing import Callable, Dict, List, NamedTuple, Optional, Sequence, Tuple, Union

from ..framed.session import ALL, BATCH, Node, Shown
from ..program.memory_accesses import ECALL, Stored, loaded, stores_floats, value_of
from ..reverse.history import Hit
from ..reverse.last_writers import Own, Search
from ..reverse.reversible_machine import Machine
from ..reverse.run_places import Asked, Place, never
from ..reverse.single_steps import SingleSteps, Step
from ..reverse.superstep_requests import Made
from ..reverse.symbol_names import Names

# What gdb calls those that stop where the bytes change, where they are loaded, and where they are loaded or stored, by the types of its packets.
KINDS = {"2": "watch", "3": "rwatch", "4": "awatch"}


class Watch(NamedTuple):
    """Bytes of a rank, and what they are watched for."""

    kind: str
    rank: int
    addr: int
    length: int

    def is_of(self, kind: str, addr: int, length: int) -> bool:
        """Whether it is for this, of any rank."""
        return (self.kind, self.addr, self.length) == (kind, addr, length)

    def meets(self, access: Stored) -> bool:
        """Whether bytes that are loaded or stored are some of these."""
        return access.addr < self.addr + self.length and self.addr < access.addr + access.length


class Watches:
    """The bytes that are watched."""

    def __init__(self, machine: Machine) -> None:
        self._machine = machine
        self.all: List[Watch] = []
        # Where a rank stood when it was told last that its next instruction, or its last on the way back, meets some; and where it goes on
        # past that, as it is there that it was told.
        self._met: Optional[Place] = None
        self.passed: Optional[Place] = None

    def resume(self) -> None:
        """To be called before anything goes on: what was told last, here, is not told again."""
        self.passed = self._met if self._met is not None and self._met == self._machine.place() else None
        self._met = None

    def meet(self) -> None:
        """It is told that some are met where the machine stands."""
        self._met = self._machine.place()

    def of(self, rank: int) -> List[Watch]:
        """Those of a rank."""
        return [it for it in self.all if it.rank == rank]

    def contents(self, rank: Optional[int] = None) -> Dict[Watch, bytes]:
        """What the bytes are that stop where they change, of all ranks or of one."""
        watches = self.all if rank is None else self.of(rank)
        return {it: self._machine.memory(it.rank, it.addr, it.length) for it in watches if it.kind != "rwatch"}

    def changed(self, before: Dict[Watch, bytes]) -> Optional[Watch]:
        """The first of which the bytes are not those any more."""
        now = self.contents()
        return next((it for it, content in before.items() if now.get(it, content) != content), None)

    def step(self, rank: int) -> Optional[Watch]:
        """A rank makes an instruction; or none, if it would have access to watched bytes, which are answered."""
        reader, node, place = Reader(self._machine, rank, self.of(rank)), self._machine.node(rank), self._machine.place()
        watch = reader.met(node, self._machine.trail(rank, 1)[0])
        return None if watch is None or self.passed == place else self.stay_at(place, watch)

    def follow(self, rank: int, is_stop: Callable[[Shown], bool], must_break_off: Asked) -> Optional[Watch]:
        """A rank goes on by itself: to before an access to bytes that are watched, which are answered; to a stop; to where it stops by
        itself; or to where it is broken off. gdb wants to know of an access before it is made, and makes it by a step.

        The instructions are made some at a time. If some of them were too many, the machine is brought back.
        """
        reader = Reader(self._machine, rank, self.of(rank))
        before: Union[Node, Shown] = self._machine.node(rank)
        while before.runs and not must_break_off():
            place = self._machine.place()
            trail = self._machine.trail(rank, BATCH // 2)
            for number, after in enumerate(trail, 1):
                watch = reader.met(before, after)
                if watch is not None and (number > 1 or place != self.passed):
                    return self.stay_at(_later(place, rank, number - 1), watch)
                if after.runs and is_stop(after):
                    if number < len(trail):
                        self._machine.restart_at(_later(place, rank, number))
                    return None
                before = after
        return None

    def stay_at(self, place: Place, watch: Watch) -> Watch:
        """The machine stands at a place, from where these bytes are met."""
        self._machine.restart_at(place)
        self._met = place
        return watch


def _later(place: Place, rank: int, count: int) -> Place:
    """The place so many instructions of a rank later."""
    return place._replace(ticks=(*place.ticks[:rank], place.ticks[rank] + count, *place.ticks[rank + 1 :]))


class Written(NamedTuple):
    """Where bytes that are watched were written last: by an instruction at this place, or by the exchange at the superstep's end; or, without
    the bytes, from where on none were."""

    hit: Hit
    is_landing: bool
    watch: Optional[Watch]

    def key(self) -> Tuple[int, bool, int, int]:
        """What gives all of them the order of history."""
        return self.hit.superstep, self.is_landing, self.hit.rank, self.hit.ticks

    def is_behind(self, hit: Optional[Hit]) -> bool:
        """Whether it was no earlier than another place."""
        return hit is None or self.key() >= (hit.superstep, False, hit.rank, hit.ticks)


def last_written(machine: Machine, names: Names, watches: Sequence[Watch], must_break_off: Asked) -> Optional[Written]:
    """The last time before where a machine stands that bytes were written which are watched; nothing if they never were."""
    found = [_last_of(machine, names, watch, must_break_off) for watch in watches if watch.kind != "rwatch"]
    places = [it for it in found if it is not None]
    return max(places, key=Written.key) if places else None


def _last_of(machine: Machine, names: Names, watch: Watch, must_break_off: Asked) -> Optional[Written]:
    """The last time for one of them. An exchange that has written what stood there is none: gdb would see no change, and would have gone back
    over the exchange with this rank before those that come first."""
    place = machine.place()
    while True:
        found = Search(machine, names, place, watch.rank, must_break_off).find(watch.addr, watch.length, is_any_enough=True)
        places = [
            Written(Hit(it.superstep, watch.rank, it.node.ticks if isinstance(it, Own) else 0), isinstance(it, Made), watch)
            for it in found.writers.values()
        ]
        if not places:
            return None if found.is_whole else Written(Hit(found.superstep, watch.rank, found.ticks), False, None)
        latest = max(places, key=Written.key)
        superstep = latest.hit.superstep
        if not latest.is_landing or _is_changed_at_end(machine, watch, superstep, must_break_off):
            return latest
        place = Place(superstep, machine.begin_of(superstep + 1, must_break_off), False)


def _is_changed_at_end(machine: Machine, watch: Watch, superstep: int, must_break_off: Asked) -> bool:
    """Whether the exchange at the end of a superstep changes the bytes."""
    with contextlib.closing(machine.at(Place(superstep, (ALL,) * machine.ranks, False), must_break_off)) as there:
        before = there.memory(watch.rank, watch.addr, watch.length)
        there.turn()
        return there.memory(watch.rank, watch.addr, watch.length) != before


class Reader:
    """Reads of the instructions that a rank makes which of them is an access to its bytes that are watched."""

    def __init__(self, machine: Machine, rank: int, watches: Sequence[Watch]) -> None:
        self._walk = SingleSteps(machine, rank, never)
        self._watches = watches
        self._are_loads = any(it.kind != "watch" for it in watches)
        self._contents = {it: bytearray(machine.memory(rank, it.addr, it.length)) for it in watches if it.kind == "watch"}

    def met(self, before: Union[Node, Shown], after: Shown) -> Optional[Watch]:
        """The first of the watched bytes that an instruction has had access to, if any."""
        step = self._walk.step(before, after)
        if step is not None:
            for watch in self._watches:
                if any(map(watch.meets, step.stores)) and watch.kind != "rwatch" and self._is_change(watch, step):
                    return watch
        if not self._are_loads or not before.runs or after.has_failed:
            return None
        node = before if isinstance(before, Node) else before.node
        load = loaded(self._walk.code(node.pc), node.x)
        return next((it for it in self._watches if load and it.kind != "watch" and it.meets(load)), None)

    def _is_change(self, watch: Watch, step: Step) -> bool:
        """Whether a store changes bytes that stop where they change. What a call stores, or a register of floating point, is taken for a change."""
        content = self._contents.get(watch)
        code = self._walk.code(step.node.pc)
        if content is None or int.from_bytes(code, "little") == ECALL or stores_floats(code):
            return True
        kept = bytes(content)
        for place, byte in enumerate(value_of(code, step.node.x).to_bytes(4, "little")[: step.stores[0].length], step.stores[0].addr):
            if watch.addr <= place < watch.addr + watch.length:
                content[place - watch.addr] = byte
        return content != kept
