"""The calls of a run as the library of `bspcc --portable` tells them in records, superstep by superstep.

One run has all of them, with the places in the code from which they were made. bsplib/src/choices.c writes them.
"""

from __future__ import annotations

import functools
import itertools
import struct
from collections.abc import Iterable, Iterator
from dataclasses import dataclass, field
from typing import Counter, Dict, List, NamedTuple, Set, Tuple

from ..framed import environment_calls
from ..framed.environment_calls import GETS, POP, PUSH, PUTS, REQUESTS, SEND, TAGSIZE
from ..outputs.output_records import record_of
from . import exposed_bytes
from .exposed_bytes import Bytes, Transfer

# The kind of the library's records of calls, and the numbers of what is no call of the machine.
CALLS = ord("c")
DIRECT_GET, READ, WRITTEN, NO_MESSAGE, INPUT = 110, 111, 112, 115, 118
# Accesses of a rank to bytes of an unbuffered call.
ACCESSES = (READ, WRITTEN)
UNBUFFERED = (environment_calls.HPPUT, environment_calls.HPGET)
KINDS = {
    environment_calls.PUT: exposed_bytes.PUT, environment_calls.GET: exposed_bytes.GET, environment_calls.HPPUT: exposed_bytes.HPPUT,
    environment_calls.HPGET: exposed_bytes.HPGET, SEND: exposed_bytes.SEND, DIRECT_GET: exposed_bytes.DIRECT_GET,
}  # fmt: skip
CALL = struct.Struct("<IIiIIiiI")
_WORDS, _PID = CALL.size // 4, 2
# What stands in front of the calls of a record.
SUPERSTEP_BYTES = 4


class Logged(NamedTuple):
    """A call of a rank, as the program makes it: its number, the place behind it, and its operands, of which those that it does not have are
    0. `src` is also an area that is registered, and `dst` of a put is its area. `request` counts it among the puts, gets and messages of its
    rank in the superstep, and is that of the next one where it is none. `dst` and `offset` of a message are the last 8 bytes of its
    payload, where it has so many."""

    rank: int
    request: int
    number: int
    place: int
    pid: int
    src: int
    dst: int
    offset: int
    nbytes: int
    tag: int


@dataclass
class Areas:
    """The areas of each rank, as the addresses of what it has registered, in this order. Supersteps share them until they change."""

    starts: Dict[int, List[int]] = field(default_factory=dict)

    @functools.cached_property
    def last(self) -> Dict[int, Dict[int, int]]:
        """By ranks and addresses, the number of the last registration."""
        return {rank: {start: number for number, start in enumerate(starts)} for rank, starts in self.starts.items()}

    def start(self, rank: int, name: int, other: int) -> int | None:
        """Where the area lies at another rank that a rank calls by an address of its own: that of the last registration there."""
        number, there = self.last.get(rank, {}).get(name), self.starts.get(other, ())
        return there[number] if number is not None and number < len(there) else None


@dataclass
class Superstep:
    """The records of calls of each rank in a superstep, which are read only if they are asked for; the areas of each rank in it, and the sizes
    of its tags."""

    records: Dict[int, bytearray] = field(default_factory=dict)
    areas: Areas = field(default_factory=Areas)
    tag_sizes: Dict[int, int] = field(default_factory=dict)

    @functools.cached_property
    def numbers(self) -> Set[int]:
        """The numbers of its calls. Each is a byte."""
        return {number for content in self.records.values() for number in set(content[:: CALL.size])}

    @functools.cached_property
    def calls(self) -> Dict[int, List[Logged]]:
        """Its calls, by their ranks."""
        found: Dict[int, List[Logged]] = {}
        for rank, content in sorted(self.records.items()):
            made, request = found.setdefault(rank, []), 0
            for operands in CALL.iter_unpack(content):
                made.append(Logged(rank, request, *operands))
                request += operands[0] in REQUESTS
        return found

    def all(self) -> Iterator[Logged]:
        """All of them, by their ranks."""
        for made in self.calls.values():
            yield from made

    @property
    def has_unbuffered(self) -> bool:
        """Whether a call of the superstep is unbuffered."""
        return not self.numbers.isdisjoint(UNBUFFERED)

    def most_sent(self) -> int:
        """How many messages come to one rank, where most do."""
        if SEND not in self.numbers:
            return 0
        counts: Counter[int] = Counter()
        for content in self.records.values():
            words = struct.unpack(f"<{len(content) // 4}I", content)
            counts.update(itertools.compress(words[_PID::_WORDS], map(SEND.__eq__, words[::_WORDS])))
        return max(counts.values())

    @functools.cached_property
    def requests(self) -> Dict[int, List[Logged]]:
        """The puts, gets and messages of each rank."""
        return {rank: [it for it in made if it.number in REQUESTS] for rank, made in self.calls.items()}

    def area(self, it: Logged, name: int) -> int | None:
        """Where the area lies at the other rank that a call names by an address of its own."""
        return self.areas.start(it.rank, name, it.pid)

    def unbuffered_areas(self) -> Dict[int, List[Tuple[int, int]]]:
        """By ranks, from where to where the bytes lie there that unbuffered calls name in areas. It makes no object of each call."""
        found: Dict[int, List[Tuple[int, int]]] = {rank: [] for rank in self.areas.starts}
        for rank, content in self.records.items():
            last = self.areas.last.get(rank, {})
            for number, _, pid, src, dst, offset, nbytes, _ in CALL.iter_unpack(content):
                if number in UNBUFFERED and nbytes > 0:
                    area, there = last.get(dst if number == environment_calls.HPPUT else src), self.areas.starts.get(pid, ())
                    if area is not None and area < len(there):
                        start = there[area] + offset
                        found[pid].append((start, start + nbytes))
        return found

    def written(self, it: Logged) -> Bytes | None:
        """The bytes that a put or a get writes."""
        if it.number in GETS:
            return Bytes(it.rank, it.dst, it.dst + it.nbytes)
        start = self.area(it, it.dst) if it.number in PUTS else None
        return None if start is None else Bytes(it.pid, start + it.offset, start + it.offset + it.nbytes)

    def read(self, it: Logged) -> List[Bytes]:
        """The bytes that a call reads. A message with a tag has two parts."""
        if it.number in PUTS:
            return [Bytes(it.rank, it.src, it.src + it.nbytes)]
        if it.number == SEND:
            size = self.tag_sizes.get(it.rank, 0)
            return [Bytes(it.rank, it.src, it.src + it.nbytes), *([Bytes(it.rank, it.tag, it.tag + size)] if size else [])]
        start = it.src if it.number == DIRECT_GET else self.area(it, it.src) if it.number in GETS else None
        rank = it.rank if it.number == DIRECT_GET else it.pid
        return [] if start is None else [Bytes(rank, start + it.offset, start + it.offset + it.nbytes)]

    def transfers(self) -> Iterator[Tuple[Transfer, Logged]]:
        """What the calls read and write."""
        for made in self.calls.values():
            for number, it in enumerate(made):
                if it.number in KINDS and it.nbytes > 0:
                    for read in self.read(it):
                        yield Transfer(it.rank, number, KINDS[it.number], read, self.written(it)), it


def supersteps(pieces: Iterable[bytes], last: int) -> List[Superstep]:
    """The supersteps of a run up to the last that has a call, by the records of calls that it wrote, and by the number of its last one. A
    program can print what looks like a record: one that has no whole calls, or that is of a later superstep, is left out."""
    found: List[Superstep] = []
    for piece in pieces:
        record = record_of(CALLS, piece)
        if record is None or len(record.content) % CALL.size != SUPERSTEP_BYTES:
            continue
        superstep = int.from_bytes(record.content[:SUPERSTEP_BYTES], "little")
        if superstep <= last:
            found += [Superstep() for _ in range(len(found), superstep + 1)]
            found[superstep].records.setdefault(record.rank, bytearray()).extend(record.content[SUPERSTEP_BYTES:])
    _register(found)
    return found


def _register(found: List[Superstep]) -> None:
    """Finds areas and sizes of tags in each superstep: what is registered or set takes effect in the next one."""
    areas = Areas()
    sizes: Dict[int, int] = {}
    for superstep in found:
        superstep.areas, superstep.tag_sizes = areas, sizes
        if superstep.numbers.isdisjoint((PUSH, POP, TAGSIZE)):
            continue
        areas, sizes = Areas({rank: list(it) for rank, it in areas.starts.items()}), dict(sizes)
        for it in superstep.all():
            here = areas.starts.setdefault(it.rank, [])
            if it.number == TAGSIZE:
                sizes[it.rank] = it.nbytes
            elif it.number == PUSH:
                here.append(it.src)
            elif it.number == POP and it.src in here:
                del here[len(here) - 1 - here[::-1].index(it.src)]
