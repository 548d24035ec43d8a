"""Exposed bytes: what a call of a superstep reads while another one writes it, where BSPlib leaves open which of the two comes first.

BSPlib (Hill and others, 1998) says of each call when it reads its source and writes its target:

    bsp_put     reads at the call (it is buffered), and writes at the end of the superstep
    bsp_send    reads tag and payload at the call
    bsp_get     reads at the end of the superstep, before anything buffered is written, and writes then
    bsp_hpput   reads and writes at any time from the call to the end of the superstep, byte by byte
    bsp_hpget   the same

and MulticoreBSP's bsp_direct_get reads at the call. In a superstep ranks wait for nobody, so that of two ranks' calls either may be first. A
byte is *exposed* if a call reads it and a call writes it, and both orders of the two are allowed:

    the writer is unbuffered    it may write at once, or last: exposed, whoever reads. But what a rank's put, message or direct get has
                                read before that rank makes the unbuffered call was read before it
    the writer is a put, a get  it writes last. Then an unbuffered reader may read before it or behind it: exposed. All others have read by then

A call may be both: an unbuffered one from a rank to itself, of which source and target have bytes in common. Where each byte comes to its own
place it writes what is there, and so nothing for anyone; it only reads.

Values count for nothing here, only the ranges of calls. Two that write to one byte are no matter of this module: these bytes are contested
(`docs/manual/contested.md`).
"""

from __future__ import annotations

from collections.abc import Callable, Hashable, Iterator, Sequence
from typing import Dict, List, NamedTuple, Set, Tuple

PUT, GET, HPPUT, HPGET, SEND, DIRECT_GET = "bsp_put", "bsp_get", "bsp_hpput", "bsp_hpget", "bsp_send", "bsp_direct_get"
# How many calls of a place are compared with how many of another one.
MOST_COMPARED = 128
UNBUFFERED, AT_CALL = (HPPUT, HPGET), (PUT, SEND, DIRECT_GET)


class Bytes(NamedTuple):
    """Bytes of a rank's memory, from an address up to before another."""

    rank: int
    start: int
    end: int

    def common(self, other: Bytes) -> Bytes | None:
        """What two have in common."""
        start, end = max(self.start, other.start), min(self.end, other.end)
        return Bytes(self.rank, start, end) if self.rank == other.rank and start < end else None


class Transfer(NamedTuple):
    """A call of a superstep: its rank, its place among the calls of that rank, what it is, and the bytes that it reads and writes. A message
    with a tag is two of them."""

    rank: int
    number: int
    kind: str
    read: Bytes
    writes: Bytes | None


class Exposed(NamedTuple):
    """Exposed bytes, and the two calls."""

    reader: Transfer
    writer: Transfer
    where: Bytes


def is_in_place(it: Transfer) -> bool:
    """Whether an unbuffered call writes what it reads to where it reads it."""
    return it.kind in UNBUFFERED and it.read == it.writes


def is_open(reader: Transfer, writer: Transfer) -> bool:
    """Whether BSPlib leaves open which of two calls comes first at a byte that one reads and the other writes."""
    if writer.kind not in UNBUFFERED:
        return reader.kind in UNBUFFERED
    return not (reader.kind in AT_CALL and reader.rank == writer.rank and reader.number < writer.number)


def exposed_by(reader: Transfer, writer: Transfer) -> Bytes | None:
    """The bytes of a call that another call, or this one, exposes."""
    common = reader.read.common(writer.writes) if writer.writes is not None else None
    return common if common is not None and is_open(reader, writer) else None


def exposed(transfers: Sequence[Transfer], label: Callable[[Transfer], Hashable] = lambda it: it) -> Iterator[Exposed]:
    """The exposed bytes of a superstep: of each pair of labels the first, by addresses. If no two calls of a superstep have one label, as
    where nothing is said, these are all."""
    ranges = [(it.read, it, True) for it in transfers if it.read.start < it.read.end]
    writers = (it for it in transfers if it.writes is not None and not is_in_place(it))
    ranges += [(it.writes, it, False) for it in writers if it.writes is not None and it.writes.start < it.writes.end]
    seen: Set[Tuple[Hashable, Hashable]] = set()
    # Those that go on where a sweep over the addresses of a rank has come to, by what they are and their labels.
    open_ones: Dict[bool, Dict[Tuple[str, Hashable], List[Transfer]]] = {True: {}, False: {}}
    for where, it, reads in sorted(ranges, key=lambda found: found[0]):
        name = label(it)
        for key, others in list(open_ones[not reads].items()):
            pair = (name, key[1]) if reads else (key[1], name)
            if pair in seen or not (it.kind in UNBUFFERED or key[0] in UNBUFFERED):
                continue
            others[:] = [other for other in others if is_still_open(other.writes if reads else other.read, where)]
            if not others:
                del open_ones[not reads][key]
            for other in others:
                reader, writer = (it, other) if reads else (other, it)
                common = exposed_by(reader, writer)
                if common is not None:
                    seen.add(pair)
                    yield Exposed(reader, writer, common)
                    break
        open_ones[reads].setdefault((it.kind, name), []).append(it)


def nearest(found: Exposed, readers: Sequence[Transfer], writers: Sequence[Transfer]) -> Exposed:
    """Of what some calls expose that of the two whose ranks and places among the calls are nearest; what was found, if that is no farther."""
    best, least = found, distance(found.reader, found.writer)
    for reader in readers[:MOST_COMPARED]:
        for writer in writers[:MOST_COMPARED]:
            here = distance(reader, writer)
            common = exposed_by(reader, writer) if here < least and not is_in_place(writer) else None
            if common is not None:
                best, least = Exposed(reader, writer, common), here
    return best


def distance(one: Transfer, other: Transfer) -> Tuple[int, int]:
    """How far two calls are from one another."""
    return abs(one.rank - other.rank), abs(one.number - other.number)


def is_still_open(other: Bytes | None, where: Bytes) -> bool:
    """Whether bytes go on at the first of others that do not begin before them."""
    return other is not None and other.rank == where.rank and other.end > where.start
