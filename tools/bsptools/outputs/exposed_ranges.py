"""The reader of what `run --exposed` writes: bytes that one call of a superstep reads and another one writes.

Which of the two comes first is open. The emulator is proved to write these lines alone, and one for each two places of the code.
"""

from __future__ import annotations

import os
import pathlib
import subprocess
from collections.abc import Iterator
from typing import NamedTuple

from ..files import whole
from ..limits import MOST_MEMORY, MOST_NODES, MOST_REQUESTS
from ..refusals import Refused, Unfit, about, lines_of, why_unfit
from .contested_bytes import MOST_BYTES, MOST_LINE, STOPPED, digits
from .report import MOST_COST

COLUMNS = ("kind", "rank", "request", "pc")
HEADER = ",".join(["superstep", "rank", "address", "bytes", *(f"{which}_{it}" for which in ("reader", "writer") for it in COLUMNS)])
UNBUFFERED, PUTTING, GETTING = ("hpput", "hpget"), ("put", "hpput"), ("get", "hpget")
READERS, WRITERS = (*PUTTING, *GETTING, "send"), (*PUTTING, *GETTING)
# How many lines are looked at.
MOST_RANGES = 1 << 14


class Caller(NamedTuple):
    """A call: what it is, the rank that makes it, its number among the puts, gets and messages of that rank in the superstep, and the address
    from which it is made."""

    kind: str
    rank: int
    number: int
    place: int


class Exposed(NamedTuple):
    """Bytes of a rank's memory, from an address on, the call that reads them and the one that writes them."""

    superstep: int
    rank: int
    address: int
    size: int
    reader: Caller
    writer: Caller


class Found(NamedTuple):
    """What is exposed in a run: the first lines, and whether there are more."""

    rows: list[Exposed]
    is_whole: bool


def read(path: str | os.PathLike[str], nodes: int, last: int, most: int = MOST_RANGES) -> Found:
    """What is exposed in a run of so many nodes, of which this is the last superstep, by its file. What no emulator writes is refused."""
    found: list[Exposed] = []
    pairs: set[tuple[int, int, int]] = set()
    try:
        for it in rows(path):
            if len(found) == most:
                return Found(found, False)
            pair = it.superstep, it.reader.place, it.writer.place
            is_late = it.superstep >= last or max(it.rank, it.reader.rank, it.writer.rank) >= nodes
            if is_late or pair in pairs or (found and it.superstep < found[-1].superstep):
                raise Unfit(f"superstep {it.superstep}, rank {it.rank}, address {it.address:#x} is not in its place")
            pairs.add(pair)
            found.append(it)
    except ValueError as error:
        raise Refused(f"the exposed bytes are not those of the run: {why_unfit(error)}") from error
    return Found(found, True)


def rows(path: str | os.PathLike[str]) -> Iterator[Exposed]:
    """The rows of a file of exposed bytes; what is none raises ValueError."""
    with about(path), open(path, encoding="ascii", errors="replace", newline="") as file:
        if os.fstat(file.fileno()).st_size > MOST_BYTES:
            raise Refused(f"the list of exposed bytes exceeds {MOST_BYTES} bytes: use fewer nodes or fewer supersteps")
        if file.readline(2 * MOST_LINE) != HEADER + "\n":
            raise Unfit("it does not begin as exposed bytes do")
        while line := file.readline(MOST_LINE):
            cells = line[:-1].split(",")
            if not line.endswith("\n") or len(cells) != 4 + 2 * len(COLUMNS):
                raise Unfit(f"{line[:40]!r} is no line of exposed bytes")
            yield row_of(cells)


def row_of(cells: list[str]) -> Exposed:
    """A row of its columns."""
    superstep, rank = whole(cells[0], MOST_COST), whole(cells[1], MOST_NODES - 1)
    address, size = digits(cells[2], 8), whole(cells[3], MOST_MEMORY)
    it = Exposed(superstep, rank, address, size, caller_of(cells[4:8], READERS), caller_of(cells[8:], WRITERS))
    if size < 1 or address + size > MOST_MEMORY or not is_open(it.reader, it.writer):
        raise Unfit(f"no calls expose {size} bytes at address {address:#x}: {it.reader}, {it.writer}")
    if (it.reader.kind not in GETTING and it.reader.rank != rank) or (it.writer.kind in GETTING and it.writer.rank != rank):
        raise Unfit(f"a call of another rank does not read or write so at rank {rank}: {it.reader}, {it.writer}")
    return it


def is_open(reader: Caller, writer: Caller) -> bool:
    """Whether BSPlib leaves open which of two calls comes first, by what they are and by their numbers."""
    if writer.kind not in UNBUFFERED:
        return reader.kind in UNBUFFERED
    return not (reader.kind in ("put", "send") and reader.rank == writer.rank and reader.number <= writer.number)


def caller_of(cells: list[str], kinds: tuple[str, ...]) -> Caller:
    """A call of its columns."""
    kind, rank, number, place = cells
    if kind not in kinds:
        raise Unfit(f"{kind!r} is none of {', '.join(kinds)}")
    return Caller(kind, whole(rank, MOST_NODES - 1), whole(number, MOST_REQUESTS - 1), digits(place, 8))


def of_run(done: subprocess.CompletedProcess[bytes], file: pathlib.Path, nodes: int, last: int) -> Found:
    """What is exposed in a run that was made so, which goes to this superstep."""
    if done.returncode not in (0, STOPPED) or not file.exists():
        raise Refused("the emulator did not report what is exposed", *lines_of(done.stderr))
    return read(file, nodes, last)
