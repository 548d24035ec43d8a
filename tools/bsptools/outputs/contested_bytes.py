"""The reader of what `run --contested` writes: bytes to which two requests of a superstep bring different values.

In which order these land is open.
"""

from __future__ import annotations

import functools
import os
import pathlib
import re
from collections.abc import Iterator
from typing import NamedTuple

from .. import emulator
from ..files import whole
from ..limits import MOST_MEMORY, MOST_NODES, MOST_REQUESTS
from ..refusals import Refused, Unfit, about, lines_of, why_unfit
from .report import MOST_COST

COLUMNS = ("kind", "rank", "request", "byte")
HEADER = ",".join(["superstep", "rank", "address", "bytes", *(f"{which}_{it}" for which in ("first", "second") for it in COLUMNS)])
HEXADECIMAL = re.compile(r"(?:[0-9a-f]{2}){1,4}")
# Of a file of contested bytes, and of its longest line.
MOST_BYTES, MOST_LINE = 1 << 30, 128
# How many places are looked at. Others are counted.
MOST_PLACES = 1 << 14
# The emulator's status where a node was stopped, as by its own exit.
STOPPED = 2


class Request(NamedTuple):
    """A put or a get: the rank that asks for it, its number among the requests of that rank in the superstep, and the first of the contested
    bytes that it brings."""

    kind: str
    rank: int
    number: int
    byte: int


class Contested(NamedTuple):
    """Bytes of a rank's memory, from an address on, and two requests that bring different values to the first of them."""

    superstep: int
    rank: int
    address: int
    size: int
    first: Request
    second: Request


class Found(NamedTuple):
    """What is contested in a run: how many places, and the first of them."""

    places: int
    rows: list[Contested]

    @property
    def first(self) -> Contested | None:
        """The first place."""
        return self.rows[0] if self.rows else None


def read(path: str | os.PathLike[str], nodes: int, last: int, most: int = MOST_PLACES) -> Found:
    """What is contested in a run of so many nodes, of which this is the last superstep, by its file; of the places so many are looked at. What
    no emulator writes is refused, as far as that."""
    found: list[Contested] = []
    places = 0
    try:
        for it in rows(path, most):
            if isinstance(it, int):
                places = it
                break
            if it.superstep >= last or max(it.rank, it.first.rank, it.second.rank) >= nodes or (found and not is_behind(found[-1], it)):
                raise Unfit(f"superstep {it.superstep}, rank {it.rank}, address {it.address:#x} is not in its place")
            found.append(it)
    except ValueError as error:
        raise Refused(f"the contested bytes are not those of the run: {why_unfit(error)}") from error
    return Found(places + len(found), found)


def rows(path: str | os.PathLike[str], most: int = MOST_PLACES) -> Iterator[Contested | int]:
    """The first rows of a file of contested bytes, and then how many there are more; what is none raises ValueError."""
    with about(path), open(path, "rb") as file:
        if os.fstat(file.fileno()).st_size > MOST_BYTES:
            raise Refused(f"the list of contested bytes exceeds {MOST_BYTES} bytes: use fewer nodes or fewer supersteps")
        if file.readline(2 * MOST_LINE) != HEADER.encode() + b"\n":
            raise Unfit("it does not begin as contested bytes do")
        for _ in range(most):
            line = file.readline(MOST_LINE).decode("ascii", errors="replace")
            if not line:
                return
            cells = line[:-1].split(",")
            if not line.endswith("\n") or len(cells) != 4 + 2 * len(COLUMNS):
                raise Unfit(f"{line[:40]!r} is not a line of contested bytes")
            yield row_of(cells)
        yield sum(piece.count(b"\n") for piece in iter(lambda: file.read(1 << 20), b""))


def row_of(cells: list[str]) -> Contested:
    """A row of its columns."""
    superstep, rank = whole(cells[0], MOST_COST), whole(cells[1], MOST_NODES - 1)
    address, size = digits(cells[2], 8), whole(cells[3], MOST_MEMORY)
    it = Contested(superstep, rank, address, size, request_of(*cells[4:8]), request_of(*cells[8:]))
    if size < 1 or address + size > MOST_MEMORY or it.first.byte == it.second.byte or it.first[1:3] == it.second[1:3]:
        raise Unfit(f"no requests contest {size} bytes at address {address:#x}: {it.first}, {it.second}")
    if any(asked.kind == "get" and asked.rank != rank for asked in (it.first, it.second)):
        raise Unfit(f"a get of another rank brings nothing to rank {rank}")
    return it


@functools.lru_cache(maxsize=1024)
def request_of(kind: str, rank: str, number: str, byte: str) -> Request:
    """A request of its columns. Many lines have the same ones."""
    if kind not in ("get", "put"):
        raise Unfit(f"{kind!r} is neither get nor put")
    return Request(kind, whole(rank, MOST_NODES - 1), whole(number, MOST_REQUESTS - 1), digits(byte, 2))


def digits(text: str, count: int) -> int:
    """A number in so many hexadecimal digits."""
    if len(text) != count or HEXADECIMAL.fullmatch(text) is None:
        raise Unfit(f"{text!r} is not a number of {count} hexadecimal digits")
    return int(text, 16)


def is_behind(one: Contested, other: Contested) -> bool:
    """Whether bytes come behind others: in a later superstep, or by rank and address with a settled byte between."""
    return one[:2] < other[:2] or (one[:2] == other[:2] and one.address + one.size < other.address)


def in_run(program: list[str], settings: list[str], nodes: int, last: int, folder: pathlib.Path) -> Found:
    """What is contested in a run with these settings, which goes to this superstep."""
    file = folder / "contested.csv"
    done = emulator.run([*program, "run", *settings, "--contested", str(file)])
    if done.returncode not in (0, STOPPED) or not file.exists():
        raise Refused("the emulator did not report what is contested", *lines_of(done.stderr))
    return read(file, nodes, last)
