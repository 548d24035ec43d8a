"""The place of a machine in its run, and where it arrives when it continues."""

from __future__ import annotations

import re
from typing import Callable, FrozenSet, NamedTuple, Tuple, Union

# A rank and an address, or a superstep.
Point = Union[Tuple[int, int], int]
Points = FrozenSet[Point]

_AT_RANK = re.compile(r"stopped at rank (\d+) pc ([0-9a-f]{8})")
_AT_SUPERSTEP = re.compile(r"stopped at superstep (\d+)")


class Place(NamedTuple):
    """Where a machine stands: all of its state follows from that."""

    superstep: int
    ticks: Tuple[int, ...]
    is_over: bool


class AtRank(NamedTuple):
    """`go` has come to the point of a rank."""

    rank: int
    pc: int


class AtSuperstep(NamedTuple):
    """`go` has come to where a superstep begins."""

    superstep: int


class Over(NamedTuple):
    """The run has its outcome."""

    outcome: str


class BrokenOff(NamedTuple):
    """It was asked to break off a `go`. The machine stands where it stood before."""


Arrival = Union[AtRank, AtSuperstep, Over, BrokenOff]


class Interrupted(Exception):
    """It was asked to break off what goes on. A machine that went on so is of no more use."""


Asked = Callable[[], bool]


def never() -> bool:
    """Nothing is to be broken off."""
    return False


def told(line: str) -> Arrival:
    """What the debugger's reply to `go` says."""
    at_rank, at_superstep = _AT_RANK.fullmatch(line), _AT_SUPERSTEP.fullmatch(line)
    if at_rank is not None:
        return AtRank(int(at_rank[1]), int(at_rank[2], 16))
    return AtSuperstep(int(at_superstep[1])) if at_superstep is not None else Over(line)


def spelled(point: Point) -> str:
    """A point as the lines have it."""
    if isinstance(point, int):
        return f"superstep {point}"
    return f"{point[0]} {point[1]:#x}"


def rank_of(outcome: str, otherwise: int) -> int:
    """The rank that an outcome is to be shown at: the one that stopped, that waits in vain, or whose request was refused."""
    words = outcome.replace(",", "").split()
    ranks = [int(number) for word, number in zip(words, words[1:]) if word == "rank"]
    return ranks[-1] if ranks else otherwise
