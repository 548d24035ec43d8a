"""Puts the choices of a `bspcc --portable` program into its image.

BSPlib and C leave them open. bsplib/src/choices.c makes them.
"""

from __future__ import annotations

import struct
from collections.abc import Sequence
from typing import NamedTuple, Tuple

from ..refusals import Refused

# What stands before the choices in an image. No text has such a byte at its end.
MAGIC = b"\0bsprun\4"
# The order in which messages are handed out, and when bsp_hpput and bsp_hpget read and write.
AS_SENT, REVERSED, SHUFFLED, NUMBERED = range(4)
AS_BUFFERED, EARLY, LATE, WATCHED = range(4)
WORD = (1 << 32) - 1
# How many parts of requests can be left out.
MOST_CUTS = 1024
# What stands before the bytes of unbuffered calls in an image of `bspcc --portable=accesses`, and how many ranges of them there can be.
RANGES_MAGIC = b"\0bsprun\6"
MOST_RANGES = 1 << 14
SOURCES, TARGETS = range(2)


class Point(NamedTuple):
    """A place in a run if something is chosen: a superstep, a rank, and which of the rank's choices there, each from 0 on."""

    superstep: int
    rank: int
    which: int


class Cut(NamedTuple):
    """Bytes of a put or a get that are left out, from one up to before another one: as if another request had landed behind this one. The
    request is counted among the puts, gets and messages of a rank in a superstep."""

    superstep: int
    rank: int
    request: int
    start: int
    end: int


class Range(NamedTuple):
    """Bytes of a rank in a superstep that unbuffered calls read or write, once the rank has made so many puts, gets and messages."""

    superstep: int
    rank: int
    kind: int
    requests: int
    start: int
    end: int


EVERYWHERE = Point(WORD, WORD, WORD)


class Choices(NamedTuple):
    """What is chosen at each point before `until`. `memory` is the bytes of a node's memory that are the program's; `heap` and `stack` are
    each byte of fresh memory, and `queue` each byte of what bsp_hpmove gave out, once the next bsp_sync is over, or 0 for what is there. A
    run that is logged tells its calls in records. One that is moved has stack and heap elsewhere on each rank. In one that is alone, ranks
    above 0 have at bsp_begin the variables of the start: those that `cuts` has by their addresses. One that is summed tells a sum over
    these at bsp_end."""

    memory: int = 0
    order: int = AS_SENT
    seed: int = 0
    unbuffered: int = AS_BUFFERED
    heap: int = 0
    stack: int = 0
    queue: int = 0
    is_logged: bool = False
    is_moved: bool = False
    is_alone: bool = False
    is_summed: bool = False
    until: Point = EVERYWHERE
    cuts: Tuple[Cut, ...] = ()
    ranges: Tuple[Range, ...] = ()


def image_with(content: bytes, choices: Choices) -> bytes:
    """A program's image with these choices."""
    if content.count(MAGIC) != 1:
        raise Refused("the program has no place for choices: it was not built by bspcc --portable")
    cuts = sorted(choices.cuts)[:MOST_CUTS]
    *plain, until, _, _ = choices
    content = with_words(content, MAGIC, [*plain, *until, len(cuts), *(number for it in cuts for number in it)])
    if choices.ranges:
        content = with_words(content, RANGES_MAGIC, [len(choices.ranges), *(number for it in choices.ranges for number in it)])
    return content


def with_words(content: bytes, magic: bytes, words: Sequence[int]) -> bytes:
    """An image with these words behind a magic."""
    at = content.index(magic) + len(magic)
    packed = struct.pack(f"<{len(words)}I", *words)
    return content[:at] + packed + content[at + len(packed) :]


def swaps(choices: Choices, superstep: int, rank: int, count: int) -> list[tuple[int, int]]:
    """The places that change their messages, swap by swap, where so many are in a rank's queue in a superstep."""
    random, number = choices.seed + superstep * 2654435761 + rank * 40503 & WORD, choices.seed
    found = []
    for i in range(count - 1):
        other = count - 1 - i if choices.order == REVERSED and i < count // 2 else i
        if choices.order == NUMBERED:
            number, step = divmod(number, count - i)
            other = i + step
        elif choices.order == SHUFFLED:
            random = random * 1664525 + 1013904223 & WORD
            other = i + (random >> 8) % (count - i)
        found.append((i, other))
    return found
