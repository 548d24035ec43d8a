"""Orders of messages in which the sum of their numbers is another one.

The sum of numbers with a point depends on their order. A few orders by chance may all give the same, so some are looked for that do not.
"""

from __future__ import annotations

import itertools
import math
import struct
from collections.abc import Iterator, Sequence
from typing import List, NamedTuple, Tuple

from ..framed.environment_calls import SEND
from ..framed.replays import Replays
from ..framed.session import RefusalCode, Session, floats_of
from ..prepare.library_choices import NUMBERED, WORD, Choices, swaps
from .call_log import CALL, Superstep
from .trial_runs import MOST_SHOWN, memory_of

# How many queues are looked at, of how many messages each, and how many orders of them are tried here.
MOST_QUEUES, MOST_MESSAGES, MOST_ORDERS = 16, 256, 32
# What is a number with a point is told from something else by its size.
LEAST, MOST = 1e-30, 1e30
SINGLE, DOUBLE = struct.Struct("<f"), struct.Struct("<d")
WORDS = struct.Struct("<Ii")
# How far two sums of the same numbers may lie apart, against the greater: numbers of 64 bits, and of 32.
NEAR_DOUBLE, NEAR_SINGLE = 1e-9, 1e-4
# So many bytes are compared at once, and so many of a memory.
BLOCK, MOST_COMPARED = 1 << 12, 1 << 24


class Queue(NamedTuple):
    """The numbers of a rank's messages in a superstep, as they come here, and whether they are of 32 bits."""

    superstep: int
    rank: int
    numbers: Tuple[float, ...]
    is_single: bool

    def sum_in(self, choices: Choices) -> float:
        """Their sum in an order."""
        order = list(self.numbers)
        for one, other in swaps(choices, self.superstep, self.rank, len(order)):
            order[one], order[other] = order[other], order[one]
        return sum_of(order, self.is_single)


def sum_of(numbers: Sequence[float], is_single: bool) -> float:
    """The sum, rounded after each number. Python's own may be another one."""
    total = 0.0
    for it in numbers:
        total = rounded(total + it) if is_single else total + it
    return total


def rounded(number: float) -> float:
    """The nearest number of 32 bits, or infinity where there is none."""
    try:
        return float(SINGLE.unpack(SINGLE.pack(number))[0])
    except OverflowError:
        return math.inf


def number_of(nbytes: int, low: int, high: int) -> float:
    """The number at the end of a message of so many bytes, by the words that the library tells; not one, where it is likely none."""
    stored = WORDS.pack(low, high)
    number = DOUBLE.unpack(stored)[0] if nbytes >= DOUBLE.size else SINGLE.unpack(stored[:4])[0] if nbytes == SINGLE.size else math.nan
    return float(number) if number == 0 or LEAST < abs(number) < MOST else math.nan


def queues(steps: Sequence[Superstep]) -> Iterator[Queue]:
    """The queues of messages each of which has a number with a point at its end. A superstep is left out in which the first message of a rank
    has none."""
    for superstep, step in enumerate(steps):
        if SEND not in step.numbers or not all(map(begins_with_number, step.records.values())):
            continue
        found: dict[int, List[Tuple[int, float]]] = {}
        for it in step.all():
            if it.number == SEND:
                found.setdefault(it.pid, []).append((it.nbytes, number_of(it.nbytes, it.dst, it.offset)))
        for rank, messages in sorted(found.items()):
            sizes, numbers = {size for size, _ in messages}, tuple(number for _, number in messages)
            if 2 < len(numbers) <= MOST_MESSAGES and len(sizes) == 1 and not any(map(math.isnan, numbers)):
                yield Queue(superstep + 1, rank, numbers, SINGLE.size in sizes)


def begins_with_number(content: bytes) -> bool:
    """Whether the first message of a rank's calls has a number, or there is none."""
    it = next((it for it in CALL.iter_unpack(content) if it[0] == SEND), None)
    return it is None or not math.isnan(number_of(it[6], it[4], it[5]))


def orders_of_sums(steps: Sequence[Superstep], most: int) -> List[Choices]:
    """Orders in which some of these sums are others than here, those first in which most are."""
    found = list(itertools.islice(queues(steps), MOST_QUEUES))
    here = [sum_of(it.numbers, it.is_single) for it in found]
    counts: List[Tuple[int, int]] = []
    number = 1
    for _ in range(MOST_ORDERS if found else 0):
        number = number * 1664525 + 1013904223 & WORD
        count = sum(it.sum_in(Choices(order=NUMBERED, seed=number)) != one for it, one in zip(found, here))
        counts.append((-count, number))
        if count == len(found):
            break
    return [Choices(order=NUMBERED, seed=it) for count, it in sorted(counts)[:most] if count < 0]


def other_sum(steps: Sequence[Superstep], tried: Sequence[Choices]) -> Tuple[Choices, Queue] | None:
    """The first of some orders in which such a sum is another one than here, and whose it is."""
    found = list(itertools.islice(queues(steps), MOST_QUEUES))
    here = [sum_of(it.numbers, it.is_single) for it in found]
    return next(((choices, it) for choices in tried for it, one in zip(found, here) if it.sum_in(choices) != one), None)


def is_added(it: Queue, last: int, here: Replays, other: Replays) -> bool:
    """Whether the rank adds its numbers up as they come: where the superstep ends, or the last one, it has a number that is in the other order
    another one by no more than rounding."""
    ends = {it.superstep, last}
    return any(differs_by_rounding(held(here, it, end), held(other, it, end), it.is_single) for end in ends)


def held(replays: Replays, it: Queue, superstep: int) -> bytes:
    """The registers of floating point and the memory of a rank at the end of a superstep."""
    with replays.end_of(superstep) as session:
        return registers(session, it.rank) + memory(session, it.rank, min(replays.memory, MOST_COMPARED))
    return b""


def registers(session: Session, rank: int) -> bytes:
    """The registers of floating point, if there are any."""
    reply = session.ask(f"fregs {rank}")
    return struct.pack("<32Q", *floats_of(reply.lines).f) if reply.code != RefusalCode.NO_FLOAT_UNIT else b""


def memory(session: Session, rank: int, size: int) -> bytes:
    """The first bytes of the memory."""
    return b"".join(memory_of(session, rank, at, min(size - at, MOST_SHOWN)) for at in range(0, size, MOST_SHOWN))


def differs_by_rounding(one: bytes, other: bytes, is_single: bool) -> bool:
    """Whether a number of one has another value at its place in the other one, and lies near it. A sum of 32 bits is one of 64 where it is
    printed."""
    near, forms = (NEAR_SINGLE, (SINGLE, DOUBLE)) if is_single else (NEAR_DOUBLE, (DOUBLE,))
    for start in range(0, min(len(one), len(other)) // DOUBLE.size * DOUBLE.size, BLOCK):
        blocks = [it[start : start + BLOCK] for it in (one, other)]
        size = min(map(len, blocks)) // DOUBLE.size * DOUBLE.size
        for form in forms if blocks[0] != blocks[1] else ():
            pairs = zip(*(form.iter_unpack(it[:size]) for it in blocks))
            if any(are_near(a, b, near) for (a,), (b,) in pairs):
                return True
    return False


def are_near(one: float, other: float, near: float) -> bool:
    """Whether two numbers are not the same and lie near one another."""
    return one != other and LEAST < abs(one) < MOST and abs(one - other) <= near * abs(one)
