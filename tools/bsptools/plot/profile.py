"""The reader of what `run --profile` writes: the steps of each rank and the bytes between ranks, by superstep."""

from __future__ import annotations

import csv
import enum
import io
from dataclasses import dataclass, field
from typing import NamedTuple

from ..files import whole
from ..limits import MOST_NODES, MOST_TICKS
from ..refusals import Refused, Unfit, why_unfit

HEADER = ["superstep", "rank", "to", "ticks", "sent", "received", "kept", "messages", "requests", "state"]
# What `bsprun` adds if it has counted that: of the ticks those in output functions.
PRINTED = "printed"
# How a rank stands at the end of a superstep.
STATES = ("synced", "ended", "aborted", "exhausted", "faulted")


class Reading(enum.Enum):
    """Which bytes the h of a superstep counts: with what a rank moves to itself, or only what goes to and comes from others."""

    ALL = "all"
    OTHERS = "others"


class Share(NamedTuple):
    """What one rank did in one superstep.

    ticks are its instructions; sent and received are bytes to and from other ranks, and kept those that it moved to itself; messages
    came from other ranks; requests are the puts, gets and messages that it asked for; state is how it stood at the end. printed are the
    ticks in output functions, 0 if they were not counted.
    """

    ticks: int
    sent: int
    received: int
    kept: int
    messages: int
    requests: int
    state: str
    printed: int = 0

    def h(self, reading: Reading) -> int:
        """The bytes that this rank sent or received, whichever is more."""
        kept = self.kept if reading is Reading.ALL else 0
        return max(self.sent, self.received) + kept


@dataclass(frozen=True)
class Superstep:
    """A superstep: its number, what each rank did in it, and the bytes that went from one rank to another where there were any."""

    number: int
    shares: list[Share] = field(default_factory=list)
    transfers: dict[tuple[int, int], int] = field(default_factory=dict)

    @property
    def w(self) -> int:
        """The most instructions of a rank."""
        return max(it.ticks for it in self.shares)

    def h(self, reading: Reading) -> int:
        """The h-relation: the most bytes that a rank sent or received."""
        return max(it.h(reading) for it in self.shares)

    @property
    def slowest(self) -> int:
        """The lowest rank that made the most instructions."""
        return max(range(len(self.shares)), key=lambda rank: (self.shares[rank].ticks, -rank))

    @property
    def printed(self) -> int:
        """How many of the steps of the slowest rank were in output functions."""
        return self.shares[self.slowest].printed

    @property
    def balance(self) -> float:
        """The mean of the ranks' instructions by the most of them: 1 if all work alike, 1/p where one rank works alone."""
        return sum(it.ticks for it in self.shares) / len(self.shares) / self.w if self.w else 1.0


class Profile(NamedTuple):
    """The supersteps of a run, from 0 on, and whether it is known which of their work was printing."""

    supersteps: list[Superstep]
    is_counted: bool = False

    @property
    def nodes(self) -> int:
        """How many ranks there are."""
        return len(self.supersteps[0].shares)

    def without_printing(self) -> Profile:
        """The same run without the work of output functions."""
        shares = [[it._replace(ticks=it.ticks - it.printed, printed=0) for it in one.shares] for one in self.supersteps]
        return Profile([Superstep(one.number, them, one.transfers) for one, them in zip(self.supersteps, shares)])

    def outcome(self) -> str:
        """How the run ended, as far as the states of the ranks at its end tell."""
        states = [it.state for it in self.supersteps[-1].shares]
        stopped = [f"rank {rank} stopped: {state}" for rank, state in enumerate(states) if state not in ("ended", "synced")]
        if stopped:
            return stopped[0]
        if set(states) == {"ended"}:
            return "ended"
        return "the exchange was refused" if set(states) == {"synced"} else "some ranks wait for ranks that have ended"


def is_profile(text: str) -> bool:
    """Whether a text begins as a profile does."""
    return text.startswith(",".join(HEADER[:3]))


def parse(text: str) -> Profile:
    """The profile that a text has; it refuses one that is cut off, out of order, or none that the emulator writes, and names the line."""
    rows = csv.reader(io.StringIO(text))
    supersteps: list[Superstep] = []
    try:
        head: list[str] = next(rows, [])
        if head not in (HEADER, [*HEADER, PRINTED]):
            raise Unfit("a profile begins with the line " + ",".join(HEADER))
        for row in rows:
            add(supersteps, row, len(head))
    except (ValueError, IndexError, csv.Error) as error:
        raise Refused(f"line {rows.line_num}: {why_unfit(error)}") from error
    if not supersteps:
        raise Refused("it has no supersteps")
    if len(supersteps[-1].shares) != len(supersteps[0].shares):
        raise Refused(f"it is cut off in superstep {supersteps[-1].number}")
    for superstep in supersteps:
        expect_sums(superstep, superstep is supersteps[-1])
    return Profile(supersteps, PRINTED in head)


def add(supersteps: list[Superstep], row: list[str], columns: int) -> None:
    """Takes a row: the next rank's of a superstep, or a transfer of it."""
    if len(row) != columns:
        raise Unfit(f"{len(row)} columns, and a profile has {columns}")
    number, rank = whole(row[0], MOST_TICKS), whole(row[1], MOST_NODES - 1)
    if not supersteps or (number == supersteps[-1].number + 1 and is_whole(supersteps)):
        supersteps.append(Superstep(number))
    now = supersteps[-1]
    if number != now.number or number != len(supersteps) - 1:
        raise Unfit(f"superstep {number} is not in its place")
    if row[2]:
        add_transfer(now, (rank, whole(row[2], len(now.shares) - 1)), row)
    elif rank == len(now.shares) and not now.transfers:
        ticks, sent, received, kept, messages, requests = (whole(it, MOST_TICKS) for it in row[3:9])
        if row[9] not in STATES:
            raise Unfit(f"{row[9]!r} is not a state of a rank")
        printed = whole(row[10], ticks) if columns > len(HEADER) else 0
        now.shares.append(Share(ticks, sent, received, kept, messages, requests, row[9], printed))
    else:
        raise Unfit(f"rank {rank} is not in its place")


def is_whole(supersteps: list[Superstep]) -> bool:
    """Whether the last of these supersteps has as many ranks as the first."""
    return len(supersteps[-1].shares) == len(supersteps[0].shares)


def add_transfer(superstep: Superstep, pair: tuple[int, int], row: list[str]) -> None:
    """Takes a transfer. They stand in the order of their ranks, and have bytes and nothing else."""
    if pair[0] >= len(superstep.shares) or (superstep.transfers and pair <= next(reversed(superstep.transfers))):
        raise Unfit(f"the transfer from rank {pair[0]} to rank {pair[1]} is not in its place")
    if row[3] or any(row[5:]) or row[4] == "0":
        raise Unfit("a transfer has bytes, at least 1, and nothing else")
    superstep.transfers[pair] = whole(row[4], MOST_TICKS)


def expect_sums(superstep: Superstep, is_last: bool) -> None:
    """Refuses a superstep whose transfers are not what its ranks sent and received, or whose ranks stand as they cannot."""
    sums = [[0, 0, 0] for _ in superstep.shares]
    for (rank, to), count in superstep.transfers.items():
        if rank == to:
            sums[rank][2] += count
        else:
            sums[rank][0] += count
            sums[to][1] += count
    for rank, it in enumerate(superstep.shares):
        begin = f"superstep {superstep.number}, rank {rank}"
        if [it.sent, it.received, it.kept] != sums[rank]:
            raise Refused(f"{begin}: its bytes differ from those of the transfers")
        if not is_last and it.state != "synced":
            raise Refused(f"{begin}: it is {it.state}, but a superstep follows")
        if is_last and (any(sums[rank]) or it.messages):
            raise Refused(f"{begin}: it is the last superstep, which has no exchange")
