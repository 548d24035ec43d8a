"""Where two runs diverge: the first call of a rank that differs, or has other bytes."""

from __future__ import annotations

import itertools
from collections.abc import Iterator
from typing import NamedTuple, Protocol

from ..framed.backtrace import place
from ..framed.environment_calls import NAMES, REQUESTS, SYNC, WRITE, read_by
from ..framed.replays import Replays
from ..framed.session import Node
from ..prepare.library_choices import Choices
from ..program.code import Code
from .trial_runs import Stop, stops

TRACED = (*REQUESTS, WRITE, SYNC)
# Functions of bsplib/ with environment calls that ask and change nothing.
ASKING = (
    "bsp_start", "bsp_begin", "bsp_nprocs", "bsp_pid", "bsp_input_read", "bsp_stdio_get", "bsp_qsize", "bsp_get_tag", "bsp_move",
    "keep_queue", "keep_words", "log_move",
)  # fmt: skip
# How many calls of a run are compared.
MOST_CALLS = 20_000
MOST_POINTS = 1000


class Runs(Protocol):
    """Runs of a program under choices."""

    @property
    def code(self) -> Code:
        """What is known of its code."""

    @property
    def nodes(self) -> int:
        """The number of nodes."""

    def replays(self, choices: Choices) -> Replays:
        """The run under these choices in the debugger, up to the next one that is asked for."""


class TracedCall(NamedTuple):
    """A call of a rank: its superstep, its number, its operands but addresses, and the bytes that it reads."""

    superstep: int
    number: int
    operands: tuple[int, ...]
    content: bytes

    @property
    def told(self) -> str:
        """The call, with some of its bytes."""
        name = NAMES[self.number][0] if self.number != WRITE else "what is printed"
        return f"{name}, {shown(self.content)}" if self.content else name


class Divergence(NamedTuple):
    """The first calls in which a rank's runs differ, and where the first of them is made."""

    rank: int
    where: str
    one: TracedCall
    other: TracedCall | None


def shown(content: bytes, most: int = 16) -> str:
    """The first of some bytes, as text where they are one."""
    if content and all(32 <= it < 127 or it == 10 for it in content):
        return repr(content[: 3 * most].decode())
    return f"bytes {content[:most].hex(' ')}" + (" .." if len(content) > most else "")


def calls_of(trials: Runs, choices: Choices) -> Iterator[Stop]:
    """The calls of the lower ranks of a run, in the run's order."""
    trials.code.know_names()
    sites = [it for it in trials.code.calls() if trials.code.name_at(it) not in ASKING]
    points = [(rank, site) for rank in range(trials.nodes) for site in sites][:MOST_POINTS]
    return itertools.islice(stops(trials.replays(choices), trials.code, [], points, read_by), MOST_CALLS)


def traced_calls(trials: Runs, choices: Choices) -> dict[int, list[tuple[TracedCall, Node]]]:
    """The calls of each rank, with where it stands at each."""
    found: dict[int, list[tuple[TracedCall, Node]]] = {}
    supersteps: dict[int, int] = {}
    for stop in calls_of(trials, choices):
        node, number = stop.node, stop.node.x[17]
        if number not in TRACED:
            continue
        superstep = supersteps.setdefault(node.rank, 0)
        supersteps[node.rank] += number == SYNC
        operands = tuple(node.x[10 + i] for i, it in enumerate(NAMES[number][1]) if not it.startswith("*"))
        found.setdefault(node.rank, []).append((TracedCall(superstep, number, operands, stop.content), node))
    return found


def first_divergence(one: tuple[Runs, Choices], other: tuple[Runs, Choices]) -> Divergence | None:
    """Where two runs of a program part: in the first superstep, and in it the lowest rank."""
    here, there = traced_calls(*one), traced_calls(*other)
    found: list[Divergence] = []
    for rank, made in there.items():
        before = [deed for deed, _ in here.get(rank, [])]
        for i, (deed, node) in enumerate(made):
            if i >= len(before) or before[i] != deed:
                found.append(Divergence(rank, place(other[0].code, node), deed, before[i] if i < len(before) else None))
                break
    return min(found, key=lambda it: (it.one.superstep, it.rank)) if found else None
