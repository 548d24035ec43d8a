"""The replies to gdb when the machine has stopped."""

from __future__ import annotations

from typing import NamedTuple, Optional, Union

from ..reverse.run_places import rank_of
from . import gdb_terms
from .watchpoints import Watch


class Stop(NamedTuple):
    """A rank at which gdb is told that the machine has stopped, and the signal that says why."""

    rank: int
    signal: int
    is_breakpoint: bool = False
    is_begin: bool = False
    watch: Optional[Watch] = None


class Exit(NamedTuple):
    """The run is over, and gdb's program with it."""

    status: int


Halt = Union[Stop, Exit]


def halt_of_outcome(outcome: str, current: int, stops_at_end: bool) -> Halt:
    """The stop at the end of a run, or the end of gdb's program with it. What is at no rank is told at the current one."""
    if outcome == "ended":
        return Stop(current, gdb_terms.NONE) if stops_at_end else Exit(gdb_terms.ENDED)
    rank = rank_of(outcome, current)
    return Stop(rank, gdb_terms.signal_of(outcome.partition("stopped: ")[2]) if "stopped" in outcome else gdb_terms.NONE)
