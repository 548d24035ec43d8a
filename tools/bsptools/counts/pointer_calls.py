"""Which places called which functions through pointers.

Counts say how often each place called some function, and how often each function began without a jump to it; both in each rank's part of
each superstep.
"""

from __future__ import annotations

from typing import Dict, NamedTuple, Tuple

from .apportionment import shared


class Local(NamedTuple):
    """One rank's part of a superstep: how often each place called by a pointer, and how often each function began so."""

    sites: dict[int, int]
    began: dict[int, int]

    @property
    def is_plain(self) -> bool:
        """Whether one place made all calls, or all were of one function."""
        return len(self.sites) < 2 or len(self.began) < 2


class Pair(NamedTuple):
    """A place, and a function that it called."""

    site: int
    callee: int


# How often, and whether the counts alone say so.
Found = Dict[Pair, Tuple[int, bool]]


def matched(parts: list[Local]) -> Found:
    """The calls of these parts. In one part a single place called all that began, and a single function was called by all places. Else a
    place is taken to have called the only function that began as often in each such part, if there is one; and what is left, each
    function in proportion."""
    found: Found = {}
    for part in parts:
        if part.is_plain:
            for site, calls in part.sites.items():
                for callee, began in part.began.items():
                    add(found, Pair(site, callee), began if len(part.sites) == 1 else calls, True)
    left = [part for part in parts if not part.is_plain]
    while (pair := next_pair(left)) is not None:
        for part in left:
            calls = part.sites.pop(pair.site, 0)
            add(found, pair, calls, False)
            part.began[pair.callee] = part.began.get(pair.callee, 0) - calls
    for part in left:
        rest = {callee: count for callee, count in part.began.items() if count > 0}
        for site, calls in part.sites.items() if rest else ():
            for callee, times in zip(rest, shared(calls, list(rest.values()))):
                add(found, Pair(site, callee), times, False)
    return found


def next_pair(parts: list[Local]) -> Pair | None:
    """A place that can have called just one of the functions in all of these parts, and that one."""
    for site in sorted({it for part in parts for it in part.sites}):
        here = [part for part in parts if site in part.sites]
        callees = [it for it in here[0].began if all(part.began.get(it, 0) >= part.sites[site] for part in here)]
        if len(callees) == 1:
            return Pair(site, callees[0])
    return None


def add(found: Found, pair: Pair, times: int, is_sure: bool) -> None:
    """Adds calls, if there are some."""
    if times > 0:
        before, was_sure = found.get(pair, (0, True))
        found[pair] = before + times, was_sure and is_sure
