"""The work of functions passed on to their callers, and what of that is exact.

Counts say how often each place called which function, and not how much of a function's work was for which call. So where a function was
called from several places, each has a share of its work by the number of its calls; and where all calls came from one place, this is exact.
"""

from __future__ import annotations

from collections.abc import Iterable, Mapping
from functools import cached_property
from typing import NamedTuple

from .apportionment import shared
from .call_counts import Call


class Passed(NamedTuple):
    """The work of functions with what they call, each with all functions in whose circle it stands; and what of it is for each call."""

    inclusive: dict[int, int]
    by_call: dict[Call, int]


class Graph:
    """The functions of a run, each known by its start, and the calls that were made. Those that are unexplained may have been called in
    other ways too."""

    def __init__(self, functions: Iterable[int], calls: Iterable[Call], unexplained: Iterable[int] = ()) -> None:
        self.unexplained = set(unexplained)
        self.calls = [it for it in calls if it.times > 0]
        self.callees: dict[int, set[int]] = {it: set() for it in functions}
        self.into: dict[int, list[Call]] = {it: [] for it in self.callees}
        self.times: dict[int, int] = {}
        for call in self.calls:
            self.callees[call.caller].add(call.callee)
            self.into[call.callee].append(call)
            self.times[call.site] = self.times.get(call.site, 0) + call.times
        self.reached = {it: self.reach(self.callees[it]) for it in self.callees}

    def reach(self, begin: Iterable[int]) -> set[int]:
        """These functions, and all that they call, and these call."""
        found = set(begin)
        left = list(found)
        while left:
            more = self.callees[left.pop()] - found
            found |= more
            left += more
        return found

    def circle(self, function: int) -> frozenset[int]:
        """The functions that call one another in a circle with this one; itself alone if there is none."""
        return frozenset({function, *(it for it in self.reached[function] if function in self.reached[it])})

    def circles(self) -> list[frozenset[int]]:
        """All circles, each behind those that it calls."""
        found = dict.fromkeys(self.circle(it) for it in sorted(self.callees))
        return sorted(found, key=lambda circle: len(self.reached[min(circle)] | circle))

    @cached_property
    def outer(self) -> list[tuple[frozenset[int], list[Call]]]:
        """All circles, each behind those that it calls, with the calls of them that others make."""
        return [(circle, self.calls_of(circle)) for circle in self.circles()]

    @cached_property
    def circle_of(self) -> dict[int, tuple[frozenset[int], list[Call]]]:
        """The circle of each function, with the calls of it that others make."""
        return {function: (circle, outer) for circle, outer in self.outer for function in circle}

    def calls_of(self, circle: frozenset[int]) -> list[Call]:
        """The calls of these functions that others make."""
        return [call for it in sorted(circle) for call in self.into[it] if call.caller not in circle]

    def parted(self, whole: int, calls: list[Call], steps: Mapping[int, int]) -> list[tuple[Call, int]]:
        """A number parted by how often these calls were made in a part of the run that made so many steps at each address; where none of
        them was, as in a superstep in which a function goes on, by how often they were made in the whole run."""
        weights = [steps.get(it.site, 0) * it.times // self.times[it.site] for it in calls]
        return list(zip(calls, shared(whole, weights if any(weights) else [it.times for it in calls])))

    def passed(self, costs: Mapping[int, int], steps: Mapping[int, int]) -> Passed:
        """The costs of functions in a part of the run that made so many steps at each address, passed on to their callers."""
        held = {it: costs.get(it, 0) for it in self.callees}
        found = Passed({}, {})
        for circle, outer in self.outer:
            if whole := sum(held[it] for it in circle):
                found.inclusive.update(dict.fromkeys(circle, whole))
                for call, part in self.parted(whole, outer, steps):
                    found.by_call[call] = part
                    held[call.caller] += part
        return found

    def is_exact(self, calls: Iterable[Call], function: int | None = None) -> bool:
        """Whether the work of what is called there is for these calls alone; or for the function that makes them, whoever called it."""
        made = set(calls)
        within = self.reach(it.callee for it in made) | ({function} if function is not None else set())
        others = within - {function}
        if others & self.unexplained:
            return False
        return all(call.is_sure and (call.caller in within or call in made) for it in others for call in self.into[it])
