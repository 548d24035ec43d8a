"""What lines and functions cost: by themselves, with what they call, and with library functions folded."""

from __future__ import annotations

from array import array
from collections.abc import Mapping
from functools import cached_property
from typing import NamedTuple, TypeVar

from ..program.code import Code
from ..program.line_table import Place, Source
from .apportionment import WHOLE, shared
from .call_counts import Call, CallCounts
from .call_graph import Graph, Passed
from .step_counts import Counts

Key = TypeVar("Key")


class Cost(NamedTuple):
    """What a line or a function costs, in steps: `paid` are those of the slowest ranks, of which w is made, and `ranks` those of each rank.

    `with_calls` are those that are paid with what is called from there; None if a line calls its own function again. It is exact, or
    apportioned by numbers of calls. `function` is the one that made most of a line's steps, which may be a library's.
    """

    place: Place
    function: str
    is_library: bool
    paid: int
    ranks: array[int]
    with_calls: int | None
    is_exact: bool


class Work:
    """The work of a run: its steps by address, the function and the place of each address, and which functions are the program's own."""

    def __init__(self, code: Code, counts: Counts) -> None:
        self.counts = counts
        self.paid, self.made = counts.paid(), counts.by_all()
        self.flow = CallCounts(code, counts)
        self.names = self.flow.functions.names
        self.graph = Graph(self.names, self.flow.calls, self.flow.unexplained)
        source = Source(code)
        self.function_of = {address: self.flow.functions.of(address) for address in self.made}
        self.places: dict[int, Place] = {}
        self.own: set[int] = set()
        for address, function in self.function_of.items():
            place = source.place(address)
            self.places[address] = place or Place("", 0, self.names[function])
            if place:
                self.own.add(function)

    def lines(self) -> list[Cost]:
        """The costs of all places, the dearest first."""
        calls: dict[Place, list[Call]] = {}
        for call in self.graph.calls:
            calls.setdefault(self.places[call.site], []).append(call)
        ranks, functions = self.ranks(self.places), self.functions()
        found = []
        for place, paid in summed(self.paid, self.places).items():
            made = calls.get(place, [])
            again = any(it.caller in self.graph.circle(it.callee) for it in made)
            whole = None if again else paid + sum(self.passed.by_call.get(it, 0) for it in made)
            name, is_exact = self.names[functions[place]], not again and self.graph.is_exact(made)
            found.append(Cost(place, name, functions[place] not in self.own, paid, ranks[place], whole, is_exact))
        return sorted(found, key=lambda it: (-it.paid, -sum(it.ranks), it.place))

    def by_functions(self) -> list[Cost]:
        """The costs of all functions, the dearest first."""
        sums = summed(self.paid, self.function_of)
        ranks = self.ranks(self.function_of)
        found = []
        for function, paid in sums.items():
            made = [it for it in self.graph.calls if it.caller == function]
            name, is_exact = self.names[function], self.graph.is_exact(made, function)
            is_library = function not in self.own
            inclusive = self.passed.inclusive.get(function, 0)
            found.append(Cost(Place("", 0, name), name, is_library, paid, ranks[function], inclusive, is_exact))
        return sorted(found, key=lambda it: (-it.paid, -sum(it.ranks), it.place))

    @cached_property
    def passed(self) -> Passed:
        """What is paid, passed on to callers in each superstep by the calls that its slowest rank made."""
        whole = Passed({}, {})
        for superstep in self.counts.supersteps:
            part = self.graph.passed(summed(superstep.made, self.function_of), superstep.made)
            for function, paid in part.inclusive.items():
                whole.inclusive[function] = whole.inclusive.get(function, 0) + paid
            for call, paid in part.by_call.items():
                whole.by_call[call] = whole.by_call.get(call, 0) + paid
        return whole

    def home(self, function: int, steps: Mapping[int, int], known: dict[int, dict[Place, int]]) -> dict[Place, int]:
        """The places at which the work of a library function stands when it is folded, with their weights, in a part of the run that made
        these steps: those of the program's own functions that called it, or that called what called it, by the numbers of calls; itself
        if there are none. Those that are known are those of the same part."""
        if function not in known:
            circle, outer = self.graph.circle_of[function]
            weights: dict[Place, int] = {}
            if not outer or circle & self.own:
                weights[Place("", 0, self.names[function])] = WHOLE
                circle = frozenset({function})
            for call, part in self.graph.parted(WHOLE, outer, steps) if not weights else ():
                if part:
                    is_own = call.caller in self.own
                    above = {self.places[call.site]: WHOLE} if is_own else self.home(call.caller, steps, known)
                    for place, weight in above.items():
                        weights[place] = weights.get(place, 0) + weight * part // WHOLE
            known.update(dict.fromkeys(circle, weights))
        return known[function]

    def folded(self, steps: Mapping[int, int]) -> dict[Place, int]:
        """The steps of a part of the run by places, the work of library functions at their homes."""
        found = summed({it: count for it, count in steps.items() if self.function_of[it] in self.own}, self.places)
        library = {it: count for it, count in steps.items() if self.function_of[it] not in self.own}
        known: dict[int, dict[Place, int]] = {}
        for function, count in summed(library, self.function_of).items():
            home = self.home(function, steps, known)
            for place, part in zip(home, shared(count, list(home.values()))):
                found[place] = found.get(place, 0) + part
        return found

    @cached_property
    def folded_parts(self) -> list[dict[Place, int]]:
        """What is paid in each superstep, folded."""
        return [self.folded(it.made) for it in self.counts.supersteps]

    def ranks(self, keys: Mapping[int, Key]) -> dict[Key, array[int]]:
        """The steps of each rank, by what addresses are put together by."""
        found: dict[Key, array[int]] = {}
        for address, counts in self.counts.by_rank.items():
            key = keys[address]
            found[key] = array("Q", (one + more for one, more in zip(found[key], counts))) if key in found else counts
        return found

    def functions(self) -> dict[Place, int]:
        """The function that made most of the steps of each place."""
        steps: dict[Place, dict[int, int]] = {}
        for address, place in self.places.items():
            of_place, function = steps.setdefault(place, {}), self.function_of[address]
            of_place[function] = of_place.get(function, 0) + self.made[address]
        return {place: max(sorted(it), key=it.__getitem__) for place, it in steps.items()}


def summed(steps: Mapping[int, int], keys: Mapping[int, Key]) -> dict[Key, int]:
    """Steps at addresses, added up by what the addresses are put together by."""
    found: dict[Key, int] = {}
    for address, count in steps.items():
        found[keys[address]] = found.get(keys[address], 0) + count
    return found
