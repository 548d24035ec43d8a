"""Costs in callgrind's format, which kcachegrind and callgrind_annotate read.

https://valgrind.org/docs/manual/cl-format.html has the format.
"""

from __future__ import annotations

from collections.abc import Iterator

from .. import VERSION
from ..program.line_table import Place
from ..refusals import printable
from .call_counts import Call
from .line_costs import Work, summed

UNKNOWN = "???"


def text(work: Work, program: str) -> str:
    """The costs of a run, each as what is paid and as what all ranks made: of lines, which are exact, and of calls with all that they call,
    which are apportioned where `Graph.is_exact` says no."""
    return "\n".join(Written(work).lines(program)) + "\n"


class Written:
    """The lines of a file of costs. A function without lines of its own has its costs at line 0 of an unknown file."""

    def __init__(self, work: Work) -> None:
        self.work = work
        keys = {address: (function, work.places[address]) for address, function in work.function_of.items()}
        self.paid, self.made = summed(work.paid, keys), summed(work.made, keys)
        made = work.graph.passed(summed(work.made, work.function_of), work.made)
        self.by_call = (work.passed.by_call, made.by_call)
        self.homes: dict[int, Place] = {}
        for function in sorted(work.names):
            self.homes[function] = work.places.get(function, Place("", 0, ""))

    def lines(self, program: str) -> Iterator[str]:
        """All of them."""
        sums = f"{sum(self.work.paid.values())} {sum(self.work.made.values())}"
        yield from ("# callgrind format", "version: 1", f"creator: bsprun {VERSION}", f"cmd: {printable(program)}", "positions: line")
        yield from ("event: paid : steps of the slowest ranks (w)", "event: all : steps of all ranks", "events: paid all")
        yield f"summary: {sums}"
        calls: dict[int, list[Call]] = {}
        for call in self.work.graph.calls:
            calls.setdefault(call.caller, []).append(call)
        places: dict[int, list[Place]] = {}
        for function, place in sorted(self.paid):
            places.setdefault(function, []).append(place)
        for function, here in places.items():
            home = self.homes[function]
            yield from ("", f"fl={file_of(home)}", f"fn={self.name(function)}")
            for place in here:
                if file_of(place) != file_of(home):
                    yield f"fi={file_of(place)}"
                    home = place
                yield f"{place.number} {self.paid[function, place]} {self.made[function, place]}"
            for call in calls.get(function, ()):
                yield from self.call(call)
        yield from ("", f"totals: {sums}")

    def call(self, call: Call) -> Iterator[str]:
        """The lines of a call. One within a circle of functions has its number alone."""
        place, home = self.work.places[call.site], self.homes[call.callee]
        yield f"fi={file_of(place)}"
        yield from (f"cfi={file_of(home)}", f"cfn={self.name(call.callee)}", f"calls={call.times} {home.number}")
        yield f"{place.number} {self.by_call[0].get(call, 0)} {self.by_call[1].get(call, 0)}"

    def name(self, function: int) -> str:
        """A function's name."""
        return printable(self.work.names[function])


def file_of(place: Place) -> str:
    """The file of a place."""
    return printable(place.path) if place.is_own else UNKNOWN
