"""The work of a run in the library's output functions, exactly, from the counts of their instructions."""

from __future__ import annotations

import re
from typing import NamedTuple

from . import step_counts
from .line_costs import Work

# The functions by which a program prints, of C and of C++: std::ostream, and what puts something into one.
OUTPUT = re.compile(
    r"v?f?d?printf|f?puts|f?putc|putchar|(?:putc|putchar|fputc|fputs|fwrite)_unlocked|fwrite|write|perror|fflush|v?f?wprintf"
    r"|fputw[cs]|putwc(?:har)?"
    r"|bsp_stdio_(?:put|flush|write)|bsp_error_put|_ZNSo.*|_ZSt4endl.*|_ZSt5flush.*|_ZStls.*|_ZSt16__ostream_insert.*"
)


class Printing(NamedTuple):
    """Of each superstep the steps in output functions that its w has, and its w without such steps; and those of each rank by superstep
    and rank."""

    in_w: list[int]
    without: list[int]
    of_rank: dict[tuple[int, int], int]


def output_functions(work: Work) -> set[int]:
    """The output functions of a run, and what was called by these alone, by their starts: none of the program's own."""
    found = {it for it, name in work.names.items() if OUTPUT.fullmatch(name) and it not in work.own}
    into = work.graph.into
    more = found
    while more:
        called = {it for function in more for it in work.graph.callees[function]} - found - work.own - work.graph.unexplained
        more = {it for it in called if all(call.caller in found or call.caller == it for call in into[it])}
        found = found | more
    return found


def printing(work: Work) -> Printing | None:
    """The work of output functions; none if a run has no such functions."""
    functions = output_functions(work)
    if not functions:
        return None
    addresses = {it for it, function in work.function_of.items() if function in functions}
    supersteps = work.counts.supersteps
    found = Printing([0] * len(supersteps), [0] * len(supersteps), {})
    for part in step_counts.parts(work.counts.path):
        printed = sum(steps for address, steps in zip(part.addresses, part.steps) if address in addresses)
        found.of_rank[part.superstep, part.rank] = printed
        ticks, slowest = supersteps[part.superstep].ticks[part.rank], supersteps[part.superstep].slowest
        found.without[part.superstep] = max(found.without[part.superstep], ticks - printed)
        if slowest is not None and slowest.rank == part.rank:
            found.in_w[part.superstep] = printed
    return found
