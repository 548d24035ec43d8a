"""Costs as folded stacks, from which flame graphs are made.

On each line stand the functions from the outermost to the innermost, parted by semicolons, and what is paid there. A function that was
called from several places has a share of its work in each of these stacks, by the numbers of calls; the sum of all lines is the run's
total.
"""

from __future__ import annotations

from ..refusals import printable
from .apportionment import WHOLE, shared
from .line_costs import Work, summed

# Stacks that lead to one function. Those with the least weight are left out, and the others have their share.
MOST_STACKS = 64


def text(work: Work, exchange: int, ends: int) -> str:
    """The stacks of a run, with what its exchanges (g*h) and its supersteps' ends (l) cost."""
    lines = {**stacks(work), "exchange, g*h": exchange, "end of supersteps, l": ends}
    return "".join(f"{stack} {count}\n" for stack, count in sorted(lines.items()) if count > 0)


def stacks(work: Work) -> dict[str, int]:
    """What is paid in each stack. Functions that call one another in a circle are one frame."""
    graph, paid = work.graph, summed(work.paid, work.function_of)
    weights: dict[int, dict[str, int]] = {it: {} for it in graph.callees}
    found: dict[str, int] = {}
    for circle, outer in reversed(graph.outer):
        frame = "+".join(sorted(frame_of(work.names[it]) for it in circle))
        above: dict[str, int] = {}
        for call, part in zip(outer, shared(WHOLE, [it.times for it in outer])):
            for stack, weight in weights[call.caller].items():
                above[f"{stack};{frame}"] = above.get(f"{stack};{frame}", 0) + weight * part // WHOLE
        kept = dict(sorted(above.items(), key=lambda it: (-it[1], it[0]))[:MOST_STACKS])
        if not sum(kept.values()):
            kept = {frame: WHOLE}
        for it in circle:
            weights[it] = kept
        for stack, count in zip(kept, shared(sum(paid.get(it, 0) for it in circle), list(kept.values()))):
            found[stack] = found.get(stack, 0) + count
    return found


def frame_of(name: str) -> str:
    """A function's name, without what parts stacks."""
    return printable(name).replace(";", ":").replace(" ", "_")
