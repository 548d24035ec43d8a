"""The summary of a run: its totals, and its most expensive supersteps."""

from __future__ import annotations

from typing import NamedTuple

from .. import limits
from ..counts.printing import Printing
from ..diagnosis.superstep_ends import ends
from ..limits import RATE
from ..outputs import report
from ..prepare.job import Job
from ..program.memory_need import size_text
from ..refusals import counted

DEAREST = 5
# So many supersteps are looked at, since the debugger takes 1 MiB of lines.
MOST_SUPERSTEPS = 20_000


class Group(NamedTuple):
    """The supersteps that ended at one place: how many, and what they cost together."""

    end: str
    size: int
    w: int
    h: int
    cost: int
    printed: int


def groups(found: report.Report, places: list[str], g: int, l: int, printed: Printing | None, is_apart: bool) -> list[Group]:
    """The supersteps by their places, the dearest first. Those behind the places that are known have none. Where printing stands apart
    their work is without it."""
    made: dict[str, Group] = {}
    for i, it in enumerate(found.supersteps):
        end = places[it.number] if it.number < len(places) else "places that were not looked for"
        _, size, w, h, cost, before = made.get(end, Group(end, 0, 0, 0, 0, 0))
        work = printed.without[i] if printed is not None and is_apart else it.costs["w"]
        more = printed.in_w[i] if printed is not None else 0
        made[end] = Group(end, size + 1, w + work, h + it.costs["h"], cost + report.cost_of(it, g, l) + work - it.costs["w"], before + more)
    return sorted(made.values(), key=lambda it: -it.cost)


def lines(job: Job, found: report.Report, printed: Printing | None = None) -> list[str]:
    """The totals, and the dearest groups of supersteps with the lines at which they ended; and how much of their work was printing."""
    g, l = job.options.g, job.options.l
    is_apart = printed is not None and job.options.apart is not None
    replays = job.replays()
    made = groups(found, ends(job.code, replays, min(len(found.supersteps), MOST_SUPERSTEPS)), g, l, printed, is_apart)
    totals = {name: sum(it.costs[name] for it in found.supersteps) for name in found.supersteps[0].costs}
    total = sum(it.cost for it in made)
    texts = {name: str(value) for name, value in totals.items()}
    texts["w"] = work_text(sum(it.w for it in made), made, is_apart)
    costs = ", ".join(f"{name} {text}" for name, text in texts.items())
    begin = f"bsprun: {counted(len(found.supersteps), 'superstep')}, {costs} in all"
    large = f", on a large machine ({limits.OPTION}) with {size_text(job.options.memory)} a node" if job.options.large else ""
    told = [f"{begin}, total {total if is_apart else found.total}; {found.outcome}{large}"]
    if job.options.rate != RATE:
        told.append(f"  {found.total / job.options.rate:.6g} s, at {job.options.rate:,.10g} instructions a second")
    for it in made[:DEAREST]:
        share = 100 * it.cost / max(total, 1)
        w = work_text(it.w, [it], is_apart)
        told.append(f"  {counted(it.size, 'superstep')} up to {it.end}: w {w}, h {it.h}, cost {it.cost}, {share:.1f} % of the total")
    more = made[DEAREST:]
    if more:
        told.append(f"  {counted(sum(it.size for it in more), 'superstep')} up to {counted(len(more), 'other place')}")
    return told


def work_text(w: int, of: list[Group], is_apart: bool) -> str:
    """Work, and how much of it was printing, or that it is without that."""
    printed = sum(it.printed for it in of)
    return f"{w} without printing" if is_apart else f"{w} ({printed} of it printing)" if printed else str(w)
