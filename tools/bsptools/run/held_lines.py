"""Unfinished output lines of nodes in a run that was stopped, read from their memories."""

from __future__ import annotations

from ..framed.replays import bytes_of
from ..outputs.report import Report
from ..prepare.job import Job
from ..program import elf

# The library's buffer of standard output, how many bytes it has, and from how many on it is not that: bsplib/src/machine.h.
BUFFER, COUNT, LAST = "bsp_out", "bsp_out_count", 1023
# So many ranks are looked at, and no run that is longer than others are followed.
MOST_RANKS, MOST_STEPS = 64, 1 << 30


def held_lines(job: Job, found: Report) -> list[bytes]:
    """The lines that ranks have begun, by their ranks."""
    names = elf.symbols(job.content)
    steps = job.options.nodes * sum(it.costs["w"] for it in found.supersteps)
    if BUFFER not in names or COUNT not in names or steps > MOST_STEPS:
        return []
    lines = []
    with job.replays(is_named=False).end_of(found.supersteps[-1].number) as session:
        for rank in range(min(job.options.nodes, MOST_RANKS)):
            count = int.from_bytes(bytes_of(session.ask(f"bytes {rank} {names[COUNT]} 4").lines), "little")
            if 0 < count < LAST:
                lines.append(bytes_of(session.ask(f"bytes {rank} {names[BUFFER]} {count}").lines))
    return lines
