"""A run over time, in Chrome's trace event format, which Perfetto reads.

Each rank has a track, on which a tick is a microsecond (https://docs.google.com/document/d/1CvAClvFfyA5R-PhYUmn5OOQtYMH4h6I0nSsKchNAySU).
"""

from __future__ import annotations

import json
from collections.abc import Iterator
from typing import Any

from ..outputs.report import Report
from ..refusals import printable
from .step_counts import Counts

# More than a viewer shows at once; supersteps from there on are left out.
MOST_EVENTS = 1_000_000
WORK, WAIT, EXCHANGE, END = "work", "waiting for the slowest rank", "exchange, g*h", "end of the superstep, l"


def most_supersteps(nodes: int) -> int:
    """How many supersteps have their place in a file."""
    return max(1, MOST_EVENTS // (4 * nodes))


def text(counts: Counts, report: Report, g: int, l: int, program: str) -> str:
    """The events of a run at these prices."""
    events = [*names(counts.nodes, printable(program)), *spans(counts, report, g, l)]
    content = {"traceEvents": events, "displayTimeUnit": "ms", "otherData": {"program": printable(program), "g": g, "l": l}}
    return json.dumps(content, separators=(",", ":")) + "\n"


def names(nodes: int, program: str) -> Iterator[dict[str, Any]]:
    """What the tracks are called."""
    yield {"ph": "M", "pid": 0, "tid": 0, "name": "process_name", "args": {"name": program}}
    for rank in range(nodes):
        yield {"ph": "M", "pid": 0, "tid": rank, "name": "thread_name", "args": {"name": f"rank {rank}"}}
        yield {"ph": "M", "pid": 0, "tid": rank, "name": "thread_sort_index", "args": {"sort_index": rank}}


def spans(counts: Counts, report: Report, g: int, l: int) -> Iterator[dict[str, Any]]:
    """Work, waiting, exchange and end of each superstep, for each rank; none that takes no time."""
    start = 0
    for superstep, told in list(zip(counts.supersteps, report.supersteps))[: most_supersteps(counts.nodes)]:
        exchange = g * told.costs["h"]
        for rank, ticks in enumerate(superstep.ticks):
            at = start
            for name, ticks_of in ((WORK, ticks), (WAIT, superstep.w - ticks), (EXCHANGE, exchange), (END, l)):
                if ticks_of > 0:
                    args = {"superstep": told.number, **told.costs}
                    yield {"ph": "X", "pid": 0, "tid": rank, "name": name, "cat": "superstep", "ts": at, "dur": ticks_of, "args": args}
                at += ticks_of
        start += superstep.w + exchange + l
