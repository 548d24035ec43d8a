"""The report after a program's output, and the costs of its supersteps."""

from __future__ import annotations

import re
import signal
from collections.abc import Iterator
from typing import NamedTuple

from ..files import whole
from ..refusals import UNWRITTEN, Unfit

SUPERSTEP = re.compile(rb"superstep (\d+): w (\d+) h (\d+)((?: [a-z]+ \d+)*) (turned|last)$")
BEGIN, WORK = b"superstep 0: w ", re.compile(rb"superstep \d+: w (\d+)")
MESSAGES = re.compile(rb"superstep \d+: w \d+ h \d+ m (\d+)")
TOTAL = re.compile(rb"total (\d+)$")
# More than any w, h or m, and than the number of any superstep: a node makes 2^40 steps at most.
MOST_COST = 1 << 40
OUTCOME = re.compile(rb"ended$|rank \d+ stopped: .+$|desync: rank \d+ ended, rank \d+ synced$|refused: \w+ rank \d+(?: request \d+)?$")
# No line of a report has more bytes.
MOST_OF_A_LINE = 512
# How the emulator ends where it has written a report: every node ended, or one was stopped, ran up to its limit or waited in vain.
REPORTED = (0, 2, 3, 4)


class Superstep(NamedTuple):
    """A superstep's number, its costs by their names in the order of the report, and how it ended: `turned` or `last`."""

    number: int
    costs: dict[str, int]
    end: str


class Report(NamedTuple):
    """The supersteps in their order, the cost of all of them, and the outcome as the emulator spells it."""

    supersteps: list[Superstep]
    total: int
    outcome: str
    text: bytes


def superstep_of(found: re.Match[bytes]) -> Superstep:
    """The superstep that the end of a line tells of: where the output has no last line feed, the first one shares its line."""
    number, w, h, others, end = (it.decode() for it in found.groups())
    words = others.split()
    costs = {"w": w, "h": h, **dict(zip(words[::2], words[1::2]))}
    return Superstep(whole(number, MOST_COST), {name: whole(value, MOST_COST) for name, value in costs.items()}, end)


def lines_from_the_end(written: bytes) -> Iterator[tuple[bytes, int]]:
    """Lines of what ends with a line feed, the last one first, each with where it ends. Of a long one its last bytes stand for it."""
    end = len(written) - 1
    while end >= 0:
        start = written.rfind(b"\n", 0, end) + 1
        yield written[max(start, end - MOST_OF_A_LINE) : end], end
        end = start - 1


def part(written: bytes) -> tuple[memoryview, Report] | None:
    """The output and the report of what the emulator wrote; None if no report stands at its end."""
    lines = lines_from_the_end(written if written.endswith(b"\n") else b"")
    outcome, _ = next(lines, (b"", 0))
    total = TOTAL.match(next(lines, (b"", 0))[0])
    if total is None or not OUTCOME.match(outcome):
        return None
    supersteps: list[Superstep] = []
    for line, end in lines:
        found = SUPERSTEP.search(line)
        if found is None:
            return None
        supersteps.append(superstep_of(found))
        if supersteps[-1].number == 0:
            begin = end - len(line) + found.start()
            report = Report(supersteps[::-1], whole(total[1].decode()), outcome.decode(), written[begin:])
            return memoryview(written)[:begin], checked(report)
    return None


def of_run(written: bytes, status: int, writes_more: bool = False) -> tuple[memoryview, Report] | None:
    """The same of an emulator that ended with this status. Where it has no memory or is killed it writes no report, and what looks like one is
    its program's. A file beside the report is written after it, so that the report is there where the file cannot be written."""
    return part(written) if is_reported(status, writes_more) else None


def is_reported(status: int, writes_more: bool = False) -> bool:
    """Whether an emulator that ended with this status has written a report. It writes one into a pipe, which no limit of a file's size ends."""
    return status in REPORTED or (writes_more and status in (UNWRITTEN, -signal.SIGXFSZ))


class Brief(NamedTuple):
    """What is compared of runs: the output, the outcome, the number of the last superstep, and the sum of all w. Also the largest m, which is
    0 if the report has none."""

    output: memoryview
    outcome: str
    last: int
    work: int
    messages: int


def brief(written: bytes) -> Brief | None:
    """The same of what the emulator wrote without a look at each superstep, of which there may be many; None if no report stands at its
    end."""
    begin = max(written.rfind(BEGIN), 0)
    lines = written[begin:].split(b"\n")
    last = SUPERSTEP.match(lines[-4]) if len(lines) > 3 else None
    if last is None or not (TOTAL.match(lines[-3]) and OUTCOME.match(lines[-2])) or lines[-1] or int(last[1]) != len(lines) - 4:
        return None
    work = sum(map(int, WORK.findall(written, begin)))
    messages = max(map(int, MESSAGES.findall(written, begin)), default=0)
    return Brief(memoryview(written)[:begin], lines[-2].decode(), int(last[1]), work, messages)


def checked(report: Report) -> Report:
    """A report that the emulator may have written; what is none raises ValueError."""
    names = list(report.supersteps[0].costs) if report.supersteps else []
    if names[:2] != ["w", "h"]:
        raise Unfit("no superstep with w and h")
    last = len(report.supersteps) - 1
    for number, it in enumerate(report.supersteps):
        if it.number != number or list(it.costs) != names:
            raise Unfit(f"superstep {it.number} is not in its place")
        if it.end != ("last" if number == last else "turned"):
            raise Unfit(f"superstep {number} ends as {it.end!r}")
    if report.outcome and not (OUTCOME.match(report.outcome.encode(errors="replace")) and "\n" not in report.outcome):
        raise Unfit(f"{report.outcome!r} is not an outcome")
    w, h = (sum(it.costs[name] for it in report.supersteps) for name in ("w", "h"))
    if report.outcome and not adds_up(report.total - w, h, last + 1):
        raise Unfit(f"the total {report.total} is not that of any prices")
    return report


def adds_up(rest: int, h: int, count: int) -> bool:
    """Whether some prices g and l, whole numbers from 0 on, make g * h + l * count of what is left."""
    return any(rest >= g * h and (rest - g * h) % count == 0 for g in range(count if h else 1))


def cost_of(superstep: Superstep, g: int, l: int) -> int:
    """What a superstep costs at these prices."""
    return superstep.costs["w"] + g * superstep.costs["h"] + l

