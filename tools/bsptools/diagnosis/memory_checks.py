"""A second run that checks the heap in each superstep, with another byte in fresh memory.

What it shows are mistakes that have no other effect.
"""

from __future__ import annotations

import re
import subprocess
from typing import NamedTuple

from .. import children
from ..framed.replays import Replays
from ..outputs import output_records
from ..outputs.output_demux import ERROR, OUTPUT, Marks, digest_of
from ..outputs.report import Report, of_run
from ..portable.divergence import first_divergence
from ..prepare.clock_rate import with_clock_rate
from ..prepare.job import Job
from ..prepare.library_choices import Choices
from ..program.code import Code
from .stop_reasons import Why

# The byte that fresh memory has, where it has 0 in the run that is looked at, or another one.
FILLS = (0xA5, 0x5A)
OVERRUN = re.compile(rb"^bsp: rank \d+: (.*(?:past their end|what stands there))$", re.MULTILINE)
MOST_SHOWN = 60


class Run(NamedTuple):
    """What a run wrote, without its records, and its outcome."""

    output: bytes
    outcome: str


class Filled(NamedTuple):
    """Runs with these settings of the program's library."""

    job: Job
    flags: int
    fill: int | None

    @property
    def code(self) -> Code:
        """What is known of the code."""
        return self.job.code

    @property
    def nodes(self) -> int:
        """The number of nodes."""
        return int(self.job.options.nodes)

    def replays(self, _choices: Choices) -> Replays:
        """The run in the debugger, up to the next one that is asked for."""
        self.job.set(self.flags, self.fill)
        return self.job.replays()


def overruns(again: Run, where: list[str]) -> list[str]:
    """What the run once more stopped at, with lines that tell where."""
    found = OVERRUN.search(again.output)
    if found is None or again.outcome == "ended":
        return []
    place = next((it.strip()[len("at") :].strip() for it in where if it.strip().startswith("at ")), "")
    first = where[0].partition(", after")[0] if where else again.outcome
    return [f"{found[1].decode(errors='replace')}: seen where {first}" + (f", at {place}" if place else "")]


def reads(first: Run, again: Run, fill: int) -> list[str]:
    """Where the output of two runs differs."""
    if first == again:
        return []
    begin = f"memory is read before it is written: if it starts with the byte {fill:#x}"
    if first.output == again.output:
        return [f"{begin}, the run ends differently: {again.outcome}"]
    lines = [it.output.split(b"\n") for it in (first, again)]
    at = next((i for i, (a, b) in enumerate(zip(*lines)) if a != b), min(map(len, lines)))
    texts = [repr(of[at][:MOST_SHOWN].decode(errors="replace")) if at < len(of) else "not there" for of in lines]
    return [f"{begin}, line {at + 1} of the output is {texts[1]} instead of {texts[0]}"]


def parted(one: Filled, other: Filled) -> str:
    """Where two runs part whose outputs differ: the first call of a rank that is another one."""
    found = first_divergence((one, Choices()), (other, Choices()))
    if found is None:
        return ""
    what = found.one.told.partition(",")[0]
    return f"; first in {what} of rank {found.rank} in superstep {found.one.superstep}, at {found.where}"


def run_of(job: Job, flags: int, fill: int | None) -> tuple[Run, Report] | None:
    """A run with these settings of the program's library: what it wrote, also on standard error, and its report."""
    job.set(flags, fill, is_timed=False)
    done = children.call([*job.program, "run", *job.settings, "--report"], stdout=subprocess.PIPE, stderr=subprocess.DEVNULL)
    parted = of_run(done.stdout, done.returncode)
    if parted is None:
        return None
    marks = Marks(job.mark)
    own = b"".join(piece for kind, piece in marks.take(bytes(parted[0])) if kind in (OUTPUT, ERROR))
    return Run(own + marks.left(), parted[1].outcome), parted[1]


def is_as_watched(job: Job, again: Run, outcome: str, digest: bytes | None) -> bool:
    """Whether a run once more did what the run did that was watched. That cannot be said of a program that reads the time."""
    return with_clock_rate(job.content, job.options.rate) == job.content and again.outcome == outcome and digest_of(again.output) == digest


def memory_findings(job: Job, outcome: str, digest: bytes | None) -> dict[str, list[str]]:
    """What a run once more tells, by the names of what it looks for, where the program's library can look. It is compared with the run that
    was watched, by the outcome and the digest of its output, and where these differ with a third one."""
    options = job.options
    if not job.mark or output_records.PLACE not in job.content:
        return {}
    fill = next(it for it in FILLS if it != options.fill)
    found: dict[str, list[str]] = {"memory written past a malloc block": [], "memory read before it is written": []}
    again = run_of(job, output_records.LOOKS, fill)
    # Where that stopped is looked for before the job is set for another run.
    where = [] if again is None or again[0].outcome == "ended" else Why(job.code, job.replays(), options.nodes, options.limit).lines(again[1])
    first = again if again is None or is_as_watched(job, again[0], outcome, digest) else run_of(job, 0, options.fill)
    if first is not None and again is not None:
        overrun, read = found
        found[overrun] = overruns(again[0], where)
        found[read] = [] if found[overrun] else reads(first[0], again[0], fill)
        if found[read]:
            found[read][0] += parted(Filled(job, 0, options.fill), Filled(job, output_records.LOOKS, fill))
    job.set(0, options.fill)
    return found
