"""The messages at the end of a run: a summary, why it failed, likely mistakes."""

from __future__ import annotations

import contextlib
import os
import stat
from collections.abc import Iterator
from typing import TYPE_CHECKING

from .. import children, emulator, files, python_packages, streams
from ..counts.printing import Printing, printing
from ..diagnosis.likely_mistakes import warnings
from ..diagnosis.memory_checks import memory_findings
from ..diagnosis.stop_reasons import Why
from ..framed.environment_calls import Tracer
from ..limits import MOST_TABLE
from ..options import Parser
from ..outputs.report import Report
from ..prepare.job import Job, gdb_line
from ..refusals import Refused, lines_of, show, tell
from . import run_summary
from .cost_formats import wants_counts
from .stack_room import with_advice

if TYPE_CHECKING:
    from .cost_tables import Measured

# What a person may do next who does not see the mistake.
STRICT = "run again with --strict to look for the usual mistakes"
# Up to how many instructions a run is made again to count what it prints.
MOST_COUNTED = 100_000_000
# The status of a run that could not write a file.
NOT_WRITTEN = 6


def tell_of(job: Job, found: Report, parser: Parser, is_chosen: bool, are_offsets_told: bool, digest: bytes | None) -> None:
    """Tells all that there is to tell. An end that the program chose is none to be told, nor is twice told what is known of offsets. The
    digest is that of what the run wrote."""
    options = job.options
    if options.summary or options.apart:
        tell_summary(job, found)
    if wants_counts(options):
        tell_lines(job, found)
    if found.outcome != "ended" and not is_chosen:
        show("bsprun: looking for the place")
        why = Why(job.code, job.replays(), options.nodes, options.limit, is_patient=options.warn)
        try:
            lines = with_advice(job, why.lines(found))
        finally:
            show("")
        tell([f"bsprun: {found.outcome}", *lines])
        if job.is_for_gdb:
            tell([f"  gdb  {gdb_line(job, parser, why.gdb)}"])
        if job.kind == "elf" and not options.strict:
            tell([f"bsprun: {STRICT}"])
    if options.warn:
        others = memory_findings(job, found.outcome, digest)
        tell(warnings(Tracer(job.code, job.replays()), options.nodes, found, others, are_offsets_told, options.strict, options.is_warned))
    missing = python_packages.missing(python_packages.ELFTOOLS)
    if job.code.debug and missing:
        tell([f"bsprun: no names of functions and lines: {missing}"])


def tell_summary(job: Job, found: Report) -> None:
    """Tells the summary, in which printing stands apart where the run is not too long to count it. A profile tells of it too, or is without it
    if that is asked for."""
    options = job.options
    steps = options.nodes * sum(it.costs["w"] for it in found.supersteps)
    printed = None
    if steps <= MOST_COUNTED and job.is_for_gdb and job.code.know_names().functions:
        with contextlib.suppress(Refused), measured(job, found) as work:
            printed = printing(work.work)
    if printed is None and options.apart:
        why = "the run is too long to count it" if steps > MOST_COUNTED else "the program has no output functions"
        tell([f"bsprun: printing is not shown apart: {why}"])
    if options.summary:
        tell(run_summary.lines(job, found, printed))
    if printed is not None and options.profile is not None and is_own_file(options.profile):
        profile = files.content_of(options.profile, MOST_TABLE).decode()
        files.write(options.profile, without_printing(profile, printed) if options.apart else with_printing(profile, printed))
    elif printed is not None and options.profile is not None and options.apart:
        tell([f"bsprun: the profile includes printing, because {options.profile} cannot be read again: give --profile a file"])


def is_own_file(path: str) -> bool:
    """Whether a profile that was written can be read again and replaced: it is no pipe, and no standard stream of this run goes there too."""
    found = os.stat(path)
    if not stat.S_ISREG(found.st_mode):
        return False
    for number in (streams.STDOUT, streams.STDERR):
        with contextlib.suppress(OSError):
            if os.path.samestat(found, os.fstat(number)):
                return False
    return True


def without_printing(profile: str, printed: Printing) -> str:
    """The text of a profile in which the ticks of each rank are without the work of output functions."""
    lines = []
    for line in profile.splitlines(keepends=True):
        superstep, rank, to, ticks, *rest = line.split(",")
        if ticks.isdecimal() and not to:
            ticks = str(int(ticks) - printed.of_rank.get((int(superstep), int(rank)), 0))
        lines.append(",".join([superstep, rank, to, ticks, *rest]))
    return "".join(lines)


def with_printing(profile: str, printed: Printing) -> str:
    """The text of a profile with a column more, of the ticks of each rank in output functions."""
    head, *lines = profile.splitlines()
    found = [f"{head},printed"]
    for line in lines:
        superstep, rank, to, *_ = line.split(",")
        found.append(f"{line},{'' if to else printed.of_rank.get((int(superstep), int(rank)), 0)}")
    return "".join(f"{it}\n" for it in found)


@contextlib.contextmanager
def measured(job: Job, found: Report) -> Iterator[Measured]:
    """A run once more with counts: a run that is watched has none, and runs are the same each time."""
    from .cost_tables import Measured

    options = job.options
    with children.folder("bsprun") as folder:
        counts = folder / "counts"
        done = emulator.run([*job.program, "run", *job.settings, "--report", "--counts", str(counts)])
        if done.returncode == NOT_WRITTEN or not counts.exists():
            raise Refused("the costs of lines are unknown: their counts could not be made", *lines_of(done.stderr))
        yield Measured(counts, options.nodes, Tracer(job.code, job.replays()), found, (options.g, options.l), options.program)


def tell_lines(job: Job, found: Report) -> None:
    """Tells where the work of a run is."""
    options = job.options
    show("bsprun: looking for the lines")
    try:
        with measured(job, found) as it:
            told = it.tables(options.fold) if options.lines or options.fold else []
            told += [f"bsprun: {line}" for kind, path in options.lines_as for line in it.write(kind, path)]
    finally:
        show("")
    tell(told)
