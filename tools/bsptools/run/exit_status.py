"""The exit status of a program, with which `bsprun` ends if no node failed."""

from __future__ import annotations

import re
from typing import NamedTuple

from ..diagnosis.stop_reasons import Why
from ..outputs.library_notes import STATUS, KeptNotes
from ..outputs.report import Report
from ..prepare.job import Job


class Chosen(NamedTuple):
    """A status other than 0 with which a program ended, and whether all ranks ended it so."""

    status: int
    is_of_all: bool


def chosen_status(job: Job, found: Report, made: KeptNotes) -> Chosen | None:
    """The status other than 0 with which the lowest rank that was stopped ended the program, where all that were stopped ended it. Where
    some ranks did, the run is made again to see the others."""
    statuses = {it.rank: it.one & 0xFF for it in made if it.what == STATUS}
    outcome = re.fullmatch(r"rank (\d+) stopped: aborted", found.outcome)
    if outcome is None or not statuses.get(int(outcome[1])):
        return None
    nodes = job.options.nodes
    if len(statuses) < nodes:
        why = Why(job.code, job.replays(), nodes, job.options.limit)
        if not statuses.keys() >= set(why.stopped_at_end(found)):
            return None
    return Chosen(statuses[int(outcome[1])], len(statuses) == nodes)
