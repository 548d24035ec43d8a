"""What a terminal says of a run that does not end well, found as the page is written, if the run is short."""

from __future__ import annotations

import contextlib
import subprocess
from typing import Any, Dict

from .. import children
from ..diagnosis.stop_reasons import Why
from ..outputs.report import Report, of_run
from ..prepare.job import Job
from ..refusals import Refused

# How many instructions a run makes, over all ranks: a longer one is left alone, also on a fast host. How many of the last bytes that it
# writes are kept, among which its report is; and when on a busy host its reason is looked for no longer.
MOST_STEPS, MOST_KEPT, CHUNK, MOST_SECONDS = 200_000_000, 1 << 22, 1 << 16, 20.0


def stop_words(job: Job) -> Dict[str, Any] | None:
    """The outcome and the lines that `bsprun` prints of it; nothing of a run that ends well, or that takes longer."""
    limit = min(job.options.limit, max(1, MOST_STEPS // job.options.nodes))
    with contextlib.suppress(children.TooLate, Refused), children.within(MOST_SECONDS):
        found = report(job, limit)
        is_cut = found is not None and found.outcome.endswith("exhausted") and limit < job.options.limit
        if found is not None and found.outcome != "ended" and not is_cut:
            why = Why(job.code, job.replays(), job.options.nodes, job.options.limit)
            return {"outcome": found.outcome, "lines": [f"bsprun: {found.outcome}", *why.lines(found)]}
    return None


def report(job: Job, limit: int) -> Report | None:
    """The report of a run in which each rank makes no more than so many instructions."""
    words = [*job.program, "run", *job.settings, "--report"]
    words[words.index("--limit") + 1] = str(limit)
    process = children.start(words, stdin=subprocess.DEVNULL, stdout=subprocess.PIPE, stderr=subprocess.DEVNULL)
    try:
        assert process.stdout is not None
        kept = bytearray()
        while content := process.stdout.read(CHUNK):
            kept += content
            del kept[:-MOST_KEPT]
        found = of_run(bytes(kept), process.wait())
        return None if found is None else found[1]
    finally:
        children.end(process)
