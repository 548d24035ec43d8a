"""One run of a sweep, on any host."""

from __future__ import annotations

import hashlib
import json
import os
import pathlib
import signal
import subprocess
import time
from collections.abc import Mapping
from typing import Any

from .. import children, emulator
from ..files import believed_content, content_of, put, remove
from ..limits import MOST_PROGRAM, MOST_TABLE
from ..options import FLAGS
from ..outputs.output_records import writes_files
from ..outputs.report_formats import NOTES, notes_in, read, sought_in, taken_in
from ..refusals import REFUSED, Refused, counted
from ..sealed_results import digest
from .result_store import Place, Record, changed_line, others_now

# At these prices the total is the sum of all w, all h and the number of supersteps.
PRICES = ["--g", "1", "--l", "1"]
# The name by which each program is called, wherever its image lies: it has a place in the program's memory, and so a part in its costs.
NAME = "program"
# Of a note.
MOST_LETTERS = 1000


def make(folder: str, copy: str) -> int:
    """Makes the run that a folder describes, and writes what came of it there. It ends with the engine that asks for it."""
    children.end_with_parent(signal.SIGTERM, os.getppid())
    place = Place(pathlib.Path(folder))
    job = described(place)
    start = time.monotonic()
    with children.folder("bspsweep") as temp:
        report = temp / "report.json"
        words = [emulator.program("bsprun"), *PRICES, f"--argv0={NAME}", "--report", str(report), *job["words"], job["image"], *job["args"]]
        # Runs go on beside one another, and a result stands for a run: what their programs write would be a file of one of them.
        is_writing = "--no-files" not in job["words"] and writes_files(content_of(job["image"], MOST_PROGRAM))
        words[1:1] = ["--out", str(temp / "files")] if is_writing else []
        environment = {**os.environ, "BSPEMU": job["emulator"], FLAGS: ""}
        done = children.call(words, stdout=subprocess.PIPE, stderr=subprocess.PIPE, cwd=job["folder"], env=environment)
        content = report.read_bytes() if report.exists() else b""
    put(place.file("seconds", copy), f"{time.monotonic() - start:.3f}\n")
    sought, few = (sought_in(content), taking_fewer(content)) if content else ({}, "")
    other = few or changed(job, sought)
    if not content or other:
        said = done.stderr.decode(errors="replace").strip() or f"bsprun has ended with status {done.returncode}, and no report"
        put(place.file("failed", copy), other or said + "\n")
        return REFUSED
    remove(place.file("failed", copy))
    place.keep({**record(content, done), "sought": sought}, copy)
    return 0


def described(place: Place) -> dict[str, Any]:
    """The description of a run."""
    try:
        job: dict[str, Any] = json.loads(believed_content(place.job, MOST_TABLE))
        if job.keys() >= {"emulator", "folder", "words", "image", "args", "digests"}:
            return job
    except (ValueError, AttributeError, RecursionError):
        pass
    raise Refused(f"{place.job} does not describe a run: start the sweep again")


def taking_fewer(report: bytes) -> str:
    """A line where the run was made on fewer nodes than its row has, because the program takes no more in bsp_begin."""
    count = taken_in(report)
    return f"the program takes {counted(count, 'node')} in bsp_begin: give --nodes no more\n" if count else ""


def changed(job: dict[str, Any], sought: Mapping[str, str]) -> str:
    """A line where a file that a run rests on is not what it was when the sweep began; or, of those that its program looked for, when it was
    read."""
    for path, known in job["digests"]:
        if digest(content_of(os.path.join(job["folder"], path), MOST_PROGRAM)) != known:
            return f"{path} has changed since the sweep began: start the sweep again\n"
    return "".join(f"{changed_line(it, sought)}\n" for it in others_now(sought, job["folder"]))


def record(report: bytes, done: subprocess.CompletedProcess[bytes]) -> Record:
    """What came of a run: the same bytes on every host, but for the lines of notes."""
    found = read(report)
    if found is None:
        raise Refused("bsprun wrote no report")
    sums = {name: sum(it.costs[name] for it in found.supersteps) for name in found.supersteps[0].costs}
    if found.total != sums["w"] + sums["h"] + len(found.supersteps):
        raise Refused("the total of the report is not the sum of its supersteps")
    notes, figures = notes_in(report)
    return {
        "outcome": found.outcome,
        "status": done.returncode,
        "supersteps": len(found.supersteps),
        "costs": sums,
        "output": hashlib.sha256(done.stdout).hexdigest(),
        "report": hashlib.sha256(figures).hexdigest(),
        # A name in a line may be of any length.
        NOTES: [[what, line if len(line) <= MOST_LETTERS else f"{line[:MOST_LETTERS]}.."] for what, line in notes],
    }
