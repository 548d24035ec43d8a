"""Handles the records of a run: writes files into their folder, and notes as lines."""

from __future__ import annotations

from ..diagnosis.stop_reasons import MOST_TRACED
from ..framed.backtrace import frames, place, users_frames
from ..outputs.library_notes import KeptNotes, Note, NoteTeller
from ..outputs.report import Report
from ..outputs.written_files import Files
from ..prepare.clock_rate import seconds
from ..prepare.given_files import given_files, outputs_of
from ..prepare.job import Job
from ..refusals import counted, tell

# Of files that were written.
MOST_NAMED = 5


def told(job: Job, made: KeptNotes, written: Files, found: Report, untold: str = "") -> list[tuple[str, str]]:
    """What is told of the notes of the program's library, but for one kind of notes."""
    options = job.options

    def where(note: Note) -> str:
        return place_of(job, found, note)

    teller = NoteTeller(job.code, options.memory, written.writers(), options.input, seconds(options), where)
    return teller.told(it for it in made if it.what != untold)


def put_files(job: Job, written: Files) -> None:
    """Puts the files that were written where they belong."""
    options = job.options
    if options.out is not None:
        # What ARGS and --files name is given where it is there, and may be what an earlier run has written.
        kept = {it: "it is read as" for it in [options.program, *options.sources, *filter(None, [options.input]), *options.file]}
        kept.update({it: "bsprun itself writes" for it in outputs_of(options)})
        given = dict(given_files(options)) if len(written.files) > 1 else {}
        tell([f"bsprun: {it}" for it in written.put(options.folder, kept, given)])
        if options.is_here and written.names:
            tell([f"bsprun: wrote {listed(written.names)}"])


def listed(names: list[str]) -> str:
    """Some names, and how many more there are."""
    more = len(names) - MOST_NAMED
    return ", ".join(names[:MOST_NAMED]) + (f" and {counted(more, 'more file')}" if more > 0 else "")


def place_of(job: Job, found: Report, note: Note) -> str:
    """Function and line at which a rank was when it made a note: the run is made again up to there. Nothing if that takes long, or no
    line is known."""
    rank, superstep = note.rank, note.superstep
    entry = job.code.know_names().names.get("bsp_note")
    most = job.options.nodes * sum(it.costs["w"] for it in found.supersteps[: superstep + 1])
    if entry is None or most > MOST_TRACED:
        return ""
    replays = job.replays()
    stops = replays.stops([*replays.begin_for(rank, superstep), f"break superstep {superstep + 1}"], rank, [entry])
    node = replays.look_after(superstep, rank, stops[note.number].ticks) if note.number < len(stops) else None
    if node is None or not users_frames(job.code, frames(job.code, node)):
        return ""
    return place(job.code, node, is_call_told=True)
