"""Files that a program opens and nobody gave, but that exist here: the run is repeated with them."""

from __future__ import annotations

import contextlib
import os
import pathlib

from ..outputs import output_records
from ..outputs.library_notes import ABSENT, ASKED, Note
from ..outputs.output_records import Record
from ..prepare.given_files import files_of, given_names, is_file
from ..prepare.job import Job

# Names that are noted of those for which a program looks.
MOST_SOUGHT = 1000
# How many files are told of, each once, while the run goes on.
MOST_MISSING = 100


class Wanted(Exception):
    """A run was given up, since its program asks for these files."""

    def __init__(self, names: list[str]) -> None:
        super().__init__(names)
        self.names = names


class Finder:
    """Looks at the records of a run for files that the program asks for: for those that are here, in `names`, and for the others, in
    `missing`, each once."""

    def __init__(self, job: Job) -> None:
        self.names: list[str] = []
        self.missing: list[str] = []
        self._told: set[str] = set()
        options = job.options
        self._is_off = options.no_files or not job.can_be_given
        self._given = {identity(it) for it in given_names(options)} - {None}
        self._asked_for = [*options.file, *(it for folder in options.files for it in files_of(folder))]
        self._written: set[str] = set()
        # Of all runs of the job: what one of them asked for is given to the next one, and asked for no more.
        self._sought: dict[str, None] = options.sought

    def look(self, record: Record, note: Note | None, is_late: bool) -> None:
        """Looks at a record, which may be a note. If it is too late for the run to be repeated, only what the program looks for is noted."""
        if record.kind == output_records.NAME:
            self._written.add(os.path.normpath(os.fsdecode(record.content[4:])))
        if note is None or note.what not in (ABSENT, ASKED) or self._is_off or note.text in self.names:
            return
        self._seek(note.text)
        if is_late:
            return
        if is_file(note.text) and os.path.normpath(note.text) not in self._written and not self._is_given(note.text):
            self.names.append(note.text)
        elif note.what == ABSENT and note.text not in self._told and len(self._told) < MOST_MISSING:
            self._told.add(note.text)
            self.missing.append(note.text)

    def _seek(self, name: str) -> None:
        """Takes note of a file on which a run rests, whether it is here or not: neither the user has given it, nor has the program written it."""
        if name in self._sought or len(self._sought) >= MOST_SOUGHT or os.path.normpath(name) in self._written or self._is_given(name):
            return
        self._sought[name] = None

    def _is_given(self, name: str) -> bool:
        """Whether a file is given, or another one that the user has given is found by its name."""
        return identity(name) in self._given or any(has_end(it, name) or has_end(name, it) for it in self._asked_for)


def has_end(path: str, end: str) -> bool:
    """Whether the last folders and the name of a path are another one, as in bsplib/src/files.c."""
    whole, last = ([it for it in pathlib.PurePath(name).parts if it not in ("/", "..")] for name in (path, end))
    return bool(last) and whole[-len(last) :] == last


def identity(name: str) -> tuple[int, int] | None:
    """What two names have in common of one file."""
    with contextlib.suppress(OSError, ValueError):
        found = os.stat(name)
        return found.st_dev, found.st_ino
    return None
