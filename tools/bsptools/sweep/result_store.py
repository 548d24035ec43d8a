"""Results of runs, each in a file that is named by everything the run depends on, so that no run is repeated."""

from __future__ import annotations

import argparse
import functools
import json
import os
import pathlib
import shlex
from collections.abc import Iterable, Mapping
from typing import Any, Dict, NamedTuple

from .. import limits, sealed_results
from ..emulator import proved_program
from ..files import content_of, named_content, own_content, put
from ..limits import MOST_INPUT, MOST_PROGRAM, MOST_TABLE
from ..outputs.report_formats import NOTES
from ..prepare.given_files import is_file, with_others
from ..sealed_results import digest
from . import result_folders
from .sweep_points import Run

MAIN = "run"
PRIVATE_FILE, MOST_TICKET = 0o600, 200
# The tools, which are part of what a result rests on. The library of a program in C is in its image.
TOOLS = pathlib.Path(__file__).resolve().parents[1]
# What came of a run, as `job.record` makes it and JSON keeps it.
Record = Dict[str, Any]


def found_now(folder: str, names: Iterable[str]) -> dict[str, str]:
    """The digests of files as a program finds them that is run in a folder, with none for those that are not there."""
    paths = {name: os.path.join(folder, name) for name in names}
    return {name: _digest_at(path, *_identity(path)) if is_file(path) else "" for name, path in paths.items()}


def others_now(sought: Mapping[str, str], folder: str = os.curdir) -> list[str]:
    """The files that are not as they were when a run in a folder looked for them, by their digests; or else those that it would be given now
    beside them."""
    now = found_now(folder, sought)
    changed = [name for name, content in sought.items() if now[name] != content]
    known = {os.path.join(folder, name) for name in sought}
    beside = [other for name, content in sought.items() if content for other in with_others(os.path.join(folder, name))]
    return changed or [it for it in dict.fromkeys(beside) if it not in known]


def changed_line(path: str, sought: Mapping[str, str]) -> str:
    """What is told of a file that has changed since a run read it, or that it looked for, and that is here and was not given to it: bsprun
    does not repeat a run for it that has written much."""
    if sought.get(path) == "":
        return f"{path} is here, and the run began without it: give it by --file"
    return f"{path} has changed since the run began: start the sweep again"


def _identity(path: str) -> tuple[int, int, int]:
    found = os.stat(path)
    return found.st_ino, found.st_size, found.st_mtime_ns


@functools.lru_cache(maxsize=None)
def _digest_at(path: str, *_identity: int) -> str:
    return digest(named_content(path, MOST_INPUT))


class Place(NamedTuple):
    """Where a run has its description, and what came of it. A copy of it is what the same run gave once more."""

    folder: pathlib.Path

    def file(self, kind: str, copy: str = MAIN) -> pathlib.Path:
        """A file of it: what came of it is `json`, `seconds` how long it took, which is no part of that, and `failed` why there is none."""
        return self.folder / f"{copy}.{kind}"

    @property
    def job(self) -> pathlib.Path:
        """What is to be run."""
        return self.file("json", "job")

    def is_over(self, copy: str = MAIN) -> bool:
        """Whether it has been made, or could not be."""
        return os.path.lexists(self.file("failed", copy)) or self.found(copy) is not None

    def found(self, copy: str = MAIN) -> Record | None:
        """What came of it; nothing if it was not made, what is kept is not what was written, or a file that its program looked for is another
        one here now."""
        record = self._kept(copy)
        return record if record is not None and not others_now(record["sought"]) else None

    def figures(self, copy: str = MAIN) -> Record | None:
        """What came of it but for the notes, whose lines tell where something was, if a host knows that."""
        record = self.found(copy)
        return record and {**record, NOTES: []}

    def _kept(self, copy: str) -> Record | None:
        record: Record | None = sealed_results.found(self.file("json", copy), self.folder.name)
        return record if record is not None and "sought" in record else None

    def why_unmade(self) -> list[str]:
        """Lines that say why nothing came of it."""
        if os.path.lexists(self.file("failed")):
            return own_content(self.file("failed"), MOST_TABLE).decode(errors="replace").strip().splitlines()
        record = self._kept(MAIN)
        sought = record["sought"] if record is not None else {}
        return [changed_line(it, sought) for it in others_now(sought)] or ["not made: whatever made it has ended before it"]

    @property
    def ticket(self) -> pathlib.Path:
        """What seals its results. It is there as long as the run is to be made, for whichever host makes it."""
        return self.file("ticket", "job")

    def give_ticket(self) -> None:
        """Lets whoever makes the run keep what comes of it."""
        put(self.ticket, sealed_results.ticket(self.folder.name), PRIVATE_FILE)

    def keep(self, record: Record, copy: str = MAIN) -> None:
        """Writes down what came of it."""
        ticket = own_content(self.ticket, MOST_TICKET).decode("latin-1")
        sealed_results.keep(self.file("json", copy), ticket, record)


def files_named(words: str) -> list[str]:
    """The files that arguments of main name."""
    return list(dict.fromkeys(it for it in shlex.split(words) if is_file(it)))


class Store:
    """The places of runs, in one folder."""

    def __init__(self, folder: pathlib.Path, options: argparse.Namespace) -> None:
        self.options, self.emulator = options, proved_program()
        self.runs = result_folders.part(folder, "runs")
        self.tools = digest(b"".join(it.read_bytes() for it in sorted(TOOLS.rglob("*.py"))))
        self.digests: dict[str, str] = {}

    def digest_of(self, path: str, most: int) -> str:
        """The digest of a file of so many bytes at most, which is read once."""
        if path not in self.digests:
            self.digests[path] = digest(content_of(path, most))
        return self.digests[path]

    def place(self, run: Run) -> Place:
        """Where a run has its place, with its description in it.

        Its key has all that it rests on: bytes, settings, arguments, and the names that a program opens its files by. Where these bytes
        lie has no part in it, and neither has the name of the image: `argv[0]` is the same in each run.
        """
        options, image = self.options, str(run.program.image)
        words = ["--nodes", str(run.nodes), "--memory", str(options.memory), "--limit", str(options.limit)]
        is_large = options.large or limits.are_passed(run.nodes, options.memory)
        words += ["--format", run.program.kind, *(["--float"] if options.float else [])]
        words += [*(["--no-files"] if options.no_files else []), *(["--atomic"] if options.atomic else []), *([limits.OPTION] if is_large else [])]
        # bsprun gives the files that arguments name, too.
        named = files_named(run.words)
        programs, given = [self.emulator, image], [*filter(None, [run.given]), *options.file, *named]
        rests = [*programs, *given]
        digests = [self.digest_of(it, MOST_PROGRAM) for it in programs] + [self.digest_of(it, MOST_INPUT) for it in given]
        key = digest(json.dumps([self.tools, words, digests, bool(run.given), options.file, named, shlex.split(run.words)]).encode())
        place = Place(result_folders.part(self.runs, key[:32]))
        words += [f"--input={run.given}"] * bool(run.given) + [f"--file={it}" for it in options.file]
        job = {
            "emulator": self.emulator, "folder": os.getcwd(), "words": words, "image": image, "args": shlex.split(run.words),
            "digests": list(zip(rests, digests)),
        }  # fmt: skip
        put(place.job, json.dumps(job, indent=1) + "\n")
        return place
