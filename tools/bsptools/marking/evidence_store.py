"""Evidence about hand-ins, each in a file that is named by everything it depends on, so that no hand-in is tried twice."""

from __future__ import annotations

import os
import pathlib
import tempfile
from typing import Optional

from .. import emulator, files, own_folders, sealed_results
from ..refusals import Refused
from ..sealed_results import digest
from .evidence import Evidence, of_json
from .hand_in_trial import Plan

# The tools and the library that a program in C is compiled with, which are part of what evidence rests on.
TOOLS = pathlib.Path(__file__).resolve().parents[1]


def digest_of(*parts: bytes) -> str:
    """A name for these parts, wherever one ends and the next begins."""
    return digest(b"".join(len(it).to_bytes(8, "little") + it for it in parts))


def folder_at(path: str) -> pathlib.Path:
    """The folder where it is kept, which is made if it is missing, for this user alone. One that is not this user's own is refused: what
    is in it would be believed."""
    folder = pathlib.Path(files.absolute(path))
    try:
        folder.parent.mkdir(parents=True, exist_ok=True)
        if not folder.is_symlink():
            folder.mkdir(own_folders.PRIVATE, exist_ok=True)
        why: Optional[str] = own_folders.fault(folder)
        if not why:
            tempfile.TemporaryFile(dir=folder).close()
    except OSError as error:
        why = "it is not a folder" if folder.exists() and not folder.is_dir() else error.strerror
    if why:
        raise Refused(f"no results can be saved in {folder}: {why}. Give another folder by --folder")
    return folder.resolve()


class Store:
    """What is kept in a folder, of what this emulator ran and this compiler built."""

    def __init__(self, folder: pathlib.Path, program: str, compiler: str) -> None:
        self.folder = folder
        sources = sorted(it for it in TOOLS.rglob("*.py"))
        top = pathlib.Path(emulator.program("bspcc"))
        library = sorted(it for it in (top.resolve().parent / "bsplib").rglob("*") if it.is_file())
        texts = [top.read_bytes(), *(it.read_bytes() for it in [*sources, *library])]
        self.base = digest_of(files.content_of(program, 1 << 28), os.fsencode(compiler), *texts)

    def key(self, plan: Plan, text: bytes, name: str) -> str:
        """The name of what comes of a hand-in, by what a trial of it rests on."""
        rest = repr([plan_text(plan), name])
        return digest_of(self.base.encode(), rest.encode(errors="surrogateescape"), text)[:32]

    def found(self, key: str) -> Optional[Evidence]:
        """What is kept; nothing if there is nothing, or it is not what was written."""
        known = sealed_results.found(self.folder / f"{key}.json", key)
        return of_json(known) if known is not None else None

    def is_of_others(self, key: str) -> bool:
        """Whether what is kept was kept with another key."""
        return sealed_results.is_of_others(self.folder / f"{key}.json")

    def keep(self, key: str, evidence: Evidence) -> None:
        """Keeps it."""
        sealed_results.keep(self.folder / f"{key}.json", sealed_results.ticket(key), evidence.as_json())


def plan_text(plan: Plan) -> str:
    """All of a plan, of whose bounds the formulas count."""
    runs = [(it.nodes, it.defines, it.input, it.args, it.given, it.limit, it.output, it.g, it.l) for it in plan.runs]
    # What bounds come to decides what is looked for beside.
    bounds = [[sorted(it.values.items()), sorted(it.solution.items()), *(bound.formula.text for bound in it.bounds)] for it in plan.runs]
    others = [plan.files, plan.calls, plan.memory, plan.seconds, plan.strict, plan.races, plan.portable, plan.warnings]
    return repr([runs, bounds, others])
