"""The record of a table: a JSON file beside it with everything it depends on, from which it can be made again."""

from __future__ import annotations

import argparse
import json
import os
import re
from collections.abc import Iterator
from typing import Any, Dict

from .. import VERSION, emulator, files, machines
from ..limits import MOST_INPUT, MOST_PROGRAM, MOST_TABLE
from ..refusals import Refused, counted, printable
from ..sealed_results import digest
from .result_store import Store, files_named
from .sweep_points import Point
from .sweep_programs import Program

# Names in a record: a name of what was made, used or read has its digest or its version.
Record = Dict[str, Any]
MADE_BY, COMMAND, TABLE, MACHINES = "made by", "command", "table", "machines"
# Where what this process has open has names of its own, as standard output.
DEVICES = ("/dev/", "/proc/")
# A digest, and how much of it a line has.
DIGEST, DIGITS = re.compile("[0-9a-f]{64}"), 12
# How names of images begin in a list of differences, and of how many each has its line: a changed header changes all of them.
IMAGES, MOST_IMAGES = "images: ", 3
# Options that say who makes the runs and where the table goes, with how many words follow each. None of them changes the table.
ASIDE = {"-o": 1, "--output": 1, "--folder": 1, "--engine": 1, "--jobs": 1, "--hosts": 1, "--sbatch": 1, "--again": 1, "--script": 0, "--check": 0}


def beside(output: str | None) -> str | None:
    """The file for the record of a table that is written to this one; None if that is not a regular file."""
    if output is None or os.path.abspath(output).startswith(DEVICES):
        return None
    return f"{output}.json" if os.path.isfile(output) or not os.path.exists(output) else None


def expect_own(path: str | None) -> None:
    """Refuses to write a record over a file that is none."""
    if path is not None and os.path.lexists(path) and not (os.path.isfile(path) and MADE_BY in (_parsed(path) or {})):
        raise Refused(f"{path} is the name of the table's record, but something else has that name: move it, or give another -o")


def _parsed(path: str) -> Record | None:
    """What a file has as JSON, if that is an object."""
    try:
        found = json.loads(files.content_of(path, MOST_TABLE))
    except (ValueError, RecursionError):
        return None
    return found if isinstance(found, dict) else None


def read(path: str) -> Record:
    """A record, as `made` makes it."""
    found = _parsed(path)
    words = (found or {}).get(COMMAND)
    if found is None or MADE_BY not in found or not isinstance(words, list) or not all(map(_is_word, words)):
        raise no_record(path)
    return found


def no_record(path: str) -> Refused:
    """The refusal of a file that no sweep has written as a record."""
    return Refused(f"{path} is not the record of a table, which bspsweep -o FILE writes into FILE.json")


def _is_word(it: object) -> bool:
    """Whether this can be a word of a command line. JSON can spell halves of letters, which no name of a file has."""
    try:
        return isinstance(it, str) and b"\0" not in os.fsencode(it)
    except UnicodeEncodeError:
        return False


def spelled(record: Record) -> str:
    """The text of a record: the same for the same table."""
    return json.dumps(record, indent=1) + "\n"


def without_aside(words: list[str]) -> list[str]:
    """The words of a command line that the table rests on."""
    found: list[str] = []
    rest = iter(words)
    for word in rest:
        name = word.partition("=")[0]
        if name in ASIDE:
            for _ in range(ASIDE[name] if name == word else 0):
                next(rest, None)
        elif not (word.startswith("-o") and not word.startswith("--")):
            found.append(word)
    return found


def made(options: argparse.Namespace, words: list[str], points: list[Point], store: Store, table: str, sought: dict[str, str]) -> Record:
    """The record of a table that these words have asked for. Programs looked for these files, by digests, and nobody gave them."""
    programs = list(dict.fromkeys(it.run.program for it in points))
    found: Record = {MADE_BY: f"bspsweep {VERSION}", COMMAND: without_aside(words)}
    found["emulator"] = {"version": emulator.said(emulator.emulator(), "--version"), "sha256": store.digest_of(store.emulator, MOST_PROGRAM)}
    found["tools"] = {"sha256": store.tools}
    if any(it.is_compiled for it in programs):
        found["compiler"] = {"version": emulator.said(emulator.program("bspcc"), "--version").splitlines()[-1]}
    found["programs"] = {it.name: {"sha256": store.digest_of(it.name if it.is_compiled else str(it.image), MOST_PROGRAM)} for it in programs}
    headers = sorted({name for it in programs for name in it.headers})
    if headers:
        found["headers"] = {name: {"sha256": store.digest_of(name, MOST_PROGRAM)} for name in headers}
    found["images"] = {labelled(it): {"sha256": store.digest_of(str(it.image), MOST_PROGRAM)} for it in programs if not it.why}
    given: list[str] = [*(options.input or []), *options.file, *(it for words in options.args or [] for it in files_named(words))]
    found["files"] = {name: {"sha256": store.digest_of(name, MOST_INPUT)} for name in given if name}
    found["files"].update({name: {"sha256": it} for name, it in sorted(sought.items()) if it})
    found[MACHINES] = {name: {"sha256": store.digest_of(path, MOST_TABLE)} for name, path in machine_tables(options)}
    found[TABLE] = {"sha256": digest(table.encode(errors="surrogateescape"))}
    return found


def labelled(program: Program) -> str:
    """A program with the constants that it was compiled with."""
    return " ".join([program.name, *(f"-D{name}={value}" for name, value in program.defines)])


def machine_tables(options: argparse.Namespace) -> Iterator[tuple[str, str]]:
    """The tables in which machines of a sweep are looked for: by the name that they have here, and by if they are."""
    if options.machine:
        yield machines.TABLE.name, str(machines.TABLE)
        own = os.environ.get(machines.OWN)
        if own:
            yield own, own


def own_machines(record: Record) -> list[str]:
    """The tables with machines of one's own that a record names."""
    named = record.get(MACHINES)
    return [it for it in named if isinstance(it, str) and it != machines.TABLE.name] if isinstance(named, dict) else []


def take_machines(record: Record) -> None:
    """Has machines looked for in the table that a record names, if the environment names none."""
    own = own_machines(record)
    if own and not os.environ.get(machines.OWN):
        os.environ[machines.OWN] = own[0]


def differences(before: Record, now: Record) -> list[str]:
    """Lines that say what is not as in an older record, without the tables."""
    then, there = dict(_flat(before)), dict(_flat(now))
    names = [it for it in {**there, **then} if it.partition(":")[0] not in (TABLE, COMMAND) and then.get(it) != there.get(it)]
    lines = [printable(f"{name} was {shown(then.get(name))}, and is {shown(there.get(name))}") for name in names]
    images = [line for name, line in zip(names, lines) if name.startswith(IMAGES)]
    if len(images) <= MOST_IMAGES:
        return lines
    rest = f"and so {counted(len(images) - MOST_IMAGES, 'more image')} of {sum(it.startswith(IMAGES) for it in there)}"
    return [*(it for it in lines if it not in images), *images[:MOST_IMAGES], rest]


def shown(value: str | None) -> str:
    """A value for a line, of which a digest has its first digits."""
    return "not there" if value is None else f"{value[:DIGITS]}.." if DIGEST.fullmatch(value) else value


def _flat(value: Any, name: str = "") -> Iterator[tuple[str, str]]:
    """All values of a record by their names."""
    if isinstance(value, dict):
        for key, below in value.items():
            yield from _flat(below, f"{name}: {key}" if name else str(key))
    else:
        yield name, str(value)
