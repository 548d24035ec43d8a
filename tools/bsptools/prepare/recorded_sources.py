"""The sources of an executable, which bspcc has recorded in it with the options that they were compiled with.

A file may come from somebody else, so that of its options those alone are taken by which a compiler runs no other program.
"""

from __future__ import annotations

import contextlib
import hashlib
import os
import pathlib
import re
import shlex
from typing import NamedTuple

from .. import emulator
from ..files import named_content
from ..limits import MOST_SOURCE
from ..program import elf
from ..refusals import Refused
from .compilation import SOURCES

# The section, and what begins each text in it: the `record_program` of bspcc has the form.
SECTION, SOURCE, LINKED = ".bspcc.sources", "bspcc source", "bspcc "
MOST_UNITS = 1000
# Options that are taken, and those that have a value in the next word. GCC hands the value of -I, too, to its parts as a word by itself.
TAKEN = re.compile(
    r"-[DUILl][^-@].*|-std=[\w+]+|-ansi|-O[0-3sgz]?|-march=\w+|-mabi=\w+|--small|--check"
    r"|-f(?:no-)?(?:(?:un)?signed-char|(?:un)?signed-bitfields|short-enums|common|permissive|builtin(?:-\w+)?|wrapv|rtti|exceptions|openmp)"
)
VALUED = {"-D", "-U", "-I", "-L", "-l", "-include", "-imacros", "-isystem", "-iquote", "-idirafter", "--stack"}
# A source may include a device without an end: so many kilobytes of address space are more than a compiler takes for a program.
BOUND = '[ "$(ulimit -v)" != unlimited ] || ulimit -v 4194304; '


class Unit(NamedTuple):
    """A source that was compiled in a folder with options, with its digest; or how the program was linked, where no source is named."""

    folder: str
    source: str
    digest: str
    words: list[str]

    @property
    def path(self) -> str:
        """The path of the source."""
        return os.path.join(self.folder, self.source)


def units_of(content: bytes) -> list[Unit]:
    """What an executable says of its sources; nothing if it says nothing, or what cannot be read."""
    fields = [os.fsdecode(it) for it in elf.section(content, SECTION).split(b"\0")]
    found: list[Unit] = []
    while len(fields) > 4 and fields[0] in (SOURCE, LINKED) and fields[1].isdecimal() and len(found) < MOST_UNITS:
        count = int(fields[1])
        folder, source, digest, *words = fields[2 : 2 + count]
        found.append(Unit(folder, source if fields[0] == SOURCE else "", digest, words))
        fields = fields[2 + count :]
    return list({(it.source and it.path): it for it in found}.values())


def sources_of(units: list[Unit]) -> list[Unit]:
    """Those that are compiled."""
    return [it for it in units if it.source]


def misfit(units: list[Unit]) -> str:
    """Why a program cannot be built again of its sources; nothing if it may."""
    for it in sources_of(units):
        # GCC takes what has another name for something else than a source.
        if not it.path.endswith(SOURCES) or not is_plain(os.path.basename(it.path)):
            return f"{it.path} has no name of a source"
        try:
            content = named_content(it.path, MOST_SOURCE)
        except Refused as refused:
            return str(refused)
        if hashlib.sha256(content).hexdigest() != it.digest:
            return f"{it.path} has changed since then"
    return ""


def taken(unit: Unit) -> list[str]:
    """The options of a unit that are taken."""
    found: list[str] = []
    words = iter(unit.words)
    for word in words:
        if word in VALUED:
            value = next(words, "")
            found += [word, value] if is_plain(value) else []
        elif TAKEN.fullmatch(word) or (is_linked(word) and os.path.isfile(os.path.join(unit.folder, word))):
            found.append(word)
    return found


def is_plain(word: str) -> bool:
    """Whether a word is a value or a file wherever it stands. bspcc takes some options away, so that what is behind one of them would be an
    option again; and GCC reads options from the file that a word with @ in front names, as may be the last name of a source."""
    return word[:1] not in ("", "-", "@")


def is_linked(word: str) -> bool:
    """Whether a word is an archive or an object."""
    return is_plain(word) and word.endswith((".a", ".o"))


def command(units: list[Unit], image: pathlib.Path, *more: str) -> list[str]:
    """The words that build a program again of its sources, with more options for bspcc, each source in the folder in which it was compiled."""
    bspcc, sources = emulator.program("bspcc"), sources_of(units)
    linked = next((it for it in units if not it.source), sources[0])
    if all((it.folder, it.words) == (sources[0].folder, sources[0].words) for it in sources) and linked.folder == sources[0].folder:
        # As one command does it, for which bspcc has another library than for objects, which may be of C++.
        paths = [os.path.abspath(it.path) for it in sources]
        return ["sh", "-c", BOUND + at(linked.folder, [bspcc, *more, *compiling(sources[0]), *paths, *taken(linked), "-o", str(image), "-lm"])]
    objects, lines = [f"{image}.{number}.o" for number in range(len(sources))], []
    for it, target in zip(sources, objects):
        lines.append(at(it.folder, [bspcc, *more, *compiling(it), "-c", "-o", target, os.path.abspath(it.path)]))
    lines.append(at(linked.folder, [bspcc, *more, *objects, *taken(linked), "-o", str(image), "-lm"]))
    return ["sh", "-c", BOUND + " && ".join(lines)]


def compiling(unit: Unit) -> list[str]:
    """The options of a unit that are taken to compile it."""
    return [it for it in taken(unit) if not is_linked(it)]


def at(folder: str, words: list[str]) -> str:
    """The text of a command in a folder."""
    return f"(cd {shlex.quote(folder)} && exec {shlex.join(words)})"


def include_folders(units: list[Unit]) -> list[str]:
    """The folders in which sources look for what they include."""
    found: dict[str, None] = {}
    for it in sources_of(units):
        words = it.words
        for i, word in enumerate(words):
            with contextlib.suppress(IndexError):
                name = words[i + 1] if word in ("-I", "-isystem", "-iquote") else word[2:] if word.startswith("-I") else ""
                if name:
                    found[os.path.join(it.folder, name)] = None
    return list(found)
