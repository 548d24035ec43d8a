"""The source line of an address."""

from __future__ import annotations

import bisect
import os
import pathlib
import re
from typing import NamedTuple

from .code import Code


# Headers of the system: a standard library's, which is in a program as a part of its lines.
SYSTEM = ("/usr/include/", "/usr/lib/")
# Names of texts that compilers read. Debug information comes with a program, and may name any file of the user's, such as one with a key.
TEXTS = re.compile(r".+\.(?:c|cc|cp|cpp|cxx|c\+\+|C|CC|h|hh|hp|hpp|hxx|h\+\+|H|i|ii|s|S|asm|inc|inl|ipp|ixx|tcc|tpp|txx|def|y|yy|l|ll|w)")


class Place(NamedTuple):
    """A line of the program's own source: its file's path and its number. Number 0 stands for a whole function that has no line there, by
    its name: of a library, or of a program without lines."""

    path: str
    number: int
    name: str = ""

    @property
    def is_own(self) -> bool:
        """Whether it is a line of the program's own."""
        return self.number > 0

    @property
    def short(self) -> str:
        """The file and the line, without folders; or the name."""
        return f"{pathlib.PurePath(self.path).name}:{self.number}" if self.is_own else self.name


class Source:
    """The lines of a program, by address. Those of files that are not here, as a C library's, of headers of the system, and of files that have
    no name of a source are none: what they have is shown, and goes into files that are handed on."""

    def __init__(self, code: Code) -> None:
        self.text = code.text
        self.pieces: list[tuple[int, int, str, int]] = []
        if code.lines:
            ends = [*(address for address, _ in code.lines[1:]), 1 << 32]
            self.pieces = [(start, end, code.text, number) for (start, number), end in zip(code.lines, ends) if start < end]
        elif code.debug:
            self.pieces = code.debug.pieces()
        self.starts = [it[0] for it in self.pieces]
        self.here: dict[str, bool] = {}

    def place(self, address: int) -> Place | None:
        """The line of an address, if it has one."""
        at = bisect.bisect_right(self.starts, address) - 1
        if at < 0:
            return None
        _, end, path, number = self.pieces[at]
        return Place(path, number) if address < end and self.is_here(path) else None

    def is_here(self, path: str) -> bool:
        """Whether a file is here, and is a source, but no header of the system. A program in assembly has any name."""
        if path not in self.here:
            is_source = path == self.text or is_source_name(path) and is_source_name(os.path.realpath(path))
            self.here[path] = is_source and not os.path.normpath(path).startswith(SYSTEM) and pathlib.Path(path).is_file()
        return self.here[path]


def is_source_name(path: str) -> bool:
    """Whether a path has a name that a source has."""
    return TEXTS.fullmatch(os.path.basename(path)) is not None
