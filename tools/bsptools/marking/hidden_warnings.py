"""Finds where a hand-in hides the compiler's warnings, in what GCC makes of its text before it compiles it."""

from __future__ import annotations

import pathlib
import re
from collections.abc import Iterator
from typing import List, NamedTuple

from . import bounded_run
from .bounded_run import Ran

# Options for the compiler. GCC copies the places that a text gives itself, and only with the second does it say which the text gives. With the
# third, what comes of a macro is of the file that uses it. Otherwise GCC gives places of its own, as places of the library, to the text of
# each macro of the library, such as NULL.
OPTIONS = ("-E", "-Wpedantic", "-ftrack-macro-expansion=0")
# Bytes of a text whose macros are replaced. The whole library of C++ has 4 MB.
MOST_TEXT = 1 << 24
GIVEN_PLACE = re.compile(rb":(\d+):\d+: warning: style of line directive")
UNKNOWN = "it could not be checked whether it hides warnings"
# The pieces of such a text, in the order in which GCC takes them: places, pragmas, what could have lines in it that look like these, and what
# attributes are spelled with. A string with R in front is the only one that has lines.
PIECE = (
    rb'^# (?P<line>\d+) "(?P<name>(?:\\.|[^"\\\n])*)"(?P<flags>[ \d]*)$'
    rb"|^#pragma (?P<pragma>.*)$"
    rb'|(?:u8|[uUL])?R"(?P<fence>[^\s()\\"]{0,16})\((?s:.*?)(?:\)(?P=fence)"|\Z)'
    rb"|\.?[0-9](?:[eEpP][+-]|'?[\w.$\x80-\xff])*"
    rb"|(?P<word>[A-Za-z_$\x80-\xff][\w$\x80-\xff]*)"
    rb'|"(?:\\.|[^"\\\n])*"?'
    rb"|'(?:\\.|[^'\\\n])*'?"
)
# Most lines have nothing of all that, if the text has no attribute that is looked for.
PIECES = re.compile(rb"(?m)^[^#\"'\n][^\"'\n]*$|" + PIECE)
ALL_PIECES = re.compile(rb"(?m)" + PIECE + rb"|(?P<sign>[()\[\]]|<:|:>)|\S")
# Pragmas that hide warnings. The level of a warning may be 0. Those that change the compiler's options may keep it from finding what it warns
# of, and also change macros only where it compiles.
HIDES = re.compile(rb'GCC\s+diagnostic\s+(?:ignored|(?:warning|error)\s*"[^"]*=)')
CHANGES = re.compile(rb"GCC\s+(?:optimize|target)\b")
# An attribute can do the same for a function. Its name is in two parentheses after a word, or in two brackets.
NAME = rb"(?:__)?(?:optimize|target|target_clones)(?:__)?"
HAS_NAME, CHANGING = re.compile(rb"\b" + NAME + rb"\b"), re.compile(NAME)
ATTRIBUTE, OPEN, CLOSED, BRACKET, DEPTH = re.compile(rb"__attribute(?:__)?"), (b"(", b"[", b"<:"), (b")", b"]", b":>"), (b"[", b"<:"), 2
# Flags of a place: a file begins, goes on behind another one, and is of the library, of which GCC shows no warnings.
BEGINS, GOES_ON, LIBRARYS = b"1", b"2", b"3"


class Line(NamedTuple):
    """A place, a pragma, or an attribute that changes the compiler's options, in a hand-in's own text."""

    number: int
    is_librarys: bool = False
    pragma: bytes = b""
    is_changing: bool = False


class Attributes:
    """Finds the names of attributes in the pieces of a text, which are given to it one after the other."""

    def __init__(self) -> None:
        self.depth, self.before = 0, b""

    def is_named(self, piece: "re.Match[bytes]") -> bool:
        """Whether this piece is the name of an attribute that changes the compiler's options."""
        text = piece["sign"] or piece["word"] or b" "
        before, self.before = self.before, text
        if self.depth:
            self.depth += (text in OPEN) - (text in CLOSED)
        elif text == b"(" and ATTRIBUTE.fullmatch(before):
            self.depth = 1
        elif text in BRACKET and before in BRACKET:
            self.depth = DEPTH
        return self.depth == DEPTH and CHANGING.fullmatch(text) is not None


def fault(ran: Ran, own: str) -> str:
    """What is told of a hand-in that hides warnings, by its name in its folder, and by what came of the compiler with `OPTIONS`; nothing if
    it hides none."""
    if given := GIVEN_PLACE.search(ran.said):
        return hidden(int(given[1]))
    if ran.how == bounded_run.LONG:
        return f"{UNKNOWN}: its macros make more than {MOST_TEXT} bytes"
    if len(ran.said) >= bounded_run.MOST_SAID:
        return f"{UNKNOWN}: the compiler prints too much"
    if ran.how != bounded_run.ENDED or ran.status != 0:
        return f"{UNKNOWN}: the compiler did not replace its macros"
    for line in lines(ran.output, own):
        if line.is_librarys or HIDES.match(line.pragma):
            return hidden(line.number)
        if line.is_changing or CHANGES.match(line.pragma):
            return f"it changes the compiler's options, which can hide warnings, at line {line.number}"
    return ""


def hidden(number: int) -> str:
    """What is told of a line that hides warnings."""
    return f"it hides warnings, at line {number}"


def lines(text: bytes, own: str) -> Iterator[Line]:
    """The places, pragmas and attributes of a hand-in's own text. Which file a line is of is told by how the files include each other, since
    `#line` may give it any name."""
    files: List[bool] = []
    number = last = 0
    attributes = Attributes() if HAS_NAME.search(text) else None
    for piece in (ALL_PIECES if attributes else PIECES).finditer(text):
        if piece["line"]:
            flags = piece["flags"].split()
            number, last = int(piece["line"]) - 1, piece.end()
            if GOES_ON in flags:
                del files[max(1, len(files) - 1) :]
            elif BEGINS in flags or not files:
                files.append(not files or pathlib.PurePosixPath(piece["name"].decode(errors="replace")).name == own)
            if files[-1:] == [True]:
                yield Line(number + 1, is_librarys=LIBRARYS in flags)
            continue
        is_changing = not piece["pragma"] and attributes is not None and attributes.is_named(piece)
        if (piece["pragma"] or is_changing) and files[-1:] == [True]:
            number, last = number + text.count(b"\n", last, piece.start()), piece.start()
            yield Line(number, pragma=piece["pragma"] or b"", is_changing=is_changing)
