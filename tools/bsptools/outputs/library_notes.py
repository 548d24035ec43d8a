"""The notes that a program's library makes during a run, and the lines about them at its end."""

from __future__ import annotations

import os
import pathlib
import re
import struct
from collections.abc import Callable, Iterable, Iterator
from typing import NamedTuple

from ..limits import MOST_MEMORY, PAGE
from ..program.code import Code, source_lines
from ..refusals import counted
from .output_records import Record

ASKED, REFUSED, ABSENT, UNWRITTEN, LOST, PENDING, EMPTY, CLOCK, STATUS, READ, LONG = "a", "m", "r", "w", "l", "p", "i", "c", "s", "d", "o"
# That of bsprun itself, where a text that was printed is NULL.
NO_TEXT = "n"
# Notes by which the figures of a run may not be those of the program with its input, and what such a run did.
DOUBTS = {
    EMPTY: "found no input", ABSENT: "did not find a file", REFUSED: "got no memory", UNWRITTEN: "could not write a file",
    LOST: "could not read a file again", PENDING: "made requests that have no effect", READ: "read a number that does not fit into a long",
    NO_TEXT: "printed a NULL text",
}  # fmt: skip
MOST_TOLD = 10
# How many bytes of notes are kept, each with its numbers.
MOST_KEPT = 1 << 22
# A line of a source in a note of what does not fit into a `long`, and the end of such a note.
LINE, BITS = re.compile(r":(\d+): "), "', which has 32 bits here"
_HEAD = struct.Struct("<5I")


class TooShort(NamedTuple):
    """What does not fit into a `long`: its place, path and line, what it is, and of which type."""

    path: str
    line: str
    what: str
    kind: str

    def text(self, kind: str) -> str:
        """What the note says, with another name of the type."""
        return f"{self.path}:{self.line}: {self.what}'{kind}{BITS}"


class Note(NamedTuple):
    """A note: what it is, which rank made it in which superstep, the place behind the call of which it tells, numbers and a text; and which
    of the notes of its rank in the superstep it is, from 0 on."""

    what: str
    rank: int
    superstep: int
    place: int
    one: int
    other: int
    text: str
    number: int = 0

    @property
    def kind(self) -> tuple[str, int, str]:
        """What notes have in common that are told once."""
        found = self.too_short
        text = "" if self.what == READ else f"{found.path}:{found.line}" if found else self.text
        return self.what, self.place if self.what in (REFUSED, PENDING) else 0, text

    @property
    def too_short(self) -> TooShort | None:
        """What does not fit into a `long`, if the note says that. The last line and the last type count, since a path may look like them. The
        program chooses the text, so that this takes no longer than the text is long."""
        if self.what != LONG or not self.text.endswith(BITS):
            return None
        front, quote, kind = self.text[: -len(BITS)].rpartition("'")
        last: re.Match[str] | None = None
        for last in LINE.finditer(front):
            pass
        return TooShort(front[: last.start()], last[1], front[last.end() :], kind) if quote and last else None


def note_of(record: Record) -> Note | None:
    """The note of a record, if it is one."""
    content = record.content
    if len(content) < _HEAD.size:
        return None
    what, superstep, place, one, other = _HEAD.unpack_from(content)
    return Note(chr(what & 0x7F), record.rank, superstep, place, one, other, os.fsdecode(content[_HEAD.size :]))


class KeptNotes:
    """The notes of a run that are told: of those of a rank that have their kind in common, the first. A run without an end may make notes
    without an end."""

    def __init__(self) -> None:
        self._found: dict[tuple[int, tuple[str, int, str]], Note] = {}
        # By ranks, the superstep of the last note, and how many notes the rank has made in it.
        self._counts: dict[int, tuple[int, int]] = {}
        self._room = MOST_KEPT

    def __iter__(self) -> Iterator[Note]:
        return iter(self._found.values())

    def __len__(self) -> int:
        return len(self._found)

    def take(self, note: Note) -> None:
        """Keeps a note, if it is to be told."""
        superstep, count = self._counts.get(note.rank, (note.superstep, 0))
        number = count if superstep == note.superstep else 0
        self._counts[note.rank] = note.superstep, number + 1
        size = len(note.text) + _HEAD.size
        if note.what == ASKED or (note.rank, note.kind) in self._found or size > self._room:
            return
        self._found[note.rank, note.kind] = note._replace(number=number)
        self._room -= size


class NoteTeller:
    """Makes lines of notes. `written` has the ranks that wrote a file, by its name; `given` is the file of --input, if there is one;
    `seconds` says what a second is; `where` tells function and line at which a note was made, or nothing, for those that do not tell it
    themselves."""

    def __init__(
        self, code: Code, memory: int, written: dict[str, int], given: str | None, seconds: str, where: Callable[[Note], str]
    ) -> None:
        self.code, self.memory, self.written = code, memory, written
        self.given, self.seconds, self.where = given, seconds, where

    def lines(self, notes: Iterable[Note]) -> list[str]:
        """What is told on standard error."""
        return [f"bsprun: {line}" for _, line in self.told(notes)]

    def told(self, notes: Iterable[Note]) -> list[tuple[str, str]]:
        """A line for each kind of note, with how many more ranks made it, and what the note is; that is nothing in a last line, of kinds that
        are too many."""
        kinds: dict[tuple[str, int, str], list[Note]] = {}
        for it in notes:
            # A rank that looks for a file of its own, and writes it later, begins with nothing, as it means to.
            is_begun = it.what == ABSENT and self.written.get(it.text) == it.rank
            if it.what != ASKED and not is_begun:
                kinds.setdefault(it.kind, []).append(it)
        lines = []
        for same in list(kinds.values())[:MOST_TOLD]:
            ranks = len({it.rank for it in same}) - 1
            more = f"; the same on {counted(ranks, 'more rank')}" if ranks else ""
            lines.append((same[0].what, f"rank {same[0].rank}, superstep {same[0].superstep}: {self.text(same[0])}{more}"))
        return lines + ([("", f"and {len(kinds) - MOST_TOLD} more of this kind")] if len(kinds) > MOST_TOLD else [])

    def text(self, note: Note) -> str:
        """What is told of a note."""
        tellers = {REFUSED: self.refused, ABSENT: self.absent, PENDING: self.pending, LONG: too_short}
        what = self.empty() if note.what == EMPTY else ""
        at = self.at(note) if note.what in (UNWRITTEN, LOST, EMPTY, READ, STATUS) else ""
        status = note.one if note.one < 2**31 else note.one - 2**32
        texts = {
            UNWRITTEN: f"{note.text} was not written{at}, because --no-files forbids it: run again without --no-files",
            LOST: f"{note.text} could not be read{at}, because the node had no memory to keep what was written: give --memory",
            EMPTY: f"a number is read{at}, and {what}",
            READ: f"{note.text.partition(' ')[0]} is read{at}, and does not fit into a long, which has 32 bits here: use long long, %lld and strtoll",
            CLOCK: f"bsp_time returns the cost of the run so far by the model, not the time of this computer: {self.seconds}",
            STATUS: f"the program ended with status {status}{at}, and so did the run of all ranks",
        }
        return tellers[note.what](note) if note.what in tellers else texts.get(note.what, "a note that is not known")

    def refused(self, note: Note) -> str:
        """A request for memory that was refused."""
        need = -(-(note.one + note.other + PAGE) // PAGE) * PAGE
        more = self.memory < need <= MOST_MEMORY
        advice = f"give --memory {need}" if more else f"a node has {MOST_MEMORY} at most, so give each rank a smaller part"
        used = f"{note.other} of the node's {self.memory} are in use"
        return f"{note.text} of {note.one} bytes was refused at {self.place(note.place)}; {used}; {advice}"

    def at(self, note: Note) -> str:
        """Where a note was made, behind a verb."""
        where = self.where(note)
        return f" at {where}" if where else ""

    def empty(self) -> str:
        """What is so of an input that has no number."""
        return "the input is empty: give --input FILE" if self.given is None else f"{self.given}, the file of --input, is empty"

    def absent(self, note: Note) -> str:
        """A file that is not there."""
        name, at = note.text, self.at(note)
        if name in self.written and self.written[name] != note.rank:
            return f"{name} could not be read{at}: rank {self.written[name]} has written it, and ranks share no files, so send what it has"
        if os.path.isfile(name):
            return f"{name} could not be read{at}: it was not given to the program, so give --file {name}"
        lacking = "no file of this name was given, and none is in this folder"
        return f"{name} was not found{at}: {lacking}; give --file PATH/{os.path.basename(name)}"

    def pending(self, note: Note) -> str:
        """Requests that come to nothing."""
        return f"the last requests have no effect, because no bsp_sync follows; the last one is at {self.place(note.place)}"

    def place(self, back: int) -> str:
        """Function and line of the call that goes back to an address."""
        self.code.know_names()
        call = self.code.call_before(back) or back - 2
        known = source_lines(self.code, call)
        known = [it for it in known if pathlib.Path(it[1].rpartition(":")[0]).exists()] or known
        if known:
            path, _, number = known[0][1].rpartition(":")
            line = f"{pathlib.PurePath(path).name}:{number}"
            return f"{known[0][0]}, {line}" if known[0][0] else line
        return self.code.name_at(call) or f"address {call:#x}"


def too_short(note: Note) -> str:
    """What does not fit into a `long`, and what to write."""
    found = note.too_short
    where = found._replace(path=pathlib.PurePath(found.path).name).text(found.kind) if found else note.text
    return f"{where}: write " + ("uint64_t or unsigned long long" if found and "unsigned" in found.kind else "int64_t or long long")
