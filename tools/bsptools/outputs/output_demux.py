"""What the emulator writes, split as it comes: the nodes' output, their standard error, the report."""

from __future__ import annotations

import struct
from collections.abc import Iterator
from typing import TYPE_CHECKING

from . import report

if TYPE_CHECKING:
    import hashlib

# In the image of a program of bspcc: what stands before standard error's bytes, to tell them apart. bsplib/src/system.c has it.
PLACE = b"\0bsprun\2\265\36\310\73\231\7\324\0"
MARK_BYTES = 16
# The kinds of the output's own bytes, and of standard error. Others are records.
OUTPUT, ERROR = 0, ord("e")
FRONT = struct.Struct(f"<i{MARK_BYTES}s")
COUNT = struct.Struct("<i")
# Of what stands behind a mark, in bytes: more than the library writes there. A program can print its mark with any number behind it.
MOST_MARKED = 1 << 16
BEGIN = b"superstep 0: w "


def marked(image: bytes, given: bytes) -> tuple[bytes, bytes]:
    """An image whose standard error is marked, with the mark; as it is, and no mark, if it has no one place for it.

    The mark follows from the program and its input, so that each run writes the same, and no program has it in its output. The last of its
    bytes is the kind of what stands behind it, and no part of what is answered.
    """
    empty = PLACE + bytes(FRONT.size)
    if image.count(empty) != 1:
        return image, b""
    at = image.index(empty) + len(PLACE)
    # Loaded here, since most of a short run is its start.
    import hashlib

    mark = hashlib.sha256(image + given).digest()[: MARK_BYTES - 1]
    return image[:at] + FRONT.pack(MARK_BYTES + COUNT.size, mark + bytes([ERROR])) + image[at + FRONT.size :], mark


def new_digest() -> hashlib._Hash:
    """A digest of what a run is yet to write."""
    # Loaded here, since most of a short run is its start.
    import hashlib

    return hashlib.sha256()


def digest_of(content: bytes) -> bytes:
    """The digest of what a run wrote."""
    whole = new_digest()
    whole.update(content)
    return whole.digest()


class Marks:
    """Standard error and records taken out of what nodes write."""

    def __init__(self, mark: bytes) -> None:
        self.mark = mark
        self.rest = b""

    def take(self, content: bytes) -> Iterator[tuple[int, bytes]]:
        """The pieces of what has come up to here, each with its kind. What may be a mark is kept."""
        if not self.mark:
            yield OUTPUT, content
            return
        # What was taken is dropped once: of many records it would be moved many times.
        rest, start = self.rest + content, 0
        while (at := rest.find(self.mark, start)) >= 0:
            begin = at + MARK_BYTES + COUNT.size
            if begin > len(rest):
                break
            end = begin + COUNT.unpack_from(rest, begin - COUNT.size)[0]
            if not begin <= end <= begin + MOST_MARKED:
                yield OUTPUT, rest[start:begin]
                start = begin
                continue
            if end > len(rest):
                break
            if at > start:
                yield OUTPUT, rest[start:at]
            yield rest[at + MARK_BYTES - 1], rest[begin:end]
            start = end
        whole = at if at >= 0 else len(rest) - overlap(rest[start:][-MARK_BYTES:], self.mark)
        self.rest = rest[whole:]
        yield OUTPUT, rest[start:whole]

    def left(self) -> bytes:
        """What was kept."""
        return self.rest


class Tail:
    """What may be the report at the end of an output. It is kept until something follows that no report has."""

    def __init__(self) -> None:
        self.kept = bytearray()
        self._anew()

    def _anew(self) -> None:
        """What is kept begins where a report may, and nothing of it was looked at."""
        self.line, self.number, self.is_total, self.is_over = 0, 0, False, False

    def take(self, content: bytes) -> bytes:
        """What is certainly output, of that which was kept and this."""
        self.kept += content
        done = bytearray()
        while not self._may_be_report():
            at = self.kept.find(BEGIN, 1)
            at = at if at >= 0 else max(len(self.kept) - overlap(self.kept, BEGIN), 1)
            done += self.kept[:at]
            del self.kept[:at]
            self._anew()
        return bytes(done)

    def left(self) -> bytes:
        """What was kept."""
        return bytes(self.kept)

    def _may_be_report(self) -> bool:
        """Whether what is kept is what a report begins with."""
        while (end := self.kept.find(b"\n", self.line)) >= 0:
            if not self._goes_on(bytes(self.kept[self.line : end])):
                return False
            self.line = end + 1
        begun = bytes(self.kept[self.line :])
        if self.number == 0:
            return BEGIN.startswith(begun[: len(BEGIN)]) and len(begun) <= report.MOST_OF_A_LINE
        return not (self.is_over and begun) and len(begun) <= report.MOST_OF_A_LINE

    def _goes_on(self, line: bytes) -> bool:
        """Whether a line is the next one of a report."""
        if self.is_total:
            was_over, self.is_over = self.is_over, True
            return not was_over and report.OUTCOME.match(line) is not None
        found = report.SUPERSTEP.match(line)
        if found and int(found[1]) == self.number:
            self.number += 1
            return True
        self.is_total = report.TOTAL.match(line) is not None
        return self.is_total and self.number > 0


def overlap(content: bytes | bytearray, word: bytes) -> int:
    """How many bytes at the end of a content are those at the beginning of a word, fewer than all of it."""
    return next((it for it in range(min(len(word) - 1, len(content)), 0, -1) if content.endswith(word[:it])), 0)
