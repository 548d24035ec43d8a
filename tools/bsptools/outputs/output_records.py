"""Records among the bytes that a program writes: files and notes.

bsplib/src/records.c writes them, and bsplib/src/machine.h has their kinds. A program of bspcc has a place for settings, into which bsprun
puts the mark that stands in front of each record, in a copy of the image: without it the program writes none.
"""

from __future__ import annotations

import struct
from typing import NamedTuple

from .output_demux import MARK_BYTES, marked

# Begins the place for settings in an image: struct bsp_settings of bsplib/src/machine.h.
PLACE = b"\0bsprun\3"
RECORDS, WRITES_FILES, LOOKS, FILLED = 1, 2, 4, 8
NAME, BYTES, SIZE, REMOVED, NOTE = b"fbsrn"


class Record(NamedTuple):
    """A record: its kind, the rank that wrote it, and what it has."""

    kind: int
    rank: int
    content: bytes


def settings_in(content: bytes, flags: int, fill: int, mark: bytes) -> bytes:
    """An image with these settings, if it has a place for them; else as it is."""
    at = content.find(PLACE)
    if at < 0:
        return content
    settings = PLACE + struct.pack("<II", flags, fill) + mark.ljust(MARK_BYTES, b"\0")
    return content[:at] + settings + content[at + len(settings) :]


def writes_files(content: bytes) -> bool:
    """Whether the program of an image has a place for settings and one for its mark, without which it writes no files."""
    return PLACE in content and bool(marked(content, b"")[1])


def record_of(kind: int, content: bytes) -> Record | None:
    """The record of a piece of the output of this kind."""
    return Record(kind, int.from_bytes(content[:4], "little"), content[4:]) if len(content) >= 4 else None
