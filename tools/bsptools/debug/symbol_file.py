"""An ELF file for gdb, with the labels, functions and lines of an assembly text.

Labels are of no type and have no size, as those that GNU as writes. A function begins at a label that is called, or where execution does, and
goes up to the next one: without these gdb would take each label for a function, and `next` would not find its way back from a call that
stands just before a label. Both these and the lines are told by DWARF's version 2, which each gdb reads.
"""

from __future__ import annotations

import bisect
import os
import re
import struct
from typing import Iterable, Iterator, List, NamedTuple, Sequence, Tuple

from ..program.code import Code, parts_of
from ..program.elf import MOST_SECTIONS

# Statements that are data, and those that have no bytes of their own, or only fill up.
DATA, NEITHER = {".word", ".half", ".byte", ".ascii", ".space"}, {"", ".align", ".entry"}
# Of an ELF file: EXEC, RISC-V with compressed instructions, a segment with all permissions, the kinds and flags of sections, and the sizes
# of headers and symbols.
EXEC, RISCV, COMPRESSED, LOAD, RWX = 2, 243, 1, 1, 7
PROGBITS, SYMTAB, STRTAB, OF_CODE, OF_DATA = 1, 2, 3, 6, 3
HEADER, SEGMENT, SECTION, SYMBOL = 52, 32, 40, 16
# Of DWARF: a unit has children, and these attributes in these forms: where its table of lines begins, its language, where its code begins and
# ends, its name and its folder. A function in it has all but the first two and the last of these.
UNIT, FUNCTION = [1, 0x11, 1, 0x10, 0x06, 0x13, 0x05, 0x11, 0x01, 0x12, 0x01, 0x03, 0x08, 0x1B, 0x08, 0, 0], [2, 0x2E, 0, 0x11, 1, 0x12, 1, 3, 8, 0, 0]
ASSEMBLY = 0x8001
# Of frames: their base is x0 and 2^32 - 16, above all stacks, and ra is undefined, so that behind such a one there is no other.
OUTERMOST = bytes([0xFF] * 4 + [1, 0, 1, 1, 1, 0x0C, 0, 0xF0, 0xFF, 0xFF, 0xFF, 0x0F, 0x07, 1])
# A statement that calls a label, and what the function is called where execution begins at none.
CALL, START = re.compile(r"\b(?:call|jal[ \t]+(?:ra|x1)[ \t]*,)[ \t]*([A-Za-z_.][\w.]*)", re.ASCII), "_start"
# How the steps of the table are encoded, and those that are made: to an address, by some lines, a row, and the end of a sequence.
ENCODING = bytes([1, 1, 0xFF, 1, 10, 0, 1, 1, 1, 1, 0, 0, 0, 1])
TO, BY, ROW, END = b"\0\5\2", b"\3", b"\1", b"\0\1\1"


class Piece(NamedTuple):
    """Code, or data, without the other between: where it begins and ends, and the addresses and numbers of its lines."""

    is_data: bool
    start: int
    end: int
    lines: List[Tuple[int, int]]


class Writer:
    """The sections of a file, which stand in it behind its two headers."""

    def __init__(self) -> None:
        self._contents: List[bytes] = []
        self._names, self._at = b"\0", HEADER + SEGMENT
        self._headers = [bytes(SECTION)]

    def add(self, name: bytes, kind: int, content: bytes, flags: int = 0, addr: int = 0, info: int = 0, unit: int = 0) -> None:
        """Adds a section. That of symbols stands just before that of their names, which is its link."""
        link = len(self._headers) + 1 if kind == SYMTAB else 0
        fields = len(self._names), kind, flags, addr, self._at, len(content), link, info, 1, unit
        self._headers.append(struct.pack("<10I", *fields))
        self._names += name + b"\0"
        self._contents.append(content)
        self._at += len(content)

    def file(self, start: int, size: int, entry: int) -> bytes:
        """The file, of which so many first bytes of all sections are loaded."""
        self.add(b".shstrtab", STRTAB, self._names + b".shstrtab\0")
        count = len(self._headers)
        counts = HEADER, SEGMENT, 1, SECTION, count, count - 1
        header = struct.pack("<16sHHIIIIIHHHHHH", b"\x7fELF\1\1\1", EXEC, RISCV, 1, entry, HEADER, self._at, COMPRESSED, *counts)
        segment = struct.pack("<8I", LOAD, HEADER + SEGMENT, start, start, size, size, RWX, 1)
        return b"".join([header, segment, *self._contents, *self._headers])


def symbol_file(code: Code, path: str, text: str) -> bytes:
    """The file of a text, which has this path as gdb shows it; nothing if it has no bytes, or is not known."""
    start, stored = code.segments[0] if code.segments else (0, memoryview(b""))
    if not stored or not code.lines:
        return b""
    name, pieces, writer = os.fsencode(path), pieces_of(code, text), Writer()
    for it in pieces:
        kind, flags = (b".data", OF_DATA) if it.is_data else (b".text", OF_CODE)
        writer.add(kind, PROGBITS, bytes(stored[it.start - start : it.end - start]), flags, it.start)
    functions = list(functions_of(code, pieces, text))
    writer.add(b".debug_abbrev", PROGBITS, bytes([*UNIT, *FUNCTION, 0]))
    writer.add(b".debug_info", PROGBITS, unit_of(start, code.need, name, functions))
    writer.add(b".debug_frame", PROGBITS, frames_of(it for it in functions if it[0] == code.entry))
    writer.add(b".debug_line", PROGBITS, table_of(pieces, name))
    symbols = symbols_of(code, pieces)
    # All of them are local, as those of a text that names none to be seen elsewhere.
    writer.add(b".symtab", SYMTAB, symbols, info=len(symbols) // SYMBOL, unit=SYMBOL)
    writer.add(b".strtab", STRTAB, b"\0" + b"".join(os.fsencode(name) + b"\0" for _, _, name in code.functions))
    return writer.file(start, len(stored), code.entry)


def pieces_of(code: Code, text: str) -> List[Piece]:
    """The code and the data of a text in their order; one piece of code where there would be more than readers take."""
    texts, found = text.split("\n"), [Piece(False, code.segments[0][0], code.need, [])]
    for (start, number), end in zip(code.lines, [*(start for start, _ in code.lines[1:]), code.need]):
        word = parts_of(texts[number - 1])[1]
        if start == end or word in NEITHER:
            continue
        if found[-1].is_data != (word in DATA):
            found[-1:] = [found[-1]._replace(end=start), Piece(word in DATA, start, code.need, [])]
        found[-1].lines.append((start, number))
    found = [it for it in found if it.start < it.end]
    if len(found) <= MOST_SECTIONS // 2:
        return found
    return [Piece(False, found[0].start, code.need, [line for it in found for line in it.lines if not it.is_data])]


def functions_of(code: Code, pieces: Sequence[Piece], text: str) -> Iterator[Tuple[int, int, str]]:
    """Where the functions of a text begin and end, and their names."""
    called, names = set(CALL.findall(text)), {code.entry: START}
    for address, _, name in reversed(code.functions):
        if name in called or address == code.entry:
            names[address] = name
    for it in pieces:
        starts = [address for address in sorted(names) if it.start <= address < it.end and not it.is_data]
        yield from ((start, end, names[start]) for start, end in zip(starts, [*starts[1:], it.end]))


def unit_of(start: int, end: int, name: bytes, functions: Iterable[Tuple[int, int, str]]) -> bytes:
    """What DWARF tells of a text that begins and ends there."""
    texts = name + b"\0" + os.fsencode(os.getcwd()) + b"\0"
    unit = struct.pack("<HIBBIHII", 2, 0, 4, 1, 0, ASSEMBLY, start, end) + texts
    parts = (struct.pack("<BII", 2, begin, behind) + os.fsencode(called) + b"\0" for begin, behind, called in functions)
    return sized(unit + b"".join(parts) + b"\0")


def frames_of(functions: Iterable[Tuple[int, int, str]]) -> bytes:
    """What DWARF tells of functions that nothing has called."""
    return sized(OUTERMOST) + b"".join(sized(struct.pack("<III", 0, start, end - start)) for start, end, _ in functions)


def table_of(pieces: Sequence[Piece], name: bytes) -> bytes:
    """The lines of all code: a sequence for each piece."""
    files = b"\0" + name + b"\0\0\0\0\0"
    return sized(struct.pack("<H", 2) + sized(ENCODING + files) + b"".join(step for it in pieces if not it.is_data for step in rows_of(it)))


def rows_of(piece: Piece) -> Iterator[bytes]:
    """The steps of a sequence."""
    before = 1
    for address, number in piece.lines:
        yield TO + struct.pack("<I", address) + BY + leb(number - before) + ROW
        before = number
    yield TO + struct.pack("<I", piece.end) + END


def symbols_of(code: Code, pieces: Sequence[Piece]) -> bytes:
    """The labels of a text, behind the one that is none."""
    starts, symbols, at = [it.start for it in pieces], [bytes(SYMBOL)], 1
    for address, _, name in code.functions:
        symbols.append(struct.pack("<IIIBBH", at, address, 0, 0, 0, bisect.bisect_right(starts, address)))
        at += len(os.fsencode(name)) + 1
    return b"".join(symbols)


def sized(content: bytes) -> bytes:
    """Bytes behind their number."""
    return struct.pack("<I", len(content)) + content


def leb(number: int) -> bytes:
    """A number as DWARF has those with a sign."""
    found = bytearray()
    while not -64 <= number < 64:
        found.append(number & 0x7F | 0x80)
        number >>= 7
    return bytes([*found, number & 0x7F])
