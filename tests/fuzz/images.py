"""ELF files: makes and damages them, and computes the fault or the image that the rules give for each."""

from __future__ import annotations

import dataclasses
import random
import struct
from typing import List, Tuple, Union

# The fields of the file header and of a program header: their places and their sizes.
HEADER = {
    "class": (4, 1), "data": (5, 1), "version": (6, 1), "abi": (7, 1), "type": (16, 2), "machine": (18, 2), "version2": (20, 4),
    "entry": (24, 4), "phoff": (28, 4), "shoff": (32, 4), "flags": (36, 4), "ehsize": (40, 2), "phentsize": (42, 2),
    "phnum": (44, 2), "shentsize": (46, 2), "shnum": (48, 2), "shstrndx": (50, 2), "magic": (0, 4),
}
PROGRAM = {
    "type": (0, 4), "offset": (4, 4), "vaddr": (8, 4), "paddr": (12, 4), "filesz": (16, 4), "memsz": (20, 4), "flags": (24, 4),
    "align": (28, 4),
}
MOST = 1 << 24


@dataclasses.dataclass(frozen=True)
class Segment:
    """Bytes from an address on, and zeros after them up to a size."""

    address: int
    content: bytes
    size: int


def ident_fault(file: bytes) -> str:
    """The fault of the file header, in the order of the rules."""
    if file[:4] != b"\x7fELF":
        return "NotElf"
    if len(file) < 52:
        return "Truncated"
    if file[4:7] != b"\x01\x01\x01":
        return "NotElf32Little"
    kind, machine, version = struct.unpack_from("<HHI", file, 16)
    size, each, count = struct.unpack_from("<HHH", file, 40)
    if kind != 2:
        return "NotExecutable"
    if machine != 243:
        return "NotRiscV"
    if version != 1 or size != 52 or (count > 0 and each != 32) or count == 65_535:
        return "BadHeader"
    return ""


def image_of(file: bytes) -> Union[str, Tuple[int, List[Segment]]]:
    """The fault of an ELF file, or its entry and segments."""
    fault = ident_fault(file)
    if fault:
        return fault
    entry, start = struct.unpack_from("<II", file, 24)
    count = struct.unpack_from("<H", file, 44)[0]
    if count > 0 and start + 32 * count > len(file):
        return "Truncated"
    segments, total = [], 0
    for number in range(count):
        kind, offset, address, _, length, size, _, _ = struct.unpack_from("<8I", file, start + 32 * number)
        if kind in (2, 3):
            return "Dynamic"
        if kind != 1:
            continue
        total += length
        if length > size or address + size > 1 << 32 or total > MOST:
            return "BadSegment"
        if length and offset + length > len(file):
            return "Truncated"
        segments.append(Segment(address, file[offset:offset + length], size))
    return entry, segments


def is_outside(segments: List[Segment], memory: int) -> bool:
    """Whether a segment does not lie in a memory."""
    return any(part.size and part.address + part.size > memory for part in segments)


def file_of(entry: int, segments: List[Segment], gap: int = 0) -> bytes:
    """An ELF file of an image, with a gap before the program headers and after them."""
    start = 52 + gap
    place = start + 32 * len(segments) + gap
    header = b"\x7fELF\x01\x01\x01" + bytes(9)
    header += struct.pack("<HHIIIIIHHHHHH", 2, 243, 1, entry, start, 0, 0, 52, 32, len(segments), 0, 0, 0)
    table, content = b"", b""
    for part in segments:
        table += struct.pack("<8I", 1, place + len(content), part.address, part.address, len(part.content), part.size, 7, 1)
        content += part.content
    return header + bytes(gap) + table + bytes(gap) + content


def value(chance: random.Random, size: int, now: int) -> int:
    """A value for a field of so many bytes, at an edge or anywhere."""
    most = (1 << 8 * size) - 1
    near = [0, 1, most, now - 1, now + 1, now + 4, most - 1, most >> 1, chance.randrange(most + 1), chance.randrange(200)]
    return chance.choice(near) & most


def spoiled(chance: random.Random, file: bytes, changes: int) -> bytes:
    """A file with so many changes: of fields, of its length, or of where its program headers stand."""
    made = bytearray(file)
    for _ in range(changes):
        act = chance.choice(["header", "program", "program", "program", "cut", "append", "byte", "over"])
        if act == "cut":
            made = made[: chance.choice([chance.randrange(len(made) + 1), max(0, len(made) - 1), 3, 4, 51, 52])]
        elif act == "append":
            made += bytes(chance.randrange(256) for _ in range(chance.choice([1, 3, 32, 100])))
        elif act == "byte" and made:
            made[chance.randrange(len(made))] = chance.randrange(256)
        elif len(made) >= 52:
            change_field(chance, made, act)
    return bytes(made)


def change_field(chance: random.Random, made: bytearray, act: str) -> None:
    """Changes a field of the file header or of a program header, or puts the program headers over something else."""
    if act == "over":
        place = chance.choice([0, 4, 20, 52, len(made) - 32, len(made) - 31, chance.randrange(len(made))])
        made[28:32] = struct.pack("<I", place & 0xFFFF_FFFF)
        return
    start, count = struct.unpack_from("<I", made, 28)[0], struct.unpack_from("<H", made, 44)[0]
    fields, base = HEADER, 0
    if act == "program" and count and start + 32 <= len(made):
        fields, base = PROGRAM, start + 32 * chance.randrange(min(count, (len(made) - start) // 32))
    place, size = fields[chance.choice(sorted(fields))]
    place += base
    now = int.from_bytes(made[place:place + size], "little")
    made[place:place + size] = value(chance, size, now).to_bytes(size, "little")
