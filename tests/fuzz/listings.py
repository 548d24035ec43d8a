"""Listings: the lines that they must have, and the bytes that these lines give when they are assembled again."""

from __future__ import annotations

import re
from typing import List, Tuple

from fuzz.images import Segment
from fuzz import compressed

WORD = re.compile(rb"[a-z]+(\.i)?( [-a-z0-9,()]+)?|\.word 0x[0-9a-f]{8}")
# The same where instructions of floating point have their names.
FLOAT_WORD = re.compile(rb"[a-z]+(\.[a-z]+)*( [-a-z0-9,()]+)?|\.word 0x[0-9a-f]{8}")
HALF = re.compile(rb"[a-z]+( [-a-z0-9,()]+)? # compressed|\.half 0x[0-9a-f]{4}")


def heads_of(segment: Segment) -> List[bytes]:
    """What the lines of a segment begin with; for the bytes of which no whole instruction is left, the whole lines."""
    heads, at, content = [], 0, segment.content
    while at + 2 <= len(content) and at + (length := 4 if content[at] & 3 == 3 else 2) <= len(content):
        digits = content[at:at + length][::-1].hex()
        heads.append(f"{segment.address + at:08x}: {digits:10}".encode())
        at += length
    rest = enumerate(content[at:], segment.address + at)
    return heads + [f"{at:08x}: {byte:02x}        .byte 0x{byte:02x}".encode() for at, byte in rest]


def is_statement(line: bytes, half: int, is_float: bool) -> bool:
    """Whether a line has the statement of its halfword or word, where instructions of floating point have their names, or where not."""
    if line[14:20].strip():
        return (FLOAT_WORD if is_float else WORD).fullmatch(line[20:]) is not None
    listed = HALF.fullmatch(line[20:]) is not None
    has_name = compressed.expanded(half) is not None or (is_float and is_float_half(half))
    return listed and has_name != line[20:].startswith(b".half")


def is_float_half(half: int) -> bool:
    """Whether a halfword is a load or a store of floating point: in the quadrants 0 and 2 those rows have odd funct3."""
    return half & 1 == 0 and half >> 13 & 1 == 1


def statements_of(listing: bytes, segments: List[Segment], is_float: bool = False) -> Tuple[str, List[bytes]]:
    """What is wrong with a listing of these segments, with names of floating point or without them, and the statements in it."""
    heads = [head for segment in segments for head in heads_of(segment)]
    lines = listing.split(b"\n")
    if lines.pop() != b"" or len(lines) != len(heads):
        return f"the listing has {len(lines)} lines and not {len(heads)}", []
    statements = []
    for line, head in zip(lines, heads):
        if not line.startswith(head) or (len(head) == 20 and not is_statement(line, int(line[10:14], 16), is_float)):
            return f"the listing has the line {line!r} for {head!r}", []
        statements.append(line[20:])
    return "", statements


def part_of(line: bytes) -> bytes:
    """A statement with the bytes of a line."""
    if line[20:].endswith(b" # compressed"):
        return b".half 0x" + line[10:14]
    return b".word 0x" + line[10:18] if line[20:].startswith(b"fence") else line[20:]


def text_of(listing: bytes) -> bytes:
    """A text whose image has the bytes of this listing of one segment at 0: its statements, but for fences, of which a listing
    leaves out what they order, and compressed instructions, of which no text is made."""
    lines = listing.split(b"\n")[:-1]
    parts = [part_of(line) for line in lines]
    return b"".join(part + b"\n" for part in parts)
