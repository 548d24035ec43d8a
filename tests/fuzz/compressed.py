"""The expansion of compressed instructions, written from the manual and the rules, independently of the program."""

from __future__ import annotations

from typing import Optional

SP = 2


def field(half: int, *parts: str) -> int:
    """An immediate, by parts such as `12:4|9:6`: the highest bit of the halfword that holds it, and its own bits from there on."""
    value = 0
    for part in parts:
        top, spans = part.split(":", 1)
        place = int(top)
        for span in spans.split("|"):
            high, _, low = span.partition("-")
            for bit in range(int(high), int(low or high) - 1, -1):
                value |= (half >> place & 1) << bit
                place -= 1
    return value


def signed(value: int, bits: int) -> int:
    """The signed number of so many bits."""
    return value - (1 << bits) if value >> (bits - 1) & 1 else value


# Words of the forms of whole instructions.

def word_i(opcode: int, funct: int, rd: int, rs1: int, imm: int) -> int:
    return (imm & 0xFFF) << 20 | rs1 << 15 | funct << 12 | rd << 7 | opcode


def word_r(head: int, funct: int, rd: int, rs1: int, rs2: int) -> int:
    return head << 25 | rs2 << 20 | rs1 << 15 | funct << 12 | rd << 7 | 0x33


def word_s(rs1: int, rs2: int, imm: int, funct: int = 2, opcode: int = 0x23) -> int:
    return imm >> 5 << 25 | rs2 << 20 | rs1 << 15 | funct << 12 | (imm & 31) << 7 | opcode


def word_j(rd: int, imm: int) -> int:
    return (imm >> 20 & 1) << 31 | (imm >> 1 & 0x3FF) << 21 | (imm >> 11 & 1) << 20 | (imm >> 12 & 0xFF) << 12 | rd << 7 | 0x6F


def word_b(funct: int, rs1: int, imm: int) -> int:
    return ((imm >> 12 & 1) << 31 | (imm >> 5 & 63) << 25 | rs1 << 15 | funct << 12 | (imm >> 1 & 15) << 8
            | (imm >> 11 & 1) << 7 | 0x63)


def expanded(half: int, has_floats: bool = False) -> Optional[int]:
    """The word of the instruction to which a halfword expands, or None. Those of floating point are there where nodes have units."""
    word = (first, second, third, nothing)[half & 3](half, half >> 13)
    return floating(half, half >> 13) if word is None and has_floats else word


def floating(half: int, funct: int) -> Optional[int]:
    """Loads and stores of floating point: doubles where bit 1 of funct3 is clear, and singles if it is set."""
    if half & 1 or not funct & 1:
        return None
    is_double, is_store = not funct & 2, funct & 4
    width = 3 if is_double else 2
    if half & 3 == 0:
        low, base = 8 + (half >> 2 & 7), 8 + (half >> 7 & 7)
        offset = field(half, "12:5-3", "6:7-6" if is_double else "6:2|6")
        return word_s(base, low, offset, width, 0x27) if is_store else word_i(0x07, width, low, base, offset)
    if is_store:
        return word_s(SP, half >> 2 & 31, field(half, "12:5-3|8-6" if is_double else "12:5-2|7-6"), width, 0x27)
    return word_i(0x07, width, half >> 7 & 31, SP, field(half, "12:5", "6:4-3|8-6" if is_double else "6:4-2|7-6"))


def nothing(_half: int, _funct: int) -> Optional[int]:
    """The quadrant of words."""
    return None


def first(half: int, funct: int) -> Optional[int]:
    """Quadrant 0: from the stack pointer, and words relative to a register."""
    low, base = 8 + (half >> 2 & 7), 8 + (half >> 7 & 7)
    offset = field(half, "12:5-3", "6:2|6")
    if funct == 0:
        imm = field(half, "12:5-4|9-6|2|3")
        return word_i(0x13, 0, low, SP, imm) if imm else None
    if funct == 2:
        return word_i(0x03, 2, low, base, offset)
    return word_s(base, low, offset) if funct == 6 else None


def second(half: int, funct: int) -> Optional[int]:
    """Quadrant 1: immediates, arithmetic, jumps and branches."""
    rd, short = half >> 7 & 31, 8 + (half >> 7 & 7)
    small = signed(field(half, "12:5", "6:4-0"), 6)
    if funct in (0, 2):
        return word_i(0x13, 0, rd, rd if funct == 0 else 0, small)
    if funct in (1, 5):
        return word_j(1 if funct == 1 else 0, signed(field(half, "12:11|4|9-8|10|6|7|3-1|5"), 12))
    if funct in (6, 7):
        return word_b(funct - 6, short, signed(field(half, "12:8|4-3", "6:7-6|2-1|5"), 9))
    if funct == 4:
        return arithmetic(half, short, small)
    if small == 0:
        return None
    if rd == SP:
        return word_i(0x13, 0, SP, SP, signed(field(half, "12:9", "6:4|6|8-7|5"), 10))
    return (small & 0xFFFFF) << 12 | rd << 7 | 0x37


def arithmetic(half: int, short: int, small: int) -> Optional[int]:
    """Shifts to the right, and operations of a register and an immediate or another register."""
    kind = half >> 10 & 3
    if kind == 2:
        return word_i(0x13, 7, short, short, small)
    if half >> 12 & 1:
        return None
    if kind < 2:
        return word_i(0x13, 5, short, short, small | kind << 10)
    head, funct = ((32, 0), (0, 4), (0, 6), (0, 7))[half >> 5 & 3]
    return word_r(head, funct, short, short, 8 + (half >> 2 & 7))


def third(half: int, funct: int) -> Optional[int]:
    """Quadrant 2: shifts to the left, words relative to the stack pointer, moves, sums, and jumps to registers."""
    rd, rs2, high = half >> 7 & 31, half >> 2 & 31, half >> 12 & 1
    if funct == 0:
        return None if high else word_i(0x13, 1, rd, rd, rs2)
    if funct == 2:
        return word_i(0x03, 2, rd, SP, field(half, "12:5", "6:4-2|7-6")) if rd else None
    if funct == 6:
        return word_s(SP, rs2, field(half, "12:5-2|7-6"))
    if funct != 4:
        return None
    if rs2:
        return word_r(0, 0, rd, rd if high else 0, rs2)
    if rd:
        return word_i(0x67, 0, high, rd, 0)
    return 0x100073 if high else None
