"""Words and halfwords of instructions, valid and damaged ones, and their statements as a listing spells them."""

from __future__ import annotations

import random
import struct
from typing import List

REGISTERS = ["add", "sub", "sll", "slt", "sltu", "xor", "srl", "sra", "or", "and", "mul", "mulh", "mulhsu", "mulhu", "div", "divu",
             "rem", "remu"]
IMMEDIATES = ["addi", "slti", "sltiu", "xori", "ori", "andi"]
SHIFTS = ["slli", "srli", "srai"]
LOADS = ["lb", "lh", "lw", "lbu", "lhu"]
STORES = ["sb", "sh", "sw"]
BRANCHES = ["beq", "bne", "blt", "bge", "bltu", "bgeu"]
PLAIN = ["fence", "fence.i", "ecall", "ebreak"]
CALLS = range(1, 19)

# Opcode, and the bits of funct3 and funct7 that are instructions under it.
FORMS = [
    (0x37, range(8), range(128)), (0x17, range(8), range(128)), (0x6F, range(8), range(128)), (0x67, [0], range(128)),
    (0x63, [0, 1, 4, 5, 6, 7], range(128)), (0x03, [0, 1, 2, 4, 5], range(128)), (0x23, [0, 1, 2], range(128)),
    (0x13, [0, 2, 3, 4, 6, 7], range(128)), (0x13, [1], [0]), (0x13, [5], [0, 32]), (0x33, [0, 5], [0, 1, 32]),
    (0x33, [1, 2, 3, 4, 6, 7], [0, 1]), (0x0F, [0, 1], range(128)),
]

# The funct5 of the atomic memory operations.
ATOMICS = [0, 1, *range(4, 32, 4)]

# Prints the number of each rank.
RANKS = [0x00300893, 0x73, 0x03050513, 0x10A02023, 0x10000513, 0x00100593, 0x01100893, 0x73, 0x00100893, 0x73]


def word_of_form(chance: random.Random) -> int:
    """A word that is an instruction."""
    opcode, functs, heads = chance.choice(FORMS)
    # Of the upper bits those of small numbers come most often, so that places in memory are near.
    head = chance.choice(heads) if len(heads) < 128 else chance.choice([0, 0, 0, 1, 127, chance.randrange(128)])
    word = opcode | chance.choice(functs) << 12 | head << 25
    return word | chance.randrange(32) << 7 | chance.choice([0, 0, 2, chance.randrange(32)]) << 15 | chance.randrange(32) << 20


def float_word(chance: random.Random, is_bad: bool) -> int:
    """A word of floating point that computes, converts, moves, or reads or writes a control and status register; a bad one may have any
    rounding mode and any fields. Of the registers there are few, so that results are operands again."""
    rd, rs1, rs2, rs3 = (chance.randrange(8) for _ in range(4))
    kind, rm = chance.randrange(2), chance.choice([0, 7, 7, chance.randrange(5)])
    rm = chance.randrange(8) if is_bad else rm
    form = chance.randrange(12)
    if form < 2:
        return chance.choice([0x43, 0x47, 0x4B, 0x4F]) | rd << 7 | rm << 12 | rs1 << 15 | rs2 << 20 | kind << 25 | rs3 << 27
    if form == 2:
        # Any word is written to the rounding mode by bad ones alone: where it is none, that is a fault of most that come behind.
        register = chance.randrange(5) if is_bad else chance.choice([1, 1, 2, 3])
        funct3 = chance.choice([1, 2, 3, 5, 6, 7]) if is_bad or register == 1 else chance.choice([2, 5])
        operand = rs1 if is_bad or register == 1 else chance.randrange(5) if funct3 == 5 else 0
        return 0x73 | rd << 7 | funct3 << 12 | operand << 15 | register << 20
    if form < 7:
        funct5 = chance.choice([0, 1, 2, 3, 11])
        rs2 = 0 if funct5 == 11 and not is_bad else rs2
    elif form < 9:
        funct5, rm = chance.choice([(4, 0), (4, 1), (4, 2), (5, 0), (5, 1), (20, 0), (20, 1), (20, 2)])
    else:
        funct5, rs2, rm, kind = chance.choice([
            (24, rs2 & 1, chance.randrange(5), kind), (26, rs2 & 1, rm, kind), (8, 1 - kind, rm, kind), (28, 0, 1, kind), (28, 0, 0, 0),
            (30, 0, 0, 0),
        ])  # fmt: skip
    word = 0x53 | rd << 7 | rm << 12 | rs1 << 15 | rs2 << 20 | kind << 25 | funct5 << 27
    return word ^ (1 << chance.randrange(7, 32) if is_bad and chance.randrange(4) == 0 else 0)


def atomic_word(chance: random.Random, is_bad: bool) -> int:
    """A word of LR, SC or an atomic memory operation, at the address in t1; a bad one may have another register for it, and any bit."""
    kind = chance.choice([2, 2, 3, 3, *ATOMICS])
    first = chance.choice([5, 6, 7, 0]) if is_bad else 6
    word: int = 0x202F | chance.choice([5, 5, 7, 0]) << 7 | first << 15 | chance.randrange(4) << 25 | kind << 27
    word |= 0 if kind == 2 and not is_bad else chance.choice([5, 7, 7, 8, 0]) << 20
    return word ^ (1 << chance.randrange(7, 32) if is_bad and chance.randrange(2) else 0)


def pattern(chance: random.Random) -> int:
    """The pattern of a double or of a boxed single: a special one, or one that is near to something, or any."""
    digits, exponents = chance.choice([(52, 11), (23, 8)])
    most = (1 << exponents) - 1
    exponent = chance.choice([0, 0, 1, 2, most, most - 1, most // 2, most // 2 + 1, most // 2 + 30, chance.randint(0, most)])
    fraction = chance.choice([0, 0, 1, (1 << digits) - 1, 1 << (digits - 1), chance.getrandbits(digits), 3 << chance.randrange(digits - 1)])
    found = chance.randrange(2) << (digits + exponents) | exponent << digits | fraction
    return found if digits == 52 else found | (0 if chance.randrange(20) == 0 else 0xFFFF_FFFF << 32)


def call(chance: random.Random) -> List[int]:
    """Words that make an environment call with small operands."""
    words = [0x13 | register << 7 | chance.choice([0, 1, 4, 0x7FF, 0xFFF, chance.randrange(1 << 12)]) << 20
             for register in range(10, 15) if chance.randrange(3)]
    return words + [0x893 | chance.choice([*CALLS, 0, 19, 20]) << 20, 0x73]


def words(chance: random.Random, count: int) -> List[int]:
    """Words for an image: instructions, calls, the numbers of ranks, and anything."""
    made: List[int] = list(RANKS) if chance.randrange(4) == 0 else []
    rate = chance.choice([0, 1, 5, 50])
    floating = chance.choice([0, 0, 0, 30])
    while len(made) < count:
        made += call(chance) if chance.randrange(4) == 0 else [word_of_form(chance)]
        if chance.randrange(100) < floating:
            moved = chance.choice([0x07, 0x27]) | chance.choice([2, 3]) << 12 | chance.randrange(8) << 7 | chance.randrange(1 << 12) << 20
            made.append(chance.choice([moved, float_word(chance, chance.randrange(100) < rate)]))
        if chance.randrange(100) < rate:
            made[-1] ^= 1 << chance.randrange(32)
        if chance.randrange(100) < rate:
            made.append(chance.choice([0, 0xFFFF_FFFF, chance.randrange(1 << 32)]))
    # These are apart, so that the other words are those that they are without them.
    apart = random.Random(sum(made))
    for _ in range(apart.choice([0, 0, 0, len(made) // 3])):
        made.insert(apart.randrange(len(made) + 1), atomic_word(apart, apart.randrange(2) == 0))
    return made


def half_word(chance: random.Random) -> int:
    """A halfword that is no beginning of a word: most of these are compressed instructions."""
    return chance.randrange(1 << 14) << 2 | chance.randrange(3)


def code(chance: random.Random, count: int) -> bytes:
    """The bytes of such words, in half of the images with halfwords among them. The last may be cut."""
    rate = chance.choice([0, 0, 20, 50])
    content = b""
    for word in words(chance, count):
        while chance.randrange(100) < rate:
            content += struct.pack("<H", half_word(chance))
        content += struct.pack("<I", word)
    return content[: len(content) - chance.choice([0, 0, 0, 1, 2, 3])]


def number(chance: random.Random, least: int, most: int) -> int:
    """A number of a range, often at its edges."""
    return chance.choice([least, most, min(max(0, least), most), chance.randint(least, most), chance.randint(least, most)])


def statement(chance: random.Random, at: int) -> str:
    """A statement at an address, spelled as a listing does."""
    first, second, third = (f"x{chance.randrange(32)}" for _ in range(3))
    family = chance.choice([REGISTERS, IMMEDIATES, SHIFTS, LOADS, STORES, BRANCHES, ["jal"], ["jalr"], ["lui", "auipc"], PLAIN])
    name = chance.choice(family)
    if family is PLAIN:
        return name
    if name in ("lui", "auipc"):
        return f"{name} {first},0x{number(chance, 0, 0xFFFFF):x}"
    if family is BRANCHES:
        return f"{name} {first},{second},0x{(at + 2 * number(chance, -2048, 2047)) & 0xFFFF_FFFF:08x}"
    if name == "jal":
        return f"jal {first},0x{(at + 2 * number(chance, -(1 << 19), (1 << 19) - 1)) & 0xFFFF_FFFF:08x}"
    if name == "jalr" or family in (LOADS, STORES):
        return f"{name} {first},{number(chance, -2048, 2047)}({second})"
    last = {id(REGISTERS): third, id(SHIFTS): number(chance, 0, 31)}.get(id(family), number(chance, -2048, 2047))
    return f"{name} {first},{second},{last}"
