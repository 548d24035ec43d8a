"""The bytes that an instruction loads or stores, from its code."""

from __future__ import annotations

from typing import NamedTuple, Optional, Tuple

# Opcodes that change no memory: LOAD, LOAD-FP, MISC-MEM, OP-IMM, AUIPC, OP, LUI, MADD, MSUB, NMSUB, NMADD, OP-FP, BRANCH, JALR, JAL.
QUIET = {0x03, 0x07, 0x0F, 0x13, 0x17, 0x33, 0x37, 0x43, 0x47, 0x4B, 0x4F, 0x53, 0x63, 0x67, 0x6F}
LOADS, STORE, STORE_FP, SYSTEM = {0x03, 0x07}, 0x23, 0x27, 0x73
# LR, SC and the atomic memory operations: they load, but for SC, and SC and the operations store, which is not told in advance.
ATOMIC, STORE_CONDITIONAL = 0x2F, 3
# Opcodes that may change registers of floating point or fcsr: LOAD-FP, MADD, MSUB, NMSUB, NMADD, OP-FP, SYSTEM.
OF_UNIT = {0x07, 0x43, 0x47, 0x4B, 0x4F, 0x53, 0x73}
# Calls that change no memory before the turn, by their number, and the one that stores a word at its operand. The others that store do so at
# more places, or take from a queue.
ECALL = 0x00000073
QUIET_CALLS = {*range(1, 11), 12, 16, 17, 19}
SET_TAGSIZE = 11
# Compressed instructions that change no memory, by their lowest two bits, and then by funct3: C.ADDI4SPN, C.FLD, C.LW, C.FLW; all; C.SLLI,
# C.FLDSP, C.LWSP, C.FLWSP, and C.JR with its like.
QUIET_COMPRESSED = {0: {0, 1, 2, 3}, 1: set(range(8)), 2: {0, 1, 2, 3, 4}}
# Those that are of doubles, of floating point at all, and loads of these.
OF_DOUBLES, OF_FLOATS, LOADS_OF_FLOATS = {1, 5}, {1, 3, 5, 7}, {1, 3}
SP, A0, A7 = 2, 10, 17


class Stored(NamedTuple):
    """The bytes that an instruction loads or stores; none, at any address, if it has access to nothing."""

    addr: int
    length: int

    def __bool__(self) -> bool:
        return self.length > 0


NOTHING = Stored(0, 0)


def stored(code: bytes, x: Tuple[int, ...]) -> Optional[Stored]:
    """Where an instruction stores, with these registers; nothing if it may change what stands elsewhere, as some calls do.

    What is no instruction stores nothing, as it ends in a fault.
    """
    if len(code) < 2:
        return NOTHING
    word = int.from_bytes(code, "little")
    if word & 3 != 3:
        return _stored_compressed(word & 0xFFFF, x)
    if word & 0x7F in (STORE, STORE_FP):
        offset = word >> 25 << 5 | word >> 7 & 31
        offset -= offset >> 11 << 12
        return Stored((x[word >> 15 & 31] + offset) % (1 << 32), 1 << (word >> 12 & 3))
    if word == ECALL and x[A7] == SET_TAGSIZE:
        return Stored(x[A0], 4)
    if word == ECALL:
        return NOTHING if x[A7] in QUIET_CALLS else None
    is_of_register = word & 0x7F == SYSTEM and word >> 12 & 7 != 0
    return NOTHING if word & 0x7F in QUIET or is_of_register else None


def stores_floats(code: bytes) -> bool:
    """Whether an instruction is a store of a register of floating point."""
    word = int.from_bytes(code, "little")
    return word & 0x7F == STORE_FP if word & 3 == 3 else word & 1 == 0 and word >> 13 & 7 in OF_FLOATS


def changes_floats(code: bytes) -> bool:
    """Whether an instruction may change registers of floating point or fcsr."""
    word = int.from_bytes(code, "little")
    return word & 0x7F in OF_UNIT if word & 3 == 3 else word & 1 == 0 and word >> 13 & 7 in LOADS_OF_FLOATS


def _stored_compressed(half: int, x: Tuple[int, ...]) -> Optional[Stored]:
    kind, funct3 = half & 3, half >> 13
    if funct3 in QUIET_COMPRESSED[kind]:
        return NOTHING
    if kind == 0:
        # C.SW, C.FSW, C.FSD
        return _by_pointer(half, x)
    if funct3 in OF_DOUBLES:
        # C.FSDSP
        return Stored((x[SP] + ((half >> 10 & 7) << 3 | (half >> 7 & 7) << 6)) % (1 << 32), 8)
    # C.SWSP, C.FSWSP
    return Stored((x[SP] + ((half >> 9 & 15) << 2 | (half >> 7 & 3) << 6)) % (1 << 32), 4)


def _by_pointer(half: int, x: Tuple[int, ...]) -> Stored:
    """What a compressed load or store through one of x8 to x15 is of."""
    pointer = x[8 + (half >> 7 & 7)]
    if half >> 13 in OF_DOUBLES:
        return Stored((pointer + ((half >> 10 & 7) << 3 | (half >> 5 & 3) << 6)) % (1 << 32), 8)
    return Stored((pointer + ((half >> 10 & 7) << 3 | (half >> 6 & 1) << 2 | (half >> 5 & 1) << 6)) % (1 << 32), 4)


def value_of(code: bytes, x: Tuple[int, ...]) -> int:
    """The register that a store takes its bytes from, which are the lowest."""
    word = int.from_bytes(code, "little")
    if word & 3 == 3:
        return x[word >> 20 & 31]
    return x[8 + (word >> 2 & 7)] if word & 3 == 0 else x[word >> 2 & 31]


def loaded(code: bytes, x: Tuple[int, ...]) -> Stored:
    """Where an instruction loads from, with these registers. What a call reads is not told."""
    word = int.from_bytes(code, "little")
    if len(code) == 4 and word & 0x7F in LOADS:
        offset = word >> 20
        return Stored((x[word >> 15 & 31] + offset - (offset >> 11 << 12)) % (1 << 32), 1 << (word >> 12 & 3))
    if len(code) == 4 and word & 0x7F == ATOMIC and word >> 27 != STORE_CONDITIONAL:
        return Stored(x[word >> 15 & 31], 4)
    half = word & 0xFFFF
    if half & 3 == 0 and half >> 13 in (1, 2, 3):
        # C.FLD, C.LW, C.FLW
        return _by_pointer(half, x)
    if (half & 3, half >> 13) == (2, 1):
        # C.FLDSP
        return Stored((x[SP] + ((half >> 12 & 1) << 5 | (half >> 5 & 3) << 3 | (half >> 2 & 7) << 6)) % (1 << 32), 8)
    if half & 3 == 2 and half >> 13 in (2, 3):
        # C.LWSP, C.FLWSP
        return Stored((x[SP] + ((half >> 12 & 1) << 5 | (half >> 4 & 7) << 2 | (half >> 2 & 3) << 6)) % (1 << 32), 4)
    return NOTHING
