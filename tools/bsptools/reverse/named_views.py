"""Registers and memory as a person reads them, with the names of the program."""

from __future__ import annotations

import re
import struct
from typing import Iterator, List

from ..framed.session import Floats, Node
from ..program.code import ATOMIC, FLOAT, first_code, listing, name_with
from ..program.register_names import FLOATS, REGISTERS
from .symbol_names import Names

WORDS, BYTES = 4, 16
# What stands above a single in a register of 64 bits; the flags of fcsr from the lowest bit on, and the rounding modes.
BOX = 0xFFFFFFFF
FLAGS, ROUNDING = ("NX", "UF", "OF", "DZ", "NV"), ("rne", "rtz", "rdn", "rup", "rmm")
# What an instruction is that nodes do not have, by the option that gives them these.
WANTED = {FLOAT: "of floating point, for which the nodes have no units", ATOMIC: "of extension A, which the nodes do not have"}

_REGISTER = re.compile(r"\b([xf])([0-9]|[12][0-9]|3[01])\b")
_TARGET = re.compile(r"0x[0-9a-f]{8}$")


def registers(names: Names, node: Node) -> List[str]:
    """Where a node stands, and its registers by the names that programs have for them."""
    cells = [f"{name}={value:08x}" for name, value in zip(REGISTERS, node.x)]
    rows = [" ".join(f"{cell:13}" for cell in cells[at : at + WORDS]).rstrip() for at in range(0, len(cells), WORDS)]
    return [f"rank {node.rank} pc {behind(names, node.pc)} ticks {node.ticks} state {node.state}", *rows]


def floats(rank: int, shown: Floats) -> List[str]:
    """The parts of fcsr of a rank, and its registers of floating point by the names that programs have for them, with the numbers that they
    hold."""
    flags = " ".join(name for bit, name in reversed(list(enumerate(FLAGS))) if shown.fflags >> bit & 1) or "-"
    mode = ROUNDING[shown.frm] if shown.frm < len(ROUNDING) else "none"
    return [f"rank {rank} fcsr {shown.fcsr:08x} frm {shown.frm} {mode} flags {flags}", *map(_float, FLOATS, shown.f)]


def _float(name: str, pattern: int) -> str:
    """A register, which holds a single where that stands in its box of ones, and else a double."""
    if pattern >> 32 == BOX:
        return f"{name:>4}={pattern:016x} single {struct.unpack('<f', struct.pack('<I', pattern & BOX))[0]:.9g}"
    return f"{name:>4}={pattern:016x} double {struct.unpack('<d', struct.pack('<Q', pattern))[0]!r}"


def extension_wanted(state: str, code: bytes) -> List[str]:
    """What a rank wants that nodes do not have, if it has stopped in this state before this code: an extension, if any."""
    if state == "fault IllegalInstruction":
        for option, missing in WANTED.items():
            name = name_with(option, first_code(code))
            if name:
                return [f"{name} is {missing}: bspgdb {option} gives these"]
    return []


def behind(names: Names, address: int) -> str:
    """An address as the debugger spells it, and its name."""
    name = names.named(address)
    return f"{address:08x} <{name}>" if name else f"{address:08x}"


def hexadecimal(names: Names, addr: int, data: bytes) -> List[str]:
    """Bytes in rows, behind their addresses."""
    return [f"{behind(names, addr + at)}: {data[at : at + BYTES].hex(' ')}" for at in range(0, len(data), BYTES)]


def words(names: Names, addr: int, data: bytes) -> List[str]:
    """Words in rows, behind their addresses."""
    found = [f"{int.from_bytes(data[at : at + 4], 'little'):08x}" for at in range(0, len(data) - 3, 4)]
    return [f"{behind(names, addr + 4 * at)}: {' '.join(found[at : at + WORDS])}" for at in range(0, len(found), WORDS)]


def text(data: bytes, is_cut: bool) -> str:
    """A text in quotes, up to its end; with what follows it if that was not reached."""
    content, end, _ = data.partition(b"\0")
    shown = content.decode("latin-1").encode("unicode_escape").decode().replace('"', '\\"')
    return f'"{shown}"' + ("" if end or not is_cut else "...")


def instructions(names: Names, addr: int, data: bytes, count: int, pc: int) -> Iterator[str]:
    """So many instructions, with the names of where they stand and go to; the one at which a node stands is marked."""
    for number, (place, _, name, operands) in enumerate(listing(data, names.code.extensions())):
        if number == count:
            return
        mark = "=>" if addr + place == pc else "  "
        told = [_operand(names, addr, it) for it in operands] if not name.startswith(".") else operands
        yield f"{mark} {behind(names, addr + place)}: {name} {','.join(told)}".rstrip()


def _operand(names: Names, addr: int, operand: str) -> str:
    """An operand, of which a target is told from address 0 on."""
    if _TARGET.fullmatch(operand):
        return behind(names, (int(operand, 16) + addr) % (1 << 32))
    return _REGISTER.sub(lambda found: (REGISTERS if found[1] == "x" else FLOATS)[int(found[2])], operand)
