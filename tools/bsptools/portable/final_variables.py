"""The program's own variables, and the first that differs at the end of two runs."""

from __future__ import annotations

import struct
from collections.abc import Sequence
from typing import NamedTuple

from ..framed.replays import Replays
from ..program import elf
from ..program.code import Code
from .trial_runs import memory_of

# The first file of bsplib/ in a program: its own come before it.
LIBRARY = "system.c"
# What bsplib and a C library have, by the beginnings of names and by whole names.
OTHERS = ("bsp_", "__", "_ZSt", "_ZNSt", "_ZTVN10__cxx", "_ZGVNSt")
C_LIBRARY = {"errno", "environ", "stdin", "stdout", "stderr", "optarg", "optind", "opterr", "optopt", "signgam", "suboptarg", "tzname"}
# The sum before what the library tells of variables, and what stands before each block: its address and its size.
SUM_BYTES, HEAD = 4, struct.Struct("<II")
# Bytes of variables that are compared, over all ranks: those of the lower ranks where there are more.
MOST_COMPARED = 1 << 24
MOST_AT_ONCE = 1 << 16
# How many bytes lie between two variables that lie side by side.
MOST_BETWEEN = 16


class Variable(NamedTuple):
    """A variable outside of all functions, or one that is static in one."""

    address: int
    size: int
    name: str


class Difference(NamedTuple):
    """The first byte of a variable that differs between two ends, with what it has at each."""

    rank: int
    variable: Variable
    offset: int
    one: bytes
    other: bytes


def of_program(code: Code) -> list[Variable]:
    """The variables of a program that can be written, by their addresses."""
    found: list[Variable] = []
    is_own = True
    for it in code.debug.symbols if code.debug else ():
        kind, binding = it["st_info"]["type"], it["st_info"]["bind"]
        if kind == "STT_FILE":
            is_own = is_own and it.name != LIBRARY
        elif kind == elf.OBJECT and it["st_size"] > 0 and it["st_value"] >= code.names.get("bsp_guard", 1 << 32):
            if is_own if binding == "STB_LOCAL" else not (it.name.startswith(OTHERS) or it.name in C_LIBRARY):
                found.append(Variable(it["st_value"], it["st_size"], it.name.partition(".")[0]))
    return sorted(found)


def ranges_of(variables: list[Variable]) -> list[tuple[int, int]]:
    """From where to where variables lie, as those that lie side by side."""
    found: list[tuple[int, int]] = []
    for it in variables:
        start, end = found.pop() if found and it.address - found[-1][1] < MOST_BETWEEN else (it.address, it.address)
        found.append((start, max(end, it.address + it.size)))
    return found


def extent(variables: list[Variable]) -> tuple[int, int]:
    """From where to where all of them lie."""
    return variables[0].address, max(it.address + it.size for it in variables)


def at_end(replays: Replays, ranks: Sequence[int], variables: list[Variable]) -> dict[int, bytes]:
    """The memory of ranks at the end of a run, from the first variable to the end of the last one: of the first of them if it is too much."""
    start, end = extent(variables)
    memories = {}
    with replays.session() as session:
        session.ask("go")
        for rank in ranks[: max(MOST_COMPARED // (end - start), 1)]:
            places = range(start, end, MOST_AT_ONCE)
            memories[rank] = b"".join(memory_of(session, rank, it, min(end - it, MOST_AT_ONCE)) for it in places)
    return memories


def told(content: bytes, variables: list[Variable]) -> bytes | None:
    """The same memory of a rank by what the library has told of it, behind a sum: only the blocks that are not 0. Nothing if that was too
    much to tell, or if it is no such thing."""
    start, end = extent(variables)
    count, at = int.from_bytes(content[SUM_BYTES : SUM_BYTES + 4], "little"), SUM_BYTES + 4
    memory = bytearray(end - start)
    for _ in range(count):
        if at + HEAD.size > len(content):
            return None
        address, size = HEAD.unpack_from(content, at)
        at += HEAD.size
        if not start <= address <= end - size or at + size > len(content):
            return None
        memory[address - start : address - start + size] = content[at : at + size]
        at += (size + 3) // 4 * 4
    return bytes(memory)


def difference(variables: list[Variable], one: dict[int, bytes], other: dict[int, bytes]) -> Difference | None:
    """The first difference between two ends, by ranks and then by addresses."""
    for rank in sorted(one.keys() & other.keys()):
        a, b = one[rank], other[rank]
        for it in variables if a != b else ():
            start = it.address - variables[0].address
            here, there = a[start : start + it.size], b[start : start + it.size]
            if here != there:
                offset = next(i for i, (x, y) in enumerate(zip(here, there)) if x != y)
                return Difference(rank, it, offset, here[offset : offset + 4], there[offset : offset + 4])
    return None
