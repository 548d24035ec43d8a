"""Where in its source a node is: the calls that led there, from its stack and its code."""

from __future__ import annotations

import copy
import pathlib
import re
from typing import NamedTuple

from ..emulator import REPO
from ..program.code import Code, Statement, source_lines
from ..program.variables import Frame as Called
from .session import Node, signed

RA, SP, FP = 1, 2, 8
# The registers that a function saves where it changes them, and where it returns to.
KEPT = (RA, FP, 9, *range(18, 28))
MOST_FRAMES = 40
# Where sources lie that are none of the program's own.
LIBRARIES = (REPO / "bsplib", pathlib.Path("/usr/include"), pathlib.Path("/usr/lib"))
# Folders of the sources of picolibc and of GCC's own library, which have lines in a program, and are on no user's machine.
ELSEWHERE = {"newlib", "libgcc"}
# Functions of bsplib/ that are in a program and not in bsp.h, and how those begin that stand for others in a program of bspcc --portable.
WRAP = "__wrap_"
# How GCC's functions begin that take back what a function saved, as it ends, and return in its place.
RESTORE = "__riscv_restore_"
INNER = ("_start", "bsp_start", "bsp_stop", "bsp_stop_with", "bsp_stop_for_guards", "end_line", "end_of_main")


class Prologue:
    """What a function did to its stack between its first instruction and some address, by the code alone."""

    def __init__(self) -> None:
        self.size = 0
        self.saved: dict[int, int] = {}
        self.has_pointer = False
        self.known: dict[int, int] = {0: 0}

    def step(self, it: Statement) -> None:
        """Takes an instruction into account."""
        if it.name == "sw" and it.pointer == SP and it.operand(0) in KEPT:
            self.saved.setdefault(it.operand(0), it.operand(1) - self.size)
        elif it.name == "lui":
            self.known[it.operand(0)] = it.operand(1) << 12
        elif it.name in ("addi", "add"):
            rd, rs1, other = (it.operand(at) for at in range(3))
            if it.name == "add":
                if rd == rs1 == SP and other in self.known:
                    self.size -= signed(self.known[other] & 0xFFFFFFFF)
            elif rd == rs1 == SP:
                self.size -= other
            elif rs1 == SP and rd == FP and other == self.size:
                self.has_pointer = True
            elif rs1 in self.known and rd not in (SP, FP):
                self.known[rd] = self.known[rs1] + other

    def save(self, name: str) -> None:
        """Takes a call of GCC's function into account that saves x1, x8 and more, and makes room for them."""
        self.size += 16 * (int(name.rpartition("_")[2]) // 4 + 1)
        self.saved.update({RA: -4, FP: -8})


def prologue(code: Code, start: int, address: int) -> Prologue:
    """What the function at `start` did before `address`. Behind a return, what it had done before it left its frame."""
    found: Prologue | None = code.prologues.get(address)
    if found is None:
        found = code.prologues[address] = prologue_anew(code, start, address)
    return found


def prologue_anew(code: Code, start: int, address: int) -> Prologue:
    """The same, from the code."""
    now, deepest = Prologue(), Prologue()
    for at, it in code.body(start).items():
        if at >= address:
            break
        now.step(it)
        if (it.name, it.operands[:1]) == ("jal", ["x5"]) and (name := code.name_at(it.target)).startswith("__riscv_save_"):
            now.save(name)
        if now.size > deepest.size or (now.size == deepest.size and len(now.saved) >= len(deepest.saved)):
            deepest = copy.deepcopy(now)
        if (it.name, it.operands) == ("jalr", ["x0", "0(x1)"]) or (it.name, it.operands[:1]) == ("jal", ["x0"]):
            now = copy.deepcopy(deepest)
    return now


def frames(code: Code, node: Node) -> list[int]:
    """Where a node stands, and the calls that led to there, innermost first."""
    return unwound(code, node)[0]


def unwound(code: Code, node: Node) -> tuple[list[int], list[Called]]:
    """The same, and the functions there of which the frame is known."""
    addresses, called_ones = [node.pc], []
    registers = dict(enumerate(node.x))
    pc, sp, ra, fp = node.pc, node.x[SP], node.x[RA], node.x[FP]
    called = code.call_before(ra)
    if code.name_at(pc).startswith(RESTORE):
        sp, ra, fp = restored(code, node)
        called = code.call_before(ra)
        if called is None:
            return addresses, []
        # The function that ends so stands behind the call of it.
        it = code.body((code.function(called) or (called, ""))[0]).get(called)
        addresses += [it.target, called] if it is not None and it.name == "jal" else [called]
        pc = called
    if code.function(pc) is None and not code.stored(pc) and called is not None:
        pc = called
        addresses.append(pc)
    while len(addresses) < MOST_FRAMES and (function := code.function(pc)):
        done = prologue(code, function[0], pc)
        top = fp if done.has_pointer else (sp + done.size) & 0xFFFFFFFF
        kept = {which: node.at((top + offset) & 0xFFFFFFFF) for which, offset in done.saved.items()}
        called_ones.append(Called(pc, top, registers))
        registers = {SP: top, **{it: registers[it] for it in KEPT if it in registers}}
        registers.update((it, at) for it, at in kept.items() if at is not None)
        caller = kept.get(FP)
        fp = fp if caller is None else caller
        back = kept.get(RA) if RA in done.saved else (ra if len(addresses) == 1 or pc == called else None)
        call = code.call_before(back) if back else None
        if call is None:
            break
        pc, sp = call, top
        addresses.append(pc)
    return addresses, called_ones


def restored(code: Code, node: Node) -> tuple[int, int, int]:
    """The stack, the return and the frame of who called a function that ends, for a node that takes back what that saved."""
    x = {SP: node.x[SP], RA: node.x[RA], FP: node.x[FP]}
    for at, it in code.body((code.function(node.pc) or (node.pc, ""))[0]).items():
        if at >= node.pc and it.name == "lw" and it.pointer == SP and it.operand(0) in (RA, FP):
            x[it.operand(0)] = node.at((x[SP] + it.operand(1)) & 0xFFFFFFFF) or 0
        elif at >= node.pc and it.name == "addi" and it.operand(0) == SP:
            x[SP] = (x[SP] + it.operand(2)) & 0xFFFFFFFF
    return x[SP], x[RA], x[FP]


class Frame(NamedTuple):
    """A function and its line in the source of the program, and the function of a library that it has called, or nothing."""

    function: str
    line: str
    called: str

    def __str__(self) -> str:
        return f"{self.function}, {short(self.line)}" if self.function else short(self.line)


def users_frames(code: Code, chain: list[int]) -> list[Frame]:
    """The frames of the program's own source in a chain of addresses, innermost first; none if no line is known."""
    known = [(at, *line) for at in range(len(chain)) for line in source_lines(code, chain[at]) if not is_elsewhere(line[1])]
    # A library's own lines are of files that are not here; those of headers are of files that no user has written.
    written_here = [it for it in known if not is_librarys(it[2])]
    known = [it for it in written_here if code.lines or path_of(it[2]).exists()] or written_here or known
    return [Frame(function, line, called_as(code.name_at(chain[at - 1])) if at > 0 else "") for at, function, line in known]


def called_as(name: str) -> str:
    """The name under which a program calls a function, also one of namespace std."""
    of_std = re.match(r"_ZSt(\d{1,9})", name)
    if of_std:
        return f"std::{name[of_std.end() :][: int(of_std[1])]}"
    return name[len(WRAP) :] if name.startswith(WRAP) else name


def path_of(line: str) -> pathlib.Path:
    """The file of a line."""
    return pathlib.Path(line.rpartition(":")[0])


def is_elsewhere(line: str) -> bool:
    """Whether a line is of a C library that was compiled elsewhere."""
    path = path_of(line)
    return not ELSEWHERE.isdisjoint(path.parts) and not path.exists()


def is_librarys(line: str) -> bool:
    """Whether a line is of a header or a source that comes with bspcc or the compiler."""
    folders = path_of(line).parents
    return any(folder in folders for folder in LIBRARIES)


def place(code: Code, node: Node, is_call_told: bool = False) -> str:
    """Function and line of where a node stands: the innermost of the program's own source, the call in it, unless that is told elsewhere, and
    what it was called from. Nothing if it is outside of all functions of the program, as behind the end of main."""
    chain = frames(code, node)[: 1 if code.lines else MOST_FRAMES]
    known = users_frames(code, chain)
    if known:
        texts = [str(it) for it in known]
        if known[0].called and not is_call_told:
            texts[0] += f", in {known[0].called}"
        shown = texts[:4] + (["…"] if len(texts) > 5 else []) + (texts[-1:] if len(texts) > 4 else [])
        return ", called from ".join(shown)
    names = [code.name_at(at) for at in chain if code.name_at(at)]
    told = [it for it in names if it not in INNER and not it.startswith(WRAP)] if "bsp_start" in code.names else names
    return ", called from ".join(told[:6]) if names else f"address {node.pc:#x}"


def short(line: str) -> str:
    """A file and its line, without the folders."""
    path, colon, number = line.rpartition(":")
    return f"{pathlib.PurePath(path).name}:{number}" if colon else line


def written(code: Code, address: int, node: Node | None = None) -> str:
    """An address with the name of what stands there: a variable of a function, too, where the node is given with its stack."""
    name = named(code, address, node)
    return f"{address:#x} ({name})" if name else f"{address:#x}"


def named(code: Code, address: int, node: Node | None) -> str:
    """The name of what stands at an address, or nothing."""
    if not address:
        return "NULL"
    known = code.described()
    if known is None or node is None or not node.stack:
        return code.variable(address)
    called_ones = unwound(code, node)[1]
    found = known.near(address, called_ones)
    if found is not None:
        return found.told(address)
    pointer = known.pointing_to(address, called_ones, node.at)
    if pointer is not None:
        return f"where {pointer.name} points" + (f", in {pointer.function}" if pointer.function else "")
    return code.variable(address)
