"""Names and source lines of addresses, read when they are first needed."""

from __future__ import annotations

import bisect
import os
import re
from typing import Any, Dict, List, NamedTuple, Optional, Sequence

from .. import children
from ..files import content_of
from ..framed.backtrace import MOST_FRAMES, frames, short, users_frames
from ..framed.session import Node
from ..limits import MOST_PROGRAM
from ..program import elf
from ..program.code import Code, read_elf, read_text
from ..refusals import Refused

# Bytes of the stack in which the callers of a place are looked for.
STACK = 1 << 12
MOST_ADDRESS = (1 << 32) - 1
# What symbols of an ELF file are that are names of addresses: functions, objects, and labels, which have no type. Those that stand in no
# section, as files and numbers of the linker, are none.
KINDS = {elf.FUNCTION, elf.OBJECT, "STT_NOTYPE"}

_NUMBER = re.compile(r"[0-9]{1,10}|0[xX][0-9a-fA-F]{1,8}")
_NAMED = re.compile(r"([^\s+]+)\+([0-9]+|0[xX][0-9a-fA-F]+)")


class Symbol(NamedTuple):
    """A name, where it begins, and how many bytes it has; 0 where the file does not tell."""

    address: int
    size: int
    name: str


class Names:
    """What the program of a debugger's command calls its addresses. It is read where it is first asked for; a file that is broken has no
    names."""

    def __init__(self, command: Sequence[str]) -> None:
        self._command = list(command)
        self._code: Optional[Code] = None
        self._symbols: List[Symbol] = []
        self._labels: Dict[str, int] = {}

    @property
    def code(self) -> Code:
        """The program's code, with what the file has for debuggers."""
        return self._know()

    def _know(self) -> Code:
        if self._code is None:
            # What lists code is the emulator that runs it.
            os.environ["BSPEMU"] = self._command[0]
            self._code = self._read().know_names()
            self._code.is_float |= "--float" in self._command
            self._labels = _labels(self._code)
            self._symbols = _symbols(self._code, self._labels)
        return self._code

    @staticmethod
    def is_name(text: str) -> bool:
        """Whether a text is no number."""
        return _NUMBER.fullmatch(text) is None

    def address(self, text: str) -> Optional[int]:
        """The address that a number or a name tells, or a name and so many bytes behind it, as `table+4`; nothing if it tells none."""
        if _NUMBER.fullmatch(text):
            value = int(text, 16 if text[1:2] in ("x", "X") else 10)
            return value if value <= MOST_ADDRESS else None
        with_offset = _NAMED.fullmatch(text)
        name, offset = (with_offset[1], int(with_offset[2], 0)) if with_offset else (text, 0)
        self._know()
        found = [it.address for it in self._symbols if it.name == name] or [self._labels[it] for it in [name] if it in self._labels]
        return found[0] + offset if found and found[0] + offset <= MOST_ADDRESS else None

    def all(self) -> List[str]:
        """All names."""
        self._know()
        return sorted(it for it in {*self._labels, *(it.name for it in self._symbols)} if it.isprintable())

    def named(self, address: int) -> str:
        """An address as a name and the bytes behind it; nothing if no name is known."""
        code = self.code
        at = bisect.bisect_right(self._symbols, (address, 1 << 33, ""))
        for it in reversed(self._symbols[:at]):
            if address < (it.address + it.size if it.size else code.need):
                return it.name if address == it.address else f"{it.name}+{address - it.address}"
            if not it.size:
                break
        return ""

    def written(self, address: int) -> str:
        """An address, with its name where one is known."""
        name = self.named(address)
        return f"{address:#x} <{name}>" if name else f"{address:#x}"

    def place(self, node: Node) -> str:
        """Function and line of where a node with some of its stack stands, the innermost in the program's own source; else its address."""
        code = self.code
        known = users_frames(code, frames(code, node)[: 1 if code.lines else MOST_FRAMES])
        if not known:
            return f"pc {self.written(node.pc)}"
        return f"{known[0].function}, {short(known[0].line)}" if known[0].function else short(known[0].line)

    def _read(self) -> Code:
        at = self._command.index("debug") + 1
        path, kind = self._command[at], self._command[self._command.index("--format") + 1]
        try:
            content = content_of(path, MOST_PROGRAM)
        except (Refused, OSError):
            return Code()
        if kind == "asm":
            with children.folder("bspgdb") as folder:
                return read_text(self._command[: at - 1], path, content, folder)
        if kind == "raw":
            return Code(segments=[(0, memoryview(content))], need=len(content))
        return read_elf(content)


def _labels(code: Code) -> Dict[str, int]:
    """The addresses of a program by all their names."""
    if code.debug is None:
        return {name: address for name, address in code.names.items() if name}
    return {it.name: it["st_value"] for it in code.debug.symbols if it.name and _is_label(it)}


def _is_label(symbol: Any) -> bool:
    """Whether a symbol of an ELF file is a name of an address. Those with a dollar in front mark code and data for tools."""
    is_in_section = isinstance(symbol["st_shndx"], int)
    return is_in_section and symbol["st_info"]["type"] in KINDS and not symbol.name.startswith("$")


def _symbols(code: Code, labels: Dict[str, int]) -> List[Symbol]:
    """The functions and variables of a program by their addresses, or all names where the file does not tell which are."""
    found = [Symbol(*it) for it in (*code.functions, *code.variables) if it[2]]
    return sorted(found or [Symbol(address, 0, name) for name, address in labels.items()])
