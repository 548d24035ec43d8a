"""ELF files: segments, and by pyelftools their symbols and lines."""

from __future__ import annotations

import contextlib
import importlib
import io
import os
import posixpath
import re
import struct
from collections.abc import Iterator
from typing import Any

from .. import limits, memory_bound
from ..python_packages import ELFTOOLS, borrow

LOAD = 1
# The first bytes of a file, and of one for 32 bits, little-endian, of version 1; the number of RISC-V; and an object, which is not linked.
MAGIC = b"\x7fELF"
ELF32_LITTLE, RISCV, OBJECT_FILE = MAGIC + b"\x01\x01\x01", 243, 1
# The bytes of a file's header, for 32 bits.
HEADER = 52
# The bits of a file's flags that say in which registers of floating point functions take values; zero where in none.
FLOAT_ABI = 0x6
# What the attributes of a file say of its instructions.
ARCHITECTURE = re.compile(rb"(?<![0-9a-z_])rv32([0-9a-z_]+)\0")
VERSIONS = re.compile(r"(?<!\d)\d+p\d+")
# A section of symbols, the bytes of one of them, of a name at the most, and of all names: each may be the end of another one.
SYMBOLS, SYMBOL_BYTES, SECTION_BYTES, MOST_NAME, MOST_NAMES = 2, 16, 40, 1 << 12, 1 << 26
# The number of the section of a symbol that another file defines.
UNDEFINED = 0
# Sections that name a file with more for debuggers; and the number of a section that the header has no room for.
LINKS, MANY = (b".gnu_debuglink\0", b".gnu_debugaltlink\0"), 0xFFFF
FUNCTION, OBJECT = "STT_FUNC", "STT_OBJECT"
# What makes a scope of a function's debug information, with the blocks in it.
CALLED, PUT_IN, BLOCK = "DW_TAG_subprogram", "DW_TAG_inlined_subroutine", "DW_TAG_lexical_block"
# What is read for debuggers takes no more bytes than these, and is none of a file with more sections than compilers make. The code is in the
# first of very many segments.
MOST_MEMORY, MOST_SECTIONS, MOST_SEGMENTS = 1 << 29, 256, 256
OTHERS = ("DW_AT_abstract_origin", "DW_AT_specification")
# From a function to where it is declared, in a file that is not broken.
MOST_STEPS = 8


def segments(content: bytes) -> Iterator[tuple[int, memoryview, int]]:
    """Address, bytes and end of each segment that is loaded, as far as they can be read: a broken file is the emulator's to refuse. So
    is one whose segments have more bytes than a node's memory, and what is beyond is left out here. Segments may name the same bytes over
    and over: of them there are no more than the file has."""
    room = min(len(content), limits.MOST_MEMORY)
    with contextlib.suppress(struct.error):
        (start,) = struct.unpack_from("<I", content, 28)
        size, count = struct.unpack_from("<HH", content, 42)
        for i in range(count):
            kind, offset, address, _, filesize, memsize = struct.unpack_from("<6I", content, start + i * size)
            if kind == LOAD:
                stored = memoryview(content)[offset : offset + filesize][:room]
                room -= len(stored)
                yield address, stored, address + memsize


def misfit(content: bytes) -> str:
    """Why an ELF file can be no program of nodes, whatever else it has: nothing, if its header speaks of one. A broken file, or one that is
    none, is the emulator's to refuse."""
    if not content.startswith(MAGIC) or len(content) < HEADER:
        return ""
    kind, machine = struct.unpack_from("<HH", content, 16)
    if not content.startswith(ELF32_LITTLE) or machine != RISCV:
        return "was compiled for another machine, and nodes have the instructions of RISC-V with 32 bits: compile its sources by bspcc"
    return "is an object, which is not linked: bspcc -o PROGRAM.elf makes a program of it" if kind == OBJECT_FILE else ""


def entry(content: bytes) -> int:
    """Where execution begins; 0 where the file is too short to say."""
    return int.from_bytes(content[24:28], "little")


def wants_floats(content: bytes) -> bool:
    """Whether an ELF file's functions take values in registers of floating point."""
    return int.from_bytes(content[36:40], "little") & FLOAT_ABI != 0


def wants_atomics(content: bytes) -> bool:
    """Whether an ELF file says that it has instructions of extension A, as `rv32i2p1_m2p0_a2p1` does."""
    found = ARCHITECTURE.search(section(content, ".riscv.attributes"))
    if found is None:
        return False
    first, *others = found[1].decode().split("_")
    return any(VERSIONS.sub("", it).startswith("a") for it in others) or "a" in VERSIONS.sub("", first)


def section(content: bytes, name: str) -> bytes:
    """The bytes of a section; none of a file that has none of this name, or is broken."""
    with contextlib.suppress(struct.error, IndexError):
        (start,) = struct.unpack_from("<I", content, 32)
        size, count, of_names = struct.unpack_from("<HHH", content, 46)
        headers = [struct.unpack_from("<6I", content, start + i * size) for i in range(min(count, MOST_SECTIONS))]
        texts, wanted = headers[of_names][4], name.encode() + b"\0"
        found = next((it for it in headers if content[texts + it[0] :][: len(wanted)] == wanted), None)
        return content[found[4] : found[4] + found[5]] if found is not None else b""
    return b""


def linked(content: bytes) -> list[bytes]:
    """The files that an ELF file names as having more for debuggers, as gdb opens them. All sections are looked at that a file can have."""
    found: list[bytes] = []
    with contextlib.suppress(struct.error, IndexError):
        (start,) = struct.unpack_from("<I", content, 32)
        size, count, of_names = struct.unpack_from("<HHH", content, 46)
        first = struct.unpack_from("<10I", content, start)
        # What is too much for the header is in the first section. gdb takes no headers of another size.
        count, of_names = count or first[5], first[6] if of_names == MANY else of_names
        (texts,) = struct.unpack_from("<I", content, start + of_names * size + 16)
        for at in range(min(count, len(content) // size) if size == SECTION_BYTES else 0):
            name, _, _, _, offset, length = struct.unpack_from("<6I", content, start + at * size)
            if content.startswith(LINKS, texts + name):
                found.append(content[offset : offset + min(length, MOST_NAME)].partition(b"\0")[0])
    return list(dict.fromkeys(filter(None, found)))


def names(content: bytes) -> set[str]:
    """The names of an ELF file's symbols."""
    return set(symbols(content))


def names_elsewhere(content: bytes) -> set[str]:
    """The names of an ELF file's symbols that it does not define itself, but takes from other files."""
    return {name for name, _, section in _symbols(content) if section == UNDEFINED}


def symbols(content: bytes) -> dict[str, int]:
    """The values of an ELF file's symbols by their names; none of a file that has none, is broken, or has too many for its bytes."""
    return {name: value for name, value, _ in _symbols(content)}


def _symbols(content: bytes) -> list[tuple[str, int, int]]:
    """The same symbols, each with its name, its value and the number of its section."""
    with contextlib.suppress(struct.error, IndexError):
        (start,) = struct.unpack_from("<I", content, 32)
        size, count = struct.unpack_from("<HH", content, 46)
        # If there are too many for the header, the first one has their number.
        count = count or struct.unpack_from("<10I", content, start)[5]
        sections = (struct.unpack_from("<10I", content, start + i * size) for i in range(min(count, len(content) // SECTION_BYTES)))
        table = next((it for it in sections if it[1] == SYMBOLS), None)
        if table is not None:
            _, _, _, _, begin, length, link, *_ = table
            texts, room = struct.unpack_from("<10I", content, start + link * size)[4:6]
            text, left, found = content[texts : texts + room], MOST_NAMES, []
            for place in range(begin, begin + length, SYMBOL_BYTES):
                at, value, _, _, _, section = struct.unpack_from("<3I2BH", content, place)
                end = text.find(b"\0", at, at + MOST_NAME)
                left -= max(end - at, 0)
                if left < 0:
                    return []
                if end >= 0:
                    found.append((text[at:end].decode(errors="replace"), value, section))
            return found
    return []


def load() -> None:
    """Loads pyelftools, if it is here."""
    if not borrow(ELFTOOLS):
        importlib.import_module("elftools.elf.elffile")


class Debug:
    """What a file has for debuggers. What cannot be read, as in a file that is broken, is left out: pyelftools raises errors of all kinds."""

    def __init__(self, content: bytes) -> None:
        self.symbols: list[Any] = []
        self.info: Any = None
        if not borrow(ELFTOOLS):
            from elftools.elf.elffile import ELFFile

            with contextlib.suppress(Exception), memory_bound.at_most(MOST_MEMORY):
                file = ELFFile(io.BytesIO(content))
                if file.num_sections() > MOST_SECTIONS:
                    return
                table = file.get_section_by_name(".symtab")
                self.symbols = list(table.iter_symbols()) if table else []
                self.info = file.get_dwarf_info()

    def lines(self, address: int) -> list[tuple[str, str]]:
        """Function and line, such as `a/b.c:12`, of an address, innermost first where functions were put into others."""
        with contextlib.suppress(Exception), memory_bound.at_most(MOST_MEMORY):
            unit = next(it for it in self.info.iter_CUs() if self.has(it.get_top_DIE(), address))
            return list(self._lines(unit, self.info.line_program_for_CU(unit), address))
        return []

    def pieces(self) -> list[tuple[int, int, str, int]]:
        """Start, end, path and line of each piece of code of which the line is known, by their addresses. If a function was put into
        another, it is the line of the inner one. Units whose source is not here, as those of a C library, are left out."""
        found: list[tuple[int, int, str, int]] = []
        with contextlib.suppress(Exception), memory_bound.at_most(MOST_MEMORY):
            for unit in self.info.iter_CUs():
                program = self.info.line_program_for_CU(unit) if is_here(unit) else None
                found += pieces(unit, program) if program else ()
        return sorted(found)

    def sources(self) -> list[str]:
        """The files that its units and their tables of lines name as sources, whether these are here or not."""
        found: dict[str, None] = {}
        with contextlib.suppress(Exception), memory_bound.at_most(MOST_MEMORY):
            for unit in self.info.iter_CUs():
                # gdb reads the others where one is broken.
                with contextlib.suppress(Exception):
                    found.update(dict.fromkeys(sources_of(unit, self.info.line_program_for_CU(unit))))
        return list(found)

    def _lines(self, unit: Any, program: Any, address: int) -> Iterator[tuple[str, str]]:
        number, line = row(program, address)
        for scope in reversed(list(self.scopes(unit.get_top_DIE(), address))):
            if scope.tag == BLOCK:
                continue
            if line:
                yield name(scope), f"{path(unit, program, number)}:{line}"
            if scope.tag == CALLED:
                return
            number, line = (scope.attributes[it].value for it in ("DW_AT_call_file", "DW_AT_call_line"))
        if line:
            yield "", f"{path(unit, program, number)}:{line}"

    def scopes(self, parent: Any, address: int) -> Iterator[Any]:
        """The functions and blocks that an address lies in, outermost first."""
        for child in parent.iter_children():
            if child.tag in (CALLED, PUT_IN, BLOCK) and self.has(child, address):
                yield child
                yield from self.scopes(child, address)
                return

    def has(self, scope: Any, address: int) -> bool:
        """Whether an address lies in the code of a unit, a function or a block."""
        low, high, ranges = (scope.attributes.get(f"DW_AT_{it}") for it in ("low_pc", "high_pc", "ranges"))
        if low and high:
            return bool(low.value <= address < (high.value if high.form == "DW_FORM_addr" else low.value + high.value))
        base = scope.cu.get_top_DIE().attributes["DW_AT_low_pc"].value if ranges else 0
        for it in self.info.range_lists().get_range_list_at_offset(ranges.value, scope.cu) if ranges else ():
            base = getattr(it, "base_address", base)
            if hasattr(it, "end_offset") and it.begin_offset <= address - (0 if it.is_absolute else base) < it.end_offset:
                return True
        return False


def row(program: Any, address: int) -> tuple[int, int]:
    """File and line of an address in a table of lines; line 0 if there is none."""
    states = [entry.state for entry in program.get_entries() if entry.state]
    for now, then in zip(states, states[1:]):
        if not now.end_sequence and now.address <= address < then.address:
            return now.file, now.line
    return 0, 0


def is_here(unit: Any) -> bool:
    """Whether the source of a unit is here."""
    folder, file = (unit.get_top_DIE().attributes.get(f"DW_AT_{it}") for it in ("comp_dir", "name"))
    return file is not None and posixpath.isfile(posixpath.join(folder.value if folder else b"", file.value))


def pieces(unit: Any, program: Any) -> Iterator[tuple[int, int, str, int]]:
    """Those of a table of lines, but for code that the linker left out, which begins at address 0."""
    paths: dict[int, str] = {}
    is_here = False
    before = None
    for now in (entry.state for entry in program.get_entries() if entry.state):
        is_here = is_here if before else now.address > 0
        if is_here and before and before.line and before.address < now.address:
            if before.file not in paths:
                paths[before.file] = path(unit, program, before.file)
            yield before.address, now.address, paths[before.file], before.line
        before = None if now.end_sequence else now


def path(unit: Any, program: Any, number: int) -> str:
    """The path of a file of a table of lines. Files and folders are counted from 1 before version 5."""
    first = 0 if program.header["version"] >= 5 else 1
    file = program.header["file_entry"][number - first]
    folder = program.header["include_directory"][file.dir_index - first] if file.dir_index >= first else b""
    return str(posixpath.join(unit.get_top_DIE().attributes["DW_AT_comp_dir"].value, folder, file.name).decode(errors="surrogateescape"))


def sources_of(unit: Any, program: Any) -> Iterator[str]:
    """The paths of a unit's own source and of all files of its table of lines, if it has one, as gdb opens them."""
    folder, file = (unit.get_top_DIE().attributes.get(f"DW_AT_{it}") for it in ("comp_dir", "name"))
    base = folder.value if folder else b""
    named = [(b"", file.value)] if file else []
    if program:
        first = 0 if program.header["version"] >= 5 else 1
        folders = dict(enumerate(program.header["include_directory"], first))
        named += [(folders.get(it.dir_index, b""), it.name) for it in program.header["file_entry"]]
    for below, last in named:
        yield os.fsdecode(posixpath.join(base, below, last))


def name(scope: Any) -> str:
    """The name of a function, which may stand where it is declared, and that again elsewhere."""
    for _ in range(MOST_STEPS):
        if "DW_AT_name" in scope.attributes:
            return str(scope.attributes["DW_AT_name"].value.decode(errors="replace"))
        scope = scope.get_DIE_from_attribute(next(it for it in OTHERS if it in scope.attributes))
    return ""
