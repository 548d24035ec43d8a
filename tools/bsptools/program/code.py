"""A program by its bytes: the kind of its file, its code, and the names and lines of its addresses."""

from __future__ import annotations

import bisect
import pathlib
import re
import struct
import subprocess
from collections.abc import Iterable, Iterator
from typing import Any, NamedTuple

from .. import emulator
from ..files import content_of
from ..limits import MOST_PROGRAM, MOST_TEXT
from ..refusals import Refused
from . import elf
from .variables import Variables

ECALL = bytes([0x73, 0, 0, 0])
ECALLS = re.compile(ECALL)
# The options of the emulator for extensions of the instruction set: F and D, and A.
FLOAT, ATOMIC = "--float", "--atomic"
# The most bytes of a function that are listed.
MOST_OF_A_FUNCTION = 1 << 18
# The bytes that a line of a text takes besides at the least, with a label before it and a word behind it.
MARKS = len("__line_1: ") + len(".word __line_1\n")
# Of a line of a text: a label, and the first word of a statement. Labels that begin so are for jumps within a function.
LABEL, WORD, LOCAL = re.compile(r"[ \t]*([A-Za-z_.][\w.]*)[ \t]*:", re.ASCII), re.compile(r"[ \t]*([A-Za-z_.][\w.]*)", re.ASCII), ".L"


def kind_of(path: pathlib.Path, content: bytes) -> str:
    """`c`, `elf`, `asm` or `raw`: what a file is by its first bytes, and else by its name."""
    if content.startswith(b"\x7fELF"):
        return "elf"
    if path.suffix == ".C":
        return "c"
    kinds = {".c": "c", ".cc": "c", ".cpp": "c", ".cxx": "c", ".s": "asm", ".asm": "asm", ".raw": "raw", ".bin": "raw"}
    if path.suffix.lower() in kinds:
        return kinds[path.suffix.lower()]
    if content.startswith(b"#!") or b"\0" not in content[:4096]:
        raise Refused(f"{path} looks like text: use --format c or --format asm, or give it a name that ends in .c or .s")
    raise Refused(f"{path} is not an ELF file: use --format raw if it is an image of memory from address 0 on")


class Statement(NamedTuple):
    """An instruction: its name, its operands, the address behind it, and that from which jumps are told."""

    name: str
    operands: list[str]
    end: int
    base: int

    def operand(self, at: int) -> int:
        """An operand that is a number, as one with a sign: `x8` is 8, and so is `8(x2)`."""
        return int(self.operands[at].split("(")[0].lstrip("x"), 0)

    @property
    def is_relative(self) -> bool:
        """Whether it is a load, a store or a JALR."""
        return len(self.operands) == 2 and self.operands[1].endswith(")")

    @property
    def pointer(self) -> int:
        """The register from whose address a load or a store tells its own."""
        return int(self.operands[1].rstrip(")").rpartition("x")[2])

    @property
    def target(self) -> int:
        """Where a JAL goes to."""
        return (self.base + int(self.operands[1], 16)) & 0xFFFFFFFF


class Code:
    """The addresses of a program: its segments, where execution begins, the functions and variables that it names, and the lines of a
    text."""

    def __init__(self, segments: Iterable[tuple[int, memoryview]] = (), need: int = 0, entry: int = 0, content: bytes = b"") -> None:
        self.segments, self.need, self.entry = list(segments), need, entry
        self.functions: list[tuple[int, int, str]] = []
        self.variables: list[tuple[int, int, str]] = []
        self.names: dict[str, int] = {}
        self.lines: list[tuple[int, int]] = []
        self.text, self.content = "", content
        # Whether the nodes have units of floating point, and whether they have the instructions of extension A.
        self.is_float = False
        self.is_atomic = False
        self.debug: elf.Debug | None = None
        self._variables_of: Variables | None = None
        # What was found out of functions and addresses already.
        self.bodies: dict[int, dict[int, Statement]] = {}
        self.prologues: dict[int, Any] = {}
        self.places: dict[int, list[tuple[str, str]]] = {}

    def extensions(self) -> list[str]:
        """The options of the emulator that give nodes what the program needs."""
        return [FLOAT] * self.is_float + [ATOMIC] * self.is_atomic

    def know_names(self) -> Code:
        """Reads what an ELF file has for debuggers. That takes a while, and is wanted only if something is told of a run."""
        if self.content and self.debug is None:
            self.debug = elf.Debug(self.content)
            for it in self.debug.symbols:
                address, size, kind = it["st_value"], it["st_size"], it["st_info"]["type"]
                self.names[it.name] = address
                if kind == elf.FUNCTION:
                    self.functions.append((address, size, it.name))
                elif kind == elf.OBJECT and it["st_shndx"] != "SHN_UNDEF":
                    self.variables.append((address, size, it.name))
            self.functions.sort()
        return self

    def stored(self, address: int) -> bytes:
        """The bytes of the code that the image has at an address, four or two as the low bits of the first tell, or none."""
        for start, content in self.segments:
            at = address - start
            if 0 <= at and at + 2 <= len(content):
                code = bytes(content[at : at + (4 if content[at] & 3 == 3 else 2)])
                return code if len(code) in (2, 4) else b""
        return b""

    def statements(self, start: int, end: int) -> dict[int, Statement]:
        """The instructions of the image from one address up to before another, by their addresses, as the emulator lists them. Of more
        than a function has the first are listed."""
        end = min(end, start + MOST_OF_A_FUNCTION)
        stored = next((content[start - at : end - at] for at, content in self.segments if at <= start < at + len(content)), b"")
        return {start + place: Statement(name, operands, start + end, start) for place, end, name, operands in listing(stored, self.extensions())}

    def statements_at(self, addresses: Iterable[int]) -> dict[int, Statement]:
        """The instructions of the image at these addresses, as the emulator lists them one behind another."""
        stored = {address: code for address in addresses if (code := self.stored(address))}
        listed = listing(b"".join(stored.values()), self.extensions())
        return {
            address: Statement(name, operands, address + end - place, address - place)
            for address, (place, end, name, operands) in zip(stored, listed)
        }

    def body(self, start: int) -> dict[int, Statement]:
        """The instructions of a function."""
        if start not in self.bodies:
            at = bisect.bisect_left(self.functions, (start, 0, ""))
            size = self.functions[at][1]
            behind = next((it for it, *_ in self.functions[at:] if it > start), 1 << 32)
            self.bodies[start] = self.statements(start, start + size if size else behind)
        return self.bodies[start]

    def call_before(self, back: int) -> int | None:
        """The address of the instruction of a named function that ends where a call goes back to."""
        function = self.function(back - 2)
        if function is None:
            return None
        return next((at for at, it in self.body(function[0]).items() if it.end == back), back - 2)

    def calls(self) -> list[int]:
        """The addresses of the environment calls."""
        places = []
        for start, content in self.segments:
            found = (start + it.start() for it in ECALLS.finditer(content))
            places += [at for at in found if at % 2 == 0]
        return places

    def function(self, address: int) -> tuple[int, str] | None:
        """Start and name of the function that an address lies in, or of the label before it in a text."""
        at = bisect.bisect_right(self.functions, (address, 1 << 40, "")) - 1
        if at < 0:
            return None
        start, size, name = self.functions[at]
        return (start, name) if not size or address < start + size else None

    def name_at(self, address: int) -> str:
        """The name of the function that an address lies in, or nothing."""
        return (self.function(address) or (0, ""))[1]

    def described(self) -> Variables | None:
        """The program's variables with their types, where its file has them."""
        if self._variables_of is None and self.debug is not None:
            self._variables_of = Variables(self.debug)
        return self._variables_of

    def variable(self, address: int) -> str:
        """A name for an address, with its index or the bytes behind its beginning, or nothing."""
        known = self.described()
        found = known.near(address, []) if known is not None else None
        if found is not None:
            return found.told(address)
        for start, size, name in self.variables:
            if start <= address < start + max(size, 1):
                return name if address == start else f"{name} + {address - start}"
        return ""

    def calls_of(self, *names: str) -> list[int]:
        """The environment calls in the functions of these names; all of them where the program has no such names."""
        found = [it for it in self.calls() if self.name_at(it) in names]
        return found or self.calls()


def listing(stored: bytes, extensions: Iterable[str] = ()) -> Iterator[tuple[int, int, str, list[str]]]:
    """Place, end, name and operands of each instruction of these bytes, as the emulator lists them, with the names of the instructions
    that these options give."""
    words = [emulator.emulator(), "list", "-", "--format", "raw", *extensions]
    listed = subprocess.run(words, input=stored, stdout=subprocess.PIPE, check=False).stdout.decode()
    for line in listed.splitlines():
        place, stored_as, name, *operands = line.split("#")[0].replace(",", " ").split()
        at = int(place[:-1], 16)
        yield at, at + len(stored_as) // 2, name, operands


def name_with(extension: str, code: bytes) -> str:
    """The name that code has with the option for this extension; nothing if it has none."""
    return next((name for _, _, name, _ in listing(code, [extension]) if not name.startswith(".")), "")


def first_code(content: bytes) -> bytes:
    """The first instruction's code: two bytes of the content, or four."""
    return content[:4] if content and content[0] & 3 == 3 else content[:2]


def read_elf(content: bytes) -> Code:
    """The code of an ELF file, as far as it can be read."""
    code = Code(content=content, entry=elf.entry(content))
    code.is_float = elf.wants_floats(content)
    code.is_atomic = elf.wants_atomics(content)
    for address, stored, end in elf.segments(content):
        # Each address is looked for in one after another.
        if stored and len(code.segments) < elf.MOST_SEGMENTS:
            code.segments.append((address, stored))
        code.need = max(code.need, end)
    return code


def read_text(emulator: list[str], path: str, content: bytes, folder: pathlib.Path) -> Code:
    """The code of a text of this path: it is assembled with a label at each line, and the words of these labels behind it. None of one that
    would be too long for the assembler with these. A text with statements of an extension wants nodes that have it."""
    unknown = Code()
    wanted = wanted_extensions(emulator, content, folder)
    unknown.is_float, unknown.is_atomic = FLOAT in wanted, ATOMIC in wanted
    if len(content) + content.count(b"\n") * MARKS > MOST_TEXT:
        return unknown
    lines = content.decode(errors="surrogateescape").split("\n")
    marked = folder / "marked.s"
    # One more is behind the last line, where the text ends.
    labels = [f"__line_{i}" for i in range(1, len(lines) + 2)]
    text = "\n".join(f"{label}: {line}" for label, line in zip(labels, [*lines, ""]))
    words = "\n".join(f".word {label}" for label in labels)
    marked.write_text(f"{text}\n.align 2\n__lines: {words}\n.word __lines\n", errors="surrogateescape")
    image = folder / "marked.elf"
    if refusal([*emulator, "asm", str(marked), str(image), *wanted]):
        return unknown
    code = read_elf(content_of(image, MOST_PROGRAM))
    code.is_float, code.is_atomic = unknown.is_float, unknown.is_atomic
    start, stored = code.segments[0]
    marks = struct.unpack_from("<I", stored, len(stored) - 4)[0]
    *places, code.need = struct.unpack_from(f"<{len(labels)}I", stored, marks - start)
    code.segments = [(start, stored[: code.need - start])]
    code.lines = list(zip(places, range(1, len(lines) + 1)))
    code.text, code.content = path, b""
    for address, number in code.lines:
        code.functions += [(address, 0, name) for name in parts_of(lines[number - 1])[0] if not name.startswith(LOCAL)]
    code.functions.sort()
    return code


def wanted_extensions(emulator: list[str], content: bytes, folder: pathlib.Path) -> list[str]:
    """The options for the extensions of which a text has statements: without such an option the assembler refuses the text, or refuses it
    for something else than with all of them."""
    text = folder / "text.s"
    text.write_bytes(content)
    command = [*emulator, "asm", str(text), str(folder / "text.elf")]
    if not refusal(command):
        return []
    everything = refusal([*command, FLOAT, ATOMIC])
    return [given for given, other in ((FLOAT, ATOMIC), (ATOMIC, FLOAT)) if refusal([*command, other]) != everything]


def refusal(command: list[str]) -> str:
    """What the emulator says where it does not assemble a text."""
    done = subprocess.run(command, stdout=subprocess.DEVNULL, stderr=subprocess.PIPE, check=False)
    return done.stderr.decode(errors="replace") or "refused" if done.returncode else ""


def parts_of(line: str) -> tuple[list[str], str]:
    """The labels of a line of a text, and the first word of its statement, or nothing."""
    labels, at = [], 0
    while (found := LABEL.match(line, at)) is not None:
        labels.append(found[1])
        at = found.end()
    word = WORD.match(line, at)
    return labels, word[1] if word else ""


def source_lines(code: Code, address: int) -> list[tuple[str, str]]:
    """Function and line of an address, innermost first where functions were put into others; of a text the label before it."""
    if not code.lines:
        if address not in code.places:
            code.places[address] = code.debug.lines(address) if code.debug else []
        return code.places[address]
    here = [number for place, number in code.lines if place <= address]
    return [(code.name_at(address), f"{code.text}:{here[-1]}")] if here else []
