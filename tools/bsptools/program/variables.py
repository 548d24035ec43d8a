"""The variables of a program from its debug information (DWARF): their locations and types."""

from __future__ import annotations

import contextlib
from collections.abc import Iterator, Mapping
from typing import Any, NamedTuple

from .. import memory_bound
from .elf import BLOCK, CALLED, MOST_MEMORY, MOST_STEPS, PUT_IN, Debug, is_here, name

VARIABLES = ("DW_TAG_variable", "DW_TAG_formal_parameter")
# What a type is but for its name, and what types are made of.
NAMES = ("DW_TAG_typedef", "DW_TAG_const_type", "DW_TAG_volatile_type", "DW_TAG_restrict_type")
ARRAY, POINTER, NUMBER = "DW_TAG_array_type", "DW_TAG_pointer_type", "DW_TAG_base_type"
RECORDS, MEMBER, RANGE = ("DW_TAG_structure_type", "DW_TAG_class_type", "DW_TAG_union_type"), "DW_TAG_member", "DW_TAG_subrange_type"
# From one type to the one that it names, and from a variable to its part, in a file that is not broken.
MOST_TYPES, ADDRESS_BYTES = 64, 4
# Operations of a location: an address; the value of register 0, and an offset to that; an offset to where the frame's caller has its stack.
ADDRESS, REGISTER, OFFSET_OF_REGISTER, OFFSET_OF_FRAME = 0x03, 0x50, 0x70, 0x91
REGISTERS = 32


class Element(NamedTuple):
    """What an array has many of, or a variable is: its bytes, and whether it is a number and not made of parts."""

    size: int
    is_number: bool
    name: str


class Found(NamedTuple):
    """A variable that has an address or a value: its name, the function that it is of, or nothing, where it begins, its bytes, its type,
    and the value of one that is a pointer in a register."""

    name: str
    function: str
    start: int
    size: int
    kind: Any
    value: int | None = None

    def part(self, address: int) -> str:
        """How the program would name an address in it: `table[3]`, `cell.left`, `line[2].from + 1`."""
        return self.name + part_of(self.kind, address - self.start)

    def told(self, address: int) -> str:
        """That, and the function that it is of; and whether it is where the variable ends, and nothing of it stands."""
        end = ", where it ends" if self.size and address == self.start + self.size else ""
        return self.part(address) + (f", in {self.function}" if self.function else "") + end


class Frame(NamedTuple):
    """A function that is called: where it is, where its caller has its stack, and what registers are known to have had there."""

    pc: int
    caller_stack: int
    registers: Mapping[int, int]


def kind_of(entry: Any) -> Any:
    """The type of a variable, a member or a type, without names and qualifiers; None of what has none, as void."""
    for _ in range(MOST_TYPES):
        entry = attributed(entry, "DW_AT_type")
        if entry is None or entry.tag not in NAMES:
            return entry
    return None


def attributed(entry: Any, attribute: str) -> Any:
    """What an entry names, or where it is declared; None if it names nothing."""
    for _ in range(MOST_STEPS):
        if attribute in entry.attributes:
            return entry.get_DIE_from_attribute(attribute)
        other = next((it for it in ("DW_AT_abstract_origin", "DW_AT_specification") if it in entry.attributes), None)
        if other is None:
            return None
        entry = entry.get_DIE_from_attribute(other)
    return None


def size_of(kind: Any) -> int:
    """How many bytes a type has; 0 if that is not known."""
    if kind is None:
        return 0
    if kind.tag == ARRAY:
        count = 1
        for it in lengths(kind):
            count *= it
        return count * size_of(kind_of(kind))
    size = kind.attributes.get("DW_AT_byte_size")
    return int(size.value) if size is not None else ADDRESS_BYTES if kind.tag == POINTER else 0


def lengths(kind: Any) -> list[int]:
    """The lengths of an array, one for each index; 0 where one is not known."""
    found = []
    for it in kind.iter_children():
        if it.tag == RANGE:
            upper, count = it.attributes.get("DW_AT_upper_bound"), it.attributes.get("DW_AT_count")
            value = count.value if count is not None else upper.value + 1 if upper is not None and isinstance(upper.value, int) else 0
            found.append(value if isinstance(value, int) else 0)
    return found


def part_of(kind: Any, offset: int) -> str:
    """How an offset in a type is named behind the name of a variable."""
    text = ""
    for _ in range(MOST_TYPES):
        if kind is not None and kind.tag == ARRAY and (size := size_of(kind_of(kind))) > 0:
            indices, rest = [], offset // size
            for length in reversed(lengths(kind)[1:]):
                indices.append(rest % length if length else 0)
                rest = rest // length if length else rest
            text += "".join(f"[{it}]" for it in [rest, *reversed(indices)]) if offset or text else ""
            if not offset:
                return text
            kind, offset = kind_of(kind), offset % size
        elif kind is not None and kind.tag in RECORDS and offset and (member := member_at(kind, offset)) is not None:
            text += f".{name(member)}"
            kind, offset = kind_of(member), offset - member.attributes["DW_AT_data_member_location"].value
        else:
            return text + (f" + {offset}" if offset else "")
    return text


def member_at(kind: Any, offset: int) -> Any:
    """The member of a structure that an offset lies in."""
    for it in kind.iter_children():
        place = it.attributes.get("DW_AT_data_member_location")
        is_member = it.tag == MEMBER and place is not None and "DW_AT_name" in it.attributes
        if is_member and place.value <= offset < place.value + size_of(kind_of(it)):
            return it
    return None


def element_of(kind: Any) -> Element | None:
    """What a variable of this type has one or many of; None if that is not known."""
    for _ in range(MOST_TYPES):
        if kind is None or kind.tag != ARRAY:
            break
        kind = kind_of(kind)
    if kind is None or size_of(kind) == 0:
        return None
    is_number = kind.tag in (NUMBER, POINTER, "DW_TAG_enumeration_type")
    return Element(size_of(kind), is_number, name(kind) if "DW_AT_name" in kind.attributes else "")


def pointed_at(kind: Any) -> Any:
    """The type that a pointer's has."""
    return kind_of(kind) if kind is not None and kind.tag == POINTER else None


def is_pointer(kind: Any) -> bool:
    """Whether a type is that of pointers, or of an array of such."""
    for _ in range(MOST_TYPES):
        if kind is None or kind.tag != ARRAY:
            break
        kind = kind_of(kind)
    return kind is not None and kind.tag == POINTER


class Variables:
    """The variables of a program. What cannot be read is left out."""

    def __init__(self, debug: Debug) -> None:
        self._debug = debug
        self._units: list[Any] | None = None
        self._globals: list[Found] | None = None

    @property
    def units(self) -> list[Any]:
        """The parts of the program of which the source is here."""
        if self._units is None:
            self._units = []
            with contextlib.suppress(Exception), memory_bound.at_most(MOST_MEMORY):
                self._units = [it for it in self._debug.info.iter_CUs() if is_here(it)] if self._debug.info else []
        return self._units

    def at(self, address: int, frames: list[Frame]) -> Found | None:
        """The variable that an address lies in: of the program, or of a function that is called, the innermost first."""
        for it in self.every(frames):
            if it.value is None and it.start <= address < it.start + it.size:
                return it
        return None

    def near(self, address: int, frames: list[Frame]) -> Found | None:
        """The variable that an address lies in, or else one that ends there."""
        ending = (it for it in self.every(frames) if it.value is None and it.size and address == it.start + it.size)
        return self.at(address, frames) or next(ending, None)

    def pointing_to(self, address: int, frames: list[Frame], word: Any) -> Found | None:
        """A pointer that has this address, by its value in a register or by the `word` of the memory there."""
        for it in self.every(frames):
            if it.kind is not None and it.kind.tag == POINTER and (it.value if it.value is not None else word(it.start)) == address:
                return it
        return None

    def every(self, frames: list[Frame]) -> Iterator[Found]:
        """The variables of functions that are called, innermost first, and then those that are always there."""
        for frame in frames:
            yield from self.locals_of(frame)
        yield from self.globals()

    def globals(self) -> list[Found]:
        """Those that are always there, of functions too."""
        if self._globals is None:
            self._globals = []
            with contextlib.suppress(Exception), memory_bound.at_most(MOST_MEMORY):
                for unit in self.units:
                    self._globals += statics(unit.get_top_DIE(), "")
        return self._globals

    def locals_of(self, frame: Frame) -> list[Found]:
        """Those of a function that is called, and of what was put into it if it is."""
        found: list[Found] = []
        with contextlib.suppress(Exception), memory_bound.at_most(MOST_MEMORY):
            unit = next((it for it in self.units if self._debug.has(it.get_top_DIE(), frame.pc)), None)
            if unit is not None:
                scopes = self._debug.scopes(unit.get_top_DIE(), frame.pc)
                function = ""
                for scope in scopes:
                    function = name(scope) if scope.tag in (CALLED, PUT_IN) else function
                    found += self._variables(scope, function, frame)
        return found[::-1]

    def _variables(self, scope: Any, function: str, frame: Frame) -> Iterator[Found]:
        for it in scope.iter_children():
            if it.tag not in VARIABLES:
                continue
            with contextlib.suppress(Exception):
                place = located(self._expression(it, frame.pc), frame)
                kind = kind_of(it)
                if place is not None and place[0] is not None:
                    yield Found(name(it), function, place[0], size_of(kind), kind)
                elif place is not None:
                    yield Found(name(it), function, 0, 0, kind, place[1])

    def _expression(self, variable: Any, pc: int) -> list[int]:
        """The location of a variable where its function is at an address; nothing if it has none there."""
        attribute = variable.attributes.get("DW_AT_location")
        if attribute is None:
            return []
        if not isinstance(attribute.value, int):
            return list(attribute.value)
        unit = variable.cu
        lists = self._debug.info.location_lists()
        base = unit.get_top_DIE().attributes["DW_AT_low_pc"].value if "DW_AT_low_pc" in unit.get_top_DIE().attributes else 0
        for it in lists.get_location_list_at_offset(attribute.value, die=variable):
            base = getattr(it, "base_address", base)
            begin = getattr(it, "begin_offset", None)
            if begin is None:
                continue
            offset = 0 if getattr(it, "is_absolute", False) else base
            if begin + offset <= pc < it.end_offset + offset:
                return list(it.loc_expr)
        return []


def statics(parent: Any, function: str) -> Iterator[Found]:
    """The variables below an entry that have an address of their own."""
    for it in parent.iter_children():
        if it.tag in (CALLED, BLOCK):
            with contextlib.suppress(Exception):
                yield from list(statics(it, name(it) if it.tag == CALLED and "DW_AT_abstract_origin" not in it.attributes else function))
        elif it.tag == "DW_TAG_variable" and "DW_AT_location" in it.attributes:
            with contextlib.suppress(Exception):
                expression = it.attributes["DW_AT_location"].value
                if not isinstance(expression, int) and expression[0] == ADDRESS:
                    kind = kind_of(it)
                    start = int.from_bytes(bytes(expression[1 : 1 + ADDRESS_BYTES]), "little")
                    yield Found(name(it), function, start, size_of(kind), kind)


def located(expression: list[int], frame: Frame) -> tuple[int | None, int | None] | None:
    """The address that a location has, or the value of a register that it is; None of any other one."""
    if not expression:
        return None
    operation, rest = expression[0], expression[1:]
    if operation == ADDRESS and len(rest) == ADDRESS_BYTES:
        return int.from_bytes(bytes(rest), "little"), None
    if operation == OFFSET_OF_FRAME:
        offset, count = signed_leb(rest)
        return ((frame.caller_stack + offset) & 0xFFFFFFFF, None) if count == len(rest) else None
    if REGISTER <= operation < REGISTER + REGISTERS and not rest:
        return None, frame.registers.get(operation - REGISTER)
    if OFFSET_OF_REGISTER <= operation < OFFSET_OF_REGISTER + REGISTERS:
        offset, count = signed_leb(rest)
        value = frame.registers.get(operation - OFFSET_OF_REGISTER)
        return ((value + offset) & 0xFFFFFFFF, None) if value is not None and count == len(rest) else None
    return None


def signed_leb(content: list[int]) -> tuple[int, int]:
    """A number of DWARF's variable length with a sign, and how many bytes it takes."""
    value = shift = count = 0
    for byte in content:
        value |= (byte & 0x7F) << shift
        shift, count = shift + 7, count + 1
        if byte < 0x80:
            return value - ((1 << shift) if byte & 0x40 else 0), count
    return value, count
