"""What a page has to know of a program to show it by its source: sources, lines, functions, variables and their places."""

from __future__ import annotations

import contextlib
import os
import pathlib
from typing import Any, Dict, Iterable, Iterator, List

from .. import memory_bound
from ..files import named_content
from ..framed.backtrace import is_librarys
from ..limits import MOST_SOURCE
from ..program.code import Code
from ..program.elf import BLOCK, CALLED, MOST_MEMORY, PUT_IN, is_here, name
from ..program.line_table import Source
from ..program.variables import VARIABLES, kind_of, statics
from ..refusals import Refused
from .frame_rules import rules
from .type_table import TypeTable

# Of all sources together: links may give one file very many names. And of a program's functions.
MOST_SOURCES, MOST_DEEP = 1 << 24, 40

# How names of sources and headers end.
SUFFIXES = {".c", ".C", ".cc", ".cpp", ".cxx", ".c++", ".h", ".hh", ".hpp", ".hxx", ".inc", ".i", ".s", ".S"}
# Functions of the library whose calls ask for a number, read the input or write what is no output: the page does not stop there.
QUIET = {"bsp_nprocs", "bsp_pid", "bsp_time", "bsp_input_read", "bsp_record", "bsp_start"}

Data = Dict[str, Any]


class Names:
    """What is known of a program, as lists and dictionaries that JSON has."""

    def __init__(self, code: Code) -> None:
        self.code, self.types = code.know_names(), TypeTable()
        self.paths: Dict[str, int] = {}

    def data(self, shown: str) -> Data:
        """All of it. The first source is the one whose path is given, if the program has it."""
        if shown:
            self.file(shown)
        lines = list(self.lines())
        scopes, variables = self.scopes(), self.globals()
        return {
            "sources": sources(self.paths),
            "lines": lines,
            "functions": [[start, size, called] for start, size, called in self.code.functions if called],
            "labels": {} if self.code.debug else {called: start for start, _, called in self.code.functions},
            "frames": rules(self.code) if self.code.debug else [],
            "scopes": scopes,
            "globals": variables,
            "types": self.types.rows,
            "ecalls": [it for it in self.code.calls() if self.code.name_at(it) not in QUIET],
        }

    def file(self, path: str) -> int:
        """The number of a source."""
        return self.paths.setdefault(os.path.abspath(path), len(self.paths))

    def lines(self) -> Iterator[int]:
        """Start, end, file and line of each piece of code of the program's own, one behind another."""
        source = Source(self.code)
        for start, end, path, number in source.pieces:
            is_own = number and not is_librarys(f"{path}:{number}") and source.is_here(path)
            # An executable may be another person's, and name any file: what is no source comes into no page.
            if is_own and (self.code.lines or pathlib.PurePath(path).suffix in SUFFIXES):
                yield from (start, end, self.file(path), number)

    def units(self) -> List[Any]:
        """The parts of the program of which the source is here and is no library's."""
        found: List[Any] = []
        info = self.code.debug.info if self.code.debug else None
        with contextlib.suppress(Exception), memory_bound.at_most(MOST_MEMORY):
            for unit in info.iter_CUs() if info else ():
                if is_here(unit) and not is_librarys(f"{unit_path(unit)}:1"):
                    found.append(unit)
        return found

    def globals(self) -> List[Data]:
        """The variables that are always there: the name, the function that has it or nothing, where it begins, its type."""
        found: Dict[int, Data] = {}
        with contextlib.suppress(Exception), memory_bound.at_most(MOST_MEMORY):
            for unit in self.units():
                for it in statics(unit.get_top_DIE(), ""):
                    # What the linker left out stands at address 0.
                    if it.size and it.start:
                        found[it.start] = {"name": it.name, "function": it.function, "at": it.start, "type": self.types.number_of(it.kind)}
        return [found[start] for start in sorted(found)]

    def scopes(self) -> List[Data]:
        """The functions of the program with their variables, and the blocks and functions in them."""
        found: List[Data] = []
        with contextlib.suppress(Exception), memory_bound.at_most(MOST_MEMORY):
            for unit in self.units():
                found += self._scopes(unit.get_top_DIE(), 0)
        return found

    def _scopes(self, parent: Any, depth: int) -> List[Data]:
        found: List[Data] = []
        for it in parent.iter_children() if depth < MOST_DEEP else ():
            if it.tag in (CALLED, PUT_IN, BLOCK):
                with contextlib.suppress(Exception):
                    ranges = self._ranges(it)
                    if ranges:
                        found.append(self._scope(it, ranges, depth))
        return found

    def _scope(self, entry: Any, ranges: List[List[int]], depth: int) -> Data:
        row: Data = {"name": name(entry) if entry.tag != BLOCK else "", "ranges": ranges}
        if entry.tag == PUT_IN and "DW_AT_call_line" in entry.attributes:
            row["call"] = entry.attributes["DW_AT_call_line"].value
        row["variables"] = list(self._variables(entry))
        row["inside"] = self._scopes(entry, depth + 1)
        return row

    def _variables(self, scope: Any) -> Iterator[Data]:
        for it in scope.iter_children():
            if it.tag in VARIABLES:
                with contextlib.suppress(Exception):
                    places = self._places(it)
                    constant = it.attributes.get("DW_AT_const_value")
                    # One that is always at the same address is among the global ones.
                    if it.tag == "DW_TAG_variable" and len(places) == 1 and places[0][0] is None and places[0][2].startswith("03"):
                        continue
                    row: Data = {"name": name(it), "type": self.types.number(it), "places": places}
                    if constant is not None and isinstance(constant.value, int):
                        row["value"] = constant.value
                    if kind_of(it) is not None:
                        yield row

    def _places(self, variable: Any) -> List[List[Any]]:
        """Where a variable is: from an address up to before another, or always, with DWARF's expression in hexadecimal digits."""
        attribute = variable.attributes.get("DW_AT_location")
        if attribute is None or self.code.debug is None:
            return []
        if not isinstance(attribute.value, int):
            return [[None, None, bytes(attribute.value).hex()]]
        top = variable.cu.get_top_DIE().attributes
        base = top["DW_AT_low_pc"].value if "DW_AT_low_pc" in top else 0
        found: List[List[Any]] = []
        for it in self.code.debug.info.location_lists().get_location_list_at_offset(attribute.value, die=variable):
            base = getattr(it, "base_address", base)
            begin = getattr(it, "begin_offset", None)
            if begin is not None:
                offset = 0 if getattr(it, "is_absolute", False) else base
                found.append([begin + offset, it.end_offset + offset, bytes(it.loc_expr).hex()])
        return found

    def _ranges(self, scope: Any) -> List[List[int]]:
        """The pieces of code of a function or a block."""
        low, high, ranges = (scope.attributes.get(f"DW_AT_{it}") for it in ("low_pc", "high_pc", "ranges"))
        if low and high:
            return [[low.value, high.value if high.form == "DW_FORM_addr" else low.value + high.value]]
        if not ranges or self.code.debug is None:
            return []
        top = scope.cu.get_top_DIE().attributes
        base = top["DW_AT_low_pc"].value if "DW_AT_low_pc" in top else 0
        found: List[List[int]] = []
        for it in self.code.debug.info.range_lists().get_range_list_at_offset(ranges.value, scope.cu):
            base = getattr(it, "base_address", base)
            if hasattr(it, "end_offset"):
                offset = 0 if it.is_absolute else base
                found.append([it.begin_offset + offset, it.end_offset + offset])
        return found


def unit_path(unit: Any) -> str:
    """The path of a unit's source."""
    folder, file = (unit.get_top_DIE().attributes.get(f"DW_AT_{it}") for it in ("comp_dir", "name"))
    return os.path.join(os.fsdecode(folder.value) if folder else "", os.fsdecode(file.value))


def sources(paths: Iterable[str]) -> List[Data]:
    """The names and texts of sources. One that cannot be read, or for which there is no room behind the others, has no text."""
    found: List[Data] = []
    room = MOST_SOURCES
    for path in paths:
        text = ""
        with contextlib.suppress(Refused):
            text = named_content(path, min(room, MOST_SOURCE)).decode(errors="replace")
        room -= len(text)
        found.append({"name": pathlib.PurePath(path).name, "text": text})
    return found
