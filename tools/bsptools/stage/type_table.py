"""The types of a program's variables as a table, which a page can carry: numbers, pointers, arrays, structures and enumerations."""

from __future__ import annotations

import contextlib
from typing import Any, Dict, List

from ..program.elf import name
from ..program.variables import ARRAY, MEMBER, NUMBER, POINTER, RECORDS, attributed, kind_of, lengths, size_of

ENUMERATION = "DW_TAG_enumeration_type"
# DWARF's encodings of numbers, by the words that the page knows.
ENCODINGS = {2: "bool", 4: "float", 5: "int", 6: "char", 7: "unsigned", 8: "byte", 16: "char"}
# A table with more types is of no program that a person looks at.
MOST_TYPES = 20_000

Row = Dict[str, Any]


class TypeTable:
    """Rows of types, each once. A row names others by their numbers; None stands for what has no type, as void."""

    def __init__(self) -> None:
        self.rows: List[Row] = []
        self._known: Dict[int, int] = {}

    def number(self, entry: Any) -> int | None:
        """The number of the type of a variable or a member."""
        return self.number_of(kind_of(entry), declared(entry))

    def number_of(self, kind: Any, called: str = "") -> int | None:
        """The number of a type, whose row is added if it is new."""
        if kind is None or len(self.rows) >= MOST_TYPES:
            return None
        key = kind.offset
        if key not in self._known:
            self._known[key] = len(self.rows)
            row: Row = {"kind": "other", "size": 0, "name": called}
            self.rows.append(row)
            with contextlib.suppress(Exception):
                row.update(self._row(kind, called))
        return self._known[key]

    def _row(self, kind: Any, called: str) -> Row:
        row: Row = {"size": size_of(kind), "name": own_name(kind) or called}
        if kind.tag == NUMBER:
            encoding = ENCODINGS.get(kind.attributes["DW_AT_encoding"].value, "unsigned")
            return {**row, "kind": encoding}
        if kind.tag == POINTER:
            return {**row, "kind": "pointer", "of": self.number(kind)}
        if kind.tag == ARRAY:
            return {**row, "kind": "array", "of": self.number(kind), "lengths": lengths(kind)}
        if kind.tag in RECORDS:
            return {**row, "kind": "record", "members": self._members(kind)}
        if kind.tag == ENUMERATION:
            named = [it for it in kind.iter_children() if "DW_AT_const_value" in it.attributes]
            return {**row, "kind": "enumeration", "values": {str(it.attributes["DW_AT_const_value"].value): name(it) for it in named}}
        return {**row, "kind": "other"}

    def _members(self, kind: Any) -> List[Row]:
        found = []
        for it in kind.iter_children():
            place = it.attributes.get("DW_AT_data_member_location")
            is_union = kind.tag == RECORDS[2]
            if it.tag == MEMBER and (is_union or place is not None) and "DW_AT_bit_size" not in it.attributes:
                label = name(it) if "DW_AT_name" in it.attributes else ""
                found.append({"name": label, "at": place.value if place is not None else 0, "type": self.number(it)})
        return found


def own_name(kind: Any) -> str:
    """The name that a type has itself."""
    return name(kind) if "DW_AT_name" in kind.attributes else ""


def declared(entry: Any) -> str:
    """The name by which a variable's type is declared, as by a typedef; nothing where it has none."""
    with contextlib.suppress(Exception):
        first = attributed(entry, "DW_AT_type")
        return own_name(first) if first is not None else ""
    return ""
