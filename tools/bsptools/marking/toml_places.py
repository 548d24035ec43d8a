"""The lines and columns of the keys and values of a TOML document, which the standard library does not report."""

from __future__ import annotations

import bisect
import re
from typing import Dict, List, Tuple, Union

# The way to a value: the keys and the numbers of entries that lead to it.
Path = Tuple[Union[str, int], ...]
# A line and a column, both from 1 on.
Place = Tuple[int, int]
BLANKS = " \t\r\n"
# What ends a number, a date or a truth value.
ENDS = ",]}#\n"
QUOTES = ('"""', "'''", '"', "'")


class Places:
    """The places of a document that a reader of TOML has taken already, so that it has no mistake in its form."""

    def __init__(self, text: str) -> None:
        self.text, self.at = text, 0
        # Where lines begin.
        self.begins = [0, *(it.end() for it in re.finditer("\n", text))]
        # Of values, and of the keys in front of them.
        self.found: Dict[Path, Place] = {}
        self.keys: Dict[Path, Place] = {}
        # How many tables each array of tables has so far.
        self.counts: Dict[Path, int] = {}
        self._document()

    def of(self, path: Path) -> Place:
        """Where a value stands; of one that is not there, the table that lacks it."""
        while path and path not in self.found:
            path = path[:-1]
        return self.found.get(path, (1, 1))

    def of_key(self, path: Path) -> Place:
        """Where a key stands, or else what it leads to: of an array of tables, the first of them."""
        return self.keys.get(path) or self.found.get((*path, 0)) or self.of(path)

    def _place(self) -> Place:
        line = bisect.bisect_right(self.begins, self.at)
        return line, self.at - self.begins[line - 1] + 1

    def _document(self) -> None:
        table: Path = ()
        while self._skip():
            place = self._place()
            if self.text.startswith("[", self.at):
                is_array = self.text.startswith("[[", self.at)
                self.at += 1 + is_array
                table = self._header(self._key(), is_array)
                self.found.setdefault(table, place)
                self.at += 1 + is_array
            else:
                self._pair(table)

    def _header(self, key: List[str], is_array: bool) -> Path:
        """The way to the table that a header begins. Of an array of tables that was begun before, it is the last one."""
        path: Path = ()
        for number, part in enumerate(key):
            path += (part,)
            if is_array and number == len(key) - 1:
                self.counts[path] = self.counts.get(path, 0) + 1
            if path in self.counts:
                path += (self.counts[path] - 1,)
        return path

    def _pair(self, table: Path) -> None:
        place = self._place()
        path = (*table, *self._key())
        self._skip()
        self.at += 1  # the sign =
        self._skip()
        self.keys[path] = place
        self._value(path)

    def _key(self) -> List[str]:
        parts = [self._key_part()]
        while self._skip() and self.text[self.at] == ".":
            self.at += 1
            self._skip()
            parts.append(self._key_part())
        return parts

    def _key_part(self) -> str:
        self._skip()
        if self.text[self.at] in "\"'":
            begin = self.at
            self._string()
            return self.text[begin + 1 : self.at - 1]
        begin = self.at
        while self.text[self.at].isalnum() or self.text[self.at] in "_-":
            self.at += 1
        return self.text[begin : self.at]

    def _value(self, path: Path) -> None:
        self.found[path] = self._place()
        first = self.text[self.at]
        if first in "\"'":
            self._string()
        elif first == "[":
            self._array(path)
        elif first == "{":
            self._inline(path)
        else:
            while self.at < len(self.text) and self.text[self.at] not in ENDS:
                self.at += 1

    def _array(self, path: Path) -> None:
        self.at += 1
        number = 0
        while self._skip() and self.text[self.at] != "]":
            if self.text[self.at] == ",":
                self.at += 1
                continue
            self._value((*path, number))
            number += 1
        self.at += 1

    def _inline(self, path: Path) -> None:
        self.at += 1
        while self._skip() and self.text[self.at] != "}":
            if self.text[self.at] == ",":
                self.at += 1
                continue
            self._pair(path)
        self.at += 1

    def _string(self) -> None:
        """Goes behind a string of any of the four kinds. One of three quotes may have more of them before its end."""
        quote = next(it for it in QUOTES if self.text.startswith(it, self.at))
        self.at += len(quote)
        while not self.text.startswith(quote, self.at):
            self.at += 2 if self.text[self.at] == "\\" and quote[0] == '"' else 1
        self.at += len(quote)
        while len(quote) == 3 and self.text.startswith(quote[0], self.at):
            self.at += 1

    def _skip(self) -> bool:
        """Goes behind blanks and comments; whether something is left."""
        while self.at < len(self.text):
            if self.text[self.at] == "#":
                end = self.text.find("\n", self.at)
                self.at = len(self.text) if end < 0 else end
            elif self.text[self.at] in BLANKS:
                self.at += 1
            else:
                return True
        return False
