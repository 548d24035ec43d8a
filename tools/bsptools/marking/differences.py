"""The first difference between an output and the expected one, in words."""

from __future__ import annotations

import re
from typing import List, NamedTuple, Optional

from ..refusals import printable
from .sheet import BYTES, NUMBERS, Sheet

# Of a line that is shown, and lines that stand beside one another in the page.
MOST_LETTERS, MOST_ROWS = 100, 40
# Of a long line, letters that are shown in front of the first that differs.
MOST_SAME = 30
NUMBER = re.compile(r"[-+]?(?:\d+(?:\.\d*)?|\.\d+)(?:[eE][-+]?\d+)?$", re.ASCII)
NOT_THERE = "nothing"


class Row(NamedTuple):
    """A line of the output beside the wanted one, each None if there is none, and whether they count as the same."""

    number: int
    came: Optional[str]
    wanted: Optional[str]
    is_same: bool


def lines_of(output: bytes) -> List[str]:
    """The lines of an output. What is no text is spelled."""
    text = output.decode(errors="backslashreplace")
    return text.split("\n")[:-1] if text.endswith("\n") else text.split("\n") if text else []


def is_same(came: bytes, wanted: bytes, sheet: Sheet) -> bool:
    """Whether an output is right."""
    if sheet.compare == BYTES:
        return came == wanted
    one, other = (it.decode(errors="surrogateescape").split() for it in (came, wanted))
    return len(one) == len(other) and all(is_same_word(a, b, sheet) for a, b in zip(one, other))


def is_same_word(came: str, wanted: str, sheet: Sheet) -> bool:
    """Whether a word counts as the wanted one."""
    if came == wanted:
        return True
    if sheet.compare != NUMBERS or not NUMBER.match(came) or not NUMBER.match(wanted):
        return False
    one, other = float(came), float(wanted)
    return abs(one - other) <= sheet.tolerance * max(1.0, abs(other))


def is_same_line(came: Optional[str], wanted: Optional[str], sheet: Sheet) -> bool:
    """Whether a line counts as the wanted one."""
    if came is None or wanted is None:
        return False
    if sheet.compare == BYTES:
        return came == wanted
    one, other = came.split(), wanted.split()
    return len(one) == len(other) and all(is_same_word(a, b, sheet) for a, b in zip(one, other))


def rows(came: bytes, wanted: bytes, sheet: Sheet) -> List[Row]:
    """Lines side by side, some before the first that differs and some after it."""
    one, other = lines_of(came), lines_of(wanted)
    count = max(len(one), len(other))
    whole = [(one[i] if i < len(one) else None, other[i] if i < len(other) else None) for i in range(count)]
    first = next((i for i, (a, b) in enumerate(whole) if not is_same_line(a, b, sheet)), 0)
    begin = max(0, first - MOST_ROWS // 4)
    return [Row(i + 1, a, b, is_same_line(a, b, sheet)) for i, (a, b) in enumerate(whole)][begin : begin + MOST_ROWS]


def first_difference(came: bytes, wanted: bytes, sheet: Sheet) -> str:
    """What came and what was wanted, of the first line that differs."""
    if not came and wanted:
        return f"nothing was printed, but {shown(lines_of(wanted)[0])} was expected first"
    if not wanted:
        return f"{shown(lines_of(came)[0])} was printed, but nothing was expected"
    one, other = lines_of(came), lines_of(wanted)
    for number, (a, b) in enumerate(zip(one, other), 1):
        if not is_same_line(a, b, sheet):
            skipped = first_shown(a, b)
            return f"line {number} of the output is {shown(a, skipped)}, but {shown(b, skipped)} was expected{blanks(a, b)}"
    if len(one) < len(other):
        return f"the output ends after line {len(one)}, but {shown(other[len(one)])} was expected next"
    if len(one) > len(other):
        return f"line {len(other) + 1} of the output is {shown(one[len(other)])}, but nothing more was expected"
    return "the last line has no line feed at its end" if wanted.endswith(b"\n") else "nothing was expected after the last line"


def blanks(came: str, wanted: str) -> str:
    """What is added where lines differ in blanks alone, or in the case of letters."""
    if came.split() == wanted.split():
        return ": only their blanks differ"
    return ": only their capital letters differ" if came.lower() == wanted.lower() else ""


def first_shown(came: str, wanted: str) -> int:
    """How many letters of two lines are left out, since what differs would else be cut off."""
    same = next((i for i, (a, b) in enumerate(zip(came, wanted)) if a != b), min(len(came), len(wanted)))
    return max(same - MOST_SAME, 0) if same > MOST_LETTERS - MOST_SAME else 0


def shown(line: str, skipped: int = 0) -> str:
    """A line as it is told, without its first letters."""
    text = ("..." if skipped else "") + printable(line[skipped:])
    return f"`{text if len(text) <= MOST_LETTERS else text[: MOST_LETTERS - 3] + '...'}`"
