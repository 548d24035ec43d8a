"""Calls of time.h."""

from __future__ import annotations

import re
from typing import List

from . import chance as made
from .area import BOTH, Answer, Area, Build, Difference
from .chance import Chance, often

FUNCTIONS = ("strftime",) * 4 + ("mktime",) * 3 + (
    "gmtime", "gmtime_r", "localtime", "localtime_r", "ctime", "asctime", "asctime_r", "difftime")  # fmt: skip
# Ends of days, of a February and of 32 bits.
EDGES = (0, -1, 1, 86399, 86400, -86400, -86401, 951782399, 951782400, 951868800, 2**31 - 1, 2**31, -(2**31), 4107542399, 4107542400)
# Of C11 7.27.3.5, each also with E or O where C has that.
LETTERS = "aAbBcCdDeFgGhHIjmMnprRStTuUVwWxXyYzZ%"
WITH_E, WITH_O = "cCxXyY", "deHImMSuUVwWy"


def broken_down(chance: Chance, is_proper: bool) -> List[int]:
    """The nine numbers of a time: in their ranges, or anywhere if mktime has to put them there."""
    if is_proper:
        return [chance.randint(0, 60), chance.randint(0, 59), chance.randint(0, 23), chance.randint(1, 31), chance.randint(0, 11),
                chance.choice((chance.randint(0, 200), chance.randint(-1900, 8099), 70, 100, 124)), chance.randint(0, 6),
                chance.randint(0, 364), chance.choice((0, 0, -1))]  # fmt: skip
    reach = chance.choice((100, 1000, 100000))
    return [chance.randint(-reach, reach) for _ in range(5)] + [chance.randint(-200, 400), 0, 0, chance.choice((0, -1))]


def form(chance: Chance) -> bytes:
    """A format of strftime."""
    parts = []
    for _ in range(chance.randint(0, 6)):
        letter = chance.choice(LETTERS)
        if often(chance, 0.1) and letter in WITH_E:
            letter = "E" + letter
        elif often(chance, 0.1) and letter in WITH_O:
            letter = "O" + letter
        parts.append(f"%{letter}".encode() + made.word(chance, 3).replace(b"%", b"-"))
    return b"".join(parts)


def seconds(chance: Chance) -> int:
    """A time, in years that four figures can say."""
    kind = chance.randrange(4)
    if kind == 0:
        return chance.randint(-(2**31), 2**31 - 1)
    if kind == 1:
        return chance.randint(0, 2**40 % 253402300799)
    if kind == 2:
        return chance.choice(EDGES)
    return chance.randint(-40000, 40000) * 86400 + chance.choice((-1, 0, 1, chance.randrange(86400)))


def call(chance: Chance, _: Build) -> str:
    """A call."""
    function = chance.choice(FUNCTIONS)
    if function == "strftime":
        size = chance.choice((0, 1, 2, chance.randint(0, 40), 2000, 2000, 2000))
        return " ".join(map(str, (function, size, made.text(form(chance)), *broken_down(chance, True))))
    if function == "mktime":
        return " ".join(map(str, (function, *broken_down(chance, often(chance, 0.3)))))
    if function.startswith("asctime"):
        return " ".join(map(str, (function, *broken_down(chance, True))))
    return f"{function} {seconds(chance)}" + (f" {seconds(chance)}" if function == "difftime" else "")


def is_zone(answer: Answer) -> bool:
    """Another name of the zone."""
    if answer.call[0] != "strftime" or b"%Z" not in answer.text(2):
        return False
    return [it.replace("UTC", "GMT") for it in answer.host] == answer.node


def is_early_year(answer: Answer) -> bool:
    """A year before 1000, for which glibc leaves out zeros in front."""
    if answer.call[0] != "strftime" or not re.search(rb"%E?C|%F", answer.text(2)) or int(answer.call[8]) + 1900 >= 1000:
        return False
    return int(answer.host[0]) < int(answer.node[0]) or int(answer.node[0]) == 0


DIFFERENCES = (
    Difference("C11 7.27.3.5p3: %Z is the zone's name or abbreviation, of which UTC has two", is_zone),
    Difference("C11 7.27.3.5p3: %C has the figures 00 to 99, and POSIX has %F as %+4Y-%m-%d; glibc leaves out zeros", is_early_year),
)

AREA = Area("times", "times.c", call, BOTH, DIFFERENCES)
