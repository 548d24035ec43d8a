"""Calls of wchar.h, wctype.h and the conversions of stdlib.h, in the locale C."""

from __future__ import annotations

from typing import List

from . import chance as made
from .area import BOTH, Answer, Area, Build, Difference
from .chance import Chance, often
from .numbers import UNDERFLOW, real_text, whole_text

COPIES = ["wcscpy", "wcsncpy", "wmemcpy", "wmemmove", "wmemset", "wcscat", "wcsncat", "wcpcpy", "wcpncpy"]
COMPARISONS = ["wcscmp", "wcsncmp", "wmemcmp", "wcscoll", "wcscasecmp", "wcsncasecmp", "wcsspn", "wcscspn", "wcspbrk", "wcsstr", "wcsxfrm"]
LOOKS = ["wcslen", "wcsnlen", "wcschr", "wcsrchr", "wmemchr", "wcstok"]
NUMBERS = ["wcstol", "wcstoll", "wcstoull", "wcstod", "wcstof"]
CONVERSIONS = ["mbstowcs", "wcstombs", "mbsrtowcs", "wcsrtombs", "mbrtowc", "mbtowc", "mblen", "mbrlen", "wcrtomb", "wctomb"]
FUNCTIONS = COPIES + COMPARISONS + LOOKS + NUMBERS * 2 + CONVERSIONS * 2 + ["isw", "isw", "btowc"]


def codes(chance: Chance, most: int = 12) -> List[int]:
    """The codes of a wide text: letters, and now and then others."""
    letters = chance.choice((b"ab", b"aAbB, ;", bytes(range(1, 128))))
    found = [chance.choice(letters) for _ in range(chance.randint(0, most))]
    if found and often(chance, 0.1):
        found[chance.randrange(len(found))] = chance.choice((128, 255, 256, 0x20AC, 0x10FFFF))
    return found


def wide(found: List[int]) -> str:
    """A wide text as words of a call."""
    return " ".join(map(str, (len(found), *found)))


def call(chance: Chance, _: Build) -> str:
    """A call."""
    function = chance.choice(FUNCTIONS)
    content = made.word(chance, 8)
    if often(chance, 0.6):
        content = bytes(it & 127 or 97 for it in content)
    first, second = codes(chance), codes(chance, 5)
    count = chance.randint(0, 16)
    if function in NUMBERS:
        count = chance.choice((0, 10, 16, 8, 36))
        given = real_text(chance) if function in ("wcstod", "wcstof") else whole_text(chance, count, 32 if function == "wcstol" else 64)
        first = [ord(it) for it in given[:100]]
    elif function == "isw":
        first = [chance.choice((chance.randint(0, 127), chance.randint(0, 127), chance.randint(128, 70000), -1))]
    elif function == "btowc":
        first = [chance.choice((chance.randint(0, 127), chance.randint(-1, 255)))]
    elif function in ("mbtowc", "mblen"):
        # Of no bytes at all C11 7.22.7.1p3 and 7.22.7.2p3 do not say what they are.
        count = max(count, 1)
    elif function in ("wcstok", "wcschr", "wcsrchr", "wmemchr"):
        second = second or [97]
    return " ".join((function, made.text(content), wide(first), wide(second), str(count)))


def is_byte_above(answer: Answer) -> bool:
    """A byte or a character of 128 to 255, which a node takes as it is, and glibc does not."""
    name, count = answer.call[0], int(answer.call[2])
    if name not in CONVERSIONS and name != "btowc":
        return False
    codes_of = [int(it) for it in answer.call[3 : 3 + count]]
    return any(it >= 128 for it in answer.text(1)) or any(128 <= it <= 255 for it in codes_of)


DIFFERENCES = (
    Difference(
        "C11 5.2.1p1 and 5.2.1.2: which bytes above 127 are characters of the locale C is of the implementation: here all are, as in the "
        "locale POSIX, and in glibc none",
        is_byte_above,
    ),
    UNDERFLOW,
)

AREA = Area("wide", "wide.c", call, BOTH, DIFFERENCES)
