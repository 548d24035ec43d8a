"""Calls of string.h, strings.h and ctype.h."""

from __future__ import annotations

from typing import List

from . import chance as made
from .area import ALL, Area, Build
from .chance import Chance, often

ROOM = 400
COPIES = """strcpy memcpy memmove strcat strncpy strncat stpcpy stpncpy mempcpy memccpy bcopy strxfrm swab""".split()
COMPARISONS = """strcmp strncmp memcmp strcoll strcasecmp strncasecmp bcmp strspn strcspn strpbrk strstr strcasestr""".split()
LOOKS = """strchr memset strlen strrchr strchrnul index rindex memchr memrchr rawmemchr strnlen bzero memmem""".split()
SPLITS, COPIED, CLASSES = ["strtok", "strtok_r", "strsep"], ["strdup", "strndup"], ["ctype", "ctype", "ffs", "ffsll"]
OF_SMALL = {"memcpy", "memmove", "memset", "memcmp", "strlen", "strcmp", "strncmp", "strcpy", "strchr"}
FUNCTIONS = COPIES + COMPARISONS + LOOKS + SPLITS + COPIED + CLASSES


class Texts:
    """The area of a call, as its program has it at first."""

    def __init__(self, chance: Chance) -> None:
        self.chance = chance
        count = chance.choice((8, 20, 60, 200, 300))
        kind = chance.randrange(3)
        letters = (b"ab", b"aAbB,; ", bytes(range(1, 256)))[kind]
        zeros = chance.choice((0, 3, 10, 30))
        self.content = bytes(0 if chance.randrange(100) < zeros else chance.choice(letters) for _ in range(count))
        if count >= 20 and often(chance, 0.5):
            # A part of it once more, which may differ at its end.
            at, to, size = chance.randrange(count // 2), chance.randrange(count // 2), chance.randint(1, count // 2)
            part = bytearray(self.content[at : at + size])
            if often(chance, 0.5):
                part[-1] ^= chance.choice((1, 32, 128))
            self.content = self.content[:to] + bytes(part) + self.content[to + size :]
        self.bytes = (self.content + b"z" * ROOM)[: ROOM - 1] + b"\0"

    def place(self, most: int = ROOM - 1) -> int:
        """A place, near the beginning more often."""
        return self.chance.randint(0, min(most, self.chance.choice((16, len(self.content), ROOM - 1))))

    def length(self, place: int) -> int:
        """How long the text is that begins there."""
        return self.bytes.index(0, place) - place

    def count(self, most: int) -> int:
        """A count."""
        return self.chance.randint(0, max(0, min(most, self.chance.choice((1, 4, 20, 70, ROOM)))))


def apart(texts: Texts, source: int, read: int, written: int) -> int:
    """A place to which so many bytes can be written without touching those that are read, or -1."""
    for _ in range(20):
        to = texts.place()
        if to + written <= ROOM and (to + written <= source or source + read <= to):
            return to
    return -1


def copy(texts: Texts, function: str) -> List[int]:
    """The operands of a function that copies."""
    source = texts.place()
    length = texts.length(source)
    if function in ("memmove", "bcopy"):
        to = texts.place()
        return [to, source, texts.count(ROOM - max(to, source))]
    if function in ("memcpy", "mempcpy", "memccpy", "swab"):
        count = texts.count(ROOM - source)
        to = apart(texts, source, count, count)
        count -= count % 2 if function == "swab" else 0
        byte = [texts.chance.choice((0, 97, texts.bytes[source], 353, -1))] if function == "memccpy" else []
        return [to, source, *byte, count]
    if function in ("strcpy", "stpcpy"):
        return [apart(texts, source, length + 1, length + 1), source]
    if function in ("strncpy", "stpncpy", "strxfrm"):
        count = texts.count(ROOM)
        return [apart(texts, source, length + 1, count), source, count]
    return joined(texts, function, source, length)


def joined(texts: Texts, function: str, source: int, length: int) -> List[int]:
    """The operands of a function that puts a text behind another one."""
    count = texts.count(ROOM) if function == "strncat" else length
    for _ in range(20):
        to = texts.place()
        end = to + texts.length(to) + min(length, count) + 1
        if end <= ROOM and (end <= source or source + length + 1 <= to):
            return [to, source, *([count] if function == "strncat" else [])]
    return [-1]


def compared(texts: Texts, function: str) -> List[int]:
    """The operands of a function that looks at two texts."""
    left, right = texts.place(), texts.place()
    if function in ("strspn", "strcspn", "strpbrk", "strstr", "strcasestr") and often(texts.chance, 0.7):
        # A short one: what ends at a zero byte.
        end = texts.bytes.index(0, right)
        right = max(right, end - texts.chance.randint(0, 5))
    if function in ("memcmp", "bcmp"):
        return [left, right, texts.count(ROOM - max(left, right))]
    return [left, right, *([texts.count(ROOM)] if function in ("strncmp", "strncasecmp") else [])]


def looked(texts: Texts, function: str) -> List[int]:
    """The operands of a function that looks for a byte, or fills."""
    place = texts.place()
    byte = texts.chance.choice((0, 97, 65, texts.chance.randint(0, 255), texts.bytes[texts.place()], -1, 353))
    if function == "rawmemchr":
        return [place, texts.bytes[texts.chance.randint(place, ROOM - 1)]]
    if function in ("memset", "bzero", "memchr", "memrchr", "strnlen"):
        return [place, byte, texts.count(ROOM - place)]
    if function == "memmem":
        other = texts.place()
        return [place, byte, texts.count(ROOM - place), other, texts.count(min(ROOM - other, 6))]
    return [place, byte]


def operands(texts: Texts, function: str) -> List[int]:
    """The operands of any function."""
    chance = texts.chance
    if function in COPIES:
        return copy(texts, function)
    if function in COMPARISONS:
        return compared(texts, function)
    if function in LOOKS:
        return looked(texts, function)
    if function in SPLITS:
        return split(texts)
    if function in COPIED:
        return [texts.place(), *([texts.count(ROOM)] if function == "strndup" else [])]
    if function == "ctype":
        return [chance.randint(-1, 255)]
    return [made.whole(chance, 31), *([chance.randint(0, 32)] if function == "ffsll" else [])]


def split(texts: Texts) -> List[int]:
    """A text, and the short one whose bytes part it."""
    end = texts.bytes.index(0, texts.place())
    return [texts.place(), max(0, end - texts.chance.randint(0, 4))]


def call(chance: Chance, build: Build) -> str:
    """A call."""
    while True:
        function = chance.choice(FUNCTIONS)
        texts = Texts(chance)
        found = operands(texts, function)
        if found[0] < 0 and function not in CLASSES or (build == Build.SMALL and function not in OF_SMALL):
            continue
        if function in SPLITS and texts.length(found[1]) > 4:
            continue
        return " ".join((function, made.text(texts.content), *map(str, found)))


AREA = Area("texts", "texts.c", call, ALL)
