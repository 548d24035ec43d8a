"""Scripts of files and their streams."""

from __future__ import annotations

import re
from typing import Dict, List, Sequence

from . import chance as made
from .area import BOTH, Area, Build
from .chance import Chance, often

MODES = ("r", "r", "w", "w", "a", "r+", "r+", "w+", "w+", "a+", "rb", "wb", "ab", "r+b", "rb+", "w+b", "wb+", "a+b", "wx", "w+x", "wbx")
# Numbers of names from here on are those of files that bsprun gives.
FIRST_GIVEN = 4
SIZES = (0, 1, 2, 3, 10, 100, 255, 256, 257, 511, 512, 513, 600, 1000, 1023, 1024, 1025, 1500, 2048, 2600)


class Script:
    """A script as it is made: which name each stream has open, since what two streams see of one file is told nowhere."""

    def __init__(self, chance: Chance) -> None:
        self.chance = chance
        self.steps: List[str] = []
        self.opened: Dict[int, int] = {}
        self.given = chance.randint(FIRST_GIVEN, 2**31)

    def add(self, *words: object) -> None:
        """A step."""
        self.steps.append(":".join(map(str, words)))

    def size(self) -> int:
        """How many bytes something has."""
        return self.chance.choice(SIZES) if often(self.chance, 0.6) else self.chance.randint(0, 40)

    def free_name(self, stream: int) -> int:
        """A name that no other stream has open."""
        taken = {name for at, name in self.opened.items() if at != stream}
        return self.chance.choice([it for it in range(FIRST_GIVEN) if it not in taken] or [0])

    def has_given(self, stream: int) -> bool:
        """Whether the stream is to have the file that bsprun gives. Each script has its own, whose bytes follow from its number."""
        return often(self.chance, 0.25) and self.given not in [name for at, name in self.opened.items() if at != stream]

    def content(self, name: int) -> None:
        """A file with bytes in it."""
        self.add("fopen", 3, name, "w")
        self.add("fwrite", 3, 1, self.chance.randint(0, 99999), self.size())
        self.add("fclose", 3)

    def open(self, stream: int) -> None:
        """Opens a stream."""
        if often(self.chance, 0.06):
            self.opened.pop(stream, None)
            self.add("tmpfile", stream, 0, "w")
            return
        name = self.given if self.has_given(stream) else self.free_name(stream)
        self.opened[stream] = name
        way = "freopen" if often(self.chance, 0.15) else "fopen"
        self.add(way, stream, name, self.chance.choice(MODES))

    def write(self, stream: int) -> None:
        """Writes something."""
        kind = self.chance.randrange(6)
        if kind == 0:
            self.add(self.chance.choice(("fputc", "putw")), stream, self.chance.randint(-3, 300))
        elif kind == 1:
            self.add("fprintf", stream, made.whole(self.chance, 20))
        elif kind == 2:
            self.add("fputs", stream, self.chance.randint(0, 99999), self.size())
        else:
            self.add("fwrite", stream, self.chance.choice((1, 1, 2, 3, 7, 0)), self.chance.randint(0, 99999), self.size())

    def read(self, stream: int) -> None:
        """Reads something."""
        kind = self.chance.randrange(7)
        if kind <= 1:
            self.add(self.chance.choice(("fgetc", "getc")), stream)
        elif kind == 2:
            self.add("fgets", stream, self.chance.choice((1, 2, 3, 10, 100, 1000)))
        elif kind == 3:
            self.add(self.chance.choice(("getline", "fscanf")), stream)
        elif kind == 4:
            self.add("ungetc", stream, self.chance.choice((65, 97, 10, 0, 255, 300, -1)))
        else:
            size = self.chance.choice((1, 1, 2, 3, 7, 0))
            self.add("fread", stream, size, self.size() // max(1, size))

    def go(self, stream: int) -> None:
        """Goes elsewhere, or keeps where it is."""
        kind = self.chance.randrange(6)
        if kind <= 2:
            way = self.chance.randrange(3) if often(self.chance, 0.98) else 3
            offset = self.size() * (1 if way == 0 else self.chance.choice((-1, -1, 1)))
            self.add(self.chance.choice(("fseek", "fseek", "fseeko")), stream, -offset if often(self.chance, 0.05) else offset, way)
        elif kind == 3:
            self.add("rewind", stream)
        else:
            self.add(self.chance.choice(("fgetpos", "fsetpos")), stream)

    def ask(self, stream: int) -> None:
        """Asks for something, or sets it."""
        kind = self.chance.randrange(6)
        if kind <= 1:
            self.add(self.chance.choice(("ftell", "ftello")), stream)
        elif kind == 2:
            self.add("setvbuf", stream, self.chance.randrange(3), self.chance.choice((0, 0, 1, 2, 100, 512, 2000)))
        else:
            self.add(self.chance.choice(("feof", "ferror", "clearerr", "fileno", "fflush", "fflush")), stream)

    def change_names(self) -> None:
        """Takes a name away, or gives another one."""
        if often(self.chance, 0.5):
            self.add("remove", 0, self.free_name(-1), 0)
        else:
            self.add("rename", 0, self.free_name(-1), self.free_name(-1))


def call(chance: Chance, _build: Build) -> str:
    """A script."""
    script = Script(chance)
    for name in range(FIRST_GIVEN):
        if often(chance, 0.4):
            script.content(name)
    for _ in range(chance.choice((4, 8, 12, 20))):
        stream = chance.randrange(2) if often(chance, 0.8) else chance.randrange(4)
        kind = chance.randrange(20)
        if kind <= 3 or not script.opened:
            script.open(stream)
        elif kind <= 8:
            script.write(stream)
        elif kind <= 13:
            script.read(stream)
        elif kind <= 15:
            script.go(stream)
        elif kind <= 17:
            script.ask(stream)
        elif kind == 18:
            script.opened.pop(stream, None)
            script.add("fclose", stream)
        else:
            script.change_names()
    return " ".join(script.steps)


def content_of(number: int) -> bytes:
    """The bytes of a file that bsprun gives, by its number."""
    chance = Chance(number)
    size = chance.choice(SIZES) if often(chance, 0.7) else chance.randint(0, 3000)
    return bytes(chance.choice(b"abcdefghij klmno\n") if chance.randrange(20) else chance.randrange(256) for _ in range(size))


def given(calls: Sequence[str]) -> Dict[str, bytes]:
    """The files that scripts want to be given."""
    numbers = {int(it) for call in calls for it in re.findall(r"open:\d:(\d+)", call) if int(it) >= FIRST_GIVEN}
    return {f"g{it}": content_of(it) for it in numbers}


AREA = Area("files", "files.c", call, BOTH, given=given, is_script=True, at_once=1000, steps=10)
