"""Calls of getopt and getopt_long."""

from __future__ import annotations

from typing import List

from . import chance as made
from .area import BOTH, Area, Build
from .chance import Chance, often

NAMES = ("all", "alpha", "beta", "be", "gamma", "file", "files", "x", "verbose")


def letters_of(chance: Chance) -> str:
    """The letters, with a point for each argument."""
    found = chance.choice(("", "", "+", "-", ":", "+:", "-:"))
    for letter in chance.sample("abcdfx", chance.randint(0, 5)):
        found += letter + chance.choice(("", "", ":", "::"))
    return found


def command_line(chance: Chance, names: List[str]) -> List[str]:
    """The words of a command line."""
    words = []
    for _ in range(chance.randint(0, 8)):
        kind = chance.randrange(10)
        if kind <= 3:
            words.append("-" + "".join(chance.choice("abcdfxz") for _ in range(chance.randint(1, 4))))
        elif kind <= 6 and names:
            name = chance.choice(names)
            name = name[: chance.randint(1, len(name))] if often(chance, 0.4) else name
            words.append("--" + name + chance.choice(("", "", "=", "=value", "=-a")))
        elif kind == 7:
            words.append(chance.choice(("-", "--", "", "--unknown", "--unknown=1", "-:", "-?", "-a=1")))
        else:
            words.append(chance.choice(("word", "another", "1", "x")))
    return words


def call(chance: Chance, _: Build) -> str:
    """A call."""
    function = chance.choice(("getopt", "getopt_long", "getopt_long"))
    names = chance.sample(NAMES, chance.randint(0, 5)) if function == "getopt_long" else []
    longs = []
    for it in names:
        longs.append(f"{made.text(it.encode())} {chance.randrange(3)} {int(often(chance, 0.3))} {chance.choice((97, 98, 1, 300, 0))}")
    words = [made.text(it.encode()) for it in command_line(chance, names)]
    return " ".join((function, made.text(letters_of(chance).encode()), str(len(names)), *longs, *words))


AREA = Area("options", "options.c", call, BOTH)
