"""Scripts of standard input, for programs that read it once and for programs that seek in it."""

from __future__ import annotations

from typing import List

from .area import BOTH, Answer, Area, Build, Difference
from .chance import Chance
from .scanning import UNFINISHED

STEPS = 120


def content(number: int) -> bytes:
    """What is read, of all bytes, which follow from the number of a script."""
    chance = Chance(number)
    parts: List[bytes] = []
    for _ in range(chance.choice((0, 3, 30, 200))):
        kind = chance.randrange(6)
        if kind == 0:
            parts.append(bytes(chance.randrange(256) for _ in range(chance.randint(0, 30))))
        elif kind <= 2:
            parts.append(b"%d " % chance.randint(-99999, 9999999))
        elif kind == 3:
            parts.append(b"%.3f\n" % chance.uniform(-100, 100))
        else:
            parts.append(bytes(chance.choice(b"abcxyz 019\n\t-+.") for _ in range(chance.choice((1, 5, 40, 1200)))))
    return b"".join(parts)


def step(chance: Chance, seeks: bool) -> str:
    """A step."""
    kind = chance.randrange(14 if seeks else 11)
    if kind <= 1:
        return chance.choice("gc")
    if kind <= 3:
        return f"l{chance.choice((1, 2, 10, 200))}"
    if kind <= 5:
        size = chance.choice((1, 1, 3, 7))
        return f"r{size}:{chance.choice((0, 1, 5, 100, 300))}"
    if kind == 6:
        # One byte is what C promises, so that something is read behind it.
        return f"u{chance.choice((65, 10, 255, 0, 48))} {chance.choice('gc')}"
    if kind == 7:
        return "L"
    if kind <= 9:
        return f"s{chance.randrange(7)}"
    if kind == 10:
        return "e"
    if kind == 11:
        return "t"
    if kind == 12:
        return f"k{chance.randint(0, 300)}:0"
    return chance.choice(("w", f"k{chance.randint(-20, 20)}:1", f"k-{chance.randint(0, 50)}:2"))


def script(chance: Chance, seeks: bool) -> str:
    """A script, with the number of what it reads behind it."""
    return " ".join([*(step(chance, seeks) for _ in range(STEPS)), f"z{chance.getrandbits(30)}"])


def call(chance: Chance, _: Build) -> str:
    """A script that reads from the beginning to the end."""
    return script(chance, False)


def call_with_seeks(chance: Chance, _: Build) -> str:
    """A script that goes back too."""
    return script(chance, True)


def spelled(line: str) -> bytes:
    """The script, and behind it what it reads."""
    numbers = [int(it[1:]) for it in line.split(" ") if it.startswith("z")]
    return line.encode() + b"\n" + (content(numbers[0]) if numbers else b"")


def is_unfinished(answer: Answer) -> bool:
    """What glibc's scanf takes for a number with a point, and C for the beginning of one."""
    numbers = [int(it[1:]) for it in answer.call if it.startswith("z")]
    return "s5" in answer.call and bool(UNFINISHED.search(b"".join(map(content, numbers))))


DIFFERENCES = (Difference("C11 7.21.6.2p9 and p10: as of scanning", is_unfinished),)

INPUT = Area("input", "input.c", call, BOTH, DIFFERENCES, spelled, is_script=True, at_once=1, steps=STEPS)
SEEKS = Area(
    "seeks", "input.c", call_with_seeks, BOTH, DIFFERENCES, spelled, is_script=True, options=("-O1", "-DSEEKS"), at_once=1, steps=STEPS
)
