"""Scripts of streams of C++ over texts."""

from __future__ import annotations

from typing import List

from . import chance as made
from .area import BOTH, Answer, Area, Build, Difference
from .chance import Chance, of_bits, often
from .numbers import real_text, whole_text
from .printing import is_rounded_up

FLAGS = ("hex", "oct", "dec", "fixed", "scientific", "defaultfloat", "hexfloat", "left", "right", "internal", "showpos", "noshowpos",
         "showbase", "noshowbase", "showpoint", "noshowpoint", "uppercase", "nouppercase", "boolalpha", "noboolalpha")  # fmt: skip
FLAGS_OF_INPUT = ("hex", "oct", "dec", "nobase", "skipws", "noskipws", "ws", "boolalpha", "noboolalpha")
OTHERS = ("put:65", "write:616263", "flag:endl", "flag:ends", "asks", "tellp", "setbase:16", "setbase:8", "setbase:0")
WHOLES = {"short": 16, "ushort": 16, "int": 32, "unsigned": 32, "long": 32, "ulong": 32, "llong": 64, "ullong": 64}
BYTES = ("char", "schar", "uchar")


def written(chance: Chance) -> str:
    """A value that is written."""
    kind = chance.randrange(9)
    if kind <= 2:
        name = chance.choice(list(WHOLES))
        return f"out:{name}:{made.whole(chance, WHOLES[name])}"
    if kind <= 5:
        value = made.double(chance)
        if often(chance, 0.7):
            return f"out:double:{made.real(value)}"
        return f"out:float:{made.real(value if abs(value) < 1e38 else 1.5)}"
    if kind == 6:
        return f"out:{chance.choice(BYTES)}:{chance.randint(1, 255)}"
    if kind == 7:
        return f"out:{chance.choice(('bool', 'bool', 'place'))}:{chance.randint(0, 1) or chance.randint(1, 9999)}"
    return f"out:{chance.choice(('text', 'string'))}:{made.word(chance).hex()}"


def script_of_output(chance: Chance) -> List[str]:
    """Steps that write."""
    steps = []
    for _ in range(chance.randint(1, 8)):
        for _ in range(chance.choice((0, 0, 1, 2))):
            steps.append(f"flag:{chance.choice(FLAGS)}")
        if often(chance, 0.4):
            steps.append(f"width:{chance.randint(0, 20)}")
        if often(chance, 0.3):
            steps.append(f"precision:{chance.choice((0, 1, 2, 3, 10, 17, 20, 30, -1))}")
        if often(chance, 0.1):
            steps.append(f"fill:{chance.choice((42, 48, 32, 200))}")
        steps.append(written(chance) if often(chance, 0.9) else chance.choice(OTHERS))
    return steps


def given(chance: Chance) -> str:
    """What can be read as something."""
    kind = chance.randrange(8)
    if kind <= 2:
        return whole_text(chance, chance.choice((10, 10, 0, 16, 8)), chance.choice((16, 32, 64)))
    if kind <= 4:
        return real_text(chance)
    if kind == 5:
        return chance.choice(("true", "false", "0", "1", "2", "tru", "falsey", "-1", "01"))
    return made.word(chance, 8).decode("latin-1").replace("\0", "")


def reading(chance: Chance) -> str:
    """A step that reads."""
    kind = chance.randrange(12)
    if kind <= 5:
        return f"in:{chance.choice((*WHOLES, 'double', 'double', 'float', 'bool', 'string', 'text', *BYTES))}"
    end = chance.choice((10, 10, 44, 32, 97))
    if kind == 6:
        return chance.choice(("get", "getc", "peek"))
    if kind == 7:
        return f"{chance.choice(('gets', 'getline'))}:{chance.choice((1, 2, 5, 100, 100))}:{end}"
    if kind == 8:
        return f"getstring:{end}"
    if kind == 9:
        return f"ignore:{chance.choice((1, 2, 5, 100))}:{chance.choice((-1, end))}"
    if kind == 10:
        return f"read:{chance.choice((0, 1, 3, 10, 150))}"
    return chance.choice(("unget", "putback:97", "putback:32"))


def script_of_input(chance: Chance) -> List[str]:
    """Steps that read."""
    parts = [given(chance) + chance.choice((" ", " ", "\n", ",", "", "\t ")) for _ in range(chance.randint(0, 5))]
    steps = [f"str:{''.join(parts).encode('latin-1').hex()}"]
    for _ in range(chance.randint(1, 8)):
        kind = chance.randrange(12)
        if kind <= 7:
            steps.append(reading(chance))
        elif kind == 8:
            steps.append(f"flag:{chance.choice(FLAGS_OF_INPUT)}")
        elif kind == 9:
            steps.append("clear")
        elif kind == 10:
            steps.append(chance.choice(("tellg", "asks", f"width:{chance.randint(0, 5)}")))
        else:
            steps.append(f"seekg:{chance.randint(-3, 12)}:{chance.randrange(3)}")
    return steps


def script_of_both(chance: Chance) -> List[str]:
    """Steps that write and read one text."""
    steps = [f"str:{made.word(chance).hex()}"] if often(chance, 0.5) else []
    for _ in range(chance.randint(2, 10)):
        kind = chance.randrange(8)
        if kind <= 2:
            steps.append(written(chance))
        elif kind <= 4:
            steps.append(reading(chance))
        elif kind == 5:
            steps.append(chance.choice(("clear", "tellg", "tellp", "out:char:32", "flag:endl")))
        else:
            steps.append(f"{chance.choice(('seekg', 'seekp'))}:{chance.randint(-3, 12)}:{chance.randrange(3)}")
    return steps


def call(chance: Chance, _: Build) -> str:
    """A script."""
    make = chance.choice((script_of_output, script_of_output, script_of_input, script_of_input, script_of_both))
    return " ".join(make(chance))


def is_carried(answer: Answer) -> bool:
    """Zeros that glibc leaves out with showpoint of a number that is rounded up to a power of ten."""
    steps = [it.split(":") for it in answer.call]
    numbers = [of_bits(int(it[2], 16)) for it in steps if it[:2] in (["out", "double"], ["out", "float"])]
    return "flag:showpoint" in answer.call and any(is_rounded_up(it) for it in numbers)


DIFFERENCES = (Difference("C11 7.21.6.1p6: as of printing, of %#g", is_carried),)

AREA = Area("streams", "streams.cpp", call, BOTH, DIFFERENCES, options=("-O0",), is_script=True, at_once=10000, steps=5)
