"""Texts for the assembler: random tokens, meaningful lines, and statements as a listing spells them."""

from __future__ import annotations

import random
from typing import Callable, List

from fuzz import instructions

NAMES = ["zero", "ra", "sp", "gp", "tp", "fp", "t0", "t6", "s0", "s11", "a0", "a7", "x0", "x1", "x31", "x32", "a8", "s12"]
NUMBERS = ["0", "1", "-1", "2047", "2048", "-2048", "-2049", "31", "32", "0xFFFFF", "0x100000", "4294967295", "4294967296", "-2147483648",
           "-2147483649", "0x7fffffff", "0xFFFFFFFF", "255", "256", "-128", "-129", "65535", "65536", "-32768", "-32769", "12", "13",
           "16777216", "16777217", "007", "0x", "12ab", "0xg", "1" * 40, "4094", "4096", "-4096", "1048574", "1048576", "3", "-3"]
DIRECTIVES = [".word", ".half", ".byte", ".ascii", ".space", ".align", ".entry"]
SHORT = ["nop", "mv", "li", "la", "j", "jr", "ret", "call", "beqz", "bnez"]
LABELS = ["loop", "l1", ".L1", "_x", "a0", "far", "there", "nowhere"]
SIGNS = [",", ":", "(", ")", "+", "-", ",", " ", "\t", "#", '"', "\\", ";", "\r", "\0", "\x7f", "\xff", "%hi", "@", "'"]
STRINGS = ['"a"', '""', '"\\n\\t\\0\\\\\\""', '"# no comment"', '"\\x"', '"open', '"tab\there"', '"\x7f"', '"~ !"']
MNEMONICS = (instructions.REGISTERS + instructions.IMMEDIATES + instructions.SHIFTS + instructions.LOADS + instructions.STORES
             + instructions.BRANCHES + ["jal", "jalr", "lui", "auipc"] + instructions.PLAIN + SHORT + DIRECTIVES)


def token(chance: random.Random) -> str:
    """Any token, or what is none."""
    kinds = [MNEMONICS, NAMES, NUMBERS, LABELS, SIGNS, STRINGS, ["\n"], [":", ",", "(", ")"]]
    return chance.choice(chance.choice(kinds))


def target(chance: random.Random) -> str:
    """A target of a jump, or a place in data."""
    name = chance.choice(LABELS[:7])
    return chance.choice([name, name, name, f"{name}+{chance.choice(['4', '0x4', '2'])}", f"{name} - 4", chance.choice(NUMBERS)])


def data(chance: random.Random) -> str:
    """A directive with operands of its kind."""
    name = chance.choice(DIRECTIVES)
    if name == ".ascii":
        return f"{name} {chance.choice(STRINGS[:4])}"
    if name == ".entry":
        return f"{name} {target(chance)}"
    if name == ".space":
        return f"{name} {chance.choice(['0', '1', '3', '16', '100', '4088'])}"
    if name == ".align":
        return f"{name} {chance.randrange(5)}"
    most = {".byte": 255, ".half": 65_535, ".word": (1 << 32) - 1}[name]
    return f"{name} " + ", ".join(str(instructions.number(chance, -(most + 1) // 2, most)) for _ in range(chance.randint(1, 4)))


def short(chance: random.Random) -> str:
    """A short form with operands of its kind."""
    name = chance.choice(SHORT)
    register = chance.choice(NAMES[:13])
    if name in ("nop", "ret"):
        return name
    if name == "li":
        return f"li {register}, {instructions.number(chance, -(1 << 31), (1 << 32) - 1)}"
    last = register if name == "jr" else target(chance)
    if name == "mv":
        return f"mv {register}, {chance.choice(NAMES[:13])}"
    return f"{name} {last}" if name in ("j", "call", "jr") else f"{name} {register}, {last}"


def line(chance: random.Random, rate: int) -> str:
    """A line that means something, but for some of a hundred."""
    if chance.randrange(100) < rate:
        return " ".join(token(chance) for _ in range(chance.randint(1, 6)))
    ways: List[Callable[[], str]] = [
        lambda: instructions.statement(chance, 0).split(" 0x")[0], lambda: data(chance), lambda: short(chance),
    ]
    made = chance.choice(ways)()
    if made.split(" ")[0] in instructions.BRANCHES + ["jal"]:
        made = f"{made.rsplit(',', 1)[0]},{target(chance)}"
    if made.split(" ")[0] in ("lui", "auipc"):
        made = f"{made.rstrip(',').split(',')[0]},0x{instructions.number(chance, 0, 0xFFFFF):X}"
    return chance.choice(["", "", "  ", "\t"]) + made + chance.choice(["", "", " # why", "\r", " "])


def text_of_lines(chance: random.Random) -> bytes:
    """A text of lines, most of which mean something; its labels stand once, save where they stand twice."""
    rate = chance.choice([0, 0, 0, 2, 30])
    lines = [line(chance, rate) for _ in range(chance.randint(0, 40))]
    for name in LABELS[:7] + ([chance.choice(LABELS)] if chance.randrange(8) == 0 else []):
        lines.insert(chance.randint(0, len(lines)), f"{name}:" + chance.choice(["", " nop", " # here"]))
    return "\n".join(lines).encode("latin-1") + chance.choice([b"", b"\n"])


def text_of_tokens(chance: random.Random) -> bytes:
    """A text of any tokens, and of some bytes of any kind."""
    made = chance.choice(["", " "]).join(token(chance) for _ in range(chance.randint(0, 80))).encode("latin-1")
    if chance.randrange(4) == 0:
        made += bytes(chance.randrange(256) for _ in range(chance.randrange(40)))
    return made


def text_of_listing(chance: random.Random) -> bytes:
    """A text of statements as a listing spells them."""
    count = chance.randint(1, 40)
    return "".join(instructions.statement(chance, 4 * at) + "\n" for at in range(count)).encode()
