"""Calls of printf and similar functions."""

from __future__ import annotations

import re
from typing import List, Tuple

from . import chance as made
from .area import ALL, Answer, Area, Build, Difference
from .chance import Chance, of_bits, often

WHOLE_SIZES = ("hh", "h", "", "", "", "l", "ll", "j", "z", "t")
# What a type of the call is for each length: with a sign and without one.
WHOLE_TYPES = {"hh": "ii", "h": "ii", "": "ii", "l": "lu", "ll": "qq", "j": "qq", "z": "lu", "t": "lu"}


def conversion(chance: Chance, build: Build) -> Tuple[str, str]:
    """The length and the letter of a conversion."""
    kinds = ["whole"] * 4 + ["text", "text", "byte"] + (["real"] * 5 + ["count"] if build != Build.SMALL else [])
    kind = chance.choice(kinds)
    if kind == "whole":
        letter = chance.choice("ddiuxXo")
        size = chance.choice(WHOLE_SIZES)
        return ("", "p") if often(chance, 0.05) else (size, letter)
    if kind == "real":
        # Not %La: C11 7.21.6.1p8 leaves the first figure open, and a long double of the host has other bits than one of the node.
        letter = chance.choice("fFeEgGgaA")
        return chance.choice(("", "", "", "l", "l" if letter in "aA" else "L")), letter
    if kind == "count":
        return chance.choice(("hh", "h", "", "l", "ll", "j")), "n"
    wide = "l" if build != Build.SMALL and often(chance, 0.15) else ""
    return wide, "s" if kind == "text" else "c"


def flags(chance: Chance, letter: str) -> str:
    """Flags that C defines for a conversion."""
    possible = {"d": "-+ 0", "i": "-+ 0", "u": "-0", "x": "-#0", "X": "-#0", "o": "-#0", "s": "-", "c": "-", "p": "-"}.get(letter, "-+ #0")
    return "".join(made.some(chance, possible, 3)) if letter != "n" else ""


def number(chance: Chance, letter: str) -> int:
    """A width or a precision."""
    most = 40 if letter in "aAeEgGfF" and often(chance, 0.9) else 25
    if often(chance, 0.01):
        most = 3000
    return chance.randint(0, most)


def value(chance: Chance, size: str, letter: str) -> str:
    """An argument of a conversion."""
    if letter in "di":
        bits = 64 if size in ("ll", "j") else 32
        return f"{WHOLE_TYPES[size][0]} {made.whole(chance, bits)}"
    if letter in "uxXo":
        bits = 64 if size in ("ll", "j") else 32
        return f"{WHOLE_TYPES[size][1]} {made.whole(chance, bits)}"
    if letter == "c":
        return f"i {chance.randint(0, 160)}" if size else f"i {made.whole(chance, chance.choice((7, 8, 32)))}"
    if letter == "s":
        if not size:
            return f"s {made.text(made.word(chance, 300 if often(chance, 0.02) else 12))}"
        codes = [chance.randint(1, 127 if often(chance, 0.97) else 300) for _ in range(chance.randint(0, 8))]
        return " ".join(map(str, ("w", len(codes), *codes)))
    if letter == "p":
        return f"p {chance.randint(1, 2**31)}"
    if letter == "n":
        return "n"
    return f"{'R' if size == 'L' else 'r'} {made.real(made.double(chance))}"


def piece(chance: Chance, build: Build) -> Tuple[str, List[str], str]:
    """A conversion as it stands in a format, the arguments of its stars, and its own."""
    size, letter = conversion(chance, build)
    written, stars = "%" + flags(chance, letter), []
    if letter == "n":
        return f"%{size}n", [], "n"
    if often(chance, 0.5):
        width = number(chance, letter)
        if often(chance, 0.2):
            written += "*"
            stars.append(f"i {width if often(chance, 0.6) else -width}")
        else:
            written += str(width or "")
    if letter not in "cp" and often(chance, 0.5):
        precision = number(chance, letter)
        if often(chance, 0.2):
            written += ".*"
            stars.append(f"i {precision if often(chance, 0.7) else -precision - 1}")
        else:
            written += "." + (str(precision) if often(chance, 0.9) else "")
    return written + size + letter, stars, value(chance, size, letter)


def plain(chance: Chance) -> bytes:
    """What stands between conversions."""
    return made.word(chance, 6).replace(b"%", b"%%") if often(chance, 0.5) else b""


def call(chance: Chance, build: Build) -> str:
    """A call: of one conversion with its arguments as such, or of several by a list."""
    size = chance.choice((0, 0, 1, 2, chance.randint(0, 12), chance.randint(0, 60), 60000))
    if often(chance, 0.6):
        function = chance.choice("nno" if build == Build.SMALL else "nnnsfo")
        written, stars, last = piece(chance, build)
        form, arguments, count = plain(chance) + written.encode() + plain(chance), [*stars, last], len(stars)
    else:
        function = chance.choice("NNO" if build == Build.SMALL else "NNSFO")
        form, arguments, count = plain(chance), [], 0
        for _ in range(chance.randint(1, 4)):
            written, stars, last = piece(chance, build)
            form += written.encode() + plain(chance)
            arguments += [*stars, last]
    if function in "oO":
        form = form.replace(b"\n", b"!")
        arguments = [shown(it) for it in arguments]
    return " ".join((function, str(size), made.text(form), str(count), *arguments))


def shown(argument: str) -> str:
    """An argument without the end of a line, for what is printed among the lines."""
    kind, _, rest = argument.partition(" ")
    if kind == "s":
        return f"s {made.text(bytes.fromhex(rest[1:]).replace(bytes([10]), b'!'))}"
    if kind == "w":
        return f"w {rest}".replace(" 10", " 11")
    return "i 11" if kind == "i" and int(rest) & 255 == 10 else argument


def is_carried(answer: Answer) -> bool:
    """Zeros that glibc leaves out of a number by %#g that is rounded up to a power of ten."""
    if not re.search(rb"%[-+ 0#]*#[-+ 0#]*[0-9.*]*[lL]?[gG]", answer.text(2)):
        return False
    numbers = [float(of_bits(int(bits, 16))) for kind, bits in zip(answer.call, answer.call[1:]) if kind in ("r", "R")]
    return any(is_rounded_up(it) for it in numbers)


def is_rounded_up(number: float) -> bool:
    """Whether a number is rounded to a power of ten in some number of digits, and is none."""
    digits = f"{abs(number):.40e}".partition("e")[0].replace(".", "")
    return digits[:1] == "9" and digits.rstrip("0") != "9"


def is_converted(answer: Answer) -> bool:
    """A signaling NaN that becomes a long double."""
    wide = [int(bits, 16) for kind, bits in zip(answer.call, answer.call[1:]) if kind == "R"]
    return any(bits >> 52 & 0x7FF == 0x7FF and 0 < bits & (1 << 52) - 1 < 1 << 51 for bits in wide)


DIFFERENCES = (
    Difference("C11 7.21.6.1p6: # keeps zeros at the end; glibc drops them of a %#g rounded up to a power of ten", is_carried),
    Difference("IEEE 754 (6.3): the sign of a NaN is open where a format is converted to another", is_converted),
)

AREA = Area("printing", "printing.c", call, ALL, DIFFERENCES)
