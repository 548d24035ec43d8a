"""The input of tests/tools/c/digits.c, and the output that it must print.

There are numbers of all sizes by formats of all kinds, and numbers that lie halfway between two, or a little beside that. Python prints and
reads numbers exactly.
"""

from __future__ import annotations

import random
import struct
from fractions import Fraction
from typing import List, Tuple

FORMATS = [
    "%.17g", "%.16f", "%.20f", "%e", "%f", "%g", "%.0f", "%.0e", "%.1f", "%.3e", "%.15g", "%#g", "%+.2f", "%012.4f", "%-14.3e", "%.40g",
    "%10.1e", "%.2g", "%#.0f", "% .5G", "%.10E", "%.60e", "%25.19g", "%.12f",
]  # fmt: skip
PRINTED, READ = 10_000, 600
KINDS = 8


def double_of(bits: int) -> float:
    """The double that has these bits."""
    return float(struct.unpack("<d", struct.pack("<Q", bits))[0])


def bits_of(number: float) -> int:
    """The bits of a double."""
    return int(struct.unpack("<Q", struct.pack("<d", number))[0])


def number(random_of: random.Random, kind: int) -> float:
    """A number of one of the kinds: any bits, whole numbers, decimals, halves, numbers near 1, and those that are smaller than all others."""
    bits = random_of.getrandbits(64)
    near = bits & 0x800FFFFFFFFFFFFF | random_of.randrange(963, 1083) << 52
    if kind == 0 and bits >> 52 & 0x7FF != 0x7FF:
        return double_of(bits)
    whole = random_of.randrange(-(10**6), 10**6)
    others = [double_of(near), float(bits >> random_of.randrange(64)), whole / 1000, whole / 8, whole + 0.5, whole / 1024]
    return others[kind - 1] if 0 < kind < len(others) + 1 else double_of(bits & 0x800FFFFFFFFFFFFF)


def halfway(random_of: random.Random) -> str:
    """The number in the middle between a double, or a float, and the next, with all of its digits, or one that is a little beside."""
    if random_of.random() < 0.5:
        first = abs(number(random_of, random_of.choice([0, 1, 7])))
        middle = (Fraction(first) + Fraction(double_of(bits_of(first) + 1))) / 2
    else:
        middle = Fraction((2 * random_of.getrandbits(23) + 2**24 + 1), 2 ** random_of.randrange(10, 100))
    places = max(middle.denominator.bit_length() - 1, 0)
    digits = str(middle.numerator * 10**places // middle.denominator).rjust(places + 1, "0")
    behind = random_of.choice(["", "0" * 20 + "1"])
    text = f"{digits[: len(digits) - places]}.{digits[len(digits) - places :]}{behind}"
    return text if random_of.random() < 0.7 else decremented(text)


def decremented(text: str) -> str:
    """A number that is a little smaller, by one in a place behind the last."""
    whole, _, behind = text.partition(".")
    digits = str(int(whole + behind) * 10**20 - 1).rjust(len(behind) + 21, "0")
    return f"{digits[: len(digits) - len(behind) - 20]}.{digits[len(digits) - len(behind) - 20 :]}"


def float_bits(text: str) -> int:
    """The bits of the float that is nearest to a decimal number."""
    exact, wide = Fraction(text), float(text)
    if wide >= 2.0**128:
        return 0x7F800000
    try:
        about = int(struct.unpack("<I", struct.pack("<f", wide))[0])
    except OverflowError:
        about = 0x7F7FFFFF
    near = [it for it in (about - 1, about, about + 1) if 0 <= it < 0x7F800000]
    limit = Fraction(2) ** 128 - Fraction(2) ** 103
    if exact >= limit:
        return 0x7F800000
    return min(near, key=lambda it: (abs(Fraction(struct.unpack("<f", struct.pack("<I", it))[0]) - exact), it & 1))


def questions() -> Tuple[str, List[str]]:
    """The input, and the lines that come of it."""
    random_of = random.Random(1998)
    given, wanted = [str(PRINTED)], []
    for i in range(PRINTED):
        value, form = number(random_of, i % KINDS), random_of.choice(FORMATS)
        text = form % value
        given.append(f"{form}|{bits_of(value):x}")
        wanted.append(f"{text}|{bits_of(float(text)):x}")
    for _ in range(READ):
        text = halfway(random_of)
        given.append(text)
        wanted.append(f"{bits_of(float(text)):x} {bits_of(float(text)):x} {float_bits(text):x}")
    return "\n".join(given) + "\n", wanted
