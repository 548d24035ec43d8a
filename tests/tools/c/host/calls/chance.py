"""Random values, some of them at edges, and their spelling in a call."""

from __future__ import annotations

import random
import struct
from fractions import Fraction
from typing import List, Sequence, TypeVar

Chance = random.Random
Thing = TypeVar("Thing")

LETTERS = b"abcdefghijklmnopqrstuvwxyz"
BLANKS = b" \t\n\v\f\r"


SPECIAL = (0.0, -0.0, 1.0, -1.0, float("inf"), float("-inf"), float("nan"), 5e-324, 1.7976931348623157e308, 2.2250738585072014e-308)


def text(content: bytes) -> str:
    """A text as a word of a call."""
    return "." + content.hex()


def real(value: float) -> str:
    """A double as a word of a call."""
    return struct.pack(">d", value).hex()


def of_bits(bits: int) -> float:
    """The double of these bits."""
    return float(struct.unpack(">d", struct.pack(">Q", bits))[0])


def signed(number: int, bits: int) -> int:
    """The number that so many low bits of a number have as one with a sign."""
    number &= (1 << bits) - 1
    return number - (1 << bits) if number >> (bits - 1) else number


def often(chance: Chance, likely: float) -> bool:
    """Whether something is so, with this likelihood."""
    return chance.random() < likely


def some(chance: Chance, things: Sequence[Thing], most: int) -> List[Thing]:
    """None or some of the things, one perhaps more than once."""
    return [chance.choice(things) for _ in range(chance.randint(0, most))]


def whole(chance: Chance, bits: int = 32) -> int:
    """A whole number with a sign: small, at the edge of a type, or any."""
    kind = chance.random()
    if kind < 0.3:
        number = chance.randint(-20, 20)
    elif kind < 0.6:
        number = chance.choice((-1, 1)) * (1 << chance.randint(0, bits)) + chance.randint(-2, 2)
    elif kind < 0.7:
        number = chance.choice((-1, 1)) * (10 ** chance.randint(0, 19)) + chance.randint(-1, 1)
    else:
        number = chance.getrandbits(chance.randint(1, bits))
    return signed(number, bits)


def double(chance: Chance) -> float:
    """A double: what people write, halves of a last digit, few bits, all bits, the least and the greatest, and what is no number."""
    kind = chance.randrange(12)
    if kind == 0:
        return chance.choice(SPECIAL)
    if kind == 1:
        return chance.randint(-1000, 1000) / chance.choice((1, 2, 4, 8, 10, 100, 1000))
    if kind == 2:
        return float(2 * chance.randint(0, int(10 ** chance.randint(1, 6))) + 1) / float(1 << chance.randint(0, 30))
    if kind == 3:
        return float(f"{chance.choice(('', '-'))}1e{chance.randint(-30, 30)}")
    if kind == 4:
        return float(f"{chance.choice(('', '-'))}{'9' * chance.randint(1, 17)}e{chance.randint(-25, 20)}")
    if kind == 5:
        return chance.uniform(-1000, 1000)
    if kind == 6:
        return of_bits(chance.getrandbits(52) & ~((1 << chance.randint(0, 51)) - 1))
    if kind == 7:
        return of_bits((chance.getrandbits(12) << 52) | (((1 << 52) - 1) ^ chance.getrandbits(chance.randint(1, 52))))
    if kind == 8:
        return of_bits((chance.getrandbits(12) << 52) | chance.getrandbits(chance.randint(1, 8)))
    if kind == 9:
        return float(struct.unpack("<f", struct.pack("<I", chance.getrandbits(31) % 0x7F800000))[0]) * chance.choice((-1.0, 1.0))
    if kind == 10:
        return of_bits((chance.randint(1023 - 70, 1023 + 70) << 52) | chance.getrandbits(52))
    return of_bits(chance.getrandbits(64))


def word(chance: Chance, most: int = 12) -> bytes:
    """Letters, figures, and now and then any byte but zero."""
    count = chance.randint(0, most)
    if often(chance, 0.7):
        return bytes(chance.choice(b"abcdefgABCXYZ0123456789 .,-_") for _ in range(count))
    return bytes(chance.randint(1, 255) for _ in range(count))


def halfway(chance: Chance) -> str:
    """The digits of a number that lies right between two doubles, or a trifle beside it."""
    reach = chance.choice((1, 10, 70, 70, 1020))
    bits = (chance.randint(1023 - reach, 1023 + reach) << 52) | chance.getrandbits(52)
    below, above = Fraction(of_bits(bits)), Fraction(of_bits(bits + 1))
    middle = (below + above) / 2
    places = max(middle.denominator.bit_length() - 1, 0)
    digits = str(middle.numerator * 5**places)
    if often(chance, 0.3):
        digits, places = digits + "0" * 3 + "1", places + 4
    elif often(chance, 0.3):
        digits = str(int(digits) - 1)
    return f"{digits}e-{places}"
