"""g and l as exact numbers: whole ones, decimals and fractions, as 4, 3.875 or 31/8."""

from __future__ import annotations

import argparse
import re
from collections.abc import Callable
from fractions import Fraction
from typing import Union

from .limits import MOST_PRICE
from .refusals import Unfit

# A whole number stays one, so that what is made of it is spelled as the emulator spells it.
Exact = Union[int, Fraction]
MOST_LISTED = 10_000


def form(digits: int) -> re.Pattern[str]:
    """How numbers are spelled, with so many digits at most in each part: an exponent would make a number of any length of a few letters."""
    part = f"([0-9]{{1,{digits}}})"
    return re.compile(rf"{part}(?:\.{part}|/{part})?")


# A price, and a total, which is a sum of products of prices.
MOST_DIGITS = 20
PRICE, TOTAL, HEXADECIMAL = form(MOST_DIGITS), form(80), re.compile("0[xX][0-9a-fA-F]{1,16}")
# Decimals of a number that is shown, and not computed with.
ROUNDED = 2


def settled(value: Fraction) -> Exact:
    """The same number, as a whole one if it is one."""
    return value.numerator if value.denominator == 1 else value


def number(text: str, spelling: re.Pattern[str] = PRICE) -> Exact | None:
    """The number that a text spells; None if it spells none."""
    found = spelling.fullmatch(text)
    if found is None:
        return None
    whole, decimals, below = found.groups()
    if below is not None:
        return settled(Fraction(int(whole), int(below))) if int(below) else None
    return settled(Fraction(int(whole + (decimals or "")), 10 ** len(decimals or "")))


def spelled(value: Exact) -> str:
    """A number as tables have it: as a decimal where that ends, and as a fraction if it does not. Either is exact."""
    rest, twos, fives = Fraction(value).denominator, 0, 0
    while rest % 2 == 0:
        rest, twos = rest // 2, twos + 1
    while rest % 5 == 0:
        rest, fives = rest // 5, fives + 1
    digits = max(twos, fives)
    if rest > 1 or digits > MOST_DIGITS:
        return str(value)
    if digits == 0:
        return str(int(value))
    scaled = str(int(value * 10**digits)).rjust(digits + 1, "0")
    return f"{scaled[:-digits]}.{scaled[-digits:]}"


def grouped(value: Exact) -> str:
    """A number for people: with a comma at each thousand, and rounded to two decimals if it is not whole."""
    return f"{value:,}" if isinstance(value, int) else f"{float(value):,.{ROUNDED}f}"


def price(what: str) -> Callable[[str], Exact]:
    """A reader of a price of this name on a command line, which says what a price is where it refuses one."""

    def read(text: str) -> Exact:
        found = int(text, 16) if HEXADECIMAL.fullmatch(text) else number(text)
        if found is None or found > MOST_PRICE:
            raise argparse.ArgumentTypeError(f"{text!r}: {what} is a number from 0 to {MOST_PRICE}, as 4, 3.875 or 31/8")
        return found

    return read


G, L = price("the price of a byte"), price("the price of a superstep's end")


def listed(one: Callable[[str], Exact]) -> Callable[[str], list[Exact]]:
    """A reader of prices that are parted by commas; `1:8` is each whole number from 1 to 8."""

    def read(text: str) -> list[Exact]:
        found: list[Exact] = []
        for part in text.split(","):
            first, colon, last = part.partition(":")
            start, end = one(first), one(last or first)
            if colon and not (isinstance(start, int) and isinstance(end, int)):
                raise argparse.ArgumentTypeError(f"{part!r}: a range is one of whole numbers, as 1:8")
            if end - start >= MOST_LISTED:
                raise argparse.ArgumentTypeError(f"{part!r}: these are more than {MOST_LISTED} numbers")
            found += range(int(start), int(end) + 1) if colon else [start]
        return list(dict.fromkeys(found))

    return read


def of_table(text: object, spelling: re.Pattern[str] = PRICE) -> Exact:
    """A price, or with the form of a total that, of a table; another text is refused."""
    found = number(str(text), spelling)
    if found is None or (spelling is PRICE and found > MOST_PRICE):
        raise Unfit(f"{str(text)[:40]!r} is not a number such as 4, 3.875 or 31/8")
    return found
