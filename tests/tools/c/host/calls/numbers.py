"""Calls of functions that read numbers from texts, and of integer functions."""

from __future__ import annotations

import re

from . import chance as made
from .area import ALL, Answer, Area, Build, Difference
from .chance import Chance, often

# What is a number in words, or in part one with a point, and what is none.
WORDS = ("inf", "INF", "infinity", "InFiNiTy", "infin", "nan", "NAN", "nan()", "nan(12ab_)", "nan(", "nan(-)", "in", "na")
PARTS = ("1e", "1e+", "1e-", "1e+x", ".", ".e1", "e1", "0x", "0x.", "0x.p1", "0xp1", "0x1p", "0x1p+", "1.e1", ".5", "5.", "0e99999")
FIGURES = "0123456789abcdefghijklmnopqrstuvwxyz"


def in_base(number: int, base: int) -> str:
    """The digits of a number."""
    digits = ""
    while number or not digits:
        number, digit = divmod(number, base)
        digits = FIGURES[digit] + digits
    return digits


def behind(chance: Chance) -> str:
    """What stands behind a number."""
    return chance.choice(("", "", "", " ", "x", "z9", ".", "e", "8", "-", "\x80"))


def before(chance: Chance) -> str:
    """What stands in front of one."""
    return "".join(made.some(chance, " \t\n\v\f\r", 2)) + chance.choice(("", "", "", "-", "-", "+", "- ", "+-"))


def whole_text(chance: Chance, base: int, bits: int, most: int = 80) -> str:
    """The text of a whole number of so many bits at most, with its edges, or of none."""
    kind = chance.randrange(10)
    if kind == 0:
        number = (1 << chance.choice((31, 32, min(63, most - 1), min(64, most - 1)))) + chance.randint(-2, 2)
    elif kind == 1:
        number = chance.getrandbits(chance.randint(60, most))
    else:
        number = abs(made.whole(chance, bits))
    prefix = chance.choice(("0x", "0X", "0", "0b" if most > 62 else "0x")) if base in (0, 16) and often(chance, 0.5) else ""
    digits = in_base(number, base if 2 <= base <= 36 else 16 if prefix in ("0x", "0X") else 8 if prefix == "0" else 10)
    if often(chance, 0.3):
        digits = digits.upper()
    if often(chance, 0.1):
        digits = "0" * chance.randint(1, 30) + digits
    if often(chance, 0.08):
        digits = chance.choice(("", "x", "0x", "g", digits[:1] + " "))
    return before(chance) + prefix + digits + behind(chance)


def hexadecimal_text(chance: Chance) -> str:
    """A number with a point, in hexadecimal figures."""
    digits = "".join(chance.choice("0123456789abcdefABCDEF") for _ in range(chance.choice((1, 2, 6, 13, 14, 15, 20, 40))))
    if often(chance, 0.3):
        digits = digits.rstrip("0") + chance.choice(("8", "80000000", "80000001", "7fffffff"))
    point = chance.randint(0, len(digits))
    power = chance.choice((chance.randint(0, 1100), 0, 5))
    exponent = "" if often(chance, 0.3) else chance.choice("pP") + chance.choice(("", "-", "+")) + str(power)
    return chance.choice(("0x", "0X")) + digits[:point] + chance.choice((".", "", ".")) + digits[point:] + exponent


def real_text(chance: Chance) -> str:
    """The text of a number with a point: what people write, what is hard to round, and what is none."""
    kind = chance.randrange(12)
    if kind <= 2:
        digits = "".join(chance.choice("0123456789") for _ in range(chance.randint(1, 22)))
        point = chance.randint(0, len(digits))
        exponent = f"{chance.choice('eE')}{chance.randint(-330, 330)}" if often(chance, 0.5) else ""
        number = digits[:point] + chance.choice((".", "", ".")) + digits[point:] + exponent
    elif kind == 3:
        number = repr(abs(made.double(chance)))
    elif kind == 4:
        number = f"{abs(made.double(chance)):.{chance.randint(0, 25)}{chance.choice('eg')}}"
    elif kind <= 6:
        number = made.halfway(chance)
    elif kind <= 8:
        number = hexadecimal_text(chance)
    elif kind == 9:
        number = chance.choice(WORDS)
    elif kind == 10:
        number = chance.choice(PARTS)
    else:
        zeros, digits = "0" * chance.choice((0, 300, 400)), chance.choice(("", ".5", "1"))
        number = f"{chance.choice(('1', '0.0000', '9'))}{zeros}{digits}e{chance.randint(-99999, 99999)}"
    return before(chance) + number + behind(chance)


def call(chance: Chance, build: Build) -> str:
    """A call."""
    small = ["atoi", "abs", "labs"]
    simple = [*small, "atol", "atoll", "atof", "llabs", "imaxabs"]
    wholes = ["strtol", "strtoul", "strtoll", "strtoull", "strtoimax", "strtoumax"]
    reals = ["strtod", "strtof", "strtold"]
    divisions = ["div", "ldiv", "lldiv", "imaxdiv"]
    kind = chance.choice((small, small) if build == Build.SMALL else (simple, wholes, wholes, reals, reals, divisions))
    function = chance.choice(kind)
    if kind is wholes:
        base = chance.choice((0, 10, 16, 8, 2, 36, chance.randint(2, 36), chance.choice((1, 37, -1))))
        content = whole_text(chance, base, 32 if function in ("strtol", "strtoul") and often(chance, 0.7) else 64)
        return f"{function} {made.text(content.encode('latin-1'))} {base}"
    if kind is reals:
        return f"{function} {made.text(real_text(chance).encode('latin-1'))}"
    if kind is divisions:
        bits = 64 if function in ("lldiv", "imaxdiv") else 32
        left, right = made.whole(chance, bits), made.whole(chance, bits)
        return f"{function} {max(left, 1 - (1 << (bits - 1)))} {right or 1}"
    if function == "atof":
        return f"{function} {made.text(real_text(chance).encode('latin-1'))}"
    bits = 64 if function in ("atoll", "llabs", "imaxabs") else 32
    number = max(made.whole(chance, bits), 1 - (1 << (bits - 1)))
    if function.startswith("ato"):
        return f"{function} {made.text((before(chance) + str(abs(number)) + behind(chance)).encode('latin-1'))}"
    return f"{function} {number}"


def is_beyond_type(answer: Answer) -> bool:
    """A number that the type of atoi, atol or atoll cannot hold."""
    if answer.call[0] not in ("atoi", "atol", "atoll"):
        return False
    digits = re.match(rb"\s*[-+]?([0-9]+)", answer.text(1))
    return digits is not None and int(digits[1]) >= 1 << (63 if answer.call[0] == "atoll" else 31)


def has_no_base(answer: Answer) -> bool:
    """A base that there is not: host and node say so, and leave the end of the text at different places."""
    if not answer.call[0].startswith("strto") or len(answer.call) != 3:
        return False
    base = int(answer.call[2])
    return base != 0 and not 2 <= base <= 36 and answer.host[0] == answer.node[0] == "0" and answer.host[2] == answer.node[2] == "EINVAL"


def is_inexact_and_small(answer: Answer) -> bool:
    """A result below the least normal number, if one of both says ERANGE and the other does not."""
    if answer.call[0] not in ("strtod", "strtof", "strtold", "wcstod", "wcstof") or answer.host[:2] != answer.node[:2]:
        return False
    magnitude = int(answer.node[0], 16) & ~(1 << 63)
    return magnitude <= (897 << 52 if answer.call[0].endswith("f") else 1 << 52) and {answer.host[2], answer.node[2]} == {"none", "ERANGE"}


UNDERFLOW = Difference("C11 7.22.1.3p10: whether errno is set where a result underflows is of the implementation", is_inexact_and_small)
DIFFERENCES = (
    Difference("C11 7.22.1p1: what atoi, atol and atoll do with a number that their type cannot hold is undefined", is_beyond_type),
    Difference("C11 7.22.1.4p3 defines bases 0 and 2 to 36 alone: where the end of the text is told for another one is open", has_no_base),
    UNDERFLOW,
)

AREA = Area("numbers", "numbers.c", call, ALL, DIFFERENCES)
