"""Random lines for streams.cpp: texts and files that are read and written step by step, with manipulators, positions and states."""

from __future__ import annotations

import random
import struct
from typing import Callable, Dict, List

CHANGES = (
    "boolalpha noboolalpha showbase noshowbase showpoint noshowpoint showpos noshowpos skipws noskipws uppercase nouppercase unitbuf internal "
    "left right dec hex oct fixed scientific hexfloat defaultfloat setiosflags resetiosflags"
).split()
WORDS = [
    "0", "1", "-1", "+7", "12", "32767", "32768", "-32768", "-32769", "65535", "65536", "-65536", "2147483647", "2147483648", "-2147483648",
    "-2147483649", "4294967295", "4294967296", "-4294967295", "-4294967296", "9223372036854775807", "9223372036854775808",
    "-9223372036854775808", "18446744073709551615", "18446744073709551616", "-18446744073709551616", "99999999999999999999999", "0x", "0x1f",
    "-0x10", "0X7fffffff", "ff", "FFFFFFFF", "017", "08", "0777", "00", "1e5", "1e", "1e+", "1e400", "-1e400", "1e-400", "3.4e38", "3.5e38",
    "-1e39", "0x1.8p3", "inf", "nan", "-inf", "infinity", ".5", "5.", ".", "-", "+", "-.", "1.5.5", "1,000", "true", "false", "tru", "truex",
    "2", "t", "(1,2)", "(1.5)", "(1,", "1010", "10x", "0000000000", "abc", "x", "123456789012345678901234567890", "1.7976931348623157e308",
    "1.7976931348623159e308", "4.9e-324", "2.4e-324", "1e-50", "0.1", "123.456e-2", "1d", "0b1", "'", "%",
]  # fmt: skip
READERS = (
    ">>short >>ushort >>int >>unsigned >>llong >>ullong >>float >>double >>bool >>char >>uchar >>string >>complex >>bitset >>chars >>ws get getc "
    "peek unget ignoreall sync"
).split()
NUMBERS = [0.0, -0.0, 1.0, -1.0, 0.1, 100.0, 1e5, 1e6, 1e-5, 123456.789, 1e300, 5e-324, 2.5, 0.5, 1 / 3, float("inf"), float("-inf"), float("nan")]
EDGES = [0, 1, 2, 7, 8, 9, 10, 15, 16, 100, 255, 4095, 32767, 32768, 65535, 2**31 - 1, 2**31, 2**32 - 1, 2**63 - 1, 2**63, 2**64 - 1]
BLANKS = [" ", "\n", "\t", "  ", " \v", "\r\n", ""]
MODES = ["io", "io", "io", "i", "o", "ioe", "ioa", "iot", "e", "a", "ot"]
FILE_MODES = ["io", "io", "i", "o", "ioe", "iot", "a", "oa", "t", "ie"]


def quoted(text: str) -> str:
    """A text as streams.cpp takes it: a word."""
    return "".join(it if it.isalnum() or it in "+-.,()'" else f"%{ord(it):02x}" for it in text)


def bits(number: float, form: str) -> str:
    """The bits of a number, in hexadecimal."""
    try:
        return struct.pack(">" + form, number).hex()
    except OverflowError:
        return struct.pack(">" + form, float("inf")).hex()


class Lines:
    """Lines by chance, the same for the same seed."""

    def __init__(self, seed: int) -> None:
        self.chance = random.Random(seed)

    def text(self, most: int = 6) -> str:
        """Words that are numbers or nearly so, with blanks between them."""
        pick = self.chance.choice
        return pick(BLANKS) + "".join(pick(WORDS) + pick(BLANKS) for _ in range(self.chance.randrange(most)))

    def whole(self, size: int) -> str:
        """A whole number of so many bits, in hexadecimal."""
        edge = self.chance.choice(EDGES) if self.chance.random() < 0.7 else self.chance.getrandbits(64)
        return f"{(-edge if self.chance.random() < 0.3 else edge) % 2**size:x}"

    def floating(self, form: str) -> str:
        """A number with a point, as its bits."""
        if self.chance.random() < 0.6:
            return bits(self.chance.choice(NUMBERS), form)
        return bits(self.chance.uniform(-1, 1) * 10.0 ** self.chance.randrange(-30, 30), form)

    def letter(self) -> str:
        """A character."""
        return quoted(self.chance.choice("*0 x-.1e\n"))

    def written(self) -> str:
        """A step that writes."""
        steps: Dict[str, Callable[[], str]] = {
            "<<short": lambda: self.whole(16), "<<ushort": lambda: self.whole(16), "<<int": lambda: self.whole(32),
            "<<unsigned": lambda: self.whole(32), "<<llong": lambda: self.whole(64), "<<ullong": lambda: self.whole(64),
            "<<float": lambda: self.floating("f"), "<<double": lambda: self.floating("d"), "<<char": lambda: self.whole(7),
            "<<bool": lambda: self.chance.choice("01"), "<<pointer": lambda: str(self.chance.choice(EDGES[:18])),
            "<<complex": lambda: f"{self.chance.randrange(-9, 9)} {self.chance.choice(['0.5', '1e9', '-3'])}",
            "<<bitset": lambda: str(self.chance.randrange(128)), "<<string": lambda: quoted("a" + self.text(3)),
            "<<chars": lambda: quoted("a" + self.text(3)), "put": self.letter, "write": lambda: quoted("a" + self.text(3)),
            "endl": str, "ends": str, "flush": str,
        }  # fmt: skip
        name = self.chance.choice(list(steps))
        return f"{name} {steps[name]()}".strip()

    def taken(self) -> str:
        """A step that reads."""
        number = self.chance.randrange(12)
        steps = [f"gets {number} {self.letter()}", f"getline {number} {self.letter()}", f"line {self.letter()}", f"putback {self.letter()}"]
        steps += [f"ignore {self.chance.randrange(9)} {self.chance.choice(['eof', self.letter()])}", f"read {number}", f"readsome {number}"]
        return self.chance.choice(steps if self.chance.random() < 0.3 else READERS)

    def changed(self) -> str:
        """A step that changes how others read and write."""
        number = self.chance.choice([0, 1, 3, 6, 10, 17, 20, 40])
        steps = [f"setw {number}", f"setw {number}", f"setprecision {number}", f"setbase {self.chance.choice([8, 10, 16, 0, 7])}", "width"]
        return self.chance.choice([*steps, f"setfill {self.letter()}"] if self.chance.random() < 0.4 else CHANGES)

    def moved(self) -> str:
        """A step that is about places or the state."""
        place, where = self.chance.randrange(-8, 30), self.chance.randrange(3)
        steps = [f"seekg {place} {where}", f"seekp {place} {where}", f"seekgto {place}", f"seekpto {place}", "tellg", "tellp", "clear", "clear"]
        return self.chance.choice([*steps, "fail", "eof"])

    def line(self) -> str:
        """A line of steps, most of them of one or two kinds."""
        kinds = [self.written, self.taken, self.changed, self.moved]
        weights = self.chance.choice([[5, 0, 4, 0], [0, 5, 2, 1], [2, 2, 1, 4], [0, 6, 1, 0], [3, 3, 2, 2]])
        steps = [it() for it in self.chance.choices(kinds, weights, k=self.chance.randrange(1, 12))]
        kind, modes = ("text", MODES) if self.chance.random() < 0.85 else ("file", FILE_MODES)
        mode = self.chance.choice(modes)
        if kind == "file" and rests_on_host(mode, steps):
            steps = steps[:1]
        return " ".join([kind, mode, "=" + quoted(self.text()), *steps])


def rests_on_host(mode: str, steps: List[str]) -> bool:
    """Whether a file comes to what the host's blocks make of it: where a byte in front was replaced it has no more at hand, and where bytes are
    added it tells the place that was set before."""
    has_moved = any(it.startswith("seekp") for it in steps)
    return ("a" in mode and has_moved) or any(it.startswith("putback") for it in steps)


def lines(count: int, seed: int) -> List[str]:
    """So many lines."""
    made = Lines(seed)
    return [made.line() for _ in range(count)]
