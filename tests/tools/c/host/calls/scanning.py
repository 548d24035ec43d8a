"""Calls of scanf and similar functions."""

from __future__ import annotations

import re
from typing import List, Tuple

from . import chance as made
from .area import ALL, Answer, Area, Build, Difference
from .chance import Chance, often
from .numbers import real_text, whole_text

# The length of a whole number, and the letter of what it is stored in.
WHOLE_SIZES = {"hh": "H", "h": "h", "": "i", "l": "l", "ll": "q", "j": "q", "z": "l", "t": "l"}
REAL_SIZES = {"": "f", "l": "r", "L": "R"}
SETS = ("[a-z]", "[^a-z]", "[0-9]", "[]]", "[]a]", "[^]]", "[^]a]", "[a-]", "[-a]", "[^\n]", "[^ ,;]", "[abc]", "[A-Za-z_0-9]", "[^-]",
        "[%d]", "[+-]", "[ \t]", "[^^]", "[\x80-\xff]")  # fmt: skip
OF_SET = b"abcdefgz,;]- 019^%+_ABZ\t\x80\xc3\xff"


def conversion(chance: Chance, build: Build) -> Tuple[str, str]:
    """The length with the letter of a conversion, and the type of the place."""
    if build == Build.SMALL:
        letter = chance.choice("ddixucs")
        if letter in "cs":
            return letter, "s"
        size = chance.choice(("hh", "h", "", "", "l", "ll", "z", "t"))
        return size + letter, WHOLE_SIZES[size]
    kind = chance.randrange(12)
    if kind < 5:
        size, letter = chance.choice(list(WHOLE_SIZES)), chance.choice("ddiuoxX")
        return size + letter, WHOLE_SIZES[size]
    if kind < 8:
        size = chance.choice(("", "l", "l", "L"))
        return size + chance.choice("fegaEFGA"), REAL_SIZES[size]
    if kind == 8:
        return chance.choice(("hhn", "hn", "n", "ln", "lln")), ""
    if kind == 9:
        return chance.choice(SETS), "s"
    if kind == 10 and often(chance, 0.2):
        return chance.choice(("ls", "lc")), ""
    return chance.choice("ssc"), "s"


def input_of(chance: Chance, letter: str) -> str:
    """What may be read by a conversion."""
    if often(chance, 0.07):
        return chance.choice(("", "x", "-", "0x", "0xg", "+", ".", "1e", "1e+", "0x1p", "in", "nan(", "\x80"))
    if letter[-1] in "diuoxX":
        base = {"d": 10, "u": 10, "i": 0, "o": 8}.get(letter[-1], 16)
        bits = 64 if letter[0] in "jl" and letter[:2] != "ld" else 31
        # C11 7.21.6.2p10 leaves open what comes of a number that its place cannot hold; docs/manual/c.md promises the low bits of 64.
        return whole_text(chance, base, min(bits, chance.choice((8, 16, 31, 63))), 62)
    if letter[-1] in "fegaEFGA":
        return real_text(chance)
    if letter[-1] == "]":
        return bytes(chance.choice(OF_SET) for _ in range(chance.randint(0, 9))).decode("latin-1")
    blanks = "".join(made.some(chance, " \t\n", 2))
    return blanks + made.word(chance, 8).decode("latin-1")


def piece(chance: Chance, build: Build) -> Tuple[str, str, List[str]]:
    """A conversion in a format, its part of the text, and the type of its place if it has one."""
    letter, place = conversion(chance, build)
    if letter[-1] == "n":
        return f"%{letter}", "", [{"hhn": "H", "hn": "h", "n": "i", "ln": "l", "lln": "q"}[letter]]
    if letter in ("ls", "lc"):
        place = "w"
    is_left_out = often(chance, 0.12)
    width = str(chance.choice((1, 2, 3, 4, 5, 7, 10, 17, 30))) if often(chance, 0.35) else ""
    if letter in ("c", "lc"):
        width = str(chance.randint(1, 6)) if often(chance, 0.4) else ""
    return f"%{'*' if is_left_out else ''}{width}{letter}", input_of(chance, letter), [] if is_left_out else [place]


def between(chance: Chance) -> Tuple[str, str]:
    """What stands between two conversions in the format, and in the text."""
    kind = chance.randrange(10)
    if kind < 4:
        return "", ""
    if kind < 7:
        return chance.choice((" ", "\n", "\t ")), "".join(made.some(chance, " \t\n\v", 3))
    literal = chance.choice((",", ":", "%%", "ab", "-", ", ", "x", "\xc3"))
    return literal, (literal.replace("%%", "%") if often(chance, 0.8) else "?")


def call(chance: Chance, build: Build) -> str:
    """A call."""
    function = "i" if build == Build.SMALL else chance.choice("sssvff")
    if build != Build.SMALL and often(chance, 0.01):
        # What %p reads is defined for what printf has written alone: C11 7.21.6.2p12.
        return " ".join((function, made.text(b"%p"), made.text(b"0x%x" % chance.getrandbits(31)), "p"))
    places: List[str] = []
    form = given = ""
    for _ in range(chance.randint(1, 5)):
        written, content, types = piece(chance, build)
        middle, parted = between(chance)
        form, given, places = form + middle + written, given + parted + content, places + types
    form, given = form + between(chance)[0], given + between(chance)[1]
    if often(chance, 0.1):
        given = given[: chance.randint(0, len(given))]
    if build != Build.SMALL and often(chance, 0.2):
        form += "%n"
        places.append("i")
    given = given.replace("\0", "")[:500]
    if len(places) > 6:
        return call(chance, build)
    line = " ".join((function, made.text(form.encode("latin-1")), made.text(given.encode("latin-1")), *places))
    if function == "i":
        clean = given.replace("\1", "!").replace("\2", "!")
        line = " ".join((function, made.text(form.encode("latin-1")), made.text(clean.encode("latin-1")), *places))
    return line


def spelled(line: str) -> bytes:
    """A call as the program reads it: the text of one that reads the input stands behind it."""
    function, _, given, *_ = line.split(" ")
    content = line.encode() + b"\n"
    return content + (bytes.fromhex(given[1:]) + b"\n" + b"\1\n" * 16 + b"\2\n" if function == "i" else b"")


# A beginning of a number with a point that is none, as `1e+`, `0x` and `in`, and what stands behind `nan`.
UNFINISHED = re.compile(
    rb"""[0-9.]e[-+]?(?![0-9]) | 0x\.?(?![0-9a-f.]) | 0x\.(?![0-9a-f]) | 0x[0-9a-f.]*p[-+]?(?![0-9])
    | nan\( | \bi(?!nf) | \binfi(?!nity) | \bn(?!an)""",
    re.I | re.X,
)
WIDE = re.compile(rb"%\*?[0-9]*l[sc]")
CUT = re.compile(rb"%\*?[0-9]+[lL]?[fegaEFGA]")
REAL = re.compile(rb"%\*?[0-9]*[lL]?[fegaEFGA]")


# What an answer says of a place, by the letter of its type, and what it says first, by the function.
TEXT = r'"[^"]*"(?: \.\. \S+ \S+)?'
OF_PLACE = {"s": TEXT, "w": r"(?:\S+ )*?;"}
FIRST = {"f": r"\S+ \S+ \S+ \S+ \S+", "i": rf"\S+ {TEXT}"}
UNSET = ("unset", '""', ";")


def places_of(answer: Answer, words: List[str]) -> List[str]:
    """What an answer says of each place, or nothing if it is no answer."""
    function, types = answer.call[0], answer.call[3:]
    form = " ".join([FIRST.get(function, r"\S+"), *(f"({OF_PLACE.get(it, r'[^ ]+')})" for it in types)])
    found = re.fullmatch(form, " ".join(words))
    return list(found.groups()) if found else []


def is_less(answer: Answer, less: List[str], more: List[str]) -> bool:
    """Whether one answer has stored a part of what the other has, and no other values. Of a text of wide characters it may have a part. The
    end of the text may stand behind what both have left out, which is no failure then."""
    stored, others = places_of(answer, less), places_of(answer, more)
    if len(stored) != len(answer.call) - 3 or len(others) != len(stored) or int(less[0]) > max(0, int(more[0])):
        return False
    return all(it in (*UNSET, other) or kind == "w" for kind, it, other in zip(answer.call[3:], stored, others))


def is_unfinished(answer: Answer) -> bool:
    """What glibc takes for a number with a point, and C for the beginning of one, of which the node stores nothing. What follows a nan, and
    glibc does not read, is elsewhere for all that is behind it."""
    form, given = answer.text(1), answer.text(2)
    # A width may end a number in its middle, too.
    is_cut = CUT.search(form) and re.search(rb"[0-9.][ep]|0x|nan|inf", given, re.I)
    if not is_cut and not (REAL.search(form) and UNFINISHED.search(given)):
        return False
    return b"nan(" in given.lower() or is_less(answer, answer.node, answer.host)


def is_beyond_64(answer: Answer) -> bool:
    """A whole number that 64 bits with a sign cannot hold."""
    return bool(re.search(rb"%\*?[0-9]*[hljzt]*[diuoxX]", answer.text(1)) and re.search(rb"[0-9a-fA-F]{16,}", answer.text(2)))


def is_read_further(answer: Answer) -> bool:
    """A number with a point that is none, of which glibc has read one byte more than belongs to it."""
    if answer.call[0] != "f" or not REAL.search(answer.text(1)) or answer.host[0] != answer.node[0]:
        return False
    return int(answer.host[2]) == int(answer.node[2]) + 1 and answer.host[5:] == answer.node[5:]


def is_end_unseen(answer: Answer) -> bool:
    """A width that is used up with the last byte of a file."""
    return bool(re.search(rb"%\*?[0-9]+", answer.text(1))) and is_told_end(answer, "end", "more")


def is_nan_at_end(answer: Answer) -> bool:
    """A `nan` with which a file ends: whether a `(` follows is known at the end alone, where glibc does not look."""
    if not (REAL.search(answer.text(1)) and answer.text(2).lower().endswith(b"nan")):
        return False
    return answer.call[0] == "f" and is_told_end(answer, "more", "end")


def is_told_end(answer: Answer, host: str, node: str) -> bool:
    """Whether what feof says is all that differs, and these are its words."""
    told = answer.host[1:2] + answer.node[1:2]
    return told == [host, node] and answer.host[:1] + answer.host[2:] == answer.node[:1] + answer.node[2:]


def is_byte_above(answer: Answer) -> bool:
    """A byte above 127 as a wide character, at which glibc stops."""
    if not (WIDE.search(answer.text(1)) and re.search(rb"[\x80-\xff]", answer.text(2))):
        return False
    return is_less(answer, answer.host, answer.node)


DIFFERENCES = (
    Difference(
        "C11 7.21.6.2p9 and p10: an item is the longest beginning of a number, and of `1e+`, `0x` or `nan(?` it is none: nothing is "
        "stored. glibc stores a number (the example of p21, `100ergs`), and reads one byte more than that behind `in`",
        is_unfinished,
    ),
    Difference("C11 7.21.6.2p10: what is stored of a number that its place cannot hold is undefined; here the low bits", is_beyond_64),
    Difference("C11 7.21.6.2p9: the first byte behind an item is not read; glibc reads it behind an `i` or `n` alone", is_read_further),
    Difference("C11 7.21.6.2p9: behind an item as long as its width nothing has to be read, so that feof says no", is_end_unseen),
    Difference("C11 7.21.6.2p9: behind `nan` there may be a `(`, so that it is looked for, and feof says yes at the end", is_nan_at_end),
    Difference("C11 5.2.1p1: which bytes above 127 are characters of the locale C is of the implementation", is_byte_above),
)

AREA = Area("scanning", "scanning.c", call, ALL, DIFFERENCES, spelled=spelled)
