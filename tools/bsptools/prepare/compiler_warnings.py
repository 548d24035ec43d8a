"""GCC's warnings, without those that do not matter if `int` and `long` have the same size."""

from __future__ import annotations

import re

# Whole numbers of 32 bits, as GCC spells their types. On a machine with a `long` of 64 bits GCC says so of other formats.
WORDS = {"int", "unsigned int", "long int", "long unsigned int"}
FORMAT = re.compile(
    r"warning: format ['‘].*['’] expects (?:a matching )?(?:argument of type )?['‘]([^'’]*)['’].*"
    r" has type ['‘]([^'’]*)['’](?: \{aka ['‘]([^'’]*)['’]\})? \[-Wformat=\]$"
)
# A text can give itself a name of any length, and then one of these would be looked for very long.
MOST_OF_A_FORMAT = 10_000
# Messages that GCC has where it optimizes alone.
OPTIMIZED = re.compile(r": warning: .*\[-W(?:array-bounds|aggressive-loop-optimizations|stringop-over\w+|use-after-free)=?\]$")
# What begins a message, and what stands in front of one: in which function or file it is.
MESSAGE = re.compile(r".*: (?:warning|error|fatal error): ")
SHOWN, DECLARED = re.compile(r"\s+(?:\d+ )?\|"), re.compile(r": note: in a call to function .* declared with attribute")
FRONT = re.compile(r"(?=[^|]*:$)[^|]*: (?:In|At) |In (?:function|file included from) .*|\s+(?:inlined from|from) .*|\s*$")


def is_of_words(line: str) -> bool:
    """Whether a message is of a format and a value that are both whole numbers of 32 bits, or point to such."""
    found = FORMAT.search(line) if len(line) <= MOST_OF_A_FORMAT else None
    if found is None:
        return False
    wanted, given = found[1], found[3] or found[2]
    return all(it.rstrip(" *") in WORDS for it in (wanted, given)) and wanted.count("*") == given.count("*")


def messages(lines: list[str]) -> list[list[str]]:
    """The lines of a compiler, parted: each message with what stands in front of it and below it."""
    found: list[list[str]] = [[]]
    front: list[str] = []
    for line in lines:
        if MESSAGE.match(line):
            found.append([*front, line])
            front = []
        elif FRONT.match(line):
            front.append(line)
        else:
            found[-1] += [*front, line]
            front = []
    found[-1] += front
    return found


def without_header(message: list[str]) -> list[str]:
    """A message without what shows how bsp.h declares a function."""
    kept: list[str] = []
    is_dropped = False
    for line in message:
        is_dropped = DECLARED.search(line) is not None or is_dropped and SHOWN.match(line) is not None
        if not is_dropped:
            kept.append(line)
        elif DECLARED.search(line) and kept and kept[-1].startswith("In file included from"):
            kept.pop()
    return kept


def of_mistakes(lines: list[str]) -> list[str]:
    """The lines of a compiler without such messages, and each message once: GCC tells some of them in each of its passes."""
    kept: list[str] = []
    told: set[str] = set()
    front: list[str] = []
    for message in messages(lines):
        text = next((it for it in message if MESSAGE.match(it)), "")
        if not text or (text not in told and not is_of_words(text)):
            kept += (front if message[:1] == [text] else []) + without_header(message)
            front = []
        elif message[0] != text:
            # What comes next may be in the same function.
            front = message[: message.index(text)]
        told.add(text)
    return kept
