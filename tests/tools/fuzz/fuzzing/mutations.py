"""Random changes of files that the tools read: of bytes, of numbers, of lines."""

from __future__ import annotations

import random
import re
import struct

# What stands in for a number, or somewhere in a text.
NUMBERS = [
    b"-1", b"0", b"1", b"00", b"+5", b"1.5", b"1e400", b"NaN", b"Infinity", b"-Infinity", b"null", b"true", b"", b" 7", b"1_0",
    b"1023", b"1024", b"1099511627776", b"18446744073709551616", b"1" + b"0" * 30, b"1" + b"0" * 400, b"9" * 5000,
]  # fmt: skip
TEXTS = [
    b"\0", b"\n", b"\r\n", b",", b'"', b"\xff\xfe", b"\xed\xa0\x80", b"\x1b[31m", b"[" * 3000, b"{" * 50, b'{"a":' * 2000,
    b"synced", b"ended", b"nobody", b"refused: SlotMismatch rank 1", b"x" * 200_000, b"$\\foo{$", b"=1+1", b"</svg><script>", "\N{SNOWMAN}".encode(), b"not run",
]  # fmt: skip
WORDS = [0, 1, 0x7F, 0xFF, 0xFFFF, 0x7FFFFFFF, 0x80000000, 0xFFFFFFFE, 0xFFFFFFFF]
MOST_CHANGES = 4


def mutated(content: bytes, chance: random.Random) -> bytes:
    """A text with some changes."""
    for _ in range(chance.randint(1, MOST_CHANGES)):
        content = chance.choice([of_number, of_number, of_lines, of_text, of_bytes])(content, chance)
    return content


def patched(content: bytes, chance: random.Random) -> bytes:
    """A file of fixed form with some changes: of its bytes, and of numbers of two and four bytes in it."""
    changed = bytearray(content)
    for _ in range(chance.randint(1, 2 * MOST_CHANGES)):
        size = chance.choice([1, 2, 4])
        at = chance.randrange(min(len(changed), chance.choice([52, 4096, len(changed)])) - size)
        if chance.random() < 0.3:
            at = len(changed) - 1 - chance.randrange(1200)
        value = struct.pack("<I", chance.choice([*WORDS, chance.getrandbits(32), len(content)]))
        changed[at : at + size] = value[: len(changed[at : at + size])]
    return bytes(changed[: chance.randrange(len(changed))] if chance.random() < 0.1 else changed)


def of_number(content: bytes, chance: random.Random) -> bytes:
    """Another number in the place of one."""
    found = list(re.finditer(rb"\d+", content))
    if not found:
        return content
    it = chance.choice(found)
    value = chance.choice([*NUMBERS, b"%d" % (int(it[0][:18]) + 1)])
    return content[: it.start()] + value + content[it.end() :]


def of_lines(content: bytes, chance: random.Random) -> bytes:
    """A line left out, twice, or elsewhere."""
    lines = content.split(b"\n")
    one, other = chance.randrange(len(lines)), chance.randrange(len(lines))
    kind = chance.randrange(3)
    line = lines[one]
    if kind != 1:
        del lines[one]
    if kind != 0:
        lines.insert(other, line)
    return b"\n".join(lines)


def of_text(content: bytes, chance: random.Random) -> bytes:
    """A text put in, or in the place of a field."""
    fields = list(re.finditer(rb"[^,\n]*", content))
    it = chance.choice(fields)
    end = it.end() if chance.random() < 0.5 else it.start()
    return content[: it.start()] + chance.choice([*TEXTS, *NUMBERS]) + content[end:]


def of_bytes(content: bytes, chance: random.Random) -> bytes:
    """A byte of chance, a part left out, or the end cut off."""
    if not content:
        return content
    at = chance.randrange(len(content))
    kind = chance.randrange(3)
    if kind == 0:
        return content[:at] + bytes([chance.randrange(256)]) + content[at + 1 :]
    return content[:at] if kind == 1 else content[:at] + content[at + chance.randrange(40) :]
