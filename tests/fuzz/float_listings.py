"""Words and statements of floating-point instructions, listed with their names and assembled again."""

from __future__ import annotations

import random
import struct
from typing import Callable, Dict, List, Tuple

from fuzz import instructions, listings
from fuzz.bench import Trial
from fuzz.images import Segment

# The operands of a row, a letter each: registers of floating point and integer ones, a rounding mode, the mode of a row that is exact, an
# address, a control and status register, and a number of 5 bits.
OF_BOTH = {
    "fmadd": "fffm", "fmsub": "fffm", "fnmsub": "fffm", "fnmadd": "fffm", "fadd": "fffm", "fsub": "fffm", "fmul": "fffm", "fdiv": "fffm",
    "fsqrt": "ffm", "fsgnj": "fff", "fsgnjn": "fff", "fsgnjx": "fff", "fmin": "fff", "fmax": "fff", "feq": "xff", "flt": "xff",
    "fle": "xff", "fclass": "xf", "fcvt.w": "xfm", "fcvt.wu": "xfm",
}
# In the fused rows there is a register more.
FUSED = ("fmadd", "fmsub", "fnmsub", "fnmadd")
ROWS: List[Tuple[str, str]] = [
    *((f"{name}.{of}", ("f" if name in FUSED else "") + form) for name, form in OF_BOTH.items() for of in "sd"),
    ("flw", "fa"), ("fld", "fa"), ("fsw", "fa"), ("fsd", "fa"), ("fcvt.s.w", "fxm"), ("fcvt.s.wu", "fxm"), ("fcvt.s.d", "ffm"),
    ("fcvt.d.w", "fxe"), ("fcvt.d.wu", "fxe"), ("fcvt.d.s", "ffe"), ("fmv.x.w", "xf"), ("fmv.w.x", "fx"),
    ("csrrw", "xcx"), ("csrrs", "xcx"), ("csrrc", "xcx"), ("csrrwi", "xcn"), ("csrrsi", "xcn"), ("csrrci", "xcn"),
]
MODES = ["rtz", "rdn", "rup", "rmm"]
OPCODES = [0x07, 0x27, 0x43, 0x47, 0x4B, 0x4F, 0x53, 0x53, 0x53, 0x73]
# The upper bits of an operation, most of which are of some row.
HEADS = [0x00, 0x04, 0x08, 0x0C, 0x2C, 0x10, 0x14, 0x20, 0x50, 0x60, 0x68, 0x70, 0x78]

PARTS: Dict[str, Callable[[random.Random], str]] = {
    "f": lambda chance: f"f{chance.randrange(32)}",
    "x": lambda chance: f"x{chance.randrange(32)}",
    "m": lambda chance: chance.choice(["", "", "rne", *MODES]),
    "e": lambda chance: chance.choice(["", "", "dyn", *MODES]),
    "a": lambda chance: f"{instructions.number(chance, -2048, 2047)}(x{chance.randrange(32)})",
    "c": lambda chance: chance.choice(["fflags", "frm", "fcsr"]),
    "n": lambda chance: str(instructions.number(chance, 0, 31)),
}


def statement(chance: random.Random) -> str:
    """A statement, spelled as a listing does."""
    name, form = chance.choice(ROWS)
    return f"{name} {','.join(part for part in (PARTS[kind](chance) for kind in form) if part)}"


def word(chance: random.Random) -> int:
    """A word, which most often is an instruction of floating point."""
    opcode, middle = chance.choice(OPCODES), chance.randrange(1 << 13) << 7
    if opcode == 0x53:
        return opcode | middle | chance.choice([0, 0, 1, chance.randrange(32)]) << 20 | (chance.choice(HEADS) + chance.choice([0, 1, 1, 2])) << 25
    if opcode == 0x73:
        return opcode | middle | chance.choice([1, 2, 3, 3, chance.randrange(1 << 12)]) << 20
    return opcode | middle | chance.randrange(1 << 12) << 20


def code(chance: random.Random) -> bytes:
    """The bytes of such words, and of others and of halfwords among them."""
    content = b""
    for _ in range(chance.choice([1, 5, 40])):
        made = chance.choice([word(chance), word(chance), instructions.word_of_form(chance), instructions.half_word(chance)])
        content += struct.pack("<I" if made & 3 == 3 else "<H", made)
    return content


def listing(trial: Trial) -> None:
    """Bytes, or statements, of floating point: a listing with names is assembled again, and differs from that without them in data alone."""
    trial.chosen((1, listing_of_bytes), (1, listing_of_statements))(trial)


def listing_of_bytes(trial: Trial) -> None:
    """An image without headers."""
    content = code(trial.random)
    image = trial.file("image", content)
    listed, plain = trial.run("list", image, "--format", "raw", "--float"), trial.run("list", image, "--format", "raw")
    segments = [Segment(0, content, len(content))]
    for answer, is_float in ((listed, True), (plain, False)):
        trial.expect(listings.statements_of(answer.stdout, segments, is_float)[0])
    lines = zip(plain.stdout.split(b"\n"), listed.stdout.split(b"\n"))
    other = [it for it in lines if it[0] != it[1] and (it[0][:20] != it[1][:20] or it[0][20:21] != b"." or it[1][20:21] == b".")]
    trial.expect(f"the listing has {other[0][1]!r} for {other[0][0]!r}" if other else "")
    text = trial.file("text", listings.text_of(listed.stdout))
    again = trial.run("list", text, "--format", "asm", "--float")
    trial.expect_that(again.same_as(listed), "a listing that is assembled has other bytes")


def listing_of_statements(trial: Trial) -> None:
    """A text of statements, of which the first is of floating point."""
    chance = trial.random
    made = [statement(chance) if at == 0 or chance.randrange(4) else instructions.statement(chance, 4 * at) for at in range(chance.randint(1, 40))]
    content = "".join(f"{it}\n" for it in made).encode()
    text = trial.file("text", content)
    listed = trial.run("list", text, "--format", "asm", "--float")
    trial.expect_that(listed.status == 0, "a good text is refused")
    trial.expect_that(b"".join(line[20:] + b"\n" for line in listed.stdout.split(b"\n")[:-1]) == content, "the listing is not the text")
    saved = trial.run("asm", text, "image", "--float")
    trial.expect_that(saved.status == 0 and trial.run("list", "image", "--float").same_as(listed), "the saved image has another listing")
    for answer in (trial.run("list", text, "--format", "asm"), trial.run("asm", text, "image")):
        trial.expect_that(answer.told == "bspemu: line 1: UnknownMnemonic", "statements of floating point are taken without --float")
