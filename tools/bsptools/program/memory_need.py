"""The memory that a program needs before it runs, and for what."""

from __future__ import annotations

import argparse

from ..limits import MEMORY, MOST_MEMORY, PAGE
from ..refusals import Refused
from .code import Code

MOST_NAMED = 5
# Smaller variables are not what a program is too large for.
LEAST_NAMED = 1 << 12
SUFFIXES = ((1 << 30, "G"), (1 << 20, "M"), (1 << 10, "K"))


def size_text(size: int) -> str:
    """A number of bytes as an option takes it, as short as it can be."""
    return next((f"{size // unit}{suffix}" for unit, suffix in SUFFIXES if size % unit == 0), str(size))


def largest(code: Code) -> str:
    """The largest variables of a program, with their bytes, or nothing if it names none."""
    sizes = sorted(((size, name) for _, size, name in code.know_names().variables if size >= LEAST_NAMED), reverse=True)
    more = ", .." if len(sizes) > MOST_NAMED else ""
    return ", ".join(f"{name} of {size} bytes" for size, name in sizes[:MOST_NAMED]) + more


def fit(code: Code, options: argparse.Namespace) -> None:
    """Gives nodes more memory than by default if a program's variables need it: a power of two, of which a fifth is left for its heap."""
    if MEMORY == options.memory < code.need:
        options.memory = min(1 << (code.need * 5 // 4 - 1).bit_length(), MOST_MEMORY)


def expect_room(code: Code, options: argparse.Namespace) -> None:
    """Refuses a program that is larger than the memory, and a room of the stack for one that was linked with another."""
    need = -(-code.need // PAGE) * PAGE
    named = largest(code) if need > options.memory else ""
    arrays = f"; the largest are {named}" if named else ""
    if need > MOST_MEMORY:
        text = f"and a node has {MOST_MEMORY} at most{arrays}: give each rank its part of them, or make them smaller"
        raise Refused(f"{options.program} needs {need} bytes of memory for its code and variables, {text}")
    if need > options.memory:
        raise Refused(f"{options.program} needs {need} bytes of memory for its code and variables{arrays}: give --memory {need} or more")
    if options.stack and not options.sources and code.know_names().names.get("__stack_top", 0) != options.stack:
        has = code.names.get("__stack_top")
        known = f", with {has} bytes" if has else ""
        raise Refused(f"--stack is for a program in C that is compiled here: {options.program} has its stack{known}; give --stack to bspcc")
