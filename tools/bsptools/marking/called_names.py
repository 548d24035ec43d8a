"""The names of functions that a hand-in calls, by the object that GCC makes of it and by what GCC prints of its functions meanwhile."""

from __future__ import annotations

import os
import pathlib
import re
from collections.abc import Collection
from typing import Set, Tuple

from .. import limits
from ..files import content_of
from ..program import elf
from ..refusals import Refused

# With this option, GCC prints the functions and variables of a text into a file, as it has read them. Each has its name for the linker and a
# number, its name in the text, and what it is. A function that GCC calls by itself, such as puts for printf, is __builtin_puts in the text. If
# the text names it for the linker, a star is in front. An alias has a target. A definition that is external is that of another file.
PRINTING = "-fdump-ipa-cgraph="
# The same for the text of all functions, before GCC changes it. It is looked at for a name that the text puts together.
PRINTING_TEXT, PASTES = "-fdump-tree-original=", ("##", "%:%:")
PRINTED = re.compile(r"(?m)^(\*?)([^\s/]+)/\d+ \((.*?)\)(?: @0x[0-9a-f]+)? *\n  Type:(.*)\n  Visibility:(.*)$")
TARGET = re.compile(r" target:(\S+)")
MOST_PRINTED = 1 << 28
# A piece without an end matches, too: else each of very many would be looked through up to the end of the text.
COMMENTS = re.compile(r"//(?:\\\n|[^\n])*|/\*.*?(?:\*/|\Z)|\"(?:\\.|[^\"\\\n])*\"?|'(?:\\.|[^'\\\n])*'?", re.DOTALL)
CONTINUED = re.compile(r"\\[ \t]*\r?\n")
# What GCC may call where a text does not, so a name of these in an object says nothing of the text.
REPLACING = frozenset(
    "puts putchar fputs fputc putc fwrite memcpy memmove memset memcmp strlen strcpy stpcpy strncpy strcat strchr strcmp calloc sqrt sqrtf exp2 exp2f".split()
)
# What the linker puts in front of the name of a function of the library that bspcc has wrapped.
OTHER_NAME = re.compile("^__(?:wrap|real)_")
# A statement of assembly, what is between two strings that are one, and a macro that makes such statements, maybe of its arguments.
ASSEMBLY = re.compile(r'\b(?:asm|__asm|__asm__)\b(?:"(?:\\.|[^"\\\n])*"|[^;"])*')
BETWEEN = re.compile(r'"\s*"')
ASSEMBLES = re.compile(r"(?m)^[ \t]*(?:#|%:)[ \t]*define\b.*\b(?:asm|__asm|__asm__)\b")


def printing(part: pathlib.Path) -> Tuple[str, str]:
    """The options with which GCC prints what this module reads, in the folder of an object."""
    path = os.path.relpath(part.with_suffix(""))
    return f"{PRINTING}{path}.names", f"{PRINTING_TEXT}{path}.functions"


def remove(part: pathlib.Path) -> None:
    """Removes an object and what GCC has printed of it."""
    for it in (part, part.with_suffix(".names"), part.with_suffix(".functions")):
        it.unlink(missing_ok=True)


def of_object(part: pathlib.Path, text: str, wanted: Collection[str], is_classes: bool) -> Set[str]:
    """Those of some names that an object has from other files, if the hand-in's text names them. A name that GCC may have put there by itself counts if
    GCC has read it as a function of the text, whatever else has that name there, or if the text has it in a way that GCC does not print."""
    content = content_of(part, limits.MOST_PROGRAM)
    if not elf.symbols(content):
        raise Refused(f"{part.name} has no names of functions")
    read = named_by_text(_printed(part.with_suffix(".names")))
    # Functions of the library of C++ call GCC's own, too. There is no such file if the text has no function.
    path = part.with_suffix(".functions")
    functions = bare_text(_printed(path)) if not is_classes and path.exists() and any(it in text for it in PASTES) else ""
    names = {OTHER_NAME.sub("", it) for it in elf.names_elsewhere(content)}.intersection(wanted)
    return {it for it in names if it not in REPLACING or it in read or is_spelled(it, text, functions)}


def named_by_text(printed: str) -> Set[str]:
    """The names for the linker of what a text has from other files, by itself and not by GCC alone. An alias has the name of its target, too."""
    found = set()
    for star, name, spelled, what, seen in PRINTED.findall(printed):
        is_defined = " definition" in what and " external" not in seen
        if star or not is_defined and not re.search(rf"\b__builtin_{re.escape(name)}(?:\(|$)", spelled):
            found |= {OTHER_NAME.sub("", it) for it in (name, *TARGET.findall(what))}
    return found


def is_called(part: pathlib.Path, name: str) -> bool:
    """Whether a function of a text calls this one, before GCC replaces such a call."""
    path = part.with_suffix(".functions")
    return path.exists() and re.search(rf"\b(?:__builtin_)?{re.escape(name)} \(", bare_text(_printed(path))) is not None


def _printed(path: pathlib.Path) -> str:
    """What GCC has printed."""
    return content_of(path, MOST_PRINTED).decode(errors="replace")


def is_spelled(name: str, text: str, functions: str) -> bool:
    """Whether a text, or what GCC makes of its macros, has a name as GCC's own function, or the text has it in assembly."""
    text, word, own = CONTINUED.sub("", text), rf"\b{re.escape(name)}\b", rf"\b__builtin_{re.escape(name)}\b"
    bare = bare_text(text)
    assembly = (BETWEEN.sub("", it[0]) for it in ASSEMBLY.finditer(COMMENTS.sub(lambda it: " " if it[0][0] == "/" else it[0], text)))
    in_macro = ASSEMBLES.search(bare) and re.search(word, bare)
    return bool(in_macro or re.search(own, bare) or re.search(own, functions) or any(re.search(word, it) for it in assembly))


def bare_text(text: str) -> str:
    """A text, with blanks for comments and strings."""
    return COMMENTS.sub(lambda it: re.sub(r"[^\n]", " ", it[0]), text)
