"""Mutants: which function each changes, how, and which clauses it breaks."""

from __future__ import annotations

import pathlib
import re
from dataclasses import dataclass
from typing import Dict, List, Sequence

from mutation.crates import Crate

# Goals that say what a contract or an invariant says: a clause of the function, the invariant of a type or of a loop, a named condition of
# a function that it calls. Other goals, such as sums that do not overflow and indices in bounds, show that code is safe, not what it means.
CLAUSE = re.compile(r"(?:returns|invariant_of-\S+|loop(?:-\S+)?-(?:init|preserved))(?:-\S+)?|\S+-requires-clause-\S+")
# What a mutant of a definition breaks: a lemma from which a law of the definition is proved.
LEMMA = re.compile(r"lemma [\w.-]+")


@dataclass(frozen=True)
class Mutant:
    """A mutant: the function that it changes, the goals of that function that fail by it, and the texts of the files that it changes."""

    name: str
    function: str
    breaks: Sequence[str]
    texts: Dict[str, str]


class Fault(Exception):
    """What is wrong with a mutant or with its trial."""


def read(crate: Crate, path: pathlib.Path) -> Mutant:
    """Reads a mutant, and applies it to the crate's files."""
    function, breaks, file, old = "", [], "", ""  # type: str, List[str], str, str
    texts: Dict[str, str] = {}
    for line in path.read_text().splitlines():
        word, _, text = line.partition(": ")
        if word == "function":
            function = text
        elif word == "breaks":
            breaks.append(text)
        elif word == "file":
            file = text
        elif word == "old":
            old = text
        elif word in ("new", "new:"):
            texts[file] = turned(texts.get(file) or (crate.folder / file).read_text(), file, old, text)
        elif line:
            raise Fault(f"the line means nothing: {line}")
    if not function or not texts or not breaks:
        raise Fault("a mutant names its function, the goals that it breaks, and the texts that it changes; one of these is missing")
    wanted = LEMMA if any(it.startswith("specs/") for it in texts) else CLAUSE
    other = next((it for it in breaks if not wanted.fullmatch(it)), None)
    if other is not None:
        raise Fault(f"{other} is not a goal of a clause or of an invariant, or for a change of a definition not a lemma")
    return Mutant(path.stem, function, breaks, texts)


def turned(before: str, file: str, old: str, new: str) -> str:
    """A file's text with one text in place of another, which it has exactly once."""
    count = before.count(old)
    if count != 1:
        raise Fault(f"{file} has the text to be replaced {count} times, and not once: {old.strip()}")
    return before.replace(old, new)
