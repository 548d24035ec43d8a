"""Pairs of lines that a person has accepted: what is found there is counted, and no longer told."""

from __future__ import annotations

from collections.abc import Sequence
from typing import Dict, Tuple

from ..files import text_content, write
from ..refusals import Refused

# Of a file of accepted pairs.
MOST_BYTES = 1 << 20


class Accepted:
    """The pairs of a file, if there is one, and those that are found, for another file. A line has two places as FILE:LINE and a reason; what
    begins with # is a comment. A finding with one place has it twice."""

    def __init__(self, path: str | None, target: str | None) -> None:
        self.target = target
        self.pairs = read(path) if path is not None else set()
        self.found: Dict[Tuple[str, ...], str] = {}

    def has(self, places: Sequence[str]) -> bool:
        """Whether such a pair was accepted."""
        return pair_of(places) in self.pairs if places else False

    def note(self, places: Sequence[str], what: str) -> None:
        """Takes down a pair that was found."""
        if places:
            self.found.setdefault(pair_of(places), what)

    def write(self) -> None:
        """Writes the pairs that were found, where that is asked for, with what was found as the reason."""
        if self.target is not None:
            lines = ["# FILE:LINE FILE:LINE reason, for bsprun --portable --accept\n"]
            lines += [f"{' '.join(pair)} {what}\n" for pair, what in sorted(self.found.items())]
            write(self.target, "".join(lines))


def read(path: str) -> set[Tuple[str, ...]]:
    """The pairs of a file."""
    pairs = set()
    for number, line in enumerate(text_content(path, MOST_BYTES).decode(errors="replace").splitlines(), 1):
        words = line.split(maxsplit=2)
        if not words or line.startswith("#"):
            continue
        if len(words) < 3 or any(not it.rpartition(":")[0] or not it.rpartition(":")[2].isdecimal() for it in words[:2]):
            raise Refused(f"{path}, line {number}: a line needs two places, each as FILE:LINE, and a reason")
        pairs.add(pair_of(words[:2]))
    return pairs


def pair_of(places: Sequence[str]) -> Tuple[str, ...]:
    """A pair of places, in one order."""
    return tuple(sorted((places[0], places[-1])))
