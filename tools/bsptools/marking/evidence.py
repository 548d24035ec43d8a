"""The evidence about a hand-in: what the compiler printed, and the output, costs and end of each run."""

from __future__ import annotations

import re
from collections.abc import Iterable
from dataclasses import asdict, dataclass, field
from typing import Any, Dict, List, Optional

# How a run ended beside the emulator's own outcomes: by the clock, by too much output, and by what the host did not give.
LATE, LONG, BROKEN = "too long", "too much output", "broken off"
WELL = "ended"
# What a line of the compiler has that is a warning.
WARNS = ": warning: "
# Supersteps that are kept for pictures.
MOST_SHOWN = 120
# Letters of a line that are kept. A hand-in chooses names in it, and what is looked for in a name of 100,000 letters takes minutes.
MOST_OF_A_LINE = 2000
# What a run advises, which are options of bsprun, and what helps in marking, where only the sheet can give a run more.
ADVICE = (
    (re.compile(r"raise it with --limit (\d+)$"), r"`instructions = \1` in the sheet raises it"),
    (re.compile(r"give --stack \w+, of an ELF file to bspcc, or make large arrays static$"), "make large arrays static"),
    (re.compile(r"--large raises it$"), '`memory = "17M"` in the sheet, or more, raises it'),
    (re.compile(r"; with --large they may have \d+$"), ": the sheet has to give less"),
    (re.compile(r"give --memory (\d+) or more$"), r"`memory` in the sheet has to be \1 or more"),
)


@dataclass
class Ended:
    """A run: its outcome, its output, what stood on its standard error, and its costs, with those of its first supersteps. `why` has lines
    that say why it did not end well, `race` what two requests contest, and `dear` where costs come from, for each name of a cost."""

    outcome: str
    output: str = ""
    errors: str = ""
    costs: Dict[str, int] = field(default_factory=dict)
    supersteps: List[List[int]] = field(default_factory=list)
    why: List[str] = field(default_factory=list)
    race: List[str] = field(default_factory=list)
    dear: Dict[str, List[str]] = field(default_factory=dict)

    @property
    def is_well(self) -> bool:
        """Whether every node came to its end."""
        return self.outcome == WELL

    @property
    def content(self) -> bytes:
        """The bytes of its output."""
        return self.output.encode("latin-1")


@dataclass
class Evidence:
    """All of a hand-in: why it is no program at all, or what the compiler said and whether it made one; how it hides warnings, where the sheet
    has points for these; which calls it names, of those that a sheet speaks of, and which of them what runs makes with the constants of each
    case; its runs, in the order of the sheet; and the verdict of --portable, where the sheet asks for that.

    `lack` says what the host may not have given, as room on a disk that others have filled: then it is tried again by itself. `untried` says
    why it cannot be judged, as where that did not help.
    """

    refused: str = ""
    lack: str = ""
    untried: str = ""
    is_built: bool = False
    said: List[str] = field(default_factory=list)
    hides: str = ""
    calls: Dict[str, int] = field(default_factory=dict)
    made: Optional[List[str]] = None
    runs: List[Ended] = field(default_factory=list)
    portable: Optional[List[str]] = None
    is_portable: bool = True

    def cut(self) -> Evidence:
        """The same, with no more letters of each line than are kept."""
        for lines in (self.said, self.portable or [], *(part for it in self.runs for part in (it.why, it.race, *it.dear.values()))):
            lines[:] = cut(lines)
        return self

    def as_json(self) -> Dict[str, Any]:
        """What JSON keeps of it."""
        return asdict(self)


def cut(lines: Iterable[str]) -> List[str]:
    """Lines, with no more letters of each than are kept."""
    return [it if len(it) <= MOST_OF_A_LINE else f"{it[: MOST_OF_A_LINE - 3]}..." for it in lines]


def of_json(known: Dict[str, Any]) -> Evidence:
    """What `as_json` made. What is none raises TypeError or KeyError."""
    whole: Dict[str, Any] = {**known, "runs": [Ended(**it) for it in known["runs"]]}
    return Evidence(**whole)


def of_marking(lines: Iterable[str]) -> List[str]:
    """Lines that say why a run did not end well, with advice that can be followed in marking."""
    found = []
    for line in lines:
        for option, instead in ADVICE:
            line = option.sub(instead, line)
        found.append(line)
    return found
