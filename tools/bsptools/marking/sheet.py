"""A sheet: what a hand-in must do, on which nodes and inputs, what it may cost, and the points of each part."""

from __future__ import annotations

import os
import pathlib
from dataclasses import dataclass, field
from typing import Dict, Iterator, List, NamedTuple, Optional, Tuple

from .. import limits
from ..refusals import counted
from .formulas import Formula

# How the output of a hand-in is compared: byte by byte; by its words, whatever blanks are between them; or by words, of which those that are
# numbers may differ a little.
BYTES, WORDS, NUMBERS = "bytes", "words", "numbers"
COMPARISONS = (BYTES, WORDS, NUMBERS)
# What formulas know of a run beside the names of a case: its nodes and prices, and what came of it.
SETTINGS = ("p", "g", "l")
QUANTITIES = ("supersteps", "w", "h", "m", "cost", "most_w", "most_h")
# Defaults: seconds of a run, bytes of its output, the least limit of instructions, and how many times what the solution takes it is; and
# what it is where there is no solution.
SECONDS, OUTPUT, INSTRUCTIONS, TIMES = 30, 1 << 16, 5_000_000, 50
ALONE = 20_000_000


class Numbers(NamedTuple):
    """An input of random numbers of a range, a line each: how many, and the seed that they follow from."""

    amount: int
    seed: int
    least: int
    most: int


class Generator(NamedTuple):
    """A program that writes an input: it is given the seed and the number of nodes."""

    program: str
    seed: int


@dataclass(frozen=True)
class Case:
    """One thing that a hand-in is tried on: constants, an input, arguments and files, on each of some numbers of nodes, at the prices g and l."""

    name: str
    nodes: Tuple[int, ...]
    defines: Tuple[Tuple[str, str], ...] = ()
    values: Dict[str, float] = field(default_factory=dict)
    args: Tuple[str, ...] = ()
    given: Tuple[str, ...] = ()
    input: object = None
    expected: str = ""
    g: int = limits.G
    l: int = limits.L

    def __str__(self) -> str:
        return self.name


class Run(NamedTuple):
    """A case on so many nodes."""

    case: Case
    nodes: int

    def __str__(self) -> str:
        return ", ".join(filter(None, [f"p = {self.nodes}", str(self.case)]))


class Bound(NamedTuple):
    """A bound of costs: on which nodes and in which case it holds, all if it says nothing, what it is worth, and a hint."""

    formula: Formula
    points: float
    nodes: Tuple[int, ...] = ()
    case: str = ""
    why: str = ""

    def holds_for(self, run: Run) -> bool:
        """Whether it is of this run."""
        return (not self.nodes or run.nodes in self.nodes) and (not self.case or run.case.name == self.case)


@dataclass(frozen=True)
class Sheet:
    """A sheet as its file has it. Files are named from the folder of the sheet."""

    path: str
    title: str = ""
    cases: Tuple[Case, ...] = ()
    bounds: Tuple[Bound, ...] = ()
    right: float = 10.0
    portable_points: float = 0.0
    warning_points: float = 0.0
    solution: str = ""
    wanted: str = ""
    checker: str = ""
    files: Tuple[str, ...] = ()
    compare: str = BYTES
    tolerance: float = 0.0
    memory: int = limits.MEMORY
    seconds: int = SECONDS
    output: int = OUTPUT
    instructions: Optional[int] = None
    forbid: Tuple[str, ...] = ()
    require: Tuple[str, ...] = ()
    strict: bool = True
    races: bool = True
    portable: bool = False

    @property
    def folder(self) -> pathlib.Path:
        """Where the sheet lies."""
        return pathlib.Path(self.path).resolve().parent

    def file(self, name: str) -> str:
        """The path of a file that the sheet names."""
        return os.path.normpath(self.folder / name)

    @property
    def runs(self) -> List[Run]:
        """All runs that it asks for, case by case."""
        return [Run(case, nodes) for case in self.cases for nodes in case.nodes]

    @property
    def points(self) -> float:
        """What a hand-in gets that does all of it."""
        return self.right + self.portable_points + self.warning_points + sum(it.points for it in self.bounds)

    def said(self) -> str:
        """What it asks for in a line."""
        return f"{self.title}: {counted(len(self.runs), 'run')}, {counted(len(self.bounds), 'bound')}, {points_told(self.points)} points"


def points_told(points: float) -> str:
    """Points as they are told: two digits behind the point at most, and none that say nothing."""
    return f"{points:.2f}".rstrip("0").rstrip(".")


def settings_of(run: Run) -> Dict[str, float]:
    """What formulas know of a run before it is made."""
    return {**run.case.values, "p": run.nodes, "g": run.case.g, "l": run.case.l}


def sources(sheet: Sheet) -> Iterator[str]:
    """All files that a sheet names."""
    yield from (sheet.file(it) for it in (*filter(None, [sheet.solution, sheet.checker, sheet.wanted]), *sheet.files))
    for case in sheet.cases:
        yield from (sheet.file(it) for it in case.given)
        if isinstance(case.input, str):
            yield sheet.file(case.input)
        elif isinstance(case.input, Generator):
            yield sheet.file(case.input.program)
