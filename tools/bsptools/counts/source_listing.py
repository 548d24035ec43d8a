"""A program's source with what its lines cost, as JSON that `bsprun` writes and `bspplot` draws."""

from __future__ import annotations

import json
import pathlib
from collections.abc import Iterable, Mapping, Sequence
from typing import Any, NamedTuple

from ..files import whole
from ..limits import MOST_NODES
from ..outputs.report import MOST_COST, OUTCOME, Report
from ..program.line_table import Place
from ..refusals import Refused, Unfit, about, printable, why_unfit
from .h_relations import Relation
from .line_costs import Work
from .printing import printing

FORM = "bspemu lines 1"
# Letters of a source that are kept, and of all of them together.
MOST_SOURCE, MOST_SOURCES = 1 << 22, 1 << 24
# More than a sum of costs is.
MOST_SUM = 1 << 60


class Superstep(NamedTuple):
    """A superstep: the steps of its slowest rank, its h-relation, and the steps of each rank, in all and in output functions. What was
    written before these were told has none of them."""

    w: int
    h: int
    ticks: list[int]
    printed: list[int]

    @property
    def printed_in_w(self) -> int | None:
        """How many steps of the slowest rank were in output functions, if that is known."""
        return self.printed[max(range(len(self.ticks)), key=lambda rank: (self.ticks[rank], -rank))] if self.printed else None

    @property
    def without_printing(self) -> int | None:
        """The w of this superstep without the work of output functions, if that is known."""
        return max(steps - printed for steps, printed in zip(self.ticks, self.printed)) if self.printed else None


class Line(NamedTuple):
    """What a line costs, or a function that has no line. `file` is the file's place among the sources, and -1 without a line.

    paid are the steps of the slowest ranks, which add up to w; with_calls those that are paid with what is called from there, None if
    that is not known, exact or apportioned. In `folded` the work of library functions stands at the lines that called them, apportioned;
    supersteps has that by superstep, and ranks has all steps of each rank in the same way. h is the bytes of h that the line asks for.
    """

    file: int
    number: int
    function: str
    paid: int
    folded: int
    with_calls: int | None
    is_exact: bool
    ranks: list[int]
    supersteps: dict[int, int]
    h: int


class File(NamedTuple):
    """A source: its name, and its lines."""

    name: str
    text: list[str]


class Listing(NamedTuple):
    """A run: its program, its supersteps, its outcome, and what its lines cost, the dearest first."""

    program: str
    supersteps: list[Superstep]
    outcome: str
    files: list[File]
    lines: list[Line]

    @property
    def nodes(self) -> int:
        """How many ranks there are."""
        return len(self.supersteps[0].ticks)

    @property
    def w(self) -> int:
        """The work of all supersteps."""
        return sum(it.w for it in self.supersteps)


def listing(work: Work, report: Report, relations: list[Relation], program: str) -> Listing:
    """The listing of a run."""
    paths = {path: number for number, path in enumerate(sorted({it.path for it in work.places.values() if it.is_own}))}
    printed = printing(work)
    of_rank = printed.of_rank if printed is not None else {}
    supersteps = [
        Superstep(it.w, told.costs["h"], list(it.ticks), [of_rank.get((number, rank), 0) for rank in range(work.counts.nodes)])
        for number, (it, told) in enumerate(zip(work.counts.supersteps, report.supersteps))
    ]
    by_rank = [work.folded({at: them[rank] for at, them in work.counts.by_rank.items()}) for rank in range(work.counts.nodes)]
    asked = asked_for(relations)
    lines = []
    for it in work.lines():
        made = {number: found[it.place] for number, found in enumerate(work.folded_parts) if found.get(it.place)}
        file = paths[it.place.path] if it.place.is_own else -1
        costs = (it.paid, sum(made.values()), it.with_calls, it.is_exact, [found.get(it.place, 0) for found in by_rank], made)
        lines.append(Line(file, it.place.number, it.function, *costs, asked.get(it.place, 0)))
    name = printable(pathlib.PurePath(program).name)
    return Listing(name, supersteps, report.outcome, sources(paths), lines)


def asked_for(relations: list[Relation]) -> dict[Place, int]:
    """The bytes of h that each place asks for."""
    found: dict[Place, int] = {}
    for relation in relations:
        for (place, _), part in relation.parts.items():
            found[place] = found.get(place, 0) + part.size
    return found


def sources(paths: Iterable[str]) -> list[File]:
    """Sources by their paths, with their texts as far as there is room for all of them: links may give one file very many names."""
    found: list[File] = []
    room = MOST_SOURCES
    for path in paths:
        found.append(source(path, min(room, MOST_SOURCE)))
        room = max(0, room - sum(len(it) + 1 for it in found[-1].text))
    return found


def source(path: str, most: int = MOST_SOURCE) -> File:
    """A source by its path, up to so many letters."""
    with about(path), open(path, encoding="utf-8", errors="replace") as file:
        text = file.read(most)
    return File(printable(pathlib.PurePath(path).name), text.split("\n"))


def as_json(it: Listing) -> str:
    """A listing as a text."""
    content = {
        "form": FORM,
        **it._asdict(),
        "supersteps": [superstep._asdict() for superstep in it.supersteps],
        "files": [file._asdict() for file in it.files],
        "lines": [line._asdict() for line in it.lines],
    }
    return json.dumps(content, separators=(",", ":"), ensure_ascii=False) + "\n"


def steps(numbers: Sequence[object]) -> list[int]:
    """How many steps each rank made."""
    return [whole(it, MOST_COST) for it in numbers]


def is_listing(text: str) -> bool:
    """Whether a text begins as a listing does."""
    return text.startswith('{"form":"bspemu lines ')


def parse(text: str) -> Listing:
    """The listing that a text has. One that bsprun does not write is refused."""
    try:
        return checked(of_json(json.loads(text)))
    except (ValueError, KeyError, TypeError, AttributeError, IndexError, RecursionError) as error:
        raise Refused(f"it begins like costs of lines, but is not: {why_unfit(error)}") from error


def of_json(content: Mapping[str, Any]) -> Listing:
    """A listing of its values by their names."""
    if content["form"] != FORM:
        raise Unfit(f"its form is {content['form']!r}, and this is {FORM!r}")
    supersteps = [
        Superstep(whole(it["w"], MOST_COST), whole(it["h"], MOST_COST), steps(it["ticks"]), steps(it.get("printed", [])))
        for it in content["supersteps"]
    ]
    files = [File(printable(str(it["name"])), [str(line) for line in it["text"]]) for it in content["files"]]
    lines = [line_of(it) for it in content["lines"]]
    outcome = str(content["outcome"])
    if not OUTCOME.match(outcome.encode(errors="replace")) or "\n" in outcome:
        raise Unfit(f"{outcome!r} is not an outcome")
    return Listing(printable(str(content["program"])), supersteps, outcome, files, lines)


def line_of(it: Mapping[str, Any]) -> Line:
    """A line of its values by their names."""
    with_calls = it["with_calls"]
    return Line(
        -1 if it["file"] == -1 else whole(it["file"], MOST_COST),
        whole(it["number"], MOST_COST),
        printable(str(it["function"])),
        whole(it["paid"], MOST_SUM),
        whole(it["folded"], MOST_SUM),
        None if with_calls is None else whole(with_calls, MOST_SUM),
        bool(it["is_exact"]),
        [whole(count, MOST_SUM) for count in it["ranks"]],
        {whole(number, MOST_COST): whole(count, MOST_COST) for number, count in it["supersteps"].items()},
        whole(it["h"], MOST_SUM),
    )


def checked(it: Listing) -> Listing:
    """A listing whose sums are those of its supersteps; what is none raises ValueError."""
    if not it.supersteps or not 1 <= it.nodes <= MOST_NODES:
        raise Unfit("no superstep with ranks")
    sums, ranks = [0] * len(it.supersteps), [0] * it.nodes
    for number, superstep in enumerate(it.supersteps):
        if len(superstep.ticks) != it.nodes or superstep.w != max(superstep.ticks):
            raise Unfit(f"the w of superstep {number} is not that of its ranks")
        if superstep.printed and (len(superstep.printed) != it.nodes or any(map(int.__gt__, superstep.printed, superstep.ticks))):
            raise Unfit(f"the printing of superstep {number} is not that of its ranks")
    for line in it.lines:
        if not -1 <= line.file < len(it.files) or (line.file >= 0) != (line.number > 0) or len(line.ranks) != it.nodes:
            raise Unfit(f"{line.function}: it is not a line of a known file")
        if sum(line.supersteps.values()) != line.folded:
            raise Unfit(f"{line.function}: its supersteps do not add up to its sum")
        for number, count in line.supersteps.items():
            sums[number] += count
        ranks = [one + other for one, other in zip(ranks, line.ranks)]
    if sums != [superstep.w for superstep in it.supersteps] or sum(line.paid for line in it.lines) != it.w:
        raise Unfit("the lines do not add up to w")
    if ranks != [sum(of_rank) for of_rank in zip(*(superstep.ticks for superstep in it.supersteps))]:
        raise Unfit("the lines do not add up to what the ranks made")
    return it
