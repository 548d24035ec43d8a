"""A report as the emulator's lines, as CSV and as JSON, and the reader for all three."""

from __future__ import annotations

import csv
import io
import json
from collections.abc import Mapping, Sequence
from typing import Any

from ..files import whole
from ..limits import MOST_NODES
from ..refusals import Refused, why_unfit
from .library_notes import DOUBTS
from .report import MOST_COST, Report, Superstep, checked, part

# In a report as JSON: the files that the program looked for and nobody gave, and the digests of those that it got all the same; the nodes that
# it was run on, where it takes fewer than it was given; and of what bsprun tells, that by which the figures may be in doubt.
SOUGHT, GIVEN, TAKEN, NOTES = "sought", "given", "nodes", "notes"


def read(content: bytes) -> Report | None:
    """The report of a file in any of its three forms. It is refused where it begins as one and is none that the emulator writes, and None
    if it is something else."""
    try:
        if content.startswith(b"{"):
            return of_json(json.loads(content))
        if content.split(b"\n", 1)[0].split(b",")[:3] == [b"superstep", b"w", b"h"]:
            return of_csv(content.decode())
        parted = part(content)
    except (ValueError, KeyError, TypeError, AttributeError, RecursionError, csv.Error) as error:
        raise Refused(f"it begins like a report, but is not: {why_unfit(error)}") from error
    return parted[1] if parted else None


def of_json(content: dict[str, Any]) -> Report:
    """A report from an object as `as_json` makes it."""
    supersteps = [superstep_by_names(it) for it in content["supersteps"]]
    return checked(Report(supersteps, whole(content["total"]), str(content["outcome"]), b""))


def of_csv(text: str) -> Report:
    """A report from a table as `as_csv` makes it, which has no outcome and no prices."""
    supersteps = [superstep_by_names(row) for row in csv.DictReader(io.StringIO(text))]
    return checked(Report(supersteps, 0, "", b""))


def superstep_by_names(row: dict[str, Any]) -> Superstep:
    """A superstep from its values by their names."""
    values = {name: whole(value, MOST_COST) for name, value in row.items() if name not in ("superstep", "end")}
    return Superstep(whole(row["superstep"], MOST_COST), values, row["end"])


def as_csv(report: Report) -> bytes:
    """A row for each superstep, below the names of the columns."""
    text = io.StringIO()
    names = list(report.supersteps[0].costs)
    rows = csv.writer(text, lineterminator="\n")
    rows.writerow(["superstep", *names, "end"])
    rows.writerows([it.number, *(it.costs[name] for name in names), it.end] for it in report.supersteps)
    return text.getvalue().encode()


def as_json(
    report: Report, sought: Sequence[str] = (), given: Mapping[str, str] | None = None, taken: int = 0, told: Sequence[tuple[str, str]] = ()
) -> bytes:
    """An object with the supersteps, the total and the outcome. If there are any, it has the files that the program looked for and nobody gave,
    and the digests of those that it got all the same; how many nodes it takes, if these are fewer than it was given; and what was told of it
    by which its figures may be in doubt, by what that is and a line."""
    supersteps = [{"superstep": it.number, **it.costs, "end": it.end} for it in report.supersteps]
    notes = [{"what": DOUBTS[what], "text": line} for what, line in told if what in DOUBTS]
    more: dict[str, object] = {SOUGHT: list(sought), GIVEN: dict(given or {}), TAKEN: taken, NOTES: notes}
    content = {"supersteps": supersteps, "total": report.total, "outcome": report.outcome, **{name: it for name, it in more.items() if it}}
    return json.dumps(content, indent=1).encode() + b"\n"


def sought_in(content: bytes) -> dict[str, str]:
    """The files of a report that `as_json` made, with the digest of each that the program got, and none for the others."""
    found = json.loads(content)
    given = {str(name): str(it) for name, it in found.get(GIVEN, {}).items()}
    return {**{str(it): "" for it in found.get(SOUGHT, [])}, **given}


def taken_in(content: bytes) -> int:
    """On how many nodes the run of such a report was made, if these are fewer than were asked for, and else 0."""
    return whole(json.loads(content).get(TAKEN, 0), MOST_NODES)


def notes_in(content: bytes) -> tuple[list[list[str]], bytes]:
    """The notes of a report that `as_json` made, each as what the run did and the line of it; and the report without them. They tell where
    something was, if that is known on this host."""
    found = json.loads(content)
    notes = [[str(it["what"]), str(it["text"])] for it in found.pop(NOTES, [])]
    return notes, json.dumps(found).encode()


def spelled_for(
    path: str, report: Report, sought: Sequence[str] = (), given: Mapping[str, str] | None = None, taken: int = 0, told: Sequence[tuple[str, str]] = ()
) -> bytes:
    """The report as the name of its file asks for: `.csv`, `.json`, or else the emulator's lines."""
    if path.endswith(".csv"):
        return as_csv(report)
    if path.endswith(".json"):
        return as_json(report, sought, given, taken, told)
    return report.text
