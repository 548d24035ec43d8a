"""What `bspplot` reads: a profile, a report, the costs of lines, or the table of a sweep."""

from __future__ import annotations

import pathlib
from dataclasses import dataclass, field, replace

from ..counts import source_listing
from ..files import content_of, without_mark
from ..limits import MOST_TABLE
from ..outputs import report, report_formats
from ..refusals import Refused, printable
from ..sealed_results import digest
from . import profile, superstep_costs, sweep_table


@dataclass(frozen=True)
class Source:
    """What a file tells. A profile and the costs of lines tell the costs of supersteps too; a report has these alone, and the table of a
    sweep has none. A report may have a total, at prices of its own."""

    name: str
    costs: list[superstep_costs.Cost] = field(default_factory=list)
    profile: profile.Profile | None = None
    rows: list[sweep_table.Row] = field(default_factory=list)
    listing: source_listing.Listing | None = None
    outcome: str = ""
    is_apart: bool = False
    total: int = 0
    digest: str = ""

    def without_printing(self) -> Source:
        """The same, whose supersteps are without the work of output functions. What does not tell of that is refused."""
        if not self.costs or any(it.w_without is None for it in self.costs):
            raise Refused(
                f"{self.name} does not say how much of the work was printing: --apart takes what `bsprun --summary --profile FILE` and"
                " `bsprun --lines-as json=FILE` write"
            )
        kept = self.profile and self.profile.without_printing()
        return replace(self, costs=superstep_costs.without_printing(self.costs), profile=kept, is_apart=True)


def read(path: str, reading: profile.Reading) -> Source:
    """What a file tells; it refuses one that is nothing of this."""
    content = content_of(path, MOST_TABLE)
    try:
        return replace(understood(printable(pathlib.Path(path).name), without_mark(content), reading), digest=digest(content))
    except Refused as refused:
        raise Refused(f"{path}: {refused}") from refused


def understood(name: str, content: bytes, reading: profile.Reading) -> Source:
    """What these bytes tell."""
    text = content.decode(errors="replace")
    if profile.is_profile(text):
        found = profile.parse(text)
        return Source(name, superstep_costs.of_profile(found, reading), found, outcome=found.outcome())
    if source_listing.is_listing(text):
        lines = source_listing.parse(text)
        expect_reading(reading, profile.Reading.OTHERS, "the costs of lines have")
        return Source(name, superstep_costs.of_listing(lines), listing=lines, outcome=lines.outcome)
    if sweep_table.is_table(text):
        return Source(name, rows=sweep_table.parse(text))
    known = report_formats.read(content)
    if known is None:
        raise Refused("this is not a profile, a report, costs of lines or the table of a sweep")
    expect_reading(reading, reading_of(known), "a report has")
    return Source(name, superstep_costs.of_report(known), outcome=known.outcome, total=known.total)


def expect_reading(asked: profile.Reading, told: profile.Reading, has: str) -> None:
    """Refuses another h than the only one that is told."""
    if asked is not told:
        raise Refused(f"{has} one h, and this one's is that of --h {told.value}: say so, or give a profile")


def reading_of(known: report.Report) -> profile.Reading:
    """Which bytes the h of a report counts: the version of the ledger that tells of messages leaves out what ranks move to themselves."""
    tells_messages = all("m" in it.costs for it in known.supersteps)
    return profile.Reading.OTHERS if tells_messages else profile.Reading.ALL
