"""The cost of supersteps, w + g*h + l, with each part separate."""

from __future__ import annotations

from typing import NamedTuple

from ..counts.source_listing import Listing
from ..outputs.report import Report
from ..prices import Exact, spelled
from .profile import Profile, Reading


class Prices(NamedTuple):
    """g, the price of a byte of h, and l, that of a superstep's end; both in ticks."""

    g: Exact
    l: Exact

    def __str__(self) -> str:
        return f"g {spelled(self.g)}, l {spelled(self.l)}"


class Cost(NamedTuple):
    """A superstep's number, its work w in ticks, and its h-relation in bytes; and where it is known which work was printing, how much of w
    that is, and what w is without it, which another rank may make."""

    number: int
    w: int
    h: int
    printed: int | None = None
    w_without: int | None = None

    def parts(self, prices: Prices) -> tuple[Exact, Exact, Exact]:
        """Its work, its exchange and its end, in ticks."""
        return self.w, prices.g * self.h, prices.l

    def total(self, prices: Prices) -> Exact:
        """What it costs."""
        return sum(self.parts(prices))


def of_profile(profile: Profile, reading: Reading) -> list[Cost]:
    """The costs of the supersteps of a profile."""
    if not profile.is_counted:
        return [Cost(it.number, it.w, it.h(reading)) for it in profile.supersteps]
    apart = profile.without_printing().supersteps
    return [Cost(it.number, it.w, it.h(reading), it.printed, less.w) for it, less in zip(profile.supersteps, apart)]


def of_report(report: Report) -> list[Cost]:
    """The costs that a report tells."""
    return [Cost(it.number, it.costs["w"], it.costs["h"]) for it in report.supersteps]


def of_listing(listing: Listing) -> list[Cost]:
    """The costs that a run's costs of lines tell."""
    return [Cost(number, it.w, it.h, it.printed_in_w, it.without_printing) for number, it in enumerate(listing.supersteps)]


def printed(costs: list[Cost]) -> int:
    """How much of their work was printing, as far as that is known."""
    return sum(it.printed or 0 for it in costs)


def without_printing(costs: list[Cost]) -> list[Cost]:
    """The same costs without the work of printing, if that is known."""
    return [Cost(it.number, it.w if it.w_without is None else it.w_without, it.h) for it in costs]


def total(costs: list[Cost], prices: Prices) -> Exact:
    """What they cost together."""
    return sum(it.total(prices) for it in costs)
