"""Which of several programs costs least, over all g and l: regions of the plane, with exact corners.

A program's cost w + g*h + l*s is a plane over (g, l). So where one costs no more than another is a half-plane, and where it costs least is
what the half-planes of all others leave of the rectangle that is looked at: a convex polygon, or nothing.
"""

from __future__ import annotations

from fractions import Fraction
from typing import NamedTuple

from ..prices import Exact
from .sweep_table import Sums


class Candidate(NamedTuple):
    """A program, with what it costs."""

    name: str
    sums: Sums


class Region(NamedTuple):
    """Where a program costs least: the corners of a polygon in order, each a g and an l."""

    best: Candidate
    corners: list[tuple[Fraction, Fraction]]


class Boundary(NamedTuple):
    """Where two programs cost the same: from one corner to another."""

    one: Candidate
    other: Candidate
    ends: tuple[tuple[Fraction, Fraction], tuple[Fraction, Fraction]]

    def __str__(self) -> str:
        w, h, s = difference(self.one, self.other)
        return f"{self.one.name} costs as much as {self.other.name} where {w} + {h} g + {s} l = 0".replace("+ -", "- ")


class Window(NamedTuple):
    """What is looked at: the least and the greatest g, and the least and the greatest l."""

    g: tuple[Exact, Exact]
    l: tuple[Exact, Exact]

    def corners(self) -> list[tuple[Fraction, Fraction]]:
        """Its corners in order."""
        (left, right), (low, high) = self.g, self.l
        return [(Fraction(g), Fraction(l)) for g, l in ((left, low), (right, low), (right, high), (left, high))]

    def has(self, g: Exact, l: Exact) -> bool:
        """Whether these prices are in sight."""
        return self.g[0] <= g <= self.g[1] and self.l[0] <= l <= self.l[1]


def difference(one: Candidate, other: Candidate) -> tuple[int, int, int]:
    """How much more one costs than another: w, h and supersteps."""
    return one.sums.w - other.sums.w, one.sums.h - other.sums.h, one.sums.supersteps - other.sums.supersteps


def surplus(one: Candidate, other: Candidate, at: tuple[Fraction, Fraction]) -> Fraction:
    """How much more one costs than another at this g and l."""
    w, h, s = difference(one, other)
    return w + h * at[0] + s * at[1]


def clipped(corners: list[tuple[Fraction, Fraction]], one: Candidate, other: Candidate) -> list[tuple[Fraction, Fraction]]:
    """The part of a convex polygon in which one costs no more than another."""
    found: list[tuple[Fraction, Fraction]] = []
    for here, there in zip(corners, [*corners[1:], *corners[:1]]):
        mine, theirs = surplus(one, other, here), surplus(one, other, there)
        if mine <= 0:
            found.append(here)
        if (mine < 0 < theirs) or (theirs < 0 < mine):
            share = mine / (mine - theirs)
            found.append((here[0] + share * (there[0] - here[0]), here[1] + share * (there[1] - here[1])))
    return found


def area(corners: list[tuple[Fraction, Fraction]]) -> Fraction:
    """The area of a polygon, twice."""
    return sum((a[0] * b[1] - b[0] * a[1] for a, b in zip(corners, [*corners[1:], *corners[:1]])), Fraction(0))


def regions(candidates: list[Candidate], window: Window) -> list[Region]:
    """Where each of these costs least, of those that do somewhere. Of programs that cost the same everywhere it is the first one."""
    found = []
    for i, one in enumerate(candidates):
        corners = window.corners()
        if any(it.sums == one.sums for it in candidates[:i]):
            continue
        for other in candidates:
            corners = clipped(corners, one, other) if other.sums != one.sums else corners
        if len(corners) > 2 and area(corners) > 0:
            found.append(Region(one, corners))
    return found


def boundaries(them: list[Region]) -> list[Boundary]:
    """The lines between regions: edges along which two programs cost the same."""
    found = []
    for i, region in enumerate(them):
        edges = list(zip(region.corners, [*region.corners[1:], *region.corners[:1]]))
        for other in them[i + 1 :]:
            for ends in edges:
                if ends[0] != ends[1] and all(surplus(region.best, other.best, it) == 0 for it in ends):
                    found.append(Boundary(region.best, other.best, ends))
    return found
