"""Reads pictures as SVG: their marks, with titles and positions, and their texts."""

from __future__ import annotations

import re
import xml.etree.ElementTree as ElementTree
from dataclasses import dataclass
from typing import Dict, List, Sequence, Tuple

SPACE = "{http://www.w3.org/2000/svg}"
LINK = "{http://www.w3.org/1999/xlink}href"
NUMBER = re.compile(r"-?\d+(?:\.\d+)?(?:e-?\d+)?")


@dataclass(frozen=True)
class Mark:
    """A mark: the axes that it stands in, what is told of it, its left, top, right and bottom edge, and how it is filled."""

    axes: str
    text: str
    left: float
    top: float
    right: float
    bottom: float
    style: str = ""


@dataclass(frozen=True)
class Drawing:
    """A picture: its marks by their names, its texts, and the ticks along each axis, as `axes_1 x`, each with its number and its place."""

    marks: Dict[str, Mark]
    texts: List[str]
    ticks: Dict[str, List[Tuple[float, float]]]

    def named(self, begin: str) -> Dict[str, Mark]:
        """The marks whose names begin so."""
        return {name: mark for name, mark in self.marks.items() if name.startswith(begin)}

    def are_at(self, which: str, pairs: Sequence[Tuple[str, float, float]]) -> bool:
        """Whether marks stand where an axis, `x` or `y`, has their values: each mark's name, a value of it, and its place."""
        found: Dict[str, List[Tuple[float, float]]] = {}
        for name, value, place in pairs:
            found.setdefault(self.marks[name].axes, []).append((value, place))
        return all(self.ticks.get(f"{it} {which}") and is_straight(here + self.ticks[f"{it} {which}"]) for it, here in found.items())


def edges(path: str) -> Tuple[float, float, float, float]:
    """The edges of a path of straight lines."""
    numbers = [float(it) for it in NUMBER.findall(path)]
    x, y = numbers[::2], numbers[1::2]
    return min(x), min(y), max(x), max(y)


def read(text: str) -> Drawing:
    """A picture from its text."""
    root = ElementTree.fromstring(text)
    marks: Dict[str, Mark] = {}
    ticks: Dict[str, List[Tuple[float, float]]] = {}
    for axes in root.iter(f"{SPACE}g"):
        if axes.get("id", "").startswith("axes_"):
            read_axes(axes, marks, ticks)
    return Drawing(marks, ["".join(it.itertext()) for it in root.iter(f"{SPACE}text")], ticks)


def read_axes(axes: ElementTree.Element, marks: Dict[str, Mark], ticks: Dict[str, List[Tuple[float, float]]]) -> None:
    """Adds the marks and ticks of one part of a picture."""
    for group in axes.iter(f"{SPACE}g"):
        name = group.get("id", "")
        title, path = group.find(f"{SPACE}title"), group.find(f"{SPACE}path")
        use, label = next(group.iter(f"{SPACE}use"), None), next(group.iter(f"{SPACE}text"), None)
        if title is not None and use is not None:
            x, y = float(use.attrib["x"]), float(use.attrib["y"])
            marks[name] = Mark(axes.attrib["id"], title.text or "", x, y, x, y)
        elif title is not None:
            # The path of a line that is a mark lies in a part of its own.
            path = path if path is not None else next(group.iter(f"{SPACE}path"))
            marks[name] = Mark(axes.attrib["id"], title.text or "", *edges(path.attrib["d"]), path.get("style", ""))
        elif name[1:].startswith("tick_") and use is not None and label is not None:
            place = float(use.attrib[name[0]])
            ticks.setdefault(f"{axes.attrib['id']} {name[0]}", []).append((float("".join(label.itertext()).replace(",", "")), place))


def is_straight(pairs: List[Tuple[float, float]], slack: float = 0.02) -> bool:
    """Whether places in a picture follow from values by one straight line, up to a small part of the whole."""
    low, high = min(pairs), max(pairs)
    if high[0] == low[0]:
        return all(abs(place - low[1]) <= slack for _, place in pairs)
    slope = (high[1] - low[1]) / (high[0] - low[0])
    return slope != 0 and all(abs(place - low[1] - slope * (value - low[0])) <= slack for value, place in pairs)
