"""Pictures for papers: of a given size, in a given font, with one or several panels and a legend below them."""

from __future__ import annotations

import contextlib
import math
from collections.abc import Iterator
from typing import NamedTuple

import matplotlib
from matplotlib.axes import Axes
from matplotlib.figure import Figure

from ..refusals import Refused
from .canvas import WIDTH, Picture

# The width in inches below which letters are smaller.
NARROW = 5.0
GENERIC = ("serif", "sans-serif", "monospace")
# The height of a panel for its width, and of a line of the legend in inches; letters of a legend in an inch.
SLOPE, LINE, LETTERS = 0.66, 0.17, 15
# What a line of the legend takes beside its name, in letters.
HANDLE = 8
# Panels side by side, at most.
MOST_ACROSS = 3


class Style(NamedTuple):
    """The width and the height of a picture in inches, 0 for one that follows from what it has, and the family of its font."""

    width: float = WIDTH
    height: float = 0.0
    font: str = ""


@contextlib.contextmanager
def styled(style: Style) -> Iterator[None]:
    """A block in which texts have the font of a style, and letters that suit its width."""
    from matplotlib import font_manager

    settings: dict[str, object] = {"font.size": 8, "axes.titlesize": 9, "lines.markersize": 4} if style.width < NARROW else {}
    if style.font and style.font not in GENERIC:
        try:
            font_manager.findfont(style.font, fallback_to_default=False)
        except ValueError as error:
            raise Refused(f"there is no font {style.font!r} here; {', '.join(GENERIC)} are always there") from error
    with matplotlib.rc_context({**settings, **({"font.family": [style.font]} if style.font else {})}):
        yield


def across(panels: int, style: Style) -> int:
    """How many panels stand side by side."""
    return min(panels, MOST_ACROSS if style.width >= NARROW else 1 if style.width < 2.5 else 2)


def grid(style: Style, title: str, panels: int, names: list[str]) -> tuple[Picture, list[Axes], int]:
    """An empty picture with these panels, and room for a legend of these names in columns, of which the number is answered."""
    columns = across(panels, style)
    rows = math.ceil(panels / columns)
    longest = max([len(it) for it in names] or [1])
    if longest + HANDLE > style.width * LETTERS:
        raise Refused(f"a width of {style.width:.3g}in has no room for a name of {longest} letters below the picture: give more, or part"
                      " panels by --panels, or choose by --only, so that names are shorter")  # fmt: skip
    beside = max(1, min(len(names), 4, int(style.width * LETTERS / (longest + HANDLE))))
    foot = 0.08 + LINE * math.ceil(len(names) / beside) if names else 0.02
    body = style.height - foot if style.height else rows * (SLOPE * style.width / columns + 0.6 * (panels > 1))
    if body <= 0.5:
        raise Refused(f"a height of {style.height:.3g} inches has no room for {len(names)} names: give more, or a width alone")
    figure = Figure(figsize=(style.width, body + foot + (0.25 if title else 0)), layout="constrained")
    if title:
        figure.suptitle(title, x=0.01, ha="left")
    whole = figure.add_gridspec(2, 1, height_ratios=[body, foot])
    below = figure.add_subplot(whole[1])
    below.axis("off")
    cells = whole[0].subgridspec(rows, columns)
    axes = [figure.add_subplot(cells[0, 0])]
    axes += [figure.add_subplot(cells[at // columns, at % columns], sharey=axes[0]) for at in range(1, panels)]
    return Picture(figure, whole[0], below), axes, beside
