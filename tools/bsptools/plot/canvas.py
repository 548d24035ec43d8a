"""Figures: sizes, colours, marks with names, and files that have the same bytes each time."""

from __future__ import annotations

import contextlib
import html
import io
import os
import pathlib
import re
import textwrap
import warnings
from collections.abc import Callable, Iterator, Sequence
from dataclasses import dataclass, field
from fractions import Fraction

import matplotlib
from matplotlib.artist import Artist
from matplotlib.axes import Axes
from matplotlib.figure import Figure
from matplotlib.gridspec import SubplotSpec
from matplotlib.text import Text

from .. import files
from ..prices import Exact, grouped
from ..refusals import Refused, printable
from .picture_formats import KINDS, ORIGIN

# Colours that stay apart in grey too, and for those who do not see all of them. What stands beside one another differs in lightness.
WORK, WAIT, EXCHANGE, SYNC = "#0072b2", "#dadada", "#e69f00", "#4b2a6b"
# Of a sum that is not the greatest.
SUMS = "#4a6f8f"
LINES = ["#1144ff", "#33bbaa", "#770011", "#dd3300", "#0099dd", "#220077", "#88cc77", "#882255"]
IDEAL = "#767676"

WIDTH = 9.6
SMALL = 8
# Of a title's line, and of the numbers along an axis.
MOST_LETTERS = 85
MOST_DIGITS = 100


@dataclass
class Picture:
    """A figure with its body and, below that, a foot for the legend; a text for each of its marks by the name that the mark has in an
    SVG, which a browser shows under the pointer; and where it comes from."""

    figure: Figure
    body: SubplotSpec
    foot: Axes
    texts: dict[str, str] = field(default_factory=dict)
    # Where it comes from, as a file of it says.
    origin: str = ""

    def metadata(self, kind: str) -> dict[str, str | None]:
        """What a file of this kind says beside the picture."""
        return {**KINDS[kind], **({ORIGIN[kind]: self.origin} if self.origin else {})}

    def legend(self, handles: Sequence[Artist], names: Sequence[str], columns: int, length: float = 2.0) -> None:
        """Says what the colours are, beside lines of so many letters."""
        # matplotlib leaves a name out that begins with _, unless it is given later.
        legend = self.foot.legend(handles, ["."] * len(names), loc="center", ncol=columns, borderaxespad=0, handlelength=length)
        for text, name in zip(legend.get_texts(), names):
            text.set_text(name)

    def mark(self, artist: Artist, name: str, text: str) -> None:
        """Names a mark, and says what it stands for."""
        artist.set_gid(name)
        self.texts[name] = shown(text)

    def spell(self, escaped: Callable[[str], str] = str) -> None:
        """Has each text stand as it is written. Between two dollars matplotlib reads a formula, and what cannot be shown is in no SVG. TeX has
        letters of its own that have to be escaped."""
        for text in self.figure.findobj(Text):
            text.set_parse_math(False)
            text.set_text(escaped(shown(text.get_text())))

    def svg(self) -> str:
        """The picture as SVG."""
        self.spell()
        written = io.StringIO()
        with drawing():
            self.figure.savefig(written, format="svg", metadata=self.metadata(".svg"))
        return re.sub(r'<g id="([^"]+)">', self.named, written.getvalue())

    def named(self, found: re.Match[str]) -> str:
        """The beginning of a part of the picture, with the text for it."""
        text = self.texts.get(found[1])
        return found[0] if text is None else f"{found[0]}<title>{html.escape(text)}</title>"

    def save(self, path: str) -> None:
        """Writes the picture in the form that the name of its file asks for."""
        kind = pathlib.Path(path).suffix.lower()
        if kind == ".svg":
            files.write(path, self.svg())
            return
        self.spell()
        written = io.BytesIO()
        with drawing():
            self.figure.savefig(written, format=kind[1:], metadata=self.metadata(kind))
        files.write(path, written.getvalue())


@contextlib.contextmanager
def drawing() -> Iterator[None]:
    """Refuses what matplotlib cannot draw, as a picture that is too large. It also warns of a font that lacks a letter: a box stands for that."""
    # No picture has a date, but matplotlib would refuse one that it cannot read.
    os.environ.pop("SOURCE_DATE_EPOCH", None)
    with warnings.catch_warnings():
        warnings.simplefilter("ignore", UserWarning)
        try:
            yield
        except (RuntimeError, ValueError, ArithmeticError) as error:
            raise Refused(f"the picture cannot be drawn: {error}") from error


def shown(text: str) -> str:
    """A text of lines, without what cannot be shown."""
    return "\n".join(map(printable, text.split("\n")))


def picture(height: float, title: str, foot: float = 0.3) -> Picture:
    """An empty picture of the width of a page, with a body and a foot of these heights in inches."""
    lines = textwrap.wrap(title, MOST_LETTERS)
    figure = Figure(figsize=(WIDTH, height + foot + 0.1 + 0.25 * len(lines)), layout="constrained")
    if title:
        figure.suptitle("\n".join(lines), x=0.01, ha="left", fontsize=12)
    grid = figure.add_gridspec(2, 1, height_ratios=[height, foot])
    below = figure.add_subplot(grid[1])
    below.axis("off")
    return Picture(figure, grid[0], below)


def thousands(number: Exact | float) -> str:
    """A number with a comma at each thousand: a whole one, or two decimals of an exact one that is not whole."""
    return grouped(number) if isinstance(number, Fraction) else f"{number:,.0f}"


def whole_numbers(axes: Axes, which: str) -> None:
    """Whole numbers at an axis, `x` or `y`, each thousand parted."""
    axis = getattr(axes, f"{which}axis")
    longest = thousands(max(getattr(axes, f"get_{which}lim")()))
    most = 9 if which == "y" else max(2, min(9, MOST_DIGITS // (len(longest) + 3)))
    axis.set_major_locator(matplotlib.ticker.MaxNLocator(nbins=most, integer=True))
    axis.set_major_formatter(matplotlib.ticker.FuncFormatter(lambda value, _: thousands(value)))


def ink(paper: str | Sequence[float]) -> str:
    """Black or white, whichever is read better on this colour."""
    red, green, blue = (it / 12.92 if it <= 0.04045 else ((it + 0.055) / 1.055) ** 2.4 for it in matplotlib.colors.to_rgb(paper))
    return "black" if 0.2126 * red + 0.7152 * green + 0.0722 * blue > 0.179 else "white"


def width(text: str) -> float:
    """About the share of a picture's width that a small text takes, with some room beside it."""
    return (len(text) + 1) * SMALL * 0.64 / (WIDTH * 72 * 0.88)


def fits(text: str, share: float) -> bool:
    """Whether a small text fits into this share of a picture's width."""
    return width(text) <= share
