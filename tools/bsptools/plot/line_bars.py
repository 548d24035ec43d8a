"""The picture of the most expensive lines: their own cost, and that of the library functions they call."""

from __future__ import annotations

from matplotlib.patches import Patch

from ..counts.source_listing import Line, Listing
from .canvas import SMALL, WAIT, WORK, Picture, picture, thousands, whole_numbers

MOST_LINES = 16
MOST_LETTERS = 52


def draw(listing: Listing, title: str) -> Picture:
    """The bars, the dearest line at the top."""
    lines = sorted((it for it in listing.lines if it.folded > 0), key=lambda it: -it.folded)[:MOST_LINES]
    made = picture(0.6 + 0.24 * len(lines), title)
    axes = made.figure.add_subplot(made.body)
    for at, line in enumerate(lines):
        name, share = name_of(listing, line), 100 * line.folded / max(listing.w, 1)
        [bar] = axes.barh([at], [float(line.folded)], 0.8, color=WAIT)
        made.mark(bar, f"folded-{at}", f"{name}: {line.folded} with library functions")
        if line.paid:
            [bar] = axes.barh([at], [float(line.paid)], 0.8, color=WORK)
            made.mark(bar, f"line-{at}", f"{name}: {line.paid} by itself")
        text = f"{thousands(line.folded)}, {share:.1f} %"
        axes.annotate(text, (float(line.folded), at), (3, 0), textcoords="offset points", va="center", fontsize=SMALL)
    axes.set_yticks(range(len(lines)), [label(listing, it) for it in lines], fontsize=SMALL, family="DejaVu Sans Mono")
    axes.set_ylim(len(lines) - 0.4, -0.6)
    axes.set_xlim(0, 1.25 * max((float(it.folded) for it in lines), default=1.0))
    axes.set_xlabel("steps of the slowest ranks, which add up to w; and their share of w")
    whole_numbers(axes, "x")
    made.legend([Patch(color=WORK), Patch(color=WAIT)], ["by itself", "with the library functions that it calls"], 2)
    return made


def name_of(listing: Listing, line: Line) -> str:
    """A line's file and number, or the function."""
    return f"{listing.files[line.file].name}:{line.number}" if line.file >= 0 else line.function


def label(listing: Listing, line: Line) -> str:
    """A line's name, and what stands there."""
    name = name_of(listing, line)
    text = text_of(listing, line).strip()
    whole = f"{name}  {text}" if text else f"{name} (no line)"
    return whole if len(whole) <= MOST_LETTERS else whole[: MOST_LETTERS - 3] + "..."


def text_of(listing: Listing, line: Line) -> str:
    """What stands at a line."""
    return "".join(listing.files[line.file].text[line.number - 1 : line.number]) if line.file >= 0 else ""
