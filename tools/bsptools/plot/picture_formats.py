"""The file formats of pictures, their metadata, and how a command line spells sizes and ranges.

None of this needs matplotlib, so that a wrong command line is refused without it.
"""

from __future__ import annotations

import argparse
import re
from collections.abc import Callable

from ..prices import Exact

# In which field of a file stands where its picture comes from.
ORIGIN = {".svg": "Description", ".png": "Description", ".pdf": "Subject"}
# By the ends of their names: what keeps the day and the program out of each.
KINDS = {
    ".svg": {"Date": None, "Creator": None},
    ".png": {"Software": None},
    ".pdf": {"CreationDate": None, "Creator": None, "Producer": None},
}
# For papers: what LaTeX draws by itself, and what it draws by pgfplots.
PGF, TEX = ".pgf", ".tex"
# What the axes of a sweep may have, and which of them may be logarithmic.
MEASURES = ("total", "w", "h", "supersteps", "speedup", "efficiency")
LOGS = ("none", "x", "y", "xy")
# Inches in each unit of a size, and the least and the most of them.
UNITS = {"in": 1.0, "cm": 1 / 2.54, "mm": 1 / 25.4, "pt": 1 / 72.27}
LEAST, MOST = 1.0, 40.0
SIZE = re.compile(r"(\d{1,5}(?:\.\d{1,5})?)(in|cm|mm|pt)(?:x(\d{1,5}(?:\.\d{1,5})?)(in|cm|mm|pt))?", re.ASCII)


def size(text: str) -> tuple[float, float]:
    """A size as `3.3in` or `8.4cmx6cm`, in inches; a height that is not given is 0."""
    found = SIZE.fullmatch(text)
    width = float(found[1]) * UNITS[found[2]] if found else 0.0
    height = float(found[3]) * UNITS[found[4]] if found and found[3] else 0.0
    if not LEAST <= width <= MOST or (height and not LEAST <= height <= MOST):
        raise argparse.ArgumentTypeError(f"{text!r}: a size is a width from 1in to 40in, and maybe a height, as 3.3in or 84mmx60mm")
    return width, height


def price_range(one: Callable[[str], Exact]) -> Callable[[str], tuple[Exact, Exact]]:
    """A reader of a range of prices, as `0.1:100`."""

    def read(text: str) -> tuple[Exact, Exact]:
        low, colon, high = text.partition(":")
        found = one(low), one(high or low)
        if not colon or found[0] >= found[1]:
            raise argparse.ArgumentTypeError(f"{text!r}: give a range as 0.1:100, the lesser first")
        return found

    return read
