"""The picture of a run's costs beside the solution's: a bar each, with a piece for each superstep."""

from __future__ import annotations

import html
from typing import List, Sequence, Tuple

from .formulas import told

# As the pictures of bspplot have them: work, exchange, and the end of a superstep.
COLOURS = ("work", "exchange", "barrier")
WIDTH, HEIGHT, GAP, LEFT = 640, 26, 14, 92
# A piece that is narrower is not seen.
LEAST = 0.4

Supersteps = Sequence[Sequence[int]]


def picture(bars: Sequence[Tuple[str, Supersteps]], g: int, l: int) -> str:
    """A picture as a part of a page. The bars have one scale."""
    totals = [sum(w + g * h + l for w, h, *_ in it) for _, it in bars]
    most = max(1, *totals)
    height = len(bars) * (HEIGHT + GAP) + GAP
    parts = [f'<svg class="bars" viewBox="0 0 {WIDTH} {height}" role="img">']
    names = ", ".join(f"{name}: {told(total)} ticks in {len(it)} supersteps" for (name, it), total in zip(bars, totals))
    parts.append(f"<title>{html.escape(names)}</title>")
    for number, ((name, supersteps), total) in enumerate(zip(bars, totals)):
        y = GAP + number * (HEIGHT + GAP)
        parts.append(f'<text x="{LEFT - 8}" y="{y + HEIGHT * 0.68:.1f}" class="name">{html.escape(name)}</text>')
        parts += pieces(supersteps, g, l, y, (WIDTH - LEFT - 90) / most)
        end = LEFT + total * (WIDTH - LEFT - 90) / most
        parts.append(f'<text x="{end + 6:.1f}" y="{y + HEIGHT * 0.68:.1f}">{told(total)}</text>')
    return "".join([*parts, "</svg>"])


def pieces(supersteps: Supersteps, g: int, l: int, y: float, scale: float) -> List[str]:
    """The pieces of a bar, each of which tells what it is where the pointer is over it."""
    found, x = [], float(LEFT)
    for number, (w, h, *_) in enumerate(supersteps):
        for kind, size, name in zip(COLOURS, (w, g * h, l), ("w", "g h", "l")):
            width = size * scale
            if width >= LEAST:
                what = f"superstep {number}: {name} = {told(size)}"
                found.append(f'<rect class="{kind}" x="{x:.1f}" y="{y}" width="{width:.1f}" height="{HEIGHT}"><title>{what}</title></rect>')
            x += width
        found.append(f'<line class="end" x1="{x:.1f}" y1="{y - 3}" x2="{x:.1f}" y2="{y + HEIGHT + 3}"/>')
    return found
