"""Tables and pictures of a sweep as texts for TeX: tabulars with the rules of booktabs, and axes of pgfplots with their coordinates."""

from __future__ import annotations

import math
from collections.abc import Iterable, Iterator, Sequence

from ..prices import Exact, spelled
from .axis_curves import LABELS, MOST_PLACES, RATIOS, names_of, scales
from .best_map import COLORS, Map, curved, expected
from .best_map import names_of as names_of_maps
from .best_regions import Window, boundaries
from .canvas import LINES
from .paper_style import HANDLE, LETTERS, SLOPE, Style, across
from .sweep_axes import NODES, Panel
from .sweep_curves import apart, ticks

SPECIAL = {"\\": r"\textbackslash{}", "~": r"\textasciitilde{}", "^": r"\textasciicircum{}", "\u2026": r"\dots{}"}
SPECIAL.update({it: f"\\{it}" for it in "#$%&_{}"})
MARKS = ["*", "square*", "triangle*", "diamond*", "pentagon*", "x", "+", "star"]
DASHES = ["solid", "dashed", "dotted", "dashdotted"]
PATTERNS = ["", "north east lines", "north west lines", "crosshatch", "horizontal lines", "vertical lines", "grid", "dots"]
# What is left of all axes, between two of them, and below one, in inches; points of an inch.
LEFT, GAP, BELOW, INCH = 1.02, 0.22, 0.35, 72
# How far an axis goes on beyond its points.
MARGIN = 1.25
# Digits that pgfplots computes with, and more.
DIGITS = 10


def escaped(text: str) -> str:
    """A text in which nothing is a command of TeX."""
    return "".join(SPECIAL.get(it, it) for it in text)


def front(origin: str, packages: str) -> list[str]:
    """Comments at the beginning: which packages it wants, and where it comes from. JSON has no line feed."""
    return [f"% In the preamble: {packages}", f"% {origin}"]


def cell(value: Exact, y: str, decimals: int | None) -> str:
    """A value of a table: exact, or with so many decimals if it is no whole number; a ratio has three digits if nothing is said."""
    if decimals is not None and (y in RATIOS or value != int(value)):
        whole, rest = divmod(round(value * 10**decimals), 10**decimals)
        return f"{whole}.{rest:0{decimals}d}" if decimals else str(whole)
    return f"{float(value):.3g}" if y in RATIOS else spelled(value)


def table(panels: list[Panel], x: str, y: str, origin: str, decimals: int | None = None) -> str:
    """A tabular with a row for each place along the axis below, and a column for each line."""
    names = names_of(panels)
    lines = [*front(origin, r"\usepackage{booktabs}"), rf"\begin{{tabular}}{{r{'r' * len(names)}}}", r"\toprule"]
    lines.append(" & ".join(escaped(it) for it in [x, *names]) + r" \\")
    for panel in panels:
        lines.append(r"\midrule")
        if panel.title:
            lines += [rf"\multicolumn{{{len(names) + 1}}}{{l}}{{{escaped(panel.title)}}} \\", r"\addlinespace"]
        values = {curve.name: curve.values for curve in panel.curves}
        for at in sorted({it for curve in panel.curves for it in curve.values}):
            cells = [cell(values[name][at], y, decimals) if at in values.get(name, {}) else "--" for name in names]
            lines.append(" & ".join([spelled(at), *cells]) + r" \\")
    return "\n".join([*lines, r"\bottomrule", r"\end{tabular}", ""])


def coordinates(points: list[tuple[float, float]]) -> str:
    """Points for pgfplots."""
    return " ".join(f"({x:.{DIGITS}g},{y:.{DIGITS}g})" for x, y in points)


def colors(them: list[str], name: str) -> list[str]:
    """Colours by names for TeX."""
    return [rf"\definecolor{{{name}{at}}}{{HTML}}{{{it[1:].upper()}}}" for at, it in enumerate(them)]


def group(panels: int, style: Style, height: float, names: list[str]) -> list[str]:
    """The options of axes side by side, whose names stand below the first one of the last row. Width and height are those of all axes: numbers
    and labels are drawn around these."""
    columns = across(panels, style)
    rows = -(-panels // columns)
    tall = style.height / rows if style.height else height
    edges = f"horizontal sep={GAP}in, vertical sep=1.4cm, y descriptions at=edge left"
    wide = (style.width - LEFT - GAP * (columns - 1)) / columns
    beside = max(1, min(len(names), int(style.width * LETTERS / (max(map(len, names)) + HANDLE))))
    legend = f"legend style={{at={{(0,0)}}, yshift=-1.05cm, anchor=north west, draw=none, font=\\footnotesize, legend columns={beside},"
    legend += " /tikz/every even column/.append style={column sep=0.4cm}}"
    return [f"group style={{group size={columns} by {rows}, {edges}}}", "scale only axis", f"width={wide:.4g}in", f"height={tall - BELOW:.4g}in",
            legend, "legend cell align=left", "title style={font=\\small}", "tick label style={font=\\footnotesize}"]  # fmt: skip


def axes(options: list[str], panels: list[tuple[str, list[str]]], x: str, columns: int, legend: Iterable[str]) -> Iterator[str]:
    """A picture of some axes with these options, each with a title and what is in it. The last one of a column names what is along it."""
    yield r"\begin{tikzpicture}"
    yield rf"\begin{{groupplot}}[{', '.join(options)}]"
    last = (len(panels) - 1) // columns * columns
    for number, (title, lines) in enumerate(panels):
        own = [f"title={{{escaped(title)}}}"] if title else []
        own += [f"xlabel={{{escaped(x)}}}"] if number + columns >= len(panels) else []
        yield rf"\nextgroupplot[{', '.join(own)}]" if own else r"\nextgroupplot"
        yield from lines
        if number == last:
            yield from legend
    yield r"\end{groupplot}"
    yield r"\end{tikzpicture}"


def numbers(name: str, at: Sequence[Exact | float]) -> str:
    """The numbers along an axis."""
    return f"{name}tick={{{','.join(f'{float(it):.{DIGITS}g}' for it in at)}}}"


def modes(logarithmic: str, base: int = 10) -> list[str]:
    """The scales of axes."""
    return [f"{name}mode={'log' if name in logarithmic else 'normal'}" for name in "xy"] + [f"log basis x={base}"] * (base != 10)


def stroke(at: int) -> str:
    """How a line is drawn."""
    return f"color=line{at % len(LINES)}, {DASHES[at % len(DASHES)]}, mark={MARKS[at % len(MARKS)]}, mark options={{solid}}"


def curves(panels: list[Panel], x: str, y: str, log: str | None, style: Style, origin: str) -> str:
    """The lines of a sweep as coordinates."""
    names, logarithmic, columns = names_of(panels), scales(panels, y, log), across(len(panels), style)
    values = [float(it) for panel in panels for curve in panel.curves for it in curve.values.values()]
    places = sorted({it for panel in panels for curve in panel.curves for it in curve.values})
    low, high = (min(values) / MARGIN, max(values) * MARGIN) if "y" in logarithmic else (min(0.0, *values), max(values) * (1 + (MARGIN - 1) / 4))
    shown = [*group(len(panels), style, SLOPE * style.width / columns, names), *modes(logarithmic, 2 if x == NODES else 10),
             f"ylabel={{{escaped(LABELS.get(y, y))}}}", f"ymin={low:.{DIGITS}g}, ymax={high:.{DIGITS}g}", "log ticks with fixed point"]  # fmt: skip
    if "x" in logarithmic or len(places) <= MOST_PLACES:
        shown.append(numbers("x", apart(places, style.width / columns * INCH, "x" in logarithmic)))
    shown += [numbers("y", ticks(low, high))] if "y" in logarithmic else []
    parts = []
    for panel in panels:
        lines = []
        for curve in panel.curves:
            points = [(float(it), float(value)) for it, value in curve.values.items()]
            lines.append(rf"\addplot[{stroke(names.index(curve.name))}, forget plot] coordinates {{{coordinates(points)}}};")
        parts.append((panel.title, lines))
    named = [line for at, name in enumerate(names) for line in (rf"\addlegendimage{{{stroke(at)}}}", rf"\addlegendentry{{{escaped(name)}}}")]
    packages = r"\usepackage{pgfplots} \usepgfplotslibrary{groupplots}"
    return "\n".join([*front(origin, packages), *colors(LINES, "line"), *axes(shown, parts, LABELS.get(x, x), columns, named), ""])


def regions(them: list[Map], window: Window, log: str | None, style: Style, origin: str) -> str:
    """The maps of what costs least as coordinates."""
    names, logarithmic, columns = names_of_maps(them), expected(window, log), across(len(them), style)
    limits = [f"{name}min={float(low):.{DIGITS}g}, {name}max={float(high):.{DIGITS}g}" for name, (low, high) in (("x", window.g), ("y", window.l))]
    shown = [*group(len(them), style, SLOPE * style.width / columns, names), *modes(logarithmic), *limits, "ylabel={l, in ticks}", "axis on top"]
    parts = [(one.title, list(regions_of(one, names, logarithmic, window))) for one in them]
    packages = r"\usepackage{pgfplots} \usepgfplotslibrary{groupplots} \usetikzlibrary{patterns}"
    drawn = axes(shown, parts, LABELS["g"], columns, legend(names))
    return "\n".join([*front(origin, packages), *colors(COLORS, "region"), *drawn, ""])


def legend(names: list[str]) -> Iterator[str]:
    """The names of all regions, also of those that no map in sight has."""
    for at, name in enumerate(names):
        yield rf"\addlegendimage{{area legend, {filling(at)}}}"
        yield rf"\addlegendentry{{{escaped(name)}}}"


def filling(at: int) -> str:
    """How a region is filled."""
    pattern = PATTERNS[at % len(PATTERNS)]
    own = f", postaction={{pattern={pattern}, pattern color=gray}}" if pattern else ""
    return f"draw=none, fill=region{at % len(COLORS)}{own}"


def regions_of(one: Map, names: list[str], logarithmic: str, window: Window) -> Iterator[str]:
    """The regions of a map, the lines between them, and the machines there."""
    for region in one.regions:
        at, points = names.index(region.best.name), coordinates(curved(region.corners, logarithmic, is_closed=True))
        yield rf"\addplot[{filling(at)}, forget plot] coordinates {{{points}}} -- cycle;"
    for it in boundaries(one.regions):
        yield rf"\addplot[black, thick, forget plot] coordinates {{{coordinates(curved(list(it.ends), logarithmic))}}};"
    for (g, l), name in one.machines.items():
        if window.has(g, l):
            point, side = coordinates([(float(g), float(l))]), anchored(window, logarithmic, float(g), float(l))
            node = rf" node[{side}, font=\footnotesize, inner sep=2pt] {{{escaped(name)}}}" if name else ""
            yield rf"\addplot[only marks, mark=*, mark size=1.2pt, forget plot] coordinates {{{point}}}{node};"


def anchored(window: Window, logarithmic: str, g: float, l: float) -> str:
    """On which side of a dot its name is, so that it stays within the axes."""

    def share(name: str, value: float, ends: tuple[Exact, Exact]) -> float:
        low, high = map(float, ends)
        return math.log(value / low) / math.log(high / low) if name in logarithmic else (value - low) / (high - low)

    return f"{'below' if share('y', l, window.l) > 0.5 else 'above'} {'left' if share('x', g, window.g) > 0.5 else 'right'}"
