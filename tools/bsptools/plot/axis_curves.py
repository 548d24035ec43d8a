"""The picture of a sweep along any of its columns, in one panel or several."""

from __future__ import annotations

import textwrap

from matplotlib.axes import Axes
from matplotlib.lines import Line2D
from matplotlib.ticker import FixedLocator, FuncFormatter, LogLocator, NullLocator

from ..prices import Exact, grouped, spelled
from ..refusals import Refused
from .canvas import IDEAL, LINES, Picture, thousands
from .paper_style import Style, across, grid
from .sweep_axes import NODES, Panel
from .sweep_curves import MARKERS, STYLES, apart

# Of an axis of a picture by itself; among several panels the name of a column is enough.
LABELS = {"total": "total, in ticks", "w": "w, in ticks", "h": "h, in bytes", "nodes": "nodes", "g": "g, in ticks a byte", "l": "l, in ticks"}
RATIOS = ("speedup", "efficiency")
# Points of an inch that numbers may take, and how many times as much the most is where powers alone are named.
POINTS, MANY = 50, 200
# Letters of a title in an inch of a panel, and at least; the length of a line in a legend, in letters, at which its dashes are told apart.
TITLE, LEAST_TITLE, LONG = 11, 10, 3.2
# At most so many numbers are along an axis at the places of the points if it is not logarithmic.
MOST_PLACES = 8
# From how many times as much on an axis is logarithmic if nothing is said.
WIDE = 8


def scales(panels: list[Panel], y: str, asked: str | None) -> str:
    """Which axes are logarithmic: those that were asked for by name, or those along which values differ much."""
    xs = [it for panel in panels for curve in panel.curves for it in curve.values]
    ys = [it for panel in panels for curve in panel.curves for it in curve.values.values()]
    found = {"x": min(xs) > 0 and max(xs) >= WIDE * min(xs), "y": y != "efficiency" and min(ys) > 0 and max(ys) >= WIDE * min(ys)}
    if asked is None:
        return "".join(name for name in "xy" if found[name])
    for name, values in (("x", xs), ("y", ys)):
        if name in asked and min(values) <= 0:
            raise Refused(f"--log {asked}: {name} has the value 0, which a logarithmic axis cannot show: leave {name} out, or leave 0 out by --only")
    return "" if asked == "none" else asked


def names_of(panels: list[Panel]) -> list[str]:
    """The names of all lines, each once."""
    return list(dict.fromkeys(curve.name for panel in panels for curve in panel.curves))


def look(index: int) -> dict[str, str]:
    """How a line is drawn: the first ones differ in colour, style and mark, so that they are told apart in grey too."""
    color = LINES[index % len(LINES)]
    style = STYLES[(index + index // len(LINES)) % len(STYLES)]
    inside = "white" if index // len(STYLES) % 2 else color
    return {"color": color, "linestyle": style, "marker": MARKERS[(index + index // len(LINES)) % len(MARKERS)], "markerfacecolor": inside}


def draw(panels: list[Panel], x: str, y: str, log: str | None, style: Style, title: str) -> Picture:
    """All panels, with one legend."""
    names, logarithmic = names_of(panels), scales(panels, y, log)
    shown = [*names, "ideal"] if y in RATIOS and x == NODES else names
    made, axes, columns = grid(style, title, len(panels), shown if len(shown) > 1 else [])
    for number, (panel, one) in enumerate(zip(panels, axes)):
        headed(one, panel.title, len(panels), style)
        for curve in panel.curves:
            line(made, one, f"{number}-{names.index(curve.name)}", curve.name, curve.values, look(names.index(curve.name)), (x, y))
        if len(shown) > len(names):
            ideal(one, panel, y)
        scaled(one, logarithmic, x, y, places(panel))
        labelled(one, [x, y], logarithmic, (number, len(panels), across(len(panels), style)))
    if len(shown) > 1:
        handles = [Line2D([], [], **look(at)) for at in range(len(names))]
        handles += [Line2D([], [], color=IDEAL, linestyle=":")] * (len(shown) - len(names))
        made.legend(handles, shown, columns, LONG)
    return made


def headed(axes: Axes, title: str, panels: int, style: Style) -> None:
    """The title of a panel, in as many lines as its width asks for."""
    if title:
        letters = int(style.width / across(panels, style) * TITLE)
        axes.set_title("\n".join(textwrap.wrap(title, max(letters, LEAST_TITLE))), fontsize="medium")


def line(
    made: Picture, axes: Axes, key: str, name: str, values: dict[Exact, Exact], how: dict[str, str], names: tuple[str, str]
) -> None:
    """A line, with a mark at each of its points, which says what stands there."""
    axes.plot([float(it) for it in values], [float(it) for it in values.values()], color=how["color"], linestyle=how["linestyle"])
    for at, value in values.items():
        (mark,) = axes.plot([float(at)], [float(value)], **{**how, "linestyle": "none"})
        told = f"{float(value):.3g}" if names[1] in RATIOS else spelled(value)
        made.mark(mark, f"point-{key}-{spelled(at).replace('/', '_')}", f"{name}, {names[0]} {spelled(at)}: {names[1]} {told}")


def places(panel: Panel) -> list[Exact]:
    """All places along the axis below, the least first."""
    return sorted({it for curve in panel.curves for it in curve.values})


def ideal(axes: Axes, panel: Panel, y: str) -> None:
    """The best that there can be: as many times quicker as there are nodes more than the fewest, and an efficiency of 1."""
    for first in sorted({min(curve.values) for curve in panel.curves}):
        last = max(max(curve.values) for curve in panel.curves if min(curve.values) == first)
        values = [1.0, float(last) / float(first)] if y == "speedup" else [1.0, 1.0]
        axes.plot([float(first), float(last)], values, color=IDEAL, linestyle=":", zorder=1)


def scaled(axes: Axes, logarithmic: str, x: str, y: str, at: list[Exact]) -> None:
    """The scales of a panel's axes, with plain numbers; those along the axis below are at points."""
    for name, what in (("x", x), ("y", y)):
        if name in logarithmic:
            powers(axes, name, 2 if what in (NODES, "speedup") else 10)
        # A scale has a form of numbers of its own.
        getattr(axes, f"{name}axis").set_major_formatter(FuncFormatter(lambda value, _: plain(value)))
    if "x" in logarithmic or len(at) <= MOST_PLACES:
        room = axes.figure.get_figwidth() * axes.get_subplotspec().get_gridspec().ncols ** -1 * POINTS
        axes.xaxis.set_major_locator(FixedLocator([float(it) for it in apart(at, room, "x" in logarithmic)]))
    if y in RATIOS and "y" not in logarithmic:
        axes.set_ylim(bottom=0)
    axes.grid(alpha=0.25)


def powers(axes: Axes, name: str, base: int) -> None:
    """A scale of powers, with numbers between them too if few are in sight."""
    getattr(axes, f"set_{name}scale")("log", base=base)
    low, high = getattr(axes, f"get_{name}lim")()
    axis = getattr(axes, f"{name}axis")
    axis.set_major_locator(LogLocator(base=base, subs=(1, 2, 5) if base == 10 and high < low * MANY else (1,)))
    axis.set_minor_locator(NullLocator())


def labelled(axes: Axes, names: list[str], logarithmic: str, place: tuple[int, int, int]) -> None:
    """The names of what is along the axes: the first panel of a row and the last one of a column have them."""
    number, count, columns = place
    wanted = {"x": number + columns >= count, "y": number % columns == 0}
    for name, what in zip("xy", names):
        label = (LABELS.get(what, what) if count == 1 else what) + (" (log)" if name in logarithmic else "")
        if wanted[name]:
            getattr(axes, f"set_{name}label")(label)
    # Panels share what is along the axis at the side.
    axes.tick_params(labelleft=wanted["y"])


def plain(value: float) -> str:
    """A number along an axis: whole, or with as many digits as it needs."""
    return thousands(value) if value == int(value) else f"{value:.4g}" if abs(value) < 1000 else grouped(int(value))
