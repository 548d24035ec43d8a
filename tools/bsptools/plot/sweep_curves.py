"""The pictures of a sweep: totals, speedups, efficiencies, and programs against one another."""

from __future__ import annotations

import math
from collections.abc import Callable, Sequence

from matplotlib.axes import Axes
from matplotlib.lines import Line2D
from matplotlib.ticker import FixedLocator, FuncFormatter, MaxNLocator, NullLocator

from ..prices import Exact, spelled
from .canvas import IDEAL, LINES, SMALL, Picture, picture, thousands
from .sweep_table import Crossing, Line, crossings, labels

MARKERS = "os^Dvp*X"
STYLES = ["-", "--", ":", "-."]
# The numbers along a scale of powers: those within a power of ten, where so many at least are in sight with them.
STEPS = [(1,), (1, 2, 5), (1, 2, 3, 5, 7), (1, 1.5, 2, 2.5, 3, 4, 5, 6, 7, 8, 9)]
LEAST_TICKS, MOST_TICKS = 5, 12
MOST_CROSSINGS = 6
# The widths of an axis of the nodes, in points: of one of three side by side, and of one alone.
PANEL, ALONE = 175.0, 600.0
# How the ideal is drawn.
DASHES = {"color": IDEAL, "linestyle": (0, (1, 1.5)), "linewidth": 1.2, "zorder": 1}


def draw(them: list[Line], title: str) -> Picture:
    """Total, speedup and efficiency, side by side."""
    made = picture(3.6, title, foot(len(them) + 1))
    total, speedup, efficiency = made.body.subgridspec(1, 3).subplots()
    names = labels(them)
    plot(made, total, "total", them, names, lambda line, nodes: line.totals[nodes])
    total.set_title("total")
    powers(total)
    plot(made, speedup, "speedup", them, names, lambda line, nodes: line.speedup(nodes))
    speedup.set_title("speedup against the fewest nodes")
    ideal(made, speedup, them)
    doublings(speedup)
    plot(made, efficiency, "efficiency", them, names, lambda line, nodes: line.efficiency(nodes))
    efficiency.set_title("efficiency")
    efficiency.set_ylim(0, 1.1 * max(1.0, *(line.efficiency(nodes) for line in them for nodes in line.totals)))
    made.mark(efficiency.axhline(1, **DASHES), "ideal-efficiency", "ideal: efficiency 1")
    made.legend([*keys(them), Line2D([], [], **DASHES)], [*names, "ideal"], 2)
    return made


def ideal(made: Picture, axes: Axes, them: list[Line]) -> None:
    """The line of a speedup that is as great as there are times more nodes, for each number of nodes that lines begin at."""
    for fewest in sorted({it.fewest for it in them}):
        most = max(max(it.totals) for it in them if it.fewest == fewest)
        (line,) = axes.plot([fewest, most], [1, most / fewest], **DASHES)
        made.mark(line, f"ideal-{fewest}", f"ideal: on {most} nodes speedup {figures(most / fewest)}")


def compare(them: list[Line], title: str, rate: float | None = None) -> Picture:
    """The totals alone, with the crossings of programs that differ in nothing else; at a rate they are seconds too."""
    made = picture(4.0, title, foot(len(them)))
    axes = made.figure.add_subplot(made.body)
    names = labels(them)
    plot(made, axes, "total", them, names, lambda line, nodes: line.totals[nodes], ALONE)
    powers(axes)
    axes.set_ylabel("total, in ticks (logarithmic)")
    if rate is not None:
        seconds(axes, rate)
    found = crossings(them)
    for i, crossing in enumerate(found):
        show(made, axes, i, crossing, looks(them)[them.index(crossing.cheaper)]["color"])
    if found:
        more = [f"and {len(found) - MOST_CROSSINGS} more"] if len(found) > MOST_CROSSINGS else []
        axes.set_title("\n".join([*map(str, found[:MOST_CROSSINGS]), *more]), fontsize=SMALL + 1)
    made.legend(keys(them), names, 2)
    return made


def seconds(axes: Axes, rate: float) -> None:
    """A second scale, of the seconds that the totals along the first one are at a rate."""
    other = axes.secondary_yaxis("right", functions=(lambda total: total / rate, lambda time: time * rate))
    other.yaxis.set_major_locator(FixedLocator([it / rate for it in axes.get_yticks()]))
    other.yaxis.set_major_formatter(FuncFormatter(lambda value, _: f"{value:.3g}"))
    other.yaxis.set_minor_locator(NullLocator())
    other.set_ylabel(f"seconds, at {rate:,.10g} a second (logarithmic)")


def foot(names: int) -> float:
    """The height of a legend of so many names in two columns."""
    return 0.15 + 0.18 * ((names + 1) // 2)


def looks(them: list[Line]) -> list[dict[str, str]]:
    """How each line is drawn: a colour and a mark for each choice of settings and prices, and a style for each program, whose marks are
    full or empty. If there is one choice alone, the programs have colours and marks too."""
    kinds = list(dict.fromkeys((it.settings, it.prices) for it in them))
    programs = list(dict.fromkeys(it.program for it in them))
    found = []
    for line in them:
        program = programs.index(line.program)
        kind = kinds.index((line.settings, line.prices)) if len(kinds) > 1 else program
        color = LINES[kind % len(LINES)]
        # Marks go on by one where colours begin anew.
        marker = MARKERS[(kind + kind // len(LINES)) % len(MARKERS)]
        inside = "white" if (program + program // len(STYLES)) % 2 else color
        style = STYLES[program % len(STYLES)]
        found.append({"color": color, "linestyle": style, "marker": marker, "markerfacecolor": inside})
    return found


def keys(them: list[Line]) -> list[Line2D]:
    """What the legend shows for each line."""
    return [Line2D([], [], markersize=5, **look) for look in looks(them)]


def plot(
    made: Picture, axes: Axes, kind: str, them: list[Line], names: list[str], value: Callable[[Line, int], Exact | float], room: float = PANEL
) -> None:
    """A line for each of them, with a mark at each number of nodes, over an axis with room for numbers of so many points."""
    for i, (line, name, look) in enumerate(zip(them, names, looks(them))):
        nodes = list(line.totals)
        axes.plot(nodes, [float(value(line, it)) for it in nodes], color=look["color"], linestyle=look["linestyle"])
        for it in nodes:
            (mark,) = axes.plot([it], [float(value(line, it))], markersize=5, **look)
            made.mark(mark, f"{kind}-{i}-{it}", f"{name}, {it} nodes: {kind} {figures(value(line, it))}")
    axes.set_xscale("log", base=2)
    axes.set_xlabel("nodes (logarithmic)")
    axes.xaxis.set_major_formatter(FuncFormatter(lambda value, _: thousands(value)))
    axes.xaxis.set_minor_locator(NullLocator())
    axes.xaxis.set_major_locator(FixedLocator(apart(sorted({it for line in them for it in line.totals}), room)))
    axes.grid(alpha=0.25)


def apart(nodes: Sequence[Exact], room: float, is_logarithmic: bool = True) -> list[Exact]:
    """Those of these numbers, as of nodes, the fewest first, that can be written beside one another along so many points; the most is one."""

    def distance(it: Exact) -> float:
        return math.log2(it / nodes[0]) if is_logarithmic else float(it - nodes[0])

    span = distance(nodes[-1]) or 1.0
    found: list[Exact] = []
    left = math.inf
    for it in reversed(nodes):
        place, half = room * distance(it) / span, 3 * len(thousands(it)) + 2
        if place + half <= left:
            found.append(it)
            left = place - half
    return found[::-1]


def show(made: Picture, axes: Axes, index: int, crossing: Crossing, color: str) -> None:
    """A line down to the number of nodes from which a program costs less."""
    mark = axes.axvline(crossing.nodes, color=color, linestyle=":", linewidth=1.2)
    made.mark(mark, f"crossing-{index}-{crossing.nodes}", str(crossing))


def figures(value: Exact | float) -> str:
    """A total as it is, and a ratio with three digits."""
    return f"{value:.3g}" if isinstance(value, float) else spelled(value)


def powers(axes: Axes) -> None:
    """A scale of powers for totals, with plain numbers."""
    axes.set_yscale("log")
    axes.yaxis.set_major_locator(FixedLocator(ticks(*axes.get_ylim())))
    axes.yaxis.set_major_formatter(FuncFormatter(lambda value, _: thousands(value)))
    axes.yaxis.set_minor_locator(NullLocator())
    axes.set_ylabel("ticks (logarithmic)")


def ticks(low: float, high: float) -> list[float]:
    """Whole numbers along a scale of powers between two numbers."""
    decades = range(math.floor(math.log10(low)), math.ceil(math.log10(high)) + 1)
    for steps in STEPS:
        known = [step * 10.0**decade for decade in decades for step in steps]
        found = [it for it in known if low <= it <= high and it == int(it)]
        if len(found) >= LEAST_TICKS:
            return found[:: len(found) // MOST_TICKS + 1]
    return [float(it) for it in MaxNLocator(nbins=7, integer=True).tick_values(low, high)]


def doublings(axes: Axes) -> None:
    """A scale of powers for speedups, on which the ideal is straight: each number is twice the one below it."""
    axes.set_yscale("log", base=2)
    low, high = (math.log2(it) for it in axes.get_ylim())
    step = int(high - low) // MOST_TICKS + 1
    axes.yaxis.set_major_locator(FixedLocator([2.0**it for it in range(math.ceil(low), math.floor(high) + 1, step)]))
    axes.yaxis.set_major_formatter(FuncFormatter(lambda value, _: f"{value:,.4g}" if value < 1 else thousands(value)))
    axes.yaxis.set_minor_locator(NullLocator())
    axes.set_ylabel("speedup (logarithmic)")
