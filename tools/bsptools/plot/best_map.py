"""The map of which program costs least for each g and l, with the lines on which two programs cost the same."""

from __future__ import annotations


from fractions import Fraction
from typing import NamedTuple

from matplotlib.axes import Axes
from matplotlib.patches import Patch, Polygon
from matplotlib.ticker import FuncFormatter
from matplotlib.transforms import Bbox

from ..prices import Exact, spelled
from ..refusals import Refused, counted
from .axis_curves import headed, labelled, plain, powers
from .best_regions import Candidate, Region, Window, boundaries, regions
from .canvas import Picture
from .paper_style import Style, across, grid
from .sweep_axes import MACHINE, MOST_PANELS, NODES, PRICES, PROGRAM, Axes as Asked, Frame
from .sweep_table import Row, telling

# What is looked at if nothing is said.
G_RANGE: tuple[Exact, Exact] = (Fraction(1, 10), 100)
L_RANGE: tuple[Exact, Exact] = (10, 100_000)
# Colours of regions, each with a hatching, so that they are told apart in grey. Hatchings of circles would take LaTeX minutes.
COLORS = ["#ffffff", "#9ecae1", "#fdd0a2", "#d9d9d9", "#c7e9c0", "#dadaeb", "#fcbba1", "#ffeda0"]
HATCHES = ["", "//", "\\\\", "xx", "--", "||", "++", "////"]
# Half of the room that a dot takes, in pixels; and points of an inch.
DOT, POINT = 5, 72
# Pieces of an edge, which is no straight line on logarithmic axes.
PIECES = 48


class Map(NamedTuple):
    """The regions of one number of nodes, or of another choice of settings, and the prices of the table that lie there by their names."""

    title: str
    regions: list[Region]
    machines: dict[tuple[Exact, Exact], str]


def maps(rows: list[Row], asked: Asked, window: Window) -> list[Map]:
    """A map for each number of nodes, and for each choice of what else was asked to part panels."""
    frame = Frame(rows, asked)
    for name in PRICES:
        if name in (*asked.panels, *(asked.by or ())):
            raise Refused(f"g and l are the axes of a map, and machines its dots: leave {name} out of --by and --panels")
    differing = [it for it in frame.varying() if it not in PRICES]
    panels = list(dict.fromkeys([*asked.panels, *([NODES] if NODES in differing else [])]))
    by = list(asked.by) if asked.by is not None else [it for it in differing if it not in panels]
    if asked.by is None and len(by) > 1:
        # Of two sizes of a problem the smaller one always costs less, which is no answer.
        raise Refused(f"the runs differ in {' and '.join(by)}, but a map compares what does the same work: give --by {by[0]} --panels"
                      f" {','.join(by[1:])}, or --by {','.join(by)} if all of them do")  # fmt: skip
    left = [it for it in differing if it not in panels and it not in by]
    if left:
        raise Refused(f"the runs differ in {left[0]}: give --by {','.join([*by, left[0]])}, --panels {left[0]} or --only {left[0]}=VALUE")
    groups: dict[tuple[str, ...], list[Row]] = {}
    for row in frame.rows:
        groups.setdefault(tuple(frame.cell(row, name) for name in panels), []).append(row)
    if len(groups) > MOST_PANELS:
        raise Refused(f"the picture would have {len(groups)} maps; the limit is {MOST_PANELS}: choose some by --only NAME=VALUE,..")
    found = [one_map(frame, key, panels, by, them, window) for key, them in groups.items()]
    if all(len(it.regions) < 2 for it in found) and len({tuple(frame.cell(row, it) for it in by) for row in frame.rows}) < 2:
        raise Refused("the table has only one program: a map compares several programs, or several values of a setting")
    return found


def one_map(frame: Frame, key: tuple[str, ...], panels: list[str], by: list[str], rows: list[Row], window: Window) -> Map:
    """The map of these runs."""
    keys = {tuple(frame.cell(row, name) for name in by): row for row in rows}
    parts = [[("" if name == PROGRAM else name, it) for name, it in zip(by, one) if it] or [("", "all")] for one in keys]
    names = telling(parts) if len(parts) > 1 else [part[0][1] for part in parts]
    candidates = [Candidate(name, row.sums) for name, row in zip(names, keys.values()) if row.sums is not None]
    title = ", ".join(counted(int(it), "node") if name == NODES else it if name == PROGRAM else f"{name} {it}" for name, it in zip(panels, key))
    machines = {(row.g, row.l): frame.cell(row, MACHINE) for row in rows}
    return Map(title, regions(candidates, window), machines)


def names_of(them: list[Map]) -> list[str]:
    """The names of all that cost least somewhere, each once."""
    return list(dict.fromkeys(region.best.name for one in them for region in one.regions))


def look(index: int) -> dict[str, str]:
    """How a region is filled."""
    return {"facecolor": COLORS[index % len(COLORS)], "hatch": HATCHES[(index + index // len(COLORS)) % len(HATCHES)], "edgecolor": "#777777"}


def draw(them: list[Map], window: Window, log: str | None, style: Style, title: str) -> Picture:
    """All maps, with one legend."""
    names, logarithmic = names_of(them), expected(window, log)
    made, axes, columns = grid(style, title, len(them), names)
    for number, (one, place) in enumerate(zip(them, axes)):
        headed(place, one.title, len(them), style)
        for at, region in enumerate(one.regions):
            text = f"{region.best.name} costs least here, with w {region.best.sums.w}, h {region.best.sums.h} in {region.best.sums.supersteps} supersteps"
            corners = curved(region.corners, logarithmic, is_closed=True)
            made.mark(place.add_patch(Polygon(corners, linewidth=0, **look(names.index(region.best.name)))), f"region-{number}-{at}", text)
        for at, it in enumerate(boundaries(one.regions)):
            (line,) = place.plot(*zip(*curved(list(it.ends), logarithmic)), color="black", linewidth=1.1)
            made.mark(line, f"boundary-{number}-{at}", str(it))
        scaled(place, window, logarithmic)
        labelled(place, ["g", "l"], logarithmic, (number, len(them), across(len(them), style)))
    made.legend([Patch(**{**look(at), "edgecolor": "#555555"}) for at in range(len(names))], names, columns)
    # Where names of machines have room is known when all else has its place. No name is a formula there either.
    made.spell()
    made.figure.draw_without_rendering()
    for number, (one, place) in enumerate(zip(them, axes)):
        marked(made, place, one, window, number)
    return made


def expected(window: Window, log: str | None) -> str:
    """The axes that are logarithmic: both if nothing is said."""
    chosen = "xy" if log is None else "" if log == "none" else log
    for name, least in (("x", window.g[0]), ("y", window.l[0])):
        if name in chosen and least == 0:
            raise Refused(f"a logarithmic axis cannot show 0: begin --{'g' if name == 'x' else 'l'}-range above it, or give --log none")
    return chosen


def curved(corners: list[tuple[Fraction, Fraction]], logarithmic: str, is_closed: bool = False) -> list[tuple[float, float]]:
    """Points along the edges between corners, so that they bend as they have to on logarithmic axes."""
    found: list[tuple[float, float]] = []
    for a, b in zip(corners, [*corners[1:], *(corners[:1] if is_closed else [])]):
        (g0, l0), (g1, l1) = ((float(it[0]), float(it[1])) for it in (a, b))
        shares = {0.0, 1.0}
        for start, end, name in ((g0, g1, "x"), (l0, l1, "y")):
            if name in logarithmic and start > 0 and end > 0 and start != end:
                shares |= {(start * (end / start) ** (it / PIECES) - start) / (end - start) for it in range(1, PIECES)}
        found += [(g0 + it * (g1 - g0), l0 + it * (l1 - l0)) for it in sorted(shares)]
    return found


def marked(made: Picture, axes: Axes, one: Map, window: Window, number: int) -> None:
    """The prices of the table that lie in sight, by the names of machines that have them."""
    seen = [(g, l, name) for (g, l), name in sorted(one.machines.items()) if window.has(g, l)]
    taken = []
    for at, (g, l, name) in enumerate(seen):
        (mark,) = axes.plot([float(g)], [float(l)], marker="o", color="black", markersize=4, linestyle="none", zorder=5)
        made.mark(mark, f"prices-{number}-{at}", f"{name or 'prices of the table'}: g {spelled(g)}, l {spelled(l)}")
        taken.append(Bbox.from_bounds(*(axes.transData.transform((float(g), float(l))) - DOT), 2 * DOT, 2 * DOT))
    for (g, l, name), dot in zip(seen, list(taken)):
        if name:
            taken.append(named(axes, name, (float(g), float(l)), dot, taken))


def named(axes: Axes, name: str, at: tuple[float, float], dot: Bbox, taken: list[Bbox]) -> Bbox:
    """Writes the name of a machine beside its dot: within the axes, and over nothing that has taken its place if there is such a place. Its own
    is answered."""
    box = {"facecolor": "white", "edgecolor": "none", "pad": 0.8, "alpha": 0.85}
    text = axes.annotate(name, at, (0, 0), textcoords="offset points", bbox=box, annotation_clip=False, zorder=6, fontsize="small", parse_math=False)
    text.set_in_layout(False)
    size, frame = text.get_window_extent(), axes.get_window_extent()
    middle = (dot.x0 + dot.x1) / 2, (dot.y0 + dot.y1) / 2
    places = []
    for rise in (DOT, -DOT - size.height, -size.height / 2, 2 * DOT + size.height, -2 * DOT - 2 * size.height):
        for left in (middle[0] + DOT, middle[0] - DOT - size.width):
            x = max(frame.x0 + 1, min(left, frame.x1 - size.width - 1))
            y = max(frame.y0 + 1, min(middle[1] + rise, frame.y1 - size.height - 1))
            places.append(Bbox.from_bounds(x, y, size.width, size.height))
    found = min(places, key=lambda it: sum(overlap(it, other) for other in taken))
    text.xyann = ((found.x0 - size.x0) * POINT / axes.figure.dpi, (found.y0 - size.y0) * POINT / axes.figure.dpi)
    return found


def overlap(one: Bbox, other: Bbox) -> float:
    """The area that two places share."""
    both = Bbox.intersection(one, other)
    return float(both.width * both.height) if both is not None else 0.0


def scaled(axes: Axes, window: Window, logarithmic: str) -> None:
    """The axes of a map."""
    for name, limits in (("x", window.g), ("y", window.l)):
        getattr(axes, f"set_{name}lim")(*map(float, limits))
        if name in logarithmic:
            powers(axes, name, 10)
        getattr(axes, f"{name}axis").set_major_formatter(FuncFormatter(lambda value, _: plain(value)))
