"""The timeline: each rank's work and waiting, then the exchange and the end of the superstep."""

from __future__ import annotations

from matplotlib.axes import Axes
from matplotlib.patches import Patch, Rectangle

from ..prices import Exact, spelled
from .canvas import EXCHANGE, SMALL, SYNC, WAIT, WORK, Picture, fits, picture, thousands, whole_numbers, width
from .profile import Reading, Superstep
from .superstep_costs import Cost, Prices

BAR = 0.8
KINDS = {WORK: "work", WAIT: "waiting for the slowest rank", EXCHANGE: "exchange, g·h", SYNC: "end of the superstep, l"}
MOST_NAMED = 32
# If there are more ranks than these, neighbours share a band, of which there are at most so many.
MOST_ROWS, MOST_BANDS = 256, 64
# In a band: what most of its ranks work, and what only some do.
MOST_WORK, SOME_WORK = "#5ba6d3", "#b5d6ec"
IN_BANDS = {MOST_WORK: "up to their mean", SOME_WORK: "up to the most"}


def ranks_in_band(nodes: int) -> int:
    """How many ranks share a band; 1 if each has a bar of its own."""
    return 1 if nodes <= MOST_ROWS else -(-nodes // MOST_BANDS)


def bars(nodes: int) -> int:
    """How many bars a superstep has at most: two for a rank. A band has four, and counts as five, since its texts are longer."""
    return 2 * nodes if nodes <= MOST_ROWS else 5 * MOST_BANDS


def draw(supersteps: list[Superstep], prices: Prices, reading: Reading, title: str, is_apart: bool = False) -> Picture:
    """The timeline of these supersteps, along the time that they cost at these prices; the work may be without that of printing."""
    nodes = len(supersteps[0].shares)
    made = picture(min(1.0 + 0.3 * nodes, 7.5), title)
    axes = made.figure.add_subplot(made.body)
    start: Exact = 0
    named = 0.0
    ends = sum(Cost(it.number, it.w, it.h(reading)).total(prices) for it in supersteps)
    band = ranks_in_band(nodes)
    for superstep in supersteps:
        one = Span(superstep, start, prices, reading, max(ends, 1), band)
        one.draw(made, axes)
        named = one.name(axes, named)
        start = one.end
    axes.set_xlim(0, float(max(ends, 1)))
    axes.set_ylim(nodes - 0.5, -0.5)
    axes.set_yticks(range(0, nodes, 1 if nodes <= MOST_NAMED else nodes // 16))
    axes.set_ylabel("rank")
    axes.set_xlabel("time in ticks: work, then g·h, then l")
    whole_numbers(axes, "x")
    axes.annotate("superstep", (0, 1), (-6, 3), xycoords="axes fraction", textcoords="offset points", ha="right")
    printed, w = sum(it.printed for it in supersteps), sum(it.w for it in supersteps)
    work = "work without printing" if is_apart else f"work ({100 * printed / w:.1f} % of w printing)" if printed else KINDS[WORK]
    colors, names = list(KINDS), [work, *list(KINDS.values())[1:]]
    if band > 1:
        axes.set_ylabel(f"rank, in bands of {band}")
        colors[1:1], names[:1] = list(IN_BANDS), [f"{work} of all ranks of a band", *IN_BANDS.values()]
    made.legend([Patch(color=it) for it in colors], names, 4)
    return made


class Span:
    """One superstep in a timeline: where its work begins, its exchange, its end, and where the next superstep begins."""

    def __init__(self, superstep: Superstep, start: Exact, prices: Prices, reading: Reading, whole: Exact, band: int) -> None:
        self.superstep, self.start, self.prices, self.whole, self.band = superstep, start, prices, whole, band
        self.h = superstep.h(reading)
        self.exchange = start + superstep.w
        self.sync = self.exchange + prices.g * self.h
        self.end = self.sync + prices.l

    def draw(self, made: Picture, axes: Axes) -> None:
        """Draws all of it."""
        number, nodes = self.superstep.number, len(self.superstep.shares)
        if self.band > 1:
            for first in range(0, nodes, self.band):
                self.ranks(made, axes, first, [it.ticks for it in self.superstep.shares[first : first + self.band]])
        else:
            for rank, share in enumerate(self.superstep.shares):
                self.rank(made, axes, rank, share.ticks, share.printed)
        text = f"g·h = {spelled(self.prices.g)} × {self.h} = {spelled(self.sync - self.exchange)}"
        self.bar(made, axes, f"exchange-{number}", f"superstep {number}: {text}", EXCHANGE, -0.5, nodes, (self.exchange, self.sync))
        self.text(axes, (self.exchange, self.sync), nodes / 2 - 0.5, [text, thousands(self.sync - self.exchange)], "black")
        text = f"l = {spelled(self.end - self.sync)}"
        self.bar(made, axes, f"sync-{number}", f"superstep {number}: {text}", SYNC, -0.5, nodes, (self.sync, self.end))
        self.text(axes, (self.sync, self.end), nodes / 2 - 0.5, [text, thousands(self.end - self.sync)], "white")
        axes.axvline(float(self.end), color="black", linewidth=0.6)

    def name(self, axes: Axes, named: float) -> float:
        """Writes its number above its middle, if that is far enough from the last number; up to where numbers are written is answered."""
        middle, whole = float(self.start + self.end) / 2, float(self.whole)
        text = str(self.superstep.number)
        if not fits(text, 2 * (middle - named) / whole):
            return named
        places = {"xycoords": ("data", "axes fraction"), "textcoords": "offset points"}
        axes.annotate(text, (middle, 1), (0, 3), ha="center", **places)
        return middle + width(text) / 2 * whole

    def rank(self, made: Picture, axes: Axes, rank: int, ticks: int, printed: int) -> None:
        """The work of a rank, with the number if there is room, and its waiting."""
        number, done = self.superstep.number, self.start + ticks
        top = rank - BAR / 2
        text = f"superstep {number}, rank {rank}: work {ticks}" + (f", {printed} of it printing" if printed else "")
        self.bar(made, axes, f"work-{number}-{rank}", text, WORK, top, BAR, (self.start, done))
        text = f"superstep {number}, rank {rank}: waits {spelled(self.exchange - done)}"
        self.bar(made, axes, f"wait-{number}-{rank}", text, WAIT, top, BAR, (done, self.exchange))
        if len(self.superstep.shares) <= MOST_NAMED:
            self.text(axes, (self.start, done), rank, [thousands(ticks)], "white")

    def ranks(self, made: Picture, axes: Axes, first: int, work: list[int]) -> None:
        """The work of a band of ranks: up to the least of them, up to their mean and up to the most. Then all of them wait."""
        number, least, most, mean = self.superstep.number, min(work), max(work), sum(work) / len(work)
        text = f"superstep {number}, ranks {first} to {first + len(work) - 1}: work {least} to {most}, {mean:.10g} on average"
        ends = (0, least, round(mean), most, self.superstep.w)
        for color, begin, end in zip((WORK, MOST_WORK, SOME_WORK, WAIT), ends, ends[1:]):
            place = (self.start + begin, self.start + end)
            self.bar(made, axes, f"band-{number}-{first}-{color[1:]}", text, color, first - 0.5, len(work), place)

    def text(self, axes: Axes, x: tuple[Exact, Exact], y: float, texts: list[str], color: str) -> None:
        """The first of these texts for which there is room between two times."""
        for text in texts:
            if x[1] > x[0] and fits(text, float((x[1] - x[0]) / self.whole)):
                axes.text(float(x[0] + x[1]) / 2, y, text, color=color, fontsize=SMALL, ha="center", va="center")
                return

    @staticmethod
    def bar(made: Picture, axes: Axes, name: str, text: str, color: str, top: float, height: float, x: tuple[Exact, Exact]) -> None:
        """A bar from one time to another; none if both are the same."""
        if x[1] > x[0]:
            mark = axes.add_patch(Rectangle((float(x[0]), top), float(x[1] - x[0]), height, facecolor=color, linewidth=0))
            made.mark(mark, name, text)
