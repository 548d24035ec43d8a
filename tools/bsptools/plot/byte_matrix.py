"""The matrix of bytes: how many each rank sent to each other rank, and the sums."""

from __future__ import annotations

import enum
from typing import NamedTuple

from matplotlib.axes import Axes
from matplotlib.cm import ScalarMappable
from matplotlib.colors import LinearSegmentedColormap, ListedColormap, Normalize
from matplotlib.patches import Patch, Rectangle
from matplotlib.ticker import FuncFormatter, MaxNLocator

from .canvas import EXCHANGE, SMALL, SUMS, WORK, Picture, fits, ink, picture, thousands, whole_numbers, width
from .profile import Reading, Superstep

# Up to so many ranks each cell is a mark by itself; above, all of them are one image.
MOST_MARKED = 64
# Above this many ranks, neighbours share a row and a column, so that there are no more of these.
MOST_ROWS = 256
MOST_NAMED = 16
# The shares of a picture's width that the matrix has, and the margin beside it.
BODY, SIDE = 0.68, 0.16
SHADES = LinearSegmentedColormap.from_list("bytes", ["#dcebf7", WORK, "#00253d"])
# What ranks moved to themselves where that does not count in h.
APART = "#a6a6a6"
KEPT = {"facecolor": "#f4f4f4", "edgecolor": "#767676", "hatch": "////", "linewidth": 0}


def summed(supersteps: list[Superstep]) -> dict[tuple[int, int], int]:
    """The bytes that went from rank to rank in all of these supersteps."""
    found: dict[tuple[int, int], int] = {}
    for superstep in supersteps:
        for pair, count in superstep.transfers.items():
            found[pair] = found.get(pair, 0) + count
    return found


class Kind(enum.Enum):
    """What a margin has: a sum for each row, or for each column."""

    SENT = "sent"
    RECEIVED = "received"


class Sums(NamedTuple):
    """What each rank sent and what it received in some supersteps, as h counts it, and the sum of h over these."""

    sent: list[int]
    received: list[int]
    h: int

    @property
    def most(self) -> int:
        """The greatest of them."""
        return max(*self.sent, *self.received)


def sums(supersteps: list[Superstep], reading: Reading) -> Sums:
    """The sums of these supersteps."""
    ranks = list(zip(*(it.shares for it in supersteps)))
    kept = [sum(share.kept for share in rank) if reading is Reading.ALL else 0 for rank in ranks]
    sent = [sum(share.sent for share in rank) + more for rank, more in zip(ranks, kept)]
    received = [sum(share.received for share in rank) + more for rank, more in zip(ranks, kept)]
    return Sums(sent, received, sum(it.h(reading) for it in supersteps))


def in_groups(found: dict[tuple[int, int], int], size: int, reading: Reading) -> dict[tuple[int, int], int]:
    """The bytes between groups of so many ranks. What a rank moved to itself has no part in them if it does not count in h."""
    grouped: dict[tuple[int, int], int] = {}
    for (rank, to), count in found.items():
        if rank != to or reading is Reading.ALL:
            pair = (rank // size, to // size)
            grouped[pair] = grouped.get(pair, 0) + count
    return grouped


def draw(supersteps: list[Superstep], reading: Reading, title: str) -> Picture:
    """The matrix of these supersteps, taken together: a row for each rank that sent, a column for each that received."""
    nodes = len(supersteps[0].shares)
    found, margins = summed(supersteps), sums(supersteps, reading)
    size = -(-nodes // MOST_ROWS)
    if size > 1:
        found = in_groups(found, size, reading)
    made = picture(min(2.15 + 0.34 * nodes, 7.55), title)
    parts = made.body.subgridspec(2, 2, width_ratios=[5, 1.3], height_ratios=[min(0.34 * nodes, 5.4), 1], wspace=0.02, hspace=0.02)
    axes = made.figure.add_subplot(parts[0, 0])
    counted = [count for (rank, to), count in found.items() if rank != to or size > 1 or reading is Reading.ALL]
    shade = Normalize(0, float(max(counted, default=1)))
    if nodes <= MOST_MARKED:
        cells(made, axes, found, shade, reading, nodes)
    else:
        image(axes, found, shade, reading, nodes, size)
    frame(axes, nodes)
    if not found:
        axes.text(nodes / 2 - 0.5, nodes / 2 - 0.5, "no bytes went from rank to rank", ha="center", va="center")
    right = made.figure.add_subplot(parts[0, 1], sharey=axes)
    below = made.figure.add_subplot(parts[1, 0], sharex=axes)
    margin(made, right, Kind.SENT, margins, reading)
    margin(made, below, Kind.RECEIVED, margins, reading)
    if counted:
        label = "bytes" if size == 1 else f"bytes from {size} ranks to {size} ranks"
        bar = made.figure.colorbar(ScalarMappable(shade, SHADES), ax=[axes, right], label=label, pad=0.01, aspect=30)
        whole_numbers(bar.ax, "y")
    explain(made, margins, len(supersteps), reading, size == 1 and any(rank == to for rank, to in found))
    return made


def frame(axes: Axes, nodes: int) -> None:
    """The ranks along both sides of the matrix."""
    axes.set_xlim(-0.5, nodes - 0.5)
    axes.set_ylim(nodes - 0.5, -0.5)
    step = 1 if nodes <= 32 else nodes // 16
    # Numbers of five digits have no room for one another below them.
    axes.set_xticks(range(0, nodes, 2 * step if nodes > 10_000 else step))
    axes.set_yticks(range(0, nodes, step))
    axes.tick_params(top=True, labeltop=True, bottom=False, labelbottom=False)
    axes.spines[:].set_visible(True)
    axes.set_xlabel("to rank")
    axes.xaxis.set_label_position("top")
    axes.set_ylabel("from rank")


def cells(made: Picture, axes: Axes, found: dict[tuple[int, int], int], shade: Normalize, reading: Reading, nodes: int) -> None:
    """A cell for each two ranks between which bytes went, with their number if there is room."""
    for (rank, to), count in sorted(found.items()):
        is_kept = rank == to and reading is Reading.OTHERS
        look = KEPT if is_kept else {"facecolor": SHADES(shade(float(count))), "edgecolor": "white", "linewidth": 0.5}
        mark = axes.add_patch(Rectangle((to - 0.5, rank - 0.5), 1, 1, **look))
        text = f"{count} bytes from rank {rank} to rank {to}"
        made.mark(mark, f"bytes-{rank}-{to}", f"{text}, which do not count in h" if is_kept else text)
        if nodes <= MOST_NAMED and count < 10_000_000:
            size = SMALL if count < 100_000 else SMALL - 2
            box = {"facecolor": "#f4f4f4", "linewidth": 0, "pad": 0.5} if is_kept else None
            color = "black" if is_kept else ink(SHADES(shade(float(count))))
            axes.text(to, rank, thousands(count), fontsize=size, color=color, ha="center", va="center", bbox=box)


def image(axes: Axes, found: dict[tuple[int, int], int], shade: Normalize, reading: Reading, nodes: int, size: int) -> None:
    """All cells as one image, with a row and a column for so many ranks. A cell is empty if no bytes went. Those that do not count in h are
    grey."""
    apart = {(rank, to) for rank, to in found if rank == to and size == 1 and reading is Reading.OTHERS}
    nothing, rows = float("nan"), -(-nodes // size)
    values = [[nothing if (rank, to) in apart else float(found.get((rank, to), nothing)) for to in range(rows)] for rank in range(rows)]
    end = rows * size - 0.5
    axes.imshow(values, cmap=SHADES, norm=shade, interpolation="none", aspect="auto", extent=(-0.5, end, end, -0.5))
    if apart:
        values = [[1.0 if (rank, to) in apart else nothing for to in range(nodes)] for rank in range(nodes)]
        axes.imshow(values, cmap=ListedColormap([APART]), interpolation="none", aspect="auto")


def margin(made: Picture, axes: Axes, kind: Kind, margins: Sums, reading: Reading) -> None:
    """A bar for each rank's sum, beside its row or below its column; the greatest of both margins are marked. Ranks that share a row have a
    bar for the greatest of their sums."""
    is_right, counts = kind is Kind.SENT, margins.sent if kind is Kind.SENT else margins.received
    group = -(-len(counts) // MOST_ROWS)
    for first in range(0, len(counts), group):
        count, rank = max((it, -rank) for rank, it in enumerate(counts[first : first + group], first))
        size, wide = float(count), group if group > 1 else 0.8
        side = first - wide / 2 if group == 1 else first - 0.5
        place = (0, side, size, wide) if is_right else (side, 0, wide, size)
        if count:
            bar = axes.add_patch(Rectangle(place[:2], *place[2:], facecolor=EXCHANGE if count == margins.most else SUMS, linewidth=0))
            made.mark(bar, f"{kind.value}-{-rank}", f"rank {-rank} {kind.value} {count} bytes{whom(kind, reading)}")
    most, texts = float(max(margins.most, 1)), [thousands(it) if it else "" for it in counts]
    # The numbers stand behind the ends of the bars, in a part of the margin that is kept for them.
    room = max(map(width, texts)) / SIDE if is_right else 0.3
    has_room = len(counts) <= MOST_NAMED and room < 0.6 and (is_right or all(fits(it, BODY / len(counts)) for it in texts))
    for rank, (count, text) in enumerate(zip(counts, texts)):
        if has_room:
            where = {"xytext": (3, 0), "va": "center"} if is_right else {"xytext": (0, -3), "ha": "center", "va": "top"}
            weight = "bold" if count == margins.most else "normal"
            end = (float(count), rank) if is_right else (rank, float(count))
            axes.annotate(text, end, textcoords="offset points", fontsize=SMALL, weight=weight, **where)
    scale(axes, kind, most / (1 - room) if has_room else 1.05 * most)


def scale(axes: Axes, kind: Kind, top: float) -> None:
    """The bytes along a margin, whose other axis is that of the ranks."""
    is_right = kind is Kind.SENT
    along, ranks = (axes.xaxis, axes.yaxis) if is_right else (axes.yaxis, axes.xaxis)
    ranks.set_tick_params(left=False, top=False, bottom=False, labelleft=False, labeltop=False, labelbottom=False)
    along.set_major_locator(MaxNLocator(nbins=max(2, min(4, 20 // len(thousands(top)))) if is_right else 3, integer=True))
    along.set_major_formatter(FuncFormatter(lambda value, _: thousands(value)))
    if is_right:
        axes.set_xlim(0, top)
        axes.set_xlabel("bytes sent")
        axes.xaxis.set_label_position("top")
    else:
        axes.set_ylim(top, 0)
        axes.set_ylabel("bytes received")
        axes.spines["bottom"].set_visible(False)


def whom(kind: Kind, reading: Reading) -> str:
    """Whom a rank sent to, or received from, where only others count."""
    if reading is Reading.ALL:
        return ", with those to itself"
    return " to others" if kind is Kind.SENT else " from others"


def explain(made: Picture, margins: Sums, supersteps: int, reading: Reading, has_kept: bool) -> None:
    """Says what the colours of the margins are, and what h is."""
    most = f"the greatest: h = {thousands(margins.h)}"
    # Over several supersteps h may have been made by one rank, and then by another.
    if margins.most != margins.h:
        most = f"the greatest: {thousands(margins.most)}; the sum of h over {supersteps} supersteps: {thousands(margins.h)}"
    known = [(Patch(color=SUMS), "bytes of a rank"), (Patch(color=EXCHANGE), most)]
    if has_kept and reading is Reading.OTHERS:
        known.append((Patch(**(KEPT if len(margins.sent) <= MOST_MARKED else {"color": APART})), "to itself, not in h"))
    made.legend([it for it, _ in known], [text for _, text in known], len(known))
