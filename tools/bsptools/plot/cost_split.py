"""The picture of the cost of each superstep, split into w, g*h and l."""

from __future__ import annotations

from matplotlib.patches import Patch

from ..prices import Exact, spelled
from .canvas import EXCHANGE, SMALL, SYNC, WORK, Picture, fits, picture, thousands, whole_numbers
from .superstep_costs import Cost, Prices, printed, total

NAMES = [("w", "work, w", WORK), ("gh", "exchange, g·h", EXCHANGE), ("l", "end, l", SYNC)]
MOST_NAMED = 40
# In a line of the legend.
MOST_LETTERS = 105


def legend(costs: list[Cost], prices: Prices, is_apart: bool) -> list[str]:
    """What each part comes to, and how much of the work was printing, if that is known."""
    whole = total(costs, prices)
    sums = [sum(it.parts(prices)[index] for it in costs) for index in range(len(NAMES))]
    shares = [f"{label}: {thousands(it)} ticks, {float(100 * it / max(whole, 1)):.1f} %" for (_, label, _), it in zip(NAMES, sums)]
    if is_apart:
        shares[0] = shares[0].replace("w:", "w without printing:", 1)
    elif printed(costs):
        shares[0] += f" ({thousands(printed(costs))} printing)"
    return shares


def draw(costs: list[Cost], prices: Prices, title: str, is_apart: bool = False) -> Picture:
    """A bar for each of these supersteps, of its three parts, one above the other; the work may be without that of printing."""
    shares = legend(costs, prices, is_apart)
    columns = len(NAMES) if sum(map(len, shares)) <= MOST_LETTERS else 1
    made = picture(3.2, title, 0.3 if columns > 1 else 0.65)
    axes = made.figure.add_subplot(made.body)
    below: list[Exact] = [0] * len(costs)
    at = range(len(costs))
    for index, (name, label, color) in enumerate(NAMES):
        parts = [it.parts(prices)[index] for it in costs]
        bars = axes.bar(at, list(map(float, parts)), 0.8, list(map(float, below)), color=color)
        for cost, part, bar in zip(costs, parts, bars):
            if part:
                more = f", {cost.printed} of it printing" if cost.printed and index == 0 else ""
                made.mark(bar, f"{name}-{cost.number}", f"superstep {cost.number}: {label.split(', ')[1]} = {spelled(part)}{more}")
            else:
                bar.set_visible(False)
        below = [low + part for low, part in zip(below, parts)]
    for x, cost in zip(at, costs):
        text = thousands(cost.total(prices))
        if fits(text, 1 / len(costs)):
            axes.annotate(text, (x, float(cost.total(prices))), (0, 2), textcoords="offset points", fontsize=SMALL, ha="center")
    step = 1 if len(costs) <= MOST_NAMED else len(costs) // 16
    axes.set_xticks(at[::step], [str(it.number) for it in costs[::step]])
    axes.set_xlim(-0.6, len(costs) - 0.4)
    axes.margins(y=0.1)
    axes.set_xlabel("superstep")
    axes.set_ylabel("ticks")
    whole_numbers(axes, "y")
    made.legend([Patch(color=color) for _, _, color in NAMES], shares, columns)
    return made
