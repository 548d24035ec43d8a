"""A program's source in a page: beside each line its cost, by ranks and by supersteps."""

from __future__ import annotations

import html
import pathlib
from collections.abc import Iterator

from ..counts.source_listing import Line, Listing
from .canvas import thousands
from .page import Section, table

# Of ranks by hue, and of supersteps beside a line; where there are more, several of them share one.
MOST_HUES, MOST_CELLS = 16, 24
# Of a file, and of functions without lines.
MOST_LINES, MOST_FUNCTIONS = 5000, 50
# The shares of w from which on a line is dear, and from which on its supersteps are shown.
DEAR, SHOWN = 0.05, 0.005
HEADS = (
    '<div class="line heads"><span class="number">line</span><span class="paid">by itself</span><span class="folded">with library</span>'
    '<span class="share">of w</span><span class="ranks">ranks</span><span class="supersteps">supersteps</span></div>'
)

STYLE = pathlib.Path(__file__).with_name("annotated.css").read_text(encoding="utf-8")
SOURCE = (
    "Beside each line: what it costs by itself, in steps of the slowest ranks, which add up to w; what it costs with the library functions"
    " that it calls, and the share of w that this is; a bar of what all ranks made there so, each rank with its hue; and a field for each"
    " superstep, the darker the more of that superstep's w is made there. What several lines call is apportioned by numbers of calls. The"
    " pointer on a number, a bar or a field shows more."
)
FUNCTIONS = "Functions without lines here, as a library's, the most expensive first: what they cost by themselves, and their share of w."


def groups(count: int, most: int) -> list[range]:
    """Numbers from 0 on in groups of neighbours, of which there are no more than so many."""
    size = max(1, -(-count // most))
    return [range(start, min(start + size, count)) for start in range(0, count, size)]


def numbered(name: str, them: range) -> str:
    """A group by its numbers."""
    return f"{name} {them[0]}" if len(them) == 1 else f"{name}s {them[0]} to {them[-1]}"


class Rows:
    """The rows of lines, whose bars have one scale."""

    def __init__(self, listing: Listing, lines: list[Line]) -> None:
        self.listing = listing
        self.ranks, self.cells = groups(listing.nodes, MOST_HUES), groups(len(listing.supersteps), MOST_CELLS)
        self.most = max((sum(it.ranks) for it in lines), default=0) or 1

    def legend(self) -> str:
        """Which hue is of which rank."""
        marks = (f'<span><i class="hue h{at}"></i>{numbered("rank", it)}</span>' for at, it in enumerate(self.ranks))
        return f'<p class="legend">{" ".join(marks)}</p>'

    def row(self, number: int, text: str, line: Line | None) -> str:
        """A line of a source: its number, what it costs, if it costs something, and what stands there."""
        if line is None:
            return f'<div class="line"><span class="number">{number}</span><code>{html.escape(text)}</code></div>'
        kind = "dear" if line.folded >= DEAR * self.listing.w > 0 else "cost"
        called = "" if line.folded == line.paid else thousands(line.folded)
        return (
            f'<div class="line {kind}" title="{self.title(line)}"><span class="number">{number}</span>'
            f'<span class="paid">{thousands(line.paid)}</span><span class="folded">{called}</span>'
            f'<span class="share">{share(line.folded, self.listing.w)}</span>'
            f'<span class="bar">{"".join(self.bar(line))}</span>{self.cells_of(line)}'
            f"<code>{html.escape(text)}</code></div>"
        )

    @staticmethod
    def title(line: Line) -> str:
        """What is told of a line if there is no room for it."""
        parts = [f"{line.function}: {line.paid} by itself"]
        if line.with_calls is not None:
            parts.append(f"{line.with_calls} with all that it calls{'' if line.is_exact else ', apportioned'}")
        if line.h:
            parts.append(f"{line.h} bytes of h")
        return html.escape("; ".join(parts))

    def bar(self, line: Line) -> Iterator[str]:
        """What the ranks made, each with its hue."""
        for at, ranks in enumerate(self.ranks):
            steps = sum(line.ranks[it] for it in ranks)
            if steps:
                width = f"{100 * steps / self.most:.3f}%"
                yield f'<i class="hue h{at}" style="width: {width}" title="{numbered("rank", ranks)}: {steps}"></i>'

    def cells_of(self, line: Line) -> str:
        """A field for each superstep of a line that costs something of note."""
        is_shown = line.folded >= SHOWN * self.listing.w > 0
        return f'<span class="cells">{"".join(self.fields(line))}</span>' if is_shown else ""

    def fields(self, line: Line) -> Iterator[str]:
        """What is paid in each superstep."""
        for supersteps in self.cells:
            paid = sum(line.supersteps.get(it, 0) for it in supersteps)
            w = sum(self.listing.supersteps[it].w for it in supersteps)
            title = f"{numbered('superstep', supersteps)}: {paid} of w {w}"
            yield f'<i title="{title}"><b style="opacity: {paid / max(w, 1):.3f}"></b></i>'


def share(part: int, whole: int) -> str:
    """A part in the hundred."""
    return f"{100 * part / max(whole, 1):.1f} %"


def sections(listing: Listing) -> Iterator[Section]:
    """Each source, and the functions without lines."""
    rows = Rows(listing, [it for it in listing.lines if it.file >= 0])
    for at, file in enumerate(listing.files):
        lines = {it.number: it for it in listing.lines if it.file == at}
        body = "\n".join(rows.row(number, text, lines.get(number)) for number, text in enumerate(file.text[:MOST_LINES], 1))
        more = f" The first {MOST_LINES} of {len(file.text)} lines are shown." if len(file.text) > MOST_LINES else ""
        yield Section(file.name, SOURCE + more, f'{rows.legend()}\n<div class="source">\n{HEADS}\n{body}\n</div>')
    functions = [it for it in listing.lines if it.file < 0 and it.paid > 0]
    if functions:
        shown = [[it.function, thousands(it.paid), share(it.paid, listing.w)] for it in functions[:MOST_FUNCTIONS]]
        more = f" The first {MOST_FUNCTIONS} of {len(functions)} are shown." if len(functions) > MOST_FUNCTIONS else ""
        yield Section("Functions without lines", FUNCTIONS + more, table(["function", "steps", "share of w"], shown))


def style(listing: Listing) -> str:
    """The style of the rows, with the colours of the ranks, neighbours of which differ in lightness too."""
    ranks, cells = groups(listing.nodes, MOST_HUES), groups(len(listing.supersteps), MOST_CELLS)
    hues = (f".h{at} {{ background: hsl({360 * at // len(ranks)}, 60%, {(42, 62)[at % 2]}%); }}\n" for at in range(len(ranks)))
    return STYLE.replace("CELLS", str(8 * len(cells))) + "".join(hues)
