"""Chooses what is drawn from which input: pictures, and pages of them."""

from __future__ import annotations

import argparse
from collections.abc import Callable
from dataclasses import dataclass, field
from typing import TypeVar

from .. import files
from ..counts.source_listing import Listing
from ..prices import spelled
from ..refusals import Refused, counted, tell
from . import annotated_source, byte_matrix, cost_split, line_bars, page, paper_pictures, picture_options, picture_origin, plot_inputs
from . import superstep_costs, sweep_axes, sweep_curves, sweep_table, timeline
from .canvas import Picture, thousands
from .profile import Reading, Superstep
from .superstep_costs import Cost, Prices, total

# A picture has at most so many supersteps, a timeline so many bars, and a sweep so many lines.
MOST_SUPERSTEPS = 100
MOST_BARS = 4096
MOST_DRAWN = 100
PICTURES = ("timeline", "matrix", "costs", "lines", "sweep", "compare")
# Those of a sweep that are for papers.
PAPERS = tuple(paper_pictures.TEXTS)
# What has the number of a superstep.
Shown = TypeVar("Shown", Cost, Superstep)


@dataclass(frozen=True)
class Plan:
    """What is to be drawn, and from what."""

    options: argparse.Namespace
    source: plot_inputs.Source
    notes: list[str] = field(default_factory=list)

    @property
    def prices(self) -> Prices:
        """g and l."""
        return Prices(self.options.g, self.options.l)

    @property
    def title(self) -> str:
        """What stands above a picture."""
        return str(self.options.title)

    def supersteps(self, most: int) -> list[Superstep]:
        """The supersteps that a picture of a profile shows."""
        if self.source.profile is None:
            raise Refused(f"{self.source.name} has no profile: give one of `run --profile` for --timeline and --matrix")
        return self.some(self.source.profile.supersteps, most)

    def costs(self) -> list[Cost]:
        """The supersteps of which the costs are shown."""
        if not self.source.costs:
            raise Refused(f"{self.source.name} has no costs of supersteps: give a profile or a report for --costs")
        return self.some(self.source.costs, MOST_SUPERSTEPS)

    def chosen(self, them: list[Shown]) -> list[Shown]:
        """Those of these supersteps that were asked for."""
        first, last = self.options.supersteps
        return [it for it in them if it.number >= first and (last is None or it.number <= last)]

    @property
    def span(self) -> str:
        """The supersteps that were asked for, if these are not all."""
        costs = self.source.costs
        them = [it.number for it in self.chosen(costs)]
        if not them or len(them) == len(costs):
            return ""
        return f"supersteps {them[0]} to {them[-1]}" if them[1:] else f"superstep {them[0]}"

    def some(self, them: list[Shown], most: int) -> list[Shown]:
        """The first of these that were asked for, with a line if there are more."""
        them = self.chosen(them)
        if not them:
            raise Refused(f"{self.source.name} has no such supersteps")
        if len(them) > most:
            self.note(f"supersteps {them[0].number} to {them[most - 1].number} are drawn, of {len(them)}: --supersteps A:B chooses others")
        return them[:most]

    def timeline(self) -> Picture:
        """The timeline."""
        profile = self.source.profile
        most = min(MOST_SUPERSTEPS, max(MOST_BARS // timeline.bars(profile.nodes), 1)) if profile else 1
        return timeline.draw(self.supersteps(most), self.prices, self.options.h, self.title, self.source.is_apart)

    def matrix(self) -> Picture:
        """The matrix of bytes, of all supersteps that are chosen."""
        return byte_matrix.draw(self.supersteps(1 << 60), self.options.h, self.title)

    def split(self) -> Picture:
        """The split of the costs."""
        return cost_split.draw(self.costs(), self.prices, self.title, self.source.is_apart)

    def listing(self) -> Listing:
        """The costs of lines."""
        if self.source.listing is None:
            raise Refused(f"{self.source.name} has no costs of lines: give those of `bsprun --lines-as json=FILE` for --lines and --source")
        return self.source.listing

    def dearest(self) -> Picture:
        """The dearest lines."""
        return line_bars.draw(self.listing(), self.title)

    def rows(self) -> list[sweep_table.Row]:
        """The runs of a sweep."""
        if not self.source.rows:
            raise Refused(f"{self.source.name} has no sweep: give the table of bspsweep for --sweep, --compare, --curves, --map and --table")
        return self.source.rows

    def lines(self) -> list[sweep_table.Line]:
        """The lines of a sweep over numbers of nodes. One number of nodes makes no line."""
        found = sweep_table.lines(self.rows())
        if all(len(it.totals) < 2 for it in found):
            fits = sweep_axes.Frame(self.rows(), sweep_axes.Axes()).fitting()
            raise Refused(f"{self.source.name} has no program on several numbers of nodes, over which --sweep and --compare draw lines; for --curves {fits}")
        if len(found) > MOST_DRAWN:
            self.note(f"the first {MOST_DRAWN} of {len(found)} lines are drawn: --curves with --only NAME=VALUE,.. chooses others")
        return found[:MOST_DRAWN]

    def note(self, line: str) -> None:
        """Notes once what is left out."""
        if line not in self.notes:
            self.notes.append(line)

    def origin(self, picture: str) -> str:
        """Where a picture comes from, as its file says."""
        source = self.source
        return picture_origin.told(picture, self.options.words, self.options.source, source.name, source.digest)

    def sweep(self) -> Picture:
        """Totals, speedups, efficiencies."""
        return sweep_curves.draw(self.lines(), self.title)

    def compare(self) -> Picture:
        """Programs against one another."""
        return sweep_curves.compare(self.lines(), self.title, self.options.rate)


def chosen(plan: Plan, pictures: str) -> list[tuple[str, str]]:
    """Which supersteps these pictures of a page show, if they leave others out."""
    return [(pictures, f"{plan.span} of {len(plan.source.costs)}")] if plan.span else []


def of_lines(plan: Plan) -> list[tuple[str, str]]:
    """What the costs of lines on a page are of, if the costs of supersteps beside them are of less."""
    parts = ["of all supersteps"] * bool(plan.span) + ["with printing"] * plan.source.is_apart
    return [("costs of lines", ", ".join(parts))] if parts else []


def settings(plan: Plan) -> list[tuple[str, str]]:
    """What stands at the top of a page."""
    source = plan.source
    known = [("source", source.name), *plan.options.setting]
    ran = source.profile or source.listing
    if ran:
        known.append(("nodes", str(ran.nodes)))
    if source.costs:
        them = f"{'all ' if plan.span else ''}{counted(len(source.costs), 'superstep')}"
        whole = f"{thousands(total(source.costs, plan.prices))} ticks in {them}"
        known += [("h", "what a rank moves to itself counts, too")] * (plan.options.h is Reading.ALL)
        known += [("g", f"{spelled(plan.prices.g)} ticks a byte"), ("l", f"{spelled(plan.prices.l)} ticks a superstep"), ("total", whole)]
        is_other = source.total not in (0, total(source.costs, plan.prices))
        known += [("total of the report", f"{thousands(source.total)} ticks, at other prices: give these by --g and --l")] * is_other
        known += [("printing", it) for it in [printing(plan)] if it]
    return known + ([("outcome", source.outcome)] if source.outcome else [])


def printing(plan: Plan) -> str:
    """What a page says of the work of output functions, if that is known."""
    printed, w = superstep_costs.printed(plan.source.costs), sum(it.w for it in plan.source.costs)
    of_all = " in all supersteps" if plan.span else ""
    share = f"{thousands(printed)} of the {thousands(w)} ticks of w{of_all}, {100 * printed / max(w, 1):.1f} %; --apart printing leaves it out"
    return "left out of w" if plan.source.is_apart else share if printed else ""


def sections(plan: Plan) -> list[page.Section]:
    """What a page has: all that the source tells."""
    found = []
    if plan.source.profile:
        found.append(page.Section("The run in time", page.TIMELINE, page.inline(plan.timeline(), "timeline")))
    if plan.source.costs:
        found.append(page.Section("What the supersteps cost", page.COSTS, page.inline(plan.split(), "costs")))
    if plan.source.profile:
        text = page.MATRIX.format(these=plan.span or "all supersteps together", kept=page.KEPT[plan.options.h])
        found.append(page.Section("Who sent to whom", text, page.inline(plan.matrix(), "matrix")))
    if plan.source.rows:
        found.append(page.Section("Over the number of nodes", page.SWEEP, page.inline(plan.sweep(), "sweep")))
        if sweep_table.crossings(plan.lines()):
            found.append(page.Section("One against another", page.COMPARE, page.inline(plan.compare(), "compare")))
        return [*found, page.sweep_table(plan.source.rows)]
    table = page.cost_table(plan.source.costs, plan.source.profile, plan.prices, plan.options.h)
    return [*found, table._replace(text=f"{table.text} The table has all supersteps.") if plan.span else table]


def source_sections(plan: Plan) -> list[page.Section]:
    """What a page of a source has."""
    costs = page.Section("What the supersteps cost", page.COSTS, page.inline(plan.split(), "costs"))
    dear = page.Section("The dearest lines", page.LINES, page.inline(plan.dearest(), "lines"))
    return [costs, dear, *annotated_source.sections(plan.listing())]


def write_page(plan: Plan, path: str, made: Callable[[Plan], list[page.Section]], more: list[tuple[str, str]], style: str = "") -> None:
    """Writes a page of these sections, with more settings."""
    # A page shows all runs of a sweep.
    untitled = Plan(argparse.Namespace(**{**vars(plan.options), "title": ""}), plan.source, sweep_table.left_out(plan.source.rows))
    parts = made(untitled)
    drawn = [("drawn", note) for note in untitled.notes]
    plan.notes.extend(it for it in untitled.notes if it not in plan.notes)
    files.write(path, page.written(plan.title or plan.source.name, settings(plan) + more + drawn, parts, style))


def asked(options: argparse.Namespace, is_sweep: bool) -> list[str]:
    """The pictures and pages that were asked for, by the names that `picture_options` has for them."""
    pages = {"source": options.page, picture_options.PAGE_OF_SWEEP if is_sweep else picture_options.PAGE_OF_RUN: options.html}
    found = [name for name in (*PICTURES, *PAPERS) if getattr(options, name)] + [name for name, path in pages.items() if path]
    if not found:
        all_names = ", ".join(f"--{name}" for name in ("timeline", "matrix", "costs", "lines", "source", "sweep", "compare", *PAPERS))
        raise Refused(f"no picture was asked for: give {all_names} or --html")
    return found


def unended(options: argparse.Namespace, rows: list[sweep_table.Row], pictures: list[str]) -> list[str]:
    """A note of runs that these pictures leave out as they did not end well: of those that --only chooses, if all pictures show these."""
    is_chosen = bool(rows) and set(pictures) <= set(picture_options.COLUMNS)
    return sweep_table.left_out(sweep_axes.Frame(rows, sweep_axes.of_options(options)).chosen if is_chosen else rows)


def draw(options: argparse.Namespace) -> None:
    """Draws all that was asked for."""
    pictures = [getattr(options, name) for name in (*PICTURES, *PAPERS)]
    files.expect_apart([*pictures, options.page, options.html], [options.source])
    source = plot_inputs.read(options.source, options.h)
    names = asked(options, bool(source.rows))
    picture_options.expect_used(options.given, names, source.name if source.rows else "")
    plan = Plan(options, source.without_printing() if options.apart else source, unended(options, source.rows, names))
    drawers = (plan.timeline, plan.matrix, plan.split, plan.dearest, plan.sweep, plan.compare)
    wanted = {name: make for name, make in zip(PICTURES, drawers) if getattr(options, name)}
    papers = [name for name in PAPERS if getattr(options, name)]
    for name, make in wanted.items():
        made = make()
        made.origin = plan.origin(name)
        made.save(getattr(options, name))
    with paper_pictures.folder_of_latex([getattr(options, name) for name in papers]):
        for name in papers:
            paper_pictures.write(name, plan.rows(), options, getattr(options, name), plan.origin(name))
    if options.page:
        write_page(plan, options.page, source_sections, chosen(plan, "picture of costs") + of_lines(plan), annotated_source.style(plan.listing()))
    if options.html:
        write_page(plan, options.html, sections, chosen(plan, "pictures"))
    tell(plan.notes, "bspplot: ")
