"""The command line of `bspplot`.

Its help and refusals need no matplotlib, which is imported when something is drawn.
"""

from __future__ import annotations

import argparse
import contextlib
import importlib
import logging
import os
import pathlib
from collections.abc import Iterator

from .. import children, own_folders, prices, python_packages
from ..options import Joined, Parser, pair, rate
from ..plot.picture_formats import KINDS, LOGS, MEASURES, PGF, TEX, price_range, size
from ..plot.picture_options import settle
from ..plot.profile import Reading
from ..refusals import printable

# Of a title, and of a setting with its name.
MOST_LETTERS = 1000
# A section of the help.
PICTURES = "pictures of a table of bspsweep"
# The folder that has matplotlib's settings.
SETTINGS = pathlib.Path(__file__).resolve().parents[1] / "plot"


def span(text: str) -> tuple[int, int | None]:
    """The first and the last superstep of a text as `3`, `3:9` or `3:`."""
    first, colon, last = text.partition(":")
    if not first.isdecimal() or not (last.isdecimal() or not last):
        raise argparse.ArgumentTypeError(f"{text!r}: give supersteps as 3, 3:9 or 3:")
    return int(first), int(last) if last else None if colon else int(first)


def reading(text: str) -> Reading:
    """Which bytes h counts."""
    try:
        return Reading(text)
    except ValueError as error:
        raise argparse.ArgumentTypeError(f"{text!r}: h counts {' or '.join(it.value for it in Reading)}") from error


def target(text: str) -> str:
    """The name of a picture's file."""
    if pathlib.Path(text).suffix.lower() not in KINDS:
        raise argparse.ArgumentTypeError(f"{text!r}: the name of a picture ends with .svg, .png or .pdf")
    return text


def heading(text: str) -> str:
    """A text above a picture, which matplotlib draws letter by letter: ten thousand take a second."""
    shown = printable(text)
    if len(shown) > MOST_LETTERS:
        raise argparse.ArgumentTypeError(f"this text has {len(shown)} letters; the limit is {MOST_LETTERS}")
    return shown


def paper(text: str) -> str:
    """The name of a file of a picture for papers, which may be a text for TeX."""
    if pathlib.Path(text).suffix.lower() not in (*KINDS, PGF, TEX):
        raise argparse.ArgumentTypeError(f"{text!r}: its name ends with .svg, .png, .pdf, .pgf or .tex")
    return text


def tex(text: str) -> str:
    """The name of a file of a table for TeX."""
    if pathlib.Path(text).suffix.lower() != TEX:
        raise argparse.ArgumentTypeError(f"{text!r}: the name of a table for LaTeX ends with .tex")
    return text


def names(text: str) -> tuple[str, ...]:
    """Names of columns, parted by commas."""
    return tuple(dict.fromkeys(filter(None, text.split(","))))


def chosen(text: str) -> tuple[str, list[str]]:
    """A column, and the values of it that are drawn."""
    name, values = pair(text, "values of a column as NAME=VALUE,VALUE,..")
    return name, values.split(",")


def arguments(words: list[str]) -> argparse.Namespace:
    """What the command line asks for."""
    parser = Parser(
        "bspplot",
        usage="bspplot SOURCE [options]",
        description="Draws what a run did and what it cost.\n\n"
        "  bsprun -n 4 --profile run.csv FILE.c && bspplot run.csv --timeline run.svg\n"
        "  bspsweep -n 1,2,4,8 FILE.c -o table.csv && bspplot table.csv --sweep sweep.svg\n\n"
        "SOURCE is a profile (`run --profile`), a report (`run --report`, or CSV or JSON from `bsprun --report`), the costs of lines (`bsprun"
        " --lines-as json=FILE`), or a table of `bspsweep`. The name of a picture ends in .svg, .png or .pdf. docs/tutorial/costs.md and"
        " docs/tutorial/paper.md show the pictures.",
    )
    add = parser.add_argument
    parser.section("pictures of a run")
    add("--timeline", type=target, metavar="FILE", help="from a profile: work and waiting of each rank, the exchange, and l")
    add("--matrix", type=target, metavar="FILE", help="from a profile: the bytes from rank to rank")
    add("--costs", type=target, metavar="FILE", help="from a profile or a report: the cost of each superstep, split into w, g*h and l")
    add("--lines", type=target, metavar="FILE", help="from the costs of lines: the most expensive lines")
    add("--source", dest="page", metavar="FILE", help="from the costs of lines: an HTML page with the source, and beside each line"
        " its cost by rank and superstep")  # fmt: skip
    add("--html", metavar="FILE", help="an HTML page with the pictures, the table and the settings of SOURCE")
    parser.section(PICTURES)
    add("--sweep", type=target, metavar="FILE", help="total, speedup and efficiency over the nodes")
    add("--compare", type=target, metavar="FILE", help="totals only, and where one program starts to cost less than another")
    add_papers(parser)
    parser.add_prices(prices.G, prices.L)
    parser.set_defaults(g=None, l=None)
    add("--apart", choices=["printing"], help="leave the work of output functions out of the costs. Works only if SOURCE has it: a profile of"
        " `bsprun --summary --profile`, or the costs of lines")  # fmt: skip
    add("--rate", type=rate, metavar="COUNT", help="with --compare: instructions a second, to show the totals in seconds too")
    add("--h", type=reading, metavar="all|others", help="all: h counts what a rank moves to itself, as `--ledger 1` does;"
        " others (the default): it does not")  # fmt: skip
    parser.section("all pictures")
    add("--supersteps", type=span, metavar="A:B", help="of a run: only supersteps A to B; A is one superstep, A: is A and all after it")
    add("--title", type=heading, default="", metavar="TEXT", help="title of each picture and page")
    add("--setting", type=lambda text: pair(heading(text), "a setting as NAME=VALUE"), action="append", default=[], metavar="NAME=VALUE", help="with --html and --source: show NAME=VALUE at the top of the page; can be repeated")
    add("source", metavar="SOURCE", help="the file to draw")
    asked = parser.parse_args(words)
    asked.words = words
    settle(asked)
    return asked


def add_papers(parser: Parser) -> None:
    """The options of pictures and tables for papers, of the table of bspsweep."""
    add = parser.add_argument
    parser.section(PICTURES)
    add("--curves", type=paper, metavar="FILE", help="lines over any column; FILE can also end in .pgf or .tex (pgfplots)")
    add("--map", type=paper, metavar="FILE", help="which program costs least for each g and l, and where two cost the same")
    add("--table", type=tex, metavar="FILE.tex", help="what --curves draws, as a LaTeX tabular with booktabs rules")
    parser.section("for --curves, --map and --table")
    add("--x", metavar="COLUMN", help="with --curves and --table: the x axis: nodes (the default), g, l or a constant")
    add("--y", choices=MEASURES, help="with --curves and --table: the y axis; default total")
    add("--by", type=names, action=Joined, metavar="COLUMN,..", help="one line, or one program of a map, for each value of these columns; default: all columns that differ")
    add("--panels", type=names, action=Joined, metavar="COLUMN,..", help="one small picture for each value of these columns, side by side")
    add("--only", type=chosen, action="append", default=[], metavar="COLUMN=VALUE,..", help="only rows with these values of a column; can be repeated for other columns")
    add("--log", choices=LOGS, help="logarithmic axes; default: those with a wide range of values")
    add("--size", type=size, metavar="WIDTH[xHEIGHT]", help="with --curves and --map: size of the picture, as 3.3in or 84mmx60mm")
    add("--font", metavar="NAME", help="with --curves and --map: serif, sans-serif, monospace, or any installed font")
    parser.add_number("--decimals", what="the number of decimals", least=0, most=9, metavar="COUNT", help="with --table: round fractions to so"
        " many decimals; default: exact, as 1/3")  # fmt: skip
    add("--g-range", type=price_range(prices.G), metavar="LOW:HIGH", help="range of g in a map; default 0.1:100")
    add("--l-range", type=price_range(prices.L), metavar="LOW:HIGH", help="range of l in a map; default 10:100000")


@contextlib.contextmanager
def inside(folder: pathlib.Path) -> Iterator[None]:
    """Does something in another folder."""
    here = os.open(".", os.O_PATH)
    try:
        os.chdir(folder)
        yield
    finally:
        os.fchdir(here)
        os.close(here)


@contextlib.contextmanager
def matplotlibs_folder() -> Iterator[None]:
    """Where matplotlib keeps what it knows of fonts: the folder that the person has set for it, or one beside what the tools keep, or one for
    a while, as none of these is the person's own. Of that it says nothing. The name of a way to show pictures, of which none is shown, may be
    an older one's, which matplotlib would refuse."""
    logging.getLogger("matplotlib").setLevel(logging.ERROR)
    os.environ.pop("MPLBACKEND", None)
    variable = "MPLCONFIGDIR"
    path = os.environ.get(variable, "")
    with contextlib.ExitStack() as stack:
        with contextlib.suppress(OSError):
            if path:
                os.makedirs(path, exist_ok=True)
        if not os.path.isabs(path) or not is_for_keeping(path):
            path = own_folders.cache("bspemu", "matplotlib")
        if not is_for_keeping(path):
            path = str(stack.enter_context(children.folder("bspplot")))
        os.environ[variable] = path
        yield


def is_for_keeping(path: str) -> bool:
    """Whether something may be kept in a folder, and read there by the next run."""
    return os.access(path, os.W_OK | os.X_OK) and not own_folders.fault(path)


def main(words: list[str]) -> int:
    """Draws; the status is 1 if something could not be drawn."""
    asked = arguments(words)
    python_packages.expect(python_packages.MATPLOTLIB)
    with matplotlibs_folder():
        # matplotlib takes its settings from the folder that it is imported in. Here they are the same for everybody.
        with inside(SETTINGS):
            drawing = importlib.import_module("..plot.drawing", __package__)
        drawing.draw(asked)
    return 0
