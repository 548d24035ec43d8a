"""A sweep for a paper: curves along any column, maps of the cheapest program, and tables, each in the format of its file."""

from __future__ import annotations

import argparse
import contextlib
import io
import pathlib
import shutil
import tempfile
import warnings
from collections.abc import Iterator

import matplotlib

from .. import children, files
from ..refusals import Refused
from . import axis_curves, best_map, tex_texts
from .best_regions import Window
from .canvas import WIDTH, Picture, drawing
from .picture_formats import PGF, TEX
from .paper_style import Style, styled
from .sweep_axes import Frame, of_options
from .sweep_table import Row

LATEX = "pdflatex"
# The width of a page's text in inches.
TEXT = 4.75


def sized(options: argparse.Namespace, is_for_tex: bool) -> Style:
    """The style that a command line asks for. If it names no size, pictures are as wide as all others, and those for TeX as a page's text."""
    width, height = options.size or (TEXT if is_for_tex else WIDTH, 0.0)
    return Style(width, height, options.font or "")


def window_of(options: argparse.Namespace) -> Window:
    """The prices that a map shows."""
    return Window(options.g_range or best_map.G_RANGE, options.l_range or best_map.L_RANGE)


def curves(rows: list[Row], options: argparse.Namespace, is_for_tex: bool = False) -> Picture:
    """Curves."""
    axes, style = of_options(options), sized(options, is_for_tex)
    panels = Frame(rows, axes).panels()
    with styled(style):
        return axis_curves.draw(panels, axes.x, axes.y, options.log, style, options.title)


def regions(rows: list[Row], options: argparse.Namespace, is_for_tex: bool = False) -> Picture:
    """A map."""
    window, style = window_of(options), sized(options, is_for_tex)
    found = best_map.maps(rows, of_options(options), window)
    with styled(style):
        return best_map.draw(found, window, options.log, style, options.title)


def curves_as_tex(rows: list[Row], options: argparse.Namespace, origin: str) -> str:
    """Curves for pgfplots."""
    axes = of_options(options)
    return tex_texts.curves(Frame(rows, axes).panels(), axes.x, axes.y, options.log, sized(options, is_for_tex=True), origin)


def regions_as_tex(rows: list[Row], options: argparse.Namespace, origin: str) -> str:
    """A map for pgfplots."""
    window = window_of(options)
    found = best_map.maps(rows, of_options(options), window)
    return tex_texts.regions(found, window, options.log, sized(options, is_for_tex=True), origin)


def table_as_tex(rows: list[Row], options: argparse.Namespace, origin: str) -> str:
    """A table for LaTeX."""
    axes = of_options(options)
    return tex_texts.table(Frame(rows, axes).panels(), axes.x, axes.y, origin, options.decimals)


# By the names of the options that ask for them.
PICTURES = {"curves": curves, "map": regions}
TEXTS = {"curves": curves_as_tex, "map": regions_as_tex, "table": table_as_tex}


def write(kind: str, rows: list[Row], options: argparse.Namespace, path: str, origin: str) -> None:
    """A picture or a table of a sweep, into a file, in the format that its name asks for."""
    suffix = pathlib.Path(path).suffix.lower()
    if suffix == TEX:
        files.write(path, TEXTS[kind](rows, options, origin))
        return
    with styled(sized(options, suffix == PGF)):
        save(PICTURES[kind](rows, options, suffix == PGF), path, origin)


def save(made: Picture, path: str, origin: str) -> None:
    """Writes a picture in the format that the name of its file asks for."""
    made.origin = origin
    if pathlib.Path(path).suffix.lower() != PGF:
        made.save(path)
        return
    if shutil.which(LATEX) is None:
        raise Refused(f"{LATEX} is missing, by which letters of a {PGF} are measured: install the packages texlive-latex-recommended and"
                      f" texlive-pictures; a {TEX} needs no TeX to be written")  # fmt: skip
    made.spell(tex_texts.escaped)
    settings = {"pgf.texsystem": LATEX, "pgf.rcfonts": False}
    written = io.StringIO()
    with matplotlib.rc_context(settings), drawing(), warnings.catch_warnings():
        made.figure.savefig(written, format=PGF[1:])
    files.write(path, "\n".join([*tex_texts.front(origin, r"\usepackage{pgf}"), written.getvalue()]))


@contextlib.contextmanager
def folder_of_latex(paths: list[str]) -> Iterator[None]:
    """A folder for LaTeX, which measures letters in one of `tempfile`: matplotlib removes it only where Python ends by itself."""
    if not any(pathlib.Path(it).suffix.lower() == PGF for it in paths):
        yield
        return
    before = tempfile.tempdir
    with children.folder("bspplot") as folder:
        tempfile.tempdir = str(folder)
        try:
            yield
        finally:
            tempfile.tempdir = before
