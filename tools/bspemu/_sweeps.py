"""Sweeps: programs over lists of settings, on all processors or by any executor, with the store of bspsweep."""

from __future__ import annotations

import concurrent.futures
import json
import os
import pathlib
import warnings
from typing import TYPE_CHECKING, Any, Dict, Iterable, List, Mapping, Optional, Sequence, Tuple, Union

from bsptools import children, files
from bsptools.commands import bspplot, bspsweep
from bsptools.plot import picture_options, sweep_table
from bsptools.prices import spelled
from bsptools.refusals import Refused, printable
from bsptools.sweep import result_table, table_record
from bsptools.sweep.result_store import MAIN

from . import _figures, _frames
from ._tools import BspError, Price, call, end_all, exact, several

if TYPE_CHECKING:
    import pandas

Path = Union[str, "os.PathLike[str]"]
# Of bspplot: the value of an option, or those of one that is given more than once.
Option = Union[str, Sequence[str]]
# The name of a table that is drawn.
SOURCE = "table.csv"


def sweep(
    programs: Union[Path, Sequence[Path]],
    *,
    nodes: Optional[Union[int, Iterable[int]]] = None,
    g: Union[Price, Iterable[Price]] = (),
    l: Union[Price, Iterable[Price]] = (),
    prices: Union[str, Iterable[Union[str, Tuple[Price, Price]]]] = (),
    machines: Union[str, Iterable[str]] = (),
    interpolate: Optional[str] = None,
    defines: Optional[Mapping[str, object]] = None,
    args: Union[str, Iterable[str]] = (),
    inputs: Union[Path, Iterable[Path]] = (),
    folder: Path = ".bspsweep",
    executor: Optional[concurrent.futures.Executor] = None,
) -> Sweep:
    """Run programs over lists of settings, each with each. What was run before is not run again. One value may stand in place of a list.

    Parameters
    ----------
    programs : path or sequence of paths
        Programs as `bspsweep` takes them.
    nodes : iterable of int, optional
        Numbers of nodes; those of the machines, or 1, if not given.
    g, l : iterables of prices
        Ticks for a byte of h and for a superstep's end: each g with each l.
    prices : iterable of pairs
        Prices that belong together: ``[("31/8", 1193)]``, or as a text ``["31/8:1193"]``.
    machines : iterable of str
        Machines of the literature, or of the table that BSP_MACHINES in the environment names; each has prices of its own on each number
        of nodes.
    interpolate : {"linear"}, optional
        Take prices of machines between the numbers of nodes that were measured.
    defines : mapping, optional
        Values of compile-time constants of C programs: ``{"N": [64, 128]}``. No name may be that of another column of the table.
    args : iterable of str
        Arguments of `main`, as a shell parts them; each is tried.
    inputs : iterable of paths
        Files with inputs; each is tried.
    folder : path
        Where results are kept, the same as that of `bspsweep`.
    executor : concurrent.futures.Executor, optional
        Who makes the runs: a pool of threads or processes, of Dask or of MPI, whose workers see the same files and can import `bspemu`. All
        processors of this host if not given.

    Returns
    -------
    Sweep

    Warns
    -----
    UserWarning
        If runs found no input or no file, or did something else by which their figures may not be those that you want; with what `bsprun`
        says of the first of them. So it is if a program reads the clock.

    Raises
    ------
    BspError
        If a program is not compiled, or a run could not be made; with the text that `bspsweep` prints.
    """
    words = ["--folder", os.fspath(folder)]
    words += [f"--nodes={','.join(map(str, several(nodes)))}"] if nodes is not None else []
    words += [f"--{name}={','.join(map(priced, them))}" for name, them in (("g", several(g)), ("l", several(l))) if them]
    pairs, named = list(map(paired, several(prices))), several(machines)
    words += [f"--prices={','.join(pairs)}"] if pairs else []
    words += [f"--machine={','.join(named)}"] if named else []
    words += [f"--interpolate={interpolate}"] if interpolate else []
    words += [f"--define={name}={','.join(map(str, several(values)))}" for name, values in (defines or {}).items()]
    words += [f"--args={it}" for it in several(args)] + [f"--input={os.fspath(it)}" for it in several(inputs)]
    try:
        return made([*words, "--", *(os.fspath(it) for it in several(programs))], executor)
    except Refused as refused:
        raise BspError("\n".join(refused.args)) from refused


def priced(value: Price) -> str:
    """A price for a command line."""
    return spelled(exact(value))


def paired(value: Union[str, Tuple[Price, Price]]) -> str:
    """Two prices that belong together, for a command line."""
    both: List[Price] = [*value.split(":")] if isinstance(value, str) else [*value]
    if len(both) != 2:
        raise BspError(f"{value!r} is not a pair of prices: give a pair as ('31/8', 1193), or a text as '31/8:1193'")
    return ":".join(map(priced, both))


def make_run(place: str) -> None:
    """Makes the run that a folder of the store describes, on whichever host."""
    call("bspsweep", ["--make", place, MAIN])


def made(words: List[str], executor: Optional[concurrent.futures.Executor]) -> Sweep:
    """The sweep of a command line of bspsweep."""
    options = bspsweep.arguments(words)
    whole = bspsweep.Sweep(options, words)
    wanted = whole.missing()
    for place in wanted.values():
        place.give_ticket()
        place.file("failed").unlink(missing_ok=True)
    if executor is not None:
        list(executor.map(make_run, [str(it.folder) for it in wanted.values()]))
    elif wanted:
        # Each run is a process of its own, which a thread waits for.
        with concurrent.futures.ThreadPoolExecutor(len(os.sched_getaffinity(0))) as threads:
            try:
                list(threads.map(make_run, [str(it.folder) for it in wanted.values()]))
            except BaseException:
                end_all()
                raise
    whole.take_tickets()
    whole.take_results()
    wrong = [*whole.unplaced, *result_table.failures(whole.places, whole.found)]
    if wrong:
        raise BspError("\n".join(wrong))
    warn(whole.notes())
    table = result_table.table(whole.points, whole.found, [name for name, _ in options.define])
    return Sweep(table, table_record.made(options, words, whole.points, whole.store, table, whole.sought()))


class Sweep:
    """The table of a sweep, with a row for each point, and pictures of it.

    Attributes
    ----------
    table : str
        The table as CSV, with exact prices and totals.
    record : dict
        All that the table rests on: the command, versions, digests.
    """

    def __init__(self, table: str, record: Dict[str, Any]) -> None:
        self.table, self.record = table, record

    def __repr__(self) -> str:
        return f"<bspemu.Sweep: {self.table.count(chr(10)) - 1} points>"

    @property
    def frame(self) -> pandas.DataFrame:
        """A row for each point: settings, w and total in ticks, h and m in bytes, and the outcome. Totals that are no whole numbers are
        floating point here, and exact in `table`."""
        return _frames.sweep(self.table)

    def save(self, path: Path) -> None:
        """Write the table to a file, and the record of it to the file of that name with `.json` behind it."""
        record = table_record.beside(os.fspath(path))
        try:
            table_record.expect_own(record)
            files.write(path, self.table)
            if record is not None:
                files.write(record, table_record.spelled(self.record))
        except Refused as refused:
            raise BspError("\n".join(refused.args)) from refused

    def curves(self, path: Optional[Path] = None, **options: Option) -> Any:
        """Lines over any column, as `bspplot --curves` draws them: `x="N"`, `y="speedup"`, `by="program"`, `size="3.3in"`, ... An option that
        can be repeated takes a list: `only=["N=64", "g=4"]`.

        Returns
        -------
        matplotlib.figure.Figure or None
            The figure; None if it was written to a path.
        """
        return self._draw("curves", path, options)

    def map(self, path: Optional[Path] = None, **options: Option) -> Any:
        """Which program costs least over g and l, as `bspplot --map` draws it: `only="nodes=8"`, `g_range="0.1:100"`, ..."""
        return self._draw("map", path, options)

    def tex(self, path: Optional[Path] = None, **options: Option) -> Optional[str]:
        """A table for LaTeX, as `bspplot --table` writes it; as a text if no path is given."""
        if path is not None:
            self._draw("table", path, options)
            return None
        with children.folder("bspemu") as folder:
            target = folder / "table.tex"
            self._draw("table", target, options)
            return target.read_text(encoding="utf-8")

    def _draw(self, kind: str, path: Optional[Path], options: Mapping[str, Option]) -> Any:
        words = [f"--{name.replace('_', '-')}={value}" for name, values in options.items() for value in several(values)]
        if path is None:
            notes: List[str] = []
            figure = _figures.of_sweep(figure_of, kind, words, self.table, notes)
            warn(notes)
            return figure
        with children.folder("bspemu") as folder:
            source = folder / SOURCE
            source.write_text(self.table, encoding="utf-8", errors="surrogateescape")
            source.with_suffix(".csv.json").write_text(json.dumps(self.record), encoding="utf-8")
            done = call("bspplot", [f"--{kind}={os.fspath(path)}", *words, "--", str(source)])
        if done.status:
            raise BspError(done.told.strip(), done.status)
        warn([it[len("bspplot: ") :] for it in done.told.splitlines()])
        return None


def warn(notes: Iterable[str]) -> None:
    """Tells what the figures of runs rest on or a picture leaves out, as of the line that asked for a sweep or called a method of one."""
    for it in notes:
        warnings.warn(printable(it), stacklevel=4)


def figure_of(kind: str, words: List[str], table: str, notes: List[str]) -> Any:
    """The picture of a table, as bspplot draws it; what it leaves out is added to the notes."""
    from bsptools.plot import drawing, paper_pictures

    options, rows = bspplot.arguments([*words, "--", SOURCE]), sweep_table.parse(table)
    picture_options.expect_used(options.given, [kind], SOURCE)
    notes += drawing.unended(options, rows, [kind])
    return paper_pictures.PICTURES[kind](rows, options)
