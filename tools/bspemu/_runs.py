"""One run of a program: what it wrote, what its supersteps cost, and pictures of it."""

from __future__ import annotations

import argparse
import functools
import os
import pathlib
import warnings
from typing import TYPE_CHECKING, Any, Dict, List, Mapping, NamedTuple, Optional, Sequence, Union

from bsptools import children, limits
from bsptools.commands import bsprun
from bsptools.files import content_of
from bsptools.outputs.output_records import writes_files
from bsptools.plot.profile import Profile
from bsptools.plot.superstep_costs import Prices
from bsptools.refusals import Refused, counted
from bsptools.sweep.sweep_job import NAME

from . import _figures, _frames
from ._tools import BspError, Done, Number, Price, call, exact, parted, several

if TYPE_CHECKING:
    import pandas

# Programs that bsprun compiles, and so which can write files.
COMPILED = (".c", ".cc", ".cpp", ".cxx", ".C")
# Options of bsprun that each run here has by itself.
TAKEN = ("--report", "--profile", "--out", "--help", "-h", "--version")
Path = Union[str, "os.PathLike[str]"]


def run(
    program: Path,
    *,
    nodes: int = 1,
    defines: Optional[Mapping[str, object]] = None,
    args: Union[str, Sequence[object]] = (),
    input: Union[bytes, str, "os.PathLike[str]"] = b"",  # pylint: disable=redefined-builtin
    files: Union[Path, Sequence[Path]] = (),
    options: Union[str, Sequence[str]] = (),
    check: bool = True,
) -> Run:
    """Compile a program if it has to be, and run it on an emulated BSP machine.

    Parameters
    ----------
    program : path
        A C program, an ELF file, an assembly text or a raw image, as `bsprun` takes them.
    nodes : int
        The number of nodes, 1 to 65,536. More than 1,024 make a large machine, as `bsprun --large` does; their run has no profile.
    defines : mapping, optional
        Compile-time constants of a C program: ``{"N": 64}``.
    args : sequence, or str
        Arguments of `main`; a text is parted as a shell does.
    input : bytes, str or path
        The program's standard input: its bytes or its text, or an `os.PathLike` that names a file with them.
    files : path or sequence of paths
        Files that the program can open.
    options : sequence of str, or str
        More options of `bsprun`, as ``["--strict"]``; a text is parted as a shell does.
    check : bool
        Whether a run that did not end well raises.

    Returns
    -------
    Run

    Raises
    ------
    BspError
        If the run could not be made, or did not end well and `check` is true; with the text that `bsprun` prints.
    """
    more = parted(options)
    expect_free(more)
    words = ["-n", str(nodes), *(f"-D{name}={value}" for name, value in (defines or {}).items())]
    words += [it for name in several(files) for it in ("--file", os.fspath(name))]
    given = input.encode() if isinstance(input, str) else input if isinstance(input, bytes) else pathlib.Path(input).read_bytes()
    found = made(Command([*words, *more], os.fspath(program), parted(args), given), check)
    for name in defines or {}:
        if f'"{name}" redefined' in found.told:
            warnings.warn(f"{os.fspath(program)} defines {name} itself, so `defines` does not change it", stacklevel=2)
    return found


def expect_free(options: Sequence[str]) -> None:
    """Refuses options by which bsprun would put elsewhere what a run here has."""
    for it in options:
        if it.partition("=")[0] in TAKEN:
            raise BspError(f"{it.partition('=')[0]} is not for runs from Python: a Run has the report, the profile and the files of the program")


class Command(NamedTuple):
    """A command line of bsprun, which can be run more than once: its options, its program, the program's arguments and standard input, and
    the text of a program that is no file."""

    options: List[str]
    program: str
    args: List[str]
    given: bytes
    text: Optional[str] = None

    def words(self, folder: pathlib.Path) -> List[str]:
        """The words of a run that keeps its text, its input and the files that it writes in a folder."""
        program, words = self.program, []
        if self.text is not None:
            program = os.path.join(folder, program)
            pathlib.Path(program).write_text(self.text, encoding="utf-8", errors="surrogatepass")
        if self.given:
            (folder / "input").write_bytes(self.given)
            words += ["--input", os.path.join(folder, "input")]
        if "--no-files" not in self.options and may_write(program):
            words += ["--out", os.path.join(folder, "out")]
        # As in a sweep: the name of a program is in its memory, and so has a part in its costs.
        words += [f"--argv0={NAME}"]
        return [*words, *self.options, program, *self.args]


def may_write(program: str) -> bool:
    """Whether a program is one of those that write files: bsprun compiles it, or it was built by bspcc."""
    try:
        return program.endswith(COMPILED) or writes_files(content_of(program, limits.of(True).program))
    except Refused:
        return False  # bsprun says why


def asked_of(command: Command) -> argparse.Namespace:
    """What bsprun reads of a command line."""
    try:
        return bsprun.parser().parse_args([*command.options, command.program])
    except Refused as refused:
        raise BspError("\n".join(f"bsprun: {it}" for it in refused.args)) from refused
    except SystemExit as ended:
        raise BspError("an option is not for runs from Python: it asks for a help or a version") from ended


def made(command: Command, check: bool) -> Run:
    """The run of a command line."""
    asked = asked_of(command)
    with children.folder("bspemu") as folder:
        report, profile = folder / "report.json", folder / "profile.csv"
        words = ["--profile", str(profile)] if int(asked.nodes) <= limits.USUAL.nodes else []
        done = call("bsprun", ["--report", str(report), *words, *command.words(folder)])
        if not report.exists():
            raise BspError(done.told.strip() or f"bsprun ended with status {done.status}, and wrote no report", done.status)
        found = Run(command, asked, done, report.read_bytes(), profile.read_text(encoding="utf-8") if words else "", written(folder / "out"))
    if check and (found.outcome != "ended" or done.status):
        raise BspError(done.told.strip() or found.outcome, done.status, found)
    return found


def written(folder: pathlib.Path) -> Dict[str, bytes]:
    """The files below a folder by their names in it."""
    return {str(it.relative_to(folder)): it.read_bytes() for it in sorted(folder.rglob("*")) if it.is_file()}


class Run:
    """A run that was made. Its costs are those of the BSP model, in ticks and bytes.

    Attributes
    ----------
    output : str
        What the nodes wrote on standard output, superstep by superstep, by rank within these.
    told : str
        What they wrote on standard error, and what `bsprun` says of the run.
    outcome : str
        ``"ended"``, or how it was stopped.
    status : int
        The exit status of `bsprun`.
    prices : tuple
        g and l of the run: those of its options `--g`, `--l` and `--machine`, or 1 and 0.
    files : dict of str to bytes
        The files that the program wrote, if it is a C program or was built by `bspcc`. They are nowhere else.
    """

    def __init__(self, command: Command, asked: argparse.Namespace, done: Done, report: bytes, profile: str, files: Dict[str, bytes]) -> None:
        self._command, self._nodes = command, int(asked.nodes)
        self.status, self.output_bytes, self.told, self.files = done.status, done.output, done.told, files
        self.output = done.output.decode(errors="replace")
        self._report, self._profiled = _frames.report_of(report), _frames.profile_of(profile) if profile else None
        self.outcome: str = self._report.outcome
        self.prices = Prices(asked.g, asked.l)

    def __repr__(self) -> str:
        costs = f"{counted(len(self._report.supersteps), 'superstep')}, w {self.w}, h {self.h}"
        return f"<bspemu.Run: {counted(self._nodes, 'node')}, {costs}; {self.outcome}>"

    @property
    def _profile(self) -> Profile:
        if self._profiled is None:
            raise BspError(f"a run on more than {limits.USUAL.nodes} nodes has no profile")
        return self._profiled

    @property
    def w(self) -> int:
        """The work of all supersteps, in ticks: of each, that of the rank that works most."""
        return sum(it.costs["w"] for it in self._report.supersteps)

    @property
    def h(self) -> int:
        """The h-relations of all supersteps, in bytes: of each, the most that a rank sent or received."""
        return sum(it.costs["h"] for it in self._report.supersteps)

    def _at(self, g: Optional[Price], l: Optional[Price]) -> Prices:
        return Prices(self.prices.g if g is None else exact(g), self.prices.l if l is None else exact(l))

    def cost(self, g: Optional[Price] = None, l: Optional[Price] = None) -> Number:
        """What the run costs at these prices, exactly: w + g*h + l for each superstep. Nothing is run again.

        Parameters
        ----------
        g, l : int, float, str or Fraction, optional
            Ticks for a byte of h, and for the end of a superstep; "31/8" is a price too. By default they are `prices`, those of the run.

        Returns
        -------
        int or Fraction
            The cost in ticks.
        """
        at = self._at(g, l)
        return exact(self.w + at.g * self.h + at.l * len(self._report.supersteps))

    @property
    def supersteps(self) -> pandas.DataFrame:
        """A row for each superstep: its number, w in ticks, h and m in bytes, and how it ended."""
        return _frames.supersteps(self._report)

    @property
    def profile(self) -> pandas.DataFrame:
        """A row for each rank in each superstep: its ticks, bytes sent, received and kept, messages, requests, and how it stood."""
        return _frames.ranks(self._profile)

    @property
    def transfers(self) -> pandas.DataFrame:
        """A row for each superstep, rank and rank to which it sent: the bytes that went."""
        return _frames.transfers(self._profile)

    @functools.cached_property
    def lines(self) -> pandas.DataFrame:
        """A row for each source line that costs something, or function without lines: ticks of the slowest ranks, and bytes of h.

        The run is made once more, with its steps counted by address.
        """
        with children.folder("bspemu") as folder:
            path = folder / "lines.json"
            done = call("bsprun", ["--lines-as", f"json={path}", *self._command.words(folder)])
            if not path.exists():
                raise BspError(done.told.strip(), done.status, self)
            return _frames.lines(path.read_text(encoding="utf-8"))

    def timeline(self, g: Optional[Price] = None, l: Optional[Price] = None, title: str = "") -> Any:
        """A matplotlib figure of the run in time: each rank's work and waiting, the exchanges, and the ends of supersteps."""
        return _figures.timeline(self._profile, self._at(g, l), title)

    def matrix(self, title: str = "") -> Any:
        """A matplotlib figure of the bytes that went from rank to rank."""
        return _figures.matrix(self._profile, title)

    def costs(self, g: Optional[Price] = None, l: Optional[Price] = None, title: str = "") -> Any:
        """A matplotlib figure of what each superstep costs, split into w, g*h and l."""
        return _figures.costs(self._report, self._at(g, l), title)
