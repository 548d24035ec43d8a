"""Runs the measuring program on each number of processes: one compiled for this host, or the user's own."""

from __future__ import annotations

import os
import pathlib
import shlex
import subprocess
from collections.abc import Sequence
from typing import NamedTuple

from .. import children, own_folders
from ..emulator import REPO, program
from ..refusals import Refused, lines_of
from . import samples
from .samples import Samples

LIBRARY = REPO / "bsplib/native"
SOURCE = LIBRARY / "probe.c"
# Where a command has the number of processes.
P = "{p}"
# The options that have a command.
PROGRAM, MPIRUN = "--program", "--mpirun"


class Setting(NamedTuple):
    """What is measured: words of so many bytes, h up to `most`, in so many rounds, for so long each time."""

    word: int
    most: int
    rounds: int
    milliseconds: int

    def words(self) -> list[str]:
        """The arguments of the program that measures."""
        return [str(it) for it in self]


def called(words: Sequence[str], p: int) -> bytes:
    """What a command has printed on p processes. What it says on standard error is shown as it comes."""
    environment = {**os.environ, "BSP_PROCS": str(p)}
    try:
        with children.kept_running(words, stdin=subprocess.DEVNULL, stdout=subprocess.PIPE, env=environment) as child:
            assert child.stdout is not None
            printed = child.stdout.read(samples.MOST_PRINTED + 1)
            if len(printed) > samples.MOST_PRINTED:
                raise Refused(f"{shlex.join(words)} printed more than {samples.MOST_PRINTED} bytes on {p} processes, which is too much for samples")
            status = child.wait()
    except OSError as error:
        raise Refused(f"{words[0]}: {error.strerror}") from error
    if status != 0:
        raise Refused(f"{shlex.join(words)} ended with status {status} on {p} processes")
    return printed


def hints(folder: pathlib.Path, is_mpi: bool) -> list[str]:
    """What may help where the program of this folder does not run."""
    if os.statvfs(folder).f_flag & os.ST_NOEXEC:
        return [f"programs may not run in {folder.parent}, which is mounted with noexec: set TMPDIR to another folder"]
    return [f"if mpirun uses several hosts, all have to see {folder.parent}: set TMPDIR to a folder that they share"] if is_mpi else []


def compiled(folder: pathlib.Path, is_mpi: bool) -> str:
    """The program that measures, compiled for this host."""
    if not SOURCE.exists():
        raise Refused(f"{SOURCE} is missing: start bspprobe in a checkout or an installation, or give a program by --program")
    path = str(folder / "probe")
    words = [str(LIBRARY / "cc"), *["--mpi"] * is_mpi, "-O2", "-o", path, str(SOURCE)]
    # What a compiler leaves that was killed is beside the executable.
    environment = {**os.environ, "TMPDIR": str(folder)}
    done = children.call(words, stdout=subprocess.PIPE, stderr=subprocess.STDOUT, env=environment)
    if done.returncode != 0:
        raise Refused("the measuring program was not compiled", *lines_of(done.stdout))
    return path


def compiler(is_mpi: bool) -> str:
    """The compiler's first line about itself."""
    word = "mpicc" if is_mpi else "cc"
    done = children.call(own_folders.homed([word, "--version"]), stdout=subprocess.PIPE, stderr=subprocess.STDOUT)
    return next(iter(lines_of(done.stdout)), word)


def command(text: str, option: str) -> list[str]:
    """The words of a command that a person gives by this option."""
    try:
        words = shlex.split(text)
    except ValueError as error:
        raise Refused(f"{option} {text!r}: {error}") from error
    if not words:
        raise Refused(f"{option} is empty: give a command, as {'./probe' if option == PROGRAM else f'mpirun -n {P}'!r}")
    return words


def measured(words: Sequence[str], setting: Setting, p: int, helping: Sequence[str] = ()) -> Samples:
    """What a command measures on p processes. A refusal ends with these lines."""
    placed = [it.replace(P, str(p)) for it in words]
    try:
        printed = called([*placed, *setting.words()], p)
    except Refused as refused:
        raise Refused(*refused.args, *helping) from refused
    found = samples.read(printed, placed[0])[-1]
    if found.p != p:
        raise Refused(f"{shlex.join(placed)} ran on {found.p} processes and not on {p}: write {P} in place of their number in the command")
    return found


def instructions_of_operation() -> float:
    """How many instructions of the emulator's nodes an operation of the vectors takes."""
    second = 10**9
    done = children.call(
        [program("bsprun"), "-n", "1", "--no-check", "--rate", str(second), str(SOURCE), "8", "4", "1", "1"],
        stdout=subprocess.PIPE, stderr=subprocess.PIPE,
    )  # fmt: skip
    if done.returncode != 0:
        raise Refused("bsprun could not run the measuring program on the emulator's nodes", *lines_of(done.stderr))
    return second / samples.read(done.stdout, "bsprun")[-1].rates[0]
