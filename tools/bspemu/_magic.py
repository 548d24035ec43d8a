"""The cell magic `%%bsp`: compiles and runs a cell of C, and shows its output and pictures below it."""

from __future__ import annotations

import argparse
import builtins
import keyword
import os
import shlex
from typing import Any, NoReturn

from ._runs import Command, expect_free, made
from ._tools import BspError

HELP = "%%bsp [-n P] [--profile] [--matrix] [--costs] [--name VARIABLE] [options of bsprun, such as --g and --l] [-- ARGS]"

# What a notebook has in its variables for itself.
OF_NOTEBOOK = ("get_ipython", "In", "Out", "exit", "quit")


class Words(argparse.ArgumentParser):
    """A reader of the magic's line, which does not end the notebook's process."""

    def error(self, message: str) -> NoReturn:
        """Says what is wrong."""
        raise BspError(f"{message}; {HELP}")


def bsp(line: str, cell: str) -> Any:
    """Compile the cell as a C program and run it; a run named by --name stays in that variable, and else in `bsp_run`."""
    reader = Words(prog="%%bsp", add_help=False, allow_abbrev=False)
    for name in ("--profile", "--matrix", "--costs"):
        reader.add_argument(name, action="store_true")
    reader.add_argument("--name", default="bsp_run")
    try:
        words = shlex.split(line)
    except ValueError as error:
        raise BspError(f"{line}: {error}; {HELP}") from error
    own = words[: words.index("--")] if "--" in words else words
    asked, options = reader.parse_known_args(own)
    expect_variable(asked.name)
    expect_free(options)
    # The headers of a cell lie beside the notebook.
    command = Command([*options, f"-I{os.getcwd()}"], "cell.c", words[len(own) + 1 :], b"", cell)
    run = made(command, check=True)
    show(run, asked)


def expect_variable(name: str) -> None:
    """Refuses a name that no variable has, or that would hide what the notebook or Python has under it."""
    if not name.isidentifier() or keyword.iskeyword(name) or name in OF_NOTEBOOK or hasattr(builtins, name):
        raise BspError(f"--name {name}: a run cannot have this name, give another one; {HELP}")


def show(run: Any, asked: argparse.Namespace) -> None:
    """Shows the output of a run and the pictures that were asked for, and keeps it in a variable."""
    from IPython import get_ipython
    from IPython.display import display

    print(run.output, end="")
    print(run.told, end="")
    for wanted, figure in ((asked.profile, run.timeline), (asked.costs, run.costs)):
        if wanted:
            display(figure())
    if asked.matrix:
        display(run.matrix())
    get_ipython().user_ns[asked.name] = run


def load_ipython_extension(shell: Any) -> None:
    """What `%load_ext bspemu` calls."""
    shell.register_magic_function(bsp, magic_kind="cell", magic_name="bsp")
