"""How each tool begins and ends.

It ends with what its `main` answers, or with a line that says why not.
"""

from __future__ import annotations

import importlib
import os
import pathlib
import signal
import subprocess
import sys
from collections.abc import Callable

from . import children, own_folders, python_packages, streams
from .files import GONE, is_here
from .refusals import BUG, BY_SIGNAL, REFUSED, Refused, put, tell

# The module whose `main` a tool is, and the package that it wants, without which some do less. Modules are imported as they are asked for.
TOOLS = {
    "bsprun": ("commands.bsprun", ""),
    "bspgdb": ("commands.bspgdb", ""),
    "bspplot": ("commands.bspplot", python_packages.MATPLOTLIB),
    "bspsweep": ("commands.bspsweep", ""),
    "bspcheck": ("commands.bspcheck", ""),
    "bspprobe": ("commands.bspprobe", python_packages.NUMPY),
}
# What Python says where the host lets it start no thread.
THREADLESS = "can't start new thread"
FOLDER = pathlib.Path(__file__).resolve().parents[1]


def begin(name: str, words: list[str]) -> int:
    """Runs a tool with these arguments to its end, also if that is a help that was asked for, and writes all that it has to say."""
    module, package = TOOLS[name]
    again = [str(FOLDER), name, *words] if (FOLDER / "__main__.py").exists() else []
    if package:
        python_packages.find(package, again)
    # Threads of matplotlib's arithmetic, each with memory of its own, would serve no picture.
    os.environ.setdefault("OPENBLAS_NUM_THREADS", "1")
    children.end_by_signals()
    try:
        status: int = importlib.import_module(f".{module}", __package__).main(words)
    except SystemExit as ended:
        status = ended.code if isinstance(ended.code, int) else REFUSED if ended.code else 0
    put("")
    return status


def main(name: str, words: list[str]) -> int:
    """Runs a tool with these arguments; the exit status is answered."""
    return ended(name, lambda: begin(name, words))


def ended(name: str, work: Callable[[], int]) -> int:
    """Does the work of a tool; the exit status is answered, with a line if it could not be done."""
    try:
        return work()
    except Refused as refused:
        tell(refused.args, f"{name}: ")
        return REFUSED
    except children.Ended as ended:
        return BY_SIGNAL + ended.number
    except BrokenPipeError:
        streams.drop_output()
        return BY_SIGNAL + signal.SIGPIPE
    except (OSError, MemoryError, ImportError, subprocess.SubprocessError) as error:
        number = children.came_last() if isinstance(error, ImportError) else None
        if number is not None:
            return BY_SIGNAL + number
        tell([f"{name}: {wanting(error)}"])
        streams.drop_output()
        return REFUSED
    except Exception as error:  # pylint: disable=broad-except
        if isinstance(error, RuntimeError) and THREADLESS in str(error):
            why = "this user has too many processes (ulimit -u), or memory ran out (ulimit -v): end some, or raise the limit"
            tell([f"{name}: no thread can be started, because {why}"])
            return REFUSED
        import traceback

        last = traceback.extract_tb(error.__traceback__)[-1]
        where = f"{os.path.relpath(FOLDER / last.filename, FOLDER)}:{last.lineno}"
        what = " ".join(f"{type(error).__name__}: {error}".split())
        tell([f"{name}: this is a bug of {name} itself, at {where}: {what}; CONTRIBUTING.md says how to report it"])
        return BUG


def wanting(error: BaseException) -> str:
    """What the host did not give."""
    if isinstance(error, FileNotFoundError) and error.filename is None and not is_here():
        return f"{GONE}: start it elsewhere"
    if isinstance(error, OSError):
        return ": ".join(str(it) for it in (error.filename, error.strerror or error) if it is not None)
    if isinstance(error, MemoryError):
        return "memory ran out"
    return f"a part of Python cannot be loaded: {error}" if isinstance(error, ImportError) else f"no process can be started: {error}"


def of_repository(name: str, work: Callable[[], int]) -> int:
    """Does the work of a script of the repository, which ends as a tool does: by signals too, and where standard output is closed or full."""

    def whole() -> int:
        children.end_by_signals()
        try:
            status = work()
        except SystemExit as left:
            tell([left.code] if isinstance(left.code, str) else [])
            status = left.code if isinstance(left.code, int) else REFUSED if left.code else 0
        put("")
        return status

    prepare()
    return ended(name, whole)


def prepare() -> None:
    """Makes this process ready to be a tool: its standard streams, and what it hands on to those that it starts."""
    streams.prepare()
    own_folders.drop_homes_of_others()


def process(name: str, words: list[str]) -> int:
    """Runs a tool as a process of its own, which has standard streams of its own."""
    prepare()
    return main(name, words)


def script() -> int:
    """A tool that was installed by itself, by the name under which it is started."""
    return process(pathlib.Path(sys.argv[0]).name, sys.argv[1:])
