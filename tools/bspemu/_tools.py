"""Starts the tools of the repository or of the wheel with this Python."""

from __future__ import annotations

import os
import pathlib
import selectors
import shlex
import signal
import subprocess
import sys
from fractions import Fraction
from typing import Any, Iterable, List, NamedTuple, Tuple, Union

from bsptools.options import FLAGS

HERE = pathlib.Path(__file__).resolve().parent
# Beside this package in a checkout; in a wheel, in what it has beside its modules.
STARTER = HERE.parent if (HERE.parent / "__main__.py").exists() else HERE / "share/tools"
# A price or a cost: exact if it is no float.
Number = Union[int, Fraction]
Price = Union[int, float, str, Fraction]
# For how many seconds a tool may clear away what it has made after it was told to end.
PATIENCE = 10
# What a tool may write, in bytes.
CHUNK, MOST_OUTPUT = 1 << 16, 1 << 28
_running: "List[subprocess.Popen[bytes]]" = []


class BspError(Exception):
    """A run or a sweep that could not be made, or did not end well, with the lines that the tool says of it.

    Attributes
    ----------
    status : int
        The exit status of the tool, as `docs/manual/statuses.md` has them.
    run : object
        The run, if one was made and was stopped; None otherwise.
    """

    def __init__(self, text: str, status: int = 1, run: Any = None) -> None:
        super().__init__(text)
        self.status, self.run = status, run


class Done(NamedTuple):
    """How a tool ended: its status, and what it wrote."""

    status: int
    output: bytes
    told: str


def words_of(name: str, words: Iterable[str]) -> List[str]:
    """The command that starts a tool by this Python, whichever is first on the PATH."""
    return [sys.executable, "-I", "-B", str(STARTER), name, *words]


def call(name: str, words: Iterable[str]) -> Done:
    """Runs a tool to its end. Where this is interrupted, as by Ctrl-C or a notebook's stop, or the tool writes without an end, it is told to
    end and clears away. What a run costs depends on no options that the environment has for bsprun, as with bspsweep."""
    environment = {name: it for name, it in os.environ.items() if name != FLAGS}
    words = words_of(name, words)
    with subprocess.Popen(words, stdin=subprocess.DEVNULL, stdout=subprocess.PIPE, stderr=subprocess.PIPE, env=environment) as child:
        _running.append(child)
        try:
            output, told = _heard(child)
        except BaseException:
            _end(child)
            raise
        finally:
            _running.remove(child)
    return Done(child.returncode, output, told.decode(errors="replace"))


def _heard(child: "subprocess.Popen[bytes]") -> Tuple[bytes, bytes]:
    """What a tool writes up to its end. This process would run out of memory by more than that, with all variables of a notebook."""
    assert child.stdout is not None and child.stderr is not None
    parts = {child.stdout.fileno(): bytearray(), child.stderr.fileno(): bytearray()}
    output, told = parts.values()
    # A notebook may have more files open than select() takes numbers of.
    with selectors.DefaultSelector() as left:
        for number in parts:
            left.register(number, selectors.EVENT_READ)
        while left.get_map():
            for key, _ in left.select():
                piece = os.read(key.fd, CHUNK)
                parts[key.fd] += piece
                if not piece:
                    left.unregister(key.fd)
            if len(output) + len(told) > MOST_OUTPUT:
                raise BspError(f"the program writes more than {MOST_OUTPUT} bytes, which are the most here: run it by bsprun, with its output in a file")
    child.wait()
    return bytes(output), bytes(told)


def _end(child: "subprocess.Popen[bytes]") -> None:
    """Tells a tool to end, and waits until it has cleared away."""
    child.send_signal(signal.SIGTERM)
    try:
        child.wait(PATIENCE)
    except subprocess.TimeoutExpired:
        child.kill()


def end_all() -> None:
    """Ends the tools that threads of this process wait for: only the main thread is interrupted."""
    for child in list(_running):
        child.send_signal(signal.SIGTERM)


def exact(value: Price) -> Number:
    """A price as an exact number: 31/8 may be given as "31/8", 3.875, or a Fraction."""
    told = f"{value!r} is not a price: give a number such as 4, 3.875 or '31/8'"
    try:
        found = Fraction(repr(value)) if isinstance(value, float) else Fraction(value)
    except (ValueError, TypeError, ZeroDivisionError) as error:
        raise BspError(told) from error
    if found < 0:
        raise BspError(told)
    return found.numerator if found.denominator == 1 else found


def several(values: Any) -> List[Any]:
    """The values of a list, or the one that stands in place of a list: a text is no list of its letters."""
    return [values] if isinstance(values, (str, int, float, Fraction, os.PathLike)) else list(values)


def parted(words: Any) -> List[str]:
    """The words of a list, or of a text as a shell parts it."""
    try:
        return shlex.split(words) if isinstance(words, str) else [str(it) for it in several(words)]
    except ValueError as error:
        raise BspError(f"{words!r}: {error}") from error
