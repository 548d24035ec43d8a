"""Programs in C, compiled by `bspcc`."""

from __future__ import annotations

import argparse
import os
import pathlib
import subprocess

from .. import children, emulator
from ..limits import COMPILED_STACK, MEMORY_OF_STACK, STACK
from ..refusals import Refused, lines_of, tell
from .compiler_warnings import OPTIMIZED, messages, of_mistakes

SOURCES = (".c", ".cc", ".cpp", ".cxx", ".C")


def take_sources(options: argparse.Namespace) -> None:
    """Takes the files of C that follow the program on the command line for parts of it."""
    options.sources = [options.program]
    while options.args and pathlib.Path(options.args[0]).suffix in SOURCES and os.path.isfile(options.args[0]):
        options.sources.append(options.args.pop(0))


def command(options: argparse.Namespace, target: pathlib.Path, *more: str) -> tuple[list[str], dict[str, str]]:
    """The words that make an executable of the sources, with more options for bspcc, and their environment. What a compiler leaves that was
    killed stands beside the executable."""
    room = options.stack or (STACK if options.memory >= MEMORY_OF_STACK else COMPILED_STACK)
    places = [os.path.abspath(it) for it in options.sources]
    words = [emulator.program("bspcc"), *more, "--stack", str(room), "-o", str(target), *places, *(options.compiled or []), "-lm"]
    return words, {**os.environ, "TMPDIR": str(target.parent)}


def looks(options: argparse.Namespace) -> list[str]:
    """The options of bspcc by which a program is looked at."""
    return ["--strict"] if options.strict else ["--check"] if options.check else []


def manner(options: argparse.Namespace, tool: str) -> list[str]:
    """How a tool has a program compiled where the command line says nothing else: for gdb so that each variable can be looked at, and for
    a run with warnings of what is nearly always a mistake. Where warnings are errors they are those that the person has chosen."""
    choices = ["--portable"] if getattr(options, "order", None) is not None else []
    if options.strict:
        return choices
    has_own = not {"-w", "-Werror"}.isdisjoint(options.compiled or [])
    return [*choices, *(["-Og"] if tool == "bspgdb" else [] if has_own else ["--likely"])]


def optimized(options: argparse.Namespace, names: list[str]) -> list[str]:
    """What GCC says of accesses past arrays, which it only sees where it optimizes: a program that is looked at is not."""
    words = [emulator.program("bspcc"), "--likely", "-S", "-o", os.devnull, *(options.compiled or []), "-O2"]
    lines: list[str] = []
    for name in names:
        done = children.call([*words, name], stdout=subprocess.PIPE, stderr=subprocess.STDOUT)
        found = messages(lines_of(done.stdout, *names)) if done.returncode == 0 else []
        lines += [line for it in found if any(OPTIMIZED.search(line) for line in it) for line in it]
    return lines


def compiled(options: argparse.Namespace, target: pathlib.Path, *more: str, is_told: bool = True) -> list[str]:
    """Makes an executable of the sources, with more options for bspcc. Answers what was said of them, and tells it if they cannot be."""
    words, environment = command(options, target, "-g", *looks(options), *more)
    done = children.call(words, stdout=subprocess.PIPE, stderr=subprocess.STDOUT, env=environment)
    names = [os.path.abspath(it) for it in options.sources]
    said = of_mistakes([*lines_of(done.stdout, *names), *(optimized(options, names) if options.strict and not more else [])])
    if done.returncode != 0:
        tell(said if is_told else [])
        raise Refused(f"{' '.join(options.sources)} was not compiled")
    return said
