"""One parser of command lines for all tools, and readers of the values of options."""

from __future__ import annotations

import argparse
import os
import re
import shlex
from collections.abc import Callable
from typing import Any, NoReturn

from . import emulator, limits
from .refusals import Refused, printable

# What has options of bsprun in the environment.
FLAGS = "BSPRUN_FLAGS"
# Of a range of numbers.
MOST_LISTED = 10_000
UNITS = {"K": 1 << 10, "M": 1 << 20, "G": 1 << 30}
# Options for the compiler, with the name of the value of each and what it does.
COMPILED = {
    "-D": ("NAME[=VALUE]", "define a macro"),
    "-I": ("DIR", "search DIR for headers"),
    "-O": ("LEVEL", "optimization level, such as -O2"),
    "-l": ("LIBRARY", "link with a library, such as -lm"),
    "-W": ("WARNING", "turn on a warning, such as -Wall"),
    "-f": ("NAME", "compiler option, such as -fwrapv"),
    "-m": ("NAME", "target option, such as -march=rv32imc"),
    "-std": ("STANDARD", "language standard, such as -std=c99"),
}
# The sections of a help, in the order in which they are shown.
THE_PROGRAM, MISTAKES, COMPILING, MACHINE, COSTS, OUTPUT = "the program", "mistakes", "compiling a .c program", "the machine", "costs", "output"
# Those of one word, which others begin as: -pedantic begins as -p, which is a number of nodes.
WHOLE_WORDS = ("-g", "-g3", "-ggdb", "-w", "-pedantic", "-pedantic-errors", "-pthread")
# Words that are hardly meant for a program: where compilers are called, they may stand behind it.
FOR_COMPILER = re.compile(
    r"-(D[A-Za-z_]\w*(=.*)?|I.+|O[0-3sgz]|lm|W(all|extra)|pedantic(-errors)?|pthread|std=.+|m(arch|abi)=.+)", re.ASCII
)
# How argparse refuses an option without a value.
LACKING = re.compile(r"argument (\S+): expected one argument")
KINDS = ("elf", "asm", "raw", "c")
# What the help calls a value that names a file or a folder.
NAMING = ("FILE", "DIR", "FOLDER", "PROGRAM", "SOURCE")


class Version(argparse.Action):
    """Says what this is, and ends the program."""

    def __call__(self, parser: argparse.ArgumentParser, *_: Any) -> None:
        print(*map(printable, emulator.version(parser.prog)), sep="\n")
        parser.exit()


class Compiled(argparse.Action):
    """Keeps an option for the compiler, in the order in which they stand."""

    def __call__(self, _parser: argparse.ArgumentParser, found: argparse.Namespace, value: Any, option: str | None = None) -> None:
        word = f"{option}={value}" if option == "-std" else f"{option}{value or ''}"
        found.compiled = [*(found.compiled or []), word]


class Joined(argparse.Action):
    """Keeps a list of values that are parted by commas. If the option is given again, its values are added to the list."""

    def __call__(self, _parser: argparse.ArgumentParser, found: argparse.Namespace, values: Any, option: str | None = None) -> None:
        setattr(found, self.dest, type(values)(dict.fromkeys([*(getattr(found, self.dest) or ()), *values])))


class Layout(argparse.HelpFormatter):
    """Lays out a help. Paragraphs of a description are filled; one that begins with two blanks is a list of examples, and stays as it is."""

    def _fill_text(self, text: str, width: int, indent: str) -> str:
        return "\n\n".join(
            part if part.startswith("  ") else argparse.HelpFormatter._fill_text(self, part, width, indent) for part in text.split("\n\n")
        )


class Parser(argparse.ArgumentParser):
    """A reader of a tool's command line, which refuses a wrong one."""

    _group: argparse._ArgumentGroup | None = None

    def __init__(self, name: str, **given: Any) -> None:
        super().__init__(prog=name, allow_abbrev=False, formatter_class=Layout, **given)
        self._words: list[str] = []
        self._sections: dict[str, argparse._ArgumentGroup] = {}
        self.add_argument("--version", action=Version, nargs=0, help="print the versions, the commit if it is known, and what was proved")

    def add_argument(self, *names: Any, **given: Any) -> argparse.Action:
        """Adds an option. No value of one that names files is empty: the folder that a tool is started in would stand for it."""
        if given.get("metavar") in NAMING and given.get("action", "append") == "append":
            given.setdefault("type", named)
        is_operand = not names[0].startswith("-")
        return super().add_argument(*names, **given) if self._group is None or is_operand else self._group.add_argument(*names, **given)

    def section(self, *titles: str) -> None:
        """Shows the options that follow in the last of these sections of the help. Sections are in the order in which they are first named."""
        for title in titles:
            if title not in self._sections:
                self._sections[title] = self.add_argument_group(title)
        self._group = self._sections[titles[-1]]

    def parse_known_args(self, args: Any = None, namespace: Any = None) -> Any:
        """Reads a command line, whose words a refusal may name."""
        self._words = args or []
        found, rest = super().parse_known_args(args, namespace)
        is_rest = any(it.dest == "args" and not it.option_strings for it in self._actions)
        given = getattr(found, "args", None) if is_rest else None
        self._expect_options(self._words[: len(self._words) - len(given or [])])
        # argparse drops a first `--`, also one that is an argument of the program.
        if given is not None and self._words[: len(self._words) - len(given)][-1:] == ["--"]:
            given.insert(0, "--")
        return found, rest

    def _expect_options(self, words: list[str]) -> None:
        """Refuses an option that is the name of a file here: of all files of somebody else's folder, as `*`, one may be named so."""
        before = words[: words.index("--")] if "--" in words else words
        for it in before:
            if it.startswith("-") and os.path.lexists(it):
                raise Refused(f"{it} is a file here, and would be an option: give it as ./{it}, or rename it")

    def error(self, message: str) -> NoReturn:
        """Says what is wrong, and how a file or a value is given that was taken for options."""
        names = [it for it in self._words if it.startswith("-") and os.path.isfile(it)]
        lines = [f"{it} is a file here, and begins as options do: give it as ./{it}" for it in names[:1]]
        raise Refused(f"{message}; {self.prog} --help lists the options", *lines or self._dashed(message))

    def _dashed(self, message: str) -> list[str]:
        """How the value is given which a refused option lacks, if the next word is no other option and begins as options do."""
        lacking = LACKING.match(message)
        names = lacking[1].split("/") if lacking else []
        values = [value for word, value in zip(self._words, self._words[1:]) if word in names and value.startswith("-")]
        fitting = [it for it in values if it.partition("=")[0] not in self._option_string_actions]
        return [f"{it} begins as options do: if it is the value, give it as {shlex.quote(f'{names[-1]}={it}')}" for it in fitting[:1]]

    def own(self, words: list[str], rest: list[str]) -> list[str]:
        """What looks like options of this parser in the rest of a command line, which is another's. One that stands in front of that too is
        no mistake."""
        options, front, found = self._option_string_actions, words[: len(words) - len(rest)], []
        for word, value in zip(rest, [*rest[1:], ""]):
            name = word.partition("=")[0]
            action = options.get(name) if name.startswith("-") else None
            if action and not set(action.option_strings).intersection(it.partition("=")[0] for it in front):
                found.append(word if action.nargs == 0 or name != word else f"{word} {value}".rstrip())
            elif FOR_COMPILER.fullmatch(word) and not any(it.startswith(word[:2]) for it in front):
                found.append(word)
        return found

    def add_number(self, *names: str, what: str, least: int, most: int, unit: int = 1, **given: Any) -> None:
        """An option with a whole number of this range, which is a number of bytes if it is said to be BYTES."""
        reader = number(what, least, most, unit, given["metavar"] == "BYTES")
        self.add_argument(*names, type=reader, **given)

    def add_program(self) -> None:
        """A program and its nodes, input, files and arguments, as each tool has them that makes one run."""
        add = self.add_argument
        self.section(THE_PROGRAM)
        add("-n", "--nodes", type=P, default=os.environ.get("BSP_PROCS") or limits.NODES, metavar="P",
            help="number of nodes; default: BSP_PROCS in the environment, or 1")  # fmt: skip
        add("-np", "-npes", "-p", dest="nodes", type=P, default=argparse.SUPPRESS, metavar="P", help="same as -n")
        add("--input", metavar="FILE", help="file that the program reads as its standard input")
        add("--file", metavar="FILE", action="append", default=[], help="file that the program can open with fopen; can be repeated")
        add("--files", metavar="DIR", action="append", default=[], help="give the program all files of this folder, as --file does; can be repeated")
        add("--argv0", metavar="TEXT", help="argv[0] of main; default: PROGRAM as you typed it")
        add("--format", choices=KINDS, help="format of PROGRAM; default: as its content or its name shows")
        self.section(MISTAKES)
        add("--strict", action="store_true", help="report likely mistakes: compile a .c program with --check, -Og, -g and GCC's warnings,"
            " and search the run (bsprun --warn)")  # fmt: skip
        add("--check", action="store_true", help="check integer overflow, indices, pointers and shifts of a .c program as it runs")
        self.section(COMPILING)
        for option, (metavar, what) in COMPILED.items():
            add(option, dest="compiled", action=Compiled, metavar=metavar, help=what)
        add(*WHOLE_WORDS, dest="compiled", action=Compiled, nargs=0, help="passed to bspcc; -pthread has no effect")
        self.add_number("--stack", what="the room of the stack in bytes", least=limits.LEAST_STACK, most=limits.MOST_STACK,
            metavar="BYTES", help="stack of a .c program; default 1M, or 128K if --memory is less than 4M")  # fmt: skip
        self.set_defaults(bspemu=None, found=[], is_here=False)
        add("program", metavar="PROGRAM", help="the program to run")
        add("args", metavar="ARGS", nargs=argparse.REMAINDER, help="arguments of main").required = False

    def add_machine(self) -> None:
        """The settings of nodes that all runs have."""
        self.section(MACHINE)
        self.add_number("--limit", what="the limit of instructions", least=1, most=limits.MOST_TICKS, default=limits.MOST_TICKS,
            metavar="COUNT", help="most instructions that a node may execute; default 2^40")  # fmt: skip
        self.add_number("--memory", what="the memory of a node in bytes", least=limits.PAGE, most=limits.MOST_MEMORY, unit=limits.PAGE,
            default=limits.MEMORY, metavar="BYTES", help="memory of each node; default 16M. More makes the machine large, as --large does")  # fmt: skip
        self.add_argument(limits.OPTION, action="store_true", help="raise the limits: 65536 nodes, 2G of memory a node, 16777216 requests a superstep."
            " Automatic if the nodes or the memory need it")  # fmt: skip
        self.add_argument("--float", action="store_true", help="give nodes the floating-point instructions of RISC-V, extensions F and D."
            " Automatic for programs of bspcc, and for assembly that has them")  # fmt: skip
        self.add_argument("--atomic", action="store_true", help="give nodes the atomic instructions of RISC-V, extension A. Automatic for"
            " programs that were compiled for them, and for assembly that has them")  # fmt: skip

    def add_prices(self, g: Callable[[str], object] | None = None, l: Callable[[str], object] | None = None) -> None:
        """g and l, where each is one number: a whole one, or what these readers take."""
        self.section(COSTS)
        self.add_argument("--g", type=g or G, default=limits.G, metavar="TICKS", help="price of a byte of h; default 1")
        self.add_argument("--l", type=l or L, default=limits.L, metavar="TICKS", help="price of the end of a superstep; default 0")

    def add_rate(self) -> None:
        """How many instructions a program's second has."""
        self.add_argument("--rate", type=rate, default=limits.RATE, metavar="COUNT", help="instructions a second, for bsp_time; default 1e9")


def named(text: str) -> str:
    """A name of a file or folder."""
    if not text or "\0" in text:
        raise argparse.ArgumentTypeError(f"{text!r} is not the name of a file or folder")
    return text


def number(what: str, least: int, most: int, unit: int = 1, is_size: bool = False) -> Callable[[str], int]:
    """A reader of whole numbers of this range, multiples of a unit, which says the range where it refuses. A size may end with K or M."""
    kind = "a whole number" if unit == 1 else f"a multiple of {unit}"
    also = "" if not is_size else ", as 64K, 1M or 1G too" if most >= UNITS["G"] else ", as 64K or 1M too"

    def read(text: str) -> int:
        times = UNITS.get(text[-1:].upper(), 1) if is_size else 1
        try:
            # Digits of other scripts, and what stands between digits, are Python's.
            value = int(text[:-1] if times > 1 else text, 0) * times if text.isascii() and "_" not in text else least - 1
        except ValueError:
            value = least - 1
        if not least <= value <= most or value % unit:
            raise argparse.ArgumentTypeError(f"{text!r}: {what} is {kind} from {least} to {most}{also}")
        return value

    return read


G = number("the price of a byte", 0, limits.MOST_PRICE)
L = number("the price of a superstep's end", 0, limits.MOST_PRICE)
P = number("the number of nodes", 1, limits.MOST_NODES)


def rate(text: str) -> float:
    """Instructions a second."""
    try:
        value = float(text)
    except ValueError:
        value = 0.0
    if not 1 <= value <= limits.MOST_RATE:
        raise argparse.ArgumentTypeError(f"{text!r}: the rate is a number of instructions a second from 1 to 1e18, as 1e9")
    return value


def listed(one: Callable[[str], int]) -> Callable[[str], list[int]]:
    """A reader of numbers that are parted by commas; `1:8` is each number from 1 to 8."""

    def read(text: str) -> list[int]:
        found: list[int] = []
        for part in text.split(","):
            first, _, last = part.partition(":")
            start, end = one(first), one(last or first)
            if end - start >= MOST_LISTED:
                raise argparse.ArgumentTypeError(f"{part!r}: these are more than {MOST_LISTED} numbers")
            found += range(start, end + 1)
        return list(dict.fromkeys(found))

    return read


def pair(text: str, what: str) -> tuple[str, str]:
    """A name and its value, as `NAME=VALUE`."""
    name, equals, value = text.partition("=")
    if not equals:
        raise argparse.ArgumentTypeError(f"{text!r}: give {what}")
    return name, value
