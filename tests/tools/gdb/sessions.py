"""Sessions with gdb and with the debugger, for the cases of tests/tools/gdb/run."""

from __future__ import annotations

import functools
import os
import pathlib
import re
import subprocess
import threading
from typing import Dict, List, Sequence

import forked
from checks import GDB, REPO, SECONDS, units

REGISTERS = "ra sp gp tp t0 t1 t2 fp s1 a0 a1 a2 a3 a4 a5 a6 a7 s2 s3 s4 s5 s6 s7 s8 s9 s10 s11 t3 t4 t5 t6 pc".split()
# Has gdb show the registers of all ranks.
SHOW_REGISTERS = "thread apply all -ascending -q info registers"


class Wrong(Exception):
    """What gdb shows is not what it should show."""


def expect(is_right: bool, text: object) -> None:
    if not is_right:
        raise Wrong(str(text))


def in_order(text: str, *parts: str) -> None:
    """Each part stands in the text, behind the one before it."""
    place = 0
    for part in parts:
        found = text.find(part, place)
        expect(found >= 0, f"there is no {part!r} behind {text[max(0, place - 200):place]!r} in\n{text}")
        place = found + len(part)


def registers_in(text: str, ranks: int) -> List[List[int]]:
    """The registers of each rank, as gdb has shown them."""
    rows = [re.findall(rf"(?m)^(?:\(gdb\) )?{name} +(0x[0-9a-f]+)", text) for name in REGISTERS]
    expect(all(len(row) == ranks for row in rows), text)
    return [[int(row[rank], 16) for row in rows] for rank in range(ranks)]


class Bench:
    """What cases stand on: a folder for the programs that they build, gdb, the debugger."""

    def __init__(self, bspemu: str, folder: pathlib.Path, library: List[str]) -> None:
        self.bspemu, self.folder, self.library = bspemu, folder, library
        self.built: Dict[str, threading.Lock] = {}
        # For the cases that have machines in this process, of which one makes sessions shorter.
        self.machines = threading.Lock()

    def build(self, source: str, *options: str) -> str:
        """The executable of a program, which is built once."""
        target = self.folder / (pathlib.Path(source).stem + "".join(options) + ".elf")
        with self.built.setdefault(target.name, threading.Lock()):
            if not target.exists():
                words = [str(REPO / "bspcc"), *self.library, "--stack", "128K", "-g", "-O0", "-Wno-infinite-recursion", *options]
                subprocess.run([*words, "-o", str(target), source], cwd=REPO, check=True, timeout=SECONDS)
        return str(target)

    def gdb(self, program: str, commands: Sequence[str], *options: str, numbers: str = "") -> str:
        """What gdb prints that is given these commands; with other numbers in the tools' modules, where `forked` is told some."""
        # Without what the user has gdb do when it starts.
        words = [str(REPO / "bspgdb"), "--bspemu", self.bspemu, *options, program, "--", "-nx"]
        text = "".join(command + "\n" for command in ["set width 0", *commands])
        return forked.run(words, text, REPO, {**os.environ, forked.NUMBERS: numbers}, merged=True).stdout

    def debug(self, program: str, commands: Sequence[str], *options: str) -> List[str]:
        """What the debugger answers to these lines."""
        text = "".join(command + "\n" for command in commands)
        words = [self.bspemu, "debug", program, *units(program), *options]
        done = subprocess.run(words, input=text, capture_output=True, text=True, timeout=SECONDS, check=True)
        return done.stdout.splitlines()

    def registers_told(self, program: str, commands: Sequence[str], ranks: int) -> List[List[int]]:
        """The registers of each rank, as the debugger tells them behind these lines, each of which has a reply of one line."""
        told = []
        for rank in range(ranks):
            lines = self.debug(program, [*commands, f"regs {rank}"], "--nodes", str(ranks))[len(commands) :]
            values = re.findall(r"=([0-9a-f]{8})", "\n".join(lines))[1:] + [lines[0].split()[3]]
            told.append([int(value, 16) for value in values])
        return told

    def run(self, *words: str) -> None:
        """Has the emulator do what these words say."""
        subprocess.run([self.bspemu, *words], timeout=SECONDS, check=True)

    def report(self, program: str, *options: str) -> subprocess.CompletedProcess[str]:
        words = [self.bspemu, "run", program, "--report", *units(program), *options]
        return subprocess.run(words, capture_output=True, text=True, timeout=SECONDS, check=False)

    @functools.lru_cache(maxsize=None)
    def address(self, program: str, place: str) -> int:
        """Where gdb sets a breakpoint, which it finds in the executable alone."""
        return self.addresses(program, [place])[0]

    def addresses(self, program: str, places: Sequence[str]) -> List[int]:
        """The same of some places, by one gdb."""
        found = re.findall(r"reakpoint \d+ at (0x[0-9a-f]+)", self._of_file(program, [f"break {it}" for it in places]))
        if len(found) != len(places):
            raise Wrong(f"no breakpoints at {places}")
        return [int(it, 16) for it in found]

    def pointers(self, program: str, names: Sequence[str]) -> List[int]:
        """Where variables and functions are, or parts of them, which gdb finds there too."""
        found = re.findall(r"(?m)^\$\d+ = (0x[0-9a-f]+)$", self._of_file(program, [f"print/x (int)&{it}" for it in names]))
        if len(found) != len(names):
            raise Wrong(f"not all of {names} are in {program}")
        return [int(it, 16) for it in found]

    @staticmethod
    def _of_file(program: str, commands: Sequence[str]) -> str:
        """What a gdb says that looks at an executable, and starts nothing."""
        words = [GDB.name, "-q", "-nx", "-batch", *(it for command in commands for it in ("-ex", command)), program]
        return subprocess.run(words, stdin=subprocess.DEVNULL, capture_output=True, text=True, cwd=REPO, timeout=SECONDS, check=False).stdout
