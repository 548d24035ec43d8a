"""Code that the checks of the tools share: counting and reporting, skipping, and parts that run in parallel.

A check prints a line for each thing that fails, with what was wrong; a line for each part whose tool is not here; and at last
`N passed, M failed, K skipped`. Its status is 1 if something failed, and 0 if nothing did.
"""

from __future__ import annotations

import contextlib
import functools
import os
import pathlib
import shutil
import subprocess
import sys
import tempfile
import threading
import time
from dataclasses import dataclass
from typing import Callable, Dict, Iterable, List, Optional, Sequence, Tuple, Union

REPO = pathlib.Path(__file__).resolve().parents[2]
sys.path.append(str(REPO / "tools"))

import ended_checks  # noqa: E402
import lanes  # noqa: E402

from bsptools import python_packages  # noqa: E402
from bsptools.program import elf  # noqa: E402

# Only what hangs takes so long, also on a busy machine.
SECONDS = 1800
# In how many seconds what comes soon has come, also on a host that has hundreds of processes to run.
SOON = 300
# The fields of proc_pid_stat(5) with the processor time of a process, from its state on.
USER_TIME, SYSTEM_TIME = 11, 12
# For how many seconds of processor time something is computed that takes long.
WORK = 0.2
# What stands in a checkout and is none of its files.
MADE = {".git", "out", "__pycache__", ".bspsweep", ".bspcheck", "pictures"}


def tracked() -> List[str]:
    """The files of the repository, as git tells them. If there is no git, or it does not trust a checkout of another user, these are
    all files that were not made here."""
    try:
        done = subprocess.run(["git", "ls-files", "-z"], cwd=REPO, stdout=subprocess.PIPE, stderr=subprocess.DEVNULL, check=True)
        names = done.stdout.decode().split("\0")
    except (OSError, subprocess.CalledProcessError):
        names = []
        for folder, below, files in os.walk(REPO):
            below[:] = sorted(set(below) - MADE)
            names += [str((pathlib.Path(folder) / it).relative_to(REPO)) for it in files]
    return [it for it in names if it and (REPO / it).is_file()]


def units(program: Union[str, pathlib.Path]) -> List[str]:
    """The options of the emulator for nodes with units of floating point, and with the instructions of A, where a program was compiled for
    these."""
    content = pathlib.Path(program).read_bytes()
    if not content.startswith(b"\x7fELF"):
        return []
    return ["--float"] * elf.wants_floats(content) + ["--atomic"] * elf.wants_atomics(content)


def on_path(name: str) -> bool:
    """Whether there is a program of this name."""
    return shutil.which(name) is not None


@functools.lru_cache(maxsize=None)
def in_python(name: str) -> bool:
    """Whether the Python that the tools take has a module: the first on the PATH, or the distribution's."""
    words = ["-c", f"import {name}"]
    return any(subprocess.run([it, *words], stderr=subprocess.DEVNULL, check=False).returncode == 0 for it in ("python3", "/usr/bin/python3"))


@functools.lru_cache(maxsize=None)
def in_compiler(name: str) -> bool:
    """Whether the compiler finds a file of this name."""
    if not GCC.is_here():
        return False
    words = [GCC.name, f"-print-file-name={name}"]
    return subprocess.run(words, stdout=subprocess.PIPE, text=True, check=True).stdout.strip() != name


def in_includes(name: str) -> bool:
    """Whether the host has headers in a folder of this name."""
    return bool(list(pathlib.Path("/usr/include").glob(f"{name}/*")))


@dataclass(frozen=True)
class Tool:
    """What a part of a check wants beside the repository and Python: where it comes from, most times a package of Debian's, and how it is
    looked for."""

    name: str
    package: str  # nothing: it is the kit's
    look: Callable[[str], bool] = on_path

    def is_here(self) -> bool:
        """Whether it is installed."""
        return self.look(self.name)

    def source(self) -> str:
        """Where it comes from, in words."""
        return f"Debian's package {self.package}" if self.package else "the Rattle kit has it"


GCC = Tool("riscv64-unknown-elf-gcc", "gcc-riscv64-unknown-elf")
BINUTILS = Tool("riscv64-unknown-elf-ld", "binutils-riscv64-unknown-elf")
C_LIBRARY = Tool("picolibc.specs", "picolibc-riscv64-unknown-elf", in_compiler)
CLASSES = Tool("c++", "g++", in_includes)
PYELFTOOLS = Tool(python_packages.ELFTOOLS, python_packages.PACKAGES[python_packages.ELFTOOLS], in_python)
# What bspplot wants to draw.
MATPLOTLIB = Tool(python_packages.MATPLOTLIB, python_packages.PACKAGES[python_packages.MATPLOTLIB], in_python)
# What builds a project as it is found.
MAKE, CMAKE = Tool("make", "make"), Tool("cmake", "cmake")
GDB = Tool("gdb-multiarch", "gdb-multiarch")
# What bspcc wants, without the C library and with it.
BARE_COMPILER = (GCC, BINUTILS)
COMPILER = (*BARE_COMPILER, C_LIBRARY)


@dataclass(frozen=True)
class Part:
    """A part of a check: its name, what makes it, and the tools without which it is skipped."""

    name: str
    make: Callable[[], None]
    tools: Tuple[Tool, ...] = ()

    def lacks(self) -> Optional[Tool]:
        """The first of its tools that is not here."""
        return next((tool for tool in self.tools if not tool.is_here()), None)


class Tally:
    """Counts what passed, failed and was skipped, and tells what did not pass. Threads may share it."""

    def __init__(self) -> None:
        self.passed = self.failed = self.skipped = 0
        self._lock = threading.Lock()

    def tell(self, name: str, fault: str) -> None:
        """Notes a result: what is wrong, or nothing."""
        with self._lock:
            if fault:
                self.failed += 1
                print(f"{name}: FAILED: {fault}", flush=True)
            else:
                self.passed += 1

    def expect(self, name: str, is_right: bool, fault: object) -> None:
        """Notes a result, with what was found if it is wrong."""
        self.tell(name, "" if is_right else str(fault) or "it is wrong, and nothing was said")

    def skip(self, name: str, why: str) -> None:
        """Notes what is not tried."""
        with self._lock:
            self.skipped += 1
            print(f"skipped: {name}: {why}", flush=True)

    def lacks(self, tool: Tool, name: str) -> bool:
        """Whether a tool is not here, and so a part of this name is skipped."""
        if tool.is_here():
            return False
        self.skip(name, f"{tool.name} is not here ({tool.source()})")
        return True

    def make(self, parts: Iterable[Part]) -> None:
        """Makes all parts, as many at a time as there are lanes. What a part raises is its fault."""
        lanes.each(self._make, parts)

    def _make(self, part: Part) -> None:
        """Makes a part, or skips it."""
        tool = part.lacks()
        if tool is not None:
            self.lacks(tool, part.name)
            return
        try:
            part.make()
        except Exception as error:  # pylint: disable=broad-except
            said = getattr(error, "stderr", None)
            self.tell(part.name, f"{type(error).__name__}: {error}{': ' + str(said) if said else ''}")

    def end(self) -> int:
        """Prints the last line. Answers the exit status."""
        print(f"{self.passed} passed, {self.failed} failed, {self.skipped} skipped", flush=True)
        return 1 if self.failed else 0


def started() -> str:
    """The emulator that ./bspemu starts. If there is none, that says why, and the check ends."""
    done = subprocess.run([str(REPO / "bspemu"), "--which"], stdin=subprocess.DEVNULL, stdout=subprocess.PIPE, check=False)
    if done.returncode != 0:
        sys.exit(f"{pathlib.Path(sys.argv[0]).name}: there is no emulator to check")
    return os.fsdecode(done.stdout).rstrip("\n")


def emulator(words: Sequence[str]) -> str:
    """The emulator that a command line names first, or the one that ./bspemu starts. The tools take it from the environment."""
    program = str(pathlib.Path(words[0]).resolve()) if words else started()
    os.environ["BSPEMU"] = program
    return program


def try_parts(parts: Callable[[Tally, pathlib.Path], Iterable[Part]]) -> int:
    """Makes the parts of a check in a scratch folder: those that the command line names behind the emulator, or all if it names none.
    Answers the exit status."""
    tally = Tally()
    ended_checks.exit_by_signals()
    emulator(sys.argv[1:])
    with tempfile.TemporaryDirectory() as folder:
        tally.make(it for it in parts(tally, pathlib.Path(folder)) if not sys.argv[2:] or it.name in sys.argv[2:])
    return tally.end()


def commands_with(word: str) -> List[str]:
    """The command lines of processes that have a word."""
    found = []
    for place in pathlib.Path("/proc").glob("[0-9]*/cmdline"):
        try:
            line = place.read_bytes().replace(b"\0", b" ").decode(errors="replace")
        except OSError:
            continue  # it has ended
        if word in line:
            found.append(line)
    return found


def emulators(program: str) -> Dict[int, List[str]]:
    """The emulators that debug a program: the fields of proc_pid_stat(5) from the third one on, the state, by the numbers of processes."""
    found = {}
    for place in pathlib.Path("/proc").glob("[0-9]*"):
        with contextlib.suppress(OSError):  # it has ended
            words = (place / "cmdline").read_bytes().split(b"\0")
            if words[1:3] == [b"debug", program.encode()]:
                found[int(place.name)] = (place / "stat").read_text().rpartition(")")[2].split()
    return found


def seconds_of(program: str) -> float:
    """The processor time of the emulators that debug a program."""
    of_each = (fields[USER_TIME : SYSTEM_TIME + 1] for fields in emulators(program).values())
    return sum(int(it) for times in of_each for it in times) / os.sysconf("SC_CLK_TCK")


def computes(program: str) -> bool:
    """Whether the emulators that debug a program come to compute something that takes long. What they do at a prompt is over long before."""
    enough = seconds_of(program) + WORK
    return becomes_true(lambda: seconds_of(program) >= enough)


def becomes_true(question: Callable[[], bool], seconds: float = SOON) -> bool:
    """Whether something is so, or will be soon: processes end a little later than they are told to, and begin later where many others run."""
    until = time.monotonic() + seconds
    while time.monotonic() < until:
        if question():
            return True
        time.sleep(0.05)
    return False
