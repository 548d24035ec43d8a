"""Programs of ported/, in the styles in which people write them.

They have files in and out, prompts, C of each age and C++, and projects for make and for CMake. Each is built as it is, and run with
default options.

What each has to write is in ported/expected: its output, and for each file its bytes and their sum. It was written by the host's own
processor, where each program was compiled by GCC with functions of BSPlib for one process; so no number of nodes has another answer.
"""

from __future__ import annotations

import functools
import os
import pathlib
import shutil
import subprocess
import zlib
from typing import Callable, Dict, List, NamedTuple, Optional, Tuple

import forked
from checks import CLASSES, CMAKE, COMPILER, MAKE, REPO, SECONDS, Tally, Tool

HERE = pathlib.Path(__file__).resolve().parent / "ported"
OUT = "out"


class Program(NamedTuple):
    """A program: its arguments, of which some are files of ported/data, the file that is its input, and what it writes."""

    arguments: List[str]
    given: Optional[str] = None
    outputs: Tuple[str, ...] = ()


PROGRAMS: Dict[str, Program] = {
    "bfs": Program(["graph.txt"]),
    "equalize": Program(["in.pgm", "out.pgm"], outputs=("out.pgm",)),
    "kmeans": Program(["points.csv"]),
    "life": Program(["board.txt", "3"], outputs=("gen01.txt", "gen02.txt", "gen03.txt")),
    "mandel": Program(["m.ppm"], outputs=("m.ppm",)),
    "matvec": Program(["A.txt", "y.txt"], outputs=("y.txt",)),
    "nbody": Program(["-n", "8", "-s", "3"]),
    "oddeven": Program([], "numbers.txt"),
    "pagerank": Program(["links.txt"], outputs=("ranks.csv",)),
    "plate": Program([], outputs=("plate.pgm",)),
    "report": Program(["settings.cfg", "table.txt"], outputs=("table.txt",)),
    "simpson": Program([], "jobs.txt"),
    "sorted": Program([], outputs=("sorted.bin",)),
    "spline": Program([]),
    "wordcount": Program(["text.txt"]),
    "tables": Program(["points.csv"], outputs=("means.txt",)),
    "calculator": Program([], "sums.txt"),
    "edges": Program(["rings.pgm"], outputs=("edges.pgm", "blur.pgm")),
    "menu": Program([], "typed.txt"),
    "registers": Program([]),
    "sized": Program([]),
    "summa": Program([]),
    "temps": Program([]),
    "tour": Program(["-n7", "--seed", "0x2a"]),
    "weblog": Program([], "log.txt"),
}
# Each program is run on one of these, and on an uneven number.
EVEN, UNEVEN = (1, 2, 4, 8), (3, 5, 7)


class Project(NamedTuple):
    """A project of several files: the commands that build it, what they make, its arguments and its input, and what it writes."""

    build: List[List[str]]
    image: str
    arguments: List[str]
    given: str
    wanted: str
    tools: Tuple[Tool, ...]


BSPCC = str(REPO / "bspcc")
NORM = "n = 200, norm = 813.434078, 0.0 s\n"
NORMS = "norm 0: 20.994046775\nnorm 1: 1.470401877\nnorm 2: 1.483932661\nnorm 3: 1.490650865\n"
LETTERS = "Bulk Synchronous\n\nParallel\n"
COUNTS = "".join(f"{it}: {n} {'#' * n}\n" for it, n in zip("abcehklnoprsuy", (2, 1, 1, 1, 1, 1, 4, 2, 2, 1, 2, 2, 2, 1)))
# Each by the name of its folder, and of that of ways to build it behind a blank.
PROJECTS: Dict[str, Project] = {
    "project make": Project([["make", f"CC={BSPCC}"]], "norm", ["200"], "", NORM, (*COMPILER, MAKE)),
    "project CMake": Project([["cmake", f"-DCMAKE_C_COMPILER={BSPCC}", "-B", "made", "."], ["cmake", "--build", "made"]],
        f"made{os.sep}norm", ["200"], "", NORM, (*COMPILER, MAKE, CMAKE)),  # fmt: skip
    "archive make": Project([["make", f"CC={BSPCC}"]], "solver", ["n=30", "iters=4", "title=norm"], "", NORMS, (*COMPILER, MAKE)),
    "classes CMake": Project([["cmake", f"-DCMAKE_CXX_COMPILER={BSPCC}", "-B", "made", "-S", "."], ["cmake", "--build", "made"]],
        f"made{os.sep}histo", [], LETTERS, COUNTS, (*COMPILER, CLASSES, MAKE, CMAKE)),  # fmt: skip
}


def source_of(name: str) -> pathlib.Path:
    """The source of a program."""
    return next(HERE.glob(f"{name}.c*"))


def told(output: str, folder: pathlib.Path, outputs: Tuple[str, ...]) -> str:
    """What a program wrote: its output, and a line for each file."""
    lines = []
    for name in outputs:
        content = (folder / name).read_bytes() if (folder / name).exists() else b""
        lines.append(f"== {name}: {len(content)} bytes, sum {zlib.crc32(content):08x}\n")
    return output + "".join(lines)


class Ported:
    """Programs that are built and run in a folder of this part's own."""

    def __init__(self, tally: Tally, folder: pathlib.Path) -> None:
        self.tally, self.folder = tally, folder

    def run(self, nodes: int, name: str, arguments: List[str], given: str = "", *options: str) -> "subprocess.CompletedProcess[str]":
        """A run by bsprun, which puts files into an empty folder."""
        shutil.rmtree(self.folder / OUT, ignore_errors=True)
        words = [str(REPO / "bsprun"), "-n", str(nodes), "--out", OUT, *options, name, *arguments]
        return forked.run(words, given, self.folder)

    def program(self, name: str, nodes: Tuple[int, ...]) -> None:
        """A program on some numbers of nodes. A second build, which looks for numbers that do not fit a `long`, is made for the first alone."""
        program = PROGRAMS[name]
        for it in (HERE / "data").iterdir():
            shutil.copy(it, self.folder)
        words = [str(REPO / "bspcc"), "-w", "-o", f"{name}.elf", str(source_of(name)), "-lm"]
        subprocess.run(words, cwd=self.folder, check=True, capture_output=True, text=True, timeout=SECONDS)
        given = (self.folder / program.given).read_text() if program.given else ""
        wanted = (HERE / f"expected/{name}.txt").read_text()
        for p in nodes:
            done = self.run(p, f"{name}.elf", program.arguments, given, *([] if p == nodes[0] else ["--no-check"]))
            found = told(done.stdout, self.folder / OUT, program.outputs)
            self.tally.expect(f"ported {name}, {p} nodes", (done.returncode, found) == (0, wanted), f"{found}{done.stderr}")

    def project(self, name: str) -> None:
        """A project of several files, built by its own commands."""
        project = PROJECTS[name]
        shutil.copytree(HERE / name.split()[0], self.folder, dirs_exist_ok=True)
        for words in project.build:
            subprocess.run(words, cwd=self.folder, check=True, capture_output=True, text=True, timeout=SECONDS)
        done = self.run(3, project.image, project.arguments, project.given)
        self.tally.expect(f"a project, {name}", (done.returncode, done.stdout) == (0, project.wanted), done)


def parts() -> List[Tuple[str, Callable[[Ported], None], Tuple[Tool, ...]]]:
    """The name of each part, what makes it, and what it wants."""
    found: List[Tuple[str, Callable[[Ported], None], Tuple[Tool, ...]]] = []
    for i, name in enumerate(PROGRAMS):
        nodes = (EVEN[i % 4], UNEVEN[i % 3])
        tools = (*COMPILER, CLASSES) if source_of(name).suffix == ".cpp" else COMPILER
        found.append((f"ported {name}", functools.partial(Ported.program, name=name, nodes=nodes), tools))
    for name, project in PROJECTS.items():
        found.append((f"a project, {name}", functools.partial(Ported.project, name=name), project.tools))
    return found
