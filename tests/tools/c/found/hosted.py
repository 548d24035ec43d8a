#!/usr/bin/env python3
"""Programs of hosted/, in more of the styles in which people write them.

Each is built as it is and run with default options, and writes what it does on
the host.

hosted/expected has that, in bytes: the output, and each file behind a line with its name. hosted/expect writes it anew by the host's own
compiler and a BSPlib by processes.

Usage: tests/tools/c/found/hosted.py --list
"""

from __future__ import annotations

import functools
import pathlib
import shutil
import sys
from typing import Callable, Dict, List, NamedTuple, Tuple

sys.dont_write_bytecode = True
HERE = pathlib.Path(__file__).resolve().parent / "hosted"
sys.path[:0] = [str(HERE.parent.parent.parent)]

import forked  # noqa: E402
from checks import CLASSES, COMPILER, REPO, Tally, Tool  # noqa: E402


class Program(NamedTuple):
    """A program: its arguments, the files that are beside it, those that it writes, its ranks, and its standard if it is in C++."""

    arguments: Tuple[str, ...] = ()
    files: Tuple[str, ...] = ()
    outputs: Tuple[str, ...] = ()
    nodes: int = 4
    standard: str = "gnu++17"


# Those that want more than nothing. One whose name has a file NAME.in reads that.
SPECIAL: Dict[str, Program] = {
    "blocks": Program(arguments=("300",)),
    "inventory": Program(files=("goods.txt",), outputs=("report.txt",)),
    "pack": Program(files=("runs.txt",), outputs=("runs.out",)),
    "picture": Program(files=("small.pgm",), outputs=("blurred.pgm",)),
    "words": Program(files=("text/prose.txt",)),
    "filter": Program(files=("text/prose.txt",)),
    "frequent": Program(files=("text/prose.txt",)),
    "logger": Program(outputs=tuple(f"run.0{it}.log" for it in range(4))),
    "modern": Program(standard="gnu++20"),
    "settings": Program(files=("settings.ini",)),
    "spill": Program(outputs=("part0.txt", "part2.txt")),
    "strassen": Program(nodes=7),
    "sums32": Program(arguments=("text/prose.txt",), files=("text/prose.txt",)),
    "waves": Program(outputs=("tone.wav",)),
    "append": Program(files=("run.log",), outputs=("run.log",)),
    "checkpoint": Program(outputs=tuple(f"state{it}.bin" for it in range(4))),
    "components": Program(files=("edges.txt",)),
    "csv": Program(files=("table.csv",), outputs=("sums.csv",)),
    "options": Program(arguments=("-v", "--size=12", "first", "-v", "second")),
    "queens": Program(arguments=("7",)),
    "rankfiles": Program(outputs=tuple(f"out/rank{it}.dat" for it in range(4))),
    "records": Program(outputs=("records.bin",)),
    "table": Program(outputs=("numbers.out",)),
}


# Programs that are not built, and what is said of that.
REFUSED: Dict[str, str] = {"prime128": "bspcc: GCC has __int128 for processors of 64 bits alone, and nodes have 32: use uint64_t, or two of them"}


def sources() -> List[pathlib.Path]:
    """The programs."""
    return sorted(it for it in HERE.iterdir() if it.suffix in (".c", ".cpp"))


def given_of(source: pathlib.Path) -> str:
    """The name of a program's input, or nothing."""
    return f"{source.stem}.in" if source.with_suffix(".in").exists() else ""


def program_of(source: pathlib.Path) -> Program:
    """What a program wants."""
    return SPECIAL.get(source.stem, Program())


class Hosted:
    """Programs that are run in a folder of this part's own."""

    def __init__(self, tally: Tally, folder: pathlib.Path) -> None:
        self.tally, self.folder = tally, folder

    def program(self, source: pathlib.Path) -> None:
        """A program by default options, with its files beside it and no option that names them."""
        program, given = program_of(source), given_of(source)
        for name in (source.name, *program.files):
            (self.folder / name).parent.mkdir(exist_ok=True)
            shutil.copy(HERE / name, self.folder / name)
        standard = [f"-std={program.standard}"] if source.suffix == ".cpp" else []
        words = [str(REPO / "bsprun"), "--no-check", "-n", str(program.nodes), *standard, source.name, *program.arguments]
        if source.stem in REFUSED:
            refusal = forked.run(words, "", self.folder)
            self.tally.expect(f"as on the host, {source.name}", refusal.returncode == 1 and REFUSED[source.stem] in refusal.stderr, refusal)
            return
        done = forked.run(words, (HERE / given).read_text() if given else "", self.folder)
        found = done.stdout.encode()
        for name in program.outputs:
            path = self.folder / name
            found += f"== {name}\n".encode() + (path.read_bytes() if path.exists() else b"(it was not written)")
        wanted = (HERE / "expected" / f"{source.stem}.txt").read_bytes()
        self.tally.expect(f"as on the host, {source.name}", (done.returncode, found) == (0, wanted), f"{found!r}\n{done.stderr}")


def parts() -> List[Tuple[str, Callable[[Hosted], None], Tuple[Tool, ...]]]:
    """The name of each part, what makes it, and what it wants."""
    found: List[Tuple[str, Callable[[Hosted], None], Tuple[Tool, ...]]] = []
    for source in sources():
        tools = (*COMPILER, CLASSES) if source.suffix == ".cpp" else COMPILER
        found.append((f"as on the host, {source.stem}", functools.partial(Hosted.program, source=source), tools))
    return found


def main() -> None:
    """Lists the programs, a line each, for the script that runs them on the host."""
    for source in sources():
        it = program_of(source)
        print(source.stem, source.name, it.nodes, given_of(source), " ".join(it.files), " ".join(it.outputs), it.standard, " ".join(it.arguments), sep="|")


if __name__ == "__main__":
    main()
