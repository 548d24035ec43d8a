"""The files that the compiler needs, as it reports them: a hand-in cannot make it read others."""

from __future__ import annotations

import contextlib
import glob
import os
import re
import shlex
import shutil
import subprocess
from typing import Iterable, Iterator, List

from .. import toolchain

GCC, LIBRARY = "riscv64-unknown-elf-gcc", "picolibc.specs"
# What GCC says with -v: folders of headers, a line each; of programs and of libraries.
HEADERS = re.compile(r"search starts here:\n((?: /.*\n)+)")
PATHS = re.compile(r"^(?:COMPILER|LIBRARY)_PATH=(.*)$", re.MULTILINE)
SPECS = re.compile(r"^Reading specs from (/.*)$", re.MULTILINE)
STARTED = re.compile(r"^COLLECT_GCC=(/.*)$", re.MULTILINE)
SHARED = re.compile(r"=> (/\S+) \(0x")
# How GCC is asked for those of its parts that are others after an upgrade, of which the last comes with the C library.
PARTS = ("-print-prog-name=cc1", "-print-prog-name=as", "-print-libgcc-file-name", f"-print-file-name={LIBRARY}")
# Programs of it that may have libraries of their own.
PROGRAMS = ("cc1", "cc1plus", "collect2", "as", "ld")


def folders_of(said: str) -> List[str]:
    """The folders of headers, programs and libraries that GCC names with -v, as it compiles and links."""
    found = [line.strip() for block in HEADERS.findall(said) for line in block.splitlines()]
    found += [it for line in PATHS.findall(said) for it in line.split(":")]
    for line in said.splitlines():
        if " -L/" in line:
            found += [it[2:] for it in _words(line) if it.startswith("-L/")]
    return list(dict.fromkeys(os.path.realpath(it) for it in found if os.path.isabs(it) and os.path.isdir(it)))


def _words(line: str) -> List[str]:
    try:
        return shlex.split(line)
    except ValueError:
        return line.split()


def brought() -> str:
    """The folder that scripts/toolchain filled, if bspcc takes the compiler from there: where the system has none, or lacks its C library."""
    gcc = shutil.which(GCC)
    if gcc:
        words = [gcc, f"-print-file-name={LIBRARY}"]
        done = subprocess.run(words, stdin=subprocess.DEVNULL, stdout=subprocess.PIPE, stderr=subprocess.DEVNULL, check=False)
        if done.stdout.decode(errors="replace").strip() != LIBRARY:
            return ""
    return toolchain.folder()


def identity(path: str) -> str:
    """What tells this compiler from another one: the paths, sizes and times of its parts. `path` is the PATH by which it is found."""
    gcc = shutil.which(GCC, path=path)
    if gcc is None:
        return ""
    found, environment = [gcc], {**os.environ, "PATH": path}
    for asked in PARTS:
        done = subprocess.run(
            [gcc, asked], stdin=subprocess.DEVNULL, stdout=subprocess.PIPE, stderr=subprocess.DEVNULL, check=False, env=environment,
        )  # fmt: skip
        found.append(os.fsdecode(done.stdout.strip()))
    return "\n".join(map(_told, found))


def _told(path: str) -> str:
    """A file with its size and time; one that cannot be found has none."""
    with contextlib.suppress(OSError):
        stat = os.stat(path)
        return f"{os.path.realpath(path)} {stat.st_size} {stat.st_mtime_ns}"
    return path


def files_of(said: str, path: str) -> Iterator[str]:
    """All that the compiler reads, by what GCC says with -v. `path` is the PATH by which it is found."""
    folders = folders_of(said)
    yield from folders
    yield from (os.path.realpath(it) for it in SPECS.findall(said))
    # A script of the compiler's name may start it.
    places = [*filter(None, [shutil.which(GCC, path=path)]), *STARTED.findall(said)]
    own = list(dict.fromkeys(it for place in places for it in commands(place)))
    yield from own
    parts = [os.path.realpath(os.path.join(folder, name)) for folder in folders for name in PROGRAMS]
    yield from libraries(it for it in dict.fromkeys([*own, *parts]) if os.path.isfile(it))


def commands(path: str) -> Iterator[str]:
    """The compiler's commands, by the path of one of them: those of its name beside it, and where links lead."""
    for place in (path, os.path.realpath(path)):
        for it in glob.glob(glob.escape(place[: place.rfind("-") + 1]) + "*") if "-" in os.path.basename(place) else [place]:
            yield it
            yield os.path.realpath(it)


def libraries(programs: Iterable[str]) -> Iterator[str]:
    """The libraries that programs are loaded with. The loader names them, and starts none of the programs."""
    for it in programs:
        done = subprocess.run(
            [it], stdin=subprocess.DEVNULL, stdout=subprocess.PIPE, stderr=subprocess.DEVNULL, check=False,
            env={**os.environ, "LD_TRACE_LOADED_OBJECTS": "1"},
        )  # fmt: skip
        yield from SHARED.findall(done.stdout.decode(errors="replace"))
