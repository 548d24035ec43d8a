"""Tools that commands need and a machine may lack."""

from __future__ import annotations

import functools
import re
import shutil
import subprocess
from typing import Callable, List, NamedTuple, Optional

from checks import C_LIBRARY, GCC, GDB, PYELFTOOLS, on_path

AS = "riscv64-unknown-elf-as"
# What is compiled has the same addresses and costs, and what is linked the same bytes, only where tools of the same versions did it.
GCC_VERSION = "12.2"
BINUTILS_VERSION = "2.40"


def _written_by(*words: str) -> Optional[str]:
    """What a program writes that ends well; None if there is no such program, or it fails."""
    if shutil.which(words[0]) is None:
        return None
    done = subprocess.run(words, stdout=subprocess.PIPE, stderr=subprocess.DEVNULL, text=True, check=False)
    return done.stdout.strip() if done.returncode == 0 else None


@functools.lru_cache(maxsize=None)
def matplotlib_version() -> Optional[str]:
    """The version of the matplotlib that bspplot draws with."""
    asked = "import matplotlib; print(matplotlib.__version__)"
    return _written_by("python3", "-c", asked) or _written_by("/usr/bin/python3", "-c", asked)


@functools.lru_cache(maxsize=None)
def _has_compiler() -> bool:
    return (_written_by(GCC.name, "-dumpfullversion") or "").startswith(GCC_VERSION + ".")


@functools.lru_cache(maxsize=None)
def _has_binutils() -> bool:
    return re.search(rf"\b{re.escape(BINUTILS_VERSION)}\b", (_written_by(AS, "--version") or "").split("\n")[0]) is not None


class Want(NamedTuple):
    """A tool, the commands that want it, and whether it is here."""

    name: str
    commands: str
    is_here: Callable[[], bool]


COMPILES = r"\./bspcc\b|\b(examples|bench)/c/build\b|\./bsp(run|sweep)\b.*\.c\b|riscv64-unknown-elf-gcc"
TOOLS: List[Want] = [
    Want(f"{GCC.name} {GCC_VERSION}", COMPILES, _has_compiler),
    Want(C_LIBRARY.package, COMPILES, C_LIBRARY.is_here),
    Want(f"binutils-riscv64-unknown-elf {BINUTILS_VERSION}", r"riscv64-unknown-elf-|tests/halfwords/make", _has_binutils),
    Want("xz-utils", r"tests/halfwords/make", functools.partial(on_path, "xz")),
    Want(GDB.package, r"\./bspgdb\b", GDB.is_here),
    Want(PYELFTOOLS.package, r"\./bsprun\b", PYELFTOOLS.is_here),
    Want("matplotlib", r"\./bspplot\b|bench/large --draw", lambda: matplotlib_version() is not None),
    Want("objdump", r"\bobjdump ", functools.partial(on_path, "objdump")),
]


def missing(command: str) -> Optional[str]:
    """The first tool that a command wants and that is not here."""
    return next((tool.name for tool in TOOLS if re.search(tool.commands, command) and not tool.is_here()), None)
