"""Which Python has the packages that the tools need besides the standard library."""

from __future__ import annotations

import functools
import importlib.util
import os
import shutil
import subprocess
import sys

from . import own_folders, toolchain
from .refusals import Refused

SYSTEM = "/usr/bin/python3"
AGAIN = "BSPTOOLS_AGAIN"
# Where the loader looks for libraries first. What a tool starts is to have its own.
LIBRARIES = "LD_LIBRARY_PATH"
ELFTOOLS, MATPLOTLIB, NUMPY, TOMLI = "elftools", "matplotlib", "numpy", "tomli"
# The distribution's packages that have them.
PACKAGES = {ELFTOOLS: "python3-pyelftools", MATPLOTLIB: "python3-matplotlib", NUMPY: "python3-numpy", TOMLI: "python3-tomli"}


@functools.lru_cache(maxsize=None)
def look_at_sites() -> None:
    """Has what is installed for this Python found, also by a tool that was started without that: most runs want nothing of it."""
    if sys.flags.no_site:
        import site

        site.main()


def missing(module: str) -> str:
    """The line that says which package to install where this Python lacks a module; nothing if it is here."""
    look_at_sites()
    package = PACKAGES[module]
    return "" if importlib.util.find_spec(module) else f"{package} is missing: apt-get install {package}, or run scripts/toolchain"


def expect(module: str) -> None:
    """Refuses, with that line, to go on where a module is not here."""
    line = missing(module)
    if line:
        raise Refused(line)


def others() -> list[str]:
    """Other Pythons that may have what this one lacks: the distribution's, and the first on the PATH."""
    paths = filter(None, (SYSTEM if os.access(SYSTEM, os.X_OK) else None, shutil.which("python3")))
    return [it for it in dict.fromkeys(paths) if not os.path.samefile(it, sys.executable)]


def look_at_home(module: str) -> None:
    """Has a module found that the person has in a folder of their own. With sudo HOME may be that of another user, whose code would run."""
    if missing(module) and sys.flags.isolated:
        import site

        folder = site.getusersitepackages()
        if own_folders.is_users(folder):
            site.addsitedir(folder)


def borrow(module: str) -> str:
    """What is missing, after all was tried for a module that any Python can load: that of another Python is found too, and one that
    scripts/toolchain brought. It is looked for if it is wanted, since most runs want none."""
    look_at_home(module)
    for python in others() if not os.environ.get(AGAIN) else []:
        if missing(module):
            words = [python, "-I", "-c", f"import os, {module}; print(os.path.dirname(os.path.dirname({module}.__file__)))"]
            done = subprocess.run(words, stdin=subprocess.DEVNULL, stdout=subprocess.PIPE, stderr=subprocess.DEVNULL, check=False)
            sys.path += os.fsdecode(done.stdout).splitlines()
    if missing(module):
        sys.path += filter(None, [toolchain.modules(module)])
    return missing(module)


def find(module: str, words: list[str]) -> str:
    """What is missing, after all was tried.

    What is compiled belongs to one Python. If this one lacks it, these words, a script and its arguments if there is one, are started anew
    by another one, the distribution's or the first on the PATH, unless the person has the package in a folder of their own. If neither
    has it, the distribution's starts them with what scripts/toolchain brought, and with the libraries that this needs.
    """
    look_at_home(module)
    again = os.environ.pop(AGAIN, "")
    options = ["-I", *["-S"] * sys.flags.no_site, "-B"] if sys.flags.isolated else []
    if os.path.isabs(again):
        sys.path.append(again)
        os.environ.pop(LIBRARIES, "")
    elif missing(module) and words and not again and (python := next(iter(others()), "")):
        os.execve(python, [python, *options, *words], {**os.environ, AGAIN: "1"})
    elif missing(module) and words and (brought := toolchain.modules(module)):
        run, python = toolchain.command("run"), toolchain.command("python3") or SYSTEM
        os.execve(run, [run, python, *options, *words], {**os.environ, AGAIN: brought})
    return missing(module)
