"""Code that all parts of the check use: the tools that they need, folders, and runs of the repository's tools."""

from __future__ import annotations

import atexit
import functools
import importlib.util
import os
import pathlib
import shutil
import subprocess
import sys
import tempfile
from dataclasses import replace
from typing import Callable, Dict, Mapping, Optional, Tuple

import checks
import forked
from checks import Part, Tally, Tool

from bsptools.sweep import engines

HERE = pathlib.Path(__file__).resolve().parent
REPO, SECONDS = checks.REPO, checks.SECONDS
# Where the profiles are that runs by the emulator write.
MADE = pathlib.Path(tempfile.mkdtemp())
atexit.register(shutil.rmtree, MADE, True)

MATPLOTLIB = replace(checks.MATPLOTLIB, look=lambda name: importlib.util.find_spec(name) is not None)
PARALLEL = Tool("GNU parallel", "parallel", lambda _: engines.is_gnu_parallel())


class Check:
    """A part of the check. The tools run in a folder of its own; what it counts goes to a tally that all parts share."""

    def __init__(self, folder: pathlib.Path, tally: Tally) -> None:
        self.folder, self.tally = folder, tally
        self.tell, self.expect, self.skip = tally.tell, tally.expect, tally.skip

    def tool(self, name: str, *words: str, environment: Optional[Mapping[str, Optional[str]]] = None) -> subprocess.CompletedProcess[str]:
        """A run of a script of the repository's top, with these changes of the environment: None takes a variable away."""
        command = [str(REPO / name), *words]
        variables: Dict[str, Optional[str]] = {**os.environ}
        variables.update(environment or {})
        left = {name: it for name, it in variables.items() if it is not None}
        return forked.run(command, cwd=self.folder, env=left)

    def python(self, code: str) -> subprocess.CompletedProcess[str]:
        """A run of a program in Python, which can import the package."""
        (self.folder / "program.py").write_text(code)
        return subprocess.run(
            [sys.executable, "-B", "program.py"], cwd=self.folder, env={**os.environ, "PYTHONPATH": str(REPO / "tools")},
            stdin=subprocess.DEVNULL, capture_output=True, text=True, timeout=SECONDS, check=False,
        )  # fmt: skip

    def started(self, name: str, *words: str) -> subprocess.CompletedProcess[str]:
        """A run of a script by a process of its own, whose sets have another order than those of any other."""
        command = [str(REPO / name), *words]
        return subprocess.run(command, input="", capture_output=True, text=True, check=False, cwd=self.folder, timeout=SECONDS)


class Parts:
    """Makes parts, each with a folder of its own below this one."""

    def __init__(self, folder: pathlib.Path, tally: Tally) -> None:
        self.folder, self.tally = folder, tally

    def part(self, name: str, make: Callable[..., None], *values: object, tools: Tuple[Tool, ...] = ()) -> Part:
        """A part of this name: what it calls, with its check and these values, and the tools that it wants."""
        # Folders of people have spaces in their names.
        place = pathlib.Path(tempfile.mkdtemp(dir=self.folder)) / "a folder"
        place.mkdir()
        return Part(name, functools.partial(make, Check(place, self.tally), *values), tools)
