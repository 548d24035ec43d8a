"""Runs of bspcheck for its checks, each in a folder of its own."""

from __future__ import annotations

import csv
import os
import pathlib
import subprocess
import sys
from typing import Dict, List, Sequence, Union

sys.path.insert(0, str(pathlib.Path(__file__).resolve().parents[1]))

from checks import REPO, SECONDS  # noqa: E402

ALL_RIGHT, NOT_ALL_RIGHT, NOT_MARKED = 0, 1, 3


class Bench:
    """A folder in which bspcheck is started."""

    def __init__(self, folder: pathlib.Path) -> None:
        self.folder = folder
        folder.mkdir(parents=True)

    def write(self, name: str, text: Union[str, bytes]) -> pathlib.Path:
        """A file there."""
        path = self.folder / name
        path.write_bytes(text.encode() if isinstance(text, str) else text)
        return path

    def run(self, *files: Union[str, pathlib.Path], words: Sequence[str] = (), **environment: str) -> "subprocess.CompletedProcess[str]":
        """Starts it with options, a sheet and hand-ins, one at a time, since the checks are made side by side."""
        command = [str(REPO / "bspcheck"), "--jobs", "1", *words, *map(str, files)]
        return subprocess.run(
            command, cwd=self.folder, env={**os.environ, **environment}, stdin=subprocess.DEVNULL, capture_output=True, text=True, errors="replace", timeout=SECONDS, check=False,
        )  # fmt: skip

    def rows(self, name: str) -> List[Dict[str, str]]:
        """The rows of a table that it wrote."""
        with (self.folder / name).open(newline="") as file:
            return list(csv.DictReader(file))

    def out(self, name: str, sheet: str) -> str:
        """What a program prints by a sheet of which it is the solution, on one node."""
        import json

        self.write("out.toml", sheet.replace('"s.c"', f'"{name}"'))
        self.run("out.toml", words=["--freeze", "out.json"])
        known = json.loads((self.folder / "out.json").read_text())
        return str(next(it["output"] for it in known.values() if it["run"] == "p = 1"))
