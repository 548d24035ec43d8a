"""Builds of a program in C for `--portable`, which are made beside one another and beside runs.

It takes little time to load this module, so that the builds begin soon.
"""

from __future__ import annotations

import argparse
import concurrent.futures
import pathlib
import signal
from collections.abc import Callable
from typing import Any

from .. import children, emulator
from ..files import content_of
from ..limits import MOST_PROGRAM
from ..prepare.compilation import compiled
from ..refusals import Refused

# GCC gives each variable of a function that has no value these bits, in builds for the second and third run.
VALUES = ("pattern", "zero")
# How many builds there are, and what goes beside them: what loads modules, what waits for a run, and what makes runs of two kinds of builds.
MOST_BUILDS, MOST_BESIDE = 4, 4
# How often builds are asked to end.
MOST_ASKED = 30


def options_for(value: str) -> list[str]:
    """The options of a build in which GCC gives variables of functions these values."""
    return ["-Wuninitialized", "-Wmaybe-uninitialized", f"-ftrivial-auto-var-init={value}"]


class Builds:
    """Builds of a program in C, what makes runs of them, and what was begun of these runs."""

    def __init__(self, options: argparse.Namespace, folder: pathlib.Path) -> None:
        self.options, self.folder = options, folder
        self.pool = concurrent.futures.ThreadPoolExecutor(MOST_BUILDS + MOST_BESIDE)
        self.runs = emulator.Runs()
        self.made: dict[tuple[str, ...], concurrent.futures.Future[tuple[bytes, list[str]]]] = {}
        self.loaded: concurrent.futures.Future[None] | None = None
        # What looks for what the program rests on, or nothing if the program does not end well by itself.
        self.begun: concurrent.futures.Future[Any] | None = None

    def __enter__(self) -> Builds:
        return self

    def __exit__(self, *_: object) -> None:
        self.runs.__exit__()
        # Where something has ended this process, a build that goes on may take long: the library is compiled first, or GCC reads a pipe.
        self.pool.shutdown(wait=False)
        for _again in range(MOST_ASKED):
            left = [it for it in list(self.made.values()) if not it.cancel() and not it.done()]
            if not left:
                break
            children.tell_running(signal.SIGTERM)
            # A build may have begun meanwhile, which is told next time.
            concurrent.futures.wait(left, children.patience(children.PATIENCE))
        children.shut_down(self.pool)

    def begin_loading(self, load: Callable[[], None]) -> None:
        """Begins to load what the verdict takes, beside the builds."""
        self.loaded = self.pool.submit(load)

    def wait_until_loaded(self) -> None:
        """Waits for that. Until then no other thread loads the same packages."""
        if self.loaded is not None:
            self.loaded.result()

    def begin(self, *options: str) -> concurrent.futures.Future[tuple[bytes, list[str]]]:
        """Begins a build with these options, unless it was begun."""
        if options not in self.made:
            target = self.folder / f"portable{len(self.made)}.elf"
            self.made[options] = self.pool.submit(self._build, target, options)
        return self.made[options]

    def begin_valued(self) -> None:
        """Begins the builds in which GCC gives variables of functions values."""
        for value in VALUES:
            self.begin(*options_for(value))

    def is_built(self) -> bool:
        """Waits for the build without further options, and answers whether there is one."""
        return self.begin().exception() is None

    def built(self, *options: str) -> tuple[bytes, list[str]]:
        """The image of a build that takes choices, and what was said of it. If there is none of the sources as they are, that is told."""
        try:
            return self.begin(*options).result()
        except Refused:
            if not options:
                compiled(self.options, self.folder / "portable.elf", "--portable")
            raise

    def _build(self, target: pathlib.Path, options: tuple[str, ...]) -> tuple[bytes, list[str]]:
        said = compiled(self.options, target, "--portable", *options, is_told=False)
        return content_of(target, MOST_PROGRAM), said
