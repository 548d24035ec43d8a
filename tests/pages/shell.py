"""Runs a page's commands at the top of a scratch copy, and keeps their output and statuses."""

from __future__ import annotations

import contextlib
import os
import pathlib
import shutil
import signal
import subprocess
from typing import Dict, List, Tuple

from pages.page import Command

# A command that takes so long hangs, also on a busy host.
SECONDS = 600
# The folder of what the copies share: the library that bspcc has built, and modules of Python.
CACHE = "cache"
BY_CONTENT = ("bspcc", "bspemu/modules")
# Two lines that the debugger refuses, which changes nothing; so its answers to the lines between them can be told apart.
MARK = "-\nclear superstep 0xffffffffffffffff\n"
MARKED = "refused: BadCommand: there is no such line; help lists the lines\nrefused: NoSuchBreak\n"
# Those that write their prompt also where no person is.
GDB, LINES = "(gdb) ", "(bsp) "


def keep_caches(scratch: pathlib.Path) -> None:
    """Has the copies in a scratch folder share what is made of their files. What goes by the content of all that it is made of begins as the
    user's."""
    kept = pathlib.Path(os.environ.get("XDG_CACHE_HOME") or pathlib.Path.home() / ".cache")
    for name in BY_CONTENT:
        place = scratch / CACHE / name
        place.mkdir(0o700, parents=True)
        # Another check may be at work there.
        with contextlib.suppress(OSError):
            shutil.copytree(kept / name, place, ignore=shutil.ignore_patterns("new.*"), dirs_exist_ok=True)
        place.chmod(0o700)


class Shell:
    """Types commands at the top of a scratch copy, without the user's own settings."""

    def __init__(self, top: pathlib.Path) -> None:
        self.top = top
        self.environment = environment(top)

    def run(self, text: str, given: str) -> Tuple[int, str]:
        """The status of a command, and all that it writes. What is given is its standard input."""
        with subprocess.Popen(
            ["bash", "-c", text],
            cwd=self.top,
            env=self.environment,
            stdin=subprocess.PIPE,
            stdout=subprocess.PIPE,
            stderr=subprocess.STDOUT,
            start_new_session=True,
        ) as process:
            try:
                written, _ = process.communicate(given.encode(), timeout=SECONDS)
            except subprocess.TimeoutExpired:
                os.killpg(process.pid, signal.SIGKILL)
                raise
            return process.returncode, written.decode(errors="replace")

    def type(self, command: Command) -> Tuple[int, List[List[str]]]:
        """The status of a command, and the lines that it writes after each of its parts."""
        if command.prompt is None:
            status, text = self.run(command.text, command.given)
            return status, [text.splitlines()]
        lines = [part.typed + "\n" for part in command.parts[1:]]
        if command.prompt in (GDB, LINES):
            status, text = self.run(command.text, ("set width 0\n" if command.prompt == GDB else "\n") + "".join(lines))
            start, _, rest = text.partition(command.prompt)
            answers = [start, *rest.split(command.prompt)[1:]]
        else:
            # A page is typed in at a terminal, where the debugger has a dialogue by itself.
            status, text = self.run(f"{command.text} --interactive", MARK + "".join(line + MARK for line in lines))
            answers = text.split(MARKED)
        # What was typed last is often `quit`, after which nothing is written; else an empty answer follows.
        parts = len(command.parts)
        answers = [*answers[:parts], "".join(answers[parts:])] if "".join(answers[parts:]).strip() else answers[:parts]
        return status, [answer.splitlines() for answer in answers] + [[] for _ in range(parts - len(answers))]


def environment(top: pathlib.Path) -> Dict[str, str]:
    """What commands find set: programs are those of the user, and nothing else is."""
    home, scratch = top.parent / "home", top.parent / "tmp"
    for folder in (home, scratch):
        folder.mkdir(exist_ok=True)
    cache = str(top.parent.parent / CACHE)
    return {"PATH": os.environ["PATH"], "LANG": "C.UTF-8", "HOME": str(home), "XDG_CACHE_HOME": cache, "TMPDIR": str(scratch), "TERM": "dumb"}
