"""Sessions at a pseudo-terminal, for the checks of bspgdb."""

from __future__ import annotations

import os
import pty
import re
import select
import shlex
import time
from typing import Sequence, Set

from checks import SOON, becomes_true, commands_with, computes, emulators


class Terminal:
    """A session at a pseudo-terminal."""

    def __init__(self, words: Sequence[str]) -> None:
        self.process, self.master = self._start(words)
        self.shown = ""

    @staticmethod
    def _start(words: Sequence[str]) -> "tuple[int, int]":
        process, master = pty.fork()
        if process == 0:
            os.environ["TERM"] = "dumb"
            os.execv(words[0], list(words))
        return process, master

    def type(self, text: str) -> None:
        """Types characters."""
        os.write(self.master, text.encode())

    def wait(self, pattern: str, seconds: float = SOON) -> str:
        """What is shown up to a pattern, which is waited for."""
        until = time.monotonic() + seconds
        while not re.search(pattern, self.shown):
            if not select.select([self.master], [], [], max(0.0, until - time.monotonic()))[0]:
                return f"no {pattern!r} in {self.shown!r}"
            try:
                data = os.read(self.master, 1 << 16)
            except OSError:
                data = b""
            if not data:
                return f"the end, and no {pattern!r}, in {self.shown!r}"
            self.shown += data.decode(errors="replace").replace("\r", "")
        found = re.search(pattern, self.shown)
        assert found is not None
        text, self.shown = self.shown[: found.end()], self.shown[found.end() :]
        return text

    def status(self) -> int:
        """The exit status, once it has ended."""
        _, status = os.waitpid(self.process, 0)
        os.close(self.master)
        return os.WEXITSTATUS(status) if os.WIFEXITED(status) else -os.WTERMSIG(status)


def job_control(words: Sequence[str], program: str, prompt: str, go: str) -> str:
    """What is wrong where a shell stops a session by Ctrl-Z in the midst of what goes on for ever, has it go on, and ends it; or nothing.
    The program is one of which there are no other processes."""
    shell = Terminal(["/bin/bash", "--norc", "--noediting", "-i"])
    shell.type("PS1='the ''shell: '\r")
    steps = [(shlex.join([*words, program]) + "\r", prompt), (go, ""), ("\x1a", "Stopped.*\nthe shell: $"), ("fg\r", ""), ("\x03", prompt)]
    steps += [(go, ""), ("\x1a", "Stopped.*\nthe shell: $")]
    said = shell.wait("the shell: $")
    for typed, wanted in steps:
        if said.startswith(("no ", "the end")):
            return said
        shell.type(typed)
        if wanted:
            said = shell.wait(wanted)
        elif not computes(program):
            return f"nothing runs behind {typed!r}"
        if typed == "\x1a" and not becomes_true(lambda: states_of(program) == {"T"}):
            return f"Ctrl-Z leaves emulators in {states_of(program)}"
    if said.startswith(("no ", "the end")):
        return said
    # The shell's prompt is not waited for, since what ends may write behind it.
    shell.type("kill %1\r")
    is_left = not becomes_true(lambda: not commands_with(program + " "))
    shell.type("exit\r")
    shell.status()
    return f"kill %1 leaves {commands_with(program)}" if is_left else ""


def states_of(program: str) -> Set[str]:
    """In which states the emulators are that debug a program, by the letters of proc(5)."""
    return {fields[0] for fields in emulators(program).values()}
