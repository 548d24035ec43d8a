"""The pipe for which gdb waits. It opens what a program names, in many ways, and does not look at Ctrl-C meanwhile."""

from __future__ import annotations

import contextlib
import os
import pathlib
import stat

# The numbers of two calls of Linux on x86-64, the streams that a process is started with, and the most bytes of a path.
READ, OPENAT, STREAMS, MOST_PATH = 0, 257, 3, 4096


def awaited_pipe(process: int) -> str:
    """The pipe with a name that a process waits to read: nothing if there is none, or if Linux does not say. Nobody may have opened its other
    end, or nobody has written. What a person gives to gdb is not among them: as a script it takes no pipe, its input is a stream, and other
    threads than the first one are those of scripts."""
    with contextlib.suppress(OSError, ValueError):
        call, *given = (int(it, 0) for it in pathlib.Path(f"/proc/{process}/syscall").read_text(encoding="ascii").split())
        path = ""
        if call == OPENAT and not given[2] & (os.O_ACCMODE | os.O_NONBLOCK):
            path = os.path.join(f"/proc/{process}/cwd", text_at(process, given[1]))
        elif call == READ and given[0] >= STREAMS:
            path = os.readlink(f"/proc/{process}/fd/{given[0]}")
        return os.path.realpath(path) if is_pipe(path) else ""
    return ""


def text_at(process: int, address: int) -> str:
    """What a process has at an address, up to a zero."""
    with open(f"/proc/{process}/mem", "rb", buffering=0) as memory:
        memory.seek(address)
        return os.fsdecode(memory.read(MOST_PATH).partition(b"\0")[0])


def is_pipe(path: str) -> bool:
    """Whether a file is a pipe."""
    with contextlib.suppress(OSError, ValueError):
        return stat.S_ISFIFO(os.stat(path).st_mode)
    return False
