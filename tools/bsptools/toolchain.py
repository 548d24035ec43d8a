"""The packages that scripts/toolchain installed into a folder, for users who are not root."""

from __future__ import annotations

import functools
import os
import subprocess

_ABOVE = os.path.join(os.path.dirname(os.path.abspath(__file__)), "..")
# In a wheel what the repository has at its top is beside this package.
_TOP = os.path.join(_ABOVE, "bspemu", "share")
SCRIPT = os.path.join(_TOP if os.path.isdir(_TOP) else os.path.join(_ABOVE, ".."), "scripts", "toolchain")


@functools.lru_cache(maxsize=None)
def folder() -> str:
    """Where they are, as far as they may be taken; nothing if there are none. It is asked for where the system lacks something."""
    try:
        done = subprocess.run([SCRIPT, "--where"], stdin=subprocess.DEVNULL, stdout=subprocess.PIPE, check=False)
    except OSError:
        return ""  # these tools were installed by themselves
    return os.fsdecode(done.stdout).rstrip("\n") if done.returncode == 0 else ""


def command(name: str) -> str:
    """The path of one of their commands; nothing if there is none."""
    path = os.path.join(folder(), "bin", name)
    return path if folder() and os.access(path, os.X_OK) else ""


def modules(name: str) -> str:
    """The folder of Python's modules that has this one; nothing if there is none."""
    path = os.path.join(folder(), "usr/lib/python3/dist-packages")
    return path if folder() and os.path.isdir(os.path.join(path, name)) else ""
