"""The commands of a wheel that are not Python: the emulator and the compiler."""

from __future__ import annotations

import os
import sys
from typing import NoReturn

from bsptools.emulator import program


def script() -> NoReturn:
    """Becomes the program under whose name this was started."""
    path = program(os.path.basename(sys.argv[0]))
    os.execv(path, [path, *sys.argv[1:]])
