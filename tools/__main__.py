"""Starts a tool of the package beside this file: `python3 -I -S -B tools NAME ARGUMENTS..`, which the starters at the top do."""

import gc
import os
import signal
import sys

# What modules make stays; looking through all of it again and again, as it grows, would be a part of each start.
gc.set_threshold(50_000)


def _end(*_: object) -> None:
    """Ends this process at Ctrl-C without a word, as long as nothing is there that has to be cleared away."""
    os._exit(128 + signal.SIGINT)


if signal.getsignal(signal.SIGINT) != signal.SIG_IGN:
    signal.signal(signal.SIGINT, _end)
if sys.version_info < (3, 8):
    sys.exit("%s: Python 3.8 or later is wanted, and this is %s" % (sys.argv[1], sys.version.split()[0]))

# In a wheel this file is in bspemu/share/tools, and the package beside bspemu.
if not os.path.isdir(os.path.join(os.path.dirname(os.path.abspath(__file__)), "bsptools")):
    sys.path.insert(0, os.path.abspath(os.path.join(os.path.dirname(os.path.abspath(__file__)), "..", "..", "..")))

from bsptools import module_cache  # noqa: E402

module_cache.keep()
from bsptools import start  # noqa: E402

status = start.process(sys.argv[1], sys.argv[2:])
sys.stdout.flush()
sys.stderr.flush()
# All is written and cleared away, and the memory of a process is taken from it faster than it gives it back object by object.
os._exit(status)
