"""Runs, sweeps and figures of BSP programs on the emulator bspemu, for Python and for notebooks.

>>> import bspemu
>>> run = bspemu.run("lu.c", nodes=8, defines={"N": 64})
>>> run.output, run.supersteps, run.cost(g="31/8", l=1193)
>>> run.timeline(l=200)

Costs are in ticks, the time of one instruction; h, g and messages are by the byte. They depend on the program and its input alone, so that
the same call gives the same numbers everywhere. `docs/tutorial/paper.md` goes from a program to a figure in a paper.

Figures need matplotlib, tables pandas, and neither is loaded before it is asked for.
"""

from __future__ import annotations

from ._magic import load_ipython_extension
from ._runs import Run, run
from ._sweeps import Sweep, sweep
from ._tools import BspError

__all__ = ["BspError", "Run", "Sweep", "load_ipython_extension", "run", "sweep"]
