"""Which pictures use which options of `bspplot`. An option is refused if no picture that is asked for uses it.

This needs no matplotlib.
"""

from __future__ import annotations

import argparse
from collections.abc import Sequence

from .. import limits
from ..refusals import Refused
from .profile import Reading

# A page shows what its source has: that of a run has other pictures than that of a sweep.
PAGE_OF_RUN, PAGE_OF_SWEEP = "html of a run", "html of a sweep"
COSTS = ("timeline", "costs", "source", PAGE_OF_RUN)
SUPERSTEPS = ("timeline", "matrix", "costs", "source", PAGE_OF_RUN)
COLUMNS = ("curves", "map", "table")
TITLED = (*SUPERSTEPS, "lines", "sweep", "compare", "curves", "map", PAGE_OF_SWEEP)
# The pictures that use an option. All formats of a picture take the same ones, so that one command line does for each.
USES = {
    "g": COSTS, "l": COSTS, "apart": COSTS, "h": SUPERSTEPS, "supersteps": SUPERSTEPS, "title": TITLED,
    "rate": ("compare", PAGE_OF_SWEEP), "setting": ("source", PAGE_OF_RUN, PAGE_OF_SWEEP),
    "x": ("curves", "table"), "y": ("curves", "table"), "by": COLUMNS, "panels": COLUMNS, "only": COLUMNS,
    "log": ("curves", "map"), "size": ("curves", "map"), "font": ("curves", "map"), "decimals": ("table",),
    "g_range": ("map",), "l_range": ("map",),
}  # fmt: skip
# What options are that were not given, if that is something. The command line leaves them out, so that one sees which were given.
DEFAULTS = {"g": limits.G, "l": limits.L, "h": Reading.OTHERS, "supersteps": (0, None), "x": "nodes", "y": "total"}


def settle(options: argparse.Namespace) -> None:
    """Notes which options were given, and gives the others their defaults."""
    options.given = [it for it in USES if getattr(options, it) not in (None, "", [])]
    for name, value in DEFAULTS.items():
        if name not in options.given:
            setattr(options, name, value)


def typed(name: str) -> str:
    """An option as it is typed."""
    return f"--{name.replace('_', '-')}"


def used(picture: str) -> list[str]:
    """The options that a picture uses, as they are typed."""
    return [typed(it) for it, pictures in USES.items() if picture in pictures]


def expect_used(given: Sequence[str], pictures: Sequence[str], table: str = "") -> None:
    """Refuses an option that none of these pictures uses. If they are of the table of a sweep, its name is given."""
    for name in given:
        if not set(USES[name]).intersection(pictures):
            if table and name in ("g", "l"):
                raise Refused(f"{table} is the table of a sweep, which has its own prices: give --g and --l to bspsweep, or choose prices of the"
                              f" table by --curves and --only {name}=VALUE")  # fmt: skip
            raise Refused(f"{typed(name)} has no effect on {listed(pictures)}: it is for {listed(USES[name])}")


def listed(pictures: Sequence[str]) -> str:
    """Pictures by the options that ask for them. If both kinds of pages are among them, all pages are."""
    is_any = {PAGE_OF_RUN, PAGE_OF_SWEEP} <= set(pictures)
    *more, last = dict.fromkeys("--html" if is_any and it in (PAGE_OF_RUN, PAGE_OF_SWEEP) else f"--{it}" for it in pictures)
    return f"{', '.join(more)} and {last}" if more else last
