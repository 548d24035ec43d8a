"""An area: a program that makes calls, and the generator of its calls."""

from __future__ import annotations

import enum
from dataclasses import dataclass
from typing import Callable, Dict, List, Optional, Sequence, Tuple

from .chance import Chance


class Build(enum.Enum):
    """How a program is compiled for the node."""

    FLOATS = "floats"
    SOFT = "soft"
    SMALL = "small"

    def options(self) -> List[str]:
        """What bspcc is given."""
        if self == Build.SMALL:
            return ["--small", "-DSMALL"]
        return ["-march=rv32imc"] if self == Build.SOFT else []


BOTH = (Build.FLOATS, Build.SOFT)
ALL = (*BOTH, Build.SMALL)


@dataclass(frozen=True)
class Answer:
    """What came of a call: the call's words, and those of the lines that the host and the node wrote."""

    call: List[str]
    host: List[str]
    node: List[str]

    def text(self, at: int) -> bytes:
        """The text that stands in the call at a place."""
        return bytes.fromhex(self.call[at][1:])


@dataclass(frozen=True)
class Difference:
    """A difference between host and node that is no mistake: why, with the section of C or POSIX that leaves it open, and when it is."""

    reason: str
    is_this: Callable[[Answer], bool]


def line(call: str) -> bytes:
    """A call as its program reads it: as a line."""
    return f"{call}\n".encode()


@dataclass(frozen=True)
class Area:
    """An area: its name, its program beside this folder, a maker of calls, the builds for the node, and the differences that may be."""

    name: str
    program: str
    call: Callable[[Chance, Build], str]
    builds: Tuple[Build, ...] = BOTH
    differences: Tuple[Difference, ...] = ()
    spelled: Callable[[str], bytes] = line
    # The files that the program is given for these calls, where it reads and writes files, for which bsprun runs it.
    given: Optional[Callable[[Sequence[str]], Dict[str, bytes]]] = None
    # Whether a call is a script, of which steps may be left out.
    is_script: bool = False
    # What the compiler is given besides; how many calls are made in one run, and as how many a script counts.
    options: Tuple[str, ...] = ("-O1",)
    at_once: int = 20000
    steps: int = 1
