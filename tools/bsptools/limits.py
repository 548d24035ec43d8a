"""The machine's limits, and the defaults of settings.

tests/tools/limits compares them with the emulator's own help.
"""

from __future__ import annotations

from typing import NamedTuple


class Limits(NamedTuple):
    """What a machine can have at most: nodes, bytes of a node's memory, of the input and of a program (an ELF file, the largest of all kinds),
    and in one superstep requests of a node (puts, gets and messages; pushes are counted apart), their bytes with the output, and areas."""

    nodes: int
    memory: int
    given: int
    program: int
    requests: int
    superstep: int
    areas: int


USUAL = Limits(nodes=1024, memory=1 << 24, given=1 << 24, program=1 << 25, requests=65_536, superstep=1 << 24, areas=1024)
# Of a machine with --large.
LARGE = Limits(nodes=65_536, memory=1 << 31, given=1 << 30, program=1 << 28, requests=1 << 24, superstep=1 << 30, areas=65_536)
OPTION = "--large"

# What the tools accept: they give --large to the emulator if the nodes or the memory of a run need it.
NODES, MOST_NODES = 1, LARGE.nodes
# Of a node, in bytes. The emulator gives a node 2^20 by default. The tools give it all that a usual machine can have: programs are written
# for more, and memory that is not used costs the host nothing.
PAGE = 4096
MEMORY, MOST_MEMORY = USUAL.memory, LARGE.memory
# The most instructions of a node. The emulator has fewer where nothing is said; who waits at a terminal has Ctrl-C.
MOST_TICKS = 1 << 40
WORKERS, MOST_WORKERS = 1, 64
# Ticks for a byte of h, and for the end of a superstep.
G, L, MOST_PRICE = 1, 0, (1 << 64) - 1
# Instructions a second, by which a program's clock counts seconds.
RATE, MOST_RATE = 1e9, 1e18
# Bytes of an input, with what stands in front of it; of a program, and of a text of assembly. Only who asks for --large has larger ones. And
# of a source in C that is looked at.
MOST_INPUT, MOST_PROGRAM, MOST_TEXT, MOST_SOURCE = USUAL.given, USUAL.program, 1 << 22, 1 << 24
# The room of the stack of a program in C, in bytes: what bspcc gives it with --small, as the tools do where there is less memory, and
# what it has else.
LEAST_STACK, MOST_STACK = 16, 1 << 24
COMPILED_STACK, STACK, MEMORY_OF_STACK = 1 << 17, 1 << 20, 1 << 22

MOST_REQUESTS = LARGE.requests
MOST_TAG = 4096

# Bytes of what bspplot draws: a profile, a report or a table.
MOST_TABLE = 1 << 26

# Of the debugger: points, and bytes of lines in one session.
MOST_POINTS = 1024
MOST_LINES = 1 << 20


def of(is_large: bool) -> Limits:
    """The limits of a machine."""
    return LARGE if is_large else USUAL


def are_passed(nodes: int, memory: int) -> bool:
    """Whether a run with so many nodes and bytes of memory needs a large machine."""
    return nodes > USUAL.nodes or memory > USUAL.memory
