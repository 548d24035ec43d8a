"""A run by the fuzzer's model of the machine, step by step.

It says what `run --counts` has to write, and how many steps were really made while functions and places were being called, which counts
alone do not always tell.
"""

from __future__ import annotations

import pathlib
import sys
from typing import Callable, Dict, Hashable, List, NamedTuple, Optional, Set, Tuple

REPO = pathlib.Path(__file__).resolve().parents[3]
sys.path[:0] = [str(REPO / "tests")]

from fuzz import images, machines, reports  # noqa: E402

from bsptools.program import elf  # noqa: E402

LINKS = (1, 5)
LIMIT = 1_000_000
# The superstep, the rank and the address of a step.
Key = Tuple[int, int, int]


class Jump(NamedTuple):
    """What a jump does with the registers of return addresses: the one that it writes, and the one whose address it goes to; 0 for none."""

    link: int
    base: int


def jump_of(code: int) -> Optional[Jump]:
    """What a word or a halfword jumps by, if it does."""
    if code & 3 == 3:
        rd, rs1 = code >> 7 & 31, code >> 15 & 31
        return {0x6F: Jump(rd, 0), 0x67: Jump(rd, rs1)}.get(code & 0x7F)
    if code & 3 == 1 and code >> 13 in (1, 5):
        return Jump(1 if code >> 13 == 1 else 0, 0)
    if code & 0x7F == 2 and code >> 13 == 4 and code >> 7 & 31:
        return Jump(code >> 12 & 1, code >> 7 & 31)
    return None


class Frame(NamedTuple):
    """A function that is being called: its start, where it returns to, and where it was called from; both 0 where it was jumped to."""

    function: int
    back: int
    site: int


class Stack:
    """The functions that a node is in, by the jumps that it made."""

    def __init__(self, start_of: Callable[[int], int], entry: int) -> None:
        self.start_of = start_of
        self.frames = [Frame(start_of(entry), 0, 0)]

    def step(self, code: int, before: int, after: int) -> None:
        """Takes a step from one address to another into account."""
        jump = jump_of(code)
        if jump and jump.link in LINKS:
            self.frames.append(Frame(self.start_of(after), before + (4 if code & 3 == 3 else 2), before))
        elif jump and jump.base in LINKS:
            while self.frames and self.frames[-1].back != after:
                self.frames.pop()
            if self.frames:
                self.frames.pop()
        elif self.frames and self.start_of(after) != self.frames[-1].function:
            self.frames.append(Frame(self.start_of(after), 0, 0))


class Run:
    """A run of an executable on some nodes: the steps at each address, and the steps with each function and each place on the stack."""

    def __init__(self, content: bytes, nodes: int, start_of: Callable[[int], int], place_of: Callable[[int], Hashable]) -> None:
        self.start_of, self.place_of = start_of, place_of
        self.steps: Dict[Key, int] = {}
        self.inside: Dict[Tuple[int, int], Dict[Hashable, int]] = {}
        machine = reports.Machine(nodes=nodes, limit=LIMIT, floats=elf.wants_floats(content))
        segments = [images.Segment(address, bytes(stored), end - address) for address, stored, end in elf.segments(content)]
        memory = machines.laid(segments, machine.memory)
        self.entry = elf.entry(content)
        self.nodes = [machines.Node(self.entry, bytearray(memory), rank, machine, b"") for rank in range(nodes)]
        self.stacks = [Stack(start_of, self.entry) for _ in self.nodes]
        number = 0
        while True:
            for node, stack in zip(self.nodes, self.stacks):
                self.go(number, node, stack)
            if machines.outcome_of(self.nodes):
                return
            machines.exchange(self.nodes)
            number += 1

    def go(self, number: int, node: machines.Node, stack: Stack) -> None:
        """Makes a node's part of a superstep."""
        inside = self.inside.setdefault((number, node.rank), {})
        while node.state == "running":
            before = node.pc
            code = int.from_bytes(node.memory[before:before + 4], "little")
            code = code if code & 3 == 3 else code & 0xFFFF
            node.tick()
            self.steps[number, node.rank, before] = self.steps.get((number, node.rank, before), 0) + 1
            for it in self.on(stack, before):
                inside[it] = inside.get(it, 0) + 1
            stack.step(code, before, node.pc)

    def on(self, stack: Stack, address: int) -> Set[Hashable]:
        """The functions and places that a step at an address is made in or below."""
        found: Set[Hashable] = {self.place_of(address)}
        for it in stack.frames:
            found.add(it.function)
            if it.site:
                found.add(self.place_of(it.site))
        return found

    def text(self) -> str:
        """The file of counts."""
        rows = (f"{number},{rank},{address:08x},{steps}\n" for (number, rank, address), steps in sorted(self.steps.items()))
        return "superstep,rank,address,count\n" + "".join(rows)

    def paid(self, slowest: List[int]) -> Dict[Hashable, int]:
        """The steps with each function and each place on the stack, of these ranks of the supersteps."""
        found: Dict[Hashable, int] = {}
        for number, rank in enumerate(slowest):
            for it, steps in self.inside[number, rank].items():
                found[it] = found.get(it, 0) + steps
        return found
