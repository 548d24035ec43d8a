"""Which function called which and how often, from the counts of the instructions that call."""

from __future__ import annotations

import bisect
from collections import Counter
from collections.abc import Mapping
from typing import NamedTuple

from ..program.code import Code, Statement
from . import step_counts
from .pointer_calls import Local, matched

# The registers of return addresses: that of calls, and that of GCC's functions which save registers.
LINKS = ("x1", "x5")
JUMPS = ("jal", "jalr")
# What does not go on to the instruction behind it, or, as the call that ends a node, may not.
LEAVING = (*JUMPS, "ecall")
BRANCHES = ("beq", "bne", "blt", "bge", "bltu", "bgeu")


class Call(NamedTuple):
    """A place from which a function was called, or to which one went on without coming back; how often; and whether the counts alone say
    so. A function is known by its start."""

    site: int
    caller: int
    callee: int
    times: int
    is_sure: bool = True


class Functions:
    """The functions of a run by their starts: those that the program names; if it names none, what was called."""

    def __init__(self, code: Code, made: Mapping[int, int], called: set[int], entry: int) -> None:
        # Labels of a text are functions where they are called.
        named = {} if code.lines else {it: code.function(it) for it in made}
        self.names = {found[0]: found[1] for found in named.values() if found}
        for start in {entry, min(made), *(it for it in called if it in made)}:
            if named.get(start) is None:
                self.names[start] = code.name_at(start) or f"0x{start:x}"
        self.starts = sorted(self.names)
        several = {it for it, times in Counter(self.names.values()).items() if times > 1}
        self.names = {it: f"{name}@{it:x}" if name in several else name for it, name in self.names.items()}

    def of(self, address: int) -> int:
        """The start of the function that an address lies in."""
        return self.starts[bisect.bisect_right(self.starts, address) - 1]


class CallCounts:
    """The functions and the calls of a run."""

    def __init__(self, code: Code, counts: step_counts.Counts) -> None:
        self.counts, self.entry = counts, code.entry
        self.made = made = counts.by_all()
        self.statements = code.statements_at(sorted(made))
        jumps = {at: target for at in self.statements if (target := self.target(at)) is not None}
        called = {target for at, target in jumps.items() if self.statements[at].operands[0] in LINKS}
        self.functions = Functions(code, made, called, code.entry)
        ways = [*jumps.items(), *((at, it.end) for at, it in self.statements.items() if it.name not in LEAVING)]
        self.calls = [it for it in (self.call(at, target) for at, target in ways) if it]
        by_pointers = self.by_pointers()
        self.calls += by_pointers
        self.unexplained = self.begun_otherwise(by_pointers)

    def target(self, at: int) -> int | None:
        """Where an instruction jumps to, with a link or without one, if the code tells."""
        it = self.statements[at]
        if it.name == "jal":
            return it.target
        if it.name != "jalr" or (before := self.statements.get(at - 4)) is None or before.name != "auipc":
            return None
        is_one = before.operand(0) == it.pointer
        return (at - 4 + (before.operand(1) << 12) + it.operand(1)) & 0xFFFFFFFE if is_one else None

    def call(self, at: int, target: int) -> Call | None:
        """The call that a way on from an instruction is, if it is one: by a jump with a link, or into another function."""
        caller = self.functions.of(at)
        if target not in self.made:
            return None
        callee = self.functions.of(target)
        it = self.statements[at]
        is_call = it.name in JUMPS and it.operands[0] in LINKS
        return Call(at, caller, callee, self.made[at]) if is_call or caller != callee else None

    def by_pointers(self) -> list[Call]:
        """The calls by pointers. The functions that they may have begun are those that began more often than jumps to them were made."""
        sites = {at for at, it in self.statements.items() if self.is_by_pointer(at, it)}
        into = self.ways_to_starts()
        began = {it for it, jumps in into.items() if self.made[it] > sum(self.made[at] for at in jumps)} - {self.entry}
        if not sites or not began:
            return []
        parts = []
        for made in (it.made for it in step_counts.parts(self.counts.path)):
            calls = {it: made[it] for it in sites if it in made}
            if calls:
                parts.append(Local(calls, {it: more for it in began if (more := self.more(made, it, into[it])) > 0}))
        return [Call(it.site, self.functions.of(it.site), it.callee, times, is_sure) for it, (times, is_sure) in matched(parts).items()]

    @staticmethod
    def more(made: Mapping[int, int], function: int, jumps: list[int]) -> int:
        """How much more often a function began than jumps to it were made."""
        return made.get(function, 0) - sum(made.get(at, 0) for at in jumps)

    def ways_to_starts(self) -> dict[int, list[int]]:
        """The instructions from which the start of each function that began is come to, but by pointers."""
        found: dict[int, list[int]] = {it: [] for it in self.functions.starts if it in self.made}
        for at, it in self.statements.items():
            target = branch(it) if it.name in BRANCHES else self.target(at)
            for way in (target, None if it.name in LEAVING else it.end):
                if way in found:
                    found[way].append(at)
        return found

    def begun_otherwise(self, by_pointers: list[Call]) -> set[int]:
        """The functions that may have begun in ways that were not found: more often than is known; or, where places jumped that nothing is
        known of, by a branch to their start that was not taken."""
        known = Counter({self.entry: self.made.get(self.entry, 0)})
        for call in by_pointers:
            known[call.callee] += call.times
        into = self.ways_to_starts()
        found = {it for it, ways in into.items() if self.more(self.made, it, ways) > known[it]}
        sites = [at for at, it in self.statements.items() if it.name == "jalr" and not self.is_return(it) and self.target(at) is None]
        if sum(self.made[at] for at in sites) > sum(call.times for call in by_pointers):
            found |= {it for it, ways in into.items() if any(self.statements[at].name in BRANCHES for at in ways)}
        return found

    @staticmethod
    def is_return(it: Statement) -> bool:
        """Whether a JALR goes back to where a function was called."""
        return it.operands[0] == "x0" and it.pointer in (1, 5)

    def is_by_pointer(self, at: int, it: Statement) -> bool:
        """Whether an instruction calls a function by a pointer: with a link, or as the last of its function, which a jump by the table of
        a `switch` looks like."""
        if it.name != "jalr" or self.target(at) is not None:
            return False
        if it.operands[0] in LINKS:
            return True
        return not self.is_return(it) and not self.has_table(self.functions.of(at))

    def has_table(self, function: int) -> bool:
        """Whether a function made steps at addresses to which no jump of it and no instruction before them led."""
        here = [at for at in self.statements if self.functions.of(at) == function]
        known = {function}
        for at in here:
            it = self.statements[at]
            if (target := branch(it) if it.name in BRANCHES else self.target(at)) is not None:
                known.add(target)
            if it.name not in JUMPS or it.operands[0] in LINKS:
                known.add(it.end)
        return not known.issuperset(here)


def branch(it: Statement) -> int:
    """Where a branch goes to."""
    return (it.base + int(it.operands[2], 16)) & 0xFFFFFFFF
