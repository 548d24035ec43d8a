"""Where a function's caller has its registers, for each address of the code: by what the file has for debuggers, or else by the code.

A rule is `[address, register, offset, {register: offset}]`: from this address on, up to the next rule, the caller's stack pointer is that
register's value plus the offset, and the caller's registers lie at these offsets from there.
"""

from __future__ import annotations

import contextlib
from typing import Any, Dict, List, Tuple

from .. import memory_bound
from ..framed.backtrace import FP, SP, Prologue
from ..program.code import Code, Statement, listing
from ..program.elf import MOST_MEMORY

Rule = List[Any]
Rows = List[Tuple[int, int, List[Rule]]]
# Code of more bytes than these is not looked through: the file then has to say itself where registers are.
MOST_CODE = 1 << 19


def rules(code: Code) -> Rows:
    """Start, end and rules of each function, by its start."""
    found = {start: (start, end, rows) for start, end, rows in told(code)}
    if sum(size for _, size, _ in code.functions) <= MOST_CODE:
        for start, end, rows in looked_for(code, set(found)):
            found.setdefault(start, (start, end, rows))
    return sorted(found.values(), key=lambda it: it[0])


def told(code: Code) -> Rows:
    """The rules that the file has for debuggers."""
    rows: Rows = []
    info = code.debug.info if code.debug else None
    with contextlib.suppress(Exception), memory_bound.at_most(MOST_MEMORY):
        entries = [*(info.CFI_entries() if info.has_CFI() else []), *(info.EH_CFI_entries() if info.has_EH_CFI() else [])]
        for entry in entries:
            with contextlib.suppress(Exception):
                if "initial_location" in entry.header:
                    start = entry["initial_location"]
                    found = [it for it in map(rule_of, entry.get_decoded().table) if it]
                    # The library's code without rules has a table with a single row, and saves registers all the same.
                    if len(found) > 1:
                        rows.append((start, start + entry["address_range"], found))
    return rows


def rule_of(row: Any) -> Rule:
    """A row of such a table as a rule; nothing where it takes more than a register and an offset."""
    stack = row["cfa"]
    if stack.reg is None or stack.expr is not None:
        return []
    saved = {str(it): rule.arg for it, rule in row.items() if isinstance(it, int) and rule.type == "OFFSET"}
    return [row["pc"], stack.reg, stack.offset, saved]


def looked_for(code: Code, known: set[int]) -> Rows:
    """The rules of functions without such, by the instructions with which they begin."""
    wanted = [(start, start + size) for start, size, _ in code.functions if size and start not in known]
    return [(start, end, rules_of(code, start, body)) for (start, end), body in zip(wanted, bodies(code, wanted))]


def bodies(code: Code, wanted: List[Tuple[int, int]]) -> List[Dict[int, Statement]]:
    """The instructions of functions, which are listed in one go."""
    pieces = [stored(code, start, end) for start, end in wanted]
    found: List[Dict[int, Statement]] = [{} for _ in wanted]
    which, begin = 0, 0
    for place, end, name, operands in listing(b"".join(pieces), code.extensions()):
        while which < len(pieces) and place >= begin + len(pieces[which]):
            begin += len(pieces[which])
            which += 1
        base = wanted[which][0] - begin
        found[which][base + place] = Statement(name, operands, base + end, base)
    return found


def stored(code: Code, start: int, end: int) -> bytes:
    """The bytes of the image from one address up to before another."""
    return next((bytes(it[start - at : end - at]) for at, it in code.segments if at <= start < at + len(it)), b"")


def rules_of(code: Code, start: int, body: Dict[int, Statement]) -> List[Rule]:
    """The rules of a function of these instructions. Behind a return or a jump back, what was done before that counts again."""
    now, deepest = Prologue(), Prologue()
    rows: List[Rule] = []
    state: Tuple[Any, ...] = ()
    for at, it in body.items():
        new = (now.size, tuple(now.saved.items()), now.has_pointer)
        if new != state or not rows:
            state = new
            register = FP if now.has_pointer else SP
            rows.append([at if rows else start, register, 0 if now.has_pointer else now.size, {str(k): v for k, v in now.saved.items()}])
        now.step(it)
        if (it.name, it.operands[:1]) == ("jal", ["x5"]) and (name := code.name_at(it.target)).startswith("__riscv_save_"):
            now.save(name)
        if now.size > deepest.size or (now.size == deepest.size and len(now.saved) >= len(deepest.saved)):
            deepest = copied(now)
        if (it.name, it.operands) == ("jalr", ["x0", "0(x1)"]) or (it.name, it.operands[:1]) == ("jal", ["x0"]):
            now = copied(deepest)
    return rows


def copied(it: Prologue) -> Prologue:
    """Another one that is the same."""
    other = Prologue()
    other.size, other.has_pointer = it.size, it.has_pointer
    other.saved, other.known = dict(it.saved), dict(it.known)
    return other
