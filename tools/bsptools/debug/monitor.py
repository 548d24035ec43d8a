"""The commands of gdb's `monitor`: what the machine has and gdb has no command for."""

from __future__ import annotations

import re
from typing import Callable, List, Optional, Sequence, Tuple

from ..framed.environment_calls import spelled
from ..framed.session import Node
from ..refusals import Refused, printable
from ..reverse.reversible_machine import MOST_BREAKPOINTS
from ..reverse.run_places import Interrupted
from ..reverse.symbol_names import STACK, Names
from ..reverse.wrote_sent import BY_CTRL_C, PastTeller
from .catchpoints import Awaited, addresses_of, awaited
from .runner import Runner

HELP = """\
monitor superstep K     stop where superstep K begins: a point, to which continue goes, and reverse-continue
monitor superstep       the superstep that has begun
monitor call NAME       stop before each call of a function of BSPlib, as bsp_put; `to R` and `from R` after it: only to rank R, only by rank R
monitor points          at which supersteps and calls it stops, and whether at the end
monitor delete          take all of these away
monitor end             stop where the run ends, from where one can go back, before gdb's program ends
monitor turn            end the superstep, if no rank runs any more: make the exchange
monitor wrote R ADDR N  who wrote each of N bytes of rank R last; without R this rank, and without N 4 bytes. ADDR is a number, or a name, as sum+4
monitor sent K          the requests of superstep K, each with its line, the first 256; without K of this one so far
monitor sent K from R   all requests of rank R in superstep K
monitor queue R         the messages that rank R has received and not moved yet
monitor costs           what the supersteps that are over cost
monitor output          what was written in the supersteps that are over
monitor help            these lines
"""
FURTHER = "watch it, and reverse-continue looks on from there"
# How often Ctrl-C was typed at gdb's terminal, where that is known.
Typed = Optional[Callable[[], int]]
# How many bytes `wrote` tells of, if it is not said.
BYTES = 4
_NUMBER = re.compile(r"[0-9]{1,18}")


class Monitor:
    """Answers commands."""

    def __init__(self, runner: Runner, typed: Typed) -> None:
        self._runner, self._names, self._typed = runner, runner.names, typed
        self._typed_before = 0
        runner.spell = self._spelled

    def answer(self, command: str, current: int) -> bytes:
        """The text that answers a command, where gdb looks at this rank."""
        words = command.split()
        self._typed_before = self._typed() if self._typed else 0
        name, operands = (words[0] if words else "help"), words[1:]
        machine = self._runner.machine
        try:
            if name == "output" and not operands:
                return machine.output()
            lines = self._lines(name, operands, current)
        except Refused as refused:
            return _text([f"bspgdb: {refused.args[0]}", *refused.args[1:]])
        except Interrupted:
            return _text(["bspgdb: interrupted"])
        if lines is None:
            known = [line for line in HELP.splitlines() if line.split()[1] == name]
            wrong = f"monitor {printable(command)}"
            lines = [f"bspgdb: {wrong}: the line is", *known] if known else [f"bspgdb: no such command: {wrong}", *HELP.splitlines()]
        return _text(lines)

    def _lines(self, name: str, operands: List[str], current: int) -> Optional[List[str]]:
        """The lines of an answer; nothing if there is no such command."""
        machine = self._runner.machine
        if name == "wrote" and operands:
            return self._teller().wrote(*asked_bytes(self._names, operands, machine.ranks, current))
        if name == "superstep" and len(operands) == 1:
            return self._add_superstep(_superstep(name, operands[0]))
        if name == "queue" and len(operands) == 1:
            return machine.queue(_rank(operands[0], machine.ranks))
        if name == "sent" and (len(operands) < 2 or len(operands) == 3 and operands[1] == "from"):
            superstep = _superstep(name, operands[0]) if operands else machine.superstep
            return self._teller().sent(superstep, _rank(operands[2], machine.ranks) if operands[2:] else None)
        if name == "call" and operands:
            return self._add_call(awaited(self._names, operands, machine.ranks))
        return self._line(name) if not operands else None

    def _line(self, name: str) -> Optional[List[str]]:
        """The lines of an answer to a command that is one word."""
        runner = self._runner
        if name == "superstep":
            return [f"superstep {runner.machine.superstep}"]
        if name == "end":
            runner.stops_at_end = True
            return ["continue stops where the run ends"]
        if name == "turn":
            return [runner.turn()]
        if name == "points":
            supersteps, calls = [f"superstep {it}" for it in sorted(runner.supersteps)], [f"call {it}" for it in runner.calls]
            return [*supersteps, *calls, *(["end"] if runner.stops_at_end else [])] or ["none"]
        if name == "delete":
            runner.supersteps.clear()
            runner.calls.clear()
            runner.stops_at_end = False
            return ["continue stops at no superstep, at no call, and not at the end"]
        if name == "costs":
            return runner.machine.costs()
        return HELP.splitlines() if name == "help" else None

    def _teller(self) -> PastTeller:
        machine = self._runner.machine
        way_off = BY_CTRL_C if self._typed else ""
        return PastTeller(machine, self._names, machine.place(), self._is_interrupted, lambda *_: FURTHER, "monitor sent", way_off)

    def _is_interrupted(self) -> bool:
        """Whether to break off. gdb waits for an answer here, and sends nothing of a Ctrl-C."""
        return self._typed is not None and self._typed() > self._typed_before or self._runner.is_interrupted()

    def _spelled(self, node: Node) -> str:
        """The call that a node is about to make, and where."""
        machine = self._runner.machine
        there = node._replace(stack=machine.memory(node.rank, node.x[2], STACK))
        return printable(f"{spelled(self._names.code, node)}, at {self._names.place(there)}")

    def _add_call(self, call: Awaited) -> List[str]:
        if call not in self._runner.calls:
            size = len({*self._runner.breakpoints, *addresses_of([*self._runner.calls, call])})
            if size > MOST_BREAKPOINTS:
                raise Refused(f"with the breakpoints, these are {size} addresses; the limit is {MOST_BREAKPOINTS}")
            self._runner.calls.append(call)
        return [f"continue stops before each {call}, and so does reverse-continue"]

    def _add_superstep(self, superstep: int) -> List[str]:
        self._runner.supersteps.add(superstep)
        if superstep <= self._runner.machine.superstep:
            return [f"superstep {superstep} has begun already: reverse-continue stops where it began"]
        return [f"continue stops where superstep {superstep} begins"]


def asked_bytes(names: Names, operands: Sequence[str], ranks: int, current: int) -> Tuple[int, int, int]:
    """The rank, the address and the number of bytes that `wrote` asks for: `R ADDR N`, of which R and N may be left out."""
    words = list(operands)
    has_rank = len(words) > 1 and _NUMBER.fullmatch(words[0]) and (len(words) > 2 or int(words[0]) < ranks or names.is_name(words[1]))
    rank = int(words.pop(0)) if has_rank else current
    _expect_rank(rank, ranks)
    count = BYTES if len(words) == 1 else names.address(words[1]) if len(words) == 2 and not names.is_name(words[1]) else None
    if count is None:
        raise Refused(f"{printable(' '.join(operands))}: give a rank, an address and a number of bytes, as in `monitor wrote 0 sum+4 8`")
    addr = names.address(words[0])
    if addr is None:
        raise Refused(f"{printable(words[0])} is neither an address nor a name of the program: `info variables` and `print &x` show more")
    return rank, addr, count


def _superstep(name: str, word: str) -> int:
    if not _NUMBER.fullmatch(word):
        raise Refused(f"{printable(word)} is not a number: give the number of a superstep, as in `monitor {name} 1`")
    return int(word)


def _rank(word: str, ranks: int) -> int:
    if not _NUMBER.fullmatch(word):
        raise Refused(f"{printable(word)} is not a rank: the ranks are 0 to {ranks - 1}")
    _expect_rank(int(word), ranks)
    return int(word)


def _expect_rank(rank: int, ranks: int) -> None:
    if rank >= ranks:
        raise Refused(f"there is no rank {rank}: the ranks are 0 to {ranks - 1}")


def _text(lines: Sequence[str]) -> bytes:
    return "".join(printable(line) + "\n" for line in lines).encode()
