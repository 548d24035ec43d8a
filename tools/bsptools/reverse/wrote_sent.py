"""The lines that say who wrote bytes, and what was requested in a superstep."""

from __future__ import annotations

import contextlib
import time
from typing import Callable, Dict, List, Optional, Sequence, Set, Tuple

from ..framed.environment_calls import GETS, NAMES, spelled
from ..framed.session import Node
from ..program.memory_accesses import A7, ECALL
from ..refusals import Refused, counted, tell
from .last_writers import Found, Own, Search, Writer
from .reversible_machine import Machine
from .run_places import Asked, Interrupted, Place
from .superstep_requests import Made, Requests, called
from .symbol_names import STACK, Names

# Of how many bytes the writers are told at once, how many of them by their lines, and how many requests of a superstep.
MOST_BYTES, MOST_WRITERS, MOST_SENT = 4096, 32, 256
# After how many seconds it is said that this takes long: of this processor's time, so that a busy host makes no line in a short search, and of
# any time.
LONG, VERY_LONG = 1.0, 30.0
BY_CTRL_C = "; Ctrl-C breaks it off"
# How to go on where a search was given up: where a rank, in a superstep, had made so many of its instructions.
Advice = Callable[[int, int, int], str]


class PastTeller:
    """Tells of a machine that stands at a place. `advice` says how to go on where a search was given up, `verb` is what asks for requests, and
    `way_off` is what is said of how to break off."""

    def __init__(self, machine: Machine, names: Names, place: Place, must_break_off: Asked, advice: Advice, verb: str, way_off: str) -> None:
        self._machine, self._names, self._place = machine, names, place
        self._advice, self._verb, self._way_off = advice, verb, way_off
        self._is_to_be_broken_off, self._is_told = must_break_off, False
        self._until = time.process_time() + LONG, time.monotonic() + VERY_LONG

    def _must_break_off(self) -> bool:
        """Whether to break off. It is asked all the time, and so says once on standard error that it takes long: gdb shows that, too, if it
        has started the server, and no packet comes in the way of an answer."""
        if not self._is_told and (time.process_time() > self._until[0] or time.monotonic() > self._until[1]):
            self._is_told = True
            tell([f"the earlier state is computed again, which takes a while{self._way_off}"], "bspgdb: ")
        return self._is_to_be_broken_off()

    # Who has written this?

    def wrote(self, rank: int, addr: int, count: int) -> List[str]:
        """A line for each writer of so many bytes, by their addresses."""
        self._expect(addr, count)
        search = Search(self._machine, self._names, self._place, rank, self._must_break_off)
        found = search.find(addr, count)
        told: Dict[str, List[int]] = {}
        # What is told of instructions of one line is told once, with the address of the first.
        behind: Dict[str, Set[str]] = {}
        known: Dict[object, Tuple[str, str]] = {}
        for it in range(addr, addr + count):
            writer = found.writers.get(it)
            key = self._rest(rank, found, it) if writer is None else (writer.superstep, _rank(rank, writer), writer.node.ticks)
            if key not in known:
                known[key] = (str(key), "") if writer is None else self._writer(search, rank, writer, len(known))
            text, pc = known[key]
            told.setdefault(text, []).append(it)
            behind.setdefault(text, set()).add(pc)
        lines = [f"{self._ranges(addresses)}: {text}{_one(behind[text])}" for text, addresses in told.items()]
        more = len(lines) - MOST_WRITERS
        return lines[:MOST_WRITERS] + ([f"and {counted(more, 'writer')} more: ask for fewer bytes"] if more > 0 else [])

    def _expect(self, addr: int, count: int) -> None:
        end = self._machine.size
        if not 0 < count <= MOST_BYTES:
            raise Refused(f"give a number of bytes from 1 to {MOST_BYTES}")
        if addr + count > end:
            raise Refused(f"there are no {counted(count, 'byte')} at {addr:#x}: a rank's memory ends at {end:#x}")

    def _rest(self, rank: int, found: Found, addr: int) -> str:
        """What is told of a byte of which no writer was found."""
        if found.is_whole:
            return "never written: as the image has it" if self._is_in_image(addr) else "never written: 0 from the start"
        return (
            f"not written in the last {counted(found.instructions, 'instruction')} of rank {rank}, back into superstep {found.superstep};"
            f" what was before is not checked: {self._advice(rank, found.superstep, found.into)}"
        )

    def _is_in_image(self, addr: int) -> bool:
        return any(start <= addr < start + len(content) for start, content in self._names.code.segments)

    def _writer(self, search: Search, rank: int, writer: Writer, number: int) -> Tuple[str, str]:
        """What is told of a writer, and the address of the instruction if that is the rank's own."""
        if isinstance(writer, Made):
            source = f" from rank {writer.call.operand('pid')}" if writer.call.number in GETS else ""
            text = f"{called(writer)}{source} by rank {writer.rank}, at the end of superstep {writer.superstep}"
            return f"{text}: {self._names.place(writer.node)}", ""
        # Where it was takes a run to there.
        node = self._look(rank, writer) if number < MOST_WRITERS else writer.node
        place, pc = self._names.place(node), f"pc {self._names.written(node.pc)}"
        text = f"{_name(self._names, node)} by rank {rank} in superstep {writer.superstep}"
        sent = search.message(writer)
        if sent is not None:
            text += f", of what rank {sent.rank} sent in superstep {sent.superstep} ({self._names.place(sent.node)})"
        return f"{text}: {place}", "" if place == pc else f", {pc}"

    def _look(self, rank: int, own: Own) -> Node:
        """The rank before the instruction, with its stack."""
        ticks = [0] * self._machine.ranks
        ticks[rank] = own.node.ticks
        with contextlib.closing(self._machine.at(Place(own.superstep, tuple(ticks), False), self._must_break_off)) as there:
            return there.node(rank)._replace(stack=there.memory(rank, own.node.x[2], STACK))

    def _ranges(self, addresses: Sequence[int]) -> str:
        """Addresses in a few words, with the name of the first of each run."""
        runs: List[Tuple[int, int]] = []
        for it in addresses:
            runs = [*runs[:-1], (runs[-1][0], it)] if runs and runs[-1][1] + 1 == it else [*runs, (it, it)]
        return ", ".join(self._names.written(first) + (f" to {last:#x}" if last > first else "") for first, last in runs)

    # What was asked for?

    @property
    def superstep(self) -> int:
        """The superstep of the place."""
        return self._place.superstep

    def sent(self, superstep: int, rank: Optional[int] = None) -> List[str]:
        """A line for each request of a superstep: of all ranks for the first ones, or of one rank for all of its own."""
        if superstep > self._place.superstep:
            raise Refused(f"superstep {superstep} has not begun: the latest is superstep {self._place.superstep}")
        made = Requests(self._machine, self._names, self._place, self._must_break_off).of(superstep)
        if rank is not None:
            made = [it for it in made if it.rank == rank]
        is_now = superstep == self._place.superstep and not self._place.is_over
        whose = "" if rank is None else f" of rank {rank}"
        head = f"superstep {superstep}: {counted(len(made), 'request')}{whose}{' so far' if is_now else ''}"
        most = MOST_SENT if rank is None else len(made)
        more = len(made) - most
        rest = [f"and {more} more, from rank {made[most].rank} on: {self._verb} {superstep} from R shows all of rank R"] if more > 0 else []
        return [head, *map(self._request, made[:most]), *rest]

    def _request(self, made: Made) -> str:
        if self._must_break_off():
            raise Interrupted
        return f"rank {made.rank}: {spelled(self._names.code, made.node)}, at {self._names.place(made.node)}"


def _one(pcs: Set[str]) -> str:
    """One of these texts, and whether there are more."""
    return min(pcs) + (" and others" if len(pcs) > 1 else "")


def _rank(rank: int, writer: Writer) -> int:
    return writer.rank if isinstance(writer, Made) else rank


def _name(names: Names, node: Node) -> str:
    """What an instruction of the rank itself is: a store, or a call by its name."""
    is_call = int.from_bytes(names.code.stored(node.pc), "little") == ECALL
    return NAMES[node.x[A7]][0] if is_call and node.x[A7] in NAMES else "a store"
