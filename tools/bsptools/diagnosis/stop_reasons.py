"""Why a run stopped: the source line, the call, and the rule that was broken."""

from __future__ import annotations

import contextlib
import re

from .. import limits
from ..files import named_content
from ..framed.backtrace import frames, place, short, users_frames, written
from ..framed.environment_calls import CHANGES, FUNCTIONS, GETS, NAMES, POP, PUSH, PUTS, REQUESTS, SEND, TAGSIZE, WRITE
from ..framed.environment_calls import Call, Tracer, spelled
from ..framed.replays import Replays, bytes_of
from ..framed.session import Node, Session, floats_of, node_of, signed
from ..limits import MOST_SOURCE, MOST_STACK, MOST_TAG, MOST_TICKS
from ..outputs.report import Report
from ..program.code import ATOMIC, ECALL, FLOAT, Code, name_with, source_lines
from ..program.memory_need import size_text
from ..refusals import Refused, counted, numbered

# Of a run of more instructions, what was registered before its last superstep is looked for where likely mistakes are.
MOST_TRACED = 100_000_000
LONG = "the run is too long to look up what is registered; --warn does"
# How many stopped nodes are looked at, and how many of them are told of in full.
MOST_LOOKS = 8
MOST_TOLD = 3
# What a line has that the compiler does not see: a comment without an end, too, which goes on in the next line. And the functions of the library in which a program ends whose main has returned.
COMMENT = r"//.*|/\*.*?(?:\*/|$)"
BEHIND_MAIN = {"_exit", "exit", "bsp_start", "_start", "end_of_main", "bsp_stop", "bsp_stop_with", "end_line", "abort_node", ""}
# The functions of the library that make calls.
LIBRARYS = {name for names in FUNCTIONS.values() for name in names}
# What NULL points to, over and over, in a program of bspcc, and how far from it an address is that was made of it.
NULL_WORD, NEAR = 0xE5A6D39B, 1 << 16
# Where an instruction of floating point has its rounding mode, which is that in frm where all of these bits are set, and those modes that
# there are not.
MODE, DYNAMIC, RESERVED = 12, 7, (5, 6)


class Why:
    """What can be said of a run that did not end by itself."""

    def __init__(self, code: Code, replays: Replays, nodes: int, limit: int, is_patient: bool = False) -> None:
        self.code, self.replays, self.nodes, self.limit, self.is_patient = code, replays, nodes, limit, is_patient
        self.trace = Tracer(code, replays)
        self.session: Session
        self.is_long = False
        # What brings gdb to the place that is told.
        self.gdb = ["continue"]

    def lines(self, report: Report) -> list[str]:
        """The lines that tell why, for each outcome but `ended`."""
        superstep = report.supersteps[-1].number
        self.is_long = self.nodes * sum(it.costs["w"] for it in report.supersteps[:-1]) > MOST_TRACED and not self.is_patient
        lines: list[str] = []
        if report.outcome.startswith("refused"):
            return self.lines_of(report.outcome, superstep)
        with self.replays.end_of(superstep) as self.session:
            lines = self.lines_of(report.outcome, superstep)
        return lines

    def lines_of(self, outcome: str, superstep: int) -> list[str]:
        """The lines that tell why a run had this outcome in a superstep, whose end the session has come to."""
        if re.match(r"rank \d+ stopped: ", outcome):
            return self.stopped(superstep)
        if found := re.match(r"desync: rank (\d+) ended, rank (\d+) synced", outcome):
            return self.desync(int(found[1]), int(found[2]), superstep)
        if found := re.match(r"refused: OutsideArea rank (\d+) request (\d+)", outcome):
            return self.outside_area(int(found[1]), int(found[2]), superstep)
        if found := re.match(r"refused: (\w+) rank (\d+)", outcome):
            teller = self.other_registrations if found[1] == "SlotMismatch" else self.other_tag_size
            return teller(int(found[2]), superstep)
        return []

    def node_at_end(self, rank: int) -> Node | None:
        """A node where it stopped by itself in the last superstep."""
        node = self.session.node(rank)
        return node and self.replays.with_stack(self.session, node)

    def bytes_at_end(self, rank: int, address: int, count: int) -> bytes:
        """Memory of a node there; nothing if it does not lie in the memory."""
        reply = self.session.ask(f"bytes {rank} {address} {count}")
        return bytes_of(reply.lines) if reply.is_done else b""

    def bring_gdb_to(self, rank: int, superstep: int, call: Call, made: list[Call]) -> None:
        """Has gdb come to a call of those that a rank made in a superstep, and show its line."""
        before = sum(it.stop < call.stop and it.node.pc == call.node.pc for it in made)
        self.gdb = [f"monitor superstep {superstep}", "continue"] if superstep > 0 else []
        # By the function's name gdb comes there also in a program that bspgdb compiles otherwise than bsprun.
        name = self.code.name_at(call.node.pc)
        at = name if name in LIBRARYS and not self.code.lines else f"{call.node.pc:#x}"
        self.gdb += [f"break *{at} thread {rank + 1}", *([f"ignore 1 {before}"] if before else []), "continue", *self._up]

    @property
    def _up(self) -> list[str]:
        """What leads gdb from a call to its line: out of the library's function, where the program has one."""
        return ["up"] if self.code.functions and not self.code.lines else []

    # A node that was stopped.

    def stopped(self, superstep: int) -> list[str]:
        """The nodes that were stopped in the last superstep, each place once."""
        stopped = self.stopped_ranks()
        lines: list[str] = []
        told: set[str] = set()
        for rank in stopped[:MOST_LOOKS]:
            node = self.node_at_end(rank)
            text = self.stop_of(node, superstep) if node else []
            where = "".join(text[1:2])
            if text and where not in told and len(told) < MOST_TOLD:
                lines += text
                told.add(where)
        others = len(stopped) - len(told)
        return lines + ([f"  {counted(others, 'more rank')} stopped in this superstep"] if others > 0 else [])

    def stopped_at_end(self, report: Report) -> list[int]:
        """The ranks that were stopped in the last superstep of a run."""
        with self.replays.end_of(report.supersteps[-1].number) as self.session:
            return self.stopped_ranks()
        return []

    def stopped_ranks(self) -> list[int]:
        """The ranks that were stopped in the last superstep."""
        shown = [node_of(reply.lines) for reply in self.session.ask_all([f"regs {rank}" for rank in range(self.nodes)])]
        return [it.rank for it in shown if it and it.state not in ("synced", "ended", "running")]

    def stop_of(self, node: Node, superstep: int) -> list[str]:
        """What is said of one node that was stopped."""
        if node.state == "exhausted":
            return self.exhausted(node, superstep)
        is_call = self.code.stored(node.pc) == ECALL and node.state != "aborted"
        where = place(self.code, node, is_call) if not self.is_behind_main(node) else self.end_of_main()
        lines = [f"rank {node.rank} stopped in superstep {superstep}, after {node.ticks} instructions: {node.state}"]
        lines += [f"  at   {where}"] if where else []
        if node.state == "aborted":
            return lines
        if is_call:
            self.gdb = ["continue", *self._up]
            lines.append(f"  call {spelled(self.code, node)}")
        return lines + [f"  why  {text}" for text in self.reasons(node, superstep)]

    def exhausted(self, node: Node, superstep: int) -> list[str]:
        """A node that came to the limit."""
        more = min(max(10 * self.limit, 10_000_000), MOST_TICKS)
        advice = f"raise it with --limit {more}" if self.limit < MOST_TICKS else "this is the largest possible limit"
        return [
            f"rank {node.rank} stopped in superstep {superstep}: it executed {node.ticks} instructions, the limit",
            f"  at   {place(self.code, node)}",
            f"  why  an endless loop, or a limit that is too small: {advice}",
        ]

    def reasons(self, node: Node, superstep: int) -> list[str]:
        """What a node that met a fault did not keep to."""
        fault = node.state.rpartition("fault ")[2]
        tellers = {
            "NotRegistered": self.not_registered,
            "RangeOutside": self.range_outside,
            "BadSize": self.bad_size,
            "TooMuch": self.too_much,
            "StoreOutside": self.access_outside,
            "LoadOutside": self.access_outside,
            "Misaligned": self.misaligned,
        }
        ranks = "rank 0 is the only one" if self.nodes == 1 else f"the ranks are 0 to {self.nodes - 1}"
        texts = {
            "BadRank": f"there is no rank {signed(node.x[10])}: with {counted(self.nodes, 'node')} {ranks}",
            "Break": self.trap(node),
            "UnknownCall": f"a7 is {node.x[17]}, and calls have the numbers 1 to {max(NAMES)}",
        }
        return [texts[fault]] if fault in texts else tellers.get(fault, self.no_code)(node, superstep)

    def trap(self, node: Node) -> str:
        """What the compiler saw where it put a trap: what stands in front of that tells, or the line."""
        function = self.code.function(node.pc)
        before = next((it for it in self.code.body(function[0]).values() if it.end == node.pc), None) if function else None
        if before is not None and before.is_relative and before.pointer == 0:
            return "NULL is used as a pointer here: the compiler saw it, and put a trap"
        lines = source_lines(self.code, node.pc)
        if lines and divides(source_text(lines[0][1])):
            return "an integer is divided by 0 here: the compiler saw it, and put a trap"
        return "the compiler saw that the program goes wrong here, and put a trap"

    def is_behind_main(self, node: Node) -> bool:
        """Whether a node was stopped by the library as main had returned."""
        chain = frames(self.code, node)
        names = {self.code.name_at(it) for it in chain}
        return node.state == "aborted" and names <= BEHIND_MAIN and not users_frames(self.code, chain)

    def end_of_main(self) -> str:
        """The line of the end of main; nothing if it is not known."""
        start = self.code.names.get("main")
        body = self.code.body(start) if start is not None else {}
        lines = [it for at in body for it in source_lines(self.code, at)[-1:] if it[0] == "main"]
        last = max(lines, key=lambda it: int(it[1].rpartition(":")[2]), default=None)
        return f"the end of main, {short(last[1])}" if last is not None else "the end of main"

    def range_outside(self, node: Node, _superstep: int) -> list[str]:
        """An operand that names bytes outside the memory."""
        if node.x[17] == SEND and signed(node.x[13]) < 0 or node.x[17] == PUSH and signed(node.x[11]) < 0:
            return ["a size is negative"]
        if node.x[17] in (*PUTS, *GETS) and signed(node.x[14]) < 0:
            return ["nbytes is negative"]
        return [f"bytes that the call names do not lie in the memory, which ends at {self.replays.memory:#x}"]

    def bad_size(self, node: Node, _superstep: int) -> list[str]:
        """A tag size."""
        content = self.bytes_at_end(node.rank, node.x[10], 4)
        size = int.from_bytes(content, "little", signed=True)
        return [f"the tag size is {size}, and has to be 0 to {MOST_TAG}" if content else f"a tag size has to be 0 to {MOST_TAG}"]

    def access_outside(self, node: Node, _superstep: int) -> list[str]:
        """A load or a store outside the memory."""
        access = self.code.statements(node.pc, node.pc + 4).get(node.pc)
        if access is None or not access.is_relative:
            return [f"the address is not in the memory, which ends at {self.replays.memory:#x}; the code there was not the program's own"]
        address = (node.x[access.pointer] + access.operand(1)) & 0xFFFFFFFF
        top = self.code.names.get("__stack_top", 0)
        texts = [f"address {address:#x} ({signed(address)}) is not in the memory, which ends at {self.replays.memory:#x}"]
        texts = [f"{texts[0]}: the pointer was read through NULL"] if is_of_null(address) else texts
        if top and (node.x[2] >= self.replays.memory or node.x[2] < 64):
            more = size_text(min(4 * top, MOST_STACK // 2))
            texts = [f"stack overflow: the stack has {top} bytes; give --stack {more}, of an ELF file to bspcc, or make large arrays static"]
        return texts

    def no_code(self, node: Node, _superstep: int) -> list[str]:
        """A jump to where there is no instruction, or code that was overwritten."""
        stored = self.code.stored(node.pc)
        if self.code.function(node.pc) is None and not stored:
            how = "was read through NULL" if is_of_null(node.pc) else "is bad"
            return [f"there is no code at {written(self.code, node.pc)}: a function was called by a pointer that {how}"]
        content = self.bytes_at_end(node.rank, node.pc, 2)
        if content and content[0] & 3 == 3:
            content = self.bytes_at_end(node.rank, node.pc, 4) or content
        unit = "word" if len(content) == 4 else "halfword"
        if content and content != stored:
            return [f"the code was overwritten: the {unit} at {node.pc:#x} is 0x{content[::-1].hex()}"]
        return [f"the {unit} at {node.pc:#x} is {self.no_instruction(node, content)}"]

    def misaligned(self, node: Node, _superstep: int) -> list[str]:
        """An instruction at an odd address, or one of extension A on a word at an address that is not a multiple of 4."""
        if node.pc % 2:
            return [f"the program begins at {node.pc:#x}, but instructions must be at even addresses"]
        content = self.bytes_at_end(node.rank, node.pc, 4)
        name, address = name_with(ATOMIC, content) or "the instruction", node.x[address_register(content)]
        return [f"{name} accesses a word, but its address {address:#x} is not a multiple of 4"]

    def no_instruction(self, node: Node, content: bytes) -> str:
        """What code is that a node does not have."""
        if not self.code.is_atomic:
            atomic = name_with(ATOMIC, content)
            if atomic:
                return f"{atomic}, an instruction of extension A, which these nodes do not have: run with --atomic"
        name, mode = float_instruction(content)
        if not name:
            return "not an instruction that a node has"
        if not self.code.is_float:
            without = "" if self.code.lines else ", or compile by bspcc -march=rv32imc, which does without"
            return f"{name}, a floating-point instruction, but these nodes have no floating-point unit: run with --float{without}"
        where = f"the rounding mode {mode}" if mode in RESERVED else f"the rounding mode of frm, which is {self.frm(node)}"
        return f"{name} in {where}: the modes are 0 to 4"

    def frm(self, node: Node) -> int:
        """The rounding mode that a node has in frm; 0 if it has no unit of floating point."""
        reply = self.session.ask(f"fregs {node.rank}")
        return floats_of(reply.lines).frm if reply.is_done else 0

    # Registrations.

    def not_registered(self, node: Node, superstep: int) -> list[str]:
        """An area that is not in effect: pushed too late, popped, named from its middle, or never pushed."""
        address = Call(node, 0).area
        name = written(self.code, address, node)
        for call in self.trace.calls_in(node.rank, CHANGES, superstep):
            if call.number == PUSH and call.area == address and node.x[17] != POP:
                where = self.trace.place_of(node.rank, CHANGES, superstep, call)
                return [f"{name} was registered in this superstep, at {where}: that is in effect after the next bsp_sync"]
        if self.is_long:
            return [LONG]
        areas = self.trace.areas(node.rank, superstep)
        if (around := areas.around(address)) is not None:
            return [f"{name} lies in the area that begins at {written(self.code, around[0], node)}: name that, and give an offset"]
        if node.x[17] == POP:
            return [f"{name} is not registered any more, or never was"]
        for call in reversed(self.trace.calls(node.rank, CHANGES)):
            if call.number == POP and call.area == address:
                where = self.trace.place_of(node.rank, CHANGES, 0, call)
                return [f"the registration of {name} was taken back, at {where}"]
        known = ", ".join(f"{written(self.code, at, node)} of {size} bytes" for at, size in areas.entries[:8])
        return [f"rank {node.rank} never registered {name}; in effect are {known or 'no areas'}"]

    def outside_area(self, rank: int, request: int, superstep: int) -> list[str]:
        """A put or a get that passes its area."""
        made = self.trace.calls_in(rank, REQUESTS, superstep)
        if request >= len(made):
            return [f"rank {rank}, superstep {superstep}: request {request} was not found"]
        call = made[request]
        self.bring_gdb_to(rank, superstep, call, made)
        offset, count, target = call.operand("offset"), call.operand("nbytes"), call.operand("pid")
        node = self.trace.node_of(rank, REQUESTS, superstep, call)
        lines = [
            f"rank {rank}, superstep {superstep}, request {request}: it reaches past the area",
            f"  at   {place(self.code, node, is_call_told=True) if node else 'a place that was not found'}",
            f"  call {spelled(self.code, node or call.node)}",
        ]
        if self.is_long:
            return [*lines, f"  why  {LONG}"]
        position, areas = self.trace.areas(rank, superstep).position(call.area), self.trace.areas(target, superstep).entries
        if position is None or position >= len(areas):
            return lines
        size = areas[position][1]
        extent = "offset is negative" if offset < 0 else f"offset {offset} + {count} bytes = {offset + count}"
        return [*lines, f"  why  {extent}, but the area at rank {target} has {size} bytes"]

    def other_registrations(self, rank: int, superstep: int) -> list[str]:
        """The first registration of a rank that is not that of rank 0."""
        made = [self.trace.calls_in(it, CHANGES, superstep) for it in (0, rank)]
        pairs = zip(*made)
        first = next((i for i, (a, b) in enumerate(pairs) if a.number != b.number), min(map(len, made)))
        if first == len(made[0]) == len(made[1]):
            first = next((i for i, (a, _) in enumerate(zip(*made)) if a.number == POP), 0)
        lines = [f"rank {rank} did not register the same as rank 0 in superstep {superstep}; the first difference:"]
        for which, calls in zip((0, rank), made):
            if first < len(calls):
                self.bring_gdb_to(which, superstep, calls[first], calls)
                node = self.trace.node_of(which, CHANGES, superstep, calls[first])
                where = place(self.code, node, is_call_told=True) if node else "a place that was not found"
                lines.append(f"  rank {which}  {spelled(self.code, node or calls[first].node)}, at {where}")
            else:
                lines.append(f"  rank {which}  none, after {len(calls)} of them")
        return lines

    def other_tag_size(self, rank: int, superstep: int) -> list[str]:
        """The tag sizes of a rank and of rank 0."""
        lines = [f"rank {rank} has a different tag size than rank 0 at the end of superstep {superstep}"]
        for which in (0, rank):
            calls = self.trace.calls_in(which, (TAGSIZE,), superstep)
            if not calls:
                lines.append(f"  rank {which}  does not call bsp_set_tagsize")
                continue
            last = calls[-1]
            self.bring_gdb_to(which, superstep, last, calls)
            where = self.trace.place_of(which, (TAGSIZE,), superstep, last)
            size = int.from_bytes(self.replays.bytes_after(superstep, last.node, last.node.x[10], 4), "little", signed=True)
            lines.append(f"  rank {which}  sets {size}, at {where}")
        return lines

    # Other outcomes.

    def too_much(self, node: Node, superstep: int) -> list[str]:
        """Which limit of a superstep was met."""
        is_large = limits.OPTION in self.replays.words
        most = limits.of(is_large)
        otherwise = "" if is_large else f"; {limits.OPTION} raises it"
        if node.x[17] == PUSH:
            return [f"{most.areas} registered areas, or {most.requests} pushes in a superstep, are the limit{otherwise}"]
        if node.x[17] not in REQUESTS:
            return [f"{most.superstep} bytes in a superstep are the limit for puts, gets, messages and output together{otherwise}"]
        made = self.trace.calls_in(node.rank, (*REQUESTS, WRITE), superstep)
        asked = [it for it in made if it.number in REQUESTS]
        if len(asked) > most.requests:
            return [f"{most.requests} puts, gets and messages in a superstep are the limit{otherwise}"]
        names = {SEND: "payload_nbytes", WRITE: "count"}
        # Without their tags.
        size = sum(it.operand(names.get(it.number, "nbytes")) for it in made)
        return [
            f"{most.superstep} bytes in a superstep are the limit for puts, gets, messages and output together, and this makes"
            f" {size}: split them up by a bsp_sync{otherwise}"
        ]

    def desync(self, ended: int, synced: int, superstep: int) -> list[str]:
        """Ranks of which some wait for others, which have ended: how many syncs each made, and where its last one is."""
        states = {rank: node.state for rank in range(self.nodes) if (node := self.session.node(rank))}
        waiting = [rank for rank, state in states.items() if state == "synced"] or [synced]
        over = [rank for rank, state in states.items() if state == "ended"] or [ended]
        has, waits = ("have" if len(over) > 1 else "has"), ("wait in their" if len(waiting) > 1 else "waits in its")
        begin = f"{numbered(over)} {has} ended while {numbered(waiting)} {waits} {ordinal(superstep + 1)} bsp_sync"
        return [begin, *self.syncs(waiting, superstep, ""), *self.syncs(over, superstep - 1, self.end_of(ended, superstep))]

    def syncs(self, ranks: list[int], last: int, end: str) -> list[str]:
        """How many syncs these ranks made, the last at the end of a superstep, and where that is, by places."""
        if last < 0:
            return [f"  {numbered(ranks)} made none{end}"]
        places: dict[str, list[int]] = {}
        alike: dict[tuple[int, int, int], str] = {}
        with self.replays.end_of(last) as session:
            for rank in ranks:
                node = session.node(rank)
                if node is None:
                    continue
                key = (node.pc, node.x[1], node.x[2])
                alike[key] = alike.get(key) or place(self.code, self.replays.with_stack(session, node), is_call_told=True)
                places.setdefault(alike[key], []).append(rank)
        told = [f"  {numbered(of)} made {last + 1}, the last at {where}{end}" for where, of in list(places.items())[:MOST_TOLD]]
        left = sum(len(of) for of in list(places.values())[MOST_TOLD:])
        return told + ([f"  and {counted(left, 'more rank')}"] if left else [])

    def end_of(self, ended: int, superstep: int) -> str:
        """Where a rank ended in a superstep."""
        script = [*self.replays.begin_for(ended, superstep), f"break superstep {superstep + 1}"]
        ends = [self.code.names[it] for it in ("bsp_end", "exit") if it in self.code.names]
        stops = self.replays.stops(script, ended, ends) if ends else []
        node = self.replays.look_after(superstep, ended, stops[0].ticks) if stops else self.node_at_end(ended)
        where = place(self.code, node, is_call_told=True) if node else ""
        return f", and then ended, at {where}" if where else ""


def source_text(line: str) -> str:
    """The text of a line of a source; nothing if that is not here."""
    path, _, number = line.rpartition(":")
    with contextlib.suppress(Refused, ValueError, IndexError):
        return named_content(path, MOST_SOURCE).decode(errors="replace").splitlines()[int(number) - 1]
    return ""


def divides(line: str) -> bool:
    """Whether a line of a source divides."""
    return re.search(r"[/%]", re.sub(COMMENT, "", line)) is not None


def ordinal(number: int) -> str:
    """`1st`, `2nd`, `3rd`, `4th`."""
    last = number % 100 if number % 100 in (11, 12, 13) else number % 10
    return str(number) + {1: "st", 2: "nd", 3: "rd"}.get(last, "th")


def is_of_null(address: int) -> bool:
    """Whether an address is near to what NULL points to, and so most likely made of it."""
    return abs(address - NULL_WORD) < NEAR


def float_instruction(content: bytes) -> tuple[str, int]:
    """The name of an instruction of floating point, and where it has a rounding mode, its bits; also of one with a mode that there is not. No
    name of any other code."""
    word = int.from_bytes(content, "little")
    mode = word >> MODE & DYNAMIC
    is_reserved = len(content) == 4 and mode in RESERVED
    return name_with(FLOAT, content) or is_reserved and name_with(FLOAT, (word | DYNAMIC << MODE).to_bytes(4, "little")) or "", mode


def address_register(content: bytes) -> int:
    """The register in which an instruction of extension A has its address."""
    return int.from_bytes(content, "little") >> 15 & 31
