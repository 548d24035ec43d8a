"""The answers to the lines of a dialogue, with names for addresses, defaults, and refusals that say what is accepted."""

from __future__ import annotations

import re
from typing import Callable, Dict, Iterator, List, Optional, Sequence, Set

from ..framed.session import DebuggerEnded, Node, RefusalCode, Reply, Session, floats_of
from ..limits import MOST_POINTS
from ..program.register_names import FLOATS, REGISTERS
from ..refusals import Refused, printable, put
from ..reverse import named_views
from ..reverse.debugger_process import POLL
from ..reverse.reversible_machine import RESERVE, Machine
from ..reverse.run_places import Asked as Question, Interrupted, Place, rank_of, told
from ..reverse.symbol_names import STACK, Names
from ..reverse.wrote_sent import BY_CTRL_C, PastTeller
from .line_syntax import Asked, Denied, Lines, ranks_of

# How many bytes are shown at the most, and of how many bytes a text.
MOST_SHOWN, MOST_TEXT = 1 << 16, 1 << 12
# Lines that go on for as long as the program does, and those that bring a state back.
LONG = {"go", "over", "phase", "step", "turn"}
# The bytes of an environment call, and the states of ranks that have stopped for good by one.
CALL, OVER = 4, ("ended", "aborted")
# Of so many ranks it is told where they are when the run is over.
MOST_PLACES = 16

# Lines that show nothing where there is nothing, and what is told then.
NOTHING = {
    "kept": "none is kept",
    "points": "none is set",
    "areas": "none is in effect yet: what is registered in a superstep is in effect from the next one on",
    "requests": "no put, get or message is asked for in this superstep so far",
}

_ADDRESS = re.compile(r"\b(pc|at|into) ([0-9a-f]{8})\b")
_NUMBER = re.compile(r"[0-9]{1,99}|0[xX][0-9a-fA-F]{1,99}")
_REGISTER = re.compile(r"\$(\w+)(?:\+([0-9]+|0x[0-9a-fA-F]+))?")


class Dialogue:
    """Answers lines of a session of its own. `is_interrupted` asks whether what goes on is to be broken off."""

    def __init__(self, command: Sequence[str], is_interrupted: Question) -> None:
        self._command, self._is_interrupted = list(command), is_interrupted
        self.names = Names(command)
        self._session = Session(self._command)
        self._lines = Lines(self._session.line_forms())
        settings = self._session.settings()
        self._ranks, self._size = settings["nodes"], settings["memory"]
        self._points: Set[str] = set()
        self._is_told = self._is_kept = False
        self._past: Optional[Machine] = None
        self._own: Dict[str, Callable[[Asked], Iterator[str]]] = {
            "help": lambda asked: self._lines.help_of("".join(asked.words)),
            "regs": lambda asked: iter(named_views.registers(self.names, self._node(asked.operands["RANK"]))),
            "fregs": self._fregs,
            "bytes": self._bytes,
            "words": self._words,
            "text": self._text,
            "list": self._list,
            "where": self._where,
            "wrote": self._wrote,
            "sent": self._sent,
        }

    def close(self) -> None:
        """Ends all processes."""
        self._session.close()
        if self._past is not None:
            self._past.close()

    def answer(self, line: str) -> bool:
        """Answers a line. Answers whether the session goes on."""
        if not line.split():
            return True
        if self._session.room < RESERVE:
            self._return_to(self._place())
            put("the kept states are lost: a new process continues from here\n" if self._is_kept else "")
            self._is_kept = False
        try:
            asked = self._lines.parsed(line, self._ranks, self._address)
            if asked.verb == "quit":
                return False
            own = self._own.get(asked.verb)
            if own is None:
                self._pass_on(asked)
            else:
                for text in own(asked):
                    _tell(text)
        except DebuggerEnded:
            raise
        except Refused as refused:
            _tell(f"refused: {refused.args[0]}", *refused.args[1:])
        except Interrupted:
            put("interrupted\n")
        return True

    def completing(self, words: List[str]) -> List[str]:
        """What may stand behind the first words of a line: ranks, names of the program and registers, or words."""
        operands: Dict[str, Callable[[], List[str]]] = {
            "RANK": lambda: [str(rank) for rank in range(self._ranks)],
            "ADDR": lambda: [*self.names.all(), "$pc", *(f"${name}" for name in REGISTERS)],
            "LINE": lambda: self._lines.verbs,
            "NAME": lambda: FLOATS,
        }
        found = [operands[it]() if it in operands else [it] if it.islower() else [] for it in self._lines.following(words)]
        return sorted({word for part in found for word in part})

    # The debugger's own lines.

    def _pass_on(self, asked: Asked) -> None:
        """Has the debugger answer a line."""
        spelled = _spelled(asked)
        before = self._place() if asked.verb in LONG else None
        reply = self._wait(spelled, before)
        if reply is None:
            put("interrupted: nothing has changed" + (", and the kept states are lost\n" if self._is_kept else "\n"))
            self._is_kept = False
            return
        if not reply.is_done:
            raise Denied(reply.code, self._why(reply.code))
        if asked.verb in ("output", "costs"):
            put(reply.data)
            return
        self._note_point(asked, spelled)
        self._is_kept = self._is_kept or asked.verb == "keep"
        for line in reply.lines or [NOTHING[asked.verb]] * (asked.verb in NOTHING):
            _tell(self._with_names(line))
        if asked.verb in ("go", "turn") and not asked.operands and reply.lines[0] not in ("turned", "not turned"):
            self._tell_outcome(reply.lines[0])
        elif asked.verb == "back":
            self._is_told = False

    def _wait(self, line: str, before: Optional[Place]) -> Optional[Reply]:
        """The reply to a line; nothing if it was broken off. Then all is brought back to where it stood."""
        self._session.send(line)
        while before is not None and not self._session.is_answered(POLL):
            if self._is_interrupted():
                self._return_to(before)
                return None
        return self._session.reply()

    def _return_to(self, place: Place) -> None:
        self._session.close()
        machine, self._past = self._machine(), None
        machine.become(machine.at(place))
        self._session = machine.hand_over()
        for reply in self._session.ask_all([f"break {point}" for point in sorted(self._points)]):
            reply.accepted()

    def _note_point(self, asked: Asked, spelled: str) -> None:
        point = spelled.partition(" ")[2]
        if asked.verb == "break":
            self._points.add(point)
        elif asked.verb == "clear":
            self._points.discard(point)

    def _tell_outcome(self, line: str) -> None:
        """Says once where the ranks are at the end of the run, if that is not that all have ended."""
        if told(line) == told("ended") or self._is_told or line.startswith("stopped at "):
            return
        self._is_told = True
        lines = list(self._where(Asked("where", {}, [])))
        _tell(*lines[:MOST_PLACES], *([f"and {len(lines) - MOST_PLACES} more ranks: type where"] if len(lines) > MOST_PLACES else []))
        _tell(*self._extension_wanted(rank_of(line, 0)))

    def _extension_wanted(self, rank: int) -> List[str]:
        """What is told of a rank that has stopped for want of an extension."""
        node = self._node(rank)
        if self.names.code.is_float or node.pc >= self._size:
            return []
        return named_views.extension_wanted(node.state, self._memory(rank, node.pc, 4))

    def _with_names(self, line: str) -> str:
        """A line with the names of the addresses that it tells."""
        return _ADDRESS.sub(lambda found: f"{found[1]} {named_views.behind(self.names, int(found[2], 16))}", line)

    def _why(self, code: str) -> str:
        """What would be accepted where the debugger refuses a line."""
        if code == RefusalCode.OVER:
            return f"the run is over; all can be looked at, and {self._way_back()}"
        texts = {
            RefusalCode.BAD_RANK: ranks_of(self._ranks),
            RefusalCode.BAD_RANGE: "there is not so much yet; without a number all is shown",
            RefusalCode.NO_FLOAT_UNIT: "the program does not use floating point; bspgdb --float gives nodes a unit",
            RefusalCode.TOO_MANY: f"{MOST_POINTS:,} points are set, the limit; clear removes one",
            RefusalCode.NO_SUCH_BREAK: "points lists those that are set",
            RefusalCode.NO_SUCH_KEPT: "kept lists them",
            RefusalCode.BAD_COMMAND: "this emulator has no such line",
        }
        return texts.get(code, "")

    def _way_back(self) -> str:
        """What leads away from the end of a run."""
        kept = self._session.ask("kept").accepted() if self._is_kept else []
        numbers = ", ".join(line.split()[1] for line in kept)
        return f"back goes to what is kept: {numbers}" if kept else "a new session begins at the start"

    # What there is.

    def _address(self, text: str, rank: int) -> int:
        """The address that a text tells, for a rank: a number, a name, or a register."""
        found = _REGISTER.fullmatch(text)
        if found is None:
            return self._named(text)
        node = self._node(rank)
        known = {**dict(zip(REGISTERS, node.x)), "fp": node.x[8], "pc": node.pc, **{f"x{at}": value for at, value in enumerate(node.x)}}
        if found[1] not in known:
            raise Refused(f"${printable(found[1])} is not a register: registers are $pc, $zero, $ra, $sp and so on, as regs shows them, or $x0 to $x31")
        return (known[found[1]] + int(found[2] or "0", 0)) % (1 << 32)

    def _named(self, text: str) -> int:
        address = self.names.address(text)
        if address is None and _NUMBER.fullmatch(text):
            raise Refused(f"{text} is too large: addresses are below {1 << 32:#x}")
        if address is None:
            nameless = "" if self.names.all() else ", which has none"
            raise Refused(f"{printable(text)} is neither an address nor a name of the program{nameless}")
        return address

    def _node(self, rank: int) -> Node:
        node = self._session.node(rank)
        if node is None:
            raise Refused("the debugger shows no node")
        return node

    def _fregs(self, asked: Asked) -> Iterator[str]:
        rank = asked.operands["RANK"]
        reply = self._session.ask(f"fregs {rank}")
        if not reply.is_done:
            raise Denied(reply.code, self._why(reply.code))
        name = "".join(asked.words)
        rows = named_views.floats(rank, floats_of(reply.lines))
        known = dict(zip(("fcsr", *FLOATS), rows))
        known.update((f"f{at}", known[it]) for at, it in enumerate(FLOATS))
        if name and name not in known:
            raise Refused(f"{printable(name)} is not a register: registers are fcsr, ft0, fa0, fs0 and so on, as fregs shows them, or f0 to f31")
        yield from [known[name]] if name else rows

    def _memory(self, rank: int, addr: int, count: int) -> bytes:
        """Bytes of a rank; those that come before the memory's end."""
        if addr >= self._size:
            raise Denied(RefusalCode.BAD_RANGE, f"there is nothing at {addr:#x}: a rank's memory ends at {self._size:#x}")
        count = min(count, self._size - addr)
        return bytes.fromhex(" ".join(self._session.ask(f"bytes {rank} {addr} {count}").accepted()))

    def _shown(self, asked: Asked, unit: int) -> bytes:
        """The memory that a line asks for, in units of so many bytes."""
        if asked.how_many * unit > MOST_SHOWN:
            raise Denied(RefusalCode.BAD_RANGE, f"at most {MOST_SHOWN // unit} are shown at once")
        return self._memory(asked.operands["RANK"], asked.operands["ADDR"], asked.how_many * unit)

    def _end(self, asked: Asked, unit: int) -> Iterator[str]:
        """What says that the memory ends before all that was asked for."""
        if asked.operands["ADDR"] + asked.how_many * unit > self._size:
            yield f"no more: a rank's memory ends at {self._size:#x}"

    def _bytes(self, asked: Asked) -> Iterator[str]:
        yield from named_views.hexadecimal(self.names, asked.operands["ADDR"], self._shown(asked, 1))
        yield from self._end(asked, 1)

    def _words(self, asked: Asked) -> Iterator[str]:
        yield from named_views.words(self.names, asked.operands["ADDR"], self._shown(asked, 4))
        yield from self._end(asked, 4)

    def _text(self, asked: Asked) -> Iterator[str]:
        count = min(asked.operands.get("N", MOST_TEXT), MOST_TEXT)
        yield named_views.text(self._memory(asked.operands["RANK"], asked.operands["ADDR"], count), "N" not in asked.operands)

    def _list(self, asked: Asked) -> Iterator[str]:
        node = self._node(asked.operands["RANK"])
        addr = asked.operands.setdefault("ADDR", node.pc)
        if addr % 2:
            count = asked.operands.get("N", addr)
            what = f"instructions are at even addresses, and {addr:#x} is odd"
            raise Denied(RefusalCode.BAD_COMMAND, f"{what}; {count} of them from the pc of the rank on: list {node.rank} $pc {count}")
        yield from named_views.instructions(self.names, asked.operands["ADDR"], self._shown(asked, 4), asked.how_many, node.pc)

    def _where(self, asked: Asked) -> Iterator[str]:
        """Where the ranks are, with function and line of each."""
        rank = asked.operands.get("RANK")
        for line in self._session.ask("where" if rank is None else f"where {rank}").accepted():
            node = self._node(int(line.split()[1]))
            stack = self._memory(node.rank, node.x[2], STACK) if node.x[2] < self._size else b""
            # Behind the call by which it has stopped there may be another function.
            call = node.pc - CALL if node.state in ("synced", *OVER) else node.pc
            place = self.names.place(node._replace(pc=call, stack=stack))
            told = f"{line} by the call at {named_views.behind(self.names, call)}" if node.state in OVER else self._with_names(line)
            yield told + ("" if place.startswith("pc ") else f": {place}")

    # What there was.

    def _place(self) -> Place:
        """Where all stands."""
        ticks = tuple(self._node(rank).ticks for rank in range(self._ranks))
        return Place(self._session.superstep(), ticks, self._session.ask("step 0 0").code == RefusalCode.OVER)

    def _machine(self) -> Machine:
        """A machine by which earlier places are found."""
        if self._past is None:
            self._past = Machine(self._command)
        return self._past

    def _teller(self) -> PastTeller:
        return PastTeller(self._machine(), self.names, self._place(), self._is_interrupted, further, "sent", BY_CTRL_C)

    def _wrote(self, asked: Asked) -> Iterator[str]:
        operands = asked.operands
        yield from self._teller().wrote(operands["RANK"], operands["ADDR"], asked.how_many)

    def _sent(self, asked: Asked) -> Iterator[str]:
        teller = self._teller()
        yield from teller.sent(asked.operands.get("K", teller.superstep), asked.operands.get("RANK"))


def further(rank: int, superstep: int, into: int) -> str:
    """How the bytes are asked for again where a search was given up. The lines lead there from the start, or from a state before it."""
    lines = [*([f"break superstep {superstep}", "go"] if superstep else []), *([f"step {rank} {into}"] if into else [])]
    return f"ask again there: {', '.join(lines)}, in a new session or from a state that was kept before {'it' if superstep else 'that'}"


def _tell(*lines: str) -> None:
    """Writes lines. Names come from a file, and are no commands to a terminal."""
    put("".join(printable(line) + "\n" for line in lines))


def _spelled(asked: Asked) -> str:
    """A line as the debugger takes it."""
    operands: List[object] = [*asked.words, *asked.operands.values()]
    if asked.verb == "step" and asked.operands and "COUNT" not in asked.operands:
        operands.append(1)
    return " ".join(map(str, [asked.verb, *operands]))
