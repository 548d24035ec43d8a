"""The answer to each of gdb's packets."""

from __future__ import annotations

import functools
import re
import time
from typing import Callable, Dict, List, Optional, Tuple

from ..reverse.reversible_machine import MOST_BREAKPOINTS, Machine
from . import gdb_terms, packet_numbers
from .catchpoints import addresses_of
from .monitor import Monitor, Typed
from .packets import INTERRUPT, PACKET_SIZE, Closed, Connection, escape, hexadecimal
from .reverse_steps import ReverseSteps
from .runner import Runner
from .stop_replies import Exit, Halt, Stop
from .watchpoints import KINDS, Watch

OK = b"OK"
# What the protocol has for a packet that is not known.
UNKNOWN = b""
BAD = b"E01"
READ_ONLY = b"E.memory and registers are read only"
FEATURES = (
    f"PacketSize={PACKET_SIZE:x};QStartNoAckMode+;qXfer:features:read+;qXfer:threads:read+;swbreak+;hwbreak+;vContSupported+"
    ";ReverseStep+;ReverseContinue+"
)
# Bytes of output that one packet shows, and of an answer to `monitor` that is one packet.
CHUNK, MOST_ANSWER = 4096, 1 << 20
# For how many seconds an interrupt stands that came after a stop was told. gdb goes on by itself after most steps, and at once.
LATE = 0.5

# Of how many bytes one watch may be, and how many watches there may be.
MOST_WATCHED, MOST_WATCHES = 4096, 64

_ACTION = re.compile(r"[cs]|[CS][0-9a-fA-F]{2}|r[0-9a-fA-F]+,[0-9a-fA-F]+")

Answer = Callable[[str], bytes]


class Stub:
    """Answers gdb's packets over a connection, until one ends the session. `typed` asks how often Ctrl-C was typed at gdb's terminal."""

    def __init__(self, connection: Connection, machine: Machine, typed: Typed) -> None:
        self._connection = connection
        self._machine = machine
        self._runner = Runner(machine, self._show, connection.is_interrupted)
        self._monitored = Monitor(self._runner, typed)
        self._current = 0
        self._resumed: Optional[int] = None
        self._halt: Halt = Stop(0, gdb_terms.TRAP)
        self._is_hardware: Dict[int, bool] = {}
        # Whether the last stop is that bytes were met which are watched, and those that are taken away for a step past that.
        self._is_met = False
        self._passed: List[Watch] = []
        self._over = ReverseSteps()
        self._is_over = False
        self._interrupted_at: Optional[float] = None
        self._exact = self._answers_to_words()
        self._beginning = self._answers_to_beginnings()

    def _answers_to_words(self) -> Dict[str, Answer]:
        """The answers to packets that are just these words."""
        return {
            "QStartNoAckMode": self._stop_acknowledging,
            "qfThreadInfo": lambda _: b"m" + b",".join(b"%x" % (rank + 1) for rank in range(self._machine.ranks)),
            "qsThreadInfo": lambda _: b"l",
            "qC": lambda _: b"QC%x" % (self._current + 1),
            "D": self._end,
            "vCont?": lambda _: b"vCont;c;C;s;S;r",
            "bs": self._step_back,
            "bc": self._go_back,
            "?": lambda _: self._told(self._halt),
            "g": lambda _: b"".join([*self._registers(), *self._floats()]),
        }

    def _answers_to_beginnings(self) -> Dict[str, Answer]:
        """The answers to packets that begin so, by what comes behind."""
        return {
            "qSupported": lambda _: FEATURES.encode(),
            "qAttached": lambda _: b"0",
            "qThreadExtraInfo,": lambda text: hexadecimal(self._state(self._rank(text))),
            "qXfer:": self._transfer,
            "qRcmd,": self._monitor,
            "vCont;": self._resume,
            "vKill;": self._end,
            "D;": self._end,
            "Hg": self._choose,
            "QBsp.Rank:": self._choose,
            "Hc": self._choose_resumed,
            "T": self._tell_of_thread,
            "p": self._read_register,
            "m": self._read_memory,
            "Z0,": lambda text: self._add_breakpoint(text, is_hardware=False),
            "Z1,": lambda text: self._add_breakpoint(text, is_hardware=True),
            **{f"Z{kind},": functools.partial(self._add_watch, kind=KINDS[kind]) for kind in KINDS},
            **{f"z{kind},": functools.partial(self._remove_watch, kind=KINDS[kind]) for kind in KINDS},
            "z0,": self._remove_breakpoint,
            "z1,": self._remove_breakpoint,
            "c": lambda text: self._resume_chosen("c", text),
            "C": lambda text: self._resume_chosen("c", text.partition(";")[2]),
            "s": lambda text: self._resume_chosen("s", text),
            "S": lambda text: self._resume_chosen("s", text.partition(";")[2]),
            **{name: lambda _: READ_ONLY for name in "GPMX"},
        }

    def serve(self) -> None:
        """Answers packets until gdb ends the session, or closes the connection once the run is over."""
        while not self._is_over:
            try:
                packet = self._connection.receive()
            except Closed:
                if isinstance(self._halt, Exit):
                    return
                raise
            if packet == b"k":
                return
            if packet == INTERRUPT:
                self._interrupted_at = time.monotonic()
                continue
            self._connection.send(self._answer(packet.decode("latin-1")))

    def _answer(self, packet: str) -> bytes:
        if packet not in ("bs", "bc"):
            self._over.note(packet)
        try:
            if packet in self._exact:
                return self._exact[packet]("")
            for beginning, answer in self._beginning.items():
                if packet.startswith(beginning):
                    return answer(packet[len(beginning) :])
        except (ValueError, IndexError):
            return BAD
        return UNKNOWN

    # The session.

    def _stop_acknowledging(self, _: str) -> bytes:
        self._connection.stop_acknowledging()
        return OK

    def _end(self, _: str) -> bytes:
        self._is_over = True
        return OK

    def _show(self, output: bytes) -> None:
        """Shows output on gdb's console, while it waits for a stop."""
        for start in range(0, len(output), CHUNK):
            self._connection.send(b"O" + hexadecimal(output[start : start + CHUNK]))

    def _monitor(self, text: str) -> bytes:
        """A command's output. The end of it is the reply: between output and a reply of its own Ctrl-C would have gdb leave that one unread,
        and take it for the next."""
        output = self._monitored.answer(bytes.fromhex(text).decode("utf-8", "replace"), self._current)
        self._show(output[:-MOST_ANSWER])
        return hexadecimal(output[-MOST_ANSWER:]) or OK

    def _transfer(self, text: str) -> bytes:
        """A part of a text: `OBJECT:read:ANNEX:OFFSET,LENGTH`."""
        kind, operation, annex, place = text.split(":")
        offset, length = packet_numbers.pair(place)
        if (kind, operation, annex) == ("features", "read", "target.xml"):
            whole = gdb_terms.target_description(self._machine.has_floats)
        elif (kind, operation, annex) == ("threads", "read", ""):
            whole = gdb_terms.thread_list(self._machine.superstep, (node.state for node in self._machine.nodes()))
        else:
            return UNKNOWN if operation != "read" else BAD
        data = whole.encode()
        return (b"m" if offset + length < len(data) else b"l") + escape(data[offset : offset + length])

    # What there is.

    def _state(self, rank: int) -> str:
        return f"{self._machine.node(rank).state}, superstep {self._machine.superstep}"

    def _rank(self, text: str) -> int:
        return packet_numbers.rank(text, self._machine.ranks)

    def _rank_or_all(self, text: str) -> Optional[int]:
        return packet_numbers.rank_or_all(text, self._machine.ranks)

    def _tell_of_thread(self, text: str) -> bytes:
        """Whether there is a thread."""
        self._rank(text)
        return OK

    def _choose(self, text: str) -> bytes:
        """Chooses the rank that is read."""
        chosen = self._rank_or_all(text)
        self._current = self._current if chosen is None else chosen
        return OK

    def _choose_resumed(self, text: str) -> bytes:
        """Chooses those that an old `c` or `s` resumes: one rank, or all of them."""
        self._resumed = self._rank_or_all(text)
        return OK

    def _registers(self) -> List[bytes]:
        """The registers and pc, by gdb's numbers."""
        node = self._machine.node(self._current)
        return [_register(it) for it in (*node.x, node.pc)]

    def _floats(self) -> List[bytes]:
        """The registers of floating point, whose numbers follow; none if the nodes have none."""
        if not self._machine.has_floats:
            return []
        floats = self._machine.floats(self._current)
        return [*(_double(it) for it in floats.f), *(_register(it) for it in (floats.fflags, floats.frm, floats.fcsr))]

    def _read_register(self, text: str) -> bytes:
        number = packet_numbers.number(text)
        return self._registers()[number] if number < gdb_terms.FIRST_FLOAT else self._floats()[number - gdb_terms.FIRST_FLOAT]

    def _read_memory(self, text: str) -> bytes:
        addr, length = packet_numbers.pair(text)
        data = self._machine.memory(self._current, addr, min(length, PACKET_SIZE // 2))
        return hexadecimal(data) if data or length == 0 else BAD

    # Going on.

    def _add_breakpoint(self, text: str, is_hardware: bool) -> bytes:
        addr = packet_numbers.address(text.split(",")[0])
        if addr >= self._machine.size:
            # No rank comes there, and it takes no room.
            return OK
        if len({addr, *self._runner.breakpoints, *addresses_of(self._runner.calls)}) > MOST_BREAKPOINTS:
            return b"E.too many breakpoints"
        self._runner.breakpoints.add(addr)
        self._over.put_in(addr)
        self._is_hardware[addr] = is_hardware
        return OK

    def _remove_breakpoint(self, text: str) -> bytes:
        addr = packet_numbers.address(text.split(",")[0])
        self._runner.breakpoints.discard(addr)
        self._over.take_away(addr)
        return OK

    def _add_watch(self, text: str, kind: str) -> bytes:
        """Bytes are watched of the rank that gdb looks at, since each has a memory of its own; or again of that of which they were."""
        addr, length = packet_numbers.pair(text)
        if addr + length > self._machine.size or length > MOST_WATCHED or len(self._runner.watches.all) >= MOST_WATCHES:
            return b"E.these bytes cannot be watched"
        again = [it for it in self._passed if it.is_of(kind, addr, length)]
        for it in again:
            self._passed.remove(it)
        self._runner.watches.all.append(again[0] if again else Watch(kind, self._current, addr, length))
        return OK

    def _remove_watch(self, text: str, kind: str) -> bytes:
        """If they have just been met, gdb takes them away only for a step."""
        addr, length = packet_numbers.pair(text)
        found = [it for it in self._runner.watches.all if it.is_of(kind, addr, length)]
        for it in found[-1:]:
            self._runner.watches.all.remove(it)
            self._passed += [it] if self._is_met else []
        return OK

    def _resume(self, text: str) -> bytes:
        """The actions of `vCont`, of which the first for a rank counts.

        A rank that is to step steps alone, whatever the others are told. One that alone is told to go on goes alone.
        """
        actions = [self._action(word) for word in text.split(";")]
        steps = [(kind, rank) for kind, rank in actions if kind[0] in "sSr"]
        kind, rank = (steps or actions)[0]
        if steps:
            return self._go_on(kind, self._current if rank is None else rank)
        return self._go_on(kind, rank if all(other is not None for _, other in actions) else None)

    def _action(self, word: str) -> Tuple[str, Optional[int]]:
        """An action of `vCont`, and the rank that it is for, if it is for one."""
        kind, _, thread = word.partition(":")
        if not _ACTION.fullmatch(kind):
            raise ValueError(word)
        return kind, self._rank_or_all(thread or "0")

    def _resume_chosen(self, action: str, addr: str) -> bytes:
        """An old `c` or `s`, which might name an address to go on at."""
        if addr:
            return READ_ONLY
        if action == "s":
            return self._go_on("s", self._current if self._resumed is None else self._resumed)
        return self._go_on("c", self._resumed)

    def _go_on(self, action: str, rank: Optional[int]) -> bytes:
        if self._is_interrupted_late():
            return self._tell(Stop(self._current, gdb_terms.INTERRUPTED))
        halt = self._runner.settle(self._current)
        return self._tell(halt if halt is not None else self._halt_of(action, rank))

    def _halt_of(self, action: str, rank: Optional[int]) -> Halt:
        """Goes on, up to the next stop."""
        self._forget_passed()
        if rank is None:
            return self._runner.go(self._current)
        if action[0] in "cC":
            return self._runner.go_alone(rank)
        return self._runner.step_range(rank, *packet_numbers.pair(action[1:])) if action[0] == "r" else self._runner.step(rank)

    def _forget_passed(self) -> None:
        """What gdb has not watched again as it goes on, it watches no more; but for the step for which it has taken them away."""
        if not self._is_met:
            self._passed.clear()

    def _step_back(self, _: str) -> bytes:
        self._forget_passed()
        rank = self._current if self._resumed is None else self._resumed
        if self._is_interrupted_late():
            return self._tell(Stop(rank, gdb_terms.INTERRUPTED))
        is_over = self._over.is_begun_at(self._machine.node(rank).pc, self._machine.place())
        return self._tell(self._runner.step_back(rank, is_over))

    def _go_back(self, _: str) -> bytes:
        """All ranks go back, or that which an old `c` would resume."""
        self._forget_passed()
        begun = self._over.end()
        if self._is_interrupted_late():
            return self._tell(Stop(self._current, gdb_terms.INTERRUPTED))
        return self._tell(self._runner.go_back(self._resumed, self._current, begun))

    def _is_interrupted_late(self) -> bool:
        """Whether an interrupt has come just after a stop was told, behind which gdb goes on by itself."""
        at, self._interrupted_at = self._interrupted_at, None
        return at is not None and time.monotonic() - at < LATE

    def _tell(self, halt: Halt) -> bytes:
        """The reply that tells gdb of a stop that is new."""
        self._halt = halt
        self._is_met = isinstance(halt, Stop) and halt.watch is not None
        if isinstance(halt, Stop):
            self._current = halt.rank
        return self._told(halt)

    def _told(self, halt: Halt) -> bytes:
        """The reply that tells gdb of a stop, with the registers that it would ask for."""
        if isinstance(halt, Exit):
            return b"W%02x" % halt.status
        node = self._machine.node(halt.rank)
        values = [*node.x, node.pc]
        parts = [b"%02x:%s" % (number, _register(values[number])) for number in gdb_terms.TOLD]
        parts.append(b"thread:%x" % (halt.rank + 1))
        if halt.is_breakpoint:
            parts.append(b"hwbreak:" if self._is_hardware.get(node.pc) else b"swbreak:")
        if halt.watch is not None:
            parts.append(b"%s:%x" % (halt.watch.kind.encode(), halt.watch.addr))
        if halt.is_begin:
            parts.append(b"replaylog:begin")
        return b"T%02x" % halt.signal + b"".join(part + b";" for part in parts)


def _register(value: int) -> bytes:
    """A register as the protocol spells it: in the target's order of bytes."""
    return hexadecimal(value.to_bytes(4, "little"))


def _double(pattern: int) -> bytes:
    """A register of floating point likewise."""
    return hexadecimal(pattern.to_bytes(8, "little"))
