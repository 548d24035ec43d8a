"""The environment calls that a rank makes, with their operands by name, and its registrations after them."""

from __future__ import annotations

from collections.abc import Iterable
from typing import NamedTuple

from ..program.code import Code
from .backtrace import place, written
from .replays import Replays
from .session import Node, signed

END, SYNC, PUSH, POP, PUT, GET, HPPUT, HPGET, TAGSIZE, SEND = 1, 4, 5, 6, 7, 8, 9, 10, 11, 12
QSIZE, GETTAG, MOVE, ABORT, WRITE = 13, 14, 15, 16, 17
PUTS, GETS = (PUT, HPPUT), (GET, HPGET)
REQUESTS = (*PUTS, *GETS, SEND)
CHANGES = (PUSH, POP)
TAKES = (GETTAG, MOVE)

# Each call's name, and its operands from a0 on; those whose name begins with * are addresses.
NAMES = {
    1: ("end", ()),
    2: ("bsp_nprocs", ()),
    3: ("bsp_pid", ()),
    4: ("bsp_sync", ()),
    5: ("bsp_push_reg", ("*ident", "size")),
    6: ("bsp_pop_reg", ("*ident",)),
    7: ("bsp_put", ("pid", "*src", "*dst", "offset", "nbytes")),
    8: ("bsp_get", ("pid", "*src", "offset", "*dst", "nbytes")),
    9: ("bsp_hpput", ("pid", "*src", "*dst", "offset", "nbytes")),
    10: ("bsp_hpget", ("pid", "*src", "offset", "*dst", "nbytes")),
    11: ("bsp_set_tagsize", ("*tag_nbytes",)),
    12: ("bsp_send", ("pid", "*tag", "*payload", "payload_nbytes")),
    13: ("bsp_qsize", ("*nmessages", "*accum_nbytes")),
    14: ("bsp_get_tag", ("*status", "*tag")),
    15: ("bsp_move", ("*payload", "reception_nbytes")),
    16: ("bsp_abort", ("*text", "nbytes")),
    17: ("write", ("*bytes", "count")),
    18: ("read", ("*bytes", "count")),
    19: ("bsp_time", ()),
}
# The library's functions that make the calls of which a trace is asked for.
FUNCTIONS: dict[int, tuple[str, ...]] = {**{number: (name,) for number, (name, _) in NAMES.items()}, WRITE: ("bsp_stdio_flush",)}
FUNCTIONS.update({it: (*FUNCTIONS[it], "bsp_hpmove") for it in TAKES})
# Other names of functions that make them.
ALSO = {PUSH: "bsp_pushregister", POP: "bsp_popregister", SEND: "bsp_hpsend"}
FUNCTIONS.update({number: (*FUNCTIONS[number], name) for number, name in ALSO.items()})


class Call(NamedTuple):
    """A call that a node is about to make: the node, and which stop of a trace this is, from 1 on; and its superstep, of a trace of one."""

    node: Node
    stop: int
    superstep: int | None = None

    @property
    def number(self) -> int:
        """The call's number, a7."""
        return self.node.x[17]

    def operand(self, name: str) -> int:
        """An operand by its name, as a whole number with a sign if it is no address."""
        names = NAMES[self.number][1]
        at = next(i for i, it in enumerate(names) if it.lstrip("*") == name)
        value = self.node.x[10 + at]
        return value if names[at].startswith("*") else signed(value)

    @property
    def area(self) -> int:
        """The address by which a put or a get names its area, or a push or a pop its own."""
        return self.operand({PUSH: "ident", POP: "ident"}.get(self.number, "dst" if self.number in PUTS else "src"))


def spelled(code: Code, node: Node) -> str:
    """The call that a node stands at, with its operands by name."""
    name, operands = NAMES.get(node.x[17], (f"call {node.x[17]}", ()))
    texts = []
    for i, operand in enumerate(operands):
        value = node.x[10 + i]
        texts.append(f"{operand[1:]} {written(code, value, node)}" if operand[0] == "*" else f"{operand} {signed(value)}")
    return f"{name}({', '.join(texts)})"


def read_by(node: Node) -> tuple[int, int]:
    """Address and number of the bytes that a call reads."""
    number, x = node.x[17], node.x
    if number in PUTS:
        return x[11], signed(x[14])
    return (x[12], signed(x[13])) if number == SEND else (x[10], signed(x[11])) if number == WRITE else (0, 0)


class Areas:
    """A rank's registrations, oldest first: address and size of each."""

    def __init__(self, entries: list[tuple[int, int]] | None = None) -> None:
        self.entries = [] if entries is None else entries

    def take(self, call: Call) -> None:
        """Replays a push or a pop."""
        if call.number == PUSH:
            self.entries.append((call.area, call.operand("size")))
        elif (at := self.position(call.area)) is not None:
            del self.entries[at]

    def position(self, address: int) -> int | None:
        """Where the last registration of an address stands."""
        return next((i for i in reversed(range(len(self.entries))) if self.entries[i][0] == address), None)

    def around(self, address: int) -> tuple[int, int] | None:
        """The area that an address lies in, behind its beginning."""
        return next((it for it in reversed(self.entries) if it[0] < address < it[0] + it[1]), None)


class Tracer:
    """Traces of a run: which calls a rank made, and where."""

    def __init__(self, code: Code, replays: Replays) -> None:
        self.code, self.replays = code, replays

    def sites(self, numbers: tuple[int, ...]) -> list[int]:
        """The addresses from which these calls are made."""
        return self.code.calls_of(*(name for it in numbers for name in FUNCTIONS[it]))

    def calls(self, rank: int, numbers: tuple[int, ...], superstep: int = 0) -> list[Call]:
        """The calls of these numbers that a rank made from the beginning of a superstep to the run's end."""
        return self._made(self.replays.begin(superstep), rank, numbers)

    def calls_in(self, rank: int, numbers: tuple[int, ...], superstep: int, beside: Iterable[int] = ()) -> list[Call]:
        """Those that it made in one superstep, from where the library makes them and from other addresses beside."""
        made = self._made([*self.replays.begin_for(rank, superstep), f"break superstep {superstep + 1}"], rank, numbers, beside)
        return [it._replace(superstep=superstep) for it in made]

    def _made(self, script: list[str], rank: int, numbers: tuple[int, ...], beside: Iterable[int] = ()) -> list[Call]:
        stops = self.replays.stops(script, rank, list(dict.fromkeys([*self.sites(numbers), *beside])))
        return [Call(node, i + 1) for i, node in enumerate(stops) if node.x[17] in numbers]

    def areas(self, rank: int, superstep: int) -> Areas:
        """A rank's registrations that are in effect in a superstep."""
        areas = Areas()
        for call in self._made([f"break superstep {superstep}"], rank, CHANGES) if superstep > 0 else ():
            areas.take(call)
        return areas

    def up_to(self, rank: int, numbers: tuple[int, ...], superstep: int, call: Call) -> list[str]:
        """A script that comes to a call that a trace of these numbers from this superstep on found."""
        points = [f"break {rank} {site}" for site in self.sites(numbers)[:1000]]
        return [*self.replays.begin(superstep), *points, *["go"] * call.stop]

    def node_of(self, rank: int, numbers: tuple[int, ...], superstep: int, call: Call) -> Node | None:
        """The node, with its stack, before a call that a trace of these numbers from this superstep on found."""
        if call.superstep is None:
            return self.replays.look(self.up_to(rank, numbers, superstep, call), rank)
        return self.replays.look_after(call.superstep, rank, call.node.ticks)

    def place_of(self, rank: int, numbers: tuple[int, ...], superstep: int, call: Call) -> str:
        """Where such a call stands."""
        node = self.node_of(rank, numbers, superstep, call)
        return place(self.code, node, is_call_told=True) if node else "a place that was not found"
