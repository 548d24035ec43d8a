"""Steps of a rank, instruction by instruction, and what each has stored."""

from __future__ import annotations

from typing import Dict, Iterator, List, NamedTuple, Optional, Sequence, Set, Tuple, Union

from ..framed.environment_calls import GETTAG, MOVE, TAGSIZE
from ..framed.session import MOST_BATCH, Node, Shown
from ..program.memory_accesses import A0, A7, ECALL, NOTHING, Stored, stored
from .reversible_machine import Machine
from .run_places import Asked, Interrupted

QSIZE, READ = 13, 18
A1 = 11
WORD = 4
_ZEROS = (0,) * 32


class Step(NamedTuple):
    """An instruction that was made: the node before it, what it has stored, in that order, and the message that it has moved, counted
    from the last one of the queue."""

    node: Node
    stores: Tuple[Stored, ...]
    message: int = 0


class Message(NamedTuple):
    """A message that waits: how many bytes its tag and its payload have."""

    tag: int
    payload: int


class SingleSteps:
    """Takes a rank of a machine through a superstep. What the machine's other ranks do is none of its concern."""

    def __init__(self, machine: Machine, rank: int, must_break_off: Asked) -> None:
        self._machine, self._rank, self._must_break_off = machine, rank, must_break_off
        self._code: Dict[int, bytes] = {}
        # Where instructions stand that store nothing.
        self._quiet: Set[int] = set()
        self._queue = self._waiting()

    def begin(self, has_landed: bool) -> None:
        """A superstep has begun since, before which something may have landed in the rank's memory."""
        self._queue = self._waiting()
        if has_landed:
            self._code.clear()
            self._quiet.clear()

    def _waiting(self) -> List[Message]:
        return [_message_of(line) for line in self._machine.queue(self._rank)[1:]]

    def steps(self, count: int) -> Iterator[Step]:
        """The instructions that store something, of so many, or of fewer if the rank stops by itself."""
        node = self._machine.node(self._rank)
        before: Union[Node, Shown] = node
        while count > 0 and before.runs:
            if self._must_break_off():
                raise Interrupted
            for after in self._machine.trail(self._rank, min(count, MOST_BATCH // 2)):
                step = self.step(before, after)
                if step is not None:
                    yield step
                before = after
                count -= 1

    def step(self, before: Union[Node, Shown], after: Shown) -> Optional[Step]:
        """What an instruction of the rank has stored, if it has stored something."""
        if before.pc in self._quiet or not before.runs or after.has_failed:
            return None
        return self._step(before if isinstance(before, Node) else before.node, after)

    def code(self, pc: int) -> bytes:
        """The bytes of an instruction of the rank."""
        return self._machine.code_at(self._rank, pc, self._code)

    def _step(self, node: Node, after: Shown) -> Optional[Step]:
        code = self.code(node.pc)
        if stored(code, _ZEROS) == NOTHING:
            self._quiet.add(node.pc)
            return None
        if int.from_bytes(code, "little") == ECALL and node.x[A7] != TAGSIZE:
            return self._call(node, after.node)
        found = stored(code, node.x) or NOTHING
        for place in range(found.addr - 3, found.addr + found.length):
            self._code.pop(place, None)
            self._quiet.discard(place)
        return Step(node, (found,)) if found else None

    def _call(self, node: Node, after: Node) -> Optional[Step]:
        """What an environment call has stored."""
        stores, waiting = call_stores(node, after, self._queue), len(self._queue)
        if node.x[A7] == MOVE:
            self._queue = self._queue[1:]
        if not any(stores):
            return None
        self._code.clear()
        self._quiet.clear()
        return Step(node, stores, waiting if node.x[A7] in (MOVE, GETTAG) else 0)


def call_stores(node: Node, after: Node, queue: Sequence[Message]) -> Tuple[Stored, ...]:
    """What an environment call stores that was made without a fault."""
    number, first, second = node.x[A7], node.x[A0], node.x[A1]
    if number == QSIZE:
        return Stored(first, WORD), Stored(second, WORD)
    if number == GETTAG:
        return (Stored(first, WORD), *(Stored(second, it.tag) for it in queue[:1]))
    if number == MOVE:
        return tuple(Stored(first, min(second, it.payload)) for it in queue[:1])
    return (Stored(first, after.x[A0]),) if number == READ else ()


def _message_of(line: str) -> Message:
    """A message as a line of `queue` has it: `from R tag DIGITS payload DIGITS`, with `-` for no bytes."""
    sizes: List[int] = [0 if digits == "-" else len(digits) // 2 for digits in line.split()[3::2]]
    return Message(*sizes)
