"""Where the supersteps of a run end: the lines of the program's own source at which rank 0 calls bsp_sync."""

from __future__ import annotations

from ..framed.backtrace import MOST_FRAMES, frames, place, users_frames
from ..framed.replays import Replays, bytes_of
from ..framed.session import Node, node_of
from ..program.code import Code

# So many bytes of the stack are looked at.
STACK_BYTES = 1 << 10
END = "the end of the program"


def ends(code: Code, replays: Replays, count: int) -> list[str]:
    """The places at which rank 0 ended the first supersteps of a run, up to so many."""
    found: list[str] = []
    # What was found out of a node already: supersteps of a loop end alike.
    known: dict[object, str] = {}
    with replays.session() as session:
        stack_at = 0
        for superstep in range(count):
            lines = [*(["turn"] if superstep else []), "phase", "regs 0", f"bytes 0 {stack_at} {STACK_BYTES}"]
            *_, regs, stack = session.ask_all(lines)
            node = node_of(regs.accepted())
            if node is None:
                break
            if node.x[2] != stack_at and node.x[2] <= replays.memory - STACK_BYTES:
                stack_at = node.x[2]
                stack = session.ask(f"bytes 0 {stack_at} {STACK_BYTES}")
            shown = stack.data if stack_at == node.x[2] else b""
            key = (node.pc, node.state, node.x[1], node.x[2], shown)
            if key not in known:
                known[key] = end_of(code, node._replace(stack=bytes_of(shown.decode().split("\n"))))
            found.append(known[key])
    return found


def end_of(code: Code, node: Node) -> str:
    """The place at which a node ended a superstep: of the program's own source, or the functions that are known."""
    if node.state == "ended":
        return END
    known = users_frames(code, frames(code, node)[:MOST_FRAMES])
    return str(known[0]) if known else place(code, node)
