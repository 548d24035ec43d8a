#!/usr/bin/env python3
"""The profile of a run, from the debugger's replies alone, to compare with the one that `run --profile` writes.

Ticks and states are what `regs` shows at the end of each superstep's local part, and bytes are counted from the calls at which the ranks
stop.

Usage: tests/tools/plots/model.py [-n P] [--input FILE] [--limit COUNT] PROGRAM > PROFILE.csv
"""

from __future__ import annotations

import argparse
import csv
import os
import pathlib
import subprocess
import sys
import tempfile
from typing import Dict, List, Tuple

sys.dont_write_bytecode = True
REPO = pathlib.Path(__file__).resolve().parents[3]
sys.path.insert(0, str(REPO / "tools"))

from bsptools.framed.environment_calls import GETS, PUTS, REQUESTS, TAGSIZE, Call, Tracer  # noqa: E402
from bsptools.framed.replays import Replays  # noqa: E402
from bsptools.framed.session import Node, node_of  # noqa: E402
from bsptools.outputs import report  # noqa: E402
from bsptools.plot.profile import HEADER  # noqa: E402
from bsptools.program.code import kind_of, read_elf, read_text  # noqa: E402

MEMORY = 1 << 20
Bytes = Dict[Tuple[int, int], int]


def is_fault(call: Call, node: Node) -> bool:
    """Whether a call ended in the fault of its node."""
    return node.state.startswith("fault ") and (call.node.pc, call.node.ticks + 1) == (node.pc, node.ticks)


class Run:
    """A program with its settings, in the debugger."""

    def __init__(self, options: argparse.Namespace, folder: pathlib.Path) -> None:
        path = pathlib.Path(options.program).resolve()
        content = path.read_bytes()
        kind = kind_of(path, content)
        emulator = [os.environ.get("BSPEMU") or str(REPO / "bspemu")]
        given = ["--input", options.input] if options.input else []
        code = read_text(emulator, path.name, content, folder) if kind == "asm" else read_elf(content).know_names()
        units = ["--float"] if code.is_float else []
        words = [str(path), "--format", kind, "--nodes", str(options.nodes), "--limit", str(options.limit), *given, *units]
        self.nodes = options.nodes
        self.replays = Replays([*emulator, "debug", *words], MEMORY)
        self.trace = Tracer(code, self.replays)
        done = subprocess.run([*emulator, "run", *words, "--report"], capture_output=True, check=False)
        parted = report.part(done.stdout)
        assert parted is not None
        self.report = parted[1]
        self.tag_size = 0
        self.made = [0] * self.nodes

    def at_end(self, superstep: int) -> List[Node]:
        """The nodes at the end of a superstep's local part."""
        script = [*self.replays.begin(superstep), "phase", *(f"regs {rank}" for rank in range(self.nodes))]
        shown = [node_of(reply) for reply in self.replays.ask(script)[-self.nodes :]]
        nodes = [it for it in shown if it is not None]
        assert len(nodes) == self.nodes
        return nodes

    def superstep(self, superstep: report.Superstep) -> List[List[object]]:
        """The rows of a superstep."""
        nodes = self.at_end(superstep.number)
        moved: Bytes = {}
        messages, requests = [0] * self.nodes, [0] * self.nodes
        self.count(superstep.number, nodes, moved, messages, requests)
        if superstep.end != "turned":
            # What was asked for does not come about.
            moved, messages = {}, [0] * self.nodes
        rows: List[List[object]] = []
        for rank, node in enumerate(nodes):
            sent = sum(count for (one, to), count in moved.items() if one == rank != to)
            received = sum(count for (one, to), count in moved.items() if one != rank == to)
            state = "faulted" if node.state.startswith("fault ") else node.state
            done = [node.ticks - self.made[rank], sent, received, moved.get((rank, rank), 0), messages[rank], requests[rank]]
            rows.append([superstep.number, rank, "", *done, state])
            self.made[rank] = node.ticks
        rows += [[superstep.number, one, to, "", count, "", "", "", "", ""] for (one, to), count in sorted(moved.items()) if count]
        return rows

    def count(self, superstep: int, nodes: List[Node], moved: Bytes, messages: List[int], requests: List[int]) -> None:
        """Counts what the ranks asked for in a superstep, and takes the tag size for the next one."""
        next_size = self.tag_size
        for rank in range(self.nodes):
            numbers = (*REQUESTS, TAGSIZE)
            for call in self.trace.calls_in(rank, numbers, superstep):
                if is_fault(call, nodes[rank]):
                    continue
                if call.number == TAGSIZE:
                    next_size = self.word(rank, numbers, superstep, call)
                    continue
                requests[rank] += 1
                one, to, size = self.transfer(rank, call)
                moved[one, to] = moved.get((one, to), 0) + size
                if call.number not in (*PUTS, *GETS) and one != to:
                    messages[to] += 1
        self.tag_size = next_size

    def transfer(self, rank: int, call: Call) -> Tuple[int, int, int]:
        """From which rank to which a request moves bytes, and how many."""
        other = call.operand("pid")
        if call.number in PUTS:
            return rank, other, call.operand("nbytes")
        if call.number in GETS:
            return other, rank, call.operand("nbytes")
        return rank, other, call.operand("payload_nbytes") + self.tag_size

    def word(self, rank: int, numbers: Tuple[int, ...], superstep: int, call: Call) -> int:
        """The tag size that a call sets."""
        script = self.trace.up_to(rank, numbers, superstep, call)
        return int.from_bytes(self.replays.bytes(script, rank, call.node.x[10], 4), "little")


def main() -> None:
    """Writes the profile on standard output."""
    parser = argparse.ArgumentParser()
    parser.add_argument("-n", "--nodes", type=int, default=1)
    parser.add_argument("--input")
    parser.add_argument("--limit", type=int, default=1_000_000)
    parser.add_argument("program")
    with tempfile.TemporaryDirectory() as folder:
        run = Run(parser.parse_args(), pathlib.Path(folder))
        rows = csv.writer(sys.stdout, lineterminator="\n")
        rows.writerow(HEADER)
        for superstep in run.report.supersteps:
            rows.writerows(run.superstep(superstep))


main()
