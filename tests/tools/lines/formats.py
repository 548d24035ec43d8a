"""The formats of costs, each read by the program for which it is made.

If there is no such program, it is read by what its description says. The sums are those of the report.
"""

from __future__ import annotations

import json
import pathlib
import re
import subprocess
from typing import Any, Dict, List, Tuple

from checks import SECONDS

# What an event of Chrome's format has, by its phase: "X" for a complete event, and "M" for a name.
KEYS = {
    "X": {"ph": str, "pid": int, "tid": int, "name": str, "cat": str, "ts": int, "dur": int, "args": dict},
    "M": {"ph": str, "pid": int, "tid": int, "name": str, "args": dict},
}
STACK = re.compile(r"[^;\s][^;]*(?:;[^;\s]+)* [1-9][0-9]*")


def annotated(path: pathlib.Path) -> Tuple[List[int], Dict[str, List[int]]]:
    """The totals that callgrind_annotate finds, and the costs of functions with all that they call."""
    words = ["callgrind_annotate", "--threshold=100", "--auto=no", "--inclusive=yes", "--show-percs=no", str(path)]
    text = subprocess.run(words, capture_output=True, text=True, check=True, timeout=SECONDS).stdout
    rows = re.findall(r"(?m)^ *([\d,]+) +([\d,]+) +(?:(PROGRAM TOTALS)|\S+:(\S+))", text)
    found = {total or name: [int(it.replace(",", "")) for it in (paid, made)] for paid, made, total, name in rows}
    return found.pop("PROGRAM TOTALS"), found


def stacks(path: pathlib.Path) -> Dict[str, int]:
    """The lines of folded stacks; none if a line is none."""
    lines = path.read_text().splitlines()
    if not all(STACK.fullmatch(it) for it in lines):
        return {}
    parted = [it.rpartition(" ") for it in lines]
    return {stack: int(count) for stack, _, count in parted}


def events(path: pathlib.Path) -> List[Dict[str, Any]]:
    """The events of a trace; none if they are not as the format has them."""
    content = json.loads(path.read_text())
    found: List[Dict[str, Any]] = content["traceEvents"]
    for event in found:
        kinds = KEYS.get(event["ph"], {})
        if set(event) != set(kinds) or not all(isinstance(event[name], kind) for name, kind in kinds.items()):
            return []
    return found if content["displayTimeUnit"] in ("ms", "ns") else []


def time_of(found: List[Dict[str, Any]], rank: int) -> Tuple[int, Dict[str, int]]:
    """Where the track of a rank ends, and how long it is in each kind; the end is -1 if two events overlap or leave a gap."""
    at = 0
    sums: Dict[str, int] = {}
    for event in found:
        if event["ph"] == "X" and event["tid"] == rank:
            if event["ts"] != at or event["dur"] <= 0:
                return -1, {}
            at += event["dur"]
            sums[event["name"]] = sums.get(event["name"], 0) + event["dur"]
    return at, sums
