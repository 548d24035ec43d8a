"""The output and status of one start of the program, and whether the rules of the exit status allow them."""

from __future__ import annotations

import dataclasses
import re
from typing import Dict, Tuple

SETTINGS = ("BadNodes", "BadMemory", "BadLimit", "BadWorkers", "BadSlice")
FAULTS_OF_TEXTS = (
    "BadToken", "UnknownMnemonic", "BadOperand", "OutOfRange", "DuplicateLabel", "UndefinedLabel", "TooLarge",
)
FAULTS_OF_FILES = (
    "NotElf", "NotElf32Little", "NotExecutable", "NotRiscV", "BadHeader", "Truncated", "Dynamic", "BadSegment",
)
FAULTS_OF_STEPS = (
    "IllegalInstruction", "FetchOutside", "Misaligned", "LoadOutside", "StoreOutside", "Break", "UnknownCall", "BadRank",
    "RangeOutside", "NotRegistered", "TooMuch", "BadSize",
)

# The subcommands whose run may be refused for a setting, and the settings that each of them has.
SETTINGS_OF: Dict[str, Tuple[str, ...]] = {"run": SETTINGS, "debug": SETTINGS[:3], "list": (), "asm": ()}


def one_of(names: Tuple[str, ...]) -> str:
    """The pattern of one of these names, of which there may be none."""
    return f"(?:{'|'.join(names)})" if names else "(?!)"


# The lines on standard error of each status that has one.
LINES = {
    (subcommand, status): re.compile(f"bspemu: (?:{pattern})\n".encode(), re.DOTALL)
    for subcommand, settings in SETTINGS_OF.items()
    for status, pattern in {
        1: f"settings refused: {one_of(settings)}|too long|line [1-9][0-9]*: {one_of(FAULTS_OF_TEXTS)}"
        f"|image refused: {one_of(FAULTS_OF_FILES + ('SegmentOutside',))}",
        5: "no memory|no worker" if subcommand == "run" else "no memory",
        # A path is told as it is, with whatever characters it has.
        6: "cannot open .*|read failed|write failed",
    }.items()
}

# How the parser of the command line begins what it says of a fault: its own word, or the help where there are no words.
OF_THE_WORDS = (b"error: ", b"Emulator of a bulk synchronous parallel (BSP) machine")


@dataclasses.dataclass(frozen=True)
class Answer:
    """What a start of the program gave. A status below 0 is the signal that ended it."""

    subcommand: str
    command: str
    status: int
    stdout: bytes
    stderr: bytes

    @property
    def told(self) -> str:
        """What it says of an error, without the line's end."""
        return self.stderr.decode(errors="replace").rstrip("\n")

    def same_as(self, other: "Answer") -> bool:
        """Whether another start gave the same."""
        return (self.status, self.stdout, self.stderr) == (other.status, other.stdout, other.stderr)


def is_told_as_its_status(answer: Answer) -> bool:
    """Whether standard error has just what belongs to the status."""
    if answer.status in (0, 2, 3, 4):
        return answer.stderr == b""
    if answer.status == 1 and answer.stderr.startswith(OF_THE_WORDS):
        return True
    line = LINES.get((answer.subcommand, answer.status))
    return line is not None and line.fullmatch(answer.stderr) is not None


def fault_of(answer: Answer) -> str:
    """What is wrong with an answer by itself, whatever was asked for; empty if nothing is."""
    if not 0 <= answer.status <= 6:
        return f"the status is {answer.status}"
    if answer.status in (2, 3, 4) and answer.subcommand != "run":
        return f"the status is {answer.status} without a run"
    if not is_told_as_its_status(answer):
        return f"status {answer.status} comes with {answer.stderr[:200]!r} on standard error"
    if answer.status in (1, 5, 6) and answer.stdout and not may_have_begun(answer):
        return f"status {answer.status} comes with {answer.stdout[:200]!r} on standard output"
    if answer.subcommand == "asm" and answer.stdout and not answer.stdout.startswith(b"Assemble a text"):
        return f"standard output has {answer.stdout[:200]!r}"
    return ""


def may_have_begun(answer: Answer) -> bool:
    """Whether an error may come behind whole lines: in a listing for want of memory, and in replies of the debugger for a line
    that cannot be answered or read."""
    if not answer.stdout.endswith(b"\n"):
        return False
    if answer.subcommand == "list":
        return answer.status == 5
    return answer.subcommand == "debug" and (answer.status == 5 or answer.told == "bspemu: too long")
