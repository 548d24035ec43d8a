"""Finds how much stack a program needs after a stack overflow: builds it with more, and measures its use."""

from __future__ import annotations

import contextlib
import pathlib
import re
import subprocess

from .. import children
from ..files import content_of
from ..framed.replays import Replays, bytes_of
from ..limits import MOST_PROGRAM, PAGE
from ..outputs import output_records
from ..prepare import compilation, recorded_sources
from ..prepare.job import Job
from ..program.memory_need import size_text
from ..refusals import Refused

# What stands in a stack that was not used, in so many bytes at once, and a part more that is named than was used.
FILL, CHUNK, SPARE = 0xA5, 1 << 16, 8
UNIT = 1 << 16
# What NULL points to.
NULL_BYTES = 64
# For how long this may take.
MOST_SECONDS = 20
# What is said of such a program, and the part of it that is a guess.
TOO_DEEP, GUESS = "stack overflow: ", re.compile(r"give --stack \w+, of an ELF file to bspcc,")


def with_advice(job: Job, lines: list[str]) -> list[str]:
    """Lines of why a run did not end well, with what was measured in the place of a guess."""
    if not any(TOO_DEEP in it for it in lines):
        return lines
    found = advice(job)
    return [GUESS.sub(f"{found},", it) for it in lines] if found else lines


def advice(job: Job) -> str:
    """What to give where the stack of a job is too deep; nothing if that was not found."""
    top, rest = job.code.names.get("__stack_top", 0), job.code.need - job.code.names.get("__stack_top", 0)
    most = (job.options.memory - rest) * 3 // 4 // UNIT * UNIT
    with contextlib.suppress(children.TooLate, Refused, OSError, subprocess.SubprocessError), children.within(MOST_SECONDS):
        for room in dict.fromkeys(min(4 * top, most) if last else most for last in (True, False)):
            used = used_of(job, room) if room > top else None
            if used is not None:
                wanted = -(-(used + used // SPARE) // UNIT) * UNIT
                return f"the program uses {used} bytes of a larger one: give --stack {size_text(wanted)}{to_whom(job)}"
        return f"{size_text(most)} are not enough either: end the recursion" if most > top else ""
    return ""


def to_whom(job: Job) -> str:
    """Whom an option of the compiler is given to."""
    return "" if job.options.sources else " to bspcc"


def used_of(job: Job, room: int) -> int | None:
    """How many bytes of a stack with so much room are used by the rank that uses most; nothing if that does not suffice, or nobody knows."""
    with children.folder("bsprun") as folder:
        image = folder / "deep.elf"
        words = build_of(job, room, image)
        done = children.call(words, stdout=subprocess.DEVNULL, stderr=subprocess.DEVNULL) if words else None
        if done is None or done.returncode != 0:
            raise Refused("the program could not be built again")
        flags = output_records.WRITES_FILES | output_records.FILLED
        image.write_bytes(output_records.settings_in(content_of(image, MOST_PROGRAM), flags, FILL, b""))
        replays = Replays([*job.program, "debug", str(image), *job.settings[1:]], job.options.memory, job.options.nodes)
        found = lowest(replays, job.options.nodes, room)
        return room - found if found >= PAGE else None


def build_of(job: Job, room: int, image: pathlib.Path) -> list[str]:
    """The words that build the program of a job with so much room."""
    options = job.options
    if options.sources:
        words, _ = compilation.command(options, image, "-w", *compilation.looks(options))
        words[words.index("--stack") + 1] = str(room)
        return words
    units = recorded_sources.units_of(job.content)
    if not recorded_sources.sources_of(units) or recorded_sources.misfit(units):
        return []
    return recorded_sources.command([it._replace(words=with_room(it.words, room)) for it in units], image)


def with_room(words: list[str], room: int) -> list[str]:
    """Words with another room of the stack, where they name one."""
    return [str(room) if before == "--stack" else word for before, word in zip(["", *words], words)]


def lowest(replays: Replays, nodes: int, room: int) -> int:
    """The lowest address of a stack that was written, in any rank, but for what NULL points to."""
    found = room
    with replays.session() as session:
        session.ask("go")
        for rank in range(nodes):
            for start in range(NULL_BYTES, found, CHUNK):
                reply = session.ask(f"bytes {rank} {start} {min(CHUNK, found - start)}")
                left = bytes_of(reply.lines).lstrip(bytes([FILL])) if reply.is_done else b""
                if left:
                    found = start + min(CHUNK, found - start) - len(left)
                    break
    return found
