"""The page in which a run is shown: the machine, a program, its sources and its input in one file of HTML.

What a program, its sources and its input have stands in the page as base64 alone, and the page asks a browser to run and to load nothing
but what it has itself.
"""

from __future__ import annotations

import base64
import gzip
import hashlib
import html
import json
import pathlib
import re
import struct
from typing import Any, Dict

from .. import VERSION, emulator, files
from ..files import content_of
from ..outputs.output_records import FILLED, PLACE, settings_in
from ..prepare.clock_rate import with_clock_rate
from ..prepare.job import Job
from ..program import elf
from ..refusals import Refused
from .debug_names import Names
from .recording import Room, record
from .stop_words import stop_words

# The files of the page, below the folder of the repository, and its scripts in the order in which they stand there.
FOLDER, MODULE, INTERFACE, PACKED = "web/stage", "prebuilt/bspemu.wasm", "web/bspemu.js", "web/page/packed.js"
SCRIPTS = "parts machine names values calls recorded boxes stops arrows listing costs view stage traffic words moves begin".split()
MOST_FILE = 1 << 24
# More nodes have no profile.
MOST_NODES = 1024
# How large a record is that has a page for itself, which has 8 MiB at most; and one that stands beside the machine.
LARGE, SMALL = Room(7_000_000, 2000, 100_000_000), Room(150_000, 60, 5_000_000)
# The bytes of ELF's header that name a table of sections: where it is, and how many there are.
SECTION_TABLE, SECTION_COUNT = 32, 46


def write(job: Job, path: str, command: str, folder: pathlib.Path, is_recorded: bool) -> None:
    """Writes the page of a job. The command that makes it is told in it. The folder is for what is made on the way."""
    files.write(path, page(job, command, folder, is_recorded))


def page(job: Job, command: str, folder: pathlib.Path, is_recorded: bool) -> str:
    """The text of the page, with the machine or with a recorded run."""
    if job.options.nodes > MOST_NODES:
        raise Refused(f"a page shows at most {MOST_NODES} nodes, and not {job.options.nodes}")
    known = program(job, command)
    data = {"PROGRAM": packed(json.dumps(known).encode()), "IMAGE": packed(image(job)), "INPUT": packed(job.bare or b"")}
    data["WASM"] = "" if is_recorded else packed(part(MODULE))
    data["BSPEMU"] = packed(part(INTERFACE))
    taken = record(job, folder, known["ecalls"], LARGE if is_recorded else SMALL)
    if is_recorded and taken is None:
        raise Refused("the run is too long for a record: leave --recorded out")
    data["RECORD"] = packed(json.dumps(taken).encode())
    style = part(f"{FOLDER}/stage.css").decode()
    script = "\n".join(part(it).decode() for it in (PACKED, *(f"{FOLDER}/{name}.js" for name in SCRIPTS)))
    data.update(STYLE=style, SCRIPT=script, STYLESUM=sum_of(style), SCRIPTSUM=sum_of(script), TITLE=html.escape(title(job)))
    return re.sub(r"/\*([A-Z]+)\*/", lambda it: data[it.group(1)], part(f"{FOLDER}/stage.html").decode())


def title(job: Job) -> str:
    """What the page is called."""
    return printable(pathlib.PurePath(job.options.program).name)


def program(job: Job, command: str) -> Dict[str, Any]:
    """What the page knows of the program, besides its bytes."""
    options = job.options
    settings = {name: getattr(options, name) for name in ("nodes", "memory", "limit", "g", "l", "large")}
    settings.update(format=job.kind, clock=True, float=job.code.is_float, atomic=job.code.is_atomic)
    shown = options.program if job.kind == "asm" or getattr(options, "sources", None) else ""
    block = front(job)
    return {
        "title": title(job),
        "command": printable(command),
        "version": VERSION,
        "settings": settings,
        "front": base64.b64encode(block).decode(),
        "isBspcc": PLACE in job.content,
        "words": stop_words(job),
        **Names(job.code).data(shown),
    }


def front(job: Job) -> bytes:
    """What stands before a program's input: its arguments and its files, as its library reads them."""
    if "--input" not in job.settings:
        return b""
    given = content_of(job.settings[job.settings.index("--input") + 1], 1 << 30)
    return given[: len(given) - len(job.bare or b"")]


def image(job: Job) -> bytes:
    """The program that runs in the page. Of an executable, all that is loaded."""
    content = settings_in(job.content, FILLED, job.options.fill, b"") if job.options.fill is not None else job.content
    content = with_clock_rate(content, job.options.rate)
    return loaded(content) if job.kind == "elf" else content


def loaded(content: bytes) -> bytes:
    """An executable without what is not loaded: symbols, and what it has for debuggers."""
    try:
        (start,) = struct.unpack_from("<I", content, 28)
        size, count = struct.unpack_from("<HH", content, 42)
        headers = [struct.unpack_from("<6I", content, start + i * size) for i in range(count)]
    except struct.error:
        return content
    ends = [offset + stored for kind, offset, _, _, stored, _ in headers if kind == elf.LOAD]
    short = bytearray(content[: max([*ends, start + size * count, elf.HEADER])])
    struct.pack_into("<I", short, SECTION_TABLE, 0)
    struct.pack_into("<3H", short, SECTION_COUNT, 0, 0, 0)
    return bytes(short)


def part(name: str) -> bytes:
    """A file of the repository that the page is made of."""
    path = emulator.REPO / name
    if not path.is_file():
        raise Refused(f"{name} is missing here, of which the page is made: install bspemu again, or take its repository")
    return content_of(path, MOST_FILE)


def packed(content: bytes) -> str:
    """Bytes as the page holds them."""
    return base64.b64encode(gzip.compress(content, 9, mtime=0)).decode()


def sum_of(content: str) -> str:
    """What a policy knows a script or a style by."""
    return "sha256-" + base64.b64encode(hashlib.sha256(content.encode()).digest()).decode()


def printable(text: str) -> str:
    """A name without what cannot be printed."""
    return "".join(it if it.isprintable() else it.encode("unicode_escape", "replace").decode() for it in text)
