"""A program that is ready to run: compiled if necessary, with its settings and its input."""

from __future__ import annotations

import argparse
import os
import pathlib
import shutil
import sys
from collections.abc import Callable
from typing import TYPE_CHECKING, NamedTuple

from .. import emulator, limits
from ..files import content_of, is_here, is_text
from ..limits import NODES
from ..options import Parser
from ..outputs import output_records
from ..outputs.output_demux import marked
from ..program import elf, memory_need
from ..program.code import Code, kind_of, read_elf, read_text
from ..refusals import Refused, about, tell, typed
from .argument_block import MAGIC, block
from .clock_rate import with_clock_rate
from .compilation import compiled, looks, manner, take_sources
from .given_files import expect_fits, given_files

if TYPE_CHECKING:
    from ..framed.replays import Replays

# Functions that are in a program which may read its input; names that are in one which reads it and nothing else by them, the last of which
# is std::cin; and one that is where it opens files, with which some of the others come too.
READ = {"bsp_stdio_get", "read"}
READ_INPUT = {"scanf", "vscanf", "getchar", "_ZSt3cin"}
OPEN = "open"


class Job(NamedTuple):
    """A program that is ready to run: the words that start the emulator, the settings behind its verb, the file that is run and its kind,
    what is known of its code, the bytes of the image, what stands before all in its output that is none, whether standard input had
    something for it, and its input without what stands in front of that."""

    options: argparse.Namespace
    program: list[str]
    image: pathlib.Path
    kind: str
    code: Code
    settings: list[str]
    content: bytes
    mark: bytes
    is_typed: bool
    bare: bytes | None = None

    @property
    def is_for_gdb(self) -> bool:
        """Whether gdb takes it, which it does for the names and lines that it has."""
        return self.kind in ("elf", "asm")

    def replays(self, is_named: bool = True) -> Replays:
        """The same run, in the debugger, of which places are to be told where names are known."""
        from ..framed.replays import Replays

        if is_named:
            self.code.know_names()
        return Replays([*self.program, "debug", *self.settings], self.options.memory, self.options.nodes)

    def set(self, flags: int, fill: int | None, is_timed: bool = True) -> None:
        """Writes the image with settings for the program's library, with a byte of fresh memory if there is one. Runs that are compared
        read no time, which is that of one run."""
        flags |= output_records.RECORDS | (output_records.WRITES_FILES if self.options.out is not None else 0)
        flags |= output_records.FILLED if fill is not None else 0
        content = output_records.settings_in(self.content, flags, fill or 0, self.mark)
        self.image.write_bytes(with_clock_rate(content, self.options.rate) if is_timed else content)

    @property
    def can_be_given(self) -> bool:
        """Whether the program takes files."""
        return MAGIC in self.content

    def give(self, names: list[str], folder: pathlib.Path) -> None:
        """Gives the program more files."""
        self.options.found += names
        given = with_block(self.options, self.content, self.bare)
        with about(folder / "input"):
            (folder / "input").write_bytes(given or b"")
        if "--input" not in self.settings:
            self.settings.extend(["--input", str(folder / "input")])

    def give_nodes(self, count: int) -> None:
        """Has this job run on so many nodes."""
        self.options.nodes = count
        self.settings[self.settings.index("--nodes") + 1] = str(count)


def prepared(
    options: argparse.Namespace, folder: pathlib.Path, tool: str, is_marked: bool = False, beside: Callable[[argparse.Namespace, bytes], None] | None = None
) -> Job:
    """Finds out for a tool what the program is, and makes all files that its run wants. A job that is marked writes standard error apart.
    What goes beside the compiler begins as the sources of a program in C are known."""
    content = content_of(options.program, limits.of(options.large).program)
    kind = options.format or kind_of(pathlib.Path(options.program), content)
    emulate = [options.bspemu or emulator.emulator()]
    image = pathlib.Path(os.path.abspath(options.program))
    wanted = " ".join([*(["--check"] if options.check and not options.strict else []), *(options.compiled or [])])
    if wanted and kind != "c":
        instead = f"and {options.program} is compiled: give {wanted} to bspcc" if kind == "elf" else f"which {options.program} is not"
        raise Refused(f"{wanted} is for a program in C, {instead}")
    options.sources, options.is_warned = [], False
    if kind == "c":
        take_sources(options)
        if beside is not None:
            beside(options, b"")
        image = folder / "program.elf"
        said = compiled(options, image, *manner(options, tool))
        options.is_warned = bool(said)
        tell(said)
        content, kind = content_of(image, limits.of(options.large).program), "elf"
    elif kind == "elf" and elf.misfit(content):
        raise Refused(f"{options.program} {elf.misfit(content)}")
    elif getattr(options, "portable", False) or getattr(options, "order", None) is not None:
        expect_choices(options.program, content)
    elif kind == "elf" and beside is not None:
        beside(options, content)
    if kind == "asm":
        code = read_text(emulate, str(image), content, folder)
    elif kind == "raw":
        code = Code(segments=[(0, memoryview(content))], need=len(content))
    else:
        code = read_elf(content)
    code.is_float |= options.float
    code.is_atomic |= options.atomic
    memory_need.fit(code, options)
    memory_need.expect_room(code, options)
    given = given_input(options, content, tool)
    is_typed, bare = options.input is None and bool(given), given
    given = with_block(options, content, given)
    run, mark = marked(content, given or b"") if is_marked else (content, b"")
    if is_marked and options.out is not None and (not mark or output_records.PLACE not in content):
        if not options.is_here:
            raise Refused(f"{options.program} writes no files: it was not built by this bspcc")
        options.out = None
    if getattr(options, "fill", None) and not (mark and output_records.PLACE in content):
        raise Refused(f"{options.program} does not take --fill: it was not built by this bspcc")
    whole = with_clock_rate(run, options.rate)
    if mark or whole != content or not is_text(image):
        # The emulator takes no name that is no text.
        image = folder / "image"
        with about(image):
            image.write_bytes(whole)
    settings = [str(image), "--format", kind, "--nodes", str(options.nodes), "--memory", str(options.memory)]
    settings += ["--limit", str(options.limit), "--clock", "--g", str(options.g), "--l", str(options.l)]
    if code.is_float:
        settings.append("--float")
    if code.is_atomic:
        settings.append("--atomic")
    options.large |= limits.are_passed(options.nodes, options.memory)
    if options.large:
        settings.append(limits.OPTION)
    if given is not None:
        with about(folder / "input"):
            (folder / "input").write_bytes(given)
        settings += ["--input", str(folder / "input")]
    job = Job(options, emulate, image, kind, code, settings, run, mark, is_typed, bare)
    if mark:
        job.set(0, options.fill)
    return job


def expect_choices(name: str, content: bytes) -> None:
    """Refuses an image that takes no choices."""
    from .library_choices import MAGIC as CHOICES

    if CHOICES not in content:
        raise Refused(f"{name} cannot take the choices of --portable and --order: give a program in C, or what bspcc --portable built")


def given_input(options: argparse.Namespace, content: bytes, tool: str) -> bytes | None:
    """The input, if there is any. What is typed to bspgdb is for gdb."""
    if options.input is not None:
        return content_of(options.input, limits.of(options.large).given)
    return standard_input(options.program, content, limits.of(options.large).given) if tool == "bsprun" else None


def with_block(options: argparse.Namespace, content: bytes, given: bytes | None) -> bytes | None:
    """An input, with arguments and files in front of it if there are any."""
    if options.args or options.file or options.files or options.found:
        if MAGIC not in content:
            raise Refused(f"{options.program} takes no arguments and no files: it was not built by this bspcc")
        words = [os.fsencode(word) for word in [options.argv0 or options.program, *options.args]]
        contents = given_files(options)
        if options.found:
            from ..sealed_results import digest

            # What a file has may be something else by the end of the run.
            options.digests = {os.fsdecode(name): digest(content) for name, content in contents if os.fsdecode(name) in options.found}
        given = block(words, contents) + (given or b"")
    expect_fits(len(given or b""), limits.of(options.large).given)
    return given


def standard_input(name: str, content: bytes, most: int) -> bytes | None:
    """What standard input has for a program, which is left alone where the program links no function that reads. At a terminal it is typed;
    what may be another's than a program of bspcc gets nothing there."""
    names = elf.names(content) if MAGIC in content else set()
    is_typed = sys.stdin.isatty()
    reads = READ_INPUT if is_typed and OPEN in names else READ
    if not reads & names and (names or is_typed):
        return None
    if is_typed:
        tell([f"bsprun: {name} reads its input: type it, and then press Ctrl-D at the start of a line"])
    return sys.stdin.buffer.read(most + 1)


def words_of(job: Job, parser: Parser) -> list[str]:
    """The words of a command line that make the same job, with the options that each tool has that makes one run. What standard input had
    wants a file."""
    options = job.options
    words = ["-n", str(options.nodes)] if options.nodes != NODES else []
    words += ["--input", "FILE"] if job.is_typed else []
    for name in ("--input", "--argv0", "--limit", "--memory", "--stack", "--g", "--l", "--rate", "--format"):
        value = getattr(options, name.strip("-"))
        words += [name, str(value)] if value != parser.get_default(name.strip("-")) else []
    words += [it for name in [*options.file, *options.found] for it in ("--file", name)]
    words += [it for name in options.files for it in ("--files", name)]
    words += [option for option, is_given in ((limits.OPTION, options.large), ("--float", options.float), ("--atomic", options.atomic)) if is_given]
    words += [*looks(options), *(options.compiled or [])]
    named = [f"./{it}" if it.startswith("-") else it for it in (options.program, *options.sources[1:])]
    return [*words, *named, *options.args]


def gdb_line(job: Job, parser: Parser, commands: list[str]) -> str:
    """The command line of bspgdb that comes to a place by these commands of gdb."""
    tool = os.path.join(".", os.path.relpath(emulator.program("bspgdb"))) if is_here() else "./.."
    tool = tool if not tool.startswith("./..") else shutil.which("bspgdb") and "bspgdb" or emulator.program("bspgdb")
    return typed([tool, *words_of(job, parser), "--", *(it for command in commands for it in ("-ex", command))])
