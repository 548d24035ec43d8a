"""The command line of `bspgdb`: it starts gdb, serves gdb's protocol, or begins a dialogue."""

from __future__ import annotations

import argparse
import contextlib
import functools
import os
import pathlib
import shlex
import shutil
import signal
import subprocess
import sys
from typing import Iterator, List, Optional, Sequence

from .. import children, emulator, files, toolchain
from ..debug import server
from ..debug.awaited_pipes import awaited_pipe, is_pipe
from ..debug.packets import Closed, Connection
from ..debug.symbol_file import symbol_file
from ..dialogue import prompt
from ..framed.session import DebuggerEnded
from ..machines import Take
from ..options import Parser
from ..prepare.job import Job, prepared
from ..program import elf
from ..refusals import BY_SIGNAL, NO_MEMORY, Refused, about, tell

GDB = "gdb-multiarch"
SETTINGS = pathlib.Path(__file__).resolve().parents[1] / "debug/settings.gdb"
# Where gdb looks for what a distribution has for debuggers.
DEBUG_FILES = "/usr/lib/debug"
# How the bridge is started that gdb has at the other end of a pipe: behind this stand the file that has a byte for each Ctrl-C, and the
# debugger's command.
PIPE = "--pipe"
# The bytes that the name of a Unix socket has at most, and a folder for what lasts a while whose name is short.
MOST_SOCKET, SHORT = 107, "/tmp"
# The options that start something else than gdb.
WAYS = ("dialogue", "server", "tcp", "stdio")


def arguments(words: Sequence[str]) -> argparse.Namespace:
    """What a command line asks for. What stands behind `--` is for gdb."""
    end = words.index("--") if "--" in words else len(words)
    parser = Parser(
        "bspgdb",
        usage="bspgdb [-n P] [options] PROGRAM [ARGS..] [-- OPTIONS OF GDB]",
        description="Debugs a BSP program on P nodes with gdb, forwards and backwards.\n\n"
        "  bspgdb -n 4 FILE.c                       start gdb on FILE.c\n"
        "  bspgdb -n 4 FILE.c -- -ex 'break main'   give gdb options of its own\n"
        "  bspgdb -n 4 --dialogue FILE.s            use the debugger's own commands\n\n"
        "PROGRAM is a C program (.c), which bspgdb compiles first, an ELF file (compile it with -g), an assembly text (.s) or a raw image (.raw)."
        " In gdb, rank R is thread R + 1. `reverse-step`, `reverse-continue` and the like go back, and `monitor help` lists more commands."
        " docs/manual/gdb.md is the manual. The exit status is that of gdb.",
    )
    parser.section("the debugger")
    parser.add_argument("--dialogue", action="store_true", help="use the debugger's own commands instead of gdb, with a prompt, history, and"
        " names for addresses; type help there")  # fmt: skip
    # The old name of this option.
    parser.add_argument("--lines", dest="dialogue", action="store_true", help=argparse.SUPPRESS)
    parser.add_argument("--server", action="store_true", help="start no gdb: serve one session on a Unix socket that only you can reach, and"
        " print its path")  # fmt: skip
    parser.add_number("--tcp", what="a port", least=0, most=65535, metavar="PORT", help="like --server, but on this port of 127.0.0.1, which"
        " every user of this host can reach; 0 takes any free port")  # fmt: skip
    parser.add_argument("--stdio", action="store_true", help="like --server, but on standard input and output, for gdb's"
        " `target remote | bspgdb --stdio ..`")  # fmt: skip
    parser.add_argument("--order", metavar="CHOICES", help="debug one run of bsprun --portable: CHOICES is what its finding prints after `again`")
    parser.add_argument("--bspemu", metavar="PATH", help="use this emulator instead of the bspemu next to this tool")
    parser.add_program()
    parser.add_machine()
    parser.add_prices()
    parser.add_rate()
    parser.add_argument("--machine", action=Take, metavar="NAME", help="take nodes, prices and rate of a machine, as bsprun does")
    asked = parser.parse_args(words[:end])
    asked.check = asked.check or asked.strict
    asked.gdb_options = list(words[end + 1 :])
    ways = [f"--{it}" for it in WAYS if getattr(asked, it) not in (None, False)]
    if len(ways) > 1:
        raise Refused(f"{ways[0]} and {ways[1]} are two ways to debug: leave out one of them")
    if ways and asked.gdb_options:
        raise Refused(f"{ways[0]} starts no gdb: leave out everything after --")
    tell([f"bspgdb: {it} after PROGRAM is an argument of the program" for it in parser.own(list(words[:end]), asked.args)])
    return asked


def command(job: Job) -> List[str]:
    """The command that starts the debugger."""
    return [*job.program, "debug", *job.settings]


def main(words: Sequence[str]) -> int:
    """Does what the command line says. Answers the exit status."""
    if words[:1] == [PIPE]:
        return bridge(words[2:], pathlib.Path(words[1]))
    asked = arguments(words)
    with children.folder("bspgdb") as folder:
        job = prepared(asked, folder, "bspgdb")
        if asked.order is not None:
            from ..portable.orders import with_order

            job = with_order(job, folder)
        check(job)
        if not (asked.stdio or asked.dialogue or asked.server or asked.tcp is not None):
            return start_gdb(job, folder)
        with children.looking_for_signals():
            if asked.stdio:
                bridge(command(job))
            elif asked.dialogue:
                return talk(job)
            elif asked.tcp is not None:
                server.serve(command(job), server.Loopback(asked.tcp))
            else:
                with socket_folder(folder) as place:
                    server.serve(command(job), server.LocalSocket(place / "socket"))
    return 0


@contextlib.contextmanager
def socket_folder(folder: pathlib.Path) -> Iterator[pathlib.Path]:
    """A folder that none but this user may enter, and whose name is short enough for a socket: this one, or another one."""
    if len(os.fsencode(folder / "socket")) <= MOST_SOCKET:
        yield folder
    else:
        with children.folder("bspgdb", SHORT) as other:
            yield other


def talk(job: Job) -> int:
    """Makes a session of lines. Answers the exit status: the debugger's, if that was refused memory, which it says by itself."""
    try:
        prompt.talk(command(job))
    except DebuggerEnded as ended:
        if ended.status != NO_MEMORY:
            raise
        return NO_MEMORY
    return 0


def bridge(command: Sequence[str], typed: Optional[pathlib.Path] = None) -> int:
    """Makes a session at the other end of gdb's pipe. At a terminal Ctrl-C is for gdb, which closes the pipe if it is ended. But while it
    waits for an answer, it tells nothing of that: a file does, whose size is how often it was typed."""
    signal.signal(signal.SIGINT, signal.SIG_IGN)

    def count() -> int:
        return typed.stat().st_size if typed is not None and typed.exists() else 0

    if typed is not None:
        children.stop_by_signal(0)
        with about(number_file(typed)):
            number_file(typed).write_text(str(os.getpid()))
    with contextlib.suppress(Closed):
        server.make_session(command, Connection(0, 1), count if typed is not None else None)
    return 0


def number_file(typed: pathlib.Path) -> pathlib.Path:
    """The file beside this one in which the bridge says its process number."""
    return typed.with_name("bridge")


def tell_bridge(typed: pathlib.Path, number: int) -> None:
    """Sends the bridge a signal, if it is there, since gdb has put it where the terminal's signals do not come."""
    with contextlib.suppress(OSError, ValueError):
        process = int(number_file(typed).read_text())
        if os.fsencode(typed) in pathlib.Path(f"/proc/{process}/cmdline").read_bytes().split(b"\0"):
            os.kill(process, number)


def check(job: Job) -> None:
    """Lets the debugger look at the program and the settings, before anything waits for it. It says by itself what is wrong."""
    status = subprocess.run(command(job), stdin=subprocess.DEVNULL, check=False).returncode
    if status != 0:
        sys.exit(status)


def file_for_gdb(job: Job, folder: pathlib.Path) -> List[str]:
    """The file from which gdb takes names and lines, if there is one. Of a text one is made."""
    if job.kind != "asm":
        if job.kind == "elf":
            expect_ordinary_files(job)
        return [str(job.image)] if job.is_for_gdb else []
    content = symbol_file(job.code, job.options.program, job.content.decode(errors="surrogateescape"))
    path = folder / "symbols.elf"
    with about(path):
        path.write_bytes(content)
    return [str(path)] if content else []


def expect_ordinary_files(job: Job) -> None:
    """Refuses a program that names a pipe or a device as having more for debuggers, or a pipe as a source: gdb would wait for it, and not look
    at Ctrl-C. It does not wait for other sources: it reads no more of a device than its size, which is 0."""
    folder = os.path.dirname(os.path.realpath(job.image))
    named = [os.fsdecode(it) for it in elf.linked(job.content)]
    places = [folder, os.path.join(folder, ".debug"), f"{DEBUG_FILES}{folder}"]
    linked = [os.path.join(place, name) for name in named for place in places]
    files.expect_ordinary([*linked, *filter(is_pipe, elf.Debug(job.content).sources())], job.options.program)


def start_gdb(job: Job, folder: pathlib.Path) -> int:
    """Runs gdb on the program, with a bridge at the other end of a pipe, and takes down in a file how often Ctrl-C is typed. Answers gdb's exit
    status."""
    gdb = shutil.which(GDB) or toolchain.command(GDB)
    if not gdb:
        raise Refused(f"{GDB} is missing: install the package {GDB}, or run scripts/toolchain")
    typed = folder / "typed"
    pipe = shlex.join([emulator.program("bspgdb"), PIPE, str(typed), *command(job)])
    words = [gdb, "-q", "-x", str(SETTINGS), "-ex", f"target remote | {pipe}", *job.options.gdb_options, *file_for_gdb(job, folder)]

    def note() -> None:
        with contextlib.suppress(OSError), typed.open("ab") as file:
            file.write(b"C")

    def look(gdb: int) -> None:
        pipe = awaited_pipe(gdb)
        if pipe:
            told = f"gdb waited for the pipe {pipe}, and was ended: {job.options.program} or a file that came with it names this pipe"
            raise Refused(f"{told}; remove the pipe, and start bspgdb again")

    # gdb has a Python in it, which takes what is set for others, and would not start with what is wrong for it.
    environment = {name: it for name, it in os.environ.items() if not name.startswith("PYTHON")}
    status = children.at_terminal(words, note, functools.partial(tell_bridge, typed), look, environment)
    return status if status >= 0 else BY_SIGNAL - status
