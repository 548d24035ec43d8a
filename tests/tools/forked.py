"""Runs of the tools in processes that have already loaded them.

Most of the time of a short run goes into starting Python and loading parts. A check that looks at what a tool tells, and not at how it
starts and ends, makes its runs so. One process, which has loaded the tools, is asked for a run over a socket, and splits off a child that
makes it, with the standard streams, the folder and the environment that it was given. All runs of a tool have the order of sets in common,
so that who looks for the same bytes twice starts it. The bridge that gdb starts at the other end of its pipe is split off, too, for a
process that stands in its place (`asking.py`). `tests/tools/guards`, but for its outputs, `starts`, `statuses` and `watched`, the pages and
the cases start the tools as people do.
"""

from __future__ import annotations

import array
import atexit
import contextlib
import functools
import gc
import importlib
import importlib.util
import io
import marshal
import os
import pathlib
import pkgutil
import select
import shlex
import signal
import socket
import subprocess
import sys
import tempfile
import threading
from typing import Dict, List, Mapping, NoReturn, Optional, Sequence, Tuple

REPO = pathlib.Path(__file__).resolve().parents[2]
# Each tool, with the packages whose parts it loads.
SHARED = ("program", "framed", "outputs", "prepare")
PACKAGES = {
    "bsprun": (*SHARED, "counts", "portable", "diagnosis", "run"),
    "bspplot": (*SHARED, "counts", "plot"),
    "bspsweep": (*SHARED, "sweep"),
    "bspgdb": (*SHARED, "reverse", "debug", "dialogue"),
}
# What a tool cannot be loaded without.
WANTED = {"bspplot": "matplotlib"}
# Of other people's, which one of the parts loads where it is wanted.
OTHERS = ("elftools.elf.elffile", "elftools.dwarf.dwarfinfo")
STREAMS = 3
# No number of a stream of the process is higher.
MOST_STREAMS = 1 << 10
LENGTH = 8
# The tool that has gdb start it once more, in the folder of such a process: a script, which asks that one.
BRIDGED, STARTER = "bspgdb", "#!/bin/sh\nexec "
# In the environment of a run, and so of what it starts: numbers of the tools' modules, as `bsptools.reverse.last_writers.MOST=99`.
NUMBERS = "BSPTOOLS_NUMBERS"
# Only what hangs takes so long, also on a busy machine.
SECONDS = 1800


class Server:
    """The process that has loaded the tools, as the check sees it."""

    def __init__(self, tools: Sequence[str]) -> None:
        self.folder = tempfile.TemporaryDirectory()  # pylint: disable=consider-using-with
        self.place = os.path.join(self.folder.name, "socket")
        words = [sys.executable, "-I", "-B", __file__, self.place, *tools]
        self.process = subprocess.Popen(words, stdin=subprocess.PIPE, stdout=subprocess.PIPE)  # pylint: disable=consider-using-with
        assert self.process.stdout is not None
        if not self.process.stdout.read(1):
            raise OSError("the process that loads the tools has ended")
        atexit.register(self.close)

    def close(self) -> None:
        """Ends it. Its input is at an end then."""
        self.process.communicate()
        self.folder.cleanup()

    def ask(self, asked: Mapping[str, object], streams: Sequence[int]) -> int:
        """The status of a run with these streams, or the signal that has ended it below 0."""
        text = marshal.dumps(dict(asked))
        with socket.socket(socket.AF_UNIX) as peer:
            peer.settimeout(SECONDS)
            peer.connect(self.place)
            rights = (socket.SOL_SOCKET, socket.SCM_RIGHTS, array.array("i", streams))
            peer.sendmsg([len(text).to_bytes(LENGTH, "big")], [rights])
            peer.sendall(text)
            return int(peer.makefile().readline())


LOCK = threading.Lock()


@functools.lru_cache(maxsize=None)
def server_of(tools: Tuple[str, ...]) -> Server:
    """The process that has loaded these tools."""
    return Server(tools)


def run(
    words: Sequence[str], given: str = "", cwd: Optional[pathlib.Path] = None, env: Optional[Mapping[str, str]] = None, merged: bool = False
) -> "subprocess.CompletedProcess[str]":
    """A run of a tool of the repository's top, as subprocess would make it. If it is asked for, both its streams are one. A tool that this
    Python cannot load is started."""
    name = pathlib.PurePath(words[0]).name
    if name not in PACKAGES or WANTED.get(name) and importlib.util.find_spec(WANTED[name]) is None:
        streams = {"stdout": subprocess.PIPE, "stderr": subprocess.STDOUT if merged else subprocess.PIPE}
        return subprocess.run(words, input=given, text=True, errors="replace", cwd=cwd, env=env, check=False, timeout=SECONDS, **streams)  # type: ignore[call-overload, no-any-return]
    with LOCK:
        server = server_of((name,))
    asked = {"name": name, "words": list(words[1:]), "folder": str(cwd or os.getcwd()), "environment": dict(env or os.environ)}
    with tempfile.TemporaryFile() as out, tempfile.TemporaryFile() as told:
        theirs, ours = os.pipe()
        writing = threading.Thread(target=write, args=(ours, given.encode()))
        writing.start()
        try:
            status = server.ask(asked, (theirs, out.fileno(), out.fileno() if merged else told.fileno()))
        finally:
            os.close(theirs)
            writing.join()
        texts = []
        for it in (out, told):
            it.seek(0)
            texts.append(io.TextIOWrapper(it, encoding="utf-8", errors="replace").read())
    return subprocess.CompletedProcess(words, status, *texts)


def write(pipe: int, given: bytes) -> None:
    """Writes what a run is given, as far as it is read."""
    with contextlib.suppress(BrokenPipeError), os.fdopen(pipe, "wb") as file:
        file.write(given)


# The process that has loaded the tools.


def load(tools: Sequence[str]) -> None:
    """Loads all parts of these tools, as each begins."""
    from bsptools import module_cache  # pylint: disable=import-outside-toplevel

    module_cache.keep()
    from bsptools import python_packages, start  # pylint: disable=import-outside-toplevel

    python_packages.borrow(python_packages.ELFTOOLS)
    # matplotlib takes its settings from the folder that it is imported in, as bspplot has it.
    os.chdir(REPO / "tools/bsptools/plot")
    for tool in tools:
        importlib.import_module(f"bsptools.{start.TOOLS[tool][0]}")
    for package in sorted({it for tool in tools for it in PACKAGES[tool]}):
        whole = importlib.import_module(f"bsptools.{package}")
        for part in pkgutil.iter_modules(whole.__path__, f"{whole.__name__}."):
            importlib.import_module(part.name)
    for other in OTHERS:
        with contextlib.suppress(ImportError):
            importlib.import_module(other)


def bridge_from_here(place: str) -> None:
    """Has the other end of gdb's pipe split off from this process, too."""
    from bsptools import emulator  # pylint: disable=import-outside-toplevel

    starter, asking, program = pathlib.Path(place).with_name(BRIDGED), pathlib.Path(__file__).with_name("asking.py"), emulator.program
    starter.write_text(STARTER + shlex.join([sys.executable, "-I", "-S", "-B", str(asking), place, BRIDGED]) + ' "$@"\n')
    starter.chmod(0o700)
    emulator.program = lambda name: str(starter) if name == BRIDGED else program(name)


def received(peer: socket.socket) -> Tuple[Dict[str, object], List[int]]:
    """What is asked for, and the streams."""
    streams = array.array("i")
    data, rights, _, _ = peer.recvmsg(LENGTH, socket.CMSG_SPACE(STREAMS * streams.itemsize))
    for _, _, numbers in rights:
        streams.frombytes(numbers)
    with peer.makefile("rb") as file:
        asked: Dict[str, object] = marshal.loads(file.read(int.from_bytes(data, "big")))
    return asked, list(streams)


def set_numbers() -> None:
    """Takes the numbers of the environment for those that the modules have: what is shown by few of something need not be made of many."""
    for it in os.environ.get(NUMBERS, "").split():
        name, _, value = it.partition("=")
        module, _, number = name.rpartition(".")
        setattr(importlib.import_module(module), number, int(value))


def make(peer: socket.socket) -> NoReturn:
    """Makes a run in this process, which is a child."""
    from bsptools import start  # pylint: disable=import-outside-toplevel

    status = 99
    try:
        signal.set_wakeup_fd(-1)
        signal.signal(signal.SIGCHLD, signal.SIG_DFL)
        asked, streams = received(peer)
        for number, stream in enumerate(streams):
            os.dup2(stream, number)
        os.closerange(STREAMS, MOST_STREAMS)
        os.chdir(str(asked["folder"]))
        os.environ.clear()
        os.environ.update(asked["environment"])  # type: ignore[call-overload]
        set_numbers()
        status = start.process(str(asked["name"]), [str(it) for it in asked["words"]])  # type: ignore[attr-defined]
        sys.stdout.flush()
        sys.stderr.flush()
    finally:
        os._exit(status)


def serve(place: str) -> None:
    """Makes the runs that are asked for, until standard input is at an end."""
    running: Dict[int, socket.socket] = {}
    woken, wakes = os.pipe()
    os.set_blocking(wakes, False)
    signal.set_wakeup_fd(wakes)
    signal.signal(signal.SIGCHLD, lambda *_: None)
    listener = socket.socket(socket.AF_UNIX)
    listener.bind(place)
    listener.listen(64)
    os.write(1, b".")
    # What is loaded stays, and is looked through by no run; nor is what a run makes, more often than by a tool that was started.
    gc.freeze()
    gc.set_threshold(50_000)
    while True:
        ready, _, _ = select.select([0, woken, listener], [], [])
        if 0 in ready:
            return
        if woken in ready:
            os.read(woken, 1 << 10)
            reap(running)
        if listener in ready:
            peer, _ = listener.accept()
            child = os.fork()
            if child == 0:
                make(peer)
            running[child] = peer


def reap(running: Dict[int, socket.socket]) -> None:
    """Tells of the runs that are over."""
    while running:
        child, status = os.waitpid(-1, os.WNOHANG)
        if child == 0:
            return
        with running.pop(child) as peer, contextlib.suppress(OSError):
            peer.sendall(b"%d\n" % (-os.WTERMSIG(status) if os.WIFSIGNALED(status) else os.WEXITSTATUS(status)))


if __name__ == "__main__":
    sys.path.insert(0, str(REPO / "tools"))
    load(sys.argv[2:])
    if BRIDGED in sys.argv[2:]:
        bridge_from_here(sys.argv[1])
    try:
        serve(sys.argv[1])
    except KeyboardInterrupt:  # by a Ctrl-C, which ends what asked for the runs, too
        sys.exit(130)
