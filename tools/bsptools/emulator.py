"""Finds the emulator and the compiler, and runs the emulator while a person waits."""

from __future__ import annotations

import concurrent.futures
import contextlib
import functools
import os
import pathlib
import shutil
import signal
import subprocess
import sys
import tempfile
import time
from collections.abc import Callable

from . import VERSION, children, files
from .refusals import Refused, lines_of, show, tell

# Beside this package in a wheel: what the repository has at its top.
IN_WHEEL = pathlib.Path(__file__).resolve().parents[1] / "bspemu/share"
# The repository that this package is in, or what a wheel has of it.
REPO = IN_WHEEL if IN_WHEEL.exists() else pathlib.Path(__file__).resolve().parents[2]
QUIET_SECONDS = 2
# What names another repository to git than the folder does, as in a hook of that repository.
OF_GIT = ("GIT_DIR", "GIT_WORK_TREE", "GIT_INDEX_FILE", "GIT_COMMON_DIR", "GIT_OBJECT_DIRECTORY")


def program(name: str) -> str:
    """Where a program of the repository is: at its top; or, where this package was installed elsewhere, beside the tool or on the PATH."""
    if (REPO / "bspcc").exists():
        return str(REPO / name)
    beside = os.path.dirname(os.path.realpath(sys.argv[0]))
    path = shutil.which(name, path=os.pathsep.join([beside, os.environ.get("PATH", os.defpath)]))
    if path is None:
        raise Refused(f"{name} is missing: put bin of an installation of bspemu, or its repository, on the PATH")
    return path


def named() -> str:
    """The emulator that BSPEMU in the environment names, if it names one."""
    name = os.environ.get("BSPEMU", "")
    if name and shutil.which(name) is None:
        raise Refused(f"BSPEMU in the environment names {name}, which is not a program")
    return name


@functools.lru_cache(maxsize=None)
def emulator() -> str:
    """What runs are made with: what BSPEMU in the environment names, or the program that ./bspemu starts. That script looks at it once for
    all runs of a tool, and what it has to say of it is told. A path that is no text, which the program does not take as its name either, is
    given as that of a file which this process has open."""
    path = named() or which()
    if files.is_text(path):
        return path
    with open(shutil.which(path) or path, "rb") as file:
        is_script = file.read(2) == b"#!"
        return path if is_script else f"/proc/{os.getpid()}/fd/{os.dup(file.fileno())}"


def proved_program() -> str:
    """The program itself that runs are made with. ./bspemu is a script, which says what it starts."""
    path = os.path.realpath(shutil.which(named()) or "") if named() else ""
    return path if path and path != os.path.realpath(REPO / "bspemu") else which()


@functools.lru_cache(maxsize=None)
def which() -> str:
    """The path of the program that ./bspemu starts. What else that says is told."""
    path, lines = heard(program("bspemu"), "--which")
    tell(lines)
    return path


def heard(*words: str) -> tuple[str, list[str]]:
    """What a program writes on standard output, without the last line feed, and its lines on standard error; a refusal if it fails."""
    try:
        done = subprocess.run(words, stdin=subprocess.DEVNULL, capture_output=True, check=False)
    except OSError as error:
        raise Refused(f"{words[0]}: {error.strerror}") from error
    lines = lines_of(done.stderr)
    if done.returncode != 0:
        raise Refused(f"{words[0]} did not start: it ended with status {done.returncode}", *lines)
    return os.fsdecode(done.stdout).rstrip("\n"), lines


def said(*words: str) -> str:
    """What a program writes on standard output alone."""
    return heard(*words)[0]


def describing(folder: str | os.PathLike[str]) -> list[str]:
    """The words by which git says the commit of a checkout, whatever repository the environment names."""
    without = [it for name in OF_GIT for it in ("-u", name)]
    return ["env", *without, "git", "-C", os.fspath(folder), "describe", "--always", "--dirty", "--exclude=*"]


def version(name: str) -> list[str]:
    """Lines that say what a tool is, of which commit if that is known, and which emulator it starts, or why there is none."""
    commit = ""
    with contextlib.suppress(Refused, OSError):
        is_checkout = (REPO / ".git").exists()
        # scripts/install notes it where it is known.
        commit = ", commit " + (said(*describing(REPO)) if is_checkout else (REPO / "commit").read_text().strip())
    try:
        path = proved_program()
        told = [f"{said(emulator(), '--version')}: {known(path)}"]
    except Refused as refused:
        told = list(refused.args)
    return [f"{name} {VERSION}{commit}", *told]


def known(path: str) -> str:
    """What is known of the emulator at a path."""
    with contextlib.suppress(Refused):
        top = os.path.dirname(os.path.realpath(program("bspemu")))
        if path == f"{top}/prebuilt/bspemu":
            return f"the proved program, as the repository has it, by {pathlib.Path(top, 'prebuilt/kit').read_text().strip()}"
        if path == f"{top}/crates/bspemu/out/bspemu":
            return "the proved program, which was proved and built here"
    return f"{path}, whose origin is unknown"


class Runs:
    """Runs of the emulator beside one another and beside this process: as many at once as there are processors, in the order in which they
    were begun. At the end those are broken off that nobody has waited for."""

    def __init__(self) -> None:
        self._pool = concurrent.futures.ThreadPoolExecutor(len(os.sched_getaffinity(0)))
        self._begun: list[concurrent.futures.Future[subprocess.CompletedProcess[bytes]]] = []
        self._going: set[subprocess.Popen[bytes]] = set()
        self._is_over = False

    def __enter__(self) -> Runs:
        return self

    def __exit__(self, *_: object) -> None:
        self._is_over = True
        for it in self._begun:
            it.cancel()
        for child in list(self._going):
            if child.poll() is None:
                with contextlib.suppress(ProcessLookupError):
                    os.killpg(child.pid, signal.SIGKILL)
        children.shut_down(self._pool)

    def begin(self, words: list[str] | Callable[[], list[str]]) -> concurrent.futures.Future[subprocess.CompletedProcess[bytes]]:
        """Begins a run once there is a processor for it; its words are asked for then, if it is not these that are given."""
        self._begun.append(self._pool.submit(self._run, words))
        return self._begun[-1]

    def _run(self, asked: list[str] | Callable[[], list[str]]) -> subprocess.CompletedProcess[bytes]:
        words = asked() if callable(asked) else asked
        with tempfile.TemporaryFile() as stdout, tempfile.TemporaryFile() as stderr:
            with children.running(words, stdin=subprocess.DEVNULL, stdout=stdout, stderr=stderr) as child:
                self._going.add(child)
                # This may have begun as the others were ended.
                status = child.wait() if not self._is_over else -signal.SIGKILL
                self._going.discard(child)
            for file in stdout, stderr:
                file.seek(0)
            return subprocess.CompletedProcess(words, status, stdout.read(), stderr.read())


def run(words: list[str]) -> subprocess.CompletedProcess[bytes]:
    """Runs the emulator to its end. At a terminal the time is shown, so that one sees that a long run lives."""
    start = time.monotonic()
    with children.running(words, stdin=subprocess.DEVNULL, stdout=subprocess.PIPE, stderr=subprocess.PIPE) as child:
        try:
            while True:
                try:
                    stdout, stderr = child.communicate(timeout=1)
                    return subprocess.CompletedProcess(words, child.returncode, stdout, stderr)
                except subprocess.TimeoutExpired:
                    if (seconds := int(time.monotonic() - start)) >= QUIET_SECONDS:
                        show(f"bsprun: running, {seconds} s")
        finally:
            show("")
