"""Starts of the program on files of a folder; keeps the files of runs that break a rule."""

from __future__ import annotations

import os
import pathlib
import random
import resource
import shlex
import shutil
import signal
import subprocess
from typing import Dict, List, Optional, Tuple, TypeVar, Union

from fuzz import answers
from fuzz.answers import Answer

# Bytes of address space that each start may have, if not said otherwise. No run of the fuzzer comes near to it.
SPACE = 16 << 30
# A start that takes so long hangs, also on a busy host.
SECONDS = 600

Word = Union[str, bytes]
Choice = TypeVar("Choice")


def waited(child: int) -> int:
    """The status with which a process ends, or the signal below 0."""
    signal.signal(signal.SIGALRM, lambda *_: os.kill(child, signal.SIGKILL))
    signal.alarm(SECONDS)
    _, ended = os.waitpid(child, 0)
    signal.alarm(0)
    return os.WEXITSTATUS(ended) if os.WIFEXITED(ended) else -os.WTERMSIG(ended)


class Bench:
    """A folder in which the program is started, with one file for what it writes and one for what it tells."""

    def __init__(self, program: pathlib.Path, folder: pathlib.Path) -> None:
        self.program = str(program)
        self.folder = folder / "files"
        self.folder.mkdir()
        self.out, self.told, self.nothing = (
            os.open(path, os.O_RDWR | os.O_CREAT) for path in (folder / "out", folder / "told", pathlib.Path(os.devnull))
        )
        self.environment = {name: os.environ[name] for name in ("PATH",) if name in os.environ}
        self.statuses: Dict[int, int] = {}
        self.has_slice = False
        self.has_slice = "--slice" in self.start(["run", "--help"], "", 0).stdout.decode()
        self.statuses.clear()

    def __enter__(self) -> "Bench":
        self.space = resource.getrlimit(resource.RLIMIT_AS)
        resource.setrlimit(resource.RLIMIT_AS, (SPACE, self.space[1]))
        os.chdir(self.folder)
        return self

    def __exit__(self, *_: object) -> None:
        resource.setrlimit(resource.RLIMIT_AS, self.space)
        os.chdir("/")

    def clear(self) -> None:
        """Takes the files of the last run away."""
        for path in self.folder.iterdir():
            shutil.rmtree(path) if path.is_dir() else path.unlink()

    def start(self, words: List[Word], stdin: str, space: int) -> Answer:
        """Starts the program with these words, with a file as standard input, and with so much address space."""
        source = os.open(stdin, os.O_RDONLY) if stdin else self.nothing
        for descriptor in (self.out, self.told):
            os.ftruncate(descriptor, 0)
            os.lseek(descriptor, 0, os.SEEK_SET)
        status = self.limited(words, source, space) if space else self.spawned(words, source)
        if stdin:
            os.close(source)
        self.statuses[status] = self.statuses.get(status, 0) + 1
        stdout, stderr = (os.pread(file, os.fstat(file).st_size, 0) for file in (self.out, self.told))
        subcommand = os.fsdecode(words[0]) if words else ""
        return Answer(subcommand, self.line(words, stdin, space), status, stdout, stderr)

    def spawned(self, words: List[Word], source: int) -> int:
        """The status of a start. Without a shell or a copy of this process, since starts are what a run costs."""
        places = [(os.POSIX_SPAWN_DUP2, ours, theirs) for ours, theirs in ((source, 0), (self.out, 1), (self.told, 2))]
        return waited(os.posix_spawn(self.program, [self.program, *words], self.environment, file_actions=places))

    def limited(self, words: List[Word], source: int, space: int) -> int:
        """The status of a start with little address space."""
        child = subprocess.Popen(
            [self.program, *words],
            stdin=source,
            stdout=self.out,
            stderr=self.told,
            env=self.environment,
            preexec_fn=lambda: resource.setrlimit(resource.RLIMIT_AS, (space, space)),
        )
        child.returncode = waited(child.pid)
        return child.returncode

    def line(self, words: List[Word], stdin: str, space: int) -> str:
        """The line for a shell that makes this start in the folder of the files."""
        shown = " ".join(shlex.quote(os.fsdecode(word)) for word in [self.program, *words])
        return f"(ulimit -v {(space or SPACE) >> 10}; exec {shown} <{stdin or '/dev/null'})"


class Trial:
    """One run of the fuzzer: what it chooses, the files that it makes, the answers of the program, and what is wrong with them."""

    def __init__(self, bench: Bench, seed: int, number: int) -> None:
        self.bench = bench
        self.name = f"{seed}-{number}"
        self.random = random.Random(f"{seed} {number}")
        self.commands: List[str] = []
        self.faults: List[str] = []

    def file(self, name: str, content: bytes) -> str:
        """Makes a file, and gives its name."""
        with open(name, "wb") as made:
            made.write(content)
        return name

    def folder(self, name: str) -> None:
        """Makes a folder."""
        os.mkdir(name)

    def read(self, name: str) -> Optional[bytes]:
        """What a file has, if it is there."""
        try:
            with open(name, "rb") as file:
                return file.read()
        except FileNotFoundError:
            return None

    def run(self, *words: Word, stdin: str = "", space: int = 0) -> Answer:
        """Starts the program. What is wrong with its answer by itself is noted."""
        answer = self.bench.start(list(words), stdin, space)
        self.commands.append(answer.command)
        self.expect(answers.fault_of(answer))
        self.expect_that(answer.status != 5 or space > 0, "memory or a thread is refused, of which there is enough")
        return answer

    def expect(self, fault: str) -> None:
        """Notes a fault, which is empty if all is right."""
        if fault:
            self.faults.append(f"{fault}: {self.commands[-1]}")

    def expect_that(self, is_right: bool, fault: str) -> None:
        """Notes a fault if something is not right."""
        self.expect("" if is_right else fault)

    def one_in(self, count: int) -> bool:
        """True once in so many times."""
        return self.random.randrange(count) == 0

    def one_apart_in(self, count: int, name: str = "apart") -> bool:
        """True once in so many times, by a choice of its own name: what else is chosen does not depend on it."""
        return random.Random(f"{self.name} {name}").randrange(count) == 0

    def chosen(self, *choices: Tuple[int, Choice]) -> Choice:
        """One of some choices, each with its weight."""
        return self.random.choices([value for _, value in choices], [weight for weight, _ in choices])[0]

    def keep(self, folder: pathlib.Path) -> pathlib.Path:
        """Keeps the files of this run and its commands in a folder of their own."""
        kept = folder / self.name
        shutil.rmtree(kept, ignore_errors=True)
        shutil.copytree(self.bench.folder, kept)
        lines = ["#!/bin/sh", f"cd {shlex.quote(str(kept))} || exit", *self.commands]
        (kept / "commands").write_bytes(os.fsencode("\n".join(lines) + "\n"))
        return kept
