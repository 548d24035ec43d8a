"""Checks: programs whose last line says how many of their parts passed, failed and were skipped."""

from __future__ import annotations

import contextlib
import os
import pathlib
import re
import subprocess
import sys
import tempfile
import threading
from dataclasses import dataclass, field
from typing import Callable, Dict, List, Mapping, Optional, Sequence, Tuple

from lanes import Lanes

LAST_LINE = re.compile(r"(\d+) passed, (\d+) failed(?:, (\d+) skipped)?")
# Of the tests of a crate, which the last line of the prover's run leaves out.
TESTS_LINE = re.compile(r"test result: ok\. (\d+) passed; .*")


@dataclass
class Tally:
    """How many parts passed, failed and were skipped."""

    passed: int = 0
    failed: int = 0
    skipped: int = 0

    def add(self, other: Tally) -> None:
        self.passed += other.passed
        self.failed += other.failed
        self.skipped += other.skipped

    def __str__(self) -> str:
        return f"{self.passed} passed, {self.failed} failed, {self.skipped} skipped"


@dataclass(frozen=True)
class Check:
    """A program of tests/ by a name for people. One that does not count its parts is one part, by its exit status."""

    name: str
    command: Sequence[str]
    counts: bool = True


@dataclass
class Done:
    """A check that was run, with the seconds that it took of processors."""

    check: Check
    tally: Tally
    processor_seconds: float


@dataclass
class Bench:
    """Runs checks at the repository's top, and keeps what they came to."""

    top: str
    done: List[Done] = field(default_factory=list)

    def run(
        self, check: Check, environment: Optional[Mapping[str, str]] = None, hear: Optional[Callable[[str], None]] = None
    ) -> Tally:
        """Runs a check, shows what it says, and counts it. Each of its lines is heard, if somebody is to hear it."""
        print(f"== {check.name}", flush=True)
        spent = processor_seconds()
        status, last, tests = shown(check.command, self.top, environment, hear)
        tally = counted(check, status, last)
        tally.passed += tests
        self.done.append(Done(check, tally, processor_seconds() - spent))
        return tally

    def run_all(self, checks: Sequence[Check]) -> None:
        """Runs them side by side, each begun in its turn as a lane is free, those behind one that failed too. What one says is shown when it
        is over."""
        with tempfile.TemporaryDirectory() as folder:
            beside = Beside(self.top, Lanes(pathlib.Path(folder)))
            try:
                for check in checks:
                    beside.start(check)
                beside.join()
            except BaseException:
                beside.stop()  # or they would go on behind a gate that has ended
                raise
            finally:
                self.done += sorted(beside.done, key=lambda it: checks.index(it.check))

    def total(self) -> Tally:
        """What all checks came to."""
        sum_of_all = Tally()
        for it in self.done:
            sum_of_all.add(it.tally)
        return sum_of_all


class Beside:
    """Checks that run side by side, each in a lane."""

    def __init__(self, top: str, lanes: Lanes) -> None:
        self.top, self.lanes = top, lanes
        self.done: List[Done] = []
        self._running: List[subprocess.Popen[str]] = []
        self._threads: List[threading.Thread] = []
        self._lock = threading.Lock()

    def start(self, check: Check) -> None:
        """Starts a check as soon as there is a lane for it."""
        self.lanes.take()
        process = started(check.command, self.top, self.lanes.environment())
        self._running.append(process)
        thread = threading.Thread(target=self._await, args=(check, process))
        thread.start()
        self._threads.append(thread)  # one that could not be started cannot be joined

    def join(self) -> None:
        """Waits until all are over."""
        for thread in self._threads:
            thread.join()

    def stop(self) -> None:
        """Ends all."""
        for process in self._running:
            if process.returncode is None:
                process.terminate()
        self.join()
        for process in self._running[len(self._threads) :]:
            process.wait()

    def _await(self, check: Check, process: subprocess.Popen[str]) -> None:
        """Waits for the end of a check, shows what it has said, and counts it."""
        assert process.stdout is not None
        said = process.stdout.read()
        spent = ended(process)
        self.lanes.give()
        with self._lock:
            print(f"== {check.name}, {spent:.0f} seconds of processors\n{said}", end="", flush=True)
            tally = counted(check, process.returncode, last_of(said))
            self.done.append(Done(check, tally, spent))


class Fed:
    """A check that runs beside another one, of which it is told by lines of its standard input. What it says is shown when it is over."""

    def __init__(self, bench: Bench, check: Check, environment: Mapping[str, str]) -> None:
        self.bench, self.check = bench, check
        self.said = tempfile.TemporaryFile("w+", errors="replace")  # pylint: disable=consider-using-with
        self.process: subprocess.Popen[str] = subprocess.Popen(
            check.command,
            cwd=bench.top,
            env={**os.environ, "PYTHONUNBUFFERED": "1", **environment},
            stdin=subprocess.PIPE,
            stdout=self.said,
            stderr=subprocess.STDOUT,
            text=True,
        )

    def tell(self, line: str) -> None:
        """Tells it a line."""
        assert self.process.stdin is not None
        with contextlib.suppress(BrokenPipeError):  # it has ended, which join() tells of
            self.process.stdin.write(f"{line}\n")
            self.process.stdin.flush()

    def join(self) -> Tally:
        """Tells it that there is no more, waits for its end, shows what it has said, and counts it."""
        assert self.process.stdin is not None
        with contextlib.suppress(BrokenPipeError):
            self.process.stdin.close()
        spent = ended(self.process)
        self.said.seek(0)
        said = self.said.read()
        self.said.close()
        print(f"== {self.check.name}, {spent:.0f} seconds of processors\n{said}", end="", flush=True)
        tally = counted(self.check, self.process.returncode, last_of(said))
        self.bench.done.append(Done(self.check, tally, spent))
        return tally

    def stop(self) -> None:
        """Ends it."""
        if self.process.returncode is None:
            self.process.terminate()
            self.process.wait()


def processor_seconds() -> float:
    """The seconds of processors that all processes took which this one has waited for."""
    spent = os.times()
    return spent.children_user + spent.children_system


def started(command: Sequence[str], top: str, environment: Optional[Mapping[str, str]]) -> subprocess.Popen[str]:
    """Starts a command whose output is read, with these variables besides."""
    given: Dict[str, str] = {**os.environ, "PYTHONUNBUFFERED": "1", **(environment or {})}
    return subprocess.Popen(
        command, cwd=top, env=given, stdin=subprocess.DEVNULL, stdout=subprocess.PIPE, stderr=subprocess.STDOUT, text=True, errors="replace"
    )


def ended(process: subprocess.Popen[str]) -> float:
    """Waits for the end of a process. Answers the seconds of processors that it took, with all that it waited for."""
    _, status, used = os.wait4(process.pid, 0)
    process.returncode = -os.WTERMSIG(status) if os.WIFSIGNALED(status) else os.WEXITSTATUS(status)
    return float(used.ru_utime + used.ru_stime)


def last_of(said: str) -> str:
    """The last line that is not empty."""
    return next((line.strip() for line in reversed(said.splitlines()) if line.strip()), "")


def shown(
    command: Sequence[str], top: str, environment: Optional[Mapping[str, str]], hear: Optional[Callable[[str], None]]
) -> Tuple[int, str, int]:
    """Runs a command, shows each of its lines at once, has it heard, and gives the command's status, its last line that is not empty, and
    how many tests of crates passed in it."""
    last, tests = "", 0
    with started(command, top, environment) as running:
        assert running.stdout is not None
        try:
            for line in running.stdout:
                sys.stdout.write(line)
                sys.stdout.flush()
                last = line.strip() or last
                if hear is not None:
                    hear(line)
                found = TESTS_LINE.match(line)
                tests += int(found[1]) if found else 0
        except BaseException:
            running.terminate()  # or it would go on behind a gate that has ended
            raise
    return running.returncode, last, tests


def counted(check: Check, status: int, last: str) -> Tally:
    """What a check came to by its status and its last line. One that ends badly and counts no failure is a failure."""
    if not check.counts:
        return Tally(passed=1) if status == 0 else failure(check, f"ended with status {status}")
    found = LAST_LINE.fullmatch(last)
    if found is None:
        return failure(check, f"ended with status {status}, and its last line counts nothing")
    tally = Tally(*(int(it or 0) for it in found.groups()))
    if (status != 0) != (tally.failed != 0):
        tally.add(failure(check, f"ended with status {status} and counted {tally.failed} failures"))
    elif tally == Tally():
        tally.add(failure(check, "tried nothing"))
    return tally


def failure(check: Check, why: str) -> Tally:
    """One failure, which is told."""
    print(f"tests/run: {check.name}: {why}", file=sys.stderr, flush=True)
    return Tally(failed=1)
