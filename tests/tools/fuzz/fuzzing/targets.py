"""Gives changed files to the tools' readers, by direct calls, and to the commands, each in its own process."""

from __future__ import annotations

import contextlib
import hashlib
import os
import pathlib
import random
import resource
import signal
import socket
import subprocess
import sys
import time
from dataclasses import dataclass
from typing import Callable, Dict, List, Optional, Sequence, Tuple

from bsptools import start
from bsptools.commands import bspgdb as _debug  # noqa: F401  pylint: disable=unused-import
from bsptools.commands import bsprun as _run  # noqa: F401  pylint: disable=unused-import
from bsptools.commands import bspsweep as _sweep  # noqa: F401  pylint: disable=unused-import
from bsptools.counts import step_counts
from bsptools.outputs import contested_bytes, exposed_ranges, report_formats
from bsptools.plot import plot_inputs, profile, sweep_table
from bsptools.plot.superstep_costs import Prices, total
from bsptools.program.code import read_elf, source_lines
from bsptools.refusals import Refused
from bsptools.sweep import sweep_job
from bsptools.sweep.result_store import Place

from fuzzing.mutations import mutated, patched

# What takes so long hangs: of processor time where something is computed, and else of the clock.
COMPUTING, SECONDS = 60, 600
SPACE = 4 << 30
# The statuses that the pages say, where there is memory and every file can be written: 1 of the tools, and of the emulator a program's
# outcome.
STATUSES = {"bspplot": {0, 1}, "bspsweep": {0, 1}, "bsprun": {0, 1, 2, 3, 4}, "bspgdb": {0, 1, 2, 3, 4}}
# What bspplot is asked for, and the file for it.
WANTED = [
    ("--html", "made.html"), ("--costs", "made.svg"), ("--timeline", "made.png"), ("--sweep", "made.pdf"), ("--lines", "made.svg"),
    ("--source", "made.html"),
]  # fmt: skip
# None of these may be told.
MISTAKES = (b"Traceback", b"this is a mistake of", b"Exception ignored", b"Fatal Python error")
PACKETS = [
    b"?", b"g", b"m0,4", b"m0,ffffffff", b"p0", b"c", b"s", b"bs", b"bc", b"Hc1", b"vCont?", b"vCont;c", b"vCont;s:1", b"Hg1", b"Hgffffffff",
    b"qSupported:xmlRegisters=i386", b"qXfer:features:read:target.xml:0,ffb", b"qXfer:threads:read::0,1000", b"qfThreadInfo",
    b"T2", b"T0", b"Z0,0,4", b"Z1,100,2", b"z0,0,4", b"qRcmd,636f737473", b"qRcmd,zz", b"D", b"QStartNoAckMode", b"X0,0:",
    b"M0,1:00", b"P0=00000000", b"R00", b"vRun;", b"H", b"Z", b"m", b"\x03",
]  # fmt: skip


@dataclass(frozen=True)
class Bases:
    """The files that are changed, by their kinds, and a program that stops by itself, with names and lines if it could be compiled."""

    profiles: List[bytes]
    reports: List[bytes]
    tables: List[bytes]
    listings: List[bytes]
    counts: bytes
    contested: bytes
    exposed: bytes
    image: bytes
    records: List[bytes]
    key: str


@dataclass
class Trial:
    """One try: its chance, the files to change, and a folder that is empty."""

    chance: random.Random
    bases: Bases
    folder: pathlib.Path

    def source(self) -> bytes:
        """A changed file of those that bspplot draws."""
        of_kind = self.chance.choice([self.bases.profiles, self.bases.reports, self.bases.tables, self.bases.listings])
        return mutated(self.chance.choice(of_kind), self.chance)

    def read_source(self) -> str:
        """bspplot's readers, and what is counted before anything is drawn."""
        content = self.source()
        (self.folder / "source").write_bytes(content)
        return quietly(lambda: counted(content))

    def read_counts(self) -> str:
        """The counts of a run, which are told as those of its report alone."""
        (self.folder / "counts").write_bytes(mutated(self.bases.counts, self.chance))
        return quietly(lambda: compared(self.folder / "counts", self.bases.reports[0]))

    def read_contested(self) -> str:
        """What is contested in a run, which is told as that of a run of two nodes and three supersteps alone."""
        (self.folder / "contested").write_bytes(mutated(self.bases.contested, self.chance))
        return quietly(lambda: contested_bytes.read(self.folder / "contested", 2, 2))

    def read_exposed(self) -> str:
        """What is exposed in a run, told in the same way."""
        (self.folder / "exposed").write_bytes(mutated(self.bases.exposed, self.chance))
        return quietly(lambda: exposed_ranges.read(self.folder / "exposed", 2, 2))

    def read_record(self) -> str:
        """What a sweep keeps: a changed record counts as not made."""
        place = Place(self.folder / self.bases.key)
        place.folder.mkdir()
        for name, content in zip(("run.json", "job.json"), self.bases.records):
            (place.folder / name).write_bytes(mutated(content, self.chance))
        before = (place.folder / "run.json").read_bytes()
        fault = quietly(lambda: sweep_job.described(place))
        found = place.found()
        if found is not None and b"".join(before.split()) != b"".join(self.bases.records[0].split()) and found != self.original():
            fault = fault or "a record is taken that was changed"
        return fault

    def original(self) -> object:
        """The record before it was changed."""
        place = Place(self.folder / self.bases.key)
        (place.folder / "whole.json").write_bytes(self.bases.records[0])
        return place.found("whole")

    def read_image(self) -> str:
        """The names and lines of a changed executable."""
        content = patched(self.bases.image, self.chance)
        (self.folder / "p.elf").write_bytes(content)
        return quietly(lambda: named(content, self.chance))

    def draw(self) -> str:
        """bspplot on a changed file."""
        (self.folder / "source").write_bytes(self.source())
        most = str((1 << 64) - 1)
        settings: List[List[str]] = [[], [], ["--g", most, "--l", most], ["--h", "all"]]
        what = self.chance.choice(WANTED)
        return self.command("bspplot", [*self.chance.choice(settings), *what, "source"], [what[1]])

    def run_image(self) -> str:
        """bsprun on a changed executable, which names where it stopped."""
        (self.folder / "p.elf").write_bytes(patched(self.bases.image, self.chance))
        words = ["--limit", "100000", "-n", "2", "--report", "made.csv", "--summary", "--lines-as", "json=made.json", "--fold", "p.elf"]
        return self.command("bsprun", words, ["made.csv", "made.json"])

    def sweep(self) -> str:
        """bspsweep on a folder of results that was changed."""
        (self.folder / "p.s").write_text("li a7, 1\necall\n")
        words = ["--engine", "plain", "--folder", "kept", "-o", "made.csv", "p.s"]
        fault = self.command("bspsweep", words, ["made.csv", "kept"])
        for path in sorted(it for it in (self.folder / "kept").rglob("*") if it.is_file()):
            if self.chance.random() < 0.6:
                path.write_bytes(mutated(path.read_bytes(), self.chance))
        before = (self.folder / "made.csv").read_bytes()
        fault = fault or ("" if b",ended\n" in before else "the run was not made")
        fault = fault or self.command("bspsweep", words, ["made.csv", "kept"])
        return fault or ("" if (self.folder / "made.csv").read_bytes() == before else "another table")

    def packets(self) -> str:
        """Changed packets to the server of bspgdb."""
        (self.folder / "p.s").write_text("li a0, 0\nlw a0, -1(zero)\n")
        payloads = [self.chance.choice(PACKETS) for _ in range(12)]
        payloads = [mutated(it, self.chance)[:4000] if self.chance.random() < 0.5 else it for it in payloads]
        data = b"".join(it if it == b"\x03" else b"$%s#%02x" % (it, sum(it) % 256) for it in payloads)
        words = ["--tcp", "0", "--format", "asm", "-n", "2", "--limit", "1000", "p.s"]
        return self.command("bspgdb", words, [], lambda told, is_over: talk(told, data, is_over))

    def command(self, name: str, words: Sequence[str], made: Sequence[str], beside: Optional[Callable[..., None]] = None) -> str:
        """A command in a process of its own, which has all modules; what is wrong with its end, or nothing. `made` are the files and
        folders that it may write."""
        before = listed(self.folder, made)
        told = self.folder.parent / "told"
        status = forked(name, words, self.folder, told, beside)
        said = told.read_bytes()
        with open(self.folder.parent / "commands", "a", encoding="utf-8") as commands:
            print(name, *words, file=commands)
        if status not in STATUSES[name]:
            return f"{name} ended with status {status}: {said[-300:]!r}"
        if any(it in said for it in MISTAKES):
            return f"{name} told {said[-300:]!r}"
        touched = set(listed(self.folder, made).items()) ^ set(before.items())
        return f"{name} touched {touched}" if touched else ""


def counted(content: bytes) -> None:
    """Reads a source, and counts what pictures show of it."""
    for reading in profile.Reading:
        found = plot_inputs.understood("source", content, reading)
        if found.profile:
            total(found.costs, Prices(1 << 63, 1 << 63))
            assert all(it.balance <= 1 for it in found.profile.supersteps)
        if found.rows:
            lines = sweep_table.lines(found.rows)
            sweep_table.labels(lines)
            sweep_table.crossings(lines)
            assert all(line.efficiency(nodes) >= 0 for line in lines for nodes in line.totals)


def compared(path: pathlib.Path, content: bytes) -> None:
    """Reads counts, and compares them with the report."""
    told = report_formats.read(content)
    assert told is not None
    found = step_counts.read(path, 2, told)
    assert [it.w for it in found.supersteps] == [it.costs["w"] for it in told.supersteps]
    assert sum(found.paid().values()) == sum(it.w for it in found.supersteps)


def named(content: bytes, chance: random.Random) -> None:
    """Reads an executable, and looks up some addresses."""
    code = read_elf(content).know_names()
    places = [0, 4, 1 << 31, (1 << 32) - 1]
    places += [start + 2 * chance.randrange(30) for start, *_ in chance.sample(code.functions, min(3, len(code.functions)))]
    for address in places:
        source_lines(code, address)
        code.name_at(address)
        code.variable(address)
        code.stored(address)
    code.calls()
    if code.debug:
        code.debug.pieces()


def quietly(call: Callable[[], object]) -> str:
    """Calls a reader, which may refuse; what is wrong, or nothing."""

    def late(*_: object) -> None:
        raise TimeoutError(f"it takes more than {COMPUTING} seconds")

    signal.signal(signal.SIGPROF, late)
    signal.setitimer(signal.ITIMER_PROF, COMPUTING)
    try:
        call()
    except Refused as refused:
        return "" if str(refused) else "it is refused without a line"
    except Exception as error:  # pylint: disable=broad-except
        return f"{type(error).__name__}: {str(error)[:300]}"
    finally:
        signal.setitimer(signal.ITIMER_PROF, 0)
    return ""


def listed(folder: pathlib.Path, made: Sequence[str]) -> Dict[str, Tuple[int, str]]:
    """The mode and digest of each file but those that may be made."""
    found = {}
    for path in folder.rglob("*"):
        name = path.relative_to(folder)
        if name.parts[0] not in made:
            content = path.read_bytes() if path.is_file() else b""
            found[str(name)] = path.lstat().st_mode, hashlib.sha256(content).hexdigest()
    return found


def forked(name: str, words: Sequence[str], folder: pathlib.Path, told: pathlib.Path, beside: Optional[Callable[..., None]]) -> int:
    """Makes a tool's run in a child, which has loaded all of it already. The status, or the signal below 0."""
    told.write_bytes(b"")
    child = os.fork()
    if child == 0:
        status = 99
        try:
            os.setpgid(0, 0)
            os.chdir(folder)
            resource.setrlimit(resource.RLIMIT_AS, (SPACE, SPACE))
            resource.setrlimit(resource.RLIMIT_CPU, (COMPUTING, COMPUTING))
            streams = ((os.devnull, os.O_RDONLY), (os.devnull, os.O_WRONLY), (str(told), os.O_WRONLY | os.O_APPEND))
            for number, (path, mode) in enumerate(streams):
                os.dup2(os.open(path, mode), number)
            status = start.main(name, list(words))
            sys.stderr.flush()
        finally:
            os._exit(status)
    begun = time.monotonic()
    ended: List[int] = []

    def is_over() -> bool:
        if not ended:
            if time.monotonic() - begun > SECONDS:
                os.killpg(child, signal.SIGKILL)
            found, status = os.waitpid(child, os.WNOHANG)
            ended.extend([status] * (found == child))
        return bool(ended)

    if beside is not None:
        beside(told, is_over)
    while not is_over():
        time.sleep(0.005)
    return os.WEXITSTATUS(ended[0]) if os.WIFEXITED(ended[0]) else -os.WTERMSIG(ended[0])


def talk(told: pathlib.Path, data: bytes, is_over: Callable[[], bool]) -> None:
    """Sends bytes to the server that says its port in a file, hangs up once nothing more comes, and ends it in a session of its own."""
    while b"remote 127.0.0.1:" not in told.read_bytes() or not told.read_bytes().endswith(b"\n"):
        if is_over():
            return
        time.sleep(0.005)
    port = int(told.read_bytes().rpartition(b":")[2])
    with socket.create_connection(("127.0.0.1", port)) as peer:
        peer.settimeout(0.3)
        try:
            peer.sendall(data)
            while peer.recv(1 << 16):
                peer.sendall(b"+")
        except OSError:
            pass
    while not is_over():
        with contextlib.suppress(OSError), socket.create_connection(("127.0.0.1", port)) as peer:
            peer.sendall(b"$k#6b")
        time.sleep(0.05)


def compiled(folder: pathlib.Path, repo: pathlib.Path) -> bytes:
    """A program in C with names and lines, whose rank 1 stops."""
    source = folder / "p.c"
    source.write_text(
        "#include <bsp.h>\nstruct point { int x, y; };\nstatic struct point points[4];\n"
        "static inline int sum(struct point *it) { return it->x + it->y; }\n"
        "static int deep(int n) { return n > 0 ? deep(n - 1) + sum(&points[n & 3]) : *(volatile int *)-1; }\n"
        "int main(void) { bsp_begin(bsp_nprocs()); bsp_sync(); if (bsp_pid() == 1) deep(3); bsp_end(); return 0; }\n"
    )
    words = [str(repo / "bspcc"), "--small", "-g", "-O1", "-o", str(folder / "p.elf"), str(source)]
    subprocess.run(words, check=True, capture_output=True, timeout=600)
    return (folder / "p.elf").read_bytes()
