"""Makes calls on the host and on the node, and compares their lines."""

from __future__ import annotations

import collections
import functools
import os
import pathlib
import platform
import shlex
import shutil
import subprocess
import tempfile
import threading
from typing import Counter, Iterator, List, Sequence, Tuple

from checks import COMPILER, REPO, SECONDS, Part, Tally, Tool, units

from .area import Answer, Area, Build
from .chance import Chance

HERE = pathlib.Path(__file__).resolve().parent.parent
HOST = Tool("gcc", "gcc")
X86 = Tool("x86-64", "none", lambda name: platform.machine() in ("x86_64", "AMD64"))
TOOLS = (HOST, Tool("g++", "g++"), X86, *COMPILER)
# The host computes as C has it: each operation is rounded by itself. As on nodes, a char has a sign. No call is made when it is compiled.
WARNINGS = ["-Wall", "-Wextra", "-Werror"]
OPTIONS = ["-fno-builtin", "-fsigned-char", "-ffp-contract=off", "-frounding-math", *WARNINGS]
MEMORY, LIMIT = str(1 << 24), str(1 << 36)
# How many differences of an area are shown.
MOST_SHOWN = 3


class Program:
    """The program of an area, for the host and for each build."""

    def __init__(self, bench: "Bench", area: Area) -> None:
        self.bench, self.area = bench, area
        self.folder = pathlib.Path(tempfile.mkdtemp(dir=bench.folder))
        self.source = HERE / area.program
        self.lock = threading.Lock()

    def compile(self, words: Sequence[str], target: pathlib.Path) -> pathlib.Path:
        """The program by a compiler."""
        libraries = [] if "--small" in words else ["-lm"]
        line = [*words, *OPTIONS, *self.area.options, "-o", str(target), str(self.source), *libraries]
        done = subprocess.run(line, stderr=subprocess.PIPE, text=True, check=False, timeout=SECONDS)
        if done.returncode != 0:
            raise RuntimeError(f"{self.source.name} was not built: {done.stderr}")
        return target

    def language(self) -> List[str]:
        """What is said of the language."""
        return ["-std=c++17"] if self.source.suffix == ".cpp" else ["-D_GNU_SOURCE"]

    def host(self) -> pathlib.Path:
        """The program for the host."""
        target = self.folder / "host"
        with self.lock:
            if not target.exists():
                compiler = "g++" if self.source.suffix == ".cpp" else "gcc"
                self.compile([compiler, *self.language()], target)
        return target

    def node(self, build: Build) -> pathlib.Path:
        """The program for the node."""
        target = self.folder / f"{build.value}.elf"
        with self.lock:
            if not target.exists():
                self.compile([str(REPO / "bspcc"), *self.language(), *build.options()], target)
        return target

    def scratch(self) -> pathlib.Path:
        """An empty folder."""
        return pathlib.Path(tempfile.mkdtemp(dir=self.folder))

    def place_for(self, calls: Sequence[str]) -> pathlib.Path:
        """A folder with the input of these calls, and with the files that they are given."""
        place = self.scratch()
        (place / "input").write_bytes(b"".join(map(self.area.spelled, calls)))
        (place / "files").mkdir()
        for name, content in (self.area.given(calls) if self.area.given else {}).items():
            (place / "files" / name).write_bytes(content)
        return place

    def run_host(self, calls: Sequence[str]) -> List[str]:
        """What the host writes, in lines."""
        place = self.place_for(calls)
        environment = {"TZ": "UTC", "LC_ALL": "C", "PATH": os.environ["PATH"]}
        with (place / "input").open("rb") as source:
            done = subprocess.run(
                [str(self.host())], stdin=source, stdout=subprocess.PIPE, check=False, cwd=place / "files", env=environment, timeout=SECONDS
            )
        shutil.rmtree(place)
        lines = lines_of(done.stdout)
        if done.returncode != 0 or len(lines) != len(calls):
            raise RuntimeError(f"{self.source.name} on the host: status {done.returncode}, {len(lines)} lines for {len(calls)} calls")
        return lines

    def run_node(self, build: Build, calls: Sequence[str]) -> Tuple[List[str], str]:
        """What the node writes, in lines, and why it stopped, or nothing."""
        image, place = self.node(build), self.place_for(calls)
        # As on the host, in the folder of the files: a file that is written is that of exactly this name.
        limits = ["--memory", MEMORY, "--limit", LIMIT, "--input", "../input"]
        if self.area.given:
            words = [str(REPO / "bsprun"), "--no-check", *limits, "--files", ".", "--out", "../out", str(image)]
        else:
            words = [self.bench.emulator, "run", *limits, *units(image), str(image)]
        done = subprocess.run(words, stdout=subprocess.PIPE, stderr=subprocess.PIPE, check=False, cwd=place / "files", timeout=SECONDS)
        shutil.rmtree(place)
        if done.returncode == 0:
            return lines_of(done.stdout), ""
        lines = [it for it in lines_of(done.stdout) if not it.startswith("bsp: ")]
        told = [it for it in lines_of(done.stdout + done.stderr) if it.startswith(("bsp: ", "bsprun: "))]
        return lines, "; ".join([f"the node stopped with status {done.returncode}", *told[:2]])


def lines_of(written: bytes) -> List[str]:
    """Lines, of any bytes. What stands behind the last end of a line is none."""
    return written.decode("latin-1").split("\n")[:-1]


def readable(call: str) -> str:
    """A call with its texts as Python spells them."""
    words = [repr(bytes.fromhex(it[1:])) if it.startswith(".") else it for it in call.split(" ")]
    return " ".join(words)


class Bench:
    """The programs, and what was found."""

    def __init__(self, tally: Tally, emulator: str, folder: pathlib.Path) -> None:
        self.tally, self.emulator, self.folder = tally, emulator, folder
        self.lock = threading.Lock()
        self.open: Counter[Tuple[str, str]] = collections.Counter()

    def parts(self, area: Area, each: int, seed: int, wanted: str, turn: int) -> Iterator[Part]:
        """An area's parts, each with its share of the calls: of the build whose turn it is, and of the small library if it has the area; of
        one build that is wanted; or of all."""
        program = Program(self, area)
        builds = [it for it in area.builds if wanted in ("all", it.value)]
        if wanted == "turn":
            large = [it for it in area.builds if it != Build.SMALL]
            builds = [it for it in area.builds if it in (large[turn % len(large)], Build.SMALL)]
        for at, build in enumerate(builds):
            count = each * (at + 1) // len(builds) - each * at // len(builds)
            yield Part(f"{area.name}, {build.value}", functools.partial(self.compare, program, build, count, seed), TOOLS)

    def compare(self, program: Program, build: Build, count: int, seed: int) -> None:
        """So many calls of an area by one build."""
        chance = Chance(f"{seed} {program.area.name} {build.value}")
        wrong = done = 0
        while done < count:
            scripts = min(-(-(count - done) // program.area.steps), program.area.at_once)
            calls = [program.area.call(chance, build) for _ in range(scripts)]
            done += scripts * program.area.steps
            for call, host, node in self.answers(program, build, calls):
                if host != node and not self.is_open(program.area, call, host, node):
                    wrong += 1
                    if wrong <= MOST_SHOWN:
                        self.tell(program, build, call, host, node)
        self.tally.tell(f"{program.area.name}, {build.value}, {done} calls", f"{wrong} differ" if wrong else "")

    def answers(self, program: Program, build: Build, calls: List[str]) -> Iterator[Tuple[str, str, str]]:
        """Each call with the lines of host and node. If the node stops, that is its line, and it goes on with the next call."""
        host = program.run_host(calls)
        node: List[str] = []
        while len(node) < len(calls):
            lines, why = program.run_node(build, calls[len(node) :])
            node += lines
            if len(node) < len(calls):
                node.append(why or "the node wrote no line")
        yield from zip(calls, host, node)

    def is_open(self, area: Area, call: str, host: str, node: str) -> bool:
        """Whether a difference is one that C leaves open."""
        answer = Answer(call.split(" "), host.split(" "), node.split(" "))
        for it in area.differences:
            if it.is_this(answer):
                with self.lock:
                    self.open[area.name, it.reason] += 1
                return True
        return False

    def shortened(self, program: Program, build: Build, call: str) -> Tuple[str, str, str]:
        """The script with as few steps as there is still a difference, and the lines of both: parts are left out, the longest first."""
        area = program.area
        ((_, host, node),) = self.answers(program, build, [call])
        size = len(call.split(" ")) // 2
        while size > 0:
            steps = call.split(" ")
            tried = [" ".join(steps[:at] + steps[at + size :]) for at in range(0, len(steps), size)]
            tried = [it for it in tried if it]
            found = (it for at in range(0, len(tried), area.at_once) for it in self.answers(program, build, tried[at : at + area.at_once]))
            less = next((it for it in found if it[1] != it[2] and not self.is_open(area, *it)), None)
            if less is None:
                size //= 2
            else:
                call, host, node = less
                size = min(size, len(call.split(" ")) // 2)
        return call, host, node

    def tell(self, program: Program, build: Build, call: str, host: str, node: str) -> None:
        """Shows a difference, and how to see it again."""
        area = program.area
        if area.is_script:
            call, host, node = self.shortened(program, build, call)
        again = f"tests/tools/c/host/run --show {build.value} {area.name} {shlex.quote(call)}"
        with self.lock:
            print(f"{area.name}, {build.value}: {readable(call)}\n  host: {host}\n  node: {node}\n  again: {again}", flush=True)

    def tell_differences(self) -> None:
        """How often each difference came that is open."""
        for (area, reason), count in sorted(self.open.items()):
            print(f"{area}: {count} times: {reason}")


def show(bench: Bench, area: Area, build: Build, call: str) -> int:
    """Makes one call, and shows both answers."""
    ((_, host, node),) = bench.answers(Program(bench, area), build, [call])
    print(f"{readable(call)}\n  host: {host}\n  node: {node}")
    return 0 if host == node else 1
