"""Programs that compute with a `long`, which has 64 bits elsewhere, with default options.

Where something does not fit it is told behind the run, which is as it is without that.
"""

from __future__ import annotations

import os
import pathlib
import re
import shutil
import signal
import subprocess
import sys
from typing import Callable, Dict, List, NamedTuple, Tuple

import forked
from checks import CLASSES, COMPILER, GCC, PYELFTOOLS, REPO, SECONDS, Tally, Tool, becomes_true, commands_with

BEGIN = "#include <bsp.h>\n#include <stdint.h>\n#include <stdio.h>\n#include <stdlib.h>\n"
CUBES = BEGIN + """int main(void)
{
    long sum = 0;
    bsp_begin(bsp_nprocs());
    bsp_sync();
    for (int i = bsp_pid() + 1; i <= 1000; i += bsp_nprocs())
        sum += (long)i * i * i; /* here */
    printf("%d: %ld\\n", bsp_pid(), sum);
    bsp_end();
    return 0;
}
"""
# Values that nobody can know before the run.
VALUES = BEGIN + """static volatile int k = 40, n = 50000, less = -7;
static volatile double far = 1e10;
static volatile unsigned long hash = 5381;
int main(void)
{
    bsp_begin(bsp_nprocs());
    {
        %s; /* here */
    }
    bsp_end();
    return 0;
}
"""
ADVICE, UNSIGNED = "write int64_t or long long", "write uint64_t or unsigned long long"


class Value(NamedTuple):
    """A statement, and what is told of its line: what it is, and what to write; nothing if that is the same elsewhere."""

    text: str
    said: str = ""
    advice: str = ADVICE


# Pieces of a text, and for how many seconds it may be looked at.
MANY, SOON = 300_000, 60
FITS = " does not fit into 'long int', which has 32 bits here"
TOLD: Dict[str, Value] = {
    "product": Value('printf("%ld\\n", (long)n * n)', f"50000 * 50000{FITS}"),
    "difference": Value('printf("%ld\\n", -2000000000L - 10000L * n)', f"-2000000000 - 500000000{FITS}"),
    "quotient": Value('long most = -2147483647L + less + 6; printf("%ld\\n", most / (less + 6))', f"-2147483648 / -1{FITS}"),
    "shift": Value('printf("%ld\\n", 1L << k)', "1 is shifted by 40, as 'long int', which has 32 bits here"),
    "mask": Value('printf("%lu\\n", 1UL << k)', "1 is shifted by 40, as 'long unsigned int', which has 32 bits here", UNSIGNED),
    "number": Value('printf("%ld\\n", (long)far)', "a number near 10000000000" + FITS),
    "difference of pointers": Value('ptrdiff_t many = n; printf("%td\\n", many * n)', f"50000 * 50000{FITS}"),
    "result": Value('printf("%d\\n", (int)(atol("2000000000") + labs(n * 20000)))', f"2000000000 + 1000000000{FITS}"),
}
SAME: Dict[str, Value] = {
    "unsigned that begins at 0 again": Value('hash = hash * 33 * n * n; printf("%lu\\n", hash)'),
    "long that fits": Value('printf("%ld\\n", (long)n * 2L)'),
    "int": Value('printf("%d\\n", n * n); printf("%ld\\n", 2L * k)'),
    "negative that is shifted": Value('printf("%ld\\n", (long)less << 3)'),
    "divided by 0": Value('printf("%ld\\n", 5L / (less + 7))'),
    "64 bits": Value('printf("%lld %d\\n", (long long)n * n, (int)((int64_t)n * n + 1L))'),
}
# Of a build in which a ptrdiff_t is a long, the run does not end.
ENDLESS = BEGIN + """int main(void)
{
    long sum = bsp_nprocs();
    bsp_begin(bsp_nprocs());
    while (_Generic((ptrdiff_t)0, long: 1, default: 0))
        sum += bsp_pid();
    printf("%ld\\n", sum);
    bsp_end();
    return 0;
}
"""
# A run that somebody has to end.
SPINS = CUBES.replace("    bsp_end();", "    bsp_sync();\n    for (volatile int i = 0;; i++)\n        ;\n    bsp_end();")
READS = BEGIN + """int main(void)
{
    long n = 0;
    bsp_begin(bsp_nprocs());
    if (scanf("%ld", &n) != 1)
        return 1;
    printf("%ld\\n", n * n); /* here */
    bsp_end();
    return 0;
}
"""
# An option of a compiler that does nothing, and one as long that runs what somebody else has written.
PLUGIN = "-fplugin=/tmp/absent.so"
PLAIN = "plain".ljust(len(PLUGIN) - len("-D"), "_")
# The name of a folder, and an option as long that bspcc takes away; a word by which GCC reads options from a file.
TAKEN_AWAY, ASKS = ("absent_", "--small"), "@more.o"
# Texts in which a `long` is named, but none is there.
NAMED = BEGIN + """/* as long as a long is one */
int main(void)
{
    long long many = 'l' + 5LL;
    bsp_begin(bsp_nprocs());
    many *= many; // long
    printf("a long way: %lld\\n", many);
    bsp_end();
    return 0;
}
"""
HEADER = {
    "main.c": BEGIN + '#include "work.h"\nint main(void)\n{\n    bsp_begin(bsp_nprocs());\n    printf("%d\\n", (int)work(70000));\n'
    "    bsp_end();\n    return 0;\n}\n",
    "work.h": "#include <types.h>\nnumber work(int);\n",
    "deep/types.h": "typedef long number;\n",
    "work.c": '#include "work.h"\nnumber work(int n)\n{\n    return (number)n * n; /* here */\n}\n',
}
CLASS = BEGIN + """#include <numeric>
#include <vector>
int main()
{
    std::vector<long> numbers(3, 1000000000L);
    bsp_begin(bsp_nprocs());
    long sum = 0;
    for (long it : numbers)
        sum += it; /* here */
    printf("%ld\\n", sum);
    bsp_end();
    return 0;
}
"""
# For how long what goes beside a run is waited for behind it, as forked.NUMBERS has it.
PATIENT = "bsptools.run.long_overflows.MORE_SECONDS=300"
# A run on one processor that is as patient.
ON_ONE = """
import os, sys
sys.path.insert(0, sys.argv[1])
from bsptools import start
from bsptools.run import long_overflows
long_overflows.MORE_SECONDS = 300
os.sched_setaffinity(0, {int(sys.argv[2])})
sys.exit(start.process("bsprun", sys.argv[3:]))
"""
# After so many seconds a run is ended by --wall.
WALLS = (2, 8, 32, 128)
# Notes each start of the emulator, or of another program.
TRACE = '#!/bin/sh\necho "$*" >>"$TRACE"\nexec "$EMULATOR" "$@"\n'


def line_of(text: str) -> int:
    """The line that is marked."""
    return next(i for i, line in enumerate(text.splitlines(), 1) if "/* here */" in line)


class Longs:
    """Runs by bsprun in a folder of this part's own."""

    def __init__(self, tally: Tally, folder: pathlib.Path) -> None:
        self.tally, self.folder = tally, folder
        # Where the run's own files are, so that what is left of it shows.
        (folder / "scratch").mkdir()
        self.environment = {**os.environ, "TMPDIR": str(folder / "scratch")}

    def write(self, name: str, text: str) -> str:
        """A source of this name."""
        path = self.folder / name
        path.parent.mkdir(exist_ok=True)
        path.write_text(text)
        return name

    def run(self, *words: str, given: str = "", is_patient: bool = True) -> "subprocess.CompletedProcess[str]":
        """A run by bsprun. What goes beside it comes to its end on the busiest host, if that is waited for."""
        environment = {**self.environment, **({forked.NUMBERS: PATIENT} if is_patient else {})}
        return forked.run([str(REPO / "bsprun"), *words], given, self.folder, environment)

    def cubes(self) -> None:
        """A sum of cubes is told, in the words of --check, and the run is as it is without."""
        source, line = self.write("cubes.c", CUBES), line_of(CUBES)
        for nodes in ("1", "2", "4", "7"):
            alone = self.run("-n", nodes, "--no-check", "--report", "alone.csv", source)
            done = self.run("-n", nodes, "--report", "costs.csv", source)
            same = (done.returncode, done.stdout) == (alone.returncode, alone.stdout) == (0, done.stdout) and not alone.stderr
            costs = [(self.folder / it).read_text() for it in ("alone.csv", "costs.csv")]
            self.tally.expect(f"cubes on {nodes} nodes, the run", same and costs[0] == costs[1], (done, alone, costs))
            more = "" if nodes == "1" else f"; the same on {int(nodes) - 1} more rank{'s' if nodes > '2' else ''}"
            told = re.fullmatch(rf"bsprun: rank 0, superstep 1: cubes.c:{line}: (\d+ \+ \d+{FITS}): {ADVICE}{more}\n", done.stderr)
            self.tally.expect(f"cubes on {nodes} nodes, what is told", told is not None, done.stderr)
            checked = self.run("-n", nodes, "--check", source)
            same = told is not None and f"bsp: rank 0: superstep 1, {self.folder / source}:{line}: {told[1]}\n" in checked.stderr
            self.tally.expect(f"cubes on {nodes} nodes, the words of --check", same and ADVICE not in checked.stderr, checked.stderr)

    def values(self) -> None:
        """Each kind of value that does not fit is told with its line; what is the same elsewhere is not."""
        for name, value in {**TOLD, **SAME}.items():
            text = VALUES % value.text
            done = self.run(self.write("value.c", text))
            wanted = f"bsprun: rank 0, superstep 0: value.c:{line_of(text)}: {value.said}: {value.advice}\n" if value.said else ""
            self.tally.expect(f"{name}, told", (done.returncode, done.stderr) == (0, wanted), done)

    def sources(self) -> None:
        """Several sources, with a header in a folder of -I; a program in C++ is another part."""
        for name, text in HEADER.items():
            self.write(name, text)
        done = self.run("-Ideep", "main.c", "work.c")
        self.tally.expect("sources", f": work.c:{line_of(HEADER['work.c'])}: 70000 * 70000{FITS}" in done.stderr, done)

    def build(self, *words: str) -> None:
        """A call of bspcc."""
        subprocess.run([str(REPO / "bspcc"), *words], cwd=self.folder, env=self.environment, check=True, capture_output=True, timeout=SECONDS)

    def executable(self) -> None:
        """An executable is looked at by what it records of its sources: of several folders, with options of their own, and in an archive."""
        for name, text in HEADER.items():
            self.write(name, text)
        self.build("-Ideep", f"-D{PLAIN}", "-O1", "-c", "work.c", "-o", "deep/work.o")
        self.build("-I", "deep", "-c", "main.c")
        subprocess.run(["riscv64-unknown-elf-ar", "rcs", "libwork.a", "deep/work.o"], cwd=self.folder, check=True, timeout=SECONDS)
        told = f": work.c:{line_of(HEADER['work.c'])}: 70000 * 70000{FITS}: {ADVICE}\n"
        for name, words in {"objects": ["main.o", "deep/work.o"], "archive": ["main.o", "-L.", "-lwork"], "sources": ["-Ideep", "main.c", "work.c"]}.items():
            self.build("-o", f"{name}.elf", *words)
            done = self.run(f"{name}.elf")
            self.tally.expect(f"an executable of {name}", done.returncode == 0 and done.stderr == f"bsprun: rank 0, superstep 0{told}", done)
        self.tally.expect("without the look", self.run("--no-check", "objects.elf").stderr == "", "something is told")
        # An option by which a compiler runs what a file brings is not taken.
        content = (self.folder / "objects.elf").read_bytes()
        (self.folder / "evil.elf").write_bytes(content.replace(f"-D{PLAIN}".encode(), PLUGIN.encode()))
        done = self.run("evil.elf")
        self.tally.expect("an option of others", PLUGIN.encode() not in content and told in done.stderr, done)
        self.of_others(told)
        self.build("-o", "checked.elf", "--check", "-Ideep", "main.c", "work.c")
        done = self.run("checked.elf")
        self.tally.expect("an executable that looks by itself", done.returncode == 2 and ADVICE not in done.stderr, done)
        self.unknown()

    def of_others(self, told: str) -> None:
        """No record of an executable has GCC take its programs from a folder that it names: not by an option that stands where bspcc has taken
        one away, nor by a file with options; and no pipe is waited for."""
        evil = f"-B{self.folder}/evil/"
        self.write("evil/cc1", f"#!/bin/sh\ntouch {self.folder}/ran\nexit 1\n")
        (self.folder / "evil/cc1").chmod(0o755)
        for name in (ASKS, ASKS[1:]):
            self.write(name, evil)
        self.build("-o", "base.elf", "-Ideep", "-I", TAKEN_AWAY[0], "-I", "x" * len(evil), f"-D{'y' * (len(ASKS) - 2)}", "main.c", "work.c")
        content = (self.folder / "base.elf").read_bytes()
        away, instead = TAKEN_AWAY
        behind = content.replace(away.encode(), instead.encode()).replace(b"x" * len(evil), evil.encode())
        beside = content.replace(f"-D{'y' * (len(ASKS) - 2)}".encode(), ASKS.encode())
        for what, image in {"behind an option that is taken away": behind, "in a file": beside}.items():
            (self.folder / "evil.elf").write_bytes(image)
            done = self.run("evil.elf")
            self.tally.expect(f"an option of others, {what}", image != content and not (self.folder / "ran").exists() and told in done.stderr, done)
        os.mkfifo(self.folder / "pipe.c")
        (self.folder / "evil.elf").write_bytes(content.replace(b"main.c\0", b"pipe.c\0"))
        done = self.run("evil.elf")
        self.tally.expect("a pipe for a source", done.returncode == 0 and "/pipe.c is not a regular file): build it again\n" in done.stderr, done)

    def unknown(self) -> None:
        """What cannot be looked at has a line that says why, but for a program that has no names either."""
        self.build("-s", "-o", "nameless.elf", "-Ideep", "main.c", "work.c")
        self.tally.expect("an executable without names", self.run("nameless.elf").stderr == "", "something is told")
        content = (self.folder / "sources.elf").read_bytes()
        (self.folder / "silent.elf").write_bytes(content.replace(b"bspcc source", b"other source"))
        self.write("work.c", HEADER["work.c"] + "/* more */\n")
        wanted = {
            "silent.elf": "silent.elf records no sources, .*: build it by this bspcc",
            "sources.elf": r"sources.elf was built from .* \(.*/work.c has changed since then\): build it again",
        }
        for name, line in wanted.items():
            done = self.run(name)
            self.tally.expect(f"{name} is not looked at", done.returncode == 0 and re.fullmatch(f"bsprun: {line}\n", done.stderr) is not None, done)
        (self.folder / "work.c").unlink()
        done = self.run("objects.elf")
        self.tally.expect("no source", done.returncode == 0 and "/work.c: No such file or directory): build it again\n" in done.stderr, done)

    def classes(self) -> None:
        """A program in C++."""
        done = self.run(self.write("class.cpp", CLASS))
        # GCC may exchange the two.
        sums = [f": class.cpp:{line_of(CLASS)}: {it}{FITS}" for it in ("1000000000 + 2000000000", "2000000000 + 1000000000")]
        self.tally.expect("C++", any(it in done.stderr for it in sums), done)

    def starts(self) -> None:
        """The emulator is started once if there is no such number, if that is left out, and for --check."""
        trace = self.folder / "trace"
        (self.folder / "emulator").write_text(TRACE)
        (self.folder / "emulator").chmod(0o755)
        self.environment.update(EMULATOR=os.environ["BSPEMU"], BSPEMU=str(self.folder / "emulator"), TRACE=str(trace))
        cubes, named, fits = self.write("cubes.c", CUBES), self.write("named.c", NAMED), self.write("fits.c", VALUES % SAME["long that fits"].text)
        moved = self.write("moved.c", VALUES % "long as_it_is = n; printf(\"%ld\\n\", as_it_is)")
        for words, count in ([cubes], 2), ([fits], 2), (["--no-check", cubes], 1), ([named], 1), ([moved], 1):
            trace.write_text("")
            done = self.run(*words)
            runs = [it for it in trace.read_text().splitlines() if it.startswith("run ")]
            self.tally.expect(f"starts for {words}", done.returncode == 0 and len(runs) == count, (runs, done))

    def costs_nothing(self) -> None:
        """A program without such numbers is compiled no more often than if that is left out, and one with them is."""
        trace = self.folder / "trace"
        (self.folder / GCC.name).write_text(TRACE)
        (self.folder / GCC.name).chmod(0o755)
        self.environment.update(EMULATOR=shutil.which(GCC.name) or "", TRACE=str(trace))
        self.environment["PATH"] = f"{self.folder}:{self.environment['PATH']}"
        named, cubes, counts = self.write("named.c", NAMED), self.write("cubes.c", CUBES), []
        # The first one builds the library.
        for words in (["--no-check", named], ["--no-check", named], [named], [cubes]):
            trace.write_text("")
            self.run(*words)
            counts.append(len(trace.read_text().splitlines()))
        self.tally.expect("a program without long", 0 < counts[1] == counts[2] < counts[3], counts)

    def inputs(self) -> None:
        """The input is the same: of a file, of a pipe, and none; what is written goes where it went."""
        source, line = self.write("reads.c", READS), line_of(READS)
        (self.folder / "numbers").write_text("60000\n")
        ways: List[Tuple[List[str], str]] = [(["--input", "numbers"], ""), ([], "60000\n")]
        for words, given in ways:
            done = self.run(*words, source, given=given)
            right = done.returncode == 0 and f": reads.c:{line}: 60000 * 60000{FITS}" in done.stderr
            self.tally.expect(f"input of {words or 'a pipe'}", right, done)
        text = CUBES.replace("    bsp_end", '    fclose(freopen("out.txt", "w", stdout));\n    bsp_end')
        before = sorted(it.name for it in self.folder.iterdir())
        done = self.run("--out", "here", self.write("writes.c", text))
        found = sorted(it.name for it in self.folder.iterdir())
        right = FITS in done.stderr and found == sorted([*before, "here", "writes.c"]) and os.listdir(self.folder / "here") == ["out.txt"]
        self.tally.expect("what is written", right, (done, found))

    def read(self) -> None:
        """A number that is read into a long which it does not fit is told once, with its line, also of an ELF file; others are not."""
        text = BEGIN + "int main(void)\n{\n    long a = 0, b = 0;\n    unsigned long c = 0;\n    int d;\n    %s\n"
        text += '    printf("%%ld %%ld %%lu %%d\\n", a, b, c, d);\n    return 0;\n}\n'
        told = {
            'd = scanf("%ld %ld", &a, &b);': ("1 -3000000000", "-3000000000"),
            'd = scanf("%lu %ld", &c, &a);': ("4294967296 7", "4294967296"),
            'd = (int)atol("6000000000");': ("", "6000000000"),
            'd = (int)strtol("-ffffffffff", NULL, 16);': ("", "-1099511627775"),
            'd = strtoul("4294967296", NULL, 0) == 4294967295u;': ("", "4294967296"),
            'd = scanf("%ld %lu %d", &a, &c, &d);': ("-2147483648 4294967295 2147483648", ""),
            'd = atoi("3000000000");': ("", ""),
            'd = (int)strtol("2147483647x", NULL, 10) + (int)atol("-2147483648");': ("", ""),
            'd = strtoul("ffffffff", NULL, 16) > strtol("99999999999999999999", NULL, 10);': ("", ""),
        }
        for statement, (given, number) in told.items():
            name = self.write("reads.c", text.replace("%s", statement, 1).replace("%%", "%"))
            done = self.run("--no-check", name, given=given)
            words = f"{number} is read at main, reads.c:10, and does not fit into a long, which has 32 bits here: use long long, %lld and strtoll"
            wanted = f"bsprun: rank 0, superstep 0: {words}\n" if number else ""
            self.tally.expect(f"read by {statement}", (done.returncode, done.stderr) == (0, wanted), done)

    def processor(self) -> None:
        """On one processor it comes behind the run."""
        first = min(os.sched_getaffinity(0))
        words = [sys.executable, "-I", "-B", "-c", ON_ONE, str(REPO / "tools"), str(first), "-n", "3", self.write("cubes.c", CUBES)]
        done = subprocess.run(
            words, stdin=subprocess.DEVNULL, capture_output=True, text=True, cwd=self.folder, env=self.environment, check=False, timeout=SECONDS
        )
        self.tally.expect("one processor", done.returncode == 0 and f"{FITS}: {ADVICE}; the same on 2 more ranks" in done.stderr, done)

    def fewer(self) -> None:
        """Where the program takes fewer nodes the run beside has these."""
        done = self.run("-n", "4", self.write("two.c", CUBES.replace("bsp_begin(bsp_nprocs())", "bsp_begin(2)")))
        right = done.returncode == 0 and "gets these and not 4" in done.stderr and f"{FITS}: {ADVICE}; the same on 1 more rank\n" in done.stderr
        self.tally.expect("fewer nodes", right, done)

    def pieces(self) -> None:
        """A source is read soon in which each of very many pieces without an end would be looked for from each letter on."""
        texts = {"raw.cpp": 'const char *text = R"(\n' + "/*x" * MANY + ')";\n', "quotes.c": '#if 0\n"' + '\\"' * MANY + "\n#endif\n"}
        for name, text in texts.items():
            self.write(name, text + "int main(void)\n{\n    return 0;\n}\n")
            words = ["timeout", str(SOON), str(REPO / "bsprun"), name]
            done = subprocess.run(words, cwd=self.folder, stdin=subprocess.DEVNULL, capture_output=True, env=self.environment, timeout=SECONDS, check=False)
            self.tally.expect(f"{name} is run soon", done.returncode == 0, (done.returncode, done.stderr[-300:]))
        self.nothing_is_left("pieces without an end")

    def bounded(self) -> None:
        """Of what does not end nothing is told, and the run ends."""
        source = self.write("endless.c", ENDLESS)
        ways: List[List[str]] = [["--no-check"], []]
        for words in ways:
            done = self.run("-n", "2", *words, source, is_patient=False)
            self.tally.expect(f"endless {words}", (done.returncode, done.stdout, done.stderr) == (0, "2\n2\n", ""), done)
        self.nothing_is_left("bounded")

    def ended(self) -> None:
        """Ctrl-C and the clock end both."""
        source, told = self.write("spins.c", SPINS), rf"bsprun: rank 0, superstep 1: spins.c:{line_of(SPINS)}: \d+ \+ \d+{FITS}"
        # On a busy host what goes beside has computed too little at first.
        for seconds in WALLS:
            done = self.run("-n", "2", "--wall", str(seconds), source, is_patient=False)
            self.nothing_is_left(f"--wall {seconds}")
            if re.search(told, done.stderr):
                break
        self.tally.expect("--wall", done.returncode == 124 and re.search(told, done.stderr) is not None, done)
        words = [str(REPO / "bsprun"), "-n", "2", source]
        with subprocess.Popen(words, cwd=self.folder, stdin=subprocess.DEVNULL, stdout=subprocess.PIPE, stderr=subprocess.PIPE,
                env=self.environment) as run:  # fmt: skip
            assert run.stdout is not None
            run.stdout.readline()
            is_alone = len(os.sched_getaffinity(0)) == 1
            # It is built and run with less priority than all else, so that on a busy host it begins late.
            both = is_alone or becomes_true(self.runs_beside, SECONDS)
            run.send_signal(signal.SIGINT)
            _, errors = run.communicate(timeout=SECONDS)
        self.tally.expect("Ctrl-C", both and run.returncode == 130 and b"ended by Ctrl-C after" in errors, (both, run.returncode, errors))
        self.nothing_is_left("Ctrl-C")

    def runs_beside(self) -> bool:
        """Whether the build that notes what does not fit runs."""
        return any(" run " in it and "/long.elf " in it for it in commands_with(str(self.folder)))

    def nothing_is_left(self, name: str) -> None:
        """No process goes on that has a file of this folder in its command, and no scratch file is there."""
        scratch = self.folder / "scratch"
        is_clear = becomes_true(lambda: not commands_with(str(self.folder)) and not list(scratch.iterdir()))
        self.tally.expect(f"{name}, what is left", is_clear, (commands_with(str(self.folder)), list(scratch.iterdir())))


TOLD_LINES = (*COMPILER, PYELFTOOLS)
PARTS: List[Tuple[str, Callable[[Longs], None], Tuple[Tool, ...]]] = [
    ("a sum of cubes", Longs.cubes, COMPILER),
    ("what does not fit into a long", Longs.values, COMPILER),
    ("long in several sources", Longs.sources, COMPILER),
    ("long in an executable", Longs.executable, COMPILER),
    ("long in C++", Longs.classes, (*COMPILER, CLASSES)),
    ("runs of long", Longs.starts, COMPILER),
    ("programs without long", Longs.costs_nothing, COMPILER),
    ("long and what is read", Longs.inputs, COMPILER),
    ("numbers that are read", Longs.read, TOLD_LINES),
    ("long on one processor", Longs.processor, COMPILER),
    ("long on fewer nodes", Longs.fewer, COMPILER),
    ("texts without an end", Longs.pieces, (*COMPILER, CLASSES)),
    ("a long run beside", Longs.bounded, COMPILER),
    ("the end of a run beside", Longs.ended, TOLD_LINES),
]
