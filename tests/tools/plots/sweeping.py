"""Sweeps: each engine gives the same table as the plain one, no run is made twice, and a check finds differences."""

from __future__ import annotations

import csv
import functools
import io
import json
import os
import shlex
import shutil
import signal
import subprocess
import threading
import time
from fractions import Fraction
from typing import Any, Callable, Dict, List, Mapping, Optional, Sequence, Set

import cluster
from base import PARALLEL, REPO, Check, Parts
from checks import COMPILER, Part

from bsptools import sealed_results
from bsptools.sweep.result_store import Place

PROGRAMS = [str(REPO / "examples/broadcast.s"), str(REPO / "examples/broadcast2.s")]
TWELVE = ["--nodes", "2,3,8", "--prices", "1:100,4:1000", *PROGRAMS]
# Two runs, which are what another way of the same engine is shown by.
TWO = ["--nodes", "2,3", PROGRAMS[0]]
# Stands for ssh: it notes the host, and runs the command here.
STUB = """\
#!/bin/sh
while [ "${1#-}" != "$1" ]; do shift; done
echo "$1" >> "$(dirname "$0")/told"
shift
[ "$1" = -- ] && shift
exec sh -c "$*"
"""
# Stands for Slurm: it makes the tasks of a script one after another.
SBATCH = """\
#!/bin/sh
last=
while [ $# -gt 1 ]; do
    case $1 in --array=*) last=${1#*-*-*-} ;; esac
    shift
done
last=${last:-$(sed -n 's/^#SBATCH --array=0-\\([0-9]*\\).*/\\1/p' "$1")}
task=0
while [ "$task" -le "$last" ]; do
    SLURM_ARRAY_TASK_ID=$task SLURM_ARRAY_TASK_COUNT=$((last + 1)) sh "$1"
    task=$((task + 1))
done
"""
# Stands for an emulator, and kills who makes a run on two nodes.
KILLING = """\
#!/bin/sh
case "$*" in *" --nodes 2 "*) read -r _ _ _ maker _ <"/proc/$PPID/stat" && kill -KILL "$maker" ;; esac
exec "$PROVED" "$@"
"""
# Stands for an emulator, and edits a file that the program reads.
EDITING = """\
#!/bin/sh
case $1 in run) printf 1 >>size.txt ;; esac
exec "$PROVED" "$@"
"""
# Stands for a compiler, and edits what it has compiled.
RECOMPILING = """\
#!/bin/sh
PATH=$REST
riscv64-unknown-elf-objcopy "$@" && printf '// again\\n' >>seeks.c
"""
# Reads two files of one form of name, and goes no further without the first one.
READING = """\
#include <bsp.h>
#include <stdio.h>
#include <stdlib.h>
int main(void)
{
    const char *names[] = {"part1.txt", "part2.txt"};
    int n = 0;
    bsp_begin(bsp_nprocs());
    for (int i = 0; i < 2; i++) {
        FILE *file = fopen(names[i], "r");
        if (!file || fscanf(file, "%d", &n) != 1)
            exit(1);
        for (volatile int k = 0; k < n; k++)
            ;
    }
    printf("%g\\n", bsp_time());
    bsp_end();
    return 0;
}
"""
SOURCE = """\
#include <bsp.h>
#include <stdio.h>
#include <stdlib.h>
int main(int argc, char **argv)
{
    static int x[N];
    bsp_begin(bsp_nprocs());
    bsp_push_reg(x, sizeof x);
    bsp_sync();
    bsp_put((bsp_pid() + 1) % bsp_nprocs(), x, x, 0, sizeof x);
    bsp_sync();
    if (argc > 1 && atoi(argv[1]) == bsp_nprocs())
        bsp_abort("too many\\n");
    bsp_end();
    return 0;
}
"""

# Reads a number from its input and from a file, and goes on without them.
NEEDING = """\
#include <bsp.h>
#include <stdio.h>
int main(void)
{
    int n = 0;
    bsp_begin(bsp_nprocs());
    scanf("%d", &n);
    FILE *file = fopen("data.txt", "r");
    if (file)
        fscanf(file, "%d", &n);
    bsp_end();
    return 0;
}
"""
# Works for as long as a file says, which bsprun gives by itself if it is here, and writes what it has read.
SEEKING = """\
#include <bsp.h>
#include <stdio.h>
int main(int argc, char **argv)
{
    int n = 0;
    bsp_begin(bsp_nprocs());
    FILE *file = fopen(argc > 1 ? argv[1] : "size.txt", "r");
    if (file)
        fscanf(file, "%d", &n);
    for (volatile int i = 0; i < n; i++)
        ;
    file = fopen("written.txt", "a");
    if (file)
        fprintf(file, "%d\\n", n);
    bsp_end();
    return 0;
}
"""


def parts(make: Parts) -> List[Part]:
    """Sweeps by the engines of one host, and what else there is to them."""
    return [
        make.part("sweeps by GNU parallel", parallel, tools=(PARALLEL,)),
        make.part("a plain sweep", kept),
        make.part("prices of machines", machines),
        make.part("refusals of bspsweep", refusals),
        make.part("what a run rests on", keys),
        make.part("a folder of an odd name", odd),
        make.part("results of others", others),
        make.part("links in results", links),
        make.part("lists where others may rename", unheld),
        make.part("forged results", forged),
        make.part("odd names of hosts and folders", hostile),
        make.part("runs that do not end", ended),
        make.part("a sweep of a program in C", sources, tools=COMPILER),
        make.part("lists in several parts", repeated, tools=COMPILER),
        make.part("files that nobody gave a sweep", sought, tools=COMPILER),
        make.part("runs whose figures may be in doubt", doubts, tools=COMPILER),
        make.part("what is edited while a sweep goes on", edited, tools=COMPILER),
        make.part("runs that cannot be made", missing),
        make.part("programs that are not compiled", uncompiled, tools=COMPILER),
        make.part("programs that take fewer nodes", fewer, tools=COMPILER),
        make.part("programs that look for a file late", late, tools=COMPILER),
    ]


def on_clusters(make: Parts) -> List[Part]:
    """Sweeps by Slurm and over ssh, for which daemons are started."""
    return [
        make.part("a sweep by Slurm", slurm, tools=(cluster.SLURM,)),
        make.part("a sweep over ssh", remote, tools=(PARALLEL, cluster.SSH_SERVER)),
    ]


def kept(check: Check) -> None:
    """What is kept of a plain sweep, and then is damaged."""
    plain(check)
    damaged(check)
    differing(check)


TABLES: Dict[str, str] = {}
LOCK = threading.Lock()


def table(check: Check, points: Sequence[str] = TWELVE) -> str:
    """The table of the plain engine, which is made once."""
    with LOCK:
        asked = shlex.join(points)
        if asked not in TABLES:
            TABLES[asked] = check.tool("bspsweep", "--engine", "plain", "--folder", "plain", *points).stdout
        return TABLES[asked]


def parallel(check: Check) -> None:
    """The same sweep by GNU parallel, here and on hosts."""
    by_engine(check, table(check), "parallel", ["--engine", "parallel"])
    text = table(check, TWO)
    by_engine(check, text, "a host of parallel", ["--hosts", ":", "--check"], points=TWO)
    stub = check.folder.parent / "ssh"
    stub.write_text(STUB)
    stub.chmod(0o755)
    two = ["--hosts", "one,two"]
    by_engine(check, text, "two hosts of parallel", [*two, "--check"], {"PARALLEL_SSH": str(stub), "SHELL": "/bin/false"}, TWO)
    by_engine(check, text, "two hosts of parallel where no SHELL is set", two, {"PARALLEL_SSH": str(stub), "SHELL": None}, TWO)
    told = set((stub.parent / "told").read_text().split())
    check.expect("both hosts were asked", told == {"one", "two"}, told)


def plain(check: Check) -> None:
    """The table of runs that are made one after another, compared with the reports; and nothing is run again."""
    words = ["--engine", "plain", "--folder", "plain", "-o", "plain.csv", *TWELVE]
    done = check.tool("bspsweep", *words)
    check.expect("a plain sweep", done.returncode == 0 and "6 of 6 runs done, 0 left" in done.stderr, done.stderr)
    rows = list(csv.DictReader(io.StringIO((check.folder / "plain.csv").read_text())))
    check.expect("12 points", len(rows) == 12, rows)
    for row in rows:
        words = ["-n", row["nodes"], "--g", row["g"], "--l", row["l"], "--report", "one.json", row["program"]]
        check.tool("bsprun", *words)
        found = json.loads((check.folder / "one.json").read_text())
        right = (str(found["total"]), found["outcome"]) == (row["total"], row["outcome"])
        check.expect(f"the point {row['program']}, {row['nodes']} nodes, g {row['g']}", right, row)
    times = [path.stat().st_mtime_ns for path in (check.folder / "plain/runs").glob("*/run.json")]
    done = check.tool("bspsweep", "--engine", "plain", "--folder", "plain", *TWELVE)
    again = [path.stat().st_mtime_ns for path in (check.folder / "plain/runs").glob("*/run.json")]
    check.expect("nothing is run again", sorted(times) == sorted(again) and "6 of 6 runs were cached" in done.stderr, done.stderr)
    check.expect("the same table from what is kept", done.stdout == (check.folder / "plain.csv").read_text(), done.stdout)
    done = check.tool("bspsweep", "--engine", "plain", "--folder", "plain", "--nodes", "2,3,4", *PROGRAMS)
    check.expect("two nodes more", "4 of 6 runs were cached" in done.stderr and "2 of 2 runs done" in done.stderr, done.stderr)


def sought(check: Check) -> None:
    """A result depends on the files that a run was given by itself, or because an argument names them, and on none of the environment's options.
    What programs write goes nowhere."""
    (check.folder / "seeks.c").write_text(SEEKING)
    words = ["--engine", "plain", "--folder", "sought", "-o", "t.csv", "seeks.c"]

    def work(*more: str, **environment: str) -> int:
        done = check.tool("bspsweep", *words, *more, environment=environment)
        check.expect(f"a sweep of a program that seeks {more}", done.returncode == 0, done.stderr)
        return int(next(csv.DictReader(io.StringIO((check.folder / "t.csv").read_text())))["w"])

    least = 0
    for name, more in (("named.txt", ("--args", "named.txt")), ("size.txt", ())):
        (check.folder / name).write_text("100\n")
        first = work(*more)
        kept = work(*more)
        (check.folder / name).write_text("10000\n")
        changed = work(*more)
        digests = json.loads((check.folder / "t.csv.json").read_text())["files"]
        (check.folder / name).unlink()
        least = work(*more)
        right = first == kept and changed > first + 9900 and least < first and name in digests
        check.expect(f"what a run costs that reads {name}, which is changed and removed", right, (first, kept, changed, least, digests))
    (check.folder / "size.txt").write_text("1000\n")
    found = work(BSPRUN_FLAGS="--no-files"), work()
    check.expect("options of bsprun in the environment", found[0] == found[1] > least + 1000, (found, least))
    check.expect("nothing is written beside the program", not (check.folder / "written.txt").exists(), "written.txt is there")


def doubts(check: Check) -> None:
    """What bsprun says of a run without its input or its file is told of all runs in a line, also where they are kept, and in Python; and
    nothing is told of runs to which they are given."""
    (check.folder / "needs.c").write_text(NEEDING)
    (check.folder / "given").write_text("3\n")
    words = ["--engine", "plain", "--folder", "doubts", "-n", "1,2", "needs.c"]
    first = "the first one needs.c, 1 node: rank 0, superstep 0: "
    told = [f"2 of 2 runs found no input, {first}a number is read, and the input is empty: give --input FILE"]
    told += [f"2 of 2 runs did not find a file, {first}data.txt was not found: no file of this name was given, and none is in this folder"]
    for name in ("made", "kept"):
        done = check.tool("bspsweep", *words)
        check.expect(f"{name} runs without input", all(f"bspsweep: note: {it}" in done.stderr for it in told) and done.returncode == 0, done)
    done = check.python("import bspemu\nbspemu.sweep('needs.c', nodes=[1, 2], folder='doubts')\n")
    check.expect("in Python", all(f":2: UserWarning: {it}" in done.stderr for it in told), done)
    (check.folder / "data.txt").write_text("3\n")
    done = check.tool("bspsweep", *words, "--input", "given")
    read = "bspsweep: note: 2 of 2 runs read files that nobody gave, the first one needs.c, given, 1 node: data.txt; --file gives them, and --no-files"
    check.expect("runs that find what they need", done.stderr.count("note:") == 1 and read in done.stderr and done.returncode == 0, done)
    done = check.tool("bspsweep", *words, "--input", "given", "--file", "data.txt")
    check.expect("runs with all that they need", "note:" not in done.stderr and done.returncode == 0, done)
    done = check.tool("bspsweep", *words, "--input", "given", "--no-files")
    right = done.stderr.count("note:") == 1 and "2 of 2 runs did not find a file" in done.stderr and done.returncode == 0
    check.expect("runs that may read no file", right, done)


def edited(check: Check) -> None:
    """A result depends on what a run has read, and not on what is there at its end; on files that it was given with another one; and on one
    text of its program."""
    place = check.folder
    for name, text in (("seeks.c", SEEKING), ("parts.c", READING), ("size.txt", "1"), ("part1.txt", "9"), ("part2.txt", "100")):
        (place / name).write_text(text)
    for name, text in (("editing", EDITING), ("riscv64-unknown-elf-objcopy", RECOMPILING)):
        (place / name).write_text(text)
        (place / name).chmod(0o755)
    words = ["--engine", "plain", "--folder", "edited"]
    done = check.tool("bspsweep", *words, "seeks.c", environment={"BSPEMU": str(place / "editing"), "PROVED": os.environ["BSPEMU"]})
    right = done.returncode == 1 and "size.txt has changed since the run began" in done.stderr and outcomes(done.stdout) == ["not run"]
    check.expect("a file that is edited while a run reads it", right, done)

    def work() -> int:
        return int(next(csv.DictReader(io.StringIO(check.tool("bspsweep", *words, "--l", "1", "parts.c").stdout)))["w"])

    first = work()
    (place / "part2.txt").write_text("10000")
    second = work()
    (place / "part3.txt").write_text("1")
    third = work()
    (place / "part3.txt").unlink()
    check.expect("files of one form of name", second > first + 9900 and third != second == work(), (first, second, third))
    done = check.tool("bspsweep", *words, "--l", "1,5", "parts.c", "seeks.c")
    check.expect("prices of the clock", "note: parts.c may read the clock" in done.stderr, done.stderr)
    environment = {"PATH": f"{place}:{os.environ['PATH']}", "REST": os.environ["PATH"]}
    done = check.tool("bspsweep", *words, "--define", "N=1,2", "seeks.c", environment=environment)
    check.expect("a program that is edited as it is compiled", done.returncode == 1 and "seeks.c has changed while it was compiled" in done.stderr, done)


def outcomes(text: str) -> List[str]:
    """The outcomes of a table, in its order."""
    return [row["outcome"] for row in csv.DictReader(io.StringIO(text))]


def missing(check: Check) -> None:
    """A run whose place cannot be written, and one whose maker is killed, are told and in the table, and the others are made."""
    words = ["--engine", "plain", "--folder", "kept", "--nodes", "2,3", PROGRAMS[0]]
    check.tool("bspsweep", *words)
    place = next(it.parent for it in (check.folder / "kept/runs").glob("*/job.json") if '"--nodes",\n  "2"' in it.read_text())
    shutil.rmtree(place)
    place.write_text("")
    done = check.tool("bspsweep", *words)
    right = done.returncode == 1 and "its result cannot be kept" in done.stderr and outcomes(done.stdout) == ["not run", "ended"]
    check.expect("a place that cannot be written", right and "Traceback" not in done.stderr, done)
    killing = check.folder / "killing"
    killing.write_text(KILLING)
    killing.chmod(0o755)
    environment = {"BSPEMU": str(killing), "PROVED": os.environ["BSPEMU"]}
    done = check.tool("bspsweep", "--engine", "plain", "--folder", "anew", *words[4:], environment=environment)
    right = done.returncode == 1 and "not made: " in done.stderr and outcomes(done.stdout) == ["not run", "ended"]
    check.expect("a job that is killed", right and "Traceback" not in done.stderr, done)


def fewer(check: Check) -> None:
    """A row has no costs of a run on fewer nodes, where the program takes no more."""
    (check.folder / "two.c").write_text("#include <bsp.h>\nint main(void) { bsp_begin(2); bsp_sync(); bsp_end(); return 0; }\n")
    done = check.tool("bspsweep", "--engine", "plain", "--folder", "kept", "--nodes", "1,2,4", "two.c")
    right = done.returncode == 1 and "two.c, 4 nodes: the program takes 2 nodes in bsp_begin" in done.stderr
    check.expect("a program that takes two nodes", right and outcomes(done.stdout) == ["ended", "ended", "not run"], done)


# Writes more than bsprun repeats a run for, and then looks for a file.
WRITES_MUCH = """\
#include <bsp.h>
#include <stdio.h>
static char line[1 << 16];
int main(void)
{
    bsp_begin(bsp_nprocs());
    for (int i = 0; i < 80; i++)
        fwrite(line, 1, sizeof line, stdout);
    bsp_sync();
    printf("%d\\n", fopen("late.txt", "r") != NULL);
    bsp_end();
    return 0;
}
"""


def late(check: Check) -> None:
    """A table has no costs of a run without a file that is here, where it is too late to repeat the run with it."""
    (check.folder / "much.c").write_text(WRITES_MUCH)
    (check.folder / "late.txt").write_text("1\n")
    words = ["--engine", "plain", "--folder", "kept", "much.c"]
    done = check.tool("bspsweep", *words)
    right = done.returncode == 1 and "late.txt is here, and the run began without it: give it by --file" in done.stderr
    check.expect("a file that is looked for late", right and outcomes(done.stdout) == ["not run"], done)
    done = check.tool("bspsweep", *words, "--file", "late.txt")
    check.expect("the same file by --file", done.returncode == 0 and outcomes(done.stdout) == ["ended"], done)
    (check.folder / "late.txt").unlink()
    done = check.tool("bspsweep", *words)
    check.expect("a file that is not here", done.returncode == 0 and outcomes(done.stdout) == ["ended"], done)


def uncompiled(check: Check) -> None:
    """A program that is not compiled by one choice of its constants is told, and the others are run; if none is, there is no table."""
    (check.folder / "half.c").write_text("#if N > 1\nbroken\n#endif\nint main(void) { return 0; }\n")
    words = ["--engine", "plain", "--folder", "kept", "half.c"]
    done = check.tool("bspsweep", *words, "--define", "N=2,1")
    right = done.returncode == 1 and "half.c -DN=2 was not compiled" in done.stderr and outcomes(done.stdout) == ["not run", "ended"]
    check.expect("one choice of constants", right and "half.c:2:" in done.stderr, done)
    done = check.tool("bspsweep", *words, "--define", "N=2")
    check.expect("no program", done.returncode == 1 and done.stdout == "" and "was not compiled" in done.stderr, done)


def by_engine(
    check: Check, text: str, name: str, words: List[str], environment: Optional[Mapping[str, Optional[str]]] = None, points: Sequence[str] = TWELVE
) -> None:
    """The same sweep by another engine, from nothing."""
    folder = name.replace(" ", "-")
    done = check.tool("bspsweep", *words, "--folder", folder, "-o", f"{folder}.csv", *points, environment=environment)
    path = check.folder / f"{folder}.csv"
    right = done.returncode == 0 and path.exists() and path.read_text() == text
    if "--check" in words:
        right = right and f"{6 if points is TWELVE else 2} runs gave the same again" in done.stderr
    check.expect(f"a sweep by {name}", right, done.stderr)


def slurm(check: Check) -> None:
    """The same sweep by a Slurm of two nodes: as one command, broken off and gone on with, and by a script and its collecting step."""
    if not cluster.may_start():
        check.skip("a sweep by Slurm", "only root may start a Slurm of one's own")
        return
    text = table(check)
    with cluster.Cluster(check.folder.parent / "cluster") as here:
        if not here.is_ready():
            check.tell("a sweep by Slurm", f"its daemons do not start here: {here.said()}")
            return
        by_engine(check, text, "slurm", ["--engine", "slurm"], here.environment)
        where = functools.partial(here.asked, "squeue", "-h", "-t", "R", "-o", "%N")
        used = broken_off(check, text, "slurm", ["--engine", "slurm"], here.environment, where)
        check.expect("both nodes were used", used == set(cluster.NODES), used)
        here.asked("scancel", "--name=bspsweep")
        by_script(check, text, here)


def by_script(check: Check, text: str, here: cluster.Cluster) -> None:
    """The sweep by a script for sbatch."""
    words = ["--folder", "by-hand", *TWELVE]
    done = check.tool("bspsweep", "--script", *words)
    start = shlex.split(done.stdout.splitlines()[0])[-1]
    begun = subprocess.run(["sbatch", "--wait", start], capture_output=True, text=True, check=False, env=here.environment)
    check.expect("a script for sbatch", begun.returncode == 0, done.stdout + begun.stderr)
    becomes_true(lambda: len(list((check.folder / "by-hand/runs").glob("*/run.json"))) == 6)
    done = check.tool("bspsweep", *words)
    right = done.stdout == text and "6 of 6 runs were cached" in done.stderr
    check.expect("its collecting step", right, done.stderr)


def remote(check: Check) -> None:
    """The same sweep by GNU parallel over ssh, to this host by two names: in one go with a check, and broken off and gone on with."""
    if not cluster.may_start():
        check.skip("a sweep over ssh", "only root may start its server")
        return
    text = table(check)
    with cluster.Remote(check.folder.parent / "remote") as here:
        if not here.is_ready():
            check.tell("a sweep over ssh", f"its server does not start here: {here.said()}")
            return
        by_engine(check, text, "ssh", ["--hosts", "one,two", "--check"], here.environment)
        broken_off(check, text, "ssh", ["--hosts", "one,two", "--jobs", "1"], here.environment, list)


def broken_off(
    check: Check, text: str, name: str, words: List[str], environment: Mapping[str, str], where: Callable[[], List[str]]
) -> Set[str]:
    """A sweep that gets Ctrl-C once a run is made, and then is begun once more. Answers where runs were seen."""
    folder = f"broken-off-{name}"
    command = [str(REPO / "bspsweep"), *words, "--folder", folder, *TWELVE]
    seen: Set[str] = set()
    pipes: Dict[str, Any] = {"stdin": subprocess.DEVNULL, "stdout": subprocess.PIPE, "stderr": subprocess.PIPE}
    with subprocess.Popen(command, cwd=check.folder, env=environment, **pipes) as tool:

        def is_begun() -> bool:
            seen.update(where())
            return bool(list((check.folder / folder / "runs").glob("*/run.json")))

        becomes_true(is_begun)
        tool.send_signal(signal.SIGINT)
        out, _ = tool.communicate()
    check.expect(f"a sweep by {name} that is broken off", (tool.returncode, out) == (130, b""), (tool.returncode, out))
    if name == "slurm":
        subprocess.run(["scancel", "--name=bspsweep"], check=False, env=environment)
        becomes_true(lambda: not where())
    made = len(list((check.folder / folder / "runs").glob("*/run.json")))
    done = check.tool("bspsweep", *words, "--folder", folder, *TWELVE, environment=environment)
    before = f"{made} of 6 runs {'was' if made == 1 else 'were'} cached"
    right = 0 < made < 6 and done.stdout == text and before in done.stderr
    check.expect(f"a sweep by {name} that is gone on with", right, f"{made} {done.stderr}")
    return seen


def becomes_true(question: Callable[[], bool]) -> None:
    """Waits until something is so, and no longer than it may take."""
    deadline = time.monotonic() + cluster.SECONDS
    while time.monotonic() < deadline and not question():
        time.sleep(0.1)


def differing(check: Check) -> None:
    """A record that is not what the run gives is named."""
    done = check.tool("bspsweep", "--engine", "plain", "--folder", "plain", "--check", "--nodes", "2", *PROGRAMS)
    check.expect("a check where all is well", done.returncode == 0 and "2 runs gave the same again" in done.stderr, done.stderr)
    for path in (check.folder / "plain/runs").glob("*/run.json"):
        place = Place(path.parent)
        record = place.found()
        if record and json.loads(place.job.read_text())["words"][1] == "2":
            place.give_ticket()
            place.keep({**record, "costs": {**record["costs"], "w": 5}})
    (check.folder / "old.csv").write_text("old\n")
    for target in ("", "new.csv", "old.csv"):
        words = ["-o", target] * bool(target)
        done = check.tool("bspsweep", "--engine", "plain", "--folder", "plain", "--check", "--nodes", "2", *words, *PROGRAMS)
        right = done.returncode == 1 and done.stderr.count("another result") == 2 and not done.stdout
        check.expect(f"a check that finds two {target}", right and done.stderr.endswith("no table was written\n"), done.stderr)
    right = not (check.folder / "new.csv").exists() and (check.folder / "old.csv").read_text() == "old\n"
    check.expect("no table of a check that fails", right, "there is one")


def damaged(check: Check) -> None:
    """A record that is not what was written counts as not made, and is made again."""
    words = ["--engine", "plain", "--folder", "plain", "--nodes", "2", PROGRAMS[0]]
    text = check.tool("bspsweep", *words).stdout
    found = (check.folder / "plain/runs").glob("*/run.json")
    path = next(it for it in found if f",{json.loads(it.read_text())['record']['costs']['w']}," in text)
    whole = path.read_text()
    contents = {"empty": "", "cut": whole[:40], "no record": "[]", "another form": '{"record": [], "seal": 1}', "deep": "[" * 100_000}
    contents["changed"] = whole.replace('"w": 6', '"w": 5')
    for name, content in contents.items():
        path.write_text(content)
        (path.parent / "run.seconds").write_text("")
        done = check.tool("bspsweep", *words)
        right = done.returncode == 0 and done.stdout == text and path.read_text() == whole and "1 of 1 run done" in done.stderr
        check.expect(f"a record that is damaged: {name}", right, done.stdout + done.stderr)


def forged(check: Check) -> None:
    """What was kept with another key is told, and made again; no ticket is left if all is made; and without a folder for a key, a line says
    so, and there is no script that nobody could collect."""
    words = ["--engine", "plain", "--folder", "forged", "--nodes", "2", PROGRAMS[0]]
    text = check.tool("bspsweep", *words).stdout
    path = next((check.folder / "forged/runs").glob("*/run.json"))
    record = json.loads(path.read_text())["record"]
    sealed_results.keep(path, "0123456789abcdef:ticket", {**record, "costs": {**record["costs"], "w": 5}})
    done = check.tool("bspsweep", *words)
    told = "bspsweep: 1 result in forged was not sealed with your key, and was made again\n"
    check.expect("a forged result", done.stdout == text and done.stderr.startswith(told), done)
    check.expect("no ticket is left", not list(path.parent.glob("*.ticket")), list(path.parent.iterdir()))
    homeless = {"HOME": None, "XDG_STATE_HOME": None}
    done = check.tool("bspsweep", *words, environment=homeless)
    right = done.stdout == text and done.stderr.startswith("bspsweep: cannot save a key for your results")
    check.expect("no place for a key", right and "1 of 1 run done" in done.stderr, done)
    done = check.tool("bspsweep", "--script", *words, environment=homeless)
    check.expect("a script without a key", done.returncode == 1 and not done.stdout, done)


def keys(check: Check) -> None:
    """The same bytes under another path give the same, and what changes while a sweep is under way is told."""
    image = (REPO / "tests/tools/c/found/words.elf").read_bytes()
    long = check.folder / "a path that is longer"
    long.mkdir()
    (check.folder / "lines.txt").write_text("some words\n")
    rows = []
    for place, folder in ((check.folder, "short"), (long, "long")):
        (place / "words.elf").write_bytes(image)
        words = ["--engine", "plain", "--folder", folder, "--args", "one two", "--file", "lines.txt", str(place / "words.elf")]
        done = check.tool("bspsweep", *words)
        rows += [[row["w"], row["outcome"]] for row in csv.DictReader(io.StringIO(done.stdout))]
    check.expect("the same bytes under a longer path", len(rows) == 2 and rows[0] == rows[1], rows)
    done = check.tool("bspsweep", "--script", "--folder", "late", "--file", "lines.txt", str(long / "words.elf"))
    place = next((check.folder / "late/runs").iterdir())
    for path, content in ((check.folder / "lines.txt", b"others\n"), (long / "words.elf", image + b"more")):
        before = path.read_bytes()
        path.write_bytes(content)
        done = check.tool("bspsweep", "--make", str(place), "run")
        told = (place / "run.failed").read_text() if (place / "run.failed").exists() else ""
        right = done.returncode == 1 and "has changed since the sweep began" in told and not (place / "run.json").exists()
        check.expect(f"a run whose {path.name} was changed", right, done.stderr + told)
        path.write_bytes(before)


def machines(check: Check) -> None:
    """Machines give each number of nodes the prices that were measured there, exactly, beside other prices; a table of one's own adds sizes to
    them, and its lines count before the others."""
    (check.folder / "own.txt").write_text("\ufeffmine 2 1e9 12 70.4 4 measured here\nt3e-16 16 1e9 8 5 8 another one\nt3e-1 1 35e6 0 0.5 3 assumed\n")
    own: Dict[str, Optional[str]] = {"BSP_MACHINES": "own.txt"}
    words = ["--engine", "plain", "--folder", "machines"]
    done = check.tool("bspsweep", *words, "--machine", "t3e,mine", "--prices", "1/3:9", *PROGRAMS, environment=own)
    rows = list(csv.DictReader(io.StringIO(done.stdout)))
    found = {(row["machine"], int(row["nodes"])): (row["g"], row["l"]) for row in rows}
    sizes = {1: ("0", "0.5"), 2: ("3.5", "486"), 4: ("3.875", "679"), 8: ("3.875", "1193"), 16: ("1", "5"), 32: ("9", "1145"), 64: ("9.75", "1825")}
    wanted = {("t3e", nodes): prices for nodes, prices in sizes.items()}
    wanted.update({("", nodes): ("1/3", "9") for nodes in sizes})
    wanted["mine", 2] = ("3", "70.4")
    check.expect("each number of nodes has its prices", len(rows) == 30 and found == wanted, done.stdout + done.stderr)
    check.expect("exact totals at the prices of machines", all(map(is_exact, rows)), done.stdout)
    done = check.tool("bspsweep", *words, "--machine", "t3e-8", PROGRAMS[0])
    found = {(row["machine"], int(row["nodes"])): (row["g"], row["l"]) for row in csv.DictReader(io.StringIO(done.stdout))}
    check.expect("one size of a machine alone", found == {("t3e-8", 8): ("3.875", "1193")}, done.stdout + done.stderr)
    done = check.tool("bspsweep", *words, "--machine", "t3e", "-n", "2,3", "--interpolate", "linear", PROGRAMS[0])
    found = {(row["machine"], int(row["nodes"])): (row["g"], row["l"]) for row in csv.DictReader(io.StringIO(done.stdout))}
    wanted = {("t3e (linear)", 2): ("3.5", "486"), ("t3e (linear)", 3): ("3.6875", "582.5")}
    check.expect("between two sizes of a machine, and named", found == wanted, done.stdout + done.stderr)
    refused = {
        ("t3e-8,no",): "'no' is not a known machine; these are: t3e-2, t3e-4",
        ("t3e", "-n", "2,3"): "t3e has no prices on 3 nodes; it has them on 2, 4, 8, 16, 32, 64: give such numbers by --nodes, or add --interpolate linear",
        ("t3e", "-n", "1,2", "--interpolate", "linear"): "t3e has no prices on 1 node; it has them on 2, 4, 8, 16, 32, 64",
        ("t3e-8", "-n", "4"): "t3e-8 has no prices on 4 nodes; it has them on 8: give such numbers by --nodes, or add a line",
    }
    for asked, line in refused.items():
        done = check.tool("bspsweep", *words, "--machine", *asked, *PROGRAMS)
        right = done.returncode == 1 and not done.stdout and done.stderr.startswith(f"bspsweep: {line}")
        check.expect(f"the refusal of --machine {' '.join(asked)}", right, done.stdout + done.stderr)


def is_exact(row: Mapping[str, str]) -> bool:
    """Whether the total of a row is what its sums come to at its prices, in rational numbers."""
    g, l, total = (Fraction(row[name]) for name in ("g", "l", "total"))
    return total == int(row["w"]) + g * int(row["h"]) + l * int(row["supersteps"])


def odd(check: Check) -> None:
    """Folders with a line feed, and arguments and names that begin with a dash."""
    text = table(check, TWO)
    for engine in ("plain", "parallel"):
        if engine == "plain" or not check.tally.lacks(PARALLEL, "a folder of an odd name by GNU parallel"):
            done = check.tool("bspsweep", "--engine", engine, "--folder", f"{engine}\n'a'", *TWO)
            check.expect(f"a folder with a line feed by {engine}", done.returncode == 0 and done.stdout == text, done.stderr)
    (check.folder / "-x").write_text("7\n")
    words = ["--engine", "plain", "--file=-x", "--input=-x", "--args=-n 3 --report", str(REPO / "tests/tools/c/found/words.elf")]
    done = check.tool("bspsweep", *words)
    check.expect("names that begin with a dash", done.returncode == 0 and ",ended\n" in done.stdout, done.stderr)
    done = check.tool("bspsweep", *words[:2], "--args=1", "--", words[-1])
    check.expect("-- in front of a program is no argument", outcomes(done.stdout) == ["ended"], done.stdout + done.stderr)


def others(check: Check) -> None:
    """Results, or a part of them, that are another's, or where others may write, are refused with what to do, and nothing of them is run."""
    text = table(check, TWO)
    words = ["--engine", "plain", "--folder", "kept", *TWO]
    for mask in (0o002, 0o000):
        before = os.umask(mask)
        done = [check.tool("bspsweep", *words[:3], f"kept-{mask}", *TWO) for _ in range(2)][-1]
        os.umask(before)
        check.expect(f"a second sweep with umask {mask:03o}", done.returncode == 0 and done.stdout == text, done.stderr)
    check.tool("bspsweep", *words)
    kept = check.folder / "kept"
    for name in ("", "runs", next((kept / "runs").iterdir()).name):
        place = kept / "runs" / name if len(name) > 4 else kept / name
        for told in ("if everything in it is yours, or give", *["it belongs to another user"] * (os.geteuid() == 0)):
            if told.startswith("it"):
                os.chown(place, 65534, 65534)
            else:
                place.chmod(0o775)
            done = check.tool("bspsweep", *words)
            place.chmod(0o755)
            os.chown(place, os.geteuid(), -1)
            right = done.returncode == 1 and f"no results can be saved in {place}: " in done.stderr and told in done.stderr and "another folder by --folder" in done.stderr
            check.expect(f"{place.name} of others: {told}", right and (len(name) > 4) == bool(done.stdout), done.stderr)
    (check.folder / ".bspsweep").symlink_to("kept")
    done = check.tool("bspsweep", "--engine", "plain", *TWO)
    check.expect("results that are a link", done.returncode == 1 and ".bspsweep: it is a link. Give another folder by --folder" in done.stderr, done.stderr)


def unheld(check: Check) -> None:
    """Where others may rename the results, and put theirs in the place, no list of commands is written there that a shell is given later."""
    stub, place = check.folder / "bin", check.folder / "open"
    for it in (stub, place):
        it.mkdir()
    (stub / "sbatch").write_text(SBATCH)
    (stub / "sbatch").chmod(0o755)
    place.chmod(0o777)
    for more in (["--script"], ["--engine", "slurm"]):
        done = check.tool("bspsweep", *more, "--folder", "open/kept", *TWO, environment={"PATH": f"{stub}:{os.environ['PATH']}"})
        right = done.returncode == 1 and f"other users may rename files in {place}: give another folder" in done.stderr
        left = [*place.rglob("commands*")]
        check.expect(f"{' '.join(more)} where others may rename", right and not left and "start it" not in done.stdout, (done, left))


def hostile(check: Check) -> None:
    """Names of hosts that are commands for a shell are refused, and those of folders are none by Slurm either."""
    for host in ("a;touch pwned", "$(touch pwned)", "`touch pwned`", "one,-oProxyCommand=touch pwned", "x y", "", "@file", "..", "one,"):
        done = check.tool("bspsweep", f"--hosts={host}", "--folder", "kept", *TWO)
        right = done.returncode == 1 and "is not the name of a host" in done.stderr and done.stderr.count("\n") == 1
        check.expect(f"the host {host}", right and not list(check.folder.iterdir()), done.stderr)
    stub = check.folder / "bin"
    stub.mkdir()
    (stub / "sbatch").write_text(SBATCH)
    (stub / "sbatch").chmod(0o755)
    text, path = table(check, TWO), f"{stub}:{os.environ['PATH']}"
    done = check.tool("bspsweep", "--engine", "slurm", "--sbatch=--array=0-0", "--folder", "few", *TWO, environment={"PATH": path})
    check.expect("fewer tasks of Slurm than runs", done.stdout == text, done.stderr)
    shutil.rmtree(check.folder / "few")
    for name in ("$(touch pwned)", "a;touch pwned", "a\n'b'", "--wait", "%j #x"):
        done = check.tool("bspsweep", "--engine", "slurm", f"--folder={name}", *TWO, environment={"PATH": path})
        left = [it.name for it in check.folder.iterdir() if it.name not in ("bin", "plain")]
        lists = list((check.folder / name / "lists").iterdir())
        check.expect(f"a folder {name} by Slurm", done.stdout == text and left == [name] and not lists, (done.stderr, left, lists))
        shutil.rmtree(check.folder / name)


def links(check: Check) -> None:
    """A link in the results is replaced, and not followed; so is a pipe, for which nobody waits. Lists for a shell are new files."""
    text = table(check, TWO)
    outside = check.folder / "outside"
    outside.mkdir()
    (outside / "bashrc").write_text("mine\n")
    words = ["--engine", "plain", "--folder", "kept", *TWO]
    check.tool("bspsweep", *words)
    kept = check.folder / "kept"
    keys_of = [it.name for it in (kept / "runs").iterdir()]

    def expect(name: str, *more: str) -> None:
        done = check.tool("bspsweep", *more, *words[2 * len(more[:1]):])
        right = done.returncode == 0 and (more or done.stdout == text)
        left = {it.name: it.read_text() for it in outside.iterdir()}
        check.expect(f"{name} in the results", bool(right) and left == {"bashrc": "mine\n"}, (done.stderr, left))

    for key in keys_of:
        for name in ("job.json", "run.json", "run.seconds", "run.failed"):
            (kept / "runs" / key / name).unlink(missing_ok=True)
            (kept / "runs" / key / name).symlink_to("../../../outside/bashrc")
    expect("links for files")
    for key in keys_of:
        for name in ("job.json", "run.json", "run.seconds"):
            (kept / "runs" / key / name).unlink()
            os.mkfifo(kept / "runs" / key / name)
    expect("pipes for files")
    for key in keys_of:
        shutil.rmtree(kept / "runs" / key)
        (kept / "runs" / key).symlink_to("../../outside")
    expect("links for runs")
    for name in ("runs", "lists", "programs"):
        shutil.rmtree(kept / name, ignore_errors=True)
        (kept / name).symlink_to("../outside")
    expect("links for folders")
    shutil.rmtree(kept / "runs")
    (kept / "runs").symlink_to("../outside")
    expect("a link for the list of a script", "--script")
    lists = [it for it in (kept / "lists").rglob("*")]
    is_private = all(it.parent == kept / "lists" and it.stat().st_mode & 0o777 == 0o700 for it in lists if it.name.startswith("tmp"))
    check.expect("lists of a script", len(lists) == 4 and is_private, lists)


def refusals(check: Check) -> None:
    """One line says what is wrong."""
    tried = {
        ("--nodes", "0", PROGRAMS[0]): "bspsweep: argument -n/--nodes: '0': the number of nodes is a whole number from 1 to 65536",
        ("--nodes", "4:x", PROGRAMS[0]): "bspsweep: argument -n/--nodes: 'x'",
        ("--prices", "4", PROGRAMS[0]): "bspsweep: argument --prices: '4': give prices as G:L",
        ("--define", "N", PROGRAMS[0]): "bspsweep: argument --define: 'N': give a constant as",
        **{
            ("--define", f"{it}=1,2", PROGRAMS[0]): f"bspsweep: argument --define: '{it}=1,2': {it} is a column of the table already: choose another"
            for it in ("program", "nodes", "g", "l", "machine", "input", "args", "supersteps", "w", "h", "m", "total", "outcome")
        },
        ("--define", "N=1", PROGRAMS[0]): f"bspsweep: {PROGRAMS[0]} is compiled already: --define is for programs in C",
        ("--args", "'", PROGRAMS[0]): "bspsweep: argument --args: \"'\": No closing quotation",
        ("--nodes", "1:1000", "--g", "1:1000", PROGRAMS[0]): "bspsweep: the sweep has 1000000 points; the limit is 100000",
        ("--make", PROGRAMS[0]): "bspsweep: unrecognized arguments: --make",
        ("--make", "absent", "run"): "bspsweep: absent/job.json: No such file or directory",
        ("--engine", "plain", "--jobs", "3", PROGRAMS[0]): "bspsweep: --engine plain makes one run after another, whatever --jobs says",
        ("absent.s",): "bspsweep: absent.s: No such file or directory",
        ("--input", "absent", PROGRAMS[0]): "bspsweep: absent: No such file or directory",
        ("-o", "absent/t.csv", "--folder", "plain", "--nodes", "3", PROGRAMS[0]): "absent/t.csv: No such file or directory",
    }
    for words, text in tried.items():
        done = check.tool("bspsweep", *words)
        check.expect(f"bspsweep {' '.join(words)}", done.returncode == 1 and text in done.stderr, done.stderr)
    told = check.python("import bspemu\ntry:\n    bspemu.sweep('ring.c', defines={'m': [1, 2]})\nexcept bspemu.BspError as error:\n    print(error)\n")
    check.expect("a column as a constant in Python", "m is a column of the table already: choose another name" in told.stdout, told)


def ended(check: Check) -> None:
    """A run that does not end is a row with its outcome, a line and a status; one that cannot be made is a row without costs, a status that
    counts before that one, and is tried again."""
    words = ["--engine", "plain", "--nodes", "1:2", "--folder", "stopped", str(REPO / "examples/give_up.elf")]
    done = check.tool("bspsweep", *words)
    outcomes = [row["outcome"] for row in csv.DictReader(io.StringIO(done.stdout))]
    told = "bspsweep: 1 of 2 runs did not end well: " + words[-1] + ", 2 nodes: rank 1 stopped: aborted\n"
    right = (done.returncode, outcomes) == (2, ["ended", "rank 1 stopped: aborted"]) and done.stderr.endswith(told)
    check.expect("runs that do not end", right, done)
    done = check.tool("bspsweep", "--nodes", "3", *words, "--check")
    told = "2 of 3 runs did not end well, the first one " + words[-1] + ", 3 nodes: rank 1 stopped: aborted\n"
    check.expect("runs that do not end, checked", done.returncode == 2 and told in done.stderr and "gave the same" in done.stderr, done)
    (check.folder / "bad.elf").write_bytes(b"\x7fELF" + bytes(60))
    for _ in range(2):
        done = check.tool("bspsweep", "--engine", "plain", "--folder", "stopped", "bad.elf")
        right = done.returncode == 1 and done.stdout.splitlines()[1].endswith(",,,,,not run") and "was compiled for another machine" in done.stderr
        check.expect("a run that cannot be made", right and "1 of 1 run done" in done.stderr, done.stdout + done.stderr)
    done = check.tool("bspsweep", *words, "bad.elf")
    check.expect("both of them", done.returncode == 1 and "1 of 2 runs did not end well" in done.stderr, done)


def repeated(check: Check) -> None:
    """An option with a list that is given again adds to the list, and what is given twice is one point."""
    (check.folder / "parts.c").write_text(SOURCE)
    begin = ["--engine", "plain", "--folder", "parts"]
    several = ["--define", "N=10", "--define", "N=20,10", "-n", "2", "-n", "4,2", "--g", "1", "--g", "2", "--l", "3", "--l", "3", "--prices", "4:5"]
    several += ["--prices", "6:7,4:5", "--machine", "t3e", "--machine", "t3e", "--args", "9", "--args", "9", "parts.c", "parts.c"]
    whole = ["--define", "N=10,20", "-n", "2,4", "--g", "1,2", "--l", "3", "--prices", "4:5,6:7", "--machine", "t3e", "--args", "9", "parts.c"]
    tables = [check.tool("bspsweep", *begin, *words) for words in (several, whole)]
    check.expect("lists in several parts", tables[0].stdout == tables[1].stdout != "", tables[0].stdout[:200] + tables[0].stderr)


def sources(check: Check) -> None:
    """A program in C, with constants, arguments and inputs."""
    (check.folder / "ring.c").write_text(SOURCE)
    (check.folder / "input.txt").write_text("7\n")
    words = ["--engine", "plain", "--folder", "c", "--nodes", "1,2", "--define", "N=10,100", "--args", "3", "--args", "2"]
    done = check.tool("bspsweep", *words, "--input", "input.txt", "ring.c")
    rows = list(csv.DictReader(io.StringIO(done.stdout)))
    found = [(row["args"], row["N"], row["nodes"], row["h"], row["outcome"][:6]) for row in rows]
    wanted = []
    for size in ("10", "100"):
        for word in ("3", "2"):
            # On one node the put goes to the rank itself, which h leaves out.
            moved = {"1": "0", "2": str(4 * int(size))}
            wanted += [(word, size, p, moved[p], "rank 0" if p == word else "ended") for p in ("1", "2")]
    check.expect("a program in C", found == wanted, f"{found} {done.stderr}")
    done = check.tool("bspsweep", "--define", "N=x", "ring.c")
    check.expect("a constant that is wrong", done.returncode == 1 and "ring.c -DN=x was not compiled" in done.stderr, done.stderr)
