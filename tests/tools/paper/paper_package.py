"""The Python package: runs and sweeps against the tools' own reports, its wheel outside of a checkout, the paper's script, the notebook."""

from __future__ import annotations

import importlib.util
import json
import os
import pathlib
import shutil
import subprocess
import sys
from typing import Dict, List, Tuple

from base import REPO, Check, Parts
from checks import COMPILER, SECONDS, Part, Tool, becomes_true, commands_with, tracked


def in_python(name: str) -> bool:
    """Whether this Python has a module."""
    return importlib.util.find_spec(name) is not None


PANDAS = Tool("pandas", "python3-pandas", in_python)
NBCONVERT, KERNEL = Tool("nbconvert", "python3-nbconvert", in_python), Tool("ipykernel", "python3-ipykernel", in_python)
WHEEL, PIP = Tool("wheel", "python3-wheel", in_python), Tool("pip", "python3-pip", in_python)
PAPER = REPO / "examples/paper"
MOST_LINES = 30
# What a researcher types. Each line that is printed is compared with what the tools say.
SCRIPT = """
import concurrent.futures, fractions, json, os, sys, warnings
import bspemu
from bspemu._runs import Command, made
print(sorted({"pandas", "matplotlib", "IPython"} & set(sys.modules)))
run = bspemu.run("sieve.c", nodes=4, args=[1000])
steps = run.supersteps
print(json.dumps([run.output, run.outcome, int(steps["w"].sum()), int(steps["h"].sum()), len(steps)]))
print(json.dumps([str(run.cost(it, 7)) for it in ("31/8", 3.875, fractions.Fraction(31, 8), 4)]))
ranks = run.profile
print(json.dumps([int(ranks.groupby("superstep")["ticks"].max().sum()), int(ranks["sent"].sum()), int(run.transfers.query("rank != to")["bytes"].sum())]))
print(int(run.lines["w"].sum()), str(steps.dtypes["w"]), run.lines["function"].iloc[0])
for figure in (run.timeline(l=200), run.matrix(), run.costs(g="31/8", l=10)):
    print(type(figure).__module__, "<svg" in figure._repr_svg_())
wrote = bspemu.run("wrote.c", input="7\\n")
print(wrote.files, wrote.output)
built, cell = bspemu.run("wrote.elf", input="7\\n"), made(Command([], "cell.c", [], b"", open("wrote.c").read()), True)
priced = bspemu.run("sieve.c", nodes=4, args=[1000], options=["--g", "4", "--l", "7", "--summary"])
print(json.dumps([priced.cost(), priced.cost(4, 7), run.cost() == run.w + run.h, priced.cost(l=0) == run.cost(4), priced.told, priced.w == run.w]))
many, far = bspemu.run("three.s", nodes=1500), bspemu.run(os.path.abspath("sieve.c"), nodes=4, args=[1000])
print(built.files, [int(it.lines["w"].sum()) == it.w for it in (wrote, built, cell)] + [far.w == run.w], os.path.exists("a.txt"))
for bad in (lambda: bspemu.run("none.c"), lambda: bspemu.run("three.c"), lambda: bspemu.sweep("none.c"), lambda: sweep.curves(x="N"),
            lambda: bspemu.sweep("sieve.c", prices=["5"]), lambda: run.cost(g="a"), lambda: bspemu.run("sieve.c", options=["--report=r.csv"]),
            lambda: sweep.curves(g="4"), lambda: sweep.map(x="N"), lambda: run.cost(-1), lambda: bspemu.run("sieve.c", nodes=0),
            lambda: bspemu.run("sieve.c", options="--help"), lambda: many.profile):
    try:
        bad()
    except bspemu.BspError as error:
        print(json.dumps([error.status, str(error).splitlines()[0], error.run is not None]))
        sweep = bspemu.sweep("sieve.c", nodes=[1, 2], prices=["1/3:5"], args=["100"], executor=concurrent.futures.ThreadPoolExecutor(2))
with concurrent.futures.ProcessPoolExecutor(2) as pool:
    sweep = bspemu.sweep(["sieve.c"], nodes=[1, 2, 4], g=[1, "1/3"], l=[10], args=["100"], executor=pool)
sweep.save("sweep.csv")
cut = bspemu.Sweep(sweep.table.replace(",ended\\n", ",rank 0 stopped: aborted\\n", 1), sweep.record)
with warnings.catch_warnings(record=True) as noted:
    warnings.simplefilter("always")
    cut.curves(), cut.curves("c.svg"), cut.tex(), cut.tex("t.tex"), cut.curves(only="nodes=2,4"), sweep.curves()
print(json.dumps([[it.filename.rpartition("/")[2], str(it.message)] for it in noted if "left out" in str(it.message)]))
alone = bspemu.sweep("sieve.c", nodes=4, g="45", l=7, defines={"N": "16"}, args="1000").frame
print(alone[["nodes", "g", "l", "N", "args"]].astype(str).values.tolist(), bspemu.run("sieve.c", nodes=4, args="1000").output == run.output)
print(json.dumps([len(sweep.frame), str(sweep.frame.dtypes["nodes"]), str(sweep.frame.dtypes["total"]), sweep.frame["outcome"].unique().tolist()]))
print(sweep.tex(only=["nodes=1,2", "g=1/3"]).count("&") < sweep.tex(only="nodes=1,2").count("&"))
"""


def parts(make: Parts) -> List[Part]:
    """All of the package."""
    return [
        make.part("a notebook", notebook, tools=(*COMPILER, PANDAS, NBCONVERT, KERNEL)),
        make.part("the script of a paper", script, tools=(*COMPILER, PANDAS)),
        make.part("what Python imports", imported, tools=(*COMPILER, PANDAS)),
        make.part("ends of runs in Python", ends, tools=COMPILER),
        make.part("a wheel outside of the checkout", wheel, tools=(*COMPILER, WHEEL, PIP)),
    ]


def python(folder: pathlib.Path, *words: str, path: str = str(REPO / "tools")) -> "subprocess.CompletedProcess[str]":
    """A run of this Python in a folder, with the package on its path and nothing of the user's."""
    # Options of a class for bsprun, which change what a program costs.
    environment = {**os.environ, "PYTHONPATH": path, "HOME": str(folder), "PYTHONDONTWRITEBYTECODE": "1", "BSPRUN_FLAGS": "-O0"}
    return subprocess.run([sys.executable, *words], cwd=folder, env=environment, capture_output=True, text=True, check=False, timeout=SECONDS)


def imported(check: Check) -> None:
    """What the package says is what the tools say of the same runs."""
    shutil.copy(REPO / "examples/c/sieve.c", check.folder)
    (check.folder / "three.c").write_text("#include <bsp.h>\nint main(void) { bsp_begin(1); bsp_end(); return 3; }\n")
    (check.folder / "three.s").write_text("li a7, 1\necall\n")
    (check.folder / "wrote.c").write_text(
        "#include <stdio.h>\nint main(void) { int n; scanf(\"%d\", &n); FILE *f = fopen(\"a.txt\", \"w\"); fprintf(f, \"%d\", n); fclose(f); return 0; }\n"
    )
    check.tool("bspcc", "-g", "-o", "wrote.elf", "wrote.c")
    (check.folder / "typed.py").write_text(SCRIPT)
    done = python(check.folder, "typed.py")
    lines = done.stdout.splitlines()
    check.expect("what is typed", done.returncode == 0 and len(lines) == 28, done.stdout + done.stderr)
    report = check.tool("bsprun", "-n", "4", "--report", "r.json", "--g", "4", "--l", "7", "sieve.c", "1000")
    told = json.loads((check.folder / "r.json").read_text())
    w, h = (sum(it[name] for it in told["supersteps"]) for name in ("w", "h"))
    count = len(told["supersteps"])
    check.expect("nothing is loaded before it is wanted", lines[0] == "[]", lines[0])
    check.expect("a run", json.loads(lines[1]) == [report.stdout, "ended", w, h, count], lines[1])
    exact = str(w + 31 * h // 8 + 7 * count) if 31 * h % 8 == 0 else ""
    costs = json.loads(lines[2])
    check.expect("costs at any prices", costs[3] == str(told["total"]) and len(set(costs[:3])) == 1 and exact in ("", costs[0]), costs)
    work, sent, moved = json.loads(lines[3])
    check.expect("a profile", work == w and sent == moved > 0, lines[3])
    check.expect("lines", lines[4].split()[:2] == [str(w), "int64"], lines[4])
    check.expect("figures", lines[5:8] == ["matplotlib.figure True"] * 3, lines[5:8])
    check.expect("files and input", lines[8] == "{'a.txt': b'7'} ", lines[8])
    priced = json.loads(lines[9])
    right = priced[:4] == [told["total"], told["total"], True, True] and f"total {told['total']}" in priced[4] and priced[5]
    check.expect("the prices of a run, and no options of the environment", right, priced)
    check.expect("files of an executable, and of lines", lines[10] == "{'a.txt': b'7'} [True, True, True, True] False", lines[10])
    wanted: List[Tuple[int, str]] = [(1, "none.c"), (2, "ended with status 3"), (1, "none.c"), (1, "the table has no column N")]
    wanted += [(1, "'5' is not a pair of prices"), (1, "'a' is not a price"), (1, "--report is not for runs from Python")]
    wanted += [(1, "which has its own prices: give --g and --l to bspsweep"), (1, "--x has no effect on --map: it is for --curves and --table")]
    wanted += [(1, "-1 is not a price"), (1, "bsprun: argument -n/--nodes: '0': "), (1, "--help is not for runs"), (1, "more than 1024 nodes has no profile")]
    for line, (status, text) in zip(lines[11:24], wanted):
        found = json.loads(line)
        check.expect(f"the exception of {text}", found[0] == status and text in found[1] and found[2] == (status == 2), line)
    noted = ["typed.py", "1 of 3 runs did not end well and is left out: sieve.c, 1 node, args 100: rank 0 stopped: aborted"]
    check.expect("warnings of runs that are left out", json.loads(lines[24]) == [noted] * 4, lines[24])
    check.expect("one value in place of a list", lines[25] == "[['4', '45', '7', '16', '1000']] True", lines[25])
    check.expect("a list for an option", lines[27] == "True", lines[27])
    check.expect("a sweep by processes", json.loads(lines[26]) == [6, "Int64", "Float64", ["ended"]], lines[26])
    # The key that seals results is below the home of whoever made them.
    again = [str(REPO / "bspsweep"), "--again", "sweep.csv.json", "--engine", "plain"]
    home = {**os.environ, "HOME": str(check.folder)}
    done = subprocess.run(again, cwd=check.folder, env=home, capture_output=True, text=True, check=False, timeout=SECONDS)
    same = "6 of 6 runs" not in done.stderr and "3 of 3 runs were cached" in done.stderr and "the table is the same" in done.stderr
    check.expect("one store and one record with bspsweep", same, done.stderr)


# Runs what prints more than is taken; and then what does not end. It has more files open than select() takes numbers of.
ENDLESS = """
import bspemu, os, resource
from bspemu import _tools
hard = resource.getrlimit(resource.RLIMIT_NOFILE)[1]
resource.setrlimit(resource.RLIMIT_NOFILE, (min(hard, 4096), hard))
held = [os.open(os.devnull, os.O_RDONLY) for _ in range(1100)]
most, _tools.MOST_OUTPUT = _tools.MOST_OUTPUT, 99
try:
    bspemu.run("prints.c")
except bspemu.BspError as error:
    print(error)
_tools.MOST_OUTPUT = most
print("begins", flush=True)
bspemu.run("loops.c")
"""


def ends(check: Check) -> None:
    """A program that writes without an end does not take all memory, and a Python that is killed leaves no folder and no run."""
    scratch = check.folder / "scratch"
    scratch.mkdir()
    (check.folder / "prints.c").write_text('#include <stdio.h>\nint main(void) { for (int i = 0; i < 100; i++) puts("more"); return 0; }\n')
    (check.folder / "loops.c").write_text("int main(void) { for (;;); }\n")
    environment = {**os.environ, "PYTHONPATH": str(REPO / "tools"), "TMPDIR": str(scratch)}
    with subprocess.Popen([sys.executable, "-c", ENDLESS], cwd=check.folder, env=environment, stdout=subprocess.PIPE, text=True) as child:
        assert child.stdout is not None
        lines = [child.stdout.readline(), child.stdout.readline()]
        begun = becomes_true(lambda: any(" run " in it for it in commands_with(str(scratch))))
        child.kill()
    check.expect("a program that writes more than is taken", "the program writes more than 99 bytes" in lines[0] and lines[1] == "begins\n", lines)
    is_clear = becomes_true(lambda: not commands_with(str(scratch)) and not list(scratch.iterdir()))
    check.expect("a Python that is killed", begun and is_clear, (begun, commands_with(str(scratch)), list(scratch.iterdir())))


def checkout(check: Check) -> pathlib.Path:
    """A copy of what is tracked of the package and of what it stands on, in which building leaves files."""
    top = check.folder / "checkout"
    wanted = ("tools/", "bsplib/", "prebuilt/", "web/", "scripts/toolchain", "LICENSE", "bsp")
    for name in tracked():
        if name.startswith(wanted):
            (top / name).parent.mkdir(parents=True, exist_ok=True)
            shutil.copy2(REPO / name, top / name)
    return top


def wheel(check: Check) -> None:
    """The wheel, made without a registry, runs and sweeps programs where no checkout is."""
    top = checkout(check)
    words = ["-m", "pip", "--no-cache-dir", "--disable-pip-version-check"]
    made = python(check.folder, *words, "wheel", "-q", "--no-build-isolation", "--no-deps", "--no-index", "-w", "wheels", str(top / "tools"))
    found = list((check.folder / "wheels").glob("bspemu-*-py3-none-linux_x86_64.whl"))
    check.expect("a wheel", made.returncode == 0 and len(found) == 1, made.stderr)
    put = python(check.folder, *words, "install", "-q", "--no-deps", "--no-index", "--target", "installed", *map(str, found))
    check.expect("an installation", put.returncode == 0, put.stderr)
    shutil.rmtree(top)
    away = check.folder / "away"
    away.mkdir()
    shutil.copy(REPO / "examples/c/sieve.c", away)
    text = "import bspemu; r = bspemu.run('sieve.c', nodes=2, args=[100]); print(r.output, len(bspemu.sweep('sieve.c', nodes=[1, 2], args=['9']).table))"
    environment: Dict[str, str] = {"PATH": "/usr/bin:/bin", "PYTHONPATH": str(check.folder / "installed"), "HOME": str(away)}
    given = {"cwd": away, "env": environment, "capture_output": True, "text": True, "check": False, "timeout": SECONDS}
    done = subprocess.run([sys.executable, "-c", text], **given)  # type: ignore[call-overload]
    check.expect("the package by itself", done.returncode == 0 and "25 primes up to 100" in done.stdout, done.stdout + done.stderr)
    for name in ("bsprun", "bspcc", "bspemu"):
        done = subprocess.run([str(check.folder / "installed/bin" / name), "--version"], **given)  # type: ignore[call-overload]
        check.expect(f"{name} of the package", done.returncode == 0 and f"{name} 0.1.0" in done.stdout, done.stdout + done.stderr)


def script(check: Check) -> None:
    """The script of the page, in so many lines, makes the table, the curves and the map."""
    copied(check.folder)
    lines = (PAPER / "broadcasts.py").read_text().splitlines()
    check.expect("a short script", len(lines) <= MOST_LINES, len(lines))
    done = python(check.folder, "examples/paper/broadcasts.py", "out")
    names = {it.name for it in (check.folder / "out").glob("*")}
    wanted = {"broadcasts.csv", "broadcasts.csv.json", "table.tex", "curves.pdf", "curves.tex", "map.pdf", "map.tex"}
    check.expect("a paper's table, curves and map", done.returncode == 0 and names == wanted, done.stdout + done.stderr)
    rows = (check.folder / "out/broadcasts.csv").read_text().splitlines()
    check.expect("three machines, seven numbers of nodes, two algorithms", len(rows) == 43, rows)


def copied(folder: pathlib.Path) -> None:
    """Copies the examples, beside which a sweep keeps its results."""
    (folder / "examples/c").mkdir(parents=True)
    shutil.copy(REPO / "examples/c/spread.c", folder / "examples/c")
    shutil.copytree(PAPER, folder / "examples/paper", ignore=shutil.ignore_patterns(".*"))


# A cell with prices: the summary, the run and its figures have the same ones.
CELL = """
from IPython.core.interactiveshell import InteractiveShell
shell = InteractiveShell.instance()
shell.run_line_magic("load_ext", "bspemu")
shell.run_cell_magic("bsp", "-n 2 --g 4 --l 100 --summary", "#include <bsp.h>\\nint main(void) { bsp_begin(2); bsp_sync(); bsp_end(); return 0; }\\n")
run = shell.user_ns["bsp_run"]
print(f"total {run.cost()}" in run.told, run.cost() == run.cost(4, 100), len(run.lines) > 0)
"""


def notebook(check: Check) -> None:
    """The notebook runs from its first cell to its last, and its pictures show themselves."""
    copied(check.folder)
    name = "from-a-program-to-a-figure.ipynb"
    words = ["-m", "nbconvert", "--to", "notebook", "--execute", "--output-dir", "run", f"examples/paper/{name}"]
    done = python(check.folder, *words)
    path = check.folder / "run" / name
    check.expect("a notebook", done.returncode == 0 and path.exists(), done.stderr[-2000:])
    outputs = [it for cell in json.loads(path.read_text())["cells"] for it in cell.get("outputs", [])]
    pictures = [it for it in outputs if "image/svg+xml" in it.get("data", {})]
    check.expect("its pictures", len(pictures) == 3, [list(it.get("data", {})) for it in outputs])
    done = python(check.folder, "-m", "nbconvert", "--to", "html", str(path))
    page = path.with_suffix(".html")
    check.expect("a page of it", done.returncode == 0 and page.exists() and page.read_text().count('src="data:image/svg+xml;base64,') == 3, done.stderr[-2000:])
    said = "".join("".join(it.get("text", [])) for it in outputs)
    check.expect("its texts", "rank 0 has 3" in said and "\\bottomrule" in said and "\\begin{tabular}" in said, said)
    done = python(check.folder, "-c", CELL)
    check.expect("the prices of a cell", done.stdout.endswith("True True True\n"), done.stdout + done.stderr)
