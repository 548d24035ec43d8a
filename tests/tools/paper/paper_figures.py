"""Pictures and texts for papers: points and regions agree with the table, and options that do not suit it are refused."""

from __future__ import annotations

import csv
import io
import itertools
import os
import random
import re
import shutil
import subprocess
from fractions import Fraction
from typing import Dict, List, Tuple

from base import Check, Parts
from checks import REPO, SOON, Part, Tool

from bsptools.plot import best_regions, sweep_axes, sweep_table, tex_texts
from bsptools.plot.best_regions import Candidate, Window
from bsptools.prices import Exact

LATEX = Tool("pdflatex", "texlive-latex-recommended")
# A file that can be opened, and takes no byte.
FULL = Tool("/dev/full", "a kernel that has it", os.path.exists)
# Three programs on some nodes and two settings, at the prices of a machine and at others: w, h and supersteps are made up.
SUMS = {"one": (100, 40, 1), "two_&_%": (150, 16, 2), "three": (90, 100, 1)}
MACHINE = {1: ("0", "0.5"), 2: ("3.5", "486"), 4: ("31/3", "679")}
MISFITS: Dict[Tuple[str, ...], str] = {
    ("--curves", "c.svg", "--x", "M"): "the table has no column M: it has program, nodes, g, l, machine, N",
    ("--curves", "c.svg", "--x", "program"): "--x program: 'one' is not a number; use --x nodes or --x N",
    ("--curves", "c.svg", "--x", "g"): "--x g: the prices of t3e differ for each number of nodes; use --x",
    ("--curves", "c.svg", "--only", "nodes=2"): "all runs have nodes 2, but a line needs several; use --x N",
    ("--curves", "c.svg", "--by", "program"): "at nodes 1 a line has two values, those of g 1 and g none: give --by program,g, --panels g or --only g=1",
    ("--curves", "c.svg", "--panels", "nodes"): "nodes is on the axis, so it separates neither lines nor panels",
    ("--curves", "c.svg", "--only", "N=5"): "no run in it has N 5; there is N 1, 16",
    ("--curves", "c.svg", "--only", "N=16,5"): "no run in it has N 5; there is N 1, 16",
    ("--table", "c.tex", "--only", "N=16,g=1,l=100"): "has N g=1; there is N 1, 16; each column has an --only of its own, as --only g=1",
    ("--curves", "c.svg", "--only", "machine=cray"): "no run in it has machine cray; there is machine none, t3e",
    ("--curves", "c.svg", "--only", "N=1", "--only", "N=5,16"): "--only is given twice for N: give all values at once, as --only N=1,5,16",
    ("--curves", "c.svg", "--x", "w"): "w is what runs cost, and not a setting: only --y can show it",
    ("--curves", "c.svg", "--size", "1in"): "a width of 1in has no room for a name of",
    ("--table", "c.tex", "--decimals", "10"): "the number of decimals",
    ("--curves", "c.gif",): "its name ends with .svg, .png, .pdf, .pgf or .tex",
    ("--table", "c.svg",): "the name of a table for LaTeX ends with .tex",
    ("--curves", "c.svg", "--size", "3"): "a size is a width from 1in to 40in",
    ("--curves", "c.svg", "--size", "3inx1in"): "has no room for",
    ("--curves", "c.svg", "--font", "No Such Font"): "there is no font 'No Such Font' here; serif, sans-serif, monospace are always there",
    ("--map", "m.svg", "--only", "program=one", "--only", "N=1"): "the table has only one program",
    ("--map", "m.svg"): "the runs differ in program and N, but a map compares what does the same work: give --by program --panels N, or --by program,N",
    ("--map", "m.svg", "--only", "N=1", "--panels", "machine"): "g and l are the axes of a map, and machines its dots: leave machine out",
    ("--map", "m.svg", "--by", "program"): "the runs differ in N: give --by program,N, --panels N or --only N=VALUE",
    ("--map", "m.svg", "--only", "N=1", "--g-range", "0:5"): "a logarithmic axis cannot show 0",
    ("--map", "m.svg", "--g-range", "5:1"): "give a range as 0.1:100, the lesser first",
}  # fmt: skip


def parts(make: Parts) -> List[Part]:
    """All but what LaTeX is wanted for."""
    return [
        make.part("regions of what costs least", regions),
        make.part("points of curves", points),
        make.part("tables that do not fit", misfits),
        make.part("texts for TeX", texts),
        make.part("where pictures come from", origins),
        make.part("names of machines in a map", placed),
        make.part("pictures on a full disk", full, tools=(FULL,)),
    ]


def for_latex(make: Parts) -> List[Part]:
    """What LaTeX reads."""
    return [make.part("what LaTeX reads", compiled, tools=(LATEX,))]


def table() -> str:
    """A table as bspsweep writes it."""
    text = io.StringIO()
    rows = csv.writer(text, lineterminator="\n")
    rows.writerow("program,nodes,g,l,machine,input,args,N,supersteps,w,h,m,total,outcome".split(","))
    for (program, (w, h, s)), (nodes, prices), n, machine in itertools.product(SUMS.items(), MACHINE.items(), (1, 16), ("", "t3e")):
        g, l = prices if machine else ("1", "100")
        work, bytes_ = n * w // nodes + nodes, n * h * (nodes - 1)
        total = work + Fraction(g) * bytes_ + Fraction(l) * s
        rows.writerow([program, nodes, g, l, machine, "", "", n, s, work, bytes_, 0, total, "ended"])
    return text.getvalue()


def regions(check: Check) -> None:
    """A point at random lies in the region of the program that costs least there, of random programs; and where a boundary is, two cost the
    same and no other less."""
    chance = random.Random(1)
    window = Window((0, 50), (0, 5000))
    for number in range(60):
        them = [
            Candidate(f"p{i}", sweep_table.Sums(chance.randint(1, 6), chance.randint(0, 9000), chance.randint(0, 400)))
            for i in range(chance.randint(2, 6))
        ]
        found = best_regions.regions(them, window)
        for _ in range(30):
            at = Fraction(chance.randint(1, 4999), 100), Fraction(chance.randint(1, 49999), 10)
            costs = {it.name: it.sums.total(*at) for it in them}
            inside = {it.best.name for it in found if holds(it.corners, at)}
            least = {name for name, cost in costs.items() if cost == min(costs.values())}
            check.expect(f"a point of map {number}", bool(inside & least) and inside <= least, (them, at, inside, least))
        for it in best_regions.boundaries(found):
            costs = {one.name: one.sums.total(*it.ends[0]) for one in them}
            right = costs[it.one.name] == costs[it.other.name] == min(costs.values())
            check.expect(f"a boundary of map {number}", right, (it, costs))


def holds(corners: List[Tuple[Fraction, Fraction]], at: Tuple[Fraction, Fraction]) -> bool:
    """Whether a convex polygon has a point, its edges among it."""
    edges = zip(corners, [*corners[1:], *corners[:1]])
    return all((b[0] - a[0]) * (at[1] - a[1]) - (b[1] - a[1]) * (at[0] - a[0]) >= 0 for a, b in edges)


def points(check: Check) -> None:
    """Each point of a picture has its value in the table, for each kind of axis."""
    (check.folder / "table.csv").write_text(table())
    rows = [row for row in csv.DictReader(io.StringIO(table())) if row["N"] == "16"]
    for y in ("total", "w", "h", "supersteps", "speedup", "efficiency"):
        done = check.tool("bspplot", "table.csv", "--curves", f"{y}.svg", "--y", y, "--only", "N=16", "--panels", "machine")
        told = re.findall(r"<title>([^<]*)</title>", (check.folder / f"{y}.svg").read_text()) if done.returncode == 0 else []
        check.expect(f"points over nodes: {y}", sorted(told) == sorted(wanted(rows, y)), (done.stderr, told, wanted(rows, y)))
    done = check.tool("bspplot", "table.csv", "--curves", "n.svg", "--x", "N", "--only", "nodes=4", "--only", "machine=t3e", "--log", "x")
    text = (check.folder / "n.svg").read_text() if done.returncode == 0 else done.stderr
    total = next(row["total"] for row in rows if (row["program"], row["nodes"], row["machine"]) == ("one", "4", "t3e"))
    check.expect("points over a constant", f"one, N 16: total {total}<" in text and ">N (log)<" in text, text[:200])
    titles = re.findall(r">(t3e|g 1, l 100)<", (check.folder / "total.svg").read_text())
    check.expect("a panel of prices without a machine", sorted(titles) == ["g 1, l 100", "t3e"], titles)
    names = {curve.name for panel in frame("total").panels() for curve in panel.curves}
    check.expect("names of lines", len(names) == 12 and {"one, t3e, N 1", "two_&_%, g 1, l 100, N 16"} <= names, names)


def frame(y: str) -> sweep_axes.Frame:
    """The columns of the table."""
    return sweep_axes.Frame(sweep_table.parse(table()), sweep_axes.Axes(y=y))


def wanted(rows: List[Dict[str, str]], y: str) -> List[str]:
    """What the points of a picture say, worked out from the rows."""
    found = []
    totals = {(row["program"], row["machine"], int(row["nodes"])): Fraction(row["total"]) for row in rows}
    for row in rows:
        nodes, ratio = int(row["nodes"]), Fraction(0)
        if y in ("speedup", "efficiency"):
            ratio = totals[row["program"], row["machine"], 1] / Fraction(row["total"]) / (nodes if y == "efficiency" else 1)
        value = f"{float(ratio):.3g}" if ratio else row[y]
        is_decimal = "/" in value and not 1000 % Fraction(value).denominator
        value = str(float(Fraction(value))) if is_decimal else value
        found.append(f"{row['program'].replace('&', '&amp;')}, nodes {nodes}: {y} {value}")
    return found


def misfits(check: Check) -> None:
    """What does not fit the axes that are asked for is refused with what would, and nothing is written."""
    (check.folder / "table.csv").write_text(table())
    before = set(check.folder.iterdir())
    for words, line in MISFITS.items():
        done = check.tool("bspplot", "table.csv", *words)
        right = done.returncode == 1 and line in done.stderr and set(check.folder.iterdir()) == before
        check.expect(f"the refusal of {' '.join(words)}", right, (done.returncode, done.stderr))
    one = "\n".join(it for it in table().splitlines() if ",4," not in it[:12] and ",1," not in it[:12])
    (check.folder / "one.csv").write_text(one + "\n")
    done = check.tool("bspplot", "one.csv", "--sweep", "s.svg")
    line = "one.csv has no program on several numbers of nodes, over which --sweep and --compare draw lines; for --curves use --x N"
    check.expect("a sweep over one number of nodes", done.returncode == 1 and line in done.stderr, done)


def texts(check: Check) -> None:
    """A table has each value exactly, and nothing of a name is a command of TeX."""
    (check.folder / "table.csv").write_text(table())
    words = ["--only", "N=16", "--only", "machine=t3e"]
    done = check.tool("bspplot", "table.csv", "--table", "t.tex", "--curves", "c.tex", "--map", "m.tex", *words)
    check.expect("texts for TeX", done.returncode == 0, done.stderr)
    lines = (check.folder / "t.tex").read_text().splitlines()
    check.expect("names in a table", "nodes & one & two\\_\\&\\_\\% & three \\\\" in lines, lines)
    rows = {(row["program"], row["nodes"]): row["total"] for row in csv.DictReader(io.StringIO(table())) if row["N"] == "16" and row["machine"]}
    for nodes in ("1", "2", "4"):
        cells = next(it for it in lines if it.startswith(f"{nodes} & "))[:-3].split(" & ")[1:]
        right = [Fraction(it) for it in cells] == [Fraction(rows[program, nodes]) for program in SUMS]
        check.expect(f"values on {nodes} nodes", right, cells)
    text = (check.folder / "c.tex").read_text()
    check.expect("coordinates", text.count("\\addplot") == 3 and "xmode=" in text and "\\addlegendentry{two\\_\\&\\_\\%}" in text, text)
    told = tex_texts.escaped("a\\b{c}$#~^_&%")
    right = told == r"a\textbackslash{}b\{c\}\$\#\textasciitilde{}\textasciicircum{}\_\&\%"
    check.expect("all letters of TeX's own", right, told)


def placed(check: Check) -> None:
    """Names of machines lie within the axes of their map, over no dot and no other name, on a narrow picture too."""
    from bsptools.plot import best_map, paper_style

    sums = [sweep_table.Sums(2, 10, 10_000), sweep_table.Sums(3, 5000, 10)]
    window = Window((Fraction(1, 10), 100), (10, 100_000))
    found = best_regions.regions([Candidate(f"p{at}", it) for at, it in enumerate(sums)], window)
    machines: Dict[Tuple[Exact, Exact], str] = {(Fraction(1, 8), 90): "a chip", (3, 12_000): "cluster (linear)", (5, 99_000): "grid", (4, 1200): ""}
    made = best_map.draw([best_map.Map("4 nodes", found, machines)] * 3, window, None, paper_style.Style(3.3), "")
    made.figure.draw_without_rendering()
    for axes in made.figure.axes:
        frame, texts = axes.get_window_extent(), [it for it in axes.texts if it.get_text()]
        boxes = [it.get_window_extent() for it in texts]
        dots = [axes.transData.transform((float(g), float(l))) for g, l in machines]
        inside = all(frame.x0 <= it.x0 and it.x1 <= frame.x1 and frame.y0 <= it.y0 and it.y1 <= frame.y1 for it in boxes)
        apart = not any(one.overlaps(other) for one, other in itertools.combinations(boxes, 2))
        free = not any(box.contains(*dot) for box in boxes for dot in dots)
        check.expect("names of machines", len(texts) in (0, 3) and inside and apart and free, (boxes, dots, frame))


def full(check: Check) -> None:
    """A disk without room is said to be full, whatever the format is."""
    (check.folder / "table.csv").write_text(table())
    for kind in ("svg", "png", "pdf", "tex"):
        (check.folder / f"full.{kind}").symlink_to("/dev/full")
        done = check.tool("bspplot", "table.csv", "--curves", f"full.{kind}", "--only", "N=16")
        check.expect(f"a full disk: {kind}", done.returncode == 1 and done.stderr == f"bspplot: full.{kind}: No space left on device\n", done.stderr)


def origins(check: Check) -> None:
    """Pictures of each format and texts say what they were drawn from; and twice the same bytes."""
    (check.folder / "table.csv").write_text(table())
    for kind in ("svg", "png", "pdf", "tex"):
        words = ["table.csv", "--curves", f"a.{kind}", "--only", "N=16", "--panels", "machine", "--size", "84mmx60mm", "--font", "serif"]
        check.tool("bspplot", *words)
        content = (check.folder / f"a.{kind}").read_bytes()
        right = b"drawn by" in content and b"sha256" in content and b"84mmx60mm" in content
        check.expect(f"where a picture comes from: {kind}", right, content[:80])
        (check.folder / f"a.{kind}").unlink()
        check.started("bspplot", *words)
        check.expect(f"the same bytes again: {kind}", (check.folder / f"a.{kind}").read_bytes() == content, "others")


def compiled(check: Check) -> None:
    """LaTeX reads tables, curves and maps in both forms, without an error."""
    (check.folder / "table.csv").write_text(table())
    words = ["--only", "N=16", "--size", "3.3in"]
    done = check.tool("bspplot", "table.csv", "--table", "t.tex", "--curves", "c.tex", "--map", "m.tex", *words)
    pgf = check.tool("bspplot", "table.csv", "--curves", "c.pgf", "--map", "m.pgf", *words)
    check.expect("what is written for LaTeX", done.returncode == pgf.returncode == 0, done.stderr + pgf.stderr)
    leaves_nothing(check)
    packages = r"\usepackage{booktabs}\usepackage{pgfplots}\usepgfplotslibrary{groupplots}\usetikzlibrary{patterns}"
    body = "\n\n".join(f"\\input{{{it}}}" for it in ("t.tex", "c.tex", "m.tex", "c.pgf", "m.pgf"))
    (check.folder / "paper.tex").write_text(f"\\documentclass{{article}}{packages}\n\\begin{{document}}\n{body}\n\\end{{document}}\n")
    words = [shutil.which("pdflatex") or "", "-interaction=nonstopmode", "-halt-on-error", "paper.tex"]
    given = {"stdin": subprocess.DEVNULL, "stdout": subprocess.PIPE, "stderr": subprocess.STDOUT, "timeout": SOON}
    latex = subprocess.run(words, cwd=check.folder, check=False, **given)  # type: ignore[call-overload]
    check.expect("a paper", latex.returncode == 0 and (check.folder / "paper.pdf").exists(), latex.stdout[-2000:])


def leaves_nothing(check: Check) -> None:
    """A drawing for TeX leaves no folder of LaTeX where temporary folders are."""
    temp = check.folder / "temp"
    temp.mkdir()
    words = [str(REPO / "bspplot"), "table.csv", "--curves", "c.pgf", "--only", "N=16", "--size", "3.3in"]
    given = {"env": {**os.environ, "TMPDIR": str(temp)}, "stdin": subprocess.DEVNULL, "capture_output": True, "timeout": SOON}
    done = subprocess.run(words, cwd=check.folder, check=False, **given)  # type: ignore[call-overload]
    check.expect("no folder is left", done.returncode == 0 and not list(temp.iterdir()), (done.stderr, list(temp.iterdir())))
