"""Pictures of profiles: each bar and each number agrees with the profile."""

from __future__ import annotations

import html
import json
import math
import os
import pathlib
import re
import subprocess
import sys
from typing import Callable, Dict, List, Tuple

import svg
from base import REPO, SECONDS, Check, Parts
from checks import COMPILER, Part
from profiles import RUNS, file_of, profile_of

from bsptools.limits import MOST_POINTS
from bsptools.plot import picture_options, superstep_costs, sweep_curves, sweep_table
from bsptools.plot.canvas import EXCHANGE, thousands
from bsptools.plot.profile import Profile, Reading, parse

G, L = 3, 70
PRICES = superstep_costs.Prices(G, L)
WORDS = ["--g", str(G), "--l", str(L)]
SWEEP = """\
program,nodes,g,l,input,args,N,supersteps,w,h,total,outcome
one.s,1,1,10,,,100,3,900,0,930,ended
one.s,2,1,10,,,100,3,460,40,530,ended
one.s,4,1,10,,,100,3,240,80,350,ended
one.s,8,1,10,,,100,,,,,not run
two.s,1,1,10,,,100,4,950,0,990,ended
two.s,2,1,10,,,100,4,480,20,540,ended
two.s,4,1,10,,,100,4,250,30,320,ended
"""
LEFT_OUT = "1 of 7 runs did not end well and is left out: one.s, 8 nodes, N 100: not run"
# What is written along each picture, in the order of the SVG: the legend, the axis across, and the one up; up to a colon.
TEXTS = {
    "timeline": ["work", "waiting for the slowest rank", "exchange, g·h", "end of the superstep, l", "time in ticks", "rank"],
    "costs": ["work, w", "exchange, g·h", "end, l", "superstep", "ticks"],
    "matrix": ["to rank", "from rank"],
}
# Options with pictures that do not use them, and what is said.
ITS_OWN = "bspplot: table.csv is the table of a sweep, which has its own prices: give --g and --l to bspsweep, or choose prices of the table by"
UNUSED = {
    ("--g", "4", "--sweep", "t.svg", "table.csv"): f"{ITS_OWN} --curves and --only g=VALUE",
    ("--g", "4", "--l", "0", "--html", "t.html", "table.csv"): ITS_OWN,
    ("--l", "0", "--curves", "t.tex", "table.csv"): f"{ITS_OWN} --curves and --only l=VALUE",
    ("--g", "1", "--matrix", "t.svg", "one_put.csv"): "bspplot: --g has no effect on --matrix: it is for --timeline, --costs, --source and --html of a run",
    ("--apart", "printing", "--matrix", "t.svg", "one_put.csv"): "bspplot: --apart has no effect on --matrix: it is for --timeline, --costs,",
    ("--h", "others", "--map", "t.svg", "table.csv"): "bspplot: --h has no effect on --map: it is for --timeline, --matrix,",
    ("--supersteps", "0:", "--html", "t.html", "table.csv"): "bspplot: --supersteps has no effect on --html of a sweep: it is for --timeline,",
    ("--title", "T", "--table", "t.tex", "table.csv"): "bspplot: --title has no effect on --table: it is for --timeline,",
    ("--setting", "A=1", "--costs", "t.svg", "one_put.csv"): "bspplot: --setting has no effect on --costs: it is for --source and --html\n",
    ("--rate", "1e9", "--html", "t.html", "one_put.csv"): "bspplot: --rate has no effect on --html of a run: it is for --compare and",
    ("--only", "N=100", "--sweep", "t.svg", "--compare", "u.svg", "table.csv"): "bspplot: --only has no effect on --sweep and --compare: it is for --curves,",
    **{
        (f"--{name}", value, f"--{kind}", "t.tex" if kind == "table" else "t.svg", "table.csv"): f"bspplot: --{name} has no effect on --{kind}: it is for"
        for name, value, kind in (
            ("x", "nodes", "map"), ("y", "total", "map"), ("by", "N", "sweep"), ("panels", "N", "compare"), ("log", "none", "table"), ("size", "3in", "table"),
            ("font", "serif", "table"), ("decimals", "2", "curves"), ("g-range", "1:2", "curves"), ("l-range", "1:2", "table"),
        )
    },
}  # fmt: skip
# Calls the command line of bspplot for each list of words that it reads: most of the time of one goes into the import of matplotlib.
COMMAND_LINES = """\
import contextlib, io, json, sys
sys.path.insert(0, sys.argv[1])
from bsptools import start
answers = []
for words in json.load(sys.stdin):
    said = io.StringIO()
    with contextlib.redirect_stderr(said):
        try:
            status = start.main("bspplot", words)
        except SystemExit as ended:
            status = ended.code
    answers.append((status, said.getvalue()))
json.dump(answers, sys.stdout)
"""


def drawn(check: Check, kind: str, source: pathlib.Path, *words: str, note: str = "") -> svg.Drawing:
    """A picture that bspplot draws of a file, of which it notes this."""
    return all_drawn(check, [kind], source, *words, note=note)[0]


def all_drawn(check: Check, kinds: List[str], source: pathlib.Path, *words: str, note: str = "") -> List[svg.Drawing]:
    """Pictures that bspplot draws of a file at once, of which it notes this."""
    paths = [check.folder / f"{kind}.svg" for kind in kinds]
    for kind, path in zip(kinds, paths):
        path.unlink(missing_ok=True)
        words += (f"--{kind}", str(path))
    done = check.tool("bspplot", *words, str(source))
    if done.returncode != 0 or done.stderr != note:
        raise ValueError(f"{' '.join(kinds)} of {source.name}: {done.stderr}")
    return [svg.read(path.read_text()) for path in paths]


def parts(make: Parts) -> List[Part]:
    """A part for each profile, and what else there is to pictures."""
    others = [same_bytes, refusals, unused, unended, forms, sweeps, choices, names, many, readings, scales, printing, bands]
    more = [make.part("counted", counted, tools=COMPILER)]
    return [*more, *(make.part(it.__name__, it) for it in others), *(make.part(f"pictures of {name}", of_profile, name) for name in RUNS)]


def bands(check: Check) -> None:
    """Ranks share bands and rows if there are many: least, mean and most work of a band, and the bytes of a group of ranks."""
    nodes, work = 2048, [100 + rank % 32 for rank in range(2048)]
    lines = ["superstep,rank,to,ticks,sent,received,kept,messages,requests,state"]
    lines += [f"0,{rank},,{work[rank]},{8 * (rank < 8)},{64 * (rank == 9)},0,0,{int(rank < 8)},synced" for rank in range(nodes)]
    lines += [f"0,{rank},9,,8,,,,," for rank in range(8)]
    lines += [f"1,{rank},,{rank},0,0,0,0,0,ended" for rank in range(nodes)]
    source = check.folder / "many.csv"
    source.write_text("".join(f"{it}\n" for it in lines))
    timeline_of, matrix_of = all_drawn(check, ["timeline", "matrix"], source, *WORDS)
    said_of = [f"superstep 0, ranks {first} to {first + 31}: work 100 to 131, 115.5 on average" for first in range(0, nodes, 32)]
    found = [it.text for it in timeline_of.named("band-0-").values()]
    check.expect("bands of ranks", sorted(set(found)) == sorted(said_of), sorted(set(found))[:3])
    named = sorted(it.text for begin in ("sent-", "received-") for it in matrix_of.named(begin).values())
    wanted = ["rank 0 sent 8 bytes to others", "rank 9 received 64 bytes from others"]
    check.expect("the greatest sums of groups of ranks", named == wanted, named[:3])
    sizes = {kind: (check.folder / f"{kind}.svg").stat().st_size for kind in ("timeline", "matrix")}
    check.expect("a picture of many ranks is below 1 MB", all(it < 1_000_000 for it in sizes.values()), sizes)


def of_profile(check: Check, name: str) -> None:
    """The three pictures of a profile."""
    found = profile_of(name)
    pictures = all_drawn(check, ["timeline", "costs", "matrix"], file_of(name), *WORDS)
    looks: List[Callable[[Profile, svg.Drawing], str]] = [timeline, split, matrix]
    for kind, look, picture in zip(("timeline", "costs", "matrix"), looks, pictures):
        texts = (it.partition(": ")[0] for it in picture.texts)
        missing = [it for it in TEXTS[kind] if it not in texts]  # in their order, since that takes all up to the one that is found
        check.tell(f"{kind} of {name}", look(found, picture) + f"the texts {missing} are not in their places" * bool(missing))


def timeline(found: Profile, picture: svg.Drawing) -> str:
    """What is wrong with a timeline: its bars, where they begin and end, and what they say."""
    start = 0
    wanted: Dict[str, Tuple[str, int, int]] = {}
    for it in found.supersteps:
        exchange = start + it.w
        sync = exchange + G * it.h(Reading.OTHERS)
        for rank, share in enumerate(it.shares):
            done = start + share.ticks
            wanted[f"work-{it.number}-{rank}"] = (f"superstep {it.number}, rank {rank}: work {share.ticks}", start, done)
            wanted[f"wait-{it.number}-{rank}"] = (f"superstep {it.number}, rank {rank}: waits {it.w - share.ticks}", done, exchange)
        text = f"superstep {it.number}: g·h = {G} × {it.h(Reading.OTHERS)} = {sync - exchange}"
        wanted[f"exchange-{it.number}"] = (text, exchange, sync)
        wanted[f"sync-{it.number}"] = (f"superstep {it.number}: l = {L}", sync, sync + L)
        start = sync + L
    fault = said(picture, {name: text for name, (text, begin, end) in wanted.items() if end > begin})
    if fault:
        return fault
    places = [(name, begin, picture.marks[name].left) for name, (_, begin, end) in wanted.items() if end > begin]
    places += [(name, end, picture.marks[name].right) for name, (_, begin, end) in wanted.items() if end > begin]
    rows = [(name, int(name.split("-")[2]), (mark.top + mark.bottom) / 2) for name, mark in picture.named("w").items()]
    return "" if picture.are_at("x", places) and picture.are_at("y", rows) else "a bar is not where it should be"


def said(picture: svg.Drawing, wanted: Dict[str, str]) -> str:
    """What is wrong with the names of marks and what they say."""
    here = {name: mark.text for name, mark in picture.marks.items()}
    differing = {name for name in {*here, *wanted} if here.get(name) != wanted.get(name)}
    return "".join(f"{name}: {here.get(name)!r} and not {wanted.get(name)!r}; " for name in sorted(differing)[:3])


def split(found: Profile, picture: svg.Drawing) -> str:
    """What is wrong with the bars of the costs: their heights, what they stand on, what they say, and the sums."""
    wanted: Dict[str, str] = {}
    places: List[Tuple[str, float, float]] = []
    sums = [0, 0, 0]
    for cost in superstep_costs.of_profile(found, Reading.OTHERS):
        low = 0
        for i, (name, label, part) in enumerate(zip(("w", "gh", "l"), ("w", "g·h", "l"), map(int, cost.parts(PRICES)))):
            sums[i] += part
            if part:
                wanted[f"{name}-{cost.number}"] = f"superstep {cost.number}: {label} = {part}"
                mark = picture.marks.get(f"{name}-{cost.number}")
                places += [(f"{name}-{cost.number}", low, mark.bottom), (f"{name}-{cost.number}", low + part, mark.top)] if mark else []
            low += part
    fault = said(picture, wanted)
    if not picture.are_at("y", places):
        fault += "a bar has another height; "
    legend = [it for it in picture.texts if " ticks, " in it]
    if [it.split(": ")[1].split(" ticks")[0] for it in legend] != [thousands(it) for it in sums]:
        fault += f"the sums are {legend}"
    return fault


def matrix(found: Profile, picture: svg.Drawing, reading: Reading = Reading.OTHERS) -> str:
    """What is wrong with a matrix: its cells, where they stand, their numbers, and the margins."""
    sums: Dict[Tuple[int, int], int] = {}
    for it in found.supersteps:
        for pair, count in it.transfers.items():
            sums[pair] = sums.get(pair, 0) + count
    kept = {f"bytes-{one}-{to}" for one, to in sums if one == to and reading is Reading.OTHERS}
    cells = {f"bytes-{one}-{to}": f"{count} bytes from rank {one} to rank {to}" for (one, to), count in sums.items()}
    cells.update({name: f"{cells[name]}, which do not count in h" for name in kept})
    bars = margins(found, reading)
    fault = said(picture, {**cells, **{name: text for name, (text, _) in bars.items()}})
    marks = picture.named("bytes-")
    middles = {name: ((it.left + it.right) / 2, (it.top + it.bottom) / 2) for name, it in marks.items()}
    columns = [(name, int(name.split("-")[2]), x) for name, (x, _) in middles.items()]
    rows = [(name, int(name.split("-")[1]), y) for name, (_, y) in middles.items()]
    if not (picture.are_at("x", columns) and picture.are_at("y", rows)):
        fault += "a cell is not where it should be; "
    hatched = {name for name, it in marks.items() if "url(#" in it.style}
    if hatched != kept:
        fault += f"hatched are {hatched}; "
    if found.nodes <= 16:
        missing = {thousands(count) for count in [*sums.values(), *(count for _, count in bars.values())]} - set(picture.texts)
        fault += f"the numbers {missing} are missing" if missing else ""
    return fault + greatest(found, picture, reading)


def margins(found: Profile, reading: Reading) -> Dict[str, Tuple[str, int]]:
    """The bars beside a matrix: what each says, and its bytes."""
    bars: Dict[str, Tuple[str, int]] = {}
    for rank in range(found.nodes):
        shares = [it.shares[rank] for it in found.supersteps]
        kept = sum(it.kept for it in shares) if reading is Reading.ALL else 0
        for kind, whom, count in (("sent", "to", sum(it.sent for it in shares)), ("received", "from", sum(it.received for it in shares))):
            more = ", with those to itself" if reading is Reading.ALL else f" {whom} others"
            if count + kept:
                bars[f"{kind}-{rank}"] = (f"rank {rank} {kind} {count + kept} bytes{more}", count + kept)
    return bars


def greatest(found: Profile, picture: svg.Drawing, reading: Reading) -> str:
    """What is wrong with the margins of a matrix: how long the bars are, which are marked, and what is said of h."""
    bars = {name: count for name, (_, count) in margins(found, reading).items() if name in picture.marks}
    marks, most, h = picture.marks, max(bars.values(), default=0), sum(it.h(reading) for it in found.supersteps)
    along = [(name, count, marks[name].right) for name, count in bars.items() if name.startswith("sent")]
    along += [(name, 0, marks[name].left) for name in bars if name.startswith("sent")]
    down = [(name, count, marks[name].bottom) for name, count in bars.items() if name.startswith("received")]
    down += [(name, 0, marks[name].top) for name in bars if name.startswith("received")]
    fault = "" if picture.are_at("x", along) and picture.are_at("y", down) else "a sum has another length; "
    marked = {name for name in bars if EXCHANGE in marks[name].style}
    if marked != {name for name, count in bars.items() if count == most}:
        fault += f"marked are {marked}; "
    text = f"the greatest: h = {thousands(h)}" if most == h else f"the sum of h over {len(found.supersteps)} supersteps: {thousands(h)}"
    return fault if any(it.endswith(text) for it in picture.texts) else f"{fault}nothing says {text}"


def readings(check: Check) -> None:
    """The matrix of one superstep, by both ways to count h: its greatest sum is h."""
    whole = profile_of("samplesort")
    one = Profile([it for it in whole.supersteps if it.number == 1])
    for reading in Reading:
        picture = drawn(check, "matrix", file_of("samplesort"), "--supersteps", "1", "--h", reading.value)
        check.tell(f"matrix of a superstep, --h {reading.value}", matrix(one, picture, reading))
        text = f"the greatest: h = {one.supersteps[0].h(reading)}"
        check.expect(f"h of a superstep, --h {reading.value}", text in picture.texts, picture.texts)
    check.expect("both differ", one.supersteps[0].h(Reading.ALL) != one.supersteps[0].h(Reading.OTHERS), "h is the same")


def choices(check: Check) -> None:
    """Pictures of some supersteps, and by the other reading of h."""
    source = file_of("broadcast2")
    one = drawn(check, "matrix", source, "--supersteps", "1")
    check.expect("matrix of one superstep", set(one.named("bytes-")) == {f"bytes-0-{to}" for to in (1, 2, 3)}, one.marks)
    some = drawn(check, "costs", source, "--supersteps", "1:2", "--h", "all", "--html", str(check.folder / "some.html"))
    check.expect("costs of two supersteps", {it.split("-")[1] for it in some.marks} == {"1", "2"}, some.marks)
    page = (check.folder / "some.html").read_text()
    wanted = ["<th>pictures</th><td>supersteps 1 to 2 of 4</td>", "ticks in all 4 supersteps</td>", "(column) in supersteps 1 to 2. "]
    wanted += ["The table has all supersteps.", "<th>h</th><td>what a rank moves to itself counts, too</td>", "What stayed at its rank is in h, too."]
    lacking = [it for it in wanted if it not in page]
    check.expect("a page of two supersteps", not lacking and "all supersteps together" not in page and "hatched" not in page, lacking)
    others = drawn(check, "costs", file_of("inner"))
    check.expect("h of other ranks alone", others.marks["gh-1"].text == "superstep 1: g·h = 24", others.marks["gh-1"])
    whole = drawn(check, "costs", file_of("inner"), "--h", "all")
    check.expect("h of all bytes", whole.marks["gh-1"].text == "superstep 1: g·h = 32", whole.marks["gh-1"])
    rest = drawn(check, "timeline", file_of("lu"), "--supersteps", "12:")
    check.expect("timeline of the last supersteps", {it.split("-")[1] for it in rest.marks} == {"12", "13"}, rest.marks)
    drawn(check, "costs", source, "--supersteps", "0:", "--html", str(check.folder / "whole.html"))
    page = (check.folder / "whole.html").read_text()
    check.expect("a page of all supersteps", "all supersteps together" in page and "<th>pictures</th>" not in page and "ticks in 4 supersteps" in page, page[-999:])


def forms(check: Check) -> None:
    """A report in each of its forms has the costs of its profile."""
    wanted = drawn(check, "costs", file_of("lu"), *WORDS)
    for name in ("costs.csv", "costs.json", "costs.txt"):
        check.tool("bsprun", "-n", "4", "--report", name, str(REPO / "examples/c/lu.elf"))
        found = drawn(check, "costs", check.folder / name, *WORDS)
        check.expect(f"costs of a report, {name}", found == wanted, found)
    check.tool("bsprun", "-n", "4", "--g", "4", "--l", "100", "--report", "priced.json", str(REPO / "examples/c/lu.elf"))
    whole = json.loads((check.folder / "priced.json").read_text())["total"]
    for words, count in (((), 1), (("--g", "4", "--l", "100"), 0)):
        check.tool("bspplot", "--html", "priced.html", *words, "priced.json")
        row = f"<tr><th>total of the report</th><td>{whole:,} ticks, at other prices: give these by --g and --l</td></tr>"
        found_rows = (check.folder / "priced.html").read_text().count(row)
        check.expect(f"a report of other prices, {words}", found_rows == count, (row, found_rows))
    wanted = drawn(check, "costs", file_of("inner"), "--h", "all")
    found = drawn(check, "costs", first_report(check), "--h", "all")
    check.expect("costs of a report by the first version of the ledger", found == wanted, found)


def first_report(check: Check) -> pathlib.Path:
    """A report by the first version of the ledger, of which h counts all bytes."""
    path = check.folder / "first.txt"
    words = [os.environ["BSPEMU"], "run", str(REPO / "examples/c/inner.elf"), "--float", "--nodes", "4", "--report", "--ledger", "1"]
    path.write_bytes(subprocess.run(words, stdin=subprocess.DEVNULL, stdout=subprocess.PIPE, check=True, timeout=SECONDS).stdout)
    return path


def sweeps(check: Check) -> None:
    """Pictures of a sweep: each point's number, its place, and the crossing."""
    source = check.folder / "table.csv"
    source.write_text(SWEEP)
    lines = sweep_table.lines(sweep_table.parse(SWEEP))
    picture = drawn(check, "sweep", source, note=f"bspplot: {LEFT_OUT}\n")
    values = {"total": lambda line, it: line.totals[it], "speedup": sweep_table.Line.speedup, "efficiency": sweep_table.Line.efficiency}
    for kind, value in values.items():
        wanted = {f"{kind}-{i}-{it}": value(line, it) for i, line in enumerate(lines) for it in line.totals}
        marks = picture.named(f"{kind}-")
        numbers = {name: float(mark.text.rpartition(" ")[2]) for name, mark in marks.items()}
        right = set(numbers) == set(wanted) and all(abs(numbers[it] - wanted[it]) <= 0.006 * wanted[it] for it in wanted)
        check.expect(f"numbers of a sweep, {kind}", right, numbers)
        check.expect(f"places of a sweep, {kind}", are_points(picture, wanted, kind != "efficiency"), marks)
    check.expect("speedup on 4 nodes", picture.marks["speedup-0-4"].text == "one.s, 4 nodes: speedup 2.66", picture.marks)
    axes = [it for it in picture.texts if "(logarithmic)" in it]
    wanted_axes = ["nodes (logarithmic)"] * 3 + ["speedup (logarithmic)", "ticks (logarithmic)"]
    check.expect("axes of a sweep", sorted(axes) == wanted_axes, axes)
    one, more = picture.marks["ideal-1"], picture.marks["speedup-0-1"]
    begins = abs(one.left - more.left) < 0.02 and abs(one.bottom - more.top) < 0.02
    check.expect("the ideal", begins and one.text == "ideal: on 4 nodes speedup 4" and "ideal" in picture.texts, one)
    ideal = {"ideal-1": (4.0, one.right, one.top)}
    check.expect("place of the ideal", ends_at(picture, ideal), one)
    check.expect("efficiency on 4 nodes", picture.marks["efficiency-1-4"].text == "two.s, 4 nodes: efficiency 0.773", picture.marks)
    compared = drawn(check, "compare", source, note=f"bspplot: {LEFT_OUT}\n")
    crossing = [mark.text for mark in compared.named("crossing-").values()]
    check.expect("a crossing", crossing == ["from 4 nodes on two.s costs less, at g 1 and l 10"], crossing)
    check.expect("its text", crossing[0] in compared.texts, compared.texts)
    check.expect("axes of a comparison", "total, in ticks (logarithmic)" in compared.texts, compared.texts)
    numbers_up = [value for value, _ in compared.ticks["axes_2 y"]]
    check.expect("numbers up a comparison", len(numbers_up) >= 5, numbers_up)


def scales(check: Check) -> None:
    """Totals have plain numbers along their axis, at least five, whatever their range is."""
    tried: Dict[Tuple[float, float], List[float]] = {
        (90, 1100): [100, 200, 300, 500, 700, 1000],
        (900, 60_000): [1000, 2000, 5000, 10_000, 20_000, 50_000],
        (310, 1050): [400, 500, 600, 700, 800, 900, 1000],
        (930, 990): [930, 940, 950, 960, 970, 980, 990],
        (1, 2e30): [10.0**it for it in range(0, 31, 3)],
    }
    for (low, high), wanted in tried.items():
        found = sweep_curves.ticks(low, high)
        inside = [it for it in found if low <= it <= high]
        check.expect(f"numbers from {low} to {high}", inside == wanted, found)
    doubled = [1 << it for it in range(11)]
    kept = sweep_curves.apart(doubled, sweep_curves.PANEL)
    check.expect("nodes beside one another", kept == [1, 2, 4, 8, 16, 32, 64, 256, 1024], kept)
    check.expect("nodes over a whole width", sweep_curves.apart(doubled, sweep_curves.ALONE) == doubled, "some are left out")


def names(check: Check) -> None:
    """Lines are named by what tells them apart."""
    tried = {
        "one program": (SWEEP.replace("two.s", "one.s"), ["one.s"]),
        "programs of one name": (SWEEP.replace("one.s", "a/x.s").replace("two.s", "b/x.s"), ["a/x.s", "b/x.s"]),
        "programs in folders": (SWEEP.replace("one.s", "a/x.s").replace("two.s", "b/y.s"), ["x.s", "y.s"]),
        "a constant": (SWEEP.replace("two.s,1,1,10,,,100", "one.s,1,1,10,,,200"), ["one.s, N 100", "one.s, N 200", "two.s, N 100"]),
    }
    for name, (text, wanted) in tried.items():
        found = sweep_table.labels(sweep_table.lines(sweep_table.parse(text)))
        check.expect(f"names of lines, {name}", found == wanted, found)
    long = SWEEP.replace("one.s", "a" * 100_000 + "1.s").replace("two.s", "a" * 100_000 + "2.s")
    found = sweep_table.labels(sweep_table.lines(sweep_table.parse(long)))
    check.expect("long names of lines", len(set(found)) == 2 and max(map(len, found)) <= sweep_table.MOST_LABEL, found)
    middle = SWEEP.replace("one.s", "a" * 100 + "1" + "a" * 100).replace("two.s", "a" * 100 + "2" + "a" * 100)
    found = sweep_table.labels(sweep_table.lines(sweep_table.parse(middle)))
    check.expect("long names that differ in the middle", len(set(found)) == 2, found)
    (check.folder / "long.csv").write_text(long)
    done = check.tool("bspplot", "--sweep", "long.png", "--compare", "long.svg", "long.csv")
    is_short = done.stderr.startswith("bspplot: 1 of 7 runs did not end well") and done.stderr.count("\n") == 1 and len(done.stderr) < 200
    check.expect("pictures of long names", done.returncode == 0 and is_short, done.stderr)
    # Half of a formula of matplotlib, which it would refuse.
    program, machine = "$\\frac{p$", "$\\frac{m$"
    rows = [f"{program},2,4,100,{machine},3,100,10,440,ended", f"{program},2,1,10,,3,100,10,140,ended", "b.s,2,1,10,,1,300,2,312,ended"]
    (check.folder / "map.csv").write_text("\n".join(["program,nodes,g,l,machine,supersteps,w,h,total,outcome", *rows, ""]))
    done = check.tool("bspplot", "--map", "map.svg", "map.csv")
    drawn_map = (check.folder / "map.svg").read_text() if done.returncode == 0 else ""
    check.expect("names in a map that look like formulas", all(f">{it}<" in drawn_map for it in (program, machine)), (done, drawn_map[:99]))


def ends_at(picture: svg.Drawing, ends: Dict[str, Tuple[float, float, float]]) -> bool:
    """Whether lines end at a number of nodes and the same speedup: each one's number, and its place across and up."""
    log = {axis: [(math.log(value), place) for value, place in them] for axis, them in picture.ticks.items() if all(it for it, _ in them)}
    scaled = svg.Drawing(picture.marks, picture.texts, log)
    across = [(name, math.log(value), x) for name, (value, x, _) in ends.items()]
    return scaled.are_at("x", across) and scaled.are_at("y", [(name, math.log(value), y) for name, (value, _, y) in ends.items()])


def are_points(picture: svg.Drawing, wanted: Dict[str, float], is_of_powers: bool) -> bool:
    """Whether points stand where the axes have them: the one of the nodes has a scale of powers, and the other may have."""
    log = {axis: [(math.log(value), place) for value, place in them] for axis, them in picture.ticks.items() if all(it for it, _ in them)}
    scaled = svg.Drawing(picture.marks, picture.texts, log)
    across = [(name, math.log(int(name.split("-")[2])), picture.marks[name].left) for name in wanted]
    up = [(name, math.log(value) if is_of_powers else value, picture.marks[name].top) for name, value in wanted.items()]
    return scaled.are_at("x", across) and (scaled if is_of_powers else picture).are_at("y", up)


def many(check: Check) -> None:
    """A table of many programs has some of them drawn, or is refused, in little time; and the name of each that is drawn is told, also one
    that begins with _."""
    head = "program,nodes,g,l,input,args,supersteps,w,h,m,total,outcome\n"
    rows = [f"_p{it}.c,{nodes},1,0,,,1,{9 * it + nodes},0,0,{9 * it + nodes},ended\n" for it in range(1000) for nodes in (1, 2)]
    (check.folder / "many.csv").write_text(head + "".join(rows))
    (check.folder / "few.csv").write_text(head + "".join(rows[:4]))
    words = ["sh", "-c", 'ulimit -t "$1"; shift; exec "$@"', "sh", "20", str(REPO / "bspplot"), "many.csv"]
    told = {"--compare": "bspplot: the first 100 of 1000 lines are drawn: --curves with", "--table": "bspplot: the picture would have 1000 lines; the limit is 24"}
    for option, line in told.items():
        done = subprocess.run([*words, option, f"made{option}.{'tex' if option == '--table' else 'svg'}"], capture_output=True, text=True, cwd=check.folder, check=False)
        check.expect(f"many programs {option}", done.stderr.startswith(line) and done.stderr.count("\n") == 1, done)
    texts = drawn(check, "compare", check.folder / "few.csv").texts
    check.expect("programs that begin with _", {"_p0.c", "_p1.c"} <= set(texts), texts)


def same_bytes(check: Check) -> None:
    """Each kind of picture is written, and has the same bytes each time, by another process too."""
    beginnings = {"t.svg": b"<?xml", "t.png": b"\x89PNG", "t.pdf": b"%PDF", "t.html": b"<!DOCTYPE html>"}
    words = ["--timeline", "t.svg", "--costs", "t.png", "--matrix", "t.pdf", "--html", "t.html"]
    contents: List[Dict[str, bytes]] = []
    for _ in range(2):
        check.started("bspplot", *words, *WORDS, str(file_of("inner")))
        contents.append({name: (check.folder / name).read_bytes() for name in words[1::2]})
    for name, beginning in beginnings.items():
        check.expect(f"the kind of {name}", contents[0][name].startswith(beginning), contents[0][name][:20])
        check.expect(f"{name} twice", contents[0][name] == contents[1][name], "the bytes differ")


def answers(check: Check, commands: List[Tuple[str, ...]]) -> List[Tuple[int, str]]:
    """The status of bspplot with each of these words, and what it says on standard error."""
    words = [sys.executable, "-c", COMMAND_LINES, str(REPO / "tools")]
    given = json.dumps(commands)
    done = subprocess.run(words, input=given, capture_output=True, text=True, check=True, cwd=check.folder, timeout=SECONDS)
    return [(status, said) for status, said in json.loads(done.stdout)]


def refusals(check: Check) -> None:
    """One line says what is wrong."""
    (check.folder / "cut.csv").write_text(file_of("one_put").read_text()[:100])
    (check.folder / "other.csv").write_text("a,b\n1,2\n")
    (check.folder / "table.csv").write_text(SWEEP)
    first, row, *_ = SWEEP.splitlines()
    many = [first, *(row.replace("one.s", f"{number}.s") for number in range(MOST_POINTS + 1))]
    (check.folder / "many.csv").write_text("\n".join([*many, ""]))
    check.tool("bsprun", "-n", "4", "--report", "report.csv", str(REPO / "examples/c/lu.elf"))
    first_report(check)
    tried = {
        ("--sweep", "t.svg", "many.csv"): f"bspplot: its runs make {MOST_POINTS + 1} lines; the limit of a picture is {MOST_POINTS}",
        ("--timeline", "t.svg", "cut.csv"): "bspplot: cut.csv: line 3: ",
        ("--timeline", "t.svg", "absent.csv"): "bspplot: absent.csv: No such file or directory",
        ("--costs", "t.svg", "other.csv"): "bspplot: other.csv: this is not a profile, a report, costs of lines or the table of a sweep",
        ("--timeline", "t.svg", "report.csv"): "bspplot: report.csv has no profile",
        ("--sweep", "t.svg", "report.csv"): "bspplot: report.csv has no sweep",
        ("--lines", "t.svg", "report.csv"): "bspplot: report.csv has no costs of lines",
        ("--source", "t.html", "report.csv"): "bspplot: report.csv has no costs of lines",
        ("--costs", "t.svg", "table.csv"): "bspplot: table.csv has no costs of supersteps",
        ("--costs", "t.jpg", "report.csv"): "bspplot: argument --costs: 't.jpg': the name of a picture ends with",
        ("--costs", "absent/t.svg", "report.csv"): "bspplot: absent/t.svg: No such file or directory",
        ("--supersteps", "99", "--costs", "t.svg", "report.csv"): "bspplot: report.csv has no such supersteps",
        ("--supersteps", "x", "--costs", "t.svg", "report.csv"): "bspplot: argument --supersteps: 'x': give supersteps as",
        ("--h", "all", "--costs", "t.svg", "report.csv"): "bspplot: report.csv: a report has one h, and this one's is that of --h others",
        ("--costs", "t.svg", "first.txt"): "bspplot: first.txt: a report has one h, and this one's is that of --h all",
        ("report.csv",): "bspplot: no picture was asked for",
    }
    for (words, begin), (status, said) in zip(tried.items(), answers(check, list(tried))):
        right = status == 1 and said.startswith(begin) and said.count("\n") == 1
        check.expect(f"bspplot {' '.join(words)}", right, (status, said))
    # Python without matplotlib, wherever that is installed.
    without = "import runpy, sys; sys.modules['matplotlib'] = None; del sys.argv[0]; runpy.run_path(sys.argv[0], run_name='__main__')"
    command = [sys.executable, "-c", without, str(REPO / "tools"), "bspplot", "--costs", "t.svg", "report.csv"]
    environment = {"BSPTOOLS_AGAIN": "1"}
    done = subprocess.run(command, capture_output=True, text=True, check=False, cwd=check.folder, env=environment)
    line = "bspplot: python3-matplotlib is missing: apt-get install python3-matplotlib, or run scripts/toolchain\n"
    check.expect("without matplotlib", (done.returncode, done.stderr) == (1, line), done.stderr)


def unused(check: Check) -> None:
    """An option that none of the pictures uses is refused with those that do. Each option is known to be of some pictures, and what is recorded
    in a picture are the options that it uses."""
    (check.folder / "table.csv").write_text(SWEEP)
    (check.folder / "one_put.csv").write_text(file_of("one_put").read_text())
    for (words, begin), (status, said) in zip(UNUSED.items(), answers(check, list(UNUSED))):
        is_clear = not any((check.folder / it).exists() for it in ("t.svg", "t.html", "t.tex", "u.svg"))
        check.expect(f"bspplot {' '.join(words)}", status == 1 and said.startswith(begin) and said.count("\n") == 1 and is_clear, (status, said))
    found = set(re.findall(r"^  --([a-z-]+)", check.tool("bspplot", "--help").stdout, re.MULTILINE)) - {"help", "version"}
    named = {*picture_options.USES, *(it.split()[0] for kinds in picture_options.USES.values() for it in kinds)}
    check.expect("all options are of some pictures", found == {it.replace("_", "-") for it in named}, found.symmetric_difference(named))
    made = check.tool("bspplot", "--timeline", "t.svg", "--matrix", "u.svg", "--g", "4", "--h", "all", "one_put.csv")
    texts = [html.unescape((check.folder / it).read_text()) for it in ("t.svg", "u.svg")] if made.returncode == 0 else [made.stderr] * 2
    recorded = '"settings": {"g": ["4"], "h": ["all"]}' in texts[0] and '"settings": {"h": ["all"]}' in texts[1]
    check.expect("the options that a picture records", recorded, [it[:400] for it in texts])


def unended(check: Check) -> None:
    """A note tells once of runs that pictures leave out, of those that --only chooses if all pictures are of these; a page has it too."""
    two = SWEEP.replace("two.s,2,1,10,,,100,4,480,20,540,ended", "two.s,2,1,10,,,100,4,480,20,540,rank 1 stopped: aborted")
    dear = "".join(f"one.s,8,{g},10,,,100,,,,,not run\n" for g in (2, 3))
    (check.folder / "two.csv").write_text(two + dear)
    first = "the first one one.s, 8 nodes, N 100: not run; the column outcome has the others"
    both = f"bspplot: 2 of 7 runs did not end well and are left out, {first}\n"
    tried = {
        ("--sweep", "s.svg", "--compare", "c.svg", "--html", "p.html"): (0, both),
        ("--curves", "c.svg", "--table", "t.tex"): (0, both),
        ("--map", "m.svg", "--only", "nodes=1,4"): (0, ""),
        ("--curves", "c.svg", "--only", "nodes=1,2"): (0, "bspplot: 1 of 4 runs did not end well and is left out: two.s, 2 nodes, N 100: rank 1 stopped: aborted\n"),
        ("--curves", "c.svg", "--only", "nodes=1,4", "--sweep", "s.svg"): (0, both),
        ("--map", "m.svg", "--only", "nodes=8"): (1, f"bspplot: no run in it ended well, {first}\n"),
    }
    for (words, wanted), found in zip(tried.items(), answers(check, [(*it, "two.csv") for it in tried])):
        check.expect(f"runs that are left out of {' '.join(words)}", found == wanted, found)
    (check.folder / "odd.csv").write_text(SWEEP.replace("530,ended", "530,rank 0 stopped: \x1b[31m" + 999 * "x"))
    [(status, said)] = answers(check, [("--sweep", "s.svg", "--html", "odd.html", "odd.csv")])
    right = status == 0 and len(said) < 200 and "\x1b" not in said + (check.folder / "odd.html").read_text()
    check.expect("an outcome that is a command to a terminal", right, (status, said))
    row = f"<tr><th>drawn</th><td>{both[len('bspplot: ') :].strip()}</td></tr>"
    page = check.folder / "p.html"
    check.expect("runs that are left out of a page", page.exists() and page.read_text().count(row) == 1, row)


def printing(check: Check) -> None:
    """Pictures and pages say how much of w was printing where a profile does, and leave it out if that is asked for."""
    plain, source = file_of("one_put").read_text().splitlines(), check.folder / "printed.csv"
    more = {"superstep,": "printed", "1,0,,12": "10", "1,0,1": ""}
    source.write_text("".join(f"{it},{next((text for begin, text in more.items() if it.startswith(begin)), '0')}\n" for it in plain))
    said = {
        (): ["work (50.0 % of w printing)", "superstep 1, rank 0: work 12, 10 of it printing", "superstep 1: w = 12, 10 of it printing",
             "work, w: 20 ticks, 83.3 % (10 printing)"],
        ("--apart", "printing"): ["work without printing", "superstep 1, rank 0: work 2", "superstep 1: w = 5",
             "work, w without printing: 13 ticks, 76.5 %"],
    }  # fmt: skip
    for words, wanted in said.items():
        timeline_picture, costs = all_drawn(check, ["timeline", "costs"], source, *words, "--html", str(check.folder / "page.html"))
        found = [*timeline_picture.texts, *costs.texts]
        found += [mark.text for picture in (timeline_picture, costs) for begin in ("work-", "w-") for mark in picture.named(begin).values()]
        check.expect(f"what is said of printing, {words}", not set(wanted) - set(found), found)
        row = "<tr><th>printing</th><td>left out of w</td></tr>" if words else "<tr><td>1</td><td>12</td><td>10</td><td>4</td>"
        check.expect(f"what a page says of printing, {words}", row in (check.folder / "page.html").read_text(), row)
    refused = check.tool("bspplot", "--apart", "printing", "--costs", "costs.svg", str(file_of("one_put")))
    right = "does not say how much" in refused.stderr and refused.returncode == 1
    check.expect("a profile that does not tell of printing", right, refused.stderr)
    source.write_text(source.read_text().replace("synced,10", "synced,13"))
    refused = check.tool("bspplot", "--costs", "costs.svg", str(source))
    check.expect("more printing than work", "not a whole number up to 12" in refused.stderr and refused.returncode == 1, refused.stderr)


def counted(check: Check) -> None:
    """The profile that bsprun writes beside a summary is that of the run, with a column more, of which the summary's figures are sums."""
    image, whole = str(REPO / "examples/c/psum.c"), check.folder / "whole.csv"
    done = check.tool("bsprun", "-n", "4", "--summary", "--profile", str(whole), image)
    plain = check.folder / "plain.csv"
    check.tool("bsprun", "-n", "4", "--profile", str(plain), image)
    rows = [it.rpartition(",") for it in whole.read_text().splitlines()]
    check.expect("the columns that each profile has", [it[0] for it in rows] == plain.read_text().splitlines(), rows[:3])
    printed = superstep_costs.printed(superstep_costs.of_profile(parse(whole.read_text()), Reading.OTHERS))
    check.expect("the summary's printing", printed > 0 and f" ({printed} of it printing), h 8" in done.stderr, (printed, done.stderr))
