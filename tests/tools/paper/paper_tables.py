"""Tables of sweeps: their totals against the emulator's reports, and the records from which they are made again."""

from __future__ import annotations

import csv
import io
import json
import os
import pathlib
import shutil
import subprocess
from fractions import Fraction
from typing import Dict, List

from base import REPO, Check, Parts
from checks import COMPILER, Part

from bsptools.prices import number, spelled
from bsptools.sweep import table_record

PROGRAMS = [str(REPO / "examples/broadcast.s"), str(REPO / "examples/broadcast2.s")]
NODES = range(2, 12)
PRICES = [(0, 0), (1, 0), (0, 1), (1, 1), (3, 100), (4, 679), (9, 1145), (10, 1825), (1000, 7), (1 << 20, 1 << 30)]
SOURCE = "#include <bsp.h>\nint main(void) { bsp_begin(bsp_nprocs()); for (int i = 0; i < N; i++) bsp_sync(); bsp_end(); return 0; }\n"
# Spelled as a command line or a table may have it, and what it is; None for what is no price.
SPELLED: Dict[str, object] = {
    "4": 4, "007": 7, "3.875": Fraction(31, 8), "31/8": Fraction(31, 8), "62/16": Fraction(31, 8), "8/2": 4, "4.0": 4, "1/3": Fraction(1, 3),
    "1e9": None, "-1": None, "+1": None, "1/0": None, "": None, "1/": None, ".5": None, "1.": None, "1_000": None, "nan": None, "1/2/3": None,
    "1" * 21: None, "\u0663": None,
}  # fmt: skip


def parts(make: Parts) -> List[Part]:
    """Totals and records."""
    return [
        make.part("totals of 200 settings", totals),
        make.part("how prices are spelled", prices),
        make.part("records of tables", records, tools=COMPILER),
        make.part("records in odd places", odd),
        make.part("a second author's folder", elsewhere, tools=COMPILER),
    ]


def totals(check: Check) -> None:
    """Each total of a table is that of the emulator's report of a run at these very prices."""
    pairs = ",".join(f"{g}:{l}" for g, l in PRICES)
    done = check.tool("bspsweep", "--engine", "plain", "--nodes", ",".join(map(str, NODES)), "--prices", pairs, *PROGRAMS)
    rows = list(csv.DictReader(io.StringIO(done.stdout)))
    check.expect("200 settings", len(rows) == 200, done.stderr)
    for row in rows:
        words = [os.environ["BSPEMU"], "run", row["program"], "--format", "asm", "--nodes", row["nodes"], "--memory", str(1 << 24), "--report"]
        told = subprocess.run([*words, "--g", row["g"], "--l", row["l"]], stdout=subprocess.PIPE, text=True, check=True).stdout
        check.expect(f"the total of {row}", f"\ntotal {row['total']}\n" in told, told[-60:])


def prices(check: Check) -> None:
    """Numbers are read as they are spelled, and spelled so that they are read again; what is no number is none."""
    for text, wanted in SPELLED.items():
        found = number(text)
        check.expect(f"the number {text!r}", found == wanted and (found is None or number(spelled(found)) == wanted), found)
    done = check.tool("bspsweep", "--engine", "plain", "--g", "1e9", PROGRAMS[0])
    check.expect("a price that is refused", done.returncode == 1 and "as 4, 3.875 or 31/8" in done.stderr, done.stderr)


def records(check: Check) -> None:
    """A table has a record, of which the same table is made again; what is not as it was is told."""
    source, machines = check.folder / "syncs.c", check.folder / "own.txt"
    source.write_text(SOURCE)
    machines.write_text("mine-2 2 1e9 1 9.5 8 here\n")
    words = ["--engine", "plain", "--machine", "mine", "--define", "N=2,3", "--prices", "1/3:5"]
    own = {"BSP_MACHINES": "own.txt"}
    done = check.tool("bspsweep", *words, "-o", "table.csv", "syncs.c", environment=own)
    table, record = (check.folder / "table.csv").read_text(), json.loads((check.folder / "table.csv.json").read_text())
    right = done.returncode == 0 and record["command"] == [*words[2:], "syncs.c"] and set(record["machines"]) == {"machines.txt", "own.txt"}
    check.expect("a record", right and "12.2" in record["compiler"]["version"] + "12.2" and len(record["images"]) == 2, record)
    done = check.tool("bspsweep", "--again", "table.csv.json", "--engine", "plain")
    right = done.returncode == 0 and done.stdout == table and done.stderr.endswith("bspsweep: the table is the same, byte for byte\n")
    check.expect("the same table again", right and " was " not in done.stderr.replace("were cached", ""), done)
    source.write_text(SOURCE + "// the same\n")
    done = check.tool("bspsweep", "--again", "table.csv.json", "-o", "again.csv", "--engine", "plain")
    right = done.returncode == 0 and "bspsweep: programs: syncs.c: sha256 was " in done.stderr and "the table is the same" in done.stderr
    check.expect("another source of the same program", right and (check.folder / "again.csv").read_text() == table, done.stderr)
    machines.write_text("mine-2 2 1e9 1 9 8 here\n")
    done = check.tool("bspsweep", "--again", "table.csv.json", "--engine", "plain")
    right = done.returncode == 1 and "machines: own.txt: sha256 was " in done.stderr and "the table differs" in done.stderr
    check.expect("another machine", right and done.stdout != table, done.stderr)
    other = json.loads((check.folder / "table.csv.json").read_text())
    other["emulator"]["sha256"] = "0" * 64
    (check.folder / "other.json").write_text(json.dumps(other))
    done = check.tool("bspsweep", "--again", "other.json", "--engine", "plain")
    check.expect("another emulator", "emulator: sha256 was 000000000000.., and is " in done.stderr, done.stderr)
    refusals(check)


def elsewhere(check: Check) -> None:
    """In a copy of a folder, of whichever name, no digest is another one and nothing is run again; a header is named if it has changed. What GCC
    refuses of each choice of constants is said once."""
    one, other = check.folder / "a paper", check.folder / "another # $name"
    one.mkdir()
    (one / "parts").mkdir()
    (one / "parts/my steps.h").write_text("#define STEPS N\n")
    source = SOURCE.replace("i < N", "i < STEPS").replace("bsp_sync();", 'if (bsp_nprocs() > 99) bsp_abort("%s", __FILE__); bsp_sync();')
    (one / "syncs.c").write_text('#include "parts/my steps.h"\n' + source)
    words = ["--engine", "plain", "--nodes", "2", "--define", "N=1,2,3,4,5"]
    done = Check(one, check.tally).tool("bspsweep", *words, "-o", "table.csv", "syncs.c")
    record = json.loads((one / "table.csv.json").read_text())
    check.expect("headers", list(record["headers"]) == ["parts/my steps.h"], done.stderr or record)
    shutil.copytree(one, other)
    again, there = ["--again", "table.csv.json", "--engine", "plain", "-o", "again.csv"], Check(other, check.tally)
    done = there.tool("bspsweep", *again)
    lines = ["bspsweep: 5 of 5 runs were cached", "bspsweep: the table is the same, byte for byte"]
    check.expect("the same folder elsewhere", done.stderr.splitlines() == lines, done.stderr)
    (other / "parts/my steps.h").write_text("#define STEPS (N + 1)\n")
    done = there.tool("bspsweep", *again)
    right = "headers: parts/my steps.h: sha256 was " in done.stderr and "bspsweep: and so 2 more images of 5\n" in done.stderr
    check.expect("a header that has changed", right and done.stderr.count("images: ") == 3, done.stderr)
    (other / "parts/my steps.h").unlink()
    done = there.tool("bspsweep", *again)
    right = "syncs.c -DN=1 was not compiled, nor with 4 other choices of its constants" in done.stderr
    check.expect("a header that is gone", right and done.stderr.count("No such file") == 1, done.stderr)


def refusals(check: Check) -> None:
    """What is no record is refused, and so is what would be written over."""
    (check.folder / "taken.csv.json").write_text("{}\n")
    texts = {"list": "[1]", "deep": "[" * 100_000, "words": '{"made by": "x", "command": [1]}', "cut": "{", "half": '{"made by": "x", "command": ["\\ud800.c"]}'}
    for name, text in ((f"{it}.json", text) for it, text in texts.items()):
        (check.folder / name).write_text(text)
        done = check.tool("bspsweep", "--again", name)
        right = done.returncode == 1 and f"{name} is not the record of a table" in done.stderr
        check.expect(f"the record {name}", right, done.stderr)
    refused = {
        ("--again", "table.csv.json", "-n", "4"): "--again takes the sweep from table.csv.json, without -n 4",
        ("--again", "table.csv.json", "-o", "table.csv"): "table.csv.json would be overwritten",
        ("-o", "taken.csv", PROGRAMS[0]): "taken.csv.json is the name of the table's record, but something else has that name",
        (): "the following arguments are required: PROGRAM",
    }
    for words, line in refused.items():
        done = check.tool("bspsweep", *words)
        check.expect(f"the refusal of {words}", done.returncode == 1 and line in done.stderr and not done.stdout, done.stderr)
    check.expect("nothing is written then", not (check.folder / "taken.csv").exists(), "a table")


def odd(check: Check) -> None:
    """Names with blanks and of no UTF-8 come back from a record; what is not a regular file has none."""
    name = os.fsdecode(b"a \xff name.s")
    (check.folder / name).write_bytes(pathlib.Path(PROGRAMS[0]).read_bytes())
    done = check.started("bspsweep", "--engine", "plain", "-n", "2", "-o", "odd table.csv", name)
    again = check.started("bspsweep", "--engine", "plain", "--again", "odd table.csv.json", "-o", "again.csv")
    right = done.returncode == again.returncode == 0 and "the table is the same" in again.stderr
    check.expect("a name that is no UTF-8", right, done.stderr + again.stderr)
    done = check.tool("bspsweep", "--engine", "plain", "-n", "2", "-o", "/dev/null", PROGRAMS[0])
    right = done.returncode == 0 and not any(os.path.exists(f"/dev/{it}.json") or table_record.beside(f"/dev/{it}") for it in ("null", "stdout"))
    check.expect("no record of what is no file", right, done)
    done = check.tool("bspsweep", "--engine", "plain", "-n", "2", "-o", "nowhere/table.csv", PROGRAMS[0])
    check.expect("a folder that is not there", done.returncode == 1 and "nowhere/table.csv" in done.stderr, done.stderr)
