"""Profiles of runs agree with the model and with the report, and a damaged profile is refused."""

from __future__ import annotations

import functools
import json
import pathlib
import subprocess
from typing import Callable, Dict, List, Tuple

import forked
from base import HERE, MADE, REPO, Check, Parts
from checks import Part

from bsptools.outputs import report_formats
from bsptools.plot import plot_inputs, profile, superstep_costs
from bsptools.refusals import Refused

# Each profile, with the arguments of its run.
RUNS = {
    "bad_rank": ["-n", "2", "tests/tools/plots/bad_rank.s"],
    "broadcast": ["-n", "4", "examples/broadcast.s"],
    "broadcast2": ["-n", "4", "examples/broadcast2.s"],
    "faults": ["-n", "3", "--limit", "1000", "tests/cases/programs/one_rank_at_fault_and_a_text_behind.s"],
    "give_up": ["-n", "3", "examples/give_up.elf"],
    "inner": ["-n", "4", "examples/c/inner.elf"],
    "lu": ["-n", "4", "examples/c/lu.elf"],
    "messages": ["-n", "4", "examples/messages.s"],
    "one_put": ["-n", "2", "examples/one_put.s"],
    "prefix_sum_get": ["-n", "4", "examples/prefix_sum_get.s"],
    "refused": ["-n", "4", "examples/refused.s"],
    "samplesort": ["-n", "4", "--input", "examples/c/numbers.txt", "examples/c/samplesort.elf"],
    # Of more than 16 ranks a matrix has no numbers.
    "total_exchange": ["-n", "17", "examples/total_exchange.s"],
}
# What the states of ranks do not tell as the report does.
OUTCOMES = {"bad_rank": "rank 0 stopped: faulted", "refused": "the exchange was refused"}
DAMAGED: Dict[str, Tuple[Callable[[List[str]], List[str]], str]] = {
    "no superstep": (lambda lines: lines[:1], "it has no supersteps"),
    "another header": (lambda lines: ["superstep,rank,to", *lines[1:]], "line 1: a profile begins with the line"),
    "a rank left out": (lambda lines: lines[:1] + lines[2:], "line 2: rank 1 is not in its place"),
    "a superstep left out": (lambda lines: [it for it in lines if not it.startswith("1,")], "superstep 2 is not in its place"),
    "a row cut off": (lambda lines: lines[:2] + [lines[2][:9]], "line 3: 6 columns, and a profile has 10"),
    "a rank cut off": (lambda lines: lines[:-1], "it is cut off in superstep 2"),
    "negative ticks": (lambda lines: lines[:1] + ["0,0,,-6,0,0,0,0,0,synced"] + lines[2:], "line 2: '-6' is not a whole number"),
    "ticks past any limit": (lambda lines: lines[:1] + [f"0,0,,{10**30},0,0,0,0,0,synced"] + lines[2:], "line 2: '1000"),
    "400 digits": (lambda lines: lines[:1] + [f"0,0,,{10**400},0,0,0,0,0,synced"] + lines[2:], "line 2: '1000"),
    "ticks that are infinite": (lambda lines: lines[:1] + ["0,0,,Infinity,0,0,0,0,0,synced"] + lines[2:], "line 2: 'Infinity'"),
    "a rank that is not there": (lambda lines: lines[:5] + ["1,7,1,,4,,,,,"] + lines[6:], "line 6: the transfer from rank 7 to rank 1"),
    "a transfer to nobody": (lambda lines: lines[:5] + ["1,0,9,,4,,,,,"] + lines[6:], "line 6: '9' is not a whole number up to 1"),
    "a transfer of nothing": (lambda lines: lines[:5] + ["1,0,1,,0,,,,,"] + lines[6:], "line 6: a transfer has bytes, at least 1"),
    "a transfer twice": (lambda lines: lines[:6] + lines[5:], "line 7: the transfer from rank 0 to rank 1 is not in its place"),
    "a state that is none": (lambda lines: lines[:1] + [lines[1].replace("synced", "asleep")] + lines[2:], "line 2: 'asleep' is not a state"),
    "a rank that ended early": (
        lambda lines: lines[:1] + [lines[1].replace("synced", "ended")] + lines[2:],
        "it is ended, but a superstep follows",
    ),
    "bytes of no transfer": (lambda lines: lines[:5] + lines[6:], "superstep 1, rank 0: its bytes differ from those of the transfers"),
    "a field without an end": (lambda lines: lines[:1] + ['"' + "x" * 200_000] + lines[1:], "line 2: a value is missing, or has another form"),
    "no number": (lambda lines: lines[:1] + [lines[1].replace("6", "six", 1)] + lines[2:], "line 2: 'six' is not a whole number"),
}


REPORT = "superstep 0: w 6 h 0 m 0 turned\nsuperstep 1: w 12 h 4 m 0 turned\nsuperstep 2: w 2 h 0 m 0 last\ntotal 24\nended\n"
TABLE = "program,nodes,g,l,input,args,supersteps,w,h,m,total,outcome\nb.s,1,1,2,,,3,636,4,0,646,ended\nb.s,2,1,0,,,,,,,,not run\n"
# What stands in the place of a text of a report, as lines, as CSV or as JSON, and what is said of it.
REPORTS: Dict[str, Tuple[str, str, str, str]] = {
    "a total of no prices": ("text", "total 24", "total 19", "the total 19 is not that of any prices"),
    "a total of 400 digits": ("text", "total 24", f"total {10**400}", "is not a whole number"),
    "a w of 400 digits": ("text", "w 12", "w " + "1" * 400, "is not a whole number"),
    "a w of 5000 digits": ("text", "w 12", "w " + "1" * 5000, "this is not a profile, a report"),
    "a superstep left out": ("text", "superstep 1", "superstep 2", "superstep 2 is not in its place"),
    "an end too early": ("text", "0 turned\nsuperstep 1", "0 last\nsuperstep 1", "superstep 0 ends as 'last'"),
    "a negative h": ("csv", ",4,", ",-4,", "'-4' is not a whole number"),
    "a cost less": ("csv", "1,12,4,0,", "1,12,4,", "is not a whole number"),
    "an end that is none": ("csv", "last", "over", "superstep 2 ends as 'over'"),
    "infinite work": ("json", '"w": 12', '"w": Infinity', "'inf' is not a whole number"),
    "no number": ("json", '"w": 12', '"w": NaN', "'nan' is not a whole number"),
    "a number that is too great": ("json", '"w": 12', '"w": 1e400', "'inf' is not a whole number"),
    "no list": ("json", '"supersteps": [', '"supersteps": 7, "others": [', "like a report, but is not"),
    "deep nesting": ("json", '"supersteps": [', '"supersteps": ' + "[" * 100_000, "like a report, but is not"),
    "an outcome that is none": ("json", '"outcome": "ended"', '"outcome": "well"', "'well' is not an outcome"),
}
TABLES: Dict[str, Tuple[str, str, str]] = {
    "a total that is no sum": (",646,", ",645,", "line 2: the total 645 is not 636 + 1 * 4 + 2 * 3"),
    "no nodes": ("b.s,1,", "b.s,0,", "line 2: 0 nodes"),
    "a price below 0": (",1,2,", ",1,-2,", "line 2: '-2' is not a number such as 4, 3.875 or 31/8"),
    "a price with an exponent": (",1,2,", ",1,2e9,", "line 2: '2e9' is not a number such as"),
    "a price over nothing": (",1,2,", ",1,2/0,", "line 2: '2/0' is not a number such as"),
    "a column more": (",ended", ",ended,ended", "line 2: its columns are not those of the first line"),
    "a column less": (",646,ended", ",646", "line 2: its columns are not those of the first line"),
    "a column twice": (",input,args,", ",input,input,", "line 1: the table of a sweep has columns"),
    "an outcome that is none": (",ended", ",well", "line 2: 'well' is not an outcome"),
    "a field without an end": ("b.s,1,", '"' + "x" * 200_000, "a value is missing, or has another form"),
}


@functools.lru_cache(maxsize=None)
def file_of(name: str) -> pathlib.Path:
    """The file of a profile, which a run by the emulator writes once."""
    path = MADE / f"{name}.csv"
    done = forked.run([str(REPO / "bsprun"), "--profile", str(path), *RUNS[name]], cwd=REPO)
    if not path.exists():
        raise ValueError(done.stderr)
    return path


def profile_of(name: str) -> profile.Profile:
    """A profile."""
    return profile.parse(file_of(name).read_text())


def parts(make: Parts) -> List[Part]:
    """A part for each profile, and one for those that are damaged."""
    return [*(make.part(f"profile {name}", compare, name) for name in RUNS), make.part("damaged profiles", damaged)]


def compare(check: Check, name: str) -> None:
    """Compares a profile with the report of its run, with its own transfers, and with what the model counts by the debugger's lines."""
    check.tell(f"profile {name}, its report", by_report(check, name))
    check.tell(f"profile {name}, its sums", sums(profile_of(name)))
    done = subprocess.run([str(HERE / "model.py"), *RUNS[name]], capture_output=True, text=True, check=False, cwd=REPO)
    check.expect(f"profile {name}, by the debugger", done.stdout == file_of(name).read_text(), f"{done.stdout} {done.stderr}")


def damaged(check: Check) -> None:
    """Damages a profile in each way."""
    for name, (damage, said) in DAMAGED.items():
        lines = file_of("one_put").read_text().splitlines()
        try:
            profile.parse("\n".join(damage(lines)) + "\n")
            check.tell(f"profile with {name}", "it is taken")
        except Refused as refused:
            check.expect(f"profile with {name}", said in str(refused), refused)
    known = report_formats.read(REPORT.encode())
    assert known is not None
    spelled = {"text": REPORT, "csv": report_formats.as_csv(known).decode(), "json": report_formats.as_json(known).decode()}
    for name, (form, before, after, said) in REPORTS.items():
        check.tell(f"report with {name}", taken(spelled[form], before, after, said))
    for name, (before, after, said) in TABLES.items():
        check.tell(f"table with {name}", taken(TABLE, before, after, said))
    for name, text in {**spelled, "table": TABLE}.items():
        check.expect(f"{name} as it was", plot_inputs.understood(name, text.encode(), profile.Reading.OTHERS).name == name, "")
        path = check.folder / "of-a-spreadsheet"
        path.write_bytes(("\ufeff" + text).replace("\n", "\n" if name == "text" else "\r\n").encode())
        check.tell(f"{name} of a spreadsheet", read_again(path))


def read_again(path: pathlib.Path) -> str:
    """Why a file is not read."""
    try:
        plot_inputs.read(str(path), profile.Reading.OTHERS)
    except Refused as refused:
        return str(refused)[:300]
    return ""


def taken(text: str, before: str, after: str, said: str) -> str:
    """What is wrong where a text stands in another's place, once: it is to be refused by a line that says this."""
    try:
        plot_inputs.understood("source", text.replace(before, after, 1).encode(), profile.Reading.OTHERS)
    except Refused as refused:
        return "" if before in text and said in str(refused) else str(refused)[:300]
    return "it is taken"


def by_report(check: Check, name: str) -> str:
    """What differs between a profile's costs and outcome and those of the report."""
    path = check.folder / "report.json"
    words = [str(REPO / "bsprun"), "--report", str(path), *RUNS[name]]
    forked.run(words, cwd=REPO)
    found = report_formats.of_json(json.loads(path.read_text()))
    here = profile_of(name)
    if superstep_costs.of_report(found) != superstep_costs.of_profile(here, profile.Reading.OTHERS):
        return f"{superstep_costs.of_profile(here, profile.Reading.OTHERS)} and not {superstep_costs.of_report(found)}"
    wanted = OUTCOMES.get(name, found.outcome)
    return "" if here.outcome() == wanted else f"{here.outcome()} and not {wanted}"


def sums(found: profile.Profile) -> str:
    """What differs between the ranks' bytes and the transfers."""
    for superstep in found.supersteps:
        for rank, share in enumerate(superstep.shares):
            sent = sum(count for (one, to), count in superstep.transfers.items() if one == rank != to)
            received = sum(count for (one, to), count in superstep.transfers.items() if one != rank == to)
            if (share.sent, share.received, share.kept) != (sent, received, superstep.transfers.get((rank, rank), 0)):
                return f"superstep {superstep.number}, rank {rank}"
    return ""
