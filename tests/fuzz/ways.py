"""One run made in several ways, which all must have the same end."""

from __future__ import annotations

import dataclasses
import re
from typing import List, Optional, Tuple

from fuzz import contested, exposed, machines, reports
from fuzz.bench import Trial
from fuzz.images import Segment
from fuzz.machines import End
from fuzz.reports import Machine, Report

Image = Tuple[int, List[Segment]]

WORKERS = (1, 2, 3, 7)
SLICES = (1, 2, 3, 7, 65_536)


@dataclasses.dataclass(frozen=True)
class Run:
    """What a run wrote, its report, and its end by the model if that is not too far away."""

    output: bytes
    report: Report
    end: Optional[End]


def way(trial: Trial) -> List[str]:
    """Options that say how a run is made, and have no part in what it gives."""
    words = ["--workers", str(trial.random.choice(WORKERS))]
    return words + (["--slice", str(trial.random.choice(SLICES))] if trial.bench.has_slice else [])


def run_in_ways(trial: Trial, image: str, machine: Machine, loaded: Image, more: int = 1) -> Optional[Run]:
    """Runs an image with a report and without one, and with other threads. Gives what is known of the run, if it had its outcome.
    `loaded` is the image's entry and segments."""
    words = ["run", image, *machine.words()]
    plain = trial.run(*words, "--workers", "1")
    told = trial.run(*words, "--report", *way(trial))
    for _ in range(more):
        again = trial.run(*words, "--report", *way(trial))
        trial.expect_that(again.same_as(told), "other threads give another answer")
    live = trial.run(*words, "--report", *way(trial), "--live")
    trial.expect_that(live.same_as(told), "a run that is told live gives another answer")
    trial.expect_that(plain.status == told.status, f"the status is {plain.status} without a report")
    if plain.status in (1, 5, 6):
        trial.expect("an image that fits has no outcome")
        return None
    trial.expect_that(told.stdout.startswith(plain.stdout), "the output is another one without a report")
    report = reports.report_of(told.stdout[len(plain.stdout):])
    if report is None:
        trial.expect(f"{told.stdout[len(plain.stdout):][:200]!r} is no report")
        return None
    trial.expect(reports.fault_of_report(report, machine, told.status))
    beside = trial.run(*words, "--report", *way(trial), "--contested", "contested")
    trial.expect_that(beside.same_as(told), "a run that tells what is contested gives another answer")
    beside = trial.run(*words, "--report", *way(trial), "--exposed", "exposed")
    trial.expect_that(beside.same_as(told), "a run that tells what is exposed gives another answer")
    end = machines.end_of(*loaded, machine, trial.read(machine.input) or b"" if machine.input else b"")
    if end:
        trial.expect(contested.fault_of(trial.read("contested") or b"", end.landings))
        trial.expect(exposed.fault_of(trial.read("exposed") or b"", end.transfers))
        trial.expect_that(told.stdout == end.output + end.report, f"the model has {(end.output + end.report)[-200:]!r}")
    return Run(plain.stdout, report, end)


def run_profiled(trial: Trial, image: str, machine: Machine, report: Report) -> None:
    """Runs an image with a profile, which has to tell of the run that the report tells of."""
    trial.run("run", image, *machine.words(), *way(trial), "--profile", "profile")
    trial.expect(reports.fault_of_profile(trial.read("profile") or b"", report, machine))


def run_counted(trial: Trial, image: str, machine: Machine, report: Report) -> None:
    """Runs an image with counts, which have to add up to the work that the report tells of."""
    trial.run("run", image, *machine.words(), *way(trial), "--counts", "counts")
    trial.expect(reports.fault_of_counts(trial.read("counts") or b"", report))


def debug_to_end(trial: Trial, image: str, machine: Machine, run: Run, lines: bytes) -> None:
    """Gives a debugger these lines, and goes on to the end by hand: costs, output, outcome and nodes are those of the run."""
    script = lines + b"phase\nturn\n" * len(run.report.rows) + b"costs\noutput\n"
    costs = b"".join(
        f"superstep {number}: w {work} h {moved} m {messages} {'turned' if turned else 'last'}\n".encode()
        for number, (work, moved, messages, turned) in enumerate(run.report.rows)
    )
    due = costs + f"total {run.report.total}\n".encode() + run.output + b"\n"
    nodes = run.end.nodes if run.end else []
    for rank in trial.random.sample(range(machine.nodes), min(2, machine.nodes)) if nodes else []:
        place = min(4096 * trial.random.randrange(1 + machine.memory // 4096), machine.memory - 64)
        place -= min(place, trial.random.choice([0, 32]))
        script += f"regs {rank}\nbytes {rank} {place} 64\n".encode()
        due += machines.registers_of(nodes[rank]) + machines.bytes_of(nodes[rank], place, 64)
    answer = trial.run("debug", image, *machine.words(), stdin=trial.file("lines", script))
    trial.expect_that(answer.stdout.endswith(due), "a debugger comes to another end")
    is_told = re.search(rb"(?m)^" + re.escape(run.report.outcome) + b"$", answer.stdout)
    trial.expect_that(is_told is not None, "a debugger's run has another outcome")
