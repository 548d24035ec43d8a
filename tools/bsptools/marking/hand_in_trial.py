"""Tries a hand-in: compiles it, and runs it on each case and number of nodes of a sheet, with limits, in its own folder."""

from __future__ import annotations

import argparse
import contextlib
import errno
import itertools
import os
import pathlib
import re
import signal
from collections.abc import Collection, Iterator, Mapping, Sequence
from dataclasses import dataclass, field
from typing import Dict, List, Optional, Pattern, Set, Tuple

from .. import emulator, limits, memory_bound
from ..counts import step_counts
from ..counts.h_relations import Traffic
from ..counts.line_costs import Work
from ..diagnosis.stop_reasons import Why
from ..diagnosis.superstep_ends import END, ends
from ..framed.environment_calls import Tracer
from ..outputs import contested_bytes
from ..outputs.library_notes import ABSENT, note_of
from ..outputs.output_demux import ERROR, OUTPUT, Marks
from ..outputs.output_records import NOTE, record_of
from ..outputs.report import Report, of_run
from ..portable.portability import verdict
from ..portable.portability_findings import told_contested
from ..portable.trial_builds import Builds
from ..prepare.job import Job, prepared
from ..refusals import Refused, counted
from . import bounded_run, called_names, hidden_warnings
from .bounded_run import Ran
from .evidence import BROKEN, LATE, LONG, MOST_SHOWN, WARNS, WELL, Ended, Evidence, cut, of_marking
from .sheet import Bound

MOST_TEXT, MOST_LINES = 1 << 20, 30
COMPILER_SECONDS, MOST_COMPILED, MOST_LATE = 30, 1 << 20, 2
# Supersteps of which it is looked where they end, and places that are told.
MOST_ENDS, MOST_PLACES = 500, 4
# Files of those that a run did not find that are told.
MOST_ABSENT = 3
# Of a report behind the output.
MOST_REPORT = 1 << 26
# For how long it is looked why a run did not end well, or what it costs by line. What is judged has longer, also where a sheet gives runs much
# time: so many times as long, and so many times the seconds of a run.
PATIENCE, TIMES_AS_LONG, TIMES_A_RUN = 20, 3, 2
# What is likely a mistake by the text alone. `bspcc --strict` also takes -Og and tests as the program runs, with which w would be another.
STRICT = ("-Wall", "-Wextra", "-Wno-unused-parameter", "-Wno-sign-compare")
WARNING = re.compile(WARNS)
# Letters in front of a warning that are kept.
MOST_PLACE = 100
ERRORS = re.compile(r"\b(?:fatal )?[eE]rror: |undefined reference")
# What the compiler says where the host has given it too little: the disk is full, a process of it was killed, or none could be started. A
# hand-in that has GCC say so itself is tried once more, and no more. The errors that tell the same; and that it was too slow.
FULL = "No space left on device"
LACK = re.compile(
    rf"{FULL}|Disk quota exceeded|^\S+: fatal error: Killed signal terminated program|[cC]annot fork|Too many open files"
    r"|\b(?:fork|execute\b.*): Resource temporarily unavailable"
)
# What it says besides where this host lets it take less than a hand-in may; and how the emulator ends there.
SCARCE = re.compile(r"(?:File size|CPU time) limit exceeded|out of memory allocating|memory exhausted|Cannot allocate memory|[mM]emory ran out")
NO_MEMORY = 5
LACKS = (errno.ENOSPC, errno.EDQUOT, errno.ENOMEM, errno.EAGAIN, errno.EMFILE, errno.ENFILE)
SLOW = "the compiler took too long"
UNTRIED = "not portable: it fails if it is compiled for this trial, with the same constants, input and arguments"
SAFE = re.compile(r"[A-Za-z_][\w.-]{0,80}\.(?:c|cc|cpp|cxx)", re.ASCII)
# GCC replaces a call that it knows by another, such as printf by puts, and a loop by memset. The C library's header machine/math.h replaces
# fabs by an instruction. With these options nothing is replaced, and no warning is printed.
UNREPLACED = ("-fno-builtin", "-fno-tree-loop-distribute-patterns", "-D_MACHINE_MATH_H_", "-w")


@dataclass(frozen=True)
class RunPlan:
    """A run that is to be made: the constants that its program is compiled with, nodes, input, arguments, files by the names under which they
    are opened, the limits of instructions and of bytes of output, prices, what the formulas of bounds know, and what the solution costs."""

    nodes: int
    defines: Tuple[Tuple[str, str], ...] = ()
    input: Optional[bytes] = None
    args: Tuple[str, ...] = ()
    given: Tuple[Tuple[str, bytes], ...] = ()
    limit: int = limits.MOST_TICKS
    output: int = 1 << 16
    g: int = limits.G
    l: int = limits.L
    values: Dict[str, float] = field(default_factory=dict)
    solution: Dict[str, float] = field(default_factory=dict)
    bounds: Tuple[Bound, ...] = ()


@dataclass(frozen=True)
class Plan:
    """All that a trial rests on beside the hand-in."""

    runs: Tuple[RunPlan, ...]
    files: Tuple[Tuple[str, bytes], ...] = ()
    calls: Tuple[str, ...] = ()
    memory: int = limits.MEMORY
    seconds: int = 30
    strict: bool = True
    races: bool = True
    portable: bool = False
    warnings: bool = False

    @property
    def most_memory(self) -> int:
        """Of a process of the host: what all nodes have, twice, since an exchange has what it moves besides, and room for the compiler."""
        return (2 << 30) + 2 * self.memory * max((it.nodes for it in self.runs), default=1)


class Trial:
    """A trial of one hand-in, in the folder in which this process is."""

    def __init__(self, plan: Plan, text: bytes, name: str, program: str, is_scarce: bool) -> None:
        # Whether the host lets a process take less than a hand-in may, as by `ulimit`.
        self.plan, self.text, self.program, self.is_scarce = plan, text, program, is_scarce
        self.folder = pathlib.Path(os.getcwd())
        taken = {it for it, _ in plan.files} | {last_name(it) for run in plan.runs for it, _ in run.given}
        self.name = name_beside(name, taken)
        # Programs, runs and what is found out about them are here, under names that files of the sheet may have, too.
        self.own = self.folder / next(it for it in (f"trial{number or ''}" for number in itertools.count()) if it not in taken)
        self.found = Evidence()

    def make(self) -> Evidence:
        """Tries all of it, as far as the host lets it."""
        try:
            return self.tried().cut()
        except OSError as error:
            if error.errno not in LACKS:
                raise
            return Evidence(lack=str(error.strerror))

    def tried(self) -> Evidence:
        """Tries all of it."""
        self.found.refused = refusal(self.text)
        if self.found.refused:
            return self.found
        self.own.mkdir()
        (self.folder / self.name).write_bytes(self.text)
        for name, content in self.plan.files:
            self.put(name, content)
        if self.plan.warnings:
            # Before there is a program, since the text can ask for its file.
            self.find_hidden_warnings()
        images = {defines: self.built(defines, at) for at, defines in enumerate(dict.fromkeys(it.defines for it in self.plan.runs))}
        if not self.found.is_built:
            return self.found
        for number, run in enumerate(self.plan.runs):
            # Each takes as long as the clock lets it.
            is_late = sum(it.outcome == LATE for it in self.found.runs) >= MOST_LATE
            ended = Ended(LATE, why=["not tried, since others have run too long"]) if is_late else self.ran(run, images[run.defines], number)
            self.found.runs.append(ended)
        if self.plan.portable and all(it.is_well for it in self.found.runs):
            self.try_portable()
        return self.found

    def put(self, name: str, content: bytes) -> None:
        """A file of the sheet beside the hand-in, by its last name."""
        (self.folder / last_name(name)).write_bytes(content)

    # The compiler.

    def built(self, defines: Tuple[Tuple[str, str], ...], number: int) -> pathlib.Path:
        """The executable for these constants. If the sheet names calls, they are looked for in the object that it is linked from, since the
        text may be another one with other constants, or as it is compiled once more; and in one in which GCC has replaced no call."""
        target = self.own / f"program{number}.elf"
        room = limits.STACK if self.plan.memory >= limits.MEMORY_OF_STACK else limits.COMPILED_STACK
        linking = ("-o", os.path.relpath(target), "-g", "--stack", str(room))
        if not self.plan.calls:
            self.compile([*self.compiler(defines, self.name, *linking), "-lm"], target, number)
            return target
        part = target.with_suffix(".o")
        called = self.unreplaced(defines, part)
        source = os.path.relpath(part)
        if self.compile(self.compiler(defines, self.name, "-c", "-o", source, "-g", *called_names.printing(part)), part, number):
            self.find_calls(part, called)
            self.compile([*self.compiler((), source, *linking), "-lm"], target, number)
        return target

    def compile(self, words: List[str], target: pathlib.Path, number: int) -> bool:
        """Has the compiler write a file, and answers whether it did."""
        ran = bounded_run.run(words, COMPILER_SECONDS, MOST_COMPILED, compiler_environment(self.folder))
        is_built = ran.how == bounded_run.ENDED and ran.status == 0 and target.is_file()
        lines = ran.said.decode(errors="replace").replace(f"{self.folder}/", "").replace(f"{self.own.name}/program", "program").splitlines()
        said = cut(with_short_place(it) for it in lines if it.strip())
        if not is_built:
            self.found.lack = next(filter(self.is_lack, said), SLOW if ran.how == bounded_run.LATE else "")
        if ran.how != bounded_run.ENDED:
            said.insert(0, f"the compiler was ended after {COMPILER_SECONDS} s")
        elif not is_built and not said:
            said.append(f"the compiler ended with status {ran.status}, perhaps because memory ran out")
        if not is_built:
            # Warnings and the files that were included come first, and may be many.
            self.found.said = some_with(ERRORS, said)
        elif number == 0 or self.plan.warnings:
            # The same of notes, which a text can have the compiler make. With other constants, the text may have other warnings.
            self.found.said = some_with(WARNING, [*self.found.said, *(it for it in said if it not in self.found.said)])
            if self.plan.warnings and len(ran.said) >= bounded_run.MOST_SAID:
                self.found.hides = self.found.hides or f"{hidden_warnings.UNKNOWN}: the compiler prints too much"
        self.found.is_built = is_built and (number == 0 or self.found.is_built)
        return is_built

    def find_hidden_warnings(self) -> None:
        """What hides warnings if it is compiled with the constants of each case."""
        for defines in dict.fromkeys(it.defines for it in self.plan.runs):
            words = self.compiler(defines, self.name, *hidden_warnings.OPTIONS)
            ran = bounded_run.run(words, COMPILER_SECONDS, hidden_warnings.MOST_TEXT, compiler_environment(self.folder))
            self.found.hides = hidden_warnings.fault(ran, self.name)
            said = cut(ran.said.decode(errors="replace").splitlines()) if ran.status else []
            self.found.lack = SLOW if ran.how == bounded_run.LATE else next(filter(self.is_lack, said), "")
            if self.found.hides or self.found.lack:
                return

    def is_lack(self, line: str) -> bool:
        """Whether the compiler says that the host has given it too little."""
        return bool(LACK.search(line) or self.is_scarce and SCARCE.search(line))

    def compiler(self, defines: Tuple[Tuple[str, str], ...], source: str, *options: str) -> List[str]:
        """The words that compile the hand-in, or link the object of it."""
        warnings = STRICT if self.plan.strict else ()
        constants = [f"-D{name}={value}" for name, value in defines]
        return [emulator.program("bspcc"), *options, *warnings, "-fdiagnostics-color=never", *constants, source]

    def unreplaced(self, defines: Tuple[Tuple[str, str], ...], part: pathlib.Path) -> Set[str]:
        """The names in an object in which GCC has replaced no call. It is written before the object that is linked, under the same name, and
        removed, so that no text can ask for a file to learn for which of the two it is compiled. Some right texts are compiled only where GCC
        knows what a function computes, as for the first value of a variable: then these are the names that the text calls."""
        # The headers of C++ call such names themselves, as __builtin_strlen.
        known = [it for it in self.plan.calls if it.isidentifier() and self.name.endswith(".c")]
        options = ("-c", "-o", os.path.relpath(part), *called_names.printing(part), *UNREPLACED, *(f"-D__builtin_{it}={it}" for it in known))
        ran = bounded_run.run(self.compiler(defines, self.name, *options), COMPILER_SECONDS, MOST_COMPILED, compiler_environment(self.folder))
        is_built = ran.how == bounded_run.ENDED and ran.status == 0 and part.is_file()
        names = self.names_of(part) if is_built else set()
        called_names.remove(part)
        if is_built:
            return names
        said = cut(ran.said.decode(errors="replace").splitlines())
        self.found.lack = self.found.lack or (SLOW if ran.how == bounded_run.LATE else next(filter(self.is_lack, said), ""))
        text = called_names.bare_text(self.decoded)
        return {it for it in self.plan.calls if re.search(rf"\b(?:__builtin_)?{re.escape(it)}\s*\(", text)}

    def names_of(self, part: pathlib.Path) -> Set[str]:
        """Those calls that the sheet names which the hand-in makes in an object."""
        return called_names.of_object(part, self.decoded, self.plan.calls, is_classes=not self.name.endswith(".c"))

    def find_calls(self, part: pathlib.Path, called: Set[str]) -> None:
        """Which of the calls that the sheet names the hand-in makes, each with its line, or 0 if the text does not have it. Those that it makes
        only where GCC replaces nothing are not in what runs, unless GCC has replaced them."""
        text, linked = called_names.bare_text(self.decoded), self.names_of(part)
        for name in called | linked:
            found = re.search(rf"\b(?:__builtin_)?{re.escape(name)}\b", text)
            self.found.calls[name] = text.count("\n", 0, found.start()) + 1 if found else 0
        made = [it for it in sorted(called | linked) if it in linked or called_names.is_called(part, it)]
        self.found.made = [it for it in made if self.found.made is None or it in self.found.made]

    @property
    def decoded(self) -> str:
        """The hand-in's text."""
        return self.text.decode(errors="replace")

    # Runs.

    def job(self, run: RunPlan, program: pathlib.Path, folder: str) -> Job:
        """A run that is ready to be made: of an executable, or of the hand-in's text, which is compiled for it, as --portable asks."""
        place = self.own / folder
        place.mkdir(exist_ok=True)
        given = None
        if run.input is not None:
            given = str(place / "given")
            pathlib.Path(given).write_bytes(run.input)
        for name, content in run.given:
            self.put(name, content)
        is_text = program.suffix != ".elf"
        constants = [f"-D{name}={value}" for name, value in run.defines] if is_text else None
        options = argparse.Namespace(
            program=str(program), nodes=run.nodes, input=given, file=[last_name(name) for name, _ in run.given], files=[],
            args=list(run.args), argv0="program", check=False, strict=False, compiled=constants,
            format="c" if is_text else "elf", bspemu=self.program,
            limit=run.limit, memory=self.plan.memory, stack=None, large=False, float=False, atomic=False, g=run.g, l=run.l,
            rate=limits.RATE, fill=None, out=None, found=[], is_here=False, portable=is_text, sources=[],
            workers=1, tries=None, accept=None, accept_all=None,
        )  # fmt: skip
        return prepared(options, place, "bspcheck", is_marked=True)

    def ran(self, run: RunPlan, image: pathlib.Path, number: int) -> Ended:
        """A run, with what is to be told of it."""
        try:
            job = self.job(run, image, f"run{number}")
        except Refused as refused:
            if isinstance(refused.__cause__, OSError) and refused.__cause__.errno in LACKS:
                raise refused.__cause__
            return Ended(BROKEN, why=of_marking(str(it).replace(str(image), self.name) for it in refused.args))
        words = [*job.program, "run", *job.settings, "--workers", "1", "--report", "--live"]
        ran = bounded_run.run(words, self.plan.seconds, run.output + MOST_REPORT, is_busy=True)
        if ran.how == bounded_run.ENDED and ran.status == -signal.SIGKILL:
            self.found.lack = "the run was killed, perhaps because memory ran out"
        if self.is_scarce and ran.how == bounded_run.ENDED and ran.status == NO_MEMORY:
            self.found.lack = "memory ran out: this host gives a process less memory than the sheet allows"
        ended, report = self.ended(job, ran, run.output)
        if report is None:
            return ended
        if not ended.is_well:
            ended.why = [*self.reasons(job, report), *ended.why]
            return ended
        if self.plan.races and run.nodes > 1:
            ended.race = self.race(job, report)
        wanted = self.exceeded(run, ended)
        if wanted:
            ended.dear = self.dear(job, report, wanted)
        return ended

    def ended(self, job: Job, ran: Ran, most: int) -> Tuple[Ended, Optional[Report]]:
        """What a run came to, and its report if it has one. That is parted first: a program can print its mark with a length that would reach
        into the report."""
        parted = of_run(ran.output, ran.status) if ran.how == bounded_run.ENDED else None
        written, report = parted or (memoryview(ran.output), None)
        marks = Marks(job.mark)
        pieces = list(marks.take(bytes(written)))
        output = b"".join(it for kind, it in pieces if kind == OUTPUT) + marks.left()
        errors = b"".join(it for kind, it in pieces if kind == ERROR)[:most].decode(errors="replace")
        text = output[:most].decode("latin-1")
        if len(output) > most:
            return Ended(LONG, text, errors), None
        if report is None:
            why = f"the run was ended after {self.plan.seconds} s; `seconds` in the sheet gives it longer" if ran.how == bounded_run.LATE else ""
            why = why or "".join(ran.said.decode(errors="replace").splitlines()[:1]) or f"the emulator ended with status {ran.status}"
            return Ended(LATE if ran.how == bounded_run.LATE else BROKEN, text, errors, why=[why]), None
        steps = [it.costs for it in report.supersteps]
        costs = {name: sum(it[name] for it in steps) for name in steps[0]}
        costs.update(supersteps=len(steps), cost=report.total, most_w=max(it["w"] for it in steps), most_h=max(it["h"] for it in steps))
        shown = [[it["w"], it["h"], it.get("m", 0)] for it in steps[:MOST_SHOWN]]
        absent = absent_files(pieces) if report.outcome != WELL else []
        return Ended(report.outcome, text, errors, costs, shown, absent), report

    def reasons(self, job: Job, report: Report) -> List[str]:
        """Why a run did not end well."""
        with patient():
            return of_marking(Why(job.code, job.replays(), job.options.nodes, job.options.limit).lines(report))
        return []

    @property
    def patience(self) -> int:
        """For how many seconds it is looked for something that a hand-in is judged by."""
        return max(TIMES_AS_LONG * PATIENCE, TIMES_A_RUN * self.plan.seconds)

    def lacks(self, search: str) -> None:
        """Takes note that a search came to no end: a hand-in is not right for want of it."""
        self.found.lack = f"{search} did not end in {self.patience} s, or ran out of memory; `seconds` in the sheet gives it longer"

    def race(self, job: Job, report: Report) -> List[str]:
        """What two requests of a superstep bring to the same bytes, if they do."""
        found = None
        with patient(self.patience):
            found = contested_bytes.in_run(job.program, job.settings, job.options.nodes, report.supersteps[-1].number, self.own)
        if found is None:
            self.lacks("the search for bytes that two requests write")
        if found is None or found.first is None:
            return []
        with patient():
            job.code.know_names()
            return told_contested(Tracer(job.code, job.replays()), found.first, found.places - 1)
        return [f"superstep {found.first.superstep}, rank {found.first.rank}: two requests write different bytes to the same place"]

    def exceeded(self, run: RunPlan, ended: Ended) -> List[str]:
        """The costs of bounds that are not kept."""
        names: List[str] = []
        for bound in run.bounds:
            with contextlib.suppress(ValueError, KeyError):
                if not bound.formula.bound({**run.values, **ended.costs}, run.solution).is_kept:
                    names += sorted(bound.formula.names & ended.costs.keys())
        return list(dict.fromkeys(names))

    def dear(self, job: Job, report: Report, wanted: List[str]) -> Dict[str, List[str]]:
        """Where costs come from: the lines with most of w, and that with most of h; and where supersteps end."""
        found: Dict[str, List[str]] = {}
        if {"supersteps", "cost"} & set(wanted):
            with patient():
                job.code.know_names()
                found["supersteps"] = barriers(ends(job.code, job.replays(), min(len(report.supersteps), MOST_ENDS)))
        if set(wanted) == {"supersteps"}:
            return found
        counts = self.own / "counts"
        with patient():
            bounded_run.run([*job.program, "run", *job.settings, "--report", "--counts", str(counts)], PATIENCE, MOST_REPORT)
            trace = Tracer(job.code, job.replays())
            job.code.know_names()
            work = Work(job.code, step_counts.read(counts, job.options.nodes, report))
            if {"w", "most_w", "cost"} & set(wanted):
                found["w"] = dearest_lines(work)
            if {"h", "most_h", "cost"} & set(wanted) and any(it.costs["h"] for it in report.supersteps):
                found["h"] = dearest_requests(work, trace, report)
        return found

    def try_portable(self) -> None:
        """What other choices of a library bring, in the first case, on most nodes."""
        first = [it for it in self.plan.runs if it.defines == self.plan.runs[0].defines]
        run = max(first, key=lambda it: it.nodes)
        self.found.portable, self.found.is_portable = [], False
        with patient(self.patience):
            job = self.job(run, pathlib.Path(self.name), "portable")
            with Builds(job.options, self.own / "portable") as builds:
                found = verdict(job, self.own / "portable", builds)
            self.found.portable = [it.replace("bsprun: ", "", 1) for it in found.lines()] if found else [UNTRIED]
            self.found.is_portable = found is not None and not found.found
            return
        self.lacks("the trial of what BSPlib leaves open")


def absent_files(pieces: Sequence[Tuple[int, bytes]]) -> List[str]:
    """Lines about the files for which a run looked in vain: it may have gone on with the NULL that fopen returns then."""
    records = [record_of(kind, content) for kind, content in pieces if kind == NOTE]
    notes = [note_of(it) for it in records if it is not None]
    names = dict.fromkeys(it.text for it in notes if it is not None and it.what == ABSENT)
    return [f"{it} was not found: the sheet gives no file of this name" for it in list(names)[:MOST_ABSENT]]


def last_name(path: str) -> str:
    """The last name of a path."""
    return pathlib.PurePath(path).name


def name_beside(name: str, taken: Collection[str]) -> str:
    """The name under which a hand-in is compiled. It is its own, unless the compiler could read that as something else, or the sheet has a file
    of that name, which would stand in its place. The last part of it says whether it is C or C++."""
    end = pathlib.PurePath(name).suffix
    others = (f"hand_in{number or ''}{end}" for number in itertools.count())
    return next(it for it in itertools.chain([name], others) if SAFE.fullmatch(it) and it not in taken)


def with_short_place(line: str) -> str:
    """A line of the compiler, with the end of what stands in front of a warning: a text can give itself a name of any length."""
    at = line.find(WARNS)
    return f"...{line[at - MOST_PLACE :]}" if at > MOST_PLACE else line


def some_with(what: Pattern[str], said: Sequence[str]) -> List[str]:
    """So many lines of the compiler as are kept, from the first one that has something, if that would not be among them."""
    first = next((at for at, it in enumerate(said) if what.search(it)), 0)
    return list(said[first if first >= MOST_LINES else 0 :][:MOST_LINES])


def compiler_environment(folder: pathlib.Path) -> Mapping[str, str]:
    """What the compiler has in its environment."""
    names = ("PATH", "HOME", "XDG_CACHE_HOME", "XDG_DATA_HOME", "BSPEMU_TOOLCHAIN")
    return {**{it: os.environ[it] for it in names if it in os.environ}, "TMPDIR": str(folder), "LC_ALL": "C.UTF-8"}


def refusal(text: bytes) -> str:
    """Why a hand-in is no program, if it is none."""
    if len(text) > MOST_TEXT:
        return f"the file has more than {MOST_TEXT} bytes, the limit for a program"
    if not called_names.COMMENTS.sub("", text.decode(errors="replace")).strip():
        return "the file is empty"
    if b"\0" in text:
        return "the file is not text: hand in the program's source"
    return ""


def barriers(places: List[str]) -> List[str]:
    """Where supersteps end, with how many end there, in the order in which the first of each does."""
    counts = {it: places.count(it) for it in places if it != END}
    told = [f"{'once' if count == 1 else f'{count} times'} at {it}" for it, count in counts.items()]
    return [f"bsp_sync is called {'; '.join(told[:MOST_PLACES])}{'; and elsewhere' if len(told) > MOST_PLACES else ''}"] if told else []


def dearest_lines(work: Work) -> List[str]:
    """The lines of which most of w is."""
    lines = [it for it in work.lines() if it.paid > 0]
    whole = sum(it.paid for it in lines)
    where = [f"at {it.function}, {it.place.short}" if it.place.is_own else f"in {it.place.name}" for it in lines]
    return [f"{100 * it.paid / whole:.0f} % of w {at}" for it, at in zip(lines[:3], where)]


def dearest_requests(work: Work, trace: Tracer, report: Report) -> List[str]:
    """The superstep with the greatest h, with the lines whose requests make it."""
    relations = sorted(Traffic(work, trace).relations(report), key=lambda it: -it.h)
    found = []
    for it in relations[:1]:
        parts = sorted(it.parts.items(), key=lambda part: -part[1].size)[:2]
        texts = [f"{amount.size} by {counted(amount.requests, kind)} at {place.short}" for (place, kind), amount in parts]
        way = "sends" if it.is_sent else "receives"
        found.append(f"in superstep {it.superstep} rank {it.rank} {way} {it.h} bytes: {', '.join(texts)}")
    return found


class _Impatient(memory_bound.Late):
    """It has taken too long. What is left out because it cannot be read, as any Exception, does not keep this one."""


@contextlib.contextmanager
def patient(seconds: int = PATIENCE) -> Iterator[None]:
    """A block for what is told beside, which is left out where it takes too long, more memory than there is, or what is not known."""

    def stop(_number: int, _frame: object) -> None:
        memory_bound.lift()
        raise _Impatient

    before = signal.signal(signal.SIGALRM, stop)
    signal.setitimer(signal.ITIMER_REAL, seconds, memory_bound.AGAIN)
    try:
        yield
    except (_Impatient, Refused, OSError, MemoryError, ValueError, KeyError, IndexError, RecursionError, AssertionError):
        pass
    finally:
        signal.setitimer(signal.ITIMER_REAL, 0)
        signal.signal(signal.SIGALRM, before)
