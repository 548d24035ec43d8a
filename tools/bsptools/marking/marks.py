"""The mark of a hand-in by a sheet, and its first mistake, in words."""

from __future__ import annotations

import re
from collections.abc import Mapping, Sequence
from dataclasses import dataclass, field
from typing import Dict, List, NamedTuple, Optional

from ..refusals import counted, printable
from . import formulas
from .differences import Row, first_difference, is_same, rows
from .evidence import BROKEN, LATE, LONG, WARNS, Ended, Evidence
from .sheet import Bound, Run, Sheet, settings_of

# A place in the program's own `exit`.
EXIT = re.compile(r", in (?:exit|_exit|_Exit)\b")
# What becomes of a hand-in, in a word for scripts.
RIGHT, EMPTY, NOT_COMPILED, NOT_ALLOWED = "right", "no program", "does not compile", "not allowed"
WRONG, STOPPED, ENDLESS, FLOOD, RACE = "wrong output", "stopped", "endless", "too much output", "race"
EXPENSIVE, IDLE, NOT_PORTABLE, WARNED = "too expensive", "does too little", "not portable", "warnings"
# The sheet's checker broke off, a rule of it has no value, or the host gave too little to try it: that is no fault of the hand-in.
UNJUDGED = "not judged"
# Why nothing is looked at after the first of these.
LOST = {EMPTY: "there is no program", NOT_COMPILED: "it does not compile", UNJUDGED: "it could not be tried"}


class Judgement(NamedTuple):
    """What a checker says of a run: a verdict and the fault, or nothing if it is right."""

    verdict: str = ""
    fault: str = ""


class Wanted(NamedTuple):
    """What is wanted of a run: its output, where the sheet has one, and what the solution costs, if there is one."""

    output: Optional[bytes] = None
    costs: Mapping[str, float] = {}
    supersteps: Sequence[Sequence[int]] = ()


@dataclass
class Check:
    """One thing that was looked at: its name, what it gives and could give, whether it is as it should be, and else a verdict, the fault in
    words and more lines; of a run also which one, how that is told, and the output beside the wanted one."""

    name: str
    points: float = 0.0
    of: float = 0.0
    verdict: str = ""
    fault: str = ""
    more: List[str] = field(default_factory=list)
    run: int = -1
    where: str = ""
    rows: List[Row] = field(default_factory=list)

    @property
    def told(self) -> str:
        """The fault, behind the run that it is of where it does not say that itself."""
        return f"{self.where}: {self.fault}" if self.where else self.fault

    @property
    def is_kept(self) -> bool:
        """Whether all is as it should be."""
        return not self.fault


@dataclass
class Marks:
    """A hand-in by its name, with all that was looked at."""

    name: str
    evidence: Evidence
    checks: List[Check]

    @property
    def points(self) -> float:
        """What it gets."""
        return sum(it.points for it in self.checks)

    @property
    def spelled(self) -> str:
        """Its name as it is told. Two names that differ in what cannot be printed, such as a line feed, differ here, too."""
        return printable(self.name)

    @property
    def first(self) -> Optional[Check]:
        """The first thing that is wrong."""
        return next((it for it in self.checks if not it.is_kept), None)

    @property
    def verdict(self) -> str:
        """What becomes of it, in a word."""
        return self.first.verdict if self.first else RIGHT


def marks(name: str, evidence: Evidence, sheet: Sheet, wanted: Sequence[Wanted], judged: Optional[Sequence[Judgement]] = None) -> Marks:
    """The marks of a hand-in. `judged` is what a checker says of each run."""
    return Marks(name, evidence, Marker(evidence, sheet, wanted, judged).checks())


class Marker:
    """Looks at a hand-in by a sheet."""

    def __init__(self, evidence: Evidence, sheet: Sheet, wanted: Sequence[Wanted], judged: Optional[Sequence[Judgement]]) -> None:
        self.evidence, self.sheet, self.wanted, self.judged = evidence, sheet, wanted, judged

    def checks(self) -> List[Check]:
        """All that is looked at, the first faults first: what comes behind one that a hand-in cannot pass has no points."""
        first = self.compiled()
        if not first.is_kept:
            return [first, *self.lost(LOST[first.verdict])]
        rules = self.rules()
        if rules and not rules.is_kept:
            return [first, rules, *self.lost("a rule of the sheet is broken")]
        runs = self.runs()
        are_right = [it.is_kept for it in runs]
        return [first, *([rules] if rules else []), *runs, *self.bounds(are_right), *self.others(all(are_right))]

    def compiled(self) -> Check:
        """Whether it is a program."""
        evidence, name = self.evidence, "compiles"
        if evidence.untried:
            return Check(name, verdict=UNJUDGED, fault=f"it could not be tried: {evidence.untried}")
        if evidence.refused:
            return Check(name, verdict=EMPTY, fault=evidence.refused)
        if not evidence.is_built:
            return Check(name, verdict=NOT_COMPILED, fault=compiler_fault(evidence.said), more=evidence.said)
        return Check(name, more=evidence.said)

    def rules(self) -> Optional[Check]:
        """Whether it calls what the sheet requires, and nothing that it forbids."""
        sheet, calls = self.sheet, self.evidence.calls
        if not sheet.forbid and not sheet.require:
            return None
        names = [*(f"without {it}" for it in sheet.forbid), *(f"with {it}" for it in sheet.require)]
        check = Check(", ".join(names), verdict=NOT_ALLOWED)
        for it in sheet.forbid:
            if it in calls:
                check.fault = f"{it} is called{f' in line {calls[it]}' if calls[it] else ''}, but this sheet forbids it"
                return check
        missing = [it for it in sheet.require if it not in (self.evidence.made or [])]
        check.fault = f"{missing[0]} is not called, but this sheet requires it" if missing else ""
        return check

    def lost(self, why: str) -> List[Check]:
        """What was not looked at."""
        sheet = self.sheet
        of = [sheet.right / len(sheet.runs)] * len(sheet.runs)
        found = [Check(f"output on {run}", 0, part, "", f"not checked: {why}") for run, part in zip(sheet.runs, of)]
        found += [Check(it.formula.text, 0, it.points, "", f"not checked: {why}") for it in sheet.bounds]
        return [*found, *self.others(False)]

    # Runs.

    def runs(self) -> List[Check]:
        """Whether it is right on each run."""
        found = [self.run(number, run) for number, run in enumerate(self.sheet.runs)]
        wrong = [it for it in found if not it.is_kept]
        right = [run for run, it in zip(self.sheet.runs, found) if it.is_kept]
        if wrong and right:
            wrong[0].more.append(f"right on {'; '.join(map(str, right))}")
        return found

    def run(self, number: int, run: Run) -> Check:
        """Whether a run is right."""
        of = self.sheet.right / len(self.sheet.runs)
        ended, wanted = self.evidence.runs[number], self.wanted[number]
        check = Check(f"output on {run}", 0, of, run=number, where=str(run))
        if wanted.output is not None:
            check.rows = rows(ended.content, wanted.output, self.sheet)
        judgement = None if self.judged is None else self.judged[number]
        if not ended.is_well:
            self.not_well(check, ended)
        elif judgement is not None and judgement.verdict:
            check.verdict, check.fault = judgement
        elif judgement is None and wanted.output is not None and not is_same(ended.content, wanted.output, self.sheet):
            check.verdict, check.fault = WRONG, first_difference(ended.content, wanted.output, self.sheet)
        elif ended.race:
            check.verdict, check.fault, check.more = RACE, race_fault(ended.race), list(ended.race)
        else:
            check.points = of
        return check

    def not_well(self, check: Check, ended: Ended) -> None:
        """Why a run did not come to its end."""
        said = [it for it in ended.errors.splitlines() if it.strip()]
        check.more = [*ended.why, *said[:10]]
        if ended.outcome == LONG:
            check.verdict, check.fault = FLOOD, f"it does not stop printing: {len(ended.output):,} bytes and more"
        elif ended.outcome == LATE:
            check.verdict, check.fault = ENDLESS, f"it had not ended after {self.sheet.seconds} s: is it an endless loop?"
        elif ended.outcome == BROKEN:
            check.verdict, check.fault = STOPPED, "".join(ended.why[:1])
        elif "exhausted" in ended.outcome:
            check.verdict, check.fault = ENDLESS, exhausted(ended)
        else:
            check.verdict, check.fault = STOPPED, stop_fault(ended, said)

    # Costs.

    def bounds(self, are_right: Sequence[bool]) -> List[Check]:
        """Whether each bound is kept. What a wrong program costs says nothing."""
        return [self.bound(it, are_right) for it in self.sheet.bounds]

    def bound(self, bound: Bound, are_right: Sequence[bool]) -> Check:
        """Whether a bound is kept on all of its runs."""
        check = Check(bound.formula.text, 0, bound.points, IDLE if bound.formula.is_floor else EXPENSIVE)
        for number, run in enumerate(self.sheet.runs):
            if not bound.holds_for(run):
                continue
            if not are_right[number]:
                check.fault, check.verdict = f"costs count only if the run is right, and it is wrong on {run}", ""
                return check
            values = {**settings_of(run), **self.evidence.runs[number].costs}
            try:
                found = bound.formula.bound(values, self.wanted[number].costs)
            except (ValueError, KeyError) as error:
                check.fault, check.verdict = f"{bound.formula.text} has no value on {run}: {error}", UNJUDGED
                return check
            if not found.is_kept:
                self.exceeded(check, bound, number, found)
                return check
        check.points = bound.points
        return check

    def exceeded(self, check: Check, bound: Bound, number: int, found: formulas.Bound) -> None:
        """What is told of a bound that is not kept."""
        run, dear = self.sheet.runs[number], self.evidence.runs[number].dear
        check.run = number
        check.fault = f"{bound.formula.left} is {formulas.told(found.left)} on {run}, and {found.told}"
        names = bound.formula.names
        kinds = [kind for kind in ("h", "w", "supersteps") if names & {kind, f"most_{kind}", "cost"}]
        lines = [line for kind in kinds for line in dear.get(kind, [])]
        if lines and not bound.formula.is_floor:
            check.fault += f": {lines[0]}"
        check.more = [*lines[1:], *([bound.why] if bound.why else [])]

    # The rest.

    def others(self, are_right: bool) -> List[Check]:
        """What other libraries would make of it, and what the compiler warns of."""
        sheet, found = self.sheet, []
        if sheet.portable:
            check = Check("portable", 0, sheet.portable_points, NOT_PORTABLE)
            if not are_right or self.evidence.portable is None:
                check.fault, check.verdict = "not checked: it is not right everywhere", ""
            elif not self.evidence.is_portable:
                check.fault, check.more = portable_fault(self.evidence.portable), self.evidence.portable
            else:
                check.points = sheet.portable_points
            found.append(check)
        if sheet.warning_points:
            warnings = [it for it in self.evidence.said if WARNS in it]
            check = Check("no warnings", 0, sheet.warning_points, WARNED)
            if not are_right:
                check.fault, check.verdict = "not checked: it is not right everywhere", ""
            elif warnings:
                check.fault, check.more = f"{counted(len(warnings), 'warning')}, the first: {plain(warnings[0])}", warnings
            elif self.evidence.hides:
                check.fault = self.evidence.hides
            else:
                check.points = sheet.warning_points
            found.append(check)
        return found


# Words.


def compiler_fault(said: Sequence[str]) -> str:
    """The first error of a compiler, with its line."""
    if any("undefined reference to `main'" in it for it in said):
        return "there is no function main"
    kinds = ("undefined reference", "error: ", "Error: ")
    errors = next(filter(None, ([it for it in said if kind in it] for kind in kinds)), list(said))
    return plain(errors[0]) if errors else "the compiler said nothing"


def plain(line: str) -> str:
    """A line of the compiler, as a person says it."""
    found = re.match(r"(?:.*/)?([^/:]+):(\d+):(?:\d+:)? (?:fatal )?(?:[eE]rror|warning): (.*)", line)
    if found:
        # What GCC makes of a text for the assembler has a name of its own.
        return f"assembly: {found[3]}" if found[1].endswith(".s") else f"{found[1]}, line {found[2]}: {found[3]}"
    found = re.search(r"([^/:( ]+):(\d+): undefined reference to `(\w+)'", line)
    if found:
        return f"{found[1]}, line {found[2]}: {found[3]} is called, and there is no such function"
    return re.sub(r"^\S*/(?=\S)", "", line)


def detail(lines: Sequence[str], name: str) -> str:
    """What lines of a stop have behind a word, as `at` or `why`."""
    return next((it.strip()[len(name) :].strip() for it in lines if it.strip().startswith(f"{name} ")), "")


def near(where: str) -> str:
    """A place up to the first line of a source that it names: those that called it are told elsewhere."""
    found = re.match(r".*?[\w.-]+\.\w+:\d+", where)
    return found[0] if found else where


def exhausted(ended: Ended) -> str:
    """What is told of a run that came to its limit of instructions."""
    found = re.match(r"rank (\d+) stopped in superstep (\d+): it executed (\d+) instructions", "".join(ended.why[:1]))
    where = near(detail(ended.why, "at"))
    if found is None:
        return f"it had not ended at the limit of instructions ({ended.outcome}): is it an endless loop?"
    at = f", at {where}" if where else ""
    return f"rank {found[1]} had not ended after {int(found[3]):,} instructions, in superstep {found[2]}{at}: is it an endless loop?"


def stop_fault(ended: Ended, said: Sequence[str]) -> str:
    """What is told of a run that was stopped."""
    first, where, why = "".join(ended.why[:1]), near(detail(ended.why, "at")), detail(ended.why, "why")
    if "aborted" in ended.outcome:
        found = re.match(r"rank (\d+) stopped in superstep (\d+)", first)
        if found and not said and EXIT.search(detail(ended.why, "at")):
            # The last line of the output may be that of another rank, and says nothing of this.
            return f"rank {found[1]} ended the run of all ranks by exit in superstep {found[2]}, at {where}"
        text = said[0] if said else "".join(ended.content.decode(errors="replace").splitlines()[-1:])
        text = text[len("bsp: ") :] if text.startswith("bsp: ") else text
        return f"it gave up: {text}" if text else f"it gave up{f', at {where}' if where else ''}"
    found = re.match(r"rank (\d+) stopped in superstep (\d+)", first)
    if found:
        kind = "" if why else f": {ended.outcome.partition(': ')[2]}"
        return f"rank {found[1]} stopped in superstep {found[2]}{f', at {where}' if where else ''}{f': {why}' if why else kind}"
    if ended.outcome.startswith("desync"):
        return desync(ended)
    return f"{first}{f', at {where}' if where else ''}{f': {why}' if why else ''}" if first else ended.outcome


def desync(ended: Ended) -> str:
    """What is told where ranks have ended and others wait for them: who, and where one waits. Lines below it say where the others ended."""
    # Those that wait come before those that ended.
    found = re.match(r"\s*ranks? .* made \d+, the last at (.*)", "".join(ended.why[1:2]))
    first = "".join(ended.why[:1]) or ended.outcome
    return f"{first}, at {near(found[1])}" if found else first


def race_fault(lines: Sequence[str]) -> str:
    """What is told of bytes that two requests contest."""
    places = re.findall(r"by rank (\d+) at (.*?): bsp_", "\n".join(lines))
    told = [f"rank {rank} at {near(place)}" for rank, place in places]
    where = re.search(r"superstep \d+, rank \d+", "\n".join(lines))
    at, by = f" in {where[0]}" if where else "", f": {told[0]}, and {told[1]}" if len(told) > 1 else ""
    return f"two requests write different bytes to the same place{at}{by}"


def portable_fault(lines: Sequence[str]) -> str:
    """The first thing that a verdict of --portable has."""
    at = next((i for i, it in enumerate(lines) if it.startswith("not portable: ")), 0)
    head = lines[at].replace("not portable: ", "", 1) if lines else "not portable"
    where = next((" ".join(it.split()) for it in lines[at + 1 :] if re.search(r"[\w.]+:\d+", it)), "")
    return f"{head} ({where})" if where else head


def wanted_of(evidence: Evidence) -> List[Wanted]:
    """What is wanted, by what came of the solution."""
    return [Wanted(it.content if it.is_well else None, dict(it.costs), it.supersteps) for it in evidence.runs]


def faults_of_solution(evidence: Evidence, sheet: Sheet) -> Dict[str, str]:
    """Why a solution is none."""
    if evidence.untried or evidence.refused or not evidence.is_built:
        return {"": evidence.untried or evidence.refused or compiler_fault(evidence.said)}
    return {str(run): stop_fault(it, it.errors.splitlines()) for run, it in zip(sheet.runs, evidence.runs) if not it.is_well}
