"""What the gate costs: processor minutes by crate and part, and the table of them in docs/contributing/gate.md."""

from __future__ import annotations

import datetime
import os
import pathlib
import re
import threading
from typing import Dict, Mapping, Optional, Sequence, Tuple

from gate.checks import Check, Done

# Each process of the prover has this in its environment, with the number of the run that it belongs to.
MARK = "BSPEMU_GATE"
SECONDS_BETWEEN_LOOKS = 0.2
TICKS = os.sysconf("SC_CLK_TCK")
PARTS = ("proof", "tests", "mutants")
# The prover works for tests/mutants in folders whose names begin so.
MUTANTS = "mutants-"
BEGIN, END = "<!-- what the gate costs -->", "<!-- end of what the gate costs -->"

Part = Tuple[str, str]


class Meter:
    """Adds up the processor time of the prover's processes by crate and part, as far as looks at /proc show it.

    A process that ends counts as it was at the last look, so that some tenths of a second of each are lost.
    """

    def __init__(self) -> None:
        self.seconds: Dict[Tuple[int, str], float] = {}
        self.parts: Dict[Tuple[int, str], Optional[Part]] = {}
        self._is_over = threading.Event()
        self._thread = threading.Thread(target=self._look_on, daemon=True)

    def environment(self) -> Mapping[str, str]:
        """What the processes to be measured have in their environment."""
        return {MARK: str(os.getpid())}

    def __enter__(self) -> Meter:
        self._thread.start()
        return self

    def __exit__(self, *_: object) -> None:
        self._is_over.set()
        self._thread.join()

    def minutes(self) -> Dict[Part, float]:
        """Processor minutes by crate and part."""
        found: Dict[Part, float] = {}
        for process, seconds in self.seconds.items():
            part = self.parts[process]
            if part is not None:
                found[part] = found.get(part, 0.0) + seconds / 60
        return found

    def _look_on(self) -> None:
        while not self._is_over.wait(SECONDS_BETWEEN_LOOKS):
            for name in os.listdir("/proc"):
                if name.isdigit():
                    self._look_at(int(name))

    def _look_at(self, number: int) -> None:
        place = pathlib.Path("/proc") / str(number)
        try:
            status = (place / "stat").read_text()
            name, fields = status.partition("(")[2].rpartition(")")[::2]
            if name != "rattle":
                return
            words = fields.split()
            process = (number, words[19])  # its start, since numbers come again
            if process not in self.parts:
                self.parts[process] = part_of(place)
            self.seconds[process] = (int(words[11]) + int(words[12])) / TICKS
        except OSError:
            return  # it has ended


def part_of(place: pathlib.Path) -> Optional[Part]:
    """Which crate a process of the prover works on, and for which part, or None if it is of no run of this gate."""
    if f"{MARK}={os.getpid()}".encode() not in (place / "environ").read_bytes().split(b"\0"):
        return None
    words = [it.decode(errors="replace") for it in (place / "cmdline").read_bytes().split(b"\0")]
    if "--crate-name" not in words:
        return None
    crate = words[words.index("--crate-name") + 1]
    if os.path.basename(os.readlink(place / "cwd")).startswith(MUTANTS):
        return crate, "mutants"
    return crate, "tests" if "--test" in words else "proof"


def mutants_of(crates: pathlib.Path, crate: str) -> int:
    """How many mutants a crate has, with its controls."""
    return len(list((crates / crate / "mutants").rglob("*.mutant")))


def total(prover: float, checks: Sequence[Done], clock: float) -> str:
    """What all took, in processor minutes and in minutes of the clock, where and when."""
    spent = prover + sum(it.processor_seconds for it in checks) / 60
    today = datetime.date.today()
    processors = len(os.sched_getaffinity(0))
    whole = f"On {today.day} {today:%B %Y}, the whole gate took {spent:.0f} processor minutes."
    return f"{whole} On {processors} processors, that was {clock:.0f} minutes."


def typed(check: Check) -> str:
    """The command of a check as a person types it: without the program that it takes and without numbers."""
    return " ".join([check.command[0], *(it for it in check.command[1:] if it.startswith("--") and it != "--program")])


def table(
    crates: pathlib.Path,
    names: Sequence[str],
    minutes: Mapping[Part, float],
    prover: float,
    tried: int,
    checks: Sequence[Done],
    clock: float,
) -> str:
    """The tables of what crates and checks cost. `prover` is what the prover's whole run took, in processor minutes, `tried` how many mutants
    and controls were tried in it, and `clock` the minutes of the clock that all took."""
    lines = [total(prover, checks, clock), "", "| Crate | Proof | Tests | Mutants |", "|---|---|---|---|"]
    sums = dict.fromkeys(PARTS, 0.0)
    for name in names:
        cells = []
        for part in PARTS:
            spent = minutes.get((name, part), 0.0)
            sums[part] += spent
            count = mutants_of(crates, name) if part == "mutants" else 0
            cells.append((f"{count}: " if count else "") + f"{spent:.1f}" if spent or count else "")
        lines.append(f"| `{name}` | {' | '.join(cells)} |")
    number = sum(mutants_of(crates, it) for it in names)
    lines.append(f"| all | {sums['proof']:.1f} | {sums['tests']:.1f} | {number}: {sums['mutants']:.1f} |")
    rest = prover - sum(sums.values())
    lines += ["", f"Of the {number} mutants and controls, {tried} were tried in this run."]
    lines += [f"Programs, their linking and the prover's own bookkeeping took another {rest:.1f} minutes.", ""]
    lines += ["| Check | Command | Parts | Processor seconds |", "|---|---|---|---|"]
    lines += [f"| {it.check.name} | `{typed(it.check)}` | {it.tally.passed} | {it.processor_seconds:.0f} |" for it in checks]
    return "\n".join(lines)


def written(page: str, inside: str) -> str:
    """The page with this text between the two comments that it has for it."""
    found = re.subn(f"(?s)(?<={re.escape(BEGIN)}\n).*(?=\n{re.escape(END)})", lambda _: inside, page)
    if found[1] != 1:
        raise ValueError(f"the page has no place for the table: {BEGIN}")
    return found[0]
