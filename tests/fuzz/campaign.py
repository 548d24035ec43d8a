"""Many runs, one after another, and the lines about them."""

from __future__ import annotations

import os
import pathlib
import tempfile
from typing import Callable, Dict, List, Optional, Tuple

from fuzz import float_listings, kinds, runs, words
from fuzz.bench import Bench, Trial

Kind = Tuple[str, Callable[[Trial], None]]
# The kinds of runs, in the order in which they are made, over and over.
KINDS: List[Kind] = [
    ("program", runs.program), ("elf", kinds.elf), ("text", kinds.text), ("debugger", runs.debugger), ("words", words.command_line),
    ("program", runs.program), ("raw", kinds.raw), ("elf", kinds.elf), ("text", kinds.text), ("starved", runs.starved),
    ("floats", float_listings.listing),
]


def fast_folder() -> Optional[str]:
    """A folder in memory, where the host has one: files are made and gone at each run."""
    return "/dev/shm" if os.access("/dev/shm", os.W_OK) else None


class Campaign:
    """Runs of one seed, of all kinds or of one. What breaks a rule is told by a line, and its files are kept in a folder."""

    def __init__(self, program: pathlib.Path, seed: int, keep: pathlib.Path, tell: Callable[[str], None], only: str = "") -> None:
        self.program, self.seed, self.keep, self.tell = program, seed, keep, tell
        self.kinds = [kind for kind in KINDS if only in ("", kind[0])]
        self.made: Dict[str, int] = {}
        self.statuses: Dict[int, int] = {}
        self.failed = 0

    def make(self, first: int, count: int, is_enough: Callable[["Campaign"], bool] = lambda _: False) -> None:
        """Makes so many runs from a number on, or fewer if they are enough."""
        with tempfile.TemporaryDirectory(dir=fast_folder()) as folder, Bench(self.program, pathlib.Path(folder)) as bench:
            for number in range(first, first + count):
                self.make_one(bench, number)
                if is_enough(self):
                    break
            self.statuses = dict(bench.statuses)

    def make_one(self, bench: Bench, number: int) -> None:
        """Makes the run of this number. What it leaves is taken away before the next one."""
        name, kind = self.kinds[number % len(self.kinds)]
        trial = Trial(bench, self.seed, number)
        kind(trial)
        self.made[name] = self.made.get(name, 0) + 1
        if trial.faults:
            self.failed += 1
            kept = trial.keep(self.keep)
            for fault in trial.faults:
                self.tell(f"run {number} of seed {self.seed} ({name}): {fault}; its files are in {kept}")
        bench.clear()

    def summary(self) -> str:
        """The line that counts the runs."""
        made = ", ".join(f"{name} {count}" for name, count in sorted(self.made.items()))
        ended = ", ".join(f"{status}: {count}" for status, count in sorted(self.statuses.items()))
        starts = sum(self.statuses.values())
        return (f"{sum(self.made.values())} runs of seed {self.seed} ({made}), {starts} starts (status {ended}): "
                f"{self.failed} runs failed")
