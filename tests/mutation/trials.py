"""Trials of mutants and controls, in parallel, crate by crate as their libraries are built."""

from __future__ import annotations

import functools
import os
import pathlib
import shutil
import threading
from dataclasses import dataclass, field
from typing import Callable, Dict, Iterable, List, Sequence, Tuple

from checks import Tally
from mutation.crates import Crate, outlined
from mutation.mutant import Fault, Mutant, read
from mutation.prover import Answer, Prover
from mutation.verdict import Kind, verdict

MEMORY_OF_A_PROOF = 4 << 20  # KiB


@dataclass(frozen=True)
class Trial:
    """A mutant, or a control, which has to come out as not refused."""

    crate: Crate
    mutant: Mutant
    is_control: bool

    @property
    def name(self) -> str:
        """Its name for people."""
        return f"{self.crate.name}: {self.mutant.name}"

    def fault(self, answer: Answer) -> str:
        """What is wrong with its outcome, or nothing."""
        found = verdict(self.crate, self.mutant, answer)
        wanted = Kind.NOT_REFUSED if self.is_control else Kind.REFUSED
        if found.kind is wanted:
            return ""
        return f"a control came out as {found}" if self.is_control else str(found)


@dataclass
class Batch:
    """The trials of a crate, over what the prover kept of their functions as they stand."""

    crate: Crate
    trials: Sequence[Trial]
    seed: pathlib.Path
    left: int = field(init=False)
    functions: Sequence[str] = field(init=False)

    def __post_init__(self) -> None:
        self.left = len(self.trials)
        self.functions = sorted({it.mutant.function for it in self.trials})


def trials_of(crate: Crate, mutants: Iterable[pathlib.Path], controls: Iterable[pathlib.Path], tally: Tally) -> List[Trial]:
    """These mutants and controls of a crate. One that cannot be made is a failure."""
    found: List[Trial] = []
    for path in (*mutants, *controls):
        try:
            found.append(Trial(crate, read(crate, path), path.parent.name == "controls"))
        except (Fault, OSError) as error:
            tally.tell(f"{crate.name}: {path.stem}", f"BAD: {error}")
    return found


class Trials:
    """Tries mutants: first those of the crate that came last, and before all others those of a crate whose functions were already asked for
    as they stand."""

    def __init__(self, prover: Prover, tally: Tally, tells_costs: bool) -> None:
        self.prover, self.tally, self.tells_costs = prover, tally, tells_costs
        self.right: Dict[str, int] = {}  # how many trials of each crate came out as they should
        self.seconds = 0.0
        self.left: List[Tuple[str, Callable[[], None]]] = []  # by names
        self.lock = threading.Condition()
        self.busy = 0
        self.has_all = False  # whether no crate is still to come

    def run(self, crates: Iterable[Tuple[Crate, Sequence[Trial]]], room: pathlib.Path) -> None:
        """Tries what comes: in one lane, until all has come."""
        threads: List[threading.Thread] = []
        try:
            self.begin_lanes(threads, 1)
            for crate, trials in crates:
                if trials:
                    self.add(f"{crate.name}: mutants", functools.partial(self.begin, Batch(crate, trials, room / crate.name / "seed")))
            with self.lock:
                self.has_all = True
                self.lock.notify_all()
            self.begin_lanes(threads, lanes() - 1)
            for thread in threads:
                thread.join()
        finally:
            self.prover.end()
            with self.lock:
                self.left.clear()
                self.has_all = True
                self.lock.notify_all()
            for thread in threads:
                thread.join()

    def begin_lanes(self, threads: List[threading.Thread], count: int) -> None:
        """Starts so many more lanes."""
        for _ in range(count):
            thread = threading.Thread(target=self.work)
            thread.start()
            threads.append(thread)

    def add(self, name: str, task: Callable[[], None]) -> None:
        """Adds a task, which is done before those that are there."""
        with self.lock:
            self.left.append((name, task))
            self.lock.notify_all()

    def work(self) -> None:
        """Does what is left, the last first, until nothing is."""
        while True:
            with self.lock:
                self.lock.wait_for(lambda: self.left or (self.has_all and not self.busy))
                if not self.left:
                    self.lock.notify_all()
                    return
                name, task = self.left.pop()
                self.busy += 1
            try:
                task()
            except Exception as error:  # pylint: disable=broad-except
                self.tally.tell(name, f"BAD: {type(error).__name__}: {error}")
            finally:
                with self.lock:
                    self.busy -= 1
                    self.lock.notify_all()

    def begin(self, batch: Batch) -> None:
        """Asks for the functions of a crate's trials as they stand, and leaves the trials to be made over that."""
        crate, functions = batch.crate, batch.functions
        batch.seed.mkdir(parents=True)
        try:
            answer = self.prover.ask(crate, functions, outlined(crate, functions, {}), batch.seed)
        except Fault as error:
            answer = Answer(1, str(error), 0.0)
        self.cost(f"{crate.name}: the functions as they stand", answer)
        if not answer.is_judged or answer.not_proved or not {f"{crate.name}::{it}" for it in functions}.issubset(answer.sound):
            for trial in batch.trials:
                self.tally.tell(trial.name, f"BAD: its function is not proved as it stands:\n{answer.said[-2000:]}")
            return
        for trial in reversed(batch.trials):
            self.add(trial.name, functools.partial(self.one, trial, batch))

    def cost(self, name: str, answer: Answer) -> None:
        """Adds what an answer took, and says it, if asked to."""
        with self.lock:
            self.seconds += answer.seconds
        if self.tells_costs:
            print(f"{answer.seconds:6.1f} s  {name}", flush=True)

    def one(self, trial: Trial, batch: Batch) -> None:
        """Makes a trial. After the last of a crate, what was kept for them is removed."""
        kept = batch.seed.parent / trial.mutant.name
        link_tree(batch.seed, kept)
        answer = self.prover.ask(trial.crate, [trial.mutant.function], outlined(trial.crate, batch.functions, trial.mutant.texts), kept)
        shutil.rmtree(kept)
        self.cost(trial.name, answer)
        fault = trial.fault(answer)
        self.tally.tell(trial.name, fault)
        with self.lock:
            self.right[trial.crate.name] = self.right.get(trial.crate.name, 0) + (not fault)
            batch.left -= 1
            is_last = not batch.left
        if is_last:
            shutil.rmtree(batch.seed.parent)


def link_tree(source: pathlib.Path, target: pathlib.Path) -> None:
    """Copies what the prover kept. It replaces the files that it checked by others and changes none, so links are enough for them."""

    def copy(one: str, other: str) -> None:
        if one.endswith(".oantt"):
            os.link(one, other)
        else:
            shutil.copy2(one, other)

    shutil.copytree(source, target, copy_function=copy)


def lanes() -> int:
    """How many processes of the prover run side by side: one a processor, as far as memory allows."""
    with open("/proc/meminfo", encoding="ascii") as lines:
        free = next(int(line.split()[1]) for line in lines if line.startswith("MemAvailable"))
    return max(1, min(len(os.sched_getaffinity(0)), free // MEMORY_OF_A_PROOF))

