"""The inputs of a sheet: read from files, or made from a seed."""

from __future__ import annotations

import os
import random
import sys
from typing import Dict, List, Optional, Tuple

from ..files import named_content
from ..limits import MOST_INPUT
from ..refusals import Refused, tell
from . import bounded_run
from .sheet import Case, Generator, Numbers, Run, Sheet

# Of a generator or a checker, which are the teacher's own.
SECONDS = 60
SEED = "SEED"


def words_of(path: str) -> List[str]:
    """The words that start a program of a sheet: a program by itself, or a text of Python by the Python that runs this."""
    if path.endswith(".py"):
        return [sys.executable, path]
    if not os.access(path, os.X_OK):
        raise Refused(f"{path} cannot be started: make it executable with chmod +x, or give it the name of a Python script, such as make.py")
    return [path]


class Inputs:
    """The inputs of a sheet's runs. A seed of the command line counts in the place of the sheet's."""

    def __init__(self, sheet: Sheet, seed: Optional[int]) -> None:
        self.sheet, self.seed = sheet, seed
        self.known: Dict[Tuple[object, int], Optional[bytes]] = {}
        if seed is not None and not any(isinstance(it.input, (Numbers, Generator)) or SEED in dict(it.defines) for it in sheet.cases):
            tell([f"bspcheck: --seed changes nothing: no input of this sheet has a seed, and there is no constant {SEED}"])

    def defines(self, case: Case) -> Tuple[Tuple[str, str], ...]:
        """The constants of a case. One of the name SEED is the seed that a program makes its own input of."""
        return tuple((name, str(self.seed) if name == SEED and self.seed is not None else value) for name, value in case.defines)

    def of(self, run: Run) -> Optional[bytes]:
        """The input of a run, if it has one."""
        asked = run.case.input
        key = (asked, run.nodes if isinstance(asked, Generator) else 0)
        if key not in self.known:
            self.known[key] = self.made(run.case, run.nodes)
        return self.known[key]

    def made(self, case: Case, nodes: int) -> Optional[bytes]:
        """Reads or makes an input."""
        asked = case.input
        if isinstance(asked, str):
            return named_content(self.sheet.file(asked), MOST_INPUT)
        if isinstance(asked, Numbers):
            return numbers(asked, asked.seed if self.seed is None else self.seed)
        return self.generated(asked, nodes) if isinstance(asked, Generator) else None

    def generated(self, asked: Generator, nodes: int) -> bytes:
        """What a generator writes."""
        path = self.sheet.file(asked.program)
        seed = asked.seed if self.seed is None else self.seed
        ran = bounded_run.run([*words_of(path), str(seed), str(nodes)], SECONDS, MOST_INPUT, name=asked.program)
        if ran.how != bounded_run.ENDED or ran.status != 0:
            late, long = f"did not end in {SECONDS} s", f"printed more than {MOST_INPUT} bytes, the limit for an input"
            how = {bounded_run.LATE: late, bounded_run.LONG: long}.get(ran.how, f"ended with status {ran.status}")
            raise Refused(f"{path} {seed} {nodes} {how}", *ran.said.decode(errors="replace").splitlines()[-5:])
        if not ran.output:
            tell([f"bspcheck: {path} {seed} {nodes} printed nothing, so this input is empty"])
        return ran.output


def numbers(asked: Numbers, seed: int) -> bytes:
    """Random numbers, a line each, which are the same for a seed with every Python."""
    # Of randrange Python changed what it draws from a seed; of random() it promises that it does not.
    chance = random.Random(seed)
    span = asked.most - asked.least + 1
    return "".join(f"{asked.least + int(chance.random() * span)}\n" for _ in range(asked.amount)).encode()
