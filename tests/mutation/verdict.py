"""Verdicts: whether a mutant is refused for the clauses that it breaks."""

from __future__ import annotations

import enum
from dataclasses import dataclass

from mutation.crates import Crate
from mutation.mutant import Mutant
from mutation.prover import Answer


class Kind(enum.Enum):
    """What the prover's answer shows of a mutant."""

    REFUSED = "refused"  # each goal that it names fails
    NOT_REFUSED = "NOT REFUSED"  # a goal that it names does not fail
    BAD = "BAD"  # it shows nothing


@dataclass(frozen=True)
class Verdict:
    """A verdict, and the reason for it."""

    kind: Kind
    why: str = ""

    def __str__(self) -> str:
        return f"{self.kind.value}: {self.why}" if self.why else self.kind.value


def verdict(crate: Crate, mutant: Mutant, answer: Answer) -> Verdict:
    """Judges what the prover answered of a mutant's function."""
    if answer.unread or not answer.is_judged:
        return Verdict(Kind.BAD, f"the prover tried no contract: {answer.unread or answer.last}")
    name = f"{crate.name}::{mutant.function}"
    if name in answer.sound:
        return Verdict(Kind.NOT_REFUSED, f"{mutant.function} is still proved")
    if answer.not_proved != [name]:
        return Verdict(Kind.BAD, f"{mutant.function} alone should fail, and not {', '.join(answer.not_proved) or answer.last}")
    if answer.gone:
        return Verdict(Kind.BAD, f"an answer names something that the changed code does not have: {answer.gone}")
    failed = answer.failed(mutant.function)
    holding = [it for it in mutant.breaks if it not in failed]
    if holding:
        return Verdict(Kind.NOT_REFUSED, f"{', '.join(holding)} does not fail; what fails is {', '.join(sorted(failed)) or 'no goal'}")
    return Verdict(Kind.REFUSED)
