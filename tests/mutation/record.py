"""The record: the sources at which all mutants of a crate were refused, and the mutants that are tried again although nothing has changed."""

from __future__ import annotations

import hashlib
import math
import pathlib
import subprocess
from typing import Dict, Iterable, Iterator, List, Mapping, Set, Tuple

from checks import REPO
from mutation.crates import Crate
from mutation.prover import Prover

TESTS = REPO / "tests"
RECORD = TESTS / "mutation/record"
HEAD = """\
# Written by tests/mutants. A crate, its number of mutants and controls, and a digest of all that the prover's answers to them rest on:
# each mutant was refused and each control was not when the digest was this one. "Mutants" in docs/contributing/gate.md says more.
"""
# One in so many mutants is tried again each time.
SHARE = 10


def recorded() -> Dict[str, str]:
    """The line of each crate in the record."""
    lines = RECORD.read_text().splitlines() if RECORD.is_file() else []
    return {it.split()[0]: it for it in lines if it and not it.startswith("#")}


def write(lines: Mapping[str, str], order: Iterable[str]) -> None:
    """Writes the record with these lines, in the order of crates.txt."""
    RECORD.write_text(HEAD + "".join(f"{lines[it]}\n" for it in order if it in lines))


def line(crate: Crate, prover: Prover) -> str:
    """The line of a crate as it stands. The libraries below it have to be built."""
    return f"{crate.name} {len(crate.mutants()) + len(crate.controls())} {digest(crate, prover)}"


def digest(crate: Crate, prover: Prover) -> str:
    """A digest of the logic, of the harness, and of a crate: its sources, mutants and controls, and the contracts and definitions of all
    crates below it."""
    whole = hashlib.sha256(f"{prover.logic()}\n{crate.below} {crate.of_kit}\n".encode())
    for name, path in parts(crate, prover):
        content = path.read_bytes()
        whole.update(f"{name} {len(content)}\n".encode() + content)
    return whole.hexdigest()


def parts(crate: Crate, prover: Prover) -> Iterator[Tuple[str, pathlib.Path]]:
    """The files that a crate's digest covers, each with the name that it counts under."""
    harness = [TESTS / "mutants", *sorted((TESTS / "mutation").glob("*.py"))]
    for path in [*harness, *crate.sources(), *crate.mutants(), *crate.controls()]:
        yield str(path.relative_to(REPO)), path
    for name in crate.all_below:
        library = prover.library(name) / "lang"
        for path in sorted([*(library / "src").rglob("*.rt"), *library.glob("antt/specs.antt"), *library.glob("antt/specs/**/*.antt")]):
            yield f"{name} {path.relative_to(library)}", path


def again(crates: Iterable[Crate]) -> Set[str]:
    """A tenth of all mutants and controls, by their files' names below the repository; another tenth at each commit."""
    commit = subprocess.run(["git", "rev-parse", "HEAD"], cwd=REPO, stdout=subprocess.PIPE, stderr=subprocess.DEVNULL, text=True, check=False)
    names = [str(path.relative_to(REPO)) for crate in crates for path in (*crate.mutants(), *crate.controls())]
    names.sort(key=lambda it: hashlib.sha256(f"{commit.stdout} {it}".encode()).digest())
    return set(names[: math.ceil(len(names) / SHARE)])


def kept_of(paths: Iterable[pathlib.Path], wanted: Set[str]) -> List[pathlib.Path]:
    """Those of these files whose names are wanted."""
    return [it for it in paths if str(it.relative_to(REPO)) in wanted]
