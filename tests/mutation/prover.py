"""Asks the prover about single functions in copies of crates, and returns the goals that fail."""

from __future__ import annotations

import pathlib
import re
import shutil
import signal
import subprocess
import tempfile
from dataclasses import dataclass
from typing import List, Mapping, Optional, Sequence, Set

from checks import REPO
from gate.checks import ended
from mutation.crates import SOURCES, Crate
from mutation.mutant import Fault

# The prover's processes work in folders whose names begin so. The gate's account of what each part costs goes by it.
ROOM = "mutants-"
# The prover's last line, if it has judged the functions that it was asked for.
JUDGED = re.compile(r"only=\d+ holes=\d+")
NOT_PROVED = re.compile(r"(?m)^fn (\S+?): (?:not proved|no proof\b)")
# A function that is proved, except for what holes stand for.
SOUND = re.compile(r"(?m)^fn (\S+?): (?:no holes|depends on a hole)")
# A goal that fails: at the answer that is written for it, or in the code if none is written.
AT_ANSWER = re.compile(r"(?m)^(?:\./)?proofs/(\S+)/(?:Answers|Invariants)\.antt:\d+:\d+: error: `([^`]*)`: (.*)$")
IN_CODE = re.compile(r"(?m)^note: src/\S+: .*\(`([^`]*)`\)")
# Lemmas that are refused, in the line of the function whose proof they are for.
REFUSED_LEMMAS = re.compile(r"(?m)^fn \S+?: not proved; it stands on (.*?), which antt refuses")
# An answer that cannot be read any more, because it names something that the changed code does not have.
GONE = re.compile(r"has no field|is not in scope|has no `|was not admitted")
# Code or definitions that cannot be read or compiled, or that the prover does not cover, so that no contract was tried.
UNREAD = re.compile(
    r"(?m)^.*error\[[\w-]+\].*$|^fn .* the borrow checker does not cover .*$"
    r"|^(?:\./)?(?:src|specs)/\S+:\d+:\d+: error: (?!`).*$"
    r"|^(?:\./)?(?:src|specs)/\S+:\d+:\d+: error: .*(?:is not in scope|has no field|operand is missing|expected the end|cannot continue).*$"
)


@dataclass(frozen=True)
class Answer:
    """What the prover answered: its status, its lines, and the processor seconds that it took."""

    status: int
    said: str
    seconds: float

    @property
    def last(self) -> str:
        """Its last line."""
        return self.said.rstrip().rpartition("\n")[2]

    @property
    def is_judged(self) -> bool:
        """Whether it has judged all functions that it was asked for."""
        return self.status in (0, 1) and JUDGED.fullmatch(self.last) is not None

    @property
    def unread(self) -> str:
        """The first line that says that something cannot be read, compiled or covered."""
        return next(iter(UNREAD.findall(self.said)), "")

    @property
    def not_proved(self) -> List[str]:
        """The functions that are not proved, apart from those that only call such functions."""
        return NOT_PROVED.findall(self.said)

    @property
    def sound(self) -> List[str]:
        """The functions that are proved if those that have a hole are."""
        return SOUND.findall(self.said)

    @property
    def gone(self) -> str:
        """The first answer that names something that the code does not have."""
        return next((f"{it[2]}: {it[3]}" for it in AT_ANSWER.finditer(self.said) if GONE.search(it[3])), "")

    def failed(self, function: str) -> Set[str]:
        """The goals of a function that fail, and the lemmas for its proof that do."""
        folder = "/".join(function.split("::"))
        goals = {*(it[2] for it in AT_ANSWER.finditer(self.said) if it[1] == folder), *IN_CODE.findall(self.said)}
        lemmas = re.findall(r"`Rattle\.\w+\.proofs\.([^`]*)`", " ".join(REFUSED_LEMMAS.findall(self.said)))
        return goals | {f"lemma {it}" for it in lemmas if ".Answers." not in it}


class Prover:
    """Runs the prover on copies of crates."""

    def __init__(self) -> None:
        page = subprocess.run(["rt", "doc"], stdout=subprocess.PIPE, text=True, check=True).stdout.strip()
        self.kit = pathlib.Path(page).parent
        self.running: List[subprocess.Popen[str]] = []
        self.is_over = False

    def logic(self) -> str:
        """The digest of the logic that the kit proves in."""
        said = subprocess.run(["rt", "--version"], stdout=subprocess.PIPE, text=True, check=True).stdout
        return said.rpartition("logic ")[2].strip()

    def library(self, name: str) -> pathlib.Path:
        """A library of the repository, as it was built."""
        path = REPO / "crates" / name / "out/rlib" / f"{name}.rlib"
        if not path.is_dir():
            raise Fault(f"the library {name} is not built: run rt ci, scripts/prove, or rt check in the crate")
        return path

    def command(self, crate: Crate, functions: Sequence[str], kept: pathlib.Path) -> List[str]:
        """The prover's command for these functions of a crate, with the folder where it keeps what it has checked."""
        words = [str(self.kit / "bin/rattle"), "check", "--crate-name", crate.name, "src/lib.rt"]
        for name in crate.of_kit:
            words += ["--extern", f"{name}={self.kit}/rlibs/{name}.rlib"]
        words += ["-L", f"dependency={self.kit}/rlibs"]
        for name in crate.below:
            words += ["--extern", f"{name}={self.library(name)}"]
        for name in crate.all_below:
            words += ["-L", f"dependency={self.library(name).parent}"]
        words += ["--antt-project", f"{self.kit}/rattle/logic/antt-project.json", "--logic-built", f"{self.kit}/logic_built"]
        words += ["--links", f"{crate.name}=", "--jobs", "1", "--allow-holes", "--incremental", str(kept)]
        return words + [word for it in functions for word in ("--only", it)]

    def ask(self, crate: Crate, functions: Sequence[str], texts: Mapping[str, Optional[str]], kept: pathlib.Path) -> Answer:
        """Asks for these functions, in a copy of the crate with these texts and without the files that have none."""
        with tempfile.TemporaryDirectory(prefix=ROOM) as folder:
            for part in SOURCES:
                if (crate.folder / part).is_dir():
                    shutil.copytree(crate.folder / part, pathlib.Path(folder) / part)
            for file, text in texts.items():
                path = pathlib.Path(folder) / file
                if text is None:
                    path.unlink(missing_ok=True)
                else:
                    path.parent.mkdir(parents=True, exist_ok=True)
                    path.write_text(text)
            answer = self.said_of(self.command(crate, functions, kept), folder)
            if answer.status == -signal.SIGKILL and not self.is_over:
                answer = self.said_of(self.command(crate, functions, kept), folder)  # probably the system had no memory left
            return answer

    def said_of(self, words: Sequence[str], folder: str) -> Answer:
        """Runs a command in a folder."""
        process = subprocess.Popen(
            words, cwd=folder, stdin=subprocess.DEVNULL, stdout=subprocess.PIPE, stderr=subprocess.STDOUT, text=True, errors="replace"
        )
        self.running.append(process)
        if self.is_over:
            process.kill()
        assert process.stdout is not None
        with process.stdout:
            said = process.stdout.read()
        spent = ended(process)
        self.running.remove(process)
        return Answer(process.returncode, said, spent)

    def end(self) -> None:
        """Ends what runs, and whatever would be started."""
        self.is_over = True
        for process in list(self.running):
            process.kill()
