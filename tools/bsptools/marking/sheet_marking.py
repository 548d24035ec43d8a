"""Marks all hand-ins of a sheet, in parallel, each in a process that can read only what the sheet names."""

from __future__ import annotations

import contextlib
import math
import os
import pathlib
import shutil
import signal
import stat
import subprocess
import sys
import sysconfig
import tempfile
import time
from dataclasses import replace
from typing import Any, Dict, Iterator, List, NamedTuple, Optional, Sequence, Tuple

from .. import children, emulator, own_folders, python_packages, sealed_results
from ..files import is_text, named_content, opened_folder, put
from ..limits import MEMORY, MOST_INPUT
from ..refusals import Refused, about, counted, show, tell, typed
from ..sealed_results import digest
from . import bounded_run, compiler_files, confinement, trial_pool, wanted_file
from .evidence import Evidence, of_json
from .evidence_store import Store, folder_at
from .hand_in_trial import COMPILER_SECONDS, ERRORS, FULL, MOST_TEXT, SLOW, Plan, RunPlan, Trial, compiler_environment, last_name
from .marks import NOT_ALLOWED, RACE, UNJUDGED, WRONG, Judgement, Marks, Wanted, faults_of_solution, marks, wanted_of
from .sheet import ALONE, INSTRUCTIONS, TIMES, Run, Sheet, settings_of
from .sheet_inputs import SECONDS, Inputs, words_of

SOURCES = (".c", ".cc", ".cpp", ".cxx")
# What a compiler and Python read of a system, but for what lies below share: sheets and solutions may.
SYSTEM = (
    "/bin", "/sbin", "/lib", "/lib32", "/lib64", "/usr/bin", "/usr/lib", "/usr/lib32", "/usr/lib64", "/usr/libexec", "/usr/include",
    "/usr/riscv64-unknown-elf", "/usr/share/locale", "/etc/ld.so.cache", "/etc/alternatives", "/dev/urandom", "/dev/zero", "/proc/self/statm",
)  # fmt: skip
# What the linker's names of functions of C++ begin with.
OF_CLASSES = "_Z"
# What Python says first where something was raised.
TRACEBACK = "Traceback (most recent call last):"
OF_SYSTEM = tuple(f"{it}/" for it in SYSTEM)
MOST_FILE = 1 << 28
# What is free on a disk that has room for all that the compiler writes of one hand-in.
LEAST_ROOM = 4 * MOST_FILE
# Of the solution.
MOST_OUTPUT = 1 << 26
NO_LANDLOCK = (
    "this kernel cannot bound what a compiler reads (Landlock, in Linux from 5.13 on), so that a hand-in could read your files;"
    " --trusted marks hand-ins that you trust, as your own"
)


class HandIn(NamedTuple):
    """A hand-in: its name as it was given, its bytes, and why there are none."""

    name: str
    text: bytes = b""
    why: str = ""


def hand_ins(paths: Sequence[str]) -> List[HandIn]:
    """The hand-ins of files. A folder in which one lies may have come with it, as from an archive, and be a link to another hand-in, or to the
    solution: links are followed up to the folder that all of them share, and below that none. Of a single one the first name counts as that."""
    folders = [os.path.dirname(os.path.abspath(it)) for it in paths]
    if len(paths) > 1:
        top = os.path.commonpath(folders)
        return [hand_in(it, len(pathlib.PurePath(os.path.relpath(folder, top)).parts)) for it, folder in zip(paths, folders)]
    return [hand_in(it, 0 if os.path.isabs(it) else max(len(pathlib.PurePath(it).parts) - 2, 0)) for it in paths]


def hand_in(path: str, below: int = 0) -> HandIn:
    """A hand-in of a file. What is not a regular file is none: a link may lead to the solution. So may the last of its folders, of which so many
    are no links."""
    *folders, name = pathlib.PurePath(path).parts or (os.curdir,)
    first = max(len(folders) - below, 0)
    top = pathlib.PurePath(*folders[:first])
    with about(path), contextlib.closing(contextlib.ExitStack()) as opened:
        place = opened.enter_context(opened_folder(top))
        for it in folders[first:]:
            top = top / it
            if stat.S_ISLNK(os.lstat(it, dir_fd=place).st_mode):
                return HandIn(path, why=f"{top} is a link, and not looked into")
            place = opened.enter_context(opened_folder(it, place))
        return _hand_in(path, name, place)


def _hand_in(path: str, name: str, place: int) -> HandIn:
    """A hand-in of a file in an open folder."""
    found = os.lstat(name, dir_fd=place)
    if stat.S_ISLNK(found.st_mode):
        return HandIn(path, why=f"the file is a link, to {os.readlink(name, dir_fd=place)}, and not looked into")
    if not stat.S_ISREG(found.st_mode):
        return HandIn(path, why="this is not a regular file")
    if pathlib.PurePath(path).suffix not in SOURCES:
        return HandIn(path, why=f"a hand-in is a program in C or C++, whose name ends with {', '.join(SOURCES)}")
    if found.st_size > MOST_TEXT:
        return HandIn(path, why=f"the file has more than {MOST_TEXT} bytes, the limit for a program")
    number = os.open(name, os.O_RDONLY | os.O_NOFOLLOW | os.O_NONBLOCK, dir_fd=place)
    with os.fdopen(number, "rb") as file:
        return HandIn(path, file.read(MOST_TEXT + 1))


class Marking:
    """The marking of hand-ins by a sheet, in a folder for a while, with results that are kept in another."""

    def __init__(self, sheet: Sheet, folder: pathlib.Path, kept: str, jobs: int, seed: Optional[int], is_trusted: bool, is_anew: bool) -> None:
        self.sheet, self.folder, self.jobs, self.is_anew = sheet, folder, jobs or trial_pool.processors(), is_anew
        self.is_confined = confinement.version() > 0
        if not self.is_confined and not is_trusted:
            raise Refused(NO_LANDLOCK)
        self.program = named_in_text(emulator.proved_program(), folder)
        os.environ["XDG_CACHE_HOME"] = self.cache = cache_at(folder)
        self.kept = folder_at(kept)
        if sheet.checker:
            self.expect_checker()
        self.inputs = Inputs(sheet, seed)
        self.given = {name: named_content(sheet.file(name), MOST_INPUT) for case in sheet.cases for name in case.given}
        # Kinds of programs that were compiled once here; the PATH by which the compiler is found, and what it reads beside the system's files.
        self.warmed: set[str] = set()
        brought = compiler_files.brought()
        self.path = ":".join([*([f"{brought}/bin"] if brought else []), os.environ.get("PATH", os.defpath)])
        # Nothing else is in a folder of packages.
        self.compiler = [brought] if brought else []
        self.store = Store(self.kept, self.program, compiler_files.identity(self.path))
        self.known = self.of_others = 0
        self.wanted: List[Wanted] = []
        self.plan = self.planned()

    # What is to be tried.

    def expect_checker(self) -> None:
        """Refuses a checker that cannot be started: it would make each hand-in a wrong one."""
        path = self.sheet.file(self.sheet.checker)
        with about(path):
            os.stat(path)
        words_of(path)

    def planned(self, wanted: Sequence[Wanted] = ()) -> Plan:
        """The plan of a trial: without bounds, and with much more room, where what is wanted is not known yet."""
        sheet = self.sheet
        runs = tuple(self.run_plan(run, wanted[number] if wanted else None) for number, run in enumerate(sheet.runs))
        files = tuple((last_name(it), named_content(sheet.file(it), MOST_INPUT)) for it in sheet.files)
        return Plan(
            runs, files, (*sheet.forbid, *sheet.require), sheet.memory, sheet.seconds, sheet.strict, sheet.races, sheet.portable,
            sheet.warning_points > 0,
        )  # fmt: skip

    def run_plan(self, run: Run, wanted: Optional[Wanted]) -> RunPlan:
        """The plan of a run."""
        sheet, case = self.sheet, run.case
        given = tuple((name, self.given[name]) for name in case.given)
        bounds = tuple(it for it in sheet.bounds if it.holds_for(run)) if wanted is not None else ()
        costs = dict(wanted.costs) if wanted is not None else {}
        limit = sheet.instructions or (max(INSTRUCTIONS, int(TIMES * costs["w"])) if costs else ALONE)
        output = MOST_OUTPUT if wanted is None else max(sheet.output, 2 * len(wanted.output or b""))
        return RunPlan(
            run.nodes, self.inputs.defines(case), self.inputs.of(run), case.args, given, limit, output, case.g, case.l, settings_of(run), costs,
            bounds,
        )  # fmt: skip

    def find_wanted(self) -> None:
        """Finds what is wanted: by the solution, or else by a file."""
        sheet, solved = self.sheet, self.solved()
        if solved is not None:
            self.wanted = wanted_of(solved)
        elif sheet.wanted:
            self.wanted = wanted_file.read(sheet, sheet.runs, self.plan.runs)
        else:
            self.wanted = [Wanted() for _ in sheet.runs]
        self.wanted = [self.expected(run, it) for run, it in zip(sheet.runs, self.wanted)]
        self.plan = self.planned(self.wanted)
        if solved is not None:
            self.expect_passed(solved)

    def solved(self) -> Optional[Evidence]:
        """What comes of the solution, which is run here; None if there is none. The trial of `portable` would take longer than all else."""
        sheet = self.sheet
        if not sheet.solution or sheet.wanted and not os.path.exists(sheet.file(sheet.solution)):
            return None
        solution = hand_in(sheet.file(sheet.solution))
        if solution.why:
            raise Refused(f"{solution.name}: {solution.why}")
        evidence = self.evidence([solution], replace(self.plan, portable=False))[0]
        if faults := faults_of_solution(evidence, sheet):
            raise Refused(*(f"{sheet.solution}, the solution, does not pass{f' on {run}' if run else ''}: {why}" for run, why in faults.items()))
        return evidence

    def expect_passed(self, solved: Evidence) -> None:
        """Refuses a sheet by which its own solution is wrong or not allowed: every hand-in would be so. Tells what else the solution does not
        pass, since a teacher may ask for more than it does."""
        sheet = replace(self.sheet, portable=False)
        checks = [it for it in marks(sheet.solution, solved, sheet, self.wanted, self.judged([solved])[0]).checks if not it.is_kept and it.verdict]
        wrong = [it for it in checks if it.where or it.verdict == NOT_ALLOWED]
        lines = [f"{sheet.solution}, the solution, does not pass {f'on {it.where}' if it.where else it.name}: {it.fault}" for it in wrong or checks]
        if wrong:
            raise Refused(*lines, f"change the solution or {said_by(sheet, wrong[0].verdict)}: they contradict each other, so no hand-in was marked")
        tell(lines, "bspcheck: ")

    def expected(self, run: Run, wanted: Wanted) -> Wanted:
        """What is wanted where a case names a file for that, in whose name {p} stands for the nodes."""
        if not run.case.expected:
            return wanted
        name = run.case.expected.replace("{p}", str(run.nodes))
        return wanted._replace(output=named_content(self.sheet.file(name), MOST_OUTPUT))

    # Trials.

    def marks(self, names: Sequence[str]) -> List[Marks]:
        """The marks of files, in their order."""
        found = hand_ins(names)
        self.tell_unfound()
        self.find_wanted()
        evidence = self.evidence(found, self.plan)
        judged = self.judged(evidence)
        return [marks(it.name, one, self.sheet, self.wanted, said) for it, one, said in zip(found, evidence, judged)]

    def tell_unfound(self) -> None:
        """Tells which functions that the sheet forbids or requires no library has, by what the linker says of a program that is never run."""
        names = [it for it in self.plan.calls if not it.startswith(OF_CLASSES)]
        if not names:
            return
        source = self.folder / "calls.c"
        source.write_text("int main(void) { __asm__(\".balign 4\\n%s\"); }\n" % "\\n".join(f".word {it}" for it in names))
        words = [emulator.program("bspcc"), "-o", str(source.with_suffix(".elf")), str(source), "-lm"]
        said = children.call(words, stdout=subprocess.PIPE, stderr=subprocess.STDOUT, env=compiler_environment(self.folder)).stdout.decode(errors="replace")
        lacking = [it for it in names if f"undefined reference to `{it}'" in said]
        tell([f"bspcheck: {it} is neither in the C library nor in BSPlib, so no call of it is found" for it in lacking])

    def evidence(self, found: Sequence[HandIn], plan: Plan) -> List[Evidence]:
        """What comes of hand-ins: as it is kept, or tried now."""
        keys = [self.store.key(plan, it.text, last_name(it.name)) for it in found]
        made: Dict[str, Evidence] = {}
        tasks: Dict[str, HandIn] = {}
        for key, it in zip(keys, found):
            kept = None if self.is_anew or it.why else self.store.found(key)
            if kept is not None:
                made[key] = kept
            elif not it.why:
                tasks[key] = it
                self.of_others += self.store.is_of_others(key)
        self.known = sum(key in made for key in keys)
        if tasks:
            self.warm(plan, [it.name for it in tasks.values()])
            made.update(self.made(tasks, plan, self.jobs))
            # Others may have filled the disk or the memory.
            lacking = {key: it for key, it in tasks.items() if made[key].lack}
            made.update({key: it for one in lacking.items() for key, it in self.made(dict([one]), plan, 1).items()})
            for key in tasks:
                self.settle(key, made[key])
        return [Evidence(refused=it.why) if it.why else made[key] for key, it in zip(keys, found)]

    def made(self, tasks: Dict[str, HandIn], plan: Plan, jobs: int) -> Dict[str, Evidence]:
        """Tries hand-ins, so many at a time."""
        made: Dict[str, Evidence] = {}
        progress = Progress(len(tasks))

        def take(task: Tuple[str, HandIn], answer: Any) -> None:
            # What was killed may have met a lack of memory.
            lack, why = (answer, "") if answer == trial_pool.KILLED else ("", answer)
            made[task[0]] = of_json(answer) if isinstance(answer, dict) else Evidence(lack=lack, untried=why)
            # The process itself may be killed, and could not remove it.
            shutil.rmtree(self.folder / task[0], ignore_errors=True)
            progress.done += 1

        trial_pool.each(list(tasks.items()), jobs, lambda task: self.tried(task[1], plan, task[0]), take, progress.show)
        progress.end()
        return made

    def settle(self, key: str, evidence: Evidence) -> None:
        """Keeps what came of a trial. One that has broken off is none of what is kept; and nothing is judged by what the host did not give."""
        free = shutil.disk_usage(self.folder).free
        is_full = FULL in evidence.lack
        # What a hand-in by itself lacks that has all this room no host would give it.
        is_its_own = not evidence.is_built and bool(evidence.said) and (evidence.lack == SLOW or is_full and free >= LEAST_ROOM)
        if evidence.lack and not is_its_own:
            room = f"; {self.folder.parent} has {free >> 20} MB of room, and TMPDIR names another place" if is_full else ""
            evidence.untried = f"{evidence.lack}{room}"
        if not evidence.untried:
            self.store.keep(key, evidence)

    def tried(self, it: HandIn, plan: Plan, key: str) -> Dict[str, Any]:
        """Tries a hand-in, in this process, which is for it alone."""
        folder = self.folder / key
        folder.mkdir(mode=0o700)
        try:
            return self.confined(it, plan, folder)
        finally:
            shutil.rmtree(folder, ignore_errors=True)

    def confined(self, it: HandIn, plan: Plan, folder: pathlib.Path) -> Dict[str, Any]:
        """Tries a hand-in in its folder, after this process has given up all other files."""
        os.chdir(folder)
        os.environ["TMPDIR"] = tempfile.tempdir = str(folder)
        # ./bspemu would look at the sources, which are not for hand-ins to read.
        os.environ["BSPEMU"], os.environ["PATH"] = self.program, self.path
        nowhere = os.open(os.devnull, os.O_RDWR)
        for number in (0, 1, 2):
            os.dup2(nowhere, number)
        is_scarce = confinement.limit(plan.most_memory, MOST_FILE, COMPILER_SECONDS + (len(plan.runs) + 4) * plan.seconds)
        if self.is_confined:
            confinement.confine(self.readable(), [str(folder), os.devnull])
        return Trial(plan, it.text, last_name(it.name), self.program, is_scarce).make().as_json()

    def readable(self) -> Iterator[str]:
        """What may be read: the compiler, the library, the emulator, and the parts of these tools."""
        yield from SYSTEM
        top = pathlib.Path(emulator.program("bspcc")).resolve()
        yield from (str(top), str(top.parent / "bsplib"), str(pathlib.Path(__file__).resolve().parents[1]), self.program)
        yield from (os.path.dirname(str(it.__file__)) for it in filter(None, [sys.modules.get(python_packages.ELFTOOLS)]))
        yield from (sysconfig.get_paths()[it] for it in ("stdlib", "platstdlib"))
        yield from self.compiler
        yield from (os.path.join(self.cache, "bspcc"), os.path.join(self.cache, "bspemu", "modules"))

    def warm(self, plan: Plan, names: Sequence[str]) -> None:
        """Has bspcc build its library, which who is confined cannot keep; and loads what each trial would."""
        wanted = {pathlib.PurePath(it).suffix for it in names}
        kinds = [(".cpp" if wanted & set(SOURCES[1:]) else ".c", option) for option in ("", *(["--portable"] if plan.portable else []))]
        for suffix, option in kinds:
            if suffix + option not in self.warmed:
                self.warmed.add(suffix + option)
                source, target = self.folder / f"warm{suffix}", self.folder / "warm.elf"
                source.write_text("int main(void) { return 0; }\n")
                words = [emulator.program("bspcc"), *([option] if option else []), "-g", "-v", "-o", str(target), str(source), "-lm"]
                done = children.call(words, stdout=subprocess.PIPE, stderr=subprocess.STDOUT, env=compiler_environment(self.folder))
                said = done.stdout.decode(errors="replace")
                if done.returncode != 0:
                    raise Refused("bspcc cannot compile anything here", *[it for it in said.splitlines() if ERRORS.search(it) or it.startswith("bspcc: ")][:5])
                self.compiler += [it for it in compiler_files.files_of(said, self.path) if not it.startswith(OF_SYSTEM)]
        if not python_packages.borrow(python_packages.ELFTOOLS):
            import elftools.dwarf.callframe
            import elftools.elf.elffile  # noqa: F401

    # Checkers.

    def judged(self, found: Sequence[Evidence]) -> List[Optional[List[Judgement]]]:
        """What the sheet's checker says of each run of each hand-in; None if there is no checker."""
        answers: List[Optional[List[Judgement]]] = [None] * len(found)
        if not self.sheet.checker:
            return answers
        tasks = [at for at, it in enumerate(found) if it.runs and not it.untried]

        def take(at: int, answer: Any) -> None:
            broken = [Judgement(UNJUDGED, str(answer))] * len(self.sheet.runs)
            answers[at] = [Judgement(*it) for it in answer] if isinstance(answer, list) else broken

        def make(at: int) -> List[Judgement]:
            judged: List[Judgement] = []
            for number in range(len(self.sheet.runs)):
                # A checker that does not end would have its time for each run.
                is_late = bool(judged) and judged[-1] == self.late()
                judged.append(judged[-1] if is_late else self.judgement(found[at], number))
            return judged

        quiet = time.monotonic() + bounded_run.QUIET

        def look() -> None:
            nonlocal quiet
            left = sum(answers[at] is None for at in tasks)
            if left and time.monotonic() >= quiet:
                quiet = math.inf
                tell([f"bspcheck: {self.sheet.checker} has {counted(left, 'hand-in')} left to judge: it may take {SECONDS} s for a run"])

        trial_pool.each(tasks, self.jobs, make, take, look)
        return answers

    def late(self) -> Judgement:
        """What is said of a run for which the checker has no end."""
        return Judgement(UNJUDGED, f"{self.sheet.checker} did not end in {SECONDS} s")

    def judgement(self, evidence: Evidence, number: int) -> Judgement:
        """What the checker says of a run."""
        ended, run, plan = evidence.runs[number], self.sheet.runs[number], self.plan.runs[number]
        if not ended.is_well:
            return Judgement()
        with tempfile.TemporaryDirectory(dir=self.folder) as folder:
            place = pathlib.Path(folder)
            (place / "output").write_bytes(ended.content)
            (place / "input").write_bytes(plan.input or b"")
            (place / "wanted").write_bytes(self.wanted[number].output or b"")
            path = self.sheet.file(self.sheet.checker)
            words = [*words_of(path), str(place / "output"), str(place / "wanted"), str(place / "input"), str(run.nodes)]
            environment = {**os.environ, **dict(plan.defines)}
            ran = bounded_run.run(words, SECONDS, MOST_TEXT, environment)
        return self.said_by_checker(ran)

    def said_by_checker(self, ran: bounded_run.Ran) -> Judgement:
        """What a run of the checker comes to. A text of Python that raises something ends with status 1, as one that found a fault."""
        name, said = self.sheet.checker, ran.said.decode(errors="replace").splitlines()
        if ran.how != bounded_run.ENDED:
            return self.late() if ran.how == bounded_run.LATE else Judgement(UNJUDGED, f"{name} wrote too much")
        if ran.status < 0:
            return Judgement(UNJUDGED, f"{name} was ended: {signal.strsignal(-ran.status)}")
        if ran.status != 0 and TRACEBACK in said:
            return Judgement(UNJUDGED, f"{name} broke off: {said[-1]}")
        told = ran.output.decode(errors="replace").splitlines() or said[-1:] or [f"{name} says that it is wrong, and not why"]
        return Judgement() if ran.status == 0 else Judgement(WRONG, told[0])

    # What a person repeats.

    def again(self, name: str, number: int, *options: str) -> str:
        """The command that makes a run of a hand-in again, with its costs, or with other options of bsprun to look for the usual mistakes. It has
        the files that the sheet gives, and writes none: a hand-in could replace files of whoever gives the command."""
        return self.command(name, number, "--no-files", *(options or ["--report", "-", *self.prices(number)]))

    def command(self, name: str, number: int, *options: str) -> str:
        """The command that gives bsprun a run of a hand-in, with these options."""
        sheet, run, given = self.sheet, self.sheet.runs[number], self.input_file(number)
        words = [tool("bsprun"), "-n", str(run.nodes), *options]
        words += ["--memory", str(sheet.memory)] if sheet.memory != MEMORY else []
        words += [f"-D{it}={value}" for it, value in self.plan.runs[number].defines]
        words += ["--input", given] if given else []
        words += [it for name in run.case.given for it in ("--file", os.path.relpath(sheet.file(name)))]
        return typed([*words, name if not name.startswith("-") else f"./{name}", *run.case.args])

    def watched(self, name: str, number: int) -> str:
        """The command that writes a page in which a run of a hand-in is watched. A program in a page writes no files."""
        return self.command(name, number, "--page", "run.html", *self.prices(number))

    def prices(self, number: int) -> List[str]:
        """The options of bsprun for the prices of a run."""
        case = self.sheet.runs[number].case
        return ["--g", str(case.g), "--l", str(case.l)]

    def input_file(self, number: int) -> str:
        """The file with the input of a run: the sheet's own, or one that is kept beside the results."""
        case, content = self.sheet.runs[number].case, self.plan.runs[number].input
        if content is None:
            return ""
        if isinstance(case.input, str):
            return os.path.relpath(self.sheet.file(case.input))
        folder = self.kept / "inputs"
        with about(folder):
            if why := own_folders.make(folder):
                raise Refused(f"no input can be saved in {folder}: {why}")
        path = folder / f"{digest(content)[:16]}.txt"
        # Another start may have left a part of it, or another person something else.
        put(path, content)
        return os.path.relpath(path)


def said_by(sheet: Sheet, verdict: str) -> str:
    """What of a sheet gives a hand-in this verdict."""
    return {NOT_ALLOWED: "`forbid` and `require`", RACE: "`races`"}.get(verdict, sheet.checker or "`expected`")


def cache_at(folder: pathlib.Path) -> str:
    """The folder of the user's in which bspcc keeps its library, or one for a while if there is none: to build it for each hand-in would
    take longer than all else."""
    kept = own_folders.cache("bspcc")
    return os.path.dirname(kept) if kept and os.access(kept, os.W_OK) else str(folder / "cache")


class Progress:
    """How many hand-ins are tried."""

    def __init__(self, count: int) -> None:
        self.count, self.done, self.told = count, 0, -1

    def show(self) -> None:
        """Shows it, if there are several."""
        if self.count > 1 and self.done != self.told:
            self.told = self.done
            show(f"bspcheck: {self.done} of {counted(self.count, 'hand-in')} tried")

    def end(self) -> None:
        """Takes the line away."""
        show("")


def named_in_text(program: str, folder: pathlib.Path) -> str:
    """The path of the emulator, or of a link to it in this folder where its own path is no text: it takes none as its name that is not."""
    if is_text(program):
        return program
    link = folder / "bspemu"
    link.symlink_to(program)
    return str(link)


def tool(name: str) -> str:
    """How a tool is started from here."""
    path = emulator.program(name)
    near = os.path.join(".", os.path.relpath(path))
    return near if not near.startswith("./..") else name if shutil.which(name) else path


def tell_known(marking: Marking, count: int) -> None:
    """Tells how many hand-ins were tried before, and what was kept and is not believed."""
    known = marking.known
    unkept = [sealed_results.UNKEPT] * (not sealed_results.own_key().is_kept)
    before = [f"{known} of {counted(count, 'hand-in')} {'was' if known == 1 else 'were'} tried before"] * bool(known and count > 1)
    tell([*unkept, *sealed_results.told_of_others(marking.of_others, os.path.relpath(marking.kept)), *before], "bspcheck: ")
