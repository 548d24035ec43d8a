"""The reader of sheets, which reports a mistake with its line and column."""

from __future__ import annotations

import contextlib
import errno
import importlib
import os
import re
from collections.abc import Callable, Iterable, Sequence
from typing import Any, Dict, List, Optional, Tuple

from .. import children, limits, python_packages
from ..files import text_content
from ..refusals import Refused
from .formulas import SOLUTION, Formula, Wrong
from .sheet import COMPARISONS, QUANTITIES, SETTINGS, Bound, Case, Generator, Numbers, Run, Sheet, settings_of
from .toml_places import Path, Places

MOST_BYTES, MOST_RUNS, MOST_NUMBERS = 1 << 20, 500, 1_000_000
# For how many seconds a sheet may be read. What people write takes some hundredths of one. A reader of TOML takes the square of the parts of a
# key, as a.b.c.
MOST_READING = 10
MOST_CONSTANT = (1 << 64) - 1
MOST_POINTS, MOST_SECONDS, MOST_OUTPUT, MOST_PRICE = 1000, 3600, 1 << 26, 1 << 32
UNITS = {"K": 1 << 10, "M": 1 << 20}
NAME = re.compile(r"[A-Za-z_]\w*", re.ASCII)
OF_CASE = ("name", "nodes", "define", "values", "args", "give", "input", "expected", "g", "l")
OF_SHEET = (
    "title", "solution", "wanted", "checker", "files", "compare", "tolerance", "memory", "seconds", "output", "instructions", "forbid",
    "require", "strict", "races", "portable", "points", "bound", "case", *OF_CASE[1:],
)  # fmt: skip
OF_BOUND = ("rule", "points", "nodes", "case", "why")
OF_POINTS = ("right", "portable", "warnings")


def toml() -> Any:
    """The reader of TOML: Python's own from 3.11 on, and else Debian's."""
    # By their names, since neither is in every Python.
    with contextlib.suppress(ImportError):
        return importlib.import_module("tomllib")
    if missing := python_packages.borrow(python_packages.TOMLI):
        raise Refused(f"a sheet is TOML, which needs Python 3.11 or later: {missing}")
    return importlib.import_module("tomli")


def read(path: str) -> Sheet:
    """The sheet of a file. All that is wrong in it is refused at once, each with line and column."""
    try:
        text = text_content(path, MOST_BYTES).decode()
    except UnicodeDecodeError as error:
        raise Refused(f"{path}: byte {error.start} is not UTF-8, and a sheet has to be") from error
    seconds = children.patience(MOST_READING)
    try:
        with children.within(seconds):
            return _read(path, text)
    except children.TooLate as late:
        raise Refused(f"{path}: it takes more than {seconds:.0f} s to read: give it fewer tables, and keys of fewer parts") from late


def _read(path: str, text: str) -> Sheet:
    """The sheet of a text."""
    reader = toml()
    try:
        content: Dict[str, Any] = reader.loads(text)
    except reader.TOMLDecodeError as error:
        found = re.fullmatch(r"(.*) \(at line (\d+), column (\d+)\)", str(error))
        line, column = (found[2], found[3]) if found else end_of(text)
        raise Refused(f"{path}:{line}:{column}: {found[1] if found else error}") from error
    except RecursionError as error:
        raise Refused(f"{path}: its values are nested too deeply") from error
    except ValueError as error:
        # Python reads no number of more than some thousand digits.
        raise Refused(f"{path}: a number has too many digits") from error
    return Reader(path, content, Places(text.replace("\r\n", "\n"))).sheet()


def end_of(text: str) -> Tuple[int, int]:
    """The line and the column behind the last letter of a text."""
    lines = text.rstrip().split("\n")
    return len(lines), len(lines[-1]) + 1


def is_whole(value: Any) -> bool:
    """Whether a value is a whole number. In Python, true is one."""
    return isinstance(value, int) and not isinstance(value, bool)


class Reader:
    """Takes a sheet out of what TOML makes of it."""

    def __init__(self, path: str, content: Dict[str, Any], places: Places) -> None:
        self.path, self.content, self.places = path, content, places
        self.wrong: List[Tuple[Tuple[int, int], str]] = []

    def sheet(self) -> Sheet:
        """The sheet, or a refusal with all that is wrong."""
        self.expect_keys((), self.content, OF_SHEET)
        cases = self.cases()
        points = self.table(("points",), OF_POINTS)
        take = self.of(())
        found = Sheet(
            self.path, take("title", self.text) or self.path, tuple(cases), tuple(self.bounds(cases)),
            right=self.points(("points", "right"), points.get("right", 10)),
            portable_points=self.points(("points", "portable"), points.get("portable", 0)),
            warning_points=self.points(("points", "warnings"), points.get("warnings", 0)),
            solution=take("solution", self.text) or "", wanted=take("wanted", self.text) or "", checker=take("checker", self.file) or "",
            files=take("files", self.several) or (), compare=take("compare", self.comparison) or COMPARISONS[0],
            tolerance=take("tolerance", self.number) or 0.0,
            memory=self.given("memory", lambda p, v: self.size(p, v, limits.PAGE, limits.MOST_MEMORY), limits.MEMORY),
            seconds=self.given("seconds", lambda p, v: self.whole(p, v, 1, MOST_SECONDS), Sheet.seconds),
            output=self.given("output", lambda p, v: self.size(p, v, 1, MOST_OUTPUT), Sheet.output),
            instructions=self.given("instructions", lambda p, v: self.whole(p, v, 1, limits.MOST_TICKS), None),
            forbid=take("forbid", self.calls) or (), require=take("require", self.calls) or (),
            strict=self.given("strict", self.truth, True), races=self.given("races", self.truth, True),
            portable=self.given("portable", self.truth, False),
        )  # fmt: skip
        self.expect_whole(found)
        if self.wrong:
            raise Refused(*(f"{self.path}:{line}:{column}: {what}" for (line, column), what in sorted(self.wrong)))
        return found

    def expect_apart(self, sheet: Sheet) -> None:
        """Notes files that would stand beside a hand-in in the place of one another."""
        for at, case in enumerate(sheet.cases):
            known: Dict[str, str] = {}
            for key, it in [*(("files", it) for it in sheet.files), *(("give", it) for it in case.given)]:
                name = os.path.basename(it)
                other = known.setdefault(name, it)
                if sheet.file(other) != sheet.file(it):
                    of_case: Path = ("case", at, key)
                    where = of_case if of_case in self.places.found else of_case[2:]
                    self.note(where, f"{other} and {it} would both be {name} beside the hand-in: give one of them another name")

    def expect_whole(self, sheet: Sheet) -> None:
        """Notes what the parts of a sheet do not have together."""
        self.expect_apart(sheet)
        if sheet.solution and not sheet.wanted:
            self.file(("solution",), sheet.solution)
        has_wanted = sheet.solution or sheet.wanted or sheet.checker or all(it.expected for it in sheet.cases)
        if not has_wanted:
            self.note((), "nothing says what is right: give solution, wanted or checker, or expected for each case")
        if len(sheet.runs) > MOST_RUNS:
            self.note(("nodes",), f"these are {len(sheet.runs)} runs of each hand-in; the limit is {MOST_RUNS}")
        if sheet.portable_points and not sheet.portable:
            self.note(("points", "portable"), "points are given for what is not asked: say portable = true")
        if sheet.tolerance and sheet.compare != "numbers":
            self.note(("tolerance",), 'a tolerance is for numbers: say compare = "numbers"')
        for at, name in enumerate(sheet.require):
            if name in sheet.forbid:
                self.note(("require", at), f"{name} is in forbid, too: no hand-in could be right")
        for at, bound in enumerate(sheet.bounds):
            if SOLUTION in bound.formula.names and not (sheet.solution or sheet.wanted):
                self.note(("bound", at, "rule"), f"{SOLUTION} is in it, and the sheet has none")

    # Parts.

    def cases(self) -> List[Case]:
        """The cases: those of the sheet, or the one that its top describes."""
        tables = self.content.get("case", [{}])
        if not isinstance(tables, list) or not all(isinstance(it, dict) for it in tables) or not tables:
            self.note(("case",), "cases are tables, each below a line [[case]]")
            tables = [{}]
        is_listed = "case" in self.content
        found = [self.case(("case", at), it) if is_listed else self.case((), it) for at, it in enumerate(tables)]
        names: set[str] = set()
        for at, name in enumerate(it.name for it in found):
            is_known = name in names
            names.add(name)
            if is_known:
                self.note(("case", at, "name"), f"two cases have the name {name!r}: give each its own, as name = \"sorted\"")
        return found

    def case(self, path: Path, table: Dict[str, Any]) -> Case:
        """A case, which has from the top of the sheet what it does not say itself."""
        if path:
            self.expect_keys(path, table, OF_CASE)

        def take(name: str, read: Callable[[Path, Any], Any]) -> Any:
            where, value = ((*path, name), table[name]) if path and name in table else ((name,), self.content.get(name))
            return None if value is None else read(where, value)

        defines: Dict[str, str] = {}
        for name, (where, value) in {**self.pairs(("define",), self.content), **self.pairs((*path, "define"), table)}.items():
            defines[name] = self.constant(where, name, value)
        values = {name: float(value) for name, value in defines.items() if re.fullmatch(r"-?\d+(\.\d+)?", value)}
        for name, (where, value) in {**self.pairs(("values",), self.content), **self.pairs((*path, "values"), table)}.items():
            values[name] = self.number(where, value)
        nodes = take("nodes", self.nodes)
        if nodes is None:
            self.note(path, "nodes are missing, as nodes = [1, 2, 7, 8]")
        return Case(
            take("name", self.text) or "" if path else "", nodes or (1,), tuple(defines.items()), values, take("args", self.texts) or (),
            take("give", self.several) or (), take("input", self.input), take("expected", self.text) or "",
            limits.G if (g := take("g", self.price)) is None else g, limits.L if (l := take("l", self.price)) is None else l,
        )  # fmt: skip

    def pairs(self, path: Path, table: Dict[str, Any]) -> Dict[str, Tuple[Path, Any]]:
        """The names and values of a table, with their places."""
        found = table.get(str(path[-1]), {})
        if not isinstance(found, dict):
            self.note(path, f"{path[-1]} is a table, as {path[-1]} = {{ N = 64 }}")
            return {}
        return {name: ((*path, name), value) for name, value in found.items()}

    def bounds(self, cases: Sequence[Case]) -> List[Bound]:
        """The bounds of costs."""
        tables = self.content.get("bound", [])
        if not isinstance(tables, list) or not all(isinstance(it, dict) for it in tables):
            self.note(("bound",), "bounds are tables, each below a line [[bound]]")
            return []
        return [it for it in (self.bound(("bound", at), table, cases) for at, table in enumerate(tables)) if it]

    def bound(self, path: Path, table: Dict[str, Any], cases: Sequence[Case]) -> Optional[Bound]:
        """A bound."""
        self.expect_keys(path, table, OF_BOUND)
        rule, where = table.get("rule"), (*path, "rule")
        if not isinstance(rule, str):
            self.note(where if "rule" in table else path, 'a bound has a rule, as rule = "supersteps <= 3"')
            return None
        try:
            formula = Formula(rule)
        except Wrong as wrong:
            self.note(where, wrong.what, 1 + wrong.at)
            return None
        name = self.text((*path, "case"), table.get("case", ""))
        if name and name not in [it.name for it in cases]:
            self.note((*path, "case"), f"there is no case {name!r}")
        wanted = [it for it in cases if not name or it.name == name]
        costs = {*SETTINGS, *QUANTITIES, SOLUTION}
        for both in sorted(formula.names & costs & {name for it in wanted for name in (*it.values, *dict(it.defines))}):
            self.note(where, f"{both} is what a run has, and also a constant of this sheet: give the constant another name", 1 + formula.place_of(both))
        known = {*costs, *(set.intersection(*(set(it.values) for it in wanted)) if wanted else ())}
        for unknown in sorted(formula.names - known):
            self.note(where, f"{unknown} is not known here: there are {', '.join(sorted(known))}", 1 + formula.place_of(unknown))
        nodes = self.nodes((*path, "nodes"), table["nodes"]) if "nodes" in table else ()
        for it in nodes:
            if not any(it in case.nodes for case in wanted):
                self.note((*path, "nodes"), f"no run has {it} nodes")
        points = self.points((*path, "points"), table.get("points", 1))
        found = Bound(formula, points, nodes, name, self.text((*path, "why"), table.get("why", "")))
        runs = [run for case in wanted for run in map(Run, [case] * len(case.nodes), case.nodes) if found.holds_for(run)]
        faults = ((run, formula.fault(settings_of(run))) for run in runs)
        if first := next(((run, why) for run, why in faults if why), None):
            self.note(where, f"it has no value on {first[0]}: {first[1]}", 1)
        return found

    # Values.

    def note(self, path: Path, what: str, more: int = 0) -> None:
        """Notes what is wrong, at the place of a value, or so many columns behind it."""
        line, column = self.places.of(path)
        noted = (line, column + more), what
        # What stands at the top holds for each case.
        if noted not in self.wrong:
            self.wrong.append(noted)

    def expect_keys(self, path: Path, table: Dict[str, Any], known: Iterable[str]) -> None:
        """Notes the keys that nothing knows: most are misspelled."""
        names = list(known)
        for key in table:
            if key not in names:
                self.wrong.append((self.places.of_key((*path, key)), f"{key} is not known here: there are {', '.join(sorted(names))}"))

    def table(self, path: Path, known: Iterable[str]) -> Dict[str, Any]:
        """A table at the top."""
        found = self.content.get(str(path[0]), {})
        if not isinstance(found, dict):
            self.note(path, f"{path[0]} is a table, below a line [{path[0]}]")
            return {}
        self.expect_keys(path, found, known)
        return found

    def of(self, path: Path) -> Callable[[str, Callable[[Path, Any], Any]], Any]:
        """A reader of values at the top; None for those that are not there."""
        return lambda name, read: read((*path, name), self.content[name]) if name in self.content else None

    def given(self, name: str, read: Callable[[Path, Any], Any], default: Any) -> Any:
        """A value at the top, or its default."""
        return read((name,), self.content[name]) if name in self.content else default

    def text(self, path: Path, value: Any) -> str:
        """A text."""
        if isinstance(value, str) and "\0" not in value:
            return value
        self.note(path, f"{path[-1]} is a text, in quotes")
        return ""

    def texts(self, path: Path, value: Any) -> Tuple[str, ...]:
        """A list of texts."""
        if isinstance(value, list) and all(isinstance(it, str) and "\0" not in it for it in value):
            return tuple(value)
        self.note(path, f'{path[-1]} is a list of texts, as ["one", "two"]')
        return ()

    def calls(self, path: Path, value: Any) -> Tuple[str, ...]:
        """Names of functions, as an object has them."""
        found = self.texts(path, value)
        for at, it in enumerate(found):
            if not NAME.fullmatch(it):
                self.note((*path, at), f'{it!r} cannot be found in a program: {path[-1]} has names of functions of C, such as "printf"')
        return found

    def file(self, path: Path, value: Any) -> str:
        """The name of a file that is there."""
        name = self.text(path, value)
        place = os.path.join(os.path.dirname(self.path), name)
        if name and not os.path.lexists(place):
            self.note(path, f"{name}: {os.strerror(errno.ENOENT)}")
        elif name and os.path.isdir(place):
            self.note(path, f"{name} is a folder: give the name of a file")
        return name

    def several(self, path: Path, value: Any) -> Tuple[str, ...]:
        """Names of files that are there."""
        return tuple(self.file(path, it) for it in self.texts(path, value))

    def truth(self, path: Path, value: Any) -> bool:
        """Yes or no."""
        if not isinstance(value, bool):
            self.note(path, f"{path[-1]} is true or false")
        return bool(value)

    def number(self, path: Path, value: Any) -> float:
        """A number that is not negative and has an end."""
        if isinstance(value, bool) or not isinstance(value, (int, float)) or not 0 <= value < 1e18:
            self.note(path, f"{path[-1]} is a number from 0 on")
            return 0.0
        return float(value)

    def points(self, path: Path, value: Any) -> float:
        """Points."""
        number = self.number(path, value)
        if number > MOST_POINTS:
            self.note(path, f"points are at most {MOST_POINTS}")
        return number

    def whole(self, path: Path, value: Any, least: int, most: int) -> int:
        """A whole number of a range."""
        if not is_whole(value) or not least <= value <= most:
            self.note(path, f"{path[-1]} is a whole number from {least} to {most}")
            return least
        return int(value)

    def price(self, path: Path, value: Any) -> int:
        """A price of the machine, in ticks."""
        return self.whole(path, value, 0, MOST_PRICE)

    def size(self, path: Path, value: Any, least: int, most: int) -> int:
        """A number of bytes, as 65536 or "64K"; of a node's memory they are made whole pages."""
        if isinstance(value, str) and re.fullmatch(r"[0-9]{1,9}[KM]", value):
            value = int(value[:-1]) * UNITS[value[-1]]
        size = self.whole(path, value, least, most) if not isinstance(value, str) else -1
        if size < 0:
            self.note(path, f'{path[-1]} is a number of bytes, as 65536 or "64K"')
        return max(size, least) if least < limits.PAGE else -(-max(size, least) // limits.PAGE) * limits.PAGE

    def nodes(self, path: Path, value: Any) -> Tuple[int, ...]:
        """Numbers of nodes."""
        is_good = isinstance(value, list) and value and all(is_whole(it) and 1 <= it <= limits.MOST_NODES for it in value)
        if not is_good:
            self.note(path, f"nodes are a list of numbers from 1 to {limits.MOST_NODES}, as [1, 2, 7, 8]")
            return ()
        return tuple(dict.fromkeys(value))

    def comparison(self, path: Path, value: Any) -> str:
        """How outputs are compared."""
        if value not in COMPARISONS:
            self.note(path, f"compare is one of {', '.join(COMPARISONS)}")
        return str(value)

    def constant(self, path: Path, name: str, value: Any) -> str:
        """The value of a constant, as the compiler takes it."""
        if not NAME.fullmatch(name):
            self.note(path, f"{name!r} is not the name of a constant")
        if isinstance(value, bool) or not isinstance(value, (int, float, str)) or (isinstance(value, str) and "\0" in value):
            self.note(path, "a constant is a number or a text")
        if isinstance(value, int) and abs(value) > MOST_CONSTANT:
            self.note(path, f"a constant is {MOST_CONSTANT} at most")
            return ""
        return str(value)

    def input(self, path: Path, value: Any) -> object:
        """An input: a file; or numbers that follow from a seed; or a program that writes it."""
        if isinstance(value, str):
            return self.file(path, value)
        if isinstance(value, dict) and "numbers" in value:
            self.expect_keys(path, value, ("numbers", "seed", "least", "most"))
            count = self.whole((*path, "numbers"), value["numbers"], 0, MOST_NUMBERS)
            seed = self.whole((*path, "seed"), value.get("seed", 1), 0, 1 << 62)
            least, most = value.get("least", 0), value.get("most", 999)
            if not all(is_whole(it) and abs(it) < 1 << 62 for it in (least, most)) or least > most:
                self.note(path, "least and most are whole numbers, the lesser first")
                least, most = 0, 999
            return Numbers(count, seed, least, most)
        if isinstance(value, dict) and "program" in value:
            self.expect_keys(path, value, ("program", "seed"))
            seed = self.whole((*path, "seed"), value.get("seed", 1), 0, 1 << 62)
            return Generator(self.file((*path, "program"), value["program"]), seed)
        self.note(path, 'input is a file, as "numbers.txt", or { numbers = 100, seed = 1 }, or { program = "make.py", seed = 1 }')
        return None
