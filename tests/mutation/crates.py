"""The crates of the repository, the functions in their code, and copies of them in which most functions have only their contracts."""

from __future__ import annotations

import pathlib
import re
from dataclasses import dataclass
from typing import Collection, Dict, Iterator, List, Mapping, Optional, Sequence, Tuple

from checks import REPO

SOURCES = ("src", "specs", "proofs")
# In a crate's code: the files' own functions and types, and the methods of a type.
TYPE = re.compile(r"(?:pub(?:\(\w+\))? )?(?:struct|enum) (\w+)")
BLOCK = re.compile(r"(?:pub(?:\(\w+\))? )?(?:impl|trait)\b")
METHODS_OF = re.compile(r"impl(?:<[^{]*?>)? (\w+)(?:<[^{]*>)? \{")
FUNCTION = re.compile(r"( *)(?:pub(?:\(\w+\))? )?fn (\w+)")
IN_CYCLE = "#[cycle("


@dataclass(frozen=True)
class Crate:
    """A crate of the repository: the libraries directly below it, its own and the kit's, and all crates below it."""

    name: str
    below: Sequence[str]
    of_kit: Sequence[str]
    all_below: Sequence[str]

    @property
    def folder(self) -> pathlib.Path:
        """The crate's folder."""
        return REPO / "crates" / self.name

    def mutants(self) -> List[pathlib.Path]:
        """The files of its mutants, by name."""
        return sorted((self.folder / "mutants").glob("*.mutant"))

    def controls(self) -> List[pathlib.Path]:
        """The files of its controls, which change the text and not the meaning, by name."""
        return sorted((self.folder / "mutants/controls").glob("*.mutant"))

    def sources(self) -> List[pathlib.Path]:
        """Its code, its definitions and its proofs, by name."""
        return sorted(it for part in SOURCES for it in (self.folder / part).rglob("*") if it.is_file())

    def modules(self) -> Dict[str, str]:
        """The files of its code, by the prefix that the paths of their functions have below the crate."""
        files = sorted(path.relative_to(self.folder) for path in (self.folder / "src").rglob("*.rt"))
        return {"".join(f"{it}::" for it in path.with_suffix("").parts[1:] if it not in ("lib", "main", "mod")): str(path) for path in files}

    def lines(self, file: str, texts: Mapping[str, str]) -> List[str]:
        """The lines of one of its files, or of the text that replaces the file."""
        return (texts.get(file) or (self.folder / file).read_text()).splitlines()


def listed() -> Dict[str, Crate]:
    """The crates of crates.txt, lowest first."""
    lines: Dict[str, List[str]] = {}
    for line in (REPO / "crates.txt").read_text().splitlines():
        left, colon, right = line.partition("#")[0].partition(":")
        if colon:
            lines[left.split()[0]] = right.split()
    found: Dict[str, Crate] = {}
    for name, libraries in lines.items():
        below = [it for it in libraries if it in lines]
        of_all = dict.fromkeys(it for low in below for it in (*found[low].all_below, low))
        found[name] = Crate(name, below, ["std", *(it for it in libraries if it not in lines)], list(of_all))
    return found


def functions_in(lines: Sequence[str], module: str, types: Mapping[str, str]) -> Iterator[Tuple[str, int, int]]:
    """The functions of a module and the methods of its types (not those of traits), by path, each with the lines that open and close its body.
    Functions in a cycle of calls are left out."""
    prefix, indent, in_cycle = module, "", False  # type: Optional[str], str, bool
    for number, line in enumerate(lines):
        methods, function = METHODS_OF.match(line), FUNCTION.match(line)
        if BLOCK.match(line):
            prefix, indent = types.get(methods[1]) if methods else None, "    "
        elif line.startswith("}"):
            prefix, indent = module, ""
        elif line.strip().startswith(IN_CYCLE):
            in_cycle = True
        elif function and function[1] == indent:
            if prefix is not None and not in_cycle:
                head = re.compile(rf"{indent}\S.*(?<=[{{}};])")
                opened = next(it for it in range(number, len(lines)) if head.fullmatch(lines[it]))
                if lines[opened].endswith("{"):
                    yield prefix + function[2], opened, lines.index(f"{indent}}}", opened)
            in_cycle = False


def outlined(crate: Crate, functions: Collection[str], texts: Mapping[str, str]) -> Dict[str, Optional[str]]:
    """A crate's files, with these texts, in which all other functions have only their contracts: an endless loop is the body, and a hole is
    the proof. A file that has to go has no text."""
    found: Dict[str, Optional[str]] = dict(texts)
    modules = crate.modules()
    types = {it[1]: f"{module}{it[1]}::" for module, file in modules.items() for it in map(TYPE.match, crate.lines(file, texts)) if it}
    for module, file in modules.items():
        lines, behind, kept = crate.lines(file, texts), 0, []  # type: Sequence[str], int, List[str]
        for name, opened, closed in functions_in(lines, module, types):
            if name not in functions:
                kept += [*lines[behind : opened + 1], "loop {}"]
                behind = closed
                found.update(hole(crate, name))
        found[file] = "\n".join([*kept, *lines[behind:], ""])
    return found


def hole(crate: Crate, function: str) -> Dict[str, Optional[str]]:
    """A hole in place of a function's proof and of its answers."""
    parts = function.split("::")
    folder = f"proofs/{'/'.join(parts)}"
    statement = f"use Rattle.{crate.name}.proofs.{'.'.join(parts)}.Statement.{{statement}}"
    proof = f"{statement}\n\npub {parts[-1]}_spec : {{M : Type 1}} → statement M\n{parts[-1]}_spec = ?\n"
    return {f"{folder}/Proof.antt": proof, f"{folder}/Answers.antt": None, f"{folder}/Invariants.antt": None}
