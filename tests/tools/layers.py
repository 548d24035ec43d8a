"""The names and the layers of the tools' modules, as the first lines of `tools/bsptools/__init__.py` have them."""

from __future__ import annotations

import ast
import pathlib
from typing import AbstractSet, Dict, Iterator, List, NamedTuple, Tuple

REPO = pathlib.Path(__file__).resolve().parents[2]
TOP = "bsptools"
TABLE = f"tools/{TOP}/__init__.py"
# How far the rows of the table are indented.
INDENT = "    "


class Import(NamedTuple):
    """A line of a module that imports another one, also if it does so late or for its types alone."""

    line: int
    target: str


class Module(NamedTuple):
    """A module: its file, its name with its packages, and what it imports of the others."""

    path: str
    name: str
    imports: List[Import]

    @property
    def package(self) -> str:
        """The name of its package."""
        return package_of(self.name)


def package_of(name: str) -> str:
    """The name of the package of a module; a package's own module is `__init__`."""
    return name.split(".")[-2]


def rows(text: str) -> List[List[str]]:
    """The packages of each row of the table, the highest first."""
    described = ast.get_docstring(ast.parse(text), clean=False) or ""
    return [line.split()[1:] for line in described.splitlines() if line.startswith(INDENT)]


def modules(tools: pathlib.Path) -> List[Module]:
    """All modules below a folder, with what they import."""
    paths = {".".join(it.relative_to(tools).with_suffix("").parts): it for it in sorted(tools.glob(f"{TOP}/**/*.py"))}
    found = []
    for name, path in paths.items():
        own = name.rpartition(".")[0]
        asked = imported(ast.parse(path.read_bytes(), str(path)), own)
        imports = [Import(line, it) for line, text in asked for it in known(text, paths.keys())]
        found.append(Module(str(path.relative_to(tools.parent)), name, imports))
    return found


def imported(tree: ast.Module, package: str) -> Iterator[Tuple[int, str]]:
    """What a module of a package imports, by the whole names: of modules, or of what is in them."""
    for node in ast.walk(tree):
        if isinstance(node, ast.Import):
            yield from ((node.lineno, it.name) for it in node.names)
        elif isinstance(node, ast.ImportFrom):
            begin = absolute("." * node.level + (node.module or ""), package)
            yield from ((node.lineno, f"{begin}.{it.name}") for it in node.names)
        elif isinstance(node, ast.Call) and isinstance(node.func, ast.Attribute) and node.func.attr == "import_module":
            if node.args and isinstance(node.args[0], ast.Constant):
                yield node.lineno, absolute(str(node.args[0].value), package)


def absolute(name: str, package: str) -> str:
    """A name without the dots that it may begin with."""
    rest = name.lstrip(".")
    above = package.split(".")[: len(package.split(".")) - (len(name) - len(rest)) + 1]
    return ".".join([*above, *([rest] if rest else [])]) if name.startswith(".") else name


def known(name: str, names: AbstractSet[str]) -> List[str]:
    """The module that a name is, or of which it is, if that is one of these; not the packages that are loaded with it."""
    begin = name.rpartition(".")[0]
    return [it for it in (name, f"{name}.__init__", begin, f"{begin}.__init__") if it in names][:1]


def twins(tools: pathlib.Path) -> str:
    """The modules and packages whose last names others have too."""
    places: Dict[str, List[str]] = {}
    for it in modules(tools):
        last = it.package if it.name.endswith(".__init__") else it.name.rpartition(".")[2]
        places.setdefault(last, []).append(it.path)
    return "".join(f"{' and '.join(paths)} have the same name\n" for paths in places.values() if len(paths) > 1)


def upwards(tools: pathlib.Path) -> str:
    """The imports that go to a package beside or above, and those that go in a circle."""
    table = rows((tools.parent / TABLE).read_text())
    heights = {name: -at for at, row in enumerate(table) for name in row}
    them = modules(tools)
    there = {it.package for it in them}
    told = [f"{TABLE}: the table has no {it}, or {it} is no package\n" for it in sorted(there ^ heights.keys())]
    for module in them:
        for line, target in module.imports:
            own, other = module.package, package_of(target)
            if own != other and own in heights and heights.get(other, 1) >= heights[own]:
                told.append(f"{module.path}:{line}: {own} imports {other}, which is not below it in the table of {TABLE}\n")
    return "".join([*told, *circles(them)])


def circles(them: List[Module]) -> Iterator[str]:
    """The modules that import one another in a circle."""
    imports = {it.name: {target for _, target in it.imports} - {it.name} for it in them}
    # In no circle is what imports none of those that are left, or is imported by none of them.
    while alone := {it for it in imports if not imports[it] & imports.keys() or not any(it in others for others in imports.values())}:
        imports = {it: others for it, others in imports.items() if it not in alone}
    if imports:
        yield f"these modules import one another in a circle: {', '.join(sorted(imports))}\n"
