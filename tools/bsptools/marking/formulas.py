"""Bounds of costs as formulas, such as `h <= 2*(p - 1)*n/p + 8`: parses them and computes their values."""

from __future__ import annotations

import ast
import math
from collections.abc import Mapping
from typing import Any, Callable, Dict, List, NamedTuple, Set, Tuple, Type, Union

MOST_LETTERS, MOST_POWER = 500, 64
TOO_LARGE = "a number is too large"
# A value that stands for what the left side comes to in the solution's run.
SOLUTION = "solution"
FUNCTIONS: Dict[str, Callable[..., float]] = {
    "ceil": math.ceil, "floor": math.floor, "sqrt": math.sqrt, "log2": math.log2, "min": min, "max": max, "abs": abs,
}  # fmt: skip
OPERATORS: Dict[Type[ast.operator], Callable[[float, float], float]] = {
    ast.Add: lambda a, b: a + b, ast.Sub: lambda a, b: a - b, ast.Mult: lambda a, b: a * b, ast.Div: lambda a, b: a / b,
    ast.FloorDiv: lambda a, b: a // b, ast.Mod: lambda a, b: a % b, ast.Pow: lambda a, b: _power(a, b),
}  # fmt: skip
COMPARISONS: Dict[Type[ast.cmpop], Tuple[str, Callable[[float, float], bool], str]] = {
    ast.LtE: ("<=", lambda a, b: a <= b, "at most {} is allowed"),
    ast.Lt: ("<", lambda a, b: a < b, "less than {} is allowed"),
    ast.GtE: (">=", lambda a, b: a >= b, "at least {} is needed"),
    ast.Gt: (">", lambda a, b: a > b, "more than {} is needed"),
    ast.Eq: ("==", lambda a, b: a == b, "it has to be {}"),
}


class Wrong(Exception):
    """What is wrong in a formula, and at which of its letters, from 0 on."""

    def __init__(self, what: str, at: int) -> None:
        super().__init__(what)
        self.what, self.at = what, at


def _power(base: float, exponent: float) -> float:
    if abs(exponent) > MOST_POWER:
        raise ValueError(f"a power of more than {MOST_POWER}")
    found: Union[float, complex] = base**exponent
    if isinstance(found, complex):
        raise ValueError("a root of a negative number")
    return float(found)


class Bound(NamedTuple):
    """What a bound comes to in a run: both sides, whether it is kept, and how its right side is told."""

    left: float
    right: float
    is_kept: bool
    told: str


class Formula:
    """A bound: two sides and what is between them."""

    def __init__(self, text: str) -> None:
        self.text = text.strip()
        if len(text) > MOST_LETTERS:
            raise Wrong(f"a formula has {MOST_LETTERS} letters at most", 0)
        try:
            whole = ast.parse(text.strip().replace("\n", " "), mode="eval").body
        except (SyntaxError, ValueError, RecursionError, MemoryError) as error:
            raise Wrong(f"this is not a formula: {getattr(error, 'msg', error)}", (getattr(error, "offset", 1) or 1) - 1) from error
        if not isinstance(whole, ast.Compare) or len(whole.ops) != 1 or type(whole.ops[0]) not in COMPARISONS:
            raise Wrong("a bound compares two sides once, by <=, <, >=, > or ==, as supersteps <= 3", 0)
        self.sides = (whole.left, whole.comparators[0])
        self.sign, self.holds, self.says = COMPARISONS[type(whole.ops[0])]
        for side in self.sides:
            _check(side)
        if SOLUTION in _names(self.sides[0]):
            raise Wrong(f"{SOLUTION} belongs on the right side: it is the value of the left side in the solution's run", whole.left.col_offset)

    @property
    def is_floor(self) -> bool:
        """Whether its right side is what has to be reached, and not what is allowed."""
        return self.sign in (">", ">=")

    @property
    def names(self) -> Set[str]:
        """The names of values that it has."""
        return _names(self.sides[0]) | _names(self.sides[1])

    @property
    def left(self) -> str:
        """What its left side is called: a quantity by its name, or the expression."""
        return ast.get_source_segment(self.text, self.sides[0]) or self.text

    def fault(self, values: Mapping[str, float]) -> str:
        """Why a side has no value where these are given, as of a division by p - 1 on one node; a side with other names is not looked at."""
        for side in self.sides:
            if _names(side) <= values.keys():
                try:
                    _value(side, values)
                except ValueError as error:
                    return str(error)
        return ""

    def place_of(self, name: str) -> int:
        """At which letter a name stands first."""
        nodes = [it for side in self.sides for it in ast.walk(side) if isinstance(it, ast.Name) and it.id == name]
        return min((it.col_offset for it in nodes), default=0)

    def bound(self, values: Mapping[str, float], solution: Mapping[str, float]) -> Bound:
        """What it comes to for these values, and those of the solution. Raises ValueError if it comes to nothing."""
        left = _value(self.sides[0], values)
        more = {SOLUTION: _value(self.sides[0], solution)} if solution else {}
        right = _value(self.sides[1], {**values, **more})
        return Bound(left, right, self.holds(left, right), self.says.format(told(right)))


def told(value: float) -> str:
    """A number as it is told: with commas, and no digits behind the point if it is whole."""
    return f"{int(value):,}" if value == int(value) else f"{value:,.2f}"


def _names(side: ast.AST) -> Set[str]:
    called: List[ast.AST] = [it.func for it in ast.walk(side) if isinstance(it, ast.Call)]
    return {it.id for it in ast.walk(side) if isinstance(it, ast.Name) and it not in called}


def _check(node: Any) -> None:
    """Refuses what is none of the few things that a formula has."""
    if isinstance(node, ast.BinOp) and type(node.op) in OPERATORS:
        _check(node.left)
        _check(node.right)
    elif isinstance(node, ast.UnaryOp) and isinstance(node.op, (ast.USub, ast.UAdd)):
        _check(node.operand)
    elif isinstance(node, ast.Call) and isinstance(node.func, ast.Name) and not node.keywords:
        if node.func.id not in FUNCTIONS:
            raise Wrong(f"{node.func.id} is not a function of formulas; these are {', '.join(FUNCTIONS)}", node.col_offset)
        for it in node.args:
            _check(it)
    elif isinstance(node, ast.Constant):
        if isinstance(node.value, bool) or not isinstance(node.value, (int, float)):
            raise Wrong("a formula has numbers and names", node.col_offset)
    elif not isinstance(node, ast.Name):
        raise Wrong("a formula has numbers, names, + - * / // % **, brackets and functions", getattr(node, "col_offset", 0))


def _value(node: Any, values: Mapping[str, float]) -> float:
    """What an expression comes to. Raises ValueError if it is no number, or has no end."""
    try:
        found = _computed(node, values)
        # A whole number of Python has no largest one, and this raises OverflowError if it is beyond all floats.
        is_finite = math.isfinite(found)
    except OverflowError as error:
        raise ValueError(TOO_LARGE) from error
    except (ArithmeticError, TypeError) as error:
        raise ValueError(str(error)) from error
    if not is_finite:
        raise ValueError(TOO_LARGE)
    return found


def _computed(node: Any, values: Mapping[str, float]) -> float:
    if isinstance(node, ast.BinOp):
        return OPERATORS[type(node.op)](_value(node.left, values), _value(node.right, values))
    if isinstance(node, ast.UnaryOp):
        value = _value(node.operand, values)
        return -value if isinstance(node.op, ast.USub) else value
    if isinstance(node, ast.Call) and isinstance(node.func, ast.Name):
        return FUNCTIONS[node.func.id](*(_value(it, values) for it in node.args))
    return float(node.value) if isinstance(node, ast.Constant) else values[node.id]
