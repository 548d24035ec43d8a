"""Adjacent colours of a picture can be distinguished: by everyone, in grey, and with each kind of colour blindness.

What protanopes and deuteranopes see is simulated by the matrices for a severity of 1 of G. M. Machado, M. M. Oliveira and L. A. F.
Fernandes, "A physiologically-based model for simulation of color vision deficiency", IEEE Transactions on Visualization and Computer
Graphics 15(6), 2009. Distances are Euclidean in CIE L*a*b*, where one of 2.3 is just seen.
"""

from __future__ import annotations

import itertools
import math
from typing import Dict, List, Sequence, Tuple

from base import Check, Parts
from checks import Part

from bsptools.plot import canvas

Vector = Tuple[float, float, float]
Matrix = Tuple[Vector, Vector, Vector]
EYES: Dict[str, Matrix] = {
    "all": ((1, 0, 0), (0, 1, 0), (0, 0, 1)),
    "protanopes": ((0.152286, 1.052583, -0.204868), (0.114503, 0.786281, 0.099216), (-0.003882, -0.048116, 1.051998)),
    "deuteranopes": ((0.367322, 0.860646, -0.227968), (0.280085, 0.672501, 0.047413), (-0.011820, 0.042940, 0.968881)),
}
# From linear sRGB to XYZ, and the white of both.
XYZ: Matrix = ((0.4124564, 0.3575761, 0.1804375), (0.2126729, 0.7151522, 0.0721750), (0.0193339, 0.1191920, 0.9503041))
WHITE: Vector = (0.95047, 1.0, 1.08883)
LEAST = 20.0
LEAST_IN_GREY = 12.0
# Lines have marks of their own beside their colours.
LEAST_OF_LINES_IN_GREY = 7.0
PARTS = {"w": canvas.WORK, "waiting": canvas.WAIT, "g·h": canvas.EXCHANGE, "l": canvas.SYNC}
BESIDE: List[Tuple[str, Dict[str, str], float]] = [
    ("parts of a superstep", PARTS, LEAST_IN_GREY),
    ("sums of a matrix", {"a sum": canvas.SUMS, "the greatest": canvas.EXCHANGE, "paper": "#ffffff"}, LEAST_IN_GREY),
    ("lines", {f"line {i}": color for i, color in enumerate(canvas.LINES)}, LEAST_OF_LINES_IN_GREY),
]


def parts(make: Parts) -> List[Part]:
    """One part."""
    return [make.part("colours", apart)]


def apart(check: Check) -> None:
    """Looks at each two colours that stand beside one another."""
    for name, colors, least_in_grey in BESIDE:
        for eyes, matrix in EYES.items():
            check.tell(f"{name}, for {eyes}", near(colors, matrix, LEAST))
        grey = {one: lightness(color) for one, color in colors.items()}
        faults = [f"{one} and {other}" for one, other in itertools.combinations(grey, 2) if abs(grey[one] - grey[other]) < least_in_grey]
        check.tell(f"{name}, in grey", ", ".join(faults))
    # The simulation tells what is known to be alike from what is not: a red and a green that protanopes mistake for one another.
    check.expect("red and green for protanopes", near({"red": "#a05000", "green": "#556600"}, EYES["protanopes"], LEAST) != "", "apart")
    check.expect("waiting and paper", abs(lightness(canvas.WAIT) - lightness("#ffffff")) >= LEAST_IN_GREY, "alike")


def near(colors: Dict[str, str], matrix: Matrix, least: float) -> str:
    """The colours that are nearer to one another than this for these eyes."""
    seen = {name: lab(times(matrix, linear(color))) for name, color in colors.items()}
    return ", ".join(f"{one} and {other}" for one, other in itertools.combinations(seen, 2) if distance(seen[one], seen[other]) < least)


def distance(one: Vector, other: Vector) -> float:
    """How far two colours are from one another."""
    return math.sqrt(sum((a - b) ** 2 for a, b in zip(one, other)))


def lightness(color: str) -> float:
    """What is left of a colour in grey."""
    return lab(linear(color))[0]


def vector(values: Sequence[float]) -> Vector:
    """Three numbers."""
    first, second, third = values
    return first, second, third


def times(matrix: Matrix, them: Vector) -> Vector:
    """A matrix by a vector."""
    return vector([sum(a * b for a, b in zip(row, them)) for row in matrix])


def linear(color: str) -> Vector:
    """A colour as `#rrggbb` in linear light."""
    shares = [int(color[i : i + 2], 16) / 255 for i in (1, 3, 5)]
    return vector([it / 12.92 if it <= 0.04045 else ((it + 0.055) / 1.055) ** 2.4 for it in shares])


def lab(light: Vector) -> Vector:
    """L*, a* and b* of a linear light, which is cut to what a screen shows."""
    shares = [a / b for a, b in zip(times(XYZ, vector([min(max(it, 0.0), 1.0) for it in light])), WHITE)]
    x, y, z = (it ** (1 / 3) if it > 216 / 24389 else (24389 / 27 * it + 16) / 116 for it in shares)
    return 116 * y - 16, 500 * (x - y), 200 * (y - z)
