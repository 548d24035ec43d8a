"""Scripts of rounding modes and flags."""

from __future__ import annotations

from . import chance as made
from .area import Area, Build
from .chance import Chance, often


def call(chance: Chance, _build: Build) -> str:
    """A script."""
    steps = []
    for _ in range(chance.randint(1, 12)):
        letter = chance.choice("+-*/qfsnrlm<+*/" "MMMRRCCTGSHUKPD")
        if letter in "+-*/qfsnrlm<":
            left = made.double(chance)
            right = made.double(chance) if often(chance, 0.7) else left * chance.choice((1.0, -1.0, 0.0, 3.0))
            if letter == "l" and (left != left or abs(left) == float("inf")):
                left = 2.5
            steps.append(f"{letter}{made.real(left)}:{made.real(right)}")
        elif letter == "M":
            steps.append(f"M{chance.randrange(5) if often(chance, 0.2) else chance.randrange(4)}")
        elif letter in "RCT":
            steps.append(f"{letter}{chance.choice((0, 1, 2, 4, 8, 16, 31, chance.randrange(32)))}")
        elif letter == "P":
            steps.append(f"P{chance.randrange(3)}:{chance.choice((31, chance.randrange(32)))}")
        else:
            steps.append(f"{letter}{chance.randrange(3)}")
    return " ".join(steps)


AREA = Area("modes", "modes.c", call, (Build.FLOATS,), is_script=True, steps=5)
