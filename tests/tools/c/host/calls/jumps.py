"""Calls of setjmp and longjmp."""

from __future__ import annotations

from . import chance as made
from .area import BOTH, Area, Build
from .chance import Chance


def call(chance: Chance, _: Build) -> str:
    """A call."""
    deepest = chance.choice((0, 1, 2, 5, chance.randint(0, 40)))
    value = chance.choice((0, 1, -5, chance.randint(2, 1000)))
    target, turns = chance.randint(0, deepest), chance.choice((0, 0, 1, 3))
    return " ".join(map(str, (deepest, target, value, turns, made.whole(chance, 16), made.whole(chance, 16))))


AREA = Area("jumps", "jumps.c", call, BOTH)
