"""Scripts of the heap."""

from __future__ import annotations

from typing import List

from .area import ALL, Area, Build
from .chance import Chance, often

BLOCKS = 32
SIZES = (0, 1, 2, 3, 4, 5, 7, 8, 9, 12, 15, 16, 17, 24, 31, 32, 33, 63, 64, 65, 100, 127, 128, 129, 255, 256, 257, 1000, 4095, 4096, 4097)


def size(chance: Chance, most: int) -> int:
    """The size of a block."""
    if often(chance, 0.5):
        return min(most, chance.choice(SIZES))
    return chance.randint(0, min(most, chance.choice((16, 100, 1000, 20000))))


def steps_at_random(chance: Chance, build: Build, most: int) -> List[str]:
    """Steps of any kind."""
    letters = "mmmmffcc" + ("rrrraax" if build != Build.SMALL else "")
    found = []
    for _ in range(chance.randint(5, 60)):
        letter, block = chance.choice(letters), chance.randrange(BLOCKS)
        if letter == "f":
            found.append(f"f{block}")
        elif letter == "c":
            count = chance.randint(0, 20)
            found.append(f"c{block}:{count}:{size(chance, most) // max(1, count)}")
        elif letter == "a":
            found.append(f"a{block}:{size(chance, most)}:{1 << chance.randint(3, 12)}")
        elif letter == "x":
            found.append(f"x{chance.randrange(5)}")
        else:
            found.append(f"{letter}{block}:{size(chance, most)}")
    return found


def steps_in_order(chance: Chance, build: Build) -> List[str]:
    """Blocks of like sizes, which are given back in an order and taken again with other sizes: holes that are merged and parted."""
    each = size(chance, 3000)
    found = [f"m{it}:{max(0, each + chance.randint(-1, 1))}" for it in range(BLOCKS)]
    order = list(range(0, BLOCKS, chance.choice((1, 2, 3))))
    if often(chance, 0.5):
        order.reverse()
    elif often(chance, 0.5):
        chance.shuffle(order)
    found += [f"f{it}" for it in order]
    letters = "mc" if build == Build.SMALL else "mcr"
    for it in order:
        letter = chance.choice(letters)
        other = max(0, each * chance.choice((1, 1, 2, 3)) // chance.choice((1, 1, 2)) + chance.randint(-9, 9))
        found.append(f"{letter}{it}:{other}" + (":1" if letter == "c" else ""))
    return found


def call(chance: Chance, build: Build) -> str:
    """A script."""
    if often(chance, 0.4):
        return " ".join(steps_in_order(chance, build))
    return " ".join(steps_at_random(chance, build, 60000))


AREA = Area("heap", "heap.c", call, ALL, is_script=True, at_once=10000, steps=20)
