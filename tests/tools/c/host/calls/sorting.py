"""Calls of qsort, bsearch and the functions of search.h."""

from __future__ import annotations

from typing import List

from .area import ALL, Area, Build
from .chance import Chance, often

SIZES = (1, 2, 3, 4, 5, 7, 8, 12, 16, 24, 40)


def keys(chance: Chance, most: int) -> List[int]:
    """Keys in an order that is easy or hard to sort."""
    count = chance.choice((0, 1, 2, 3, 4, 5, 6, 7, 8, chance.randint(9, 20), chance.randint(20, 60), chance.randint(60, 200)))
    kind = chance.randrange(8)
    reach = chance.choice((1, 3, 40, most)) if kind < 3 else most
    found = [chance.randint(0, reach) for _ in range(count)]
    if kind == 3:
        found.sort()
    elif kind == 4:
        found.sort(reverse=True)
    elif kind == 5:
        found = sorted(found[: count // 2]) + sorted(found[count // 2 :], reverse=True)
    elif kind == 6:
        found = [found[0]] * count if found else []
    elif kind == 7:
        found.sort()
        for _ in range(chance.randint(0, 3)):
            if found:
                found[chance.randrange(count)] = chance.randint(0, most)
    return found


def call(chance: Chance, build: Build) -> str:
    """A call."""
    function = "qsort" if build == Build.SMALL else chance.choice(("qsort", "qsort", "qsort", "bsearch", "tree"))
    size = chance.choice(SIZES)
    way = chance.choice((0, 0, 1))
    found = keys(chance, 255 if size == 1 else 32767)
    if function == "qsort" and size > 1 and often(chance, 0.1):
        way, found = 2, list(range(chance.choice((3, 10, 50, 100, 300))))
    if function != "qsort":
        way = 0
        found = [it % 40 for it in found] if often(chance, 0.7) else found
    return " ".join(map(str, (function, size, way, *found)))


AREA = Area("sorting", "sorting.c", call, ALL)
