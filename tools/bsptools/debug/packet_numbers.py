"""The numbers in packets, as the protocol spells them.

Each reader raises ValueError if something else stands.
"""

from __future__ import annotations

import re
from typing import Optional, Tuple

# Addresses of nodes are below this.
MOST = 1 << 32

_DIGITS = re.compile(r"[0-9a-fA-F]{1,16}")


def number(text: str) -> int:
    """A number: hexadecimal digits, without a sign or what else Python would take."""
    if not _DIGITS.fullmatch(text):
        raise ValueError(text)
    return int(text, 16)


def address(text: str) -> int:
    """An address that a node can have."""
    value = number(text)
    if value >= MOST:
        raise ValueError(text)
    return value


def pair(text: str) -> Tuple[int, int]:
    """Two numbers, such as an address and a length."""
    first, second = text.split(",")
    return number(first), number(second)


def rank(text: str, ranks: int) -> int:
    """The rank that is this thread, of so many ranks."""
    thread = number(text)
    if not 0 < thread <= ranks:
        raise ValueError(text)
    return thread - 1


def rank_or_all(text: str, ranks: int) -> Optional[int]:
    """The rank that is this thread, or nothing if it is all of them, or any."""
    return None if text in ("-1", "0") else rank(text, ranks)
