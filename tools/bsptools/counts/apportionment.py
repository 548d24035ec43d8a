"""Whole numbers split into whole shares."""

from __future__ import annotations

from collections.abc import Sequence


# What the weights of shares that are parted further come to.
WHOLE = 1 << 40


def shared(whole: int, weights: Sequence[int]) -> list[int]:
    """A whole number parted by weights of which not all are 0, or of which there are none: whole numbers whose sum it is, each less than 1
    away from its share. The first of those that lose most have what is left over."""
    total = sum(weights) or 1
    parts = [whole * it // total for it in weights]
    behind = sorted(range(len(weights)), key=lambda at: (-(whole * weights[at] % total), at))
    for at in behind[: whole - sum(parts) if weights else 0]:
        parts[at] += 1
    return parts
