"""The result for a host: r, g and l, each with its confidence interval."""

from __future__ import annotations

from typing import NamedTuple


class Estimate(NamedTuple):
    """A value with its interval of confidence."""

    value: float
    low: float
    high: float

    def times(self, factor: float) -> Estimate:
        """The same in another unit."""
        return Estimate(self.value * factor, self.low * factor, self.high * factor)


class Fit(NamedTuple):
    """What was found on p processes: r in operations a second, g for a word and l in operations and in seconds."""

    p: int
    word: int
    rate: Estimate
    g: Estimate
    l: Estimate
    g_seconds: float
    l_seconds: float
