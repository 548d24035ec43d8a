"""Computes r, g and l from measurements: the best line through the times of h-relations, with confidence intervals."""

from __future__ import annotations

from typing import Any

import numpy

from ..refusals import Refused
from .estimates import Estimate, Fit
from .samples import Samples

# How often the rounds are drawn again for the intervals, what part of the outcomes is within them, and the first number of the drawings.
DRAWINGS, CONFIDENCE, SEED = 1000, 0.95, 1
# The fewest points of a line whose fit says something.
LEAST_POINTS = 3
# How many times are drawn at once, of 8 bytes each.
MOST_AT_ONCE = 1 << 22


def fit(samples: Samples, is_lowest: bool = False) -> Fit:
    """The line through the medians of all rounds, or through the lowest times, and how far it moves where rounds are drawn by chance.

    As in bspbench the line is that of h from p on: below, not each process has a word for each other one. Medians leave out what a host was
    disturbed by now and then, and the lowest times what it is disturbed by most of the time. A round is drawn as a whole, so that what has
    changed from round to round widens the intervals.
    """
    rates, times = numpy.array(samples.rates), numpy.array(samples.times)
    first = min(samples.p, times.shape[1] - LEAST_POINTS)
    if first < 0:
        raise Refused(f"times of h from 0 to {times.shape[1] - 1} are too few to fit a line: give a larger --most")
    whole = _parameters(rates[None], times[None], first, is_lowest)[0]
    drawn = numpy.random.default_rng(SEED).integers(0, len(rates), (DRAWINGS, len(rates)))
    at_once = max(1, MOST_AT_ONCE // times.size)
    parts = [_parameters(rates[it], times[it], first, is_lowest) for it in (drawn[at : at + at_once] for at in range(0, DRAWINGS, at_once))]
    edges = numpy.quantile(numpy.concatenate(parts), [(1 - CONFIDENCE) / 2, (1 + CONFIDENCE) / 2], axis=0)
    rate, g, l = (Estimate(float(value), float(low), float(high)) for value, low, high in zip(whole, *edges))
    return Fit(samples.p, samples.word, rate, g, l, g.value / rate.value, l.value / rate.value)


def _parameters(rates: Any, times: Any, first: int, is_lowest: bool) -> Any:
    """r, g and l of each of several choices of rounds, by the least sum of squares of the distances of times from a line."""
    rate = numpy.max(rates, axis=1) if is_lowest else numpy.median(rates, axis=1)
    seconds = numpy.min(times, axis=1) if is_lowest else numpy.median(times, axis=1)
    g, l = numpy.polyfit(numpy.arange(first, times.shape[2]), seconds[:, first:].T, 1)
    return numpy.stack([rate, g * rate, l * rate], axis=1)
