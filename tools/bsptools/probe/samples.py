"""The times that a program of bsplib/native/probe.c has measured, as it prints them."""

from __future__ import annotations

from typing import NamedTuple

from ..refusals import Refused

# The first line, with the version of the form.
FIRST = "bspprobe 1"
# What a run says of itself in front of its times.
GIVEN = ("p", "word", "most")
# What a probe that measures most prints, in bytes: 65,536 times of some 30 bytes in each of 1,000 rounds would be more, and nobody waits for it.
MOST_PRINTED = 1 << 28
# Runs of one file, each of which takes some milliseconds to look at.
MOST_RUNS = 1024


class Samples(NamedTuple):
    """What was measured on p processes. Each round has a rate, in operations a second, and a time for each h from 0 on, in seconds."""

    p: int
    word: int
    rates: list[float]
    times: list[list[float]]


class Unread(Exception):
    """A line that the form has not."""


def read(content: bytes, name: str) -> list[Samples]:
    """What one or several runs have printed."""
    lines = content.decode(errors="replace").splitlines()
    starts = [number for number, line in enumerate(lines) if line.strip() == FIRST]
    if not starts:
        raise Refused(f"{name}: this was not printed by a program of bsplib/native/probe.c: it has no line {FIRST!r}")
    if len(starts) > MOST_RUNS:
        raise Refused(f"{name} has {len(starts)} runs, and {MOST_RUNS} are read at most: give fewer")
    found = []
    for start, end in zip(starts, [*starts[1:], len(lines)]):
        try:
            found.append(_one(lines[start + 1 : end]))
        except (Unread, ValueError, IndexError) as error:
            raise Refused(f"{name}: the run of line {start + 1} is incomplete: {error}. Run the program again") from error
    return found


def _one(lines: list[str]) -> Samples:
    """What one run has printed, behind its first line."""
    given: dict[str, int] = {}
    found = Samples(0, 0, [], [])
    for line in lines:
        words = line.split()
        if words[:1] == ["end"]:
            if len(given) < len(GIVEN):
                raise Unread("numbers are missing")
            return _whole(found._replace(p=given["p"], word=given["word"]), given["most"])
        if words[:1] == ["rate"]:
            found.rates.append(_positive(words[1]))
            found.times.append([])
        elif words[:1] == ["time"] and found.times and int(words[1]) == len(found.times[-1]):
            found.times[-1].append(_positive(words[2]))
        elif len(words) == 2 and words[0] in GIVEN:
            given[words[0]] = int(words[1])
        else:
            raise Unread(f"{line[:80]!r} is not expected there")
    raise Unread("its last line is missing")


def _positive(word: str) -> float:
    value = float(word)
    if not 0.0 < value < 1e18:
        raise Unread(f"{word} is neither a rate nor a time: the clock of this BSPlib may be too coarse for --milliseconds")
    return value


def _whole(found: Samples, most: int) -> Samples:
    if found.p < 1 or found.word < 1 or not found.rates or any(len(it) != most + 1 for it in found.times):
        raise Unread("numbers are missing")
    return found
