"""The rate of a program's clock, put into a copy of its image.

bsprun and bspgdb give nodes clocks. bsplib/src/clock.c has the place for the rate, where a program reads the time.
"""

from __future__ import annotations

import argparse
import struct

# What the place begins with. Behind it stand whether there is a clock, a word that is not used, and the rate.
PLACE = b"\0bsprun\5"
CLOCK = struct.Struct("<IId")


def has_clock(content: bytes) -> bool:
    """Whether the program of an image reads a clock, so that what it costs may depend on prices and rate."""
    return PLACE in content


def with_clock_rate(content: bytes, rate: float) -> bytes:
    """An image whose program reads a clock at so many ticks a second, if it has a place for that; else as it is."""
    at = content.find(PLACE)
    if at < 0:
        return content
    begin = at + len(PLACE)
    return content[:begin] + CLOCK.pack(1, 0, rate) + content[begin + CLOCK.size :]


def seconds(options: argparse.Namespace) -> str:
    """What a second of these options is."""
    return f"a second is {options.rate:,.10g} instructions, a byte of h is {options.g} (--g), a superstep's end {options.l} (--l)"
