"""The list of all areas."""

from __future__ import annotations

from typing import Dict

from . import files, heap, inputs, jumps, modes, numbers, options, printing, scanning, sorting, streams, texts, times, wide
from .area import Area

# By their places the builds turn.
MADE = (printing.AREA, scanning.AREA, files.AREA, numbers.AREA, texts.AREA, inputs.INPUT, inputs.SEEKS, heap.AREA, times.AREA, streams.AREA,
        options.AREA, sorting.AREA, wide.AREA, modes.AREA, jumps.AREA)  # fmt: skip
AREAS: Dict[str, Area] = {it.name: it for it in MADE}
