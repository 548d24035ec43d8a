"""The build for the second run that looks for overflow of `long`, from the sources or from those that the executable records.
"""

from __future__ import annotations

import argparse
import os
import pathlib
from typing import NamedTuple

from ..prepare import recorded_sources
from ..prepare.argument_block import MAGIC
from ..prepare.compilation import command
from ..prepare.source_texts import texts
from ..program import elf
from .long_texts import has_longs

LOOKS = "--check=long"
ADVICE = "so values that do not fit a long of 32 bits are not looked for"


class SecondBuild(NamedTuple):
    """The words of a build with their environment; no words if there is nothing to look for. `why_not` says why it cannot be made."""

    words: list[str]
    environment: dict[str, str]
    why_not: str = ""


def of_sources(options: argparse.Namespace, image: pathlib.Path) -> SecondBuild:
    """The build of a program that is compiled for this run."""
    words = options.compiled or []
    folders = [it[len("-I") :] for it in words if it.startswith("-I")]
    if not any(map(has_longs, words)) and not any(map(has_longs, texts(options.sources, folders))):
        return SecondBuild([], {})
    return SecondBuild(*command(options, image, LOOKS))


def of_executable(name: str, content: bytes, image: pathlib.Path) -> SecondBuild:
    """The build of a program that was compiled before. A program without names says nothing of itself, as its maker wanted."""
    units = recorded_sources.units_of(content)
    sources = recorded_sources.sources_of(units)
    if not sources:
        is_of_bspcc = MAGIC in content and bool(elf.names(content))
        return SecondBuild([], {}, f"{name} records no sources, {ADVICE}: build it by this bspcc" if is_of_bspcc else "")
    if any("--check" in it.words for it in units):
        return SecondBuild([], {})
    misfit = recorded_sources.misfit(units)
    if misfit:
        return SecondBuild([], {}, f"{name} was built from sources that are not here now, {ADVICE} ({misfit}): build it again")
    words = [word for it in sources for word in it.words]
    looked_at = texts([it.path for it in sources], recorded_sources.include_folders(units))
    if not any(map(has_longs, words)) and not any(map(has_longs, looked_at)):
        return SecondBuild([], {})
    return SecondBuild(recorded_sources.command(units, image, LOOKS), {**os.environ, "TMPDIR": str(image.parent)})
