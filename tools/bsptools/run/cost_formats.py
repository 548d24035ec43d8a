"""The formats in which `--lines-as` writes the costs of lines."""

from __future__ import annotations

import argparse

from ..options import pair

KINDS = ("callgrind", "folded", "trace", "json")


def form(text: str) -> tuple[str, str]:
    """A form, and the file for it."""
    wanted = f"KIND=FILE, with the kind {', '.join(KINDS[:-1])} or {KINDS[-1]}"
    kind, path = pair(text, wanted)
    if kind not in KINDS or not path:
        raise argparse.ArgumentTypeError(f"{text!r}: give {wanted}")
    return kind, path


def wants_counts(options: argparse.Namespace) -> bool:
    """Whether the costs of lines are asked for."""
    return bool(options.lines or options.fold or options.lines_as)
