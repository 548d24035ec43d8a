"""The origin of a picture, as its file records it: the command that drew it, and its input."""

from __future__ import annotations

import json
from collections.abc import Sequence

from .. import VERSION
from ..files import named_content
from ..limits import MOST_TABLE
from ..refusals import Refused
from .picture_options import used


def settings(words: Sequence[str], names: Sequence[str]) -> dict[str, list[str]]:
    """The values of these options in a command line, as they were typed. Each option has one value."""
    found: dict[str, list[str]] = {}
    for word, value in zip(words, [*words[1:], ""]):
        name, equals, own = word.partition("=")
        if name in names:
            found.setdefault(name[2:], []).append(own if equals else value)
    return found


def told(picture: str, words: Sequence[str], source: str, name: str, digest: str) -> str:
    """A line of JSON: the tool, the picture and its settings, and the source by its name and digest, with the record of a table if that is
    beside it and is still its record."""
    found: dict[str, object] = {"drawn by": f"bspplot {VERSION}", "picture": picture, "settings": settings(words, used(picture))}
    found["source"] = {"name": name, "sha256": digest}
    return json.dumps({**found, **record_beside(source, digest)})


def record_beside(source: str, digest: str) -> dict[str, object]:
    """The record beside a table of this digest, if there is one of it."""
    try:
        record = json.loads(named_content(f"{source}.json", MOST_TABLE))
        return {"record": record} if record["table"]["sha256"] == digest else {}
    except (Refused, ValueError, KeyError, TypeError, RecursionError):
        return {}
