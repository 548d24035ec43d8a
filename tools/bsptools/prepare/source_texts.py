"""The text of a program's sources and of the files that they include."""

from __future__ import annotations

import contextlib
import os
import re
from collections.abc import Iterator

from ..files import named_content
from ..limits import MOST_SOURCE
from ..refusals import Refused

INCLUDED = r'(?m)^[ \t]*#[ \t]*include[ \t]*["<]([^">\n]+)[">]'
MOST_SOURCES = 1000


def texts(sources: list[str], folders: list[str]) -> Iterator[str]:
    """These sources, and what they include from beside them or from these folders."""
    left = [os.path.abspath(it) for it in sources]
    seen = set(left)
    while left and len(seen) < MOST_SOURCES:
        path = left.pop()
        with contextlib.suppress(Refused):
            text = named_content(path, MOST_SOURCE).decode(errors="replace")
            yield text
            places = (os.path.dirname(path), *folders)
            named = [os.path.abspath(os.path.join(it, name)) for name in re.findall(INCLUDED, text) for it in places]
            more = [it for it in dict.fromkeys(named) if it not in seen and os.path.isfile(it)]
            seen.update(more)
            left += more
