"""Links of pages, and files and folders that they name in backquotes."""

from __future__ import annotations

import fnmatch
import pathlib
import posixpath
import re
from typing import Iterator, List, Set

from pages.page import Page

LINK = re.compile(r"\]\(([^)\s]+)\)")
QUOTED = re.compile(r"`([^`]+)`")
# A name that stands for any, as in `crates/NAME`.
ANY_NAME = re.compile(r"\b[A-Z]+\b(?!\.)")
# What no clone has: it is built there.
BUILT = re.compile(r"(^|/)out(/|$)")


class Names:
    """The tracked files of a folder, with the folders that they are in."""

    def __init__(self, top: pathlib.Path, files: List[str]) -> None:
        self.top = top
        self.known: Set[str] = set(files)
        for name in files:
            self.known.update(str(folder) for folder in pathlib.PurePosixPath(name).parents)
        self.first = {name.split("/")[0] for name in files if "/" in name}

    def faults(self, page: Page) -> Iterator[str]:
        """A line for each link, file or folder of a page that is not there."""
        folder = posixpath.dirname(page.name)
        for number, line in enumerate(page.prose(), 1):
            where = f"{page.name}:{number}"
            for target in LINK.findall(QUOTED.sub("", line)):
                if not self._is_target(page, folder, target):
                    yield f"{where}: the link {target} leads nowhere"
            for quoted in QUOTED.findall(line):
                for word in quoted.split():
                    if not self._is_name(folder, word.strip(",;:")):
                        yield f"{where}: there is no {word}"

    def _is_target(self, page: Page, folder: str, target: str) -> bool:
        """Whether a link leads to the web, or to a tracked file and, if it names one, a heading there."""
        if re.match(r"[a-z]+:", target):
            return True
        path, _, anchor = target.partition("#")
        name = posixpath.normpath(posixpath.join(folder, path)) if path else page.name
        return name in self.known and (not anchor or anchor in headings((self.top / name).read_text(encoding="utf-8")))

    def _is_name(self, folder: str, word: str) -> bool:
        """Whether a word is no path of this repository, or one that is there."""
        is_here, name = word.startswith("./"), word[2:] if word.startswith("./") else word
        name = name.rstrip("/")
        is_path = name.split("/")[0] in self.first and "/" in name
        is_page = re.fullmatch(r"[A-Za-z]+\.md", name) is not None
        if not re.fullmatch(r"[\w./*+-]+", name) or BUILT.search(name) or not (is_here or is_path or is_page):
            return True
        pattern = ANY_NAME.sub("*", name) if is_path else name
        places = [pattern, posixpath.normpath(posixpath.join(folder, pattern))]
        return any(fnmatch.filter(self.known, place) for place in places)


def headings(text: str) -> Set[str]:
    """The anchors of a page's headings, as GitHub makes them."""
    found = re.findall(r"(?m)^#+ (.*)$", text)
    return {re.sub(r"[^\w\- ]", "", heading.lower()).replace(" ", "-") for heading in found}
