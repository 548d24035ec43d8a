"""Pictures of a page: those that its commands draw into the folder `pictures`, compared with the page's, and those drawn by hand."""

from __future__ import annotations

import pathlib
import re
import xml.etree.ElementTree
from typing import Iterable, Iterator, List, Optional

from pages import tools
from pages.page import Page

FOLDER = "pictures"
# The name of folders with pictures that no command draws.
DRAWINGS = "drawings"
# What a picture that stands alone does not have: it would ask for other files.
ELSEWHERE = re.compile(r"href|url\(|@import|<script|<image")
ORIGIN = re.compile(rb"<metadata>.*?</metadata>", re.DOTALL)
SHOWN = re.compile(r"!\[[^\]]*\]\(([^)\s]+\.svg)\)")
# Pictures have the same bytes where the same library draws them.
DRAWN_BY = "3.6.3"
MOST_BYTES = 64_000


def skipped() -> Optional[str]:
    """Without what pictures cannot be compared here, if they cannot."""
    return None if tools.matplotlib_version() == DRAWN_BY else f"matplotlib {DRAWN_BY}"


def faults(page: Page, top: pathlib.Path) -> Iterator[str]:
    """A line for each picture that is not as drawn, and for each that was drawn or is stored and is not shown."""
    shown = {path.name: path for path in _shown(page) if path.parent.name != DRAWINGS}
    for name, stored in sorted(shown.items()):
        drawn = top / FOLDER / name
        if not drawn.exists():
            yield f"{page.name}: no command draws {name}"
        elif _seen(drawn) != _seen(stored):
            yield f"{page.name}: the commands draw another {name}"
        elif stored.stat().st_size > MOST_BYTES:
            yield f"{page.name}: {name} has more than {MOST_BYTES} bytes"
    places = [top / FOLDER, *{path.parent for path in shown.values()}]
    unshown = {path.name for place in places for path in place.glob("*.svg")} - set(shown)
    for name in sorted(unshown):
        yield f"{page.name}: {name} is not shown"


def _seen(path: pathlib.Path) -> bytes:
    """What one sees of a picture. Where it comes from has digests of the tools, which each change of them would change."""
    return ORIGIN.sub(b"", path.read_bytes())


def has_pictures(page: Page) -> bool:
    """Whether a page shows pictures that commands draw."""
    return any(path.parent.name != DRAWINGS for path in _shown(page))


def drawing_faults(page: Page) -> Iterator[str]:
    """A line for each picture of a page that was drawn by hand and does not stand alone, or says nothing to who cannot see it."""
    for path in _shown(page):
        if path.parent.name == DRAWINGS and path.exists():
            text = path.read_text(encoding="utf-8")
            try:
                names = {it.tag.rpartition("}")[2] for it in xml.etree.ElementTree.fromstring(text)}
            except xml.etree.ElementTree.ParseError as error:
                yield f"{page.name}: {path.name} is no picture: {error}"
                continue
            if ELSEWHERE.search(text):
                yield f"{page.name}: {path.name} asks for other files"
            if not {"title", "desc"} <= names or len(text) > MOST_BYTES:
                yield f"{page.name}: {path.name} has no title, no description, or more than {MOST_BYTES} bytes"


def unshown_drawings(pages: Iterable[Page], files: List[str], top: pathlib.Path) -> Iterator[str]:
    """A line for each of the files that was drawn by hand and stands on none of the pages."""
    shown = {path.resolve() for page in pages for path in _shown(page)}
    for name in files:
        if pathlib.PurePosixPath(name).parent.name == DRAWINGS and (top / name).resolve() not in shown:
            yield f"{name} is on no page"


def _shown(page: Page) -> List[pathlib.Path]:
    """The pictures that a page shows."""
    return [page.path.parent / name for name in SHOWN.findall("\n".join(page.prose()))]
