"""Rules for the English of pages: no sentence of more than 40 words, and no phrases that were translated word by word."""

from __future__ import annotations

import re
from typing import Iterator, List

MOST_WORDS = 40
# Each phrase, with what to write instead.
PHRASES = {
    r"none but": "only",
    r"dear(er|est)?": "expensive",
    r"of which one": "which",
    r"in the place of": "instead of",
    r"anew": "again",
    r"(stands?|stood) behind": "comes after",
}
# A page may have a phrase in the line after this one.
ALLOWED = "<!-- allow a phrase -->"
FENCE, ITEM = re.compile(r"\s*```"), re.compile(r"^\s*([-*]|\d+\.)\s+")
END = re.compile(r"(?<=[.!?:;)])\s+(?=[A-Z0-9\"(\[*]|[a-z]\b)")


def blocks(text: str) -> Iterator[str]:
    """The paragraphs and items of a page, each as one line, without code, tables, headings and comments."""
    found: List[str] = []
    is_code = False
    for line in [*text.splitlines(), ""]:
        if FENCE.match(line):
            is_code = not is_code
        is_part = not is_code and bool(line.strip()) and not line.startswith(("|", "#", "<!--")) and not FENCE.match(line)
        if found and (not is_part or ITEM.match(line)):
            yield " ".join(found)
            found = []
        if is_part:
            found.append(ITEM.sub("", line).strip())


def faults(name: str, text: str) -> List[str]:
    """What is wrong with a page, a line for each fault."""
    found = []
    for block in blocks(text):
        for sentence in END.split(re.sub(r"`[^`]*`", "Code", block)):
            words = len(re.findall(r"[A-Za-z0-9'’-]+", sentence))
            if words > MOST_WORDS:
                found.append(f"{name}: a sentence of {words} words: {sentence[:70]}..\n")
    lines, is_code = text.splitlines(), False
    for number, line in enumerate(lines, 1):
        is_code ^= bool(FENCE.match(line))
        for phrase, instead in PHRASES.items():
            is_here = re.search(rf"\b{phrase}\b", re.sub(r"`[^`]*`", "", line), re.IGNORECASE)
            if is_here and not is_code and lines[number - 2] != ALLOWED:
                found.append(f"{name}:{number}: write {instead!r} instead of {is_here[0]!r}, or put {ALLOWED} in front of the line\n")
    return found
