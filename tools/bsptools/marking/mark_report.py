"""The marks of hand-ins as JUnit XML, which services for courses and for builds read."""

from __future__ import annotations

import re
from typing import List, Sequence
from xml.sax.saxutils import escape, quoteattr

from ..refusals import printable
from .marks import Check, Marks
from .sheet import Sheet, points_told

# What XML 1.0 has no way to spell.
UNSPELLED = re.compile("[^\t\n\r\x20-\ud7ff\ue000-\ufffd\U00010000-\U0010ffff]")
MOST_LINES = 60


def spelled(value: str) -> str:
    """A text, of which what XML cannot spell is spelled as elsewhere."""
    return UNSPELLED.sub(lambda it: printable(it[0]), value)


def as_junit(sheet: Sheet, found: Sequence[Marks]) -> str:
    """A suite for each hand-in, with a case for each thing that was looked at."""
    count = sum(len(it.checks) for it in found)
    failed = sum(not check.is_kept for it in found for check in it.checks)
    head = f'<testsuites name={quoteattr(spelled(sheet.title))} tests="{count}" failures="{failed}">'
    return "\n".join(['<?xml version="1.0" encoding="UTF-8"?>', head, *(suite(sheet, it) for it in found), "</testsuites>", ""])


def suite(sheet: Sheet, marks: Marks) -> str:
    """A hand-in."""
    failed = sum(not it.is_kept for it in marks.checks)
    points = f"{points_told(marks.points)} of {points_told(sheet.points)}"
    lines = [f'<testsuite name={quoteattr(spelled(marks.spelled))} tests="{len(marks.checks)}" failures="{failed}">']
    properties = f'<property name="points" value="{points}"/><property name="verdict" value={quoteattr(marks.verdict)}/>'
    lines.append(f"<properties>{properties}</properties>")
    return "\n".join([*lines, *(case(marks, it) for it in marks.checks), "</testsuite>"])


def case(marks: Marks, check: Check) -> str:
    """One thing that was looked at."""
    name = f"{check.name} ({points_told(check.points)} of {points_told(check.of)})" if check.of else check.name
    head = f"<testcase classname={quoteattr(spelled(marks.spelled))} name={quoteattr(spelled(name))}"
    if check.is_kept:
        return f"{head}/>"
    lines: List[str] = [check.fault, *check.more[:MOST_LINES]]
    kind = quoteattr(check.verdict or "not looked at")
    body = escape(spelled("\n".join(lines)))
    return f"{head}><failure message={quoteattr(spelled(check.fault))} type={kind}>{body}</failure></testcase>"
