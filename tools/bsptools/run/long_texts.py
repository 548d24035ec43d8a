"""C sources that may compute in a type that has 32 bits here and 64 elsewhere."""

from __future__ import annotations

import re

# What has no words of a program in it. A piece without an end matches too, with an empty end: else each of very many would be looked through up
# to the end of the text.
LEFT_OUT = re.compile(r'//[^\n]*|/\*.*?(\*/|\Z)|"(?:\\.|[^"\\\n])*("?)|\'(?:\\.|[^\'\\\n])\'', re.DOTALL)
# A `long` that is none here, since it has 64 bits or a point.
OTHERS = r"\blong(?:\s+(?:unsigned|signed|int))*\s+(?:long|double)\b"
# What makes a `long`, or what is one elsewhere: types, numbers, and functions of C and POSIX.
LONGS = (
    r"\blong\b|\b(?:0[xX][\da-fA-F]+|\d+)(?:[uU]?[lL]|[lL][uU])\b|\bU?LONG_M(?:AX|IN)\b"
    r"|\b(?:s?size|ptrdiff|intptr|off|time|clock|int_fast16|int_fast32)_t\b"
    r"|\b(?:atol|strtoul?|labs|ldiv|ftello?|random|[lmnj]rand48|lrintf?|lroundf?|clock|time)\s*\("
)


def has_longs(text: str) -> bool:
    """Whether a text in C may compute in a type that has 32 bits here and 64 elsewhere."""
    # A piece without an end is none of C, as in a text of C++ of several lines: it stays.
    words = LEFT_OUT.sub(lambda it: it[0] if "" in it.groups() else " ", text)
    return re.search(LONGS, re.sub(OTHERS, "", words)) is not None
