"""How a tool reports what it cannot do: exit statuses, and lines without control characters."""

from __future__ import annotations

import codecs
import contextlib
import os
import shutil
import sys
from collections.abc import Iterable, Iterator


# Beside the first bsprun has the emulator's own statuses, of which a session of lines has that for want of memory; the last is that of a file
# which could not be written.
REFUSED, NO_MEMORY, UNWRITTEN = 1, 5, 6
# A fault of the tool itself, as sysexits.h has it, and the base of the statuses of signals.
BUG, BY_SIGNAL = 70, 128


# How text is encoded that may have come from a file. Names of files that are no text have halves of letters in it, which are bytes again.
# JSON can spell others, too, which stand for nothing.
LONE = "bsptools.lone"


def _lone(error: UnicodeError) -> tuple[bytes, int]:
    """What is written for halves of letters."""
    assert isinstance(error, UnicodeEncodeError)
    codes = map(ord, error.object[error.start : error.end])
    return b"".join(bytes([it - 0xDC00]) if 0xDC80 <= it <= 0xDCFF else b"?" for it in codes), error.end


codecs.register_error(LONE, _lone)


class Refused(Exception):
    """What the person gave cannot be done, and why: in a line, and in more of them where another program has said why."""


class Unfit(ValueError):
    """What a file has is not of the form that it begins with, and why: in words."""


def why_unfit(error: Exception) -> str:
    """What is wrong in a file. Of what Python finds by itself it would tell in words of its own."""
    if isinstance(error, Unfit):
        return str(error)
    if isinstance(error, KeyError):
        return f"there is no {error.args[0]!r}"
    place = [getattr(error, name, None) for name in ("lineno", "colno")]
    if all(place):
        return f"line {place[0]}, column {place[1]} is not JSON"
    return "it is nested too deeply" if isinstance(error, RecursionError) else "a value is missing, or has another form"


@contextlib.contextmanager
def about(path: str | os.PathLike[str]) -> Iterator[None]:
    """What the system refuses of a file is refused with the file's name."""
    try:
        yield
    except BrokenPipeError:
        raise
    except OSError as error:
        raise Refused(f"{os.fspath(path)}: {error.strerror or error}") from error


def printable(text: str) -> str:
    """A text of one line of which nothing is a command to a terminal: it may have come from a file, or be a file's name."""
    return "".join(it if it.isprintable() or it == "\t" else it.encode("unicode_escape", "replace").decode() for it in text)


def typed(words: Iterable[str]) -> str:
    """Words as one types them in bash. What cannot be printed, as the bytes of a name that is no text, is spelled by its bytes."""
    import shlex

    def spelled(letter: str) -> str:
        is_plain = letter.isprintable() and letter not in "\\'"
        return letter if is_plain else "".join(f"\\x{it:02x}" for it in letter.encode(errors=LONE))

    return " ".join(shlex.quote(it) if it.isprintable() else f"$'{''.join(map(spelled, it))}'" for it in words)


def counted(count: int, name: str) -> str:
    """A number of things by their name: `1 run`, `2 runs`."""
    return f"{count} {name}" + ("" if count == 1 else "s")


def numbered(ranks: list[int]) -> str:
    """Ranks in a few words: `rank 0`, `ranks 0 to 3 and 7`."""
    runs: list[tuple[int, int]] = []
    for rank in ranks:
        if runs and rank == runs[-1][1] + 1:
            runs[-1] = (runs[-1][0], rank)
        else:
            runs.append((rank, rank))
    texts = [it for first, last in runs for it in ([f"{first} to {last}"] if last > first + 1 else map(str, sorted({first, last})))]
    listed = " and ".join([", ".join(texts[:-1]), texts[-1]] if len(texts) > 1 else texts)
    return f"rank{'s' if len(ranks) > 1 else ''} {listed}"


def lines_of(said: bytes, *names: str) -> list[str]:
    """The lines that another program has said of files, whose names make none of their own."""
    text = said.decode(errors="replace")
    for name in names:
        text = text.replace(name, printable(name))
    return text.splitlines()


def tell(lines: Iterable[str], begin: str = "") -> None:
    """Writes lines on standard error, each behind the same beginning. A line feed in one is shown, so that no name makes a line of its own."""
    for line in lines:
        print(printable(begin + line), file=sys.stderr, flush=True)


def put(content: str | bytes | memoryview) -> None:
    """Writes to standard output all that there is up to here."""
    if isinstance(content, str):
        sys.stdout.write(content)
        sys.stdout.flush()
    else:
        sys.stdout.flush()
        sys.stdout.buffer.write(content)
        sys.stdout.buffer.flush()


def show(line: str, end: str = "") -> None:
    """Shows on standard error what is under way, in the place of what was shown before. Without a terminal what has an end is shown."""
    line = printable(line)
    if sys.stderr.isatty():
        shown = line if end else line[: shutil.get_terminal_size().columns - 1]
        print(f"\r\033[K{shown}", end=end, file=sys.stderr, flush=True)
    elif end:
        tell([line])
