"""The files that a program is given by `--file` and `--files`."""

from __future__ import annotations

import argparse
import contextlib
import os
import re
import stat

from .. import limits
from ..files import OF_SYSTEM, content_of, is_of_system
from ..refusals import Refused, about

# Of a folder that is given.
MOST_FILES = 1000
# Files of one form of name that are given together, and their bytes.
MOST_TOGETHER, MOST_BYTES = 256, 1 << 22


def given_files(options: argparse.Namespace) -> list[tuple[bytes, bytes]]:
    """Files, each with its name. Those behind what fills an input are not read. Words of ARGS that are files are given as they stand."""
    most = limits.of(options.large).given
    names = list(dict.fromkeys([*options.file, *(it for folder in options.files for it in files_of(folder)), *options.found]))
    found, size = [], 0
    for name in names:
        content = content_of(name, most)
        size += len(content)
        expect_fits(size, most)
        found.append((os.fsencode(told_names(options).get(name, name)), content))
    for word in dict.fromkeys(options.args):
        if word not in names and is_given(word) and size + os.path.getsize(word) <= most:
            content = content_of(word, most)
            size += len(content)
            found.append((os.fsencode(word), content))
    return found


def told_names(options: argparse.Namespace) -> dict[str, str]:
    """The name by which a program knows each file that the user has given, by the file's path: the last part alone, so that the program may name
    it in any folder. Files with the same last part keep their paths."""
    paths = dict.fromkeys([*options.file, *(it for folder in options.files for it in files_of(folder))])
    last = [os.path.basename(it) for it in paths]
    return {it: name if last.count(name) == 1 else it for it, name in zip(paths, last)}


def expect_fits(size: int, most: int) -> None:
    """Refuses an input that is too long, with what stands in front of it."""
    if size > most:
        more = f"; with {limits.OPTION} they may have {limits.LARGE.given}" if most < limits.LARGE.given else ""
        raise Refused(f"input, arguments and files have more than {most} bytes{more}")


def given_names(options: argparse.Namespace) -> list[str]:
    """The files that a program is given."""
    return [*options.file, *options.found, *(it for folder in options.files for it in files_of(folder)), *filter(is_given, options.args)]


def files_read(options: argparse.Namespace) -> list[str]:
    """All files that a run reads: the program, with more sources of it, its input, accepted pairs of lines, and what it is given."""
    names = [options.program, *filter(None, [options.input, options.accept]), *options.file, *filter(is_given, options.args)]
    return [*names, *(it for folder in options.files for it in files_of(folder))]


def is_given(name: str) -> bool:
    """Whether a name that stands among others is that of a file which a program gets: no link to a file of the system."""
    return os.path.isfile(name) and (not is_of_system(name) or os.path.abspath(name).startswith(OF_SYSTEM))


def is_file(name: str) -> bool:
    """Whether a name is that of a file that can be given though nobody asked for that."""
    with contextlib.suppress(OSError, ValueError):
        found = os.stat(name)
        return stat.S_ISREG(found.st_mode) and found.st_size <= limits.MOST_INPUT and not is_of_system(name) and os.access(name, os.R_OK)
    return False


def with_others(name: str) -> list[str]:
    """A name, and those beside it that differ in numbers alone, as part1.txt and part2.txt: a program that reads one of them reads more."""
    folder, last = os.path.split(name)
    if not re.search(r"\d", last):
        return [name]
    form = re.compile(re.sub(r"\d+", r"\\d+", re.escape(last)))
    with contextlib.suppress(OSError):
        others = sorted(it for it in os.listdir(folder or ".") if it != last and form.fullmatch(it))
        found = [it for it in (os.path.join(folder, other) for other in others[:MOST_TOGETHER]) if is_file(it)]
        return [name, *(found if sum(map(os.path.getsize, found)) <= MOST_BYTES else [])]
    return [name]


def files_of(folder: str) -> list[str]:
    """The files of a folder, and none of those below it."""
    with about(folder), os.scandir(folder) as entries:
        # A link may lead nowhere, or to itself.
        names = sorted(it.path for it in entries if is_given(it.path))
    if len(names) > MOST_FILES:
        raise Refused(f"{folder} has {len(names)} files, and --files gives {MOST_FILES} at most: give those that the program reads by --file")
    return names


def outputs_of(options: argparse.Namespace) -> list[str]:
    """The files that bsprun itself writes by these options. A program is not to forge them."""
    found = [options.report, options.profile, options.page, options.accept_all, *(path for _, path in options.lines_as)]
    return [it for it in found if it is not None and it != "-"]
