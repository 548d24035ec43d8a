"""The files that a program writes, assembled from its records and put into a folder."""

from __future__ import annotations

import contextlib
import os
import stat
import struct
from collections.abc import Iterator, Sequence

from ..files import Folder, beside_name, is_same
from ..refusals import Refused, about, counted
from .output_records import BYTES, NAME, REMOVED, SIZE, Record

# Of all files of a run, in bytes: a place far behind the end of a file makes it long.
MOST_WRITTEN = 1 << 28
MOST_FILES = 1000
MOST_LINES = 20


class Written:
    """A file of one rank: the name by which the program knows it, and its bytes."""

    def __init__(self, rank: int, name: bytes) -> None:
        self.rank, self.name = rank, name
        self.content = bytearray()
        # Whether it was begun anew, and not with what it had.
        self.is_anew = False

    @property
    def parts(self) -> tuple[str, ...]:
        """The names of the folders that lead to it, and its own, below the folder where files go. Nothing if it would not be below that, or
        has no name that a file can have."""
        first, *names = below_here(os.fsdecode(self.name)).split("/")
        found: list[str] = []
        for name in (first, *names):
            if name == ".." and not found:
                return ()
            if name == "..":
                found.pop()
            elif name not in ("", "."):
                found.append(name)
        is_outside = not first and bool(names)
        return () if is_outside or (first, *names)[-1] in ("", ".", "..") or b"\0" in self.name else tuple(found)


class Files:
    """The files of a run, by their ranks and numbers, in the order in which they were first opened."""

    def __init__(self) -> None:
        self.files: dict[tuple[int, int], Written] = {}
        self.size = 0
        # Those that were put, by their paths.
        self.names: list[str] = []
        # Whether all was taken, and whether all that was put could be written.
        self.is_whole = self.is_put = True

    def take(self, record: Record) -> None:
        """Does what a record of a file tells."""
        words = struct.unpack_from("<II", record.content[:8].ljust(8, b"\0"))
        key = (record.rank, words[0])
        if record.kind == NAME:
            name = record.content[4:]
            if key in self.files:
                self.files[key].name = name
            elif len(self.files) < MOST_FILES:
                self.files[key] = Written(record.rank, name)
            else:
                self.is_whole = False
        elif record.kind == REMOVED:
            self.size -= len(self.files.pop(key, Written(0, b"")).content)
        elif key in self.files and record.kind in (BYTES, SIZE):
            place, content = words[1], record.content[8:]
            file = self.files[key].content
            end = place + len(content)
            if record.kind == SIZE:
                self.files[key].is_anew |= place == 0
                self.resize(file, place)
            elif self.resize(file, max(end, len(file))):
                file[place:end] = content

    def resize(self, file: bytearray, size: int) -> bool:
        """Gives a file so many bytes, new ones of which are 0, if there is room for them."""
        more = size - len(file)
        if self.size + more > MOST_WRITTEN:
            self.is_whole = False
            return False
        self.size += more
        if more > 0:
            file.extend(bytes(more))
        else:
            del file[size:]
        return True

    def writers(self) -> dict[str, int]:
        """The rank that wrote each file first, by the name by which it knows it."""
        return {file_name(it.name): it.rank for it in reversed(list(self.files.values()))}

    def put(self, folder: Folder, kept: dict[str, str], given: dict[bytes, bytes]) -> list[str]:
        """Puts the files below a folder, those of one name one behind another by their ranks. Nothing is put in the place of files that are
        kept, each with what it is. What ranks add to a file that was given stands behind it once. Lines of what is to be said of that."""
        lines: list[str] = []
        found: dict[tuple[str, ...], list[Written]] = {}
        for it in self.files.values():
            others = found.setdefault(it.parts, [])
            if not it.parts:
                lines.append(f"{file_name(it.name)} was not written: that is not a file below {folder.name}, where files go: use a name below it")
            elif any(other.rank == it.rank for other in others):
                lines.append(f"{file_name(it.name)} was not written: rank {it.rank} wrote {file_name(others[0].name)}, which is the same file")
            else:
                others.append(it)
        for parts, of_ranks in found.items():
            if not of_ranks:
                continue
            ranks = sorted(of_ranks, key=lambda it: it.rank)
            without_given(ranks[1:], given)
            try:
                lines += put_one(folder, parts, ranks, kept)
                self.names.append(os.path.normpath(os.path.join(folder.name, *parts)))
            except Refused as refused:
                lines.append(f"{refused} ({file_name(of_ranks[0].name)} was not written)")
                self.is_put = False
        self.is_put = self.is_put and sum(map(len, found.values())) == len(self.files)
        if not self.is_whole:
            lines.append(f"not everything was written: the limit of a run is {MOST_FILES} files and {MOST_WRITTEN} bytes")
        return lines[:MOST_LINES] + ([f"and {len(lines) - MOST_LINES} more such lines"] if len(lines) > MOST_LINES else [])


def below_here(name: str) -> str:
    """A path from / on as one from the current folder on, if it leads there."""
    with contextlib.suppress(OSError):
        here = os.path.join(os.getcwd(), "")
        return name[len(here) :] if name.startswith(here) else name
    return name


def file_name(name: bytes) -> str:
    """A name as it is told."""
    return os.fsdecode(name)


def without_given(files: list[Written], given: dict[bytes, bytes]) -> None:
    """Takes from files what they begin with because they were given so, and have been added to."""
    for it in files:
        old = next((content for name, content in given.items() if ends_alike(name, it.name)), b"")
        if not it.is_anew and it.content.startswith(old):
            del it.content[: len(old)]


def ends_alike(one: bytes, other: bytes) -> bool:
    """Whether one of two paths is the end of the other."""
    short, long = sorted((os.path.normpath(one), os.path.normpath(other)), key=len)
    return long == short or long.endswith(b"/" + short)


@contextlib.contextmanager
def opened(folder: Folder, names: Sequence[str]) -> Iterator[int]:
    """A folder below another one, which is made if it is missing. A link on the way is refused, and not followed."""
    place, path = os.open(os.curdir, os.O_RDONLY | os.O_DIRECTORY, dir_fd=folder.number), folder.name
    try:
        for name in names:
            path = os.path.join(path, name)
            with contextlib.suppress(FileExistsError):
                os.mkdir(name, dir_fd=place)
            if os.path.islink(path):
                raise Refused(f"{path}: it is a symbolic link, which is not followed")
            above, place = place, os.open(name, os.O_RDONLY | os.O_DIRECTORY | os.O_NOFOLLOW, dir_fd=place)
            os.close(above)
        yield place
    finally:
        os.close(place)


def keep_mode(number: int, name: str, place: int) -> None:
    """Gives a file the rights of the one whose place it takes, if that is a file of this user's, and no link: another user would choose who
    may write it."""
    with contextlib.suppress(OSError):
        before = os.stat(name, dir_fd=place, follow_symlinks=False)
        if stat.S_ISREG(before.st_mode) and before.st_uid == os.geteuid():
            os.fchmod(number, stat.S_IMODE(before.st_mode) & 0o777)


def put_one(folder: Folder, names: tuple[str, ...], parts: list[Written], kept: dict[str, str]) -> list[str]:
    """Puts a file below a folder, in the place of one of its name: a link there is replaced, and not followed."""
    target = os.path.normpath(os.path.join(folder.name, *names))
    for other, what in kept.items():
        if is_same(target, other):
            raise Refused(f"{target} stays as it is: {what} {other}")
    beside = beside_name()
    with about(target), opened(folder, names[:-1]) as place:
        try:
            with os.fdopen(os.open(beside, os.O_WRONLY | os.O_CREAT | os.O_EXCL, 0o666, dir_fd=place), "wb") as file:
                file.writelines(bytes(it.content) for it in parts)
                keep_mode(file.fileno(), names[-1], place)
            os.replace(beside, names[-1], src_dir_fd=place, dst_dir_fd=place)
        finally:
            with contextlib.suppress(OSError):
                os.unlink(beside, dir_fd=place)
    if len(parts) == 1:
        return []
    ranks = [it.rank for it in parts]
    named = f"{min(ranks)} to {max(ranks)}" if ranks == list(range(min(ranks), max(ranks) + 1)) else ", ".join(map(str, ranks))
    return [f"{target} was written by {counted(len(ranks), 'rank')}, {named}: their parts follow one another"]
