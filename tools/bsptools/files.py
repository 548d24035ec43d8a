"""Files that the tools read, and replace as a whole; never an input."""

from __future__ import annotations

import codecs
import contextlib
import errno
import os
import stat
from collections.abc import Iterable, Iterator
from typing import IO, NamedTuple

from . import own_folders
from .refusals import LONE, Refused, Unfit, about

# So many links Linux follows, one after another.
MOST_LINKS = 40
# Of a file that the tools run or trust later. Who else may read it is up to its user's umask.
OWN_MODE = 0o644
# renameat2(2): paths are from the current folder on, and two names are exchanged.
AT_FDCWD, RENAME_EXCHANGE = -100, 2
# The device of /dev/tty, and the first major number of terminals in windows.
OWN_TERMINAL, FIRST_PTS = os.makedev(5, 0), 136
GONE = "the current folder no longer exists"
# Where the files of the system are, which are no person's, and may differ from host to host; and a folder there in which people's are.
OF_SYSTEM, SHARED = ("/proc/", "/sys/", "/dev/"), "/dev/shm/"


class Folder(NamedTuple):
    """A folder where files go: its name, and its number since the run began. Another one, or a link, may have its name by the end."""

    name: str
    number: int

    @staticmethod
    def of(name: str) -> Folder:
        """The folder that has this name now. It stays open."""
        with about(name):
            return Folder(name, os.open(name, os.O_PATH | os.O_DIRECTORY))


def content_of(path: str | os.PathLike[str], most: int) -> bytes:
    """The bytes of a file, which are no more than so many, or a refusal that says why there are none. No more is read of one without an end."""
    with about(path), open(path, "rb") as file:
        return _bytes_of(file, path, most)


def text_content(path: str | os.PathLike[str], most: int) -> bytes:
    """The same of a text that a person may have edited, without the mark that some editors and spreadsheets put in front of UTF-8."""
    return without_mark(content_of(path, most))


def without_mark(content: bytes) -> bytes:
    """These bytes without that mark."""
    return content[len(codecs.BOM_UTF8) :] if content.startswith(codecs.BOM_UTF8) else content


def _bytes_of(file: IO[bytes], path: str | os.PathLike[str], most: int) -> bytes:
    content = file.read(most + 1)
    if len(content) > most:
        raise Refused(f"{os.fspath(path)} has more than {most} bytes")
    return content


def own_content(path: str | os.PathLike[str], most: int) -> bytes:
    """The same of a file in a folder of this user's own, which the tools have put there. A link is not followed, and no pipe is waited for."""
    return _ordinary(path, most, os.O_NOFOLLOW)


def believed_content(path: str | os.PathLike[str], most: int) -> bytes:
    """The same of a file that says what is to be run. One that belongs to another user, or that others may write, is refused: its folder may
    have been another one as it was looked at."""
    return _ordinary(path, most, os.O_NOFOLLOW, is_believed=True)


def named_content(path: str | os.PathLike[str], most: int) -> bytes:
    """The same of a file that another file names, and no person. A pipe or a device is refused, which may have no end, and a file of the
    system."""
    return _ordinary(path, most, is_named=True)


def is_of_system(path: str | os.PathLike[str]) -> bool:
    """Whether a path leads, perhaps by links, to a file of the system and no person's: it may have the environment, with passwords."""
    place = os.fsdecode(os.path.realpath(path))
    return place.startswith(OF_SYSTEM) and not place.startswith(SHARED)


def _ordinary(path: str | os.PathLike[str], most: int, flags: int = 0, is_believed: bool = False, is_named: bool = False) -> bytes:
    with about(path), os.fdopen(os.open(path, os.O_RDONLY | os.O_NONBLOCK | flags), "rb") as file:
        found = os.fstat(file.fileno())
        if not stat.S_ISREG(found.st_mode) or is_named and is_of_system(path):
            raise Refused(f"{os.fspath(path)} is not a regular file")
        if is_believed and (found.st_uid != os.geteuid() or found.st_mode & own_folders.OTHERS_WRITE):
            raise Refused(f"{os.fspath(path)} belongs to another user, or other users may write to it")
        return _bytes_of(file, path, most)


def whole(value: object, most: int = 1 << 128) -> int:
    """A whole number of a file, from 0 to the most that it can be: costs are sums of products, so that they may have many digits."""
    text = str(value)
    if not (text.isascii() and text.isdigit() and len(text) <= 40 and int(text) <= most):
        raise Unfit(f"{text[:40]!r} is not a whole number up to {most}")
    return int(text)


def is_text(name: str | os.PathLike[str]) -> bool:
    """Whether a name is in UTF-8. The emulator takes no other one, neither for a file nor for itself."""
    try:
        return bool(os.fsencode(name).decode())
    except UnicodeDecodeError:
        return False


@contextlib.contextmanager
def as_text(path: str) -> Iterator[str]:
    """A name in UTF-8 by which another process finds a file, also in a folder whose name is none: by what this process has open."""
    if is_text(path):
        yield path
        return
    folder, name = ("", path) if os.path.exists(path) else os.path.split(path)
    number = os.open(folder or path, os.O_PATH)
    try:
        yield os.path.join(f"/proc/{os.getpid()}/fd/{number}", name if folder else "").rstrip("/")
    finally:
        os.close(number)


@contextlib.contextmanager
def replaced(path: str | os.PathLike[str]) -> Iterator[str]:
    """A file to write, which takes the place of this one at the end of the block, so that this one is never there in part. If nothing
    is written, nothing is replaced.

    A link stays, and leads to the new file. What is not a regular file, as a pipe, is written to as it is. In a folder where others may rename
    what is there, the new file is written by its number: a link could have its name by then.
    """
    target, is_special = _own_target(path)
    # What is open in this process has a name there, and its link leads to no path.
    is_open = target.startswith("/proc/") and os.path.exists(path)
    if is_open or is_special:
        yield _name_elsewhere(os.fspath(path) if is_open else target)
        return
    folder = os.path.dirname(target)
    beside = os.path.join(folder, beside_name())
    with about(path):
        number = os.open(beside, os.O_RDONLY | os.O_CREAT | os.O_EXCL, 0o666)
    try:
        yield beside if own_folders.is_held(folder) and not own_folders.is_of_group(folder) else f"/proc/{os.getpid()}/fd/{number}"
        with about(path):
            _keep_mode(target, number)
            if os.fstat(number).st_size > 0:
                _expect_same(number, beside, path)
                os.replace(beside, target)
    finally:
        with contextlib.suppress(OSError):
            os.unlink(beside)
        os.close(number)


def _name_elsewhere(path: str) -> str:
    """The name by which another process opens what is no regular file. /dev/stdout and /dev/fd/63 are something else in each process, and
    what a pipe's link there leads to is no path."""
    for _ in range(MOST_LINKS):
        target = os.path.join(os.path.dirname(path), os.readlink(path)) if os.path.islink(path) else ""
        if not os.path.exists(target):
            break
        path = target
    if os.stat(path).st_rdev == OWN_TERMINAL and stat.S_ISCHR(os.stat(path).st_mode):
        return _terminal() or path
    return os.path.join(os.path.realpath(os.path.dirname(path)), os.path.basename(path))


def _terminal() -> str:
    """The name by which a process of another session opens this one's terminal, for which /dev/tty stands; nothing if it has none."""
    with contextlib.suppress(OSError, ValueError, IndexError), open("/proc/self/stat", encoding="ascii", errors="replace") as file:
        number = int(file.read().rpartition(")")[2].split()[4])
        major, minor = os.major(number), os.minor(number)
        names = (f"/dev/pts/{(major - FIRST_PTS) * 256 + minor}", f"/dev/tty{minor}", f"/dev/ttyS{minor - 64}", "/dev/console")
        return next((it for it in names if os.path.exists(it) and os.stat(it).st_rdev == number), "")
    return ""


def _expect_same(number: int, beside: str, path: str | os.PathLike[str]) -> None:
    """Refuses to give its name to a new file that has been replaced meanwhile."""
    if not os.path.samestat(os.fstat(number), os.lstat(beside)):
        raise Refused(f"{os.fspath(path)} was not written: another process has replaced {beside}")


def _own_target(path: str | os.PathLike[str]) -> tuple[str, bool]:
    """What a name leads to, and whether something is there that is no regular file. A link that another user has put where others may write may
    lead to a file of this user's, and a pipe of theirs may be such a link by the time it is opened: both are refused. So does Linux where a file
    is opened in a folder with the sticky bit, but not where one is replaced. Each link is opened once, because another one may have its name a
    moment later."""
    place, is_special = os.fspath(path), False
    for _ in range(MOST_LINKS):
        folder = os.path.dirname(place) or os.curdir
        try:
            number = os.open(place, os.O_PATH | os.O_NOFOLLOW)
        except OSError:
            break
        try:
            found = os.fstat(number)
            _expect_own(path, found, folder)
            if not stat.S_ISLNK(found.st_mode):
                is_special = not stat.S_ISREG(found.st_mode)
                break
            place = os.path.join(folder, os.readlink("", dir_fd=number))
        finally:
            os.close(number)
    return os.path.join(os.path.realpath(os.path.dirname(place)), os.path.basename(place)), is_special


def _expect_own(path: str | os.PathLike[str], found: os.stat_result, folder: str) -> None:
    """Refuses a link of another user, who chooses what is written by it; root and the owner of / are none. Refuses a pipe of another user in a
    folder where others may write, unless it is the folder's owner's."""
    above, known = os.stat(folder), {0, os.geteuid(), os.stat("/").st_uid}
    is_plain = stat.S_ISREG(found.st_mode) or stat.S_ISDIR(found.st_mode)
    if stat.S_ISLNK(found.st_mode):
        if found.st_uid not in known:
            raise Refused(f"{os.fspath(path)} is a symbolic link of another user: give another name")
    elif not is_plain and above.st_mode & own_folders.OTHERS_WRITE and found.st_uid not in known | {above.st_uid}:
        raise Refused(f"{os.fspath(path)} is a pipe of another user: give another name")


def _keep_mode(path: str, new: int) -> None:
    """Gives a new file the rights of the one whose place it takes, if that is this user's too: another one would choose who may write it.
    Rights that are right already are left alone: a file system without rights, such as a USB stick's, refuses to set any."""
    with contextlib.suppress(FileNotFoundError):
        found = os.stat(path)
        wanted = stat.S_IMODE(found.st_mode) & 0o777
        if found.st_uid == os.geteuid() and stat.S_IMODE(os.fstat(new).st_mode) != wanted:
            os.fchmod(new, wanted)


def beside_name() -> str:
    """A new name of a hidden file, under which another one is written before it gets its own."""
    return f".bsp-{os.getpid()}-{os.urandom(4).hex()}"


def put(path: str | os.PathLike[str], content: bytes | str, mode: int = OWN_MODE) -> None:
    """Writes a whole file in a folder of this user's own, which none but this user may write, whatever the umask. What has its name there is
    replaced, and no link is followed."""
    beside = os.path.join(os.path.dirname(path), beside_name())
    with _about_own(path):
        try:
            with open(beside, "xb", opener=lambda name, flags: os.open(name, flags, mode)) as file:
                file.write(content.encode(errors=LONE) if isinstance(content, str) else content)
            os.replace(beside, path)
        finally:
            with contextlib.suppress(OSError):
                os.unlink(beside)


def remove(path: str | os.PathLike[str]) -> None:
    """Removes a file in a folder of this user's own, if it is there."""
    with _about_own(path), contextlib.suppress(FileNotFoundError):
        os.unlink(path)


@contextlib.contextmanager
def _about_own(path: str | os.PathLike[str]) -> Iterator[None]:
    """As `about`, of a file that a tool keeps: the tool does not remove a folder that has the name of one."""
    try:
        with about(path):
            yield
    except Refused:
        if os.path.isdir(path):
            raise Refused(f"{os.fspath(path)} is a folder, but a tool keeps a file of this name: remove the folder") from None
        raise


def write(path: str | os.PathLike[str], content: str | bytes) -> None:
    """Writes a whole file."""
    with replaced(path) as written, about(path), open(written, "wb") as file:
        file.write(content.encode(errors=LONE) if isinstance(content, str) else content)


def exchange(new: str | os.PathLike[str], old: str | os.PathLike[str]) -> None:
    """Gives two folders each other's names in one step, so that a process that is killed leaves a whole one under each name."""
    # Most tools do without it.
    import ctypes

    libc = ctypes.CDLL(None, use_errno=True)
    words = [ctypes.c_int(AT_FDCWD), os.fsencode(new), ctypes.c_int(AT_FDCWD), os.fsencode(old), ctypes.c_uint(RENAME_EXCHANGE)]
    if libc.renameat2(*words) != 0:
        raise OSError(ctypes.get_errno(), os.strerror(ctypes.get_errno()), os.fspath(old))


def rename_new(made: str | os.PathLike[str], path: str | os.PathLike[str]) -> None:
    """Gives a new folder its name, which nothing may have: a folder without files would be replaced."""
    if os.path.lexists(path):
        raise FileExistsError(errno.EEXIST, os.strerror(errno.EEXIST), os.fspath(path))
    os.rename(made, path)


@contextlib.contextmanager
def opened_folder(folder: str | os.PathLike[str], above: int | None = None) -> Iterator[int]:
    """The number of an open folder. From one that is open already no link leads to it."""
    number = os.open(folder, os.O_PATH | os.O_DIRECTORY | (0 if above is None else os.O_NOFOLLOW), dir_fd=above)
    try:
        yield number
    finally:
        os.close(number)


def is_here() -> bool:
    """Whether the folder is there that this was started in."""
    try:
        return bool(os.getcwd())
    except OSError:
        return False


def absolute(path: str) -> str:
    """A path from the topmost folder on; a refusal if it is one from the folder that this was started in, and that is gone."""
    if not os.path.isabs(path) and not is_here():
        raise Refused(f"{path}: {GONE}: give a path from / on, or start it elsewhere")
    return os.path.abspath(path)


def expect_apart(outputs: Iterable[str | None], inputs: Iterable[str | None]) -> None:
    """Refuses an output that is an input or another output, by whatever names. It is asked before anything is run or written."""
    read, written = list(filter(None, inputs)), list(filter(None, outputs))
    for i, output in enumerate(written):
        for other in filter(lambda it: is_same(output, it), read):
            raise Refused(f"{output} would be overwritten, but it is also read as {other}")
        for other in filter(lambda it: is_same(output, it), written[:i]):
            raise Refused(f"{output} would be written twice: it is also {other}")


def expect_writable(outputs: Iterable[str | None]) -> None:
    """Refuses an output that cannot be written. It is asked before anything is run; nothing is changed."""
    for output in filter(None, outputs):
        if os.path.isdir(output):
            raise Refused(f"{output}: {os.strerror(errno.EISDIR)}")
        with replaced(output):
            pass


def expect_ordinary(paths: Iterable[str], named_by: str) -> None:
    """Refuses files that another file names, and no person, if one is a pipe or a device, which may have no end, or a file of the system."""
    for path in paths:
        if os.path.exists(path) and (not os.path.isfile(path) or is_of_system(path)):
            raise Refused(f"{path}, which {named_by} names, is not a regular file")


def is_same(one: str, other: str) -> bool:
    """Whether two names are of one ordinary file, which need not be there yet."""
    try:
        return os.path.samefile(one, other) and os.path.isfile(one)
    except OSError:
        return os.path.realpath(one) == os.path.realpath(other)
