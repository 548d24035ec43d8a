"""The files that scripts/install puts below a prefix: their record, and changes that can be interrupted at any time.

The record is written before anything else. New files stand beside the old ones until all are there; then each gets its name. So what is
broken off before that leaves the installation of before, and what is killed in any place can be made again, and be taken away.

A name becomes this script's when its file gets it. So before files get their names, the record of the change lists the digest of each.
After a kill, only a file with just that content counts as installed. Another package may have put a file at such a name.
"""

from __future__ import annotations

import contextlib
import fcntl
import hashlib
import os
import pathlib
import re
import shutil
import signal
import stat
from collections.abc import Iterable, Iterator
from typing import IO

from . import children, files, own_folders
from .refusals import Refused

# What a new file is called, beside its place, until all are there.
FRONT, NEW = ".", ".bspemu-new"
# The bytes of a record, and the folders of a name in it. An installation has some 40,000 bytes, and 8 folders.
MOST_RECORD, MOST_FOLDERS = 1 << 20, 64
FOLDER_MODE, PROGRAM_MODE, FILE_MODE = 0o755, 0o755, 0o644
# A line of a change's record for a name that is not this script's yet: the digest of what gets the name, and the name.
PROMISE = re.compile(r"((?:file|link)=[0-9a-f]{64}) (.+)")
# The bytes of a file that are read at a time for its digest.
BLOCK = 1 << 20
EXISTS = "already exists, and this script did not install it"


class Tree:
    """What is below a prefix, as far as it was put there. `record` is where it is listed: folders, which end with a slash, and files."""

    def __init__(self, root: pathlib.Path, record: str) -> None:
        self.root, self.record = root, record
        # What is about to be made, where such a thing was broken off, or is under way.
        self.journal = record + ".changing"
        self.files: list[str] = []
        self.folders: list[str] = []
        self._made: list[str] = []
        # The names that are recorded, and for others the digests of what a change was about to put there.
        self._known: set[str] = set()
        self._promised: dict[str, set[str]] = {}
        self._is_finishing = False
        self._lock = -1

    # What was recorded.

    def recorded(self) -> list[str]:
        """What the record lists, and what a change that was broken off has made. A name that leads out of the prefix is refused."""
        names: list[str] = []
        promised: dict[str, set[str]] = {}
        for record in (self.record, self.journal):
            if (self.root / record).is_file():
                self._expect_below([record])
                names += files.named_content(self.root / record, MOST_RECORD).decode(errors="surrogateescape").splitlines()
        for promise in filter(None, map(PROMISE.fullmatch, names)):
            promised.setdefault(promise[2], set()).add(promise[1])
        names = [it for it in names if not PROMISE.fullmatch(it)]
        self._expect_below([*names, *promised])
        self._known = set(names)
        # Of those, only what is there counts. The others need not be kept.
        self._promised = {it: {digest(self.root / it)} & digests for it, digests in promised.items()}
        return list(dict.fromkeys([*names, *filter(self._promised.get, self._promised)]))

    def _is_own(self, name: str) -> bool:
        """Whether what has a name now is recorded, or is what a change that was broken off has put there."""
        return name in self._known or name in self._promised and digest(self.root / name) in self._promised[name]

    def _expect_below(self, names: Iterable[str]) -> None:
        """Refuses names that lead out of the prefix, by themselves or by a link on the way. Folders above it may be named."""
        top = os.path.realpath(self.root)
        known: dict[str, bool] = {}
        own: set[str] = set()
        for name in names:
            folder, _, last = name.rstrip("/").rpartition("/")
            words = {*folder.split("/"), last}
            if name.endswith("/") and words <= {"", ".", ".."} and not name.startswith("/"):
                continue
            if name.count("/") > MOST_FOLDERS:
                raise Refused(f"{self.root / self.record} names a file in more than {MOST_FOLDERS} folders: remove the line of {name[:40]}..")
            is_below = not name.startswith("/") and ".." not in words and last not in ("", ".") and "\0" not in name
            if not is_below:
                raise Refused(f"{self.root / self.record} names {name}, which is not below {self.root}: remove that line")
            if folder not in known:
                self._expect_own(folder, own)
                known[folder] = os.path.commonpath([top, os.path.realpath(self.root / folder)]) == top
            if not known[folder]:
                raise Refused(f"{self.root / folder} leads out of {self.root} by a link: put a folder there, or name another prefix")

    def _expect_own(self, folder: str, known: set[str]) -> None:
        """Refuses a folder of another user or where all may write, from the prefix on: after a look at it, a link could take its place. So it
        could in what is above a new prefix, unless that has the sticky bit. Each folder is looked at once."""
        above = next(filter(os.path.exists, (self.root, *self.root.parents)))
        if above != self.root and not own_folders.is_held(above):
            raise Refused(f"other users may rename files in {above}: do this as its owner, or give a folder of yours by --prefix")
        while folder not in known:
            known.add(folder)
            it, folder = folder, os.path.dirname(folder)
            path = os.path.normpath(self.root / it)
            try:
                found = os.stat(path)
            except (FileNotFoundError, NotADirectoryError):
                continue
            # Root may write anywhere. A group that may write into a prefix, as Debian's staff, is trusted.
            if found.st_uid not in (0, os.geteuid()):
                raise Refused(f"{path} belongs to another user: do this as its owner, or give a folder of yours by --prefix")
            if found.st_mode & stat.S_IWOTH:
                raise Refused(f"{path} is a folder that all users may write to: change that, or give a folder of yours by --prefix")

    def expect_room(self, names: Iterable[str]) -> None:
        """Refuses to write over a file that is there and is not recorded, and over a folder; and a name that the record cannot have in one
        line, a part of which would be taken for a file of somebody else."""
        known = set(self.recorded())
        self._expect_below(names)
        if not self.root.exists():
            own_folders.tell_of_others_above(next(filter(os.path.exists, self.root.parents)))
        for name in sorted(names):
            if name.splitlines() != [name]:
                raise Refused(f"{name!r} has more than one line, and the record of what is installed has a line for each file: rename it")
            path = self.root / name
            if os.path.lexists(path) and (name not in known or path.is_dir() and not path.is_symlink()):
                raise Refused(f"{path} {EXISTS}")

    # Changes.

    @contextlib.contextmanager
    def changing(self, names: Iterable[str]) -> Iterator[None]:
        """A block in which files of these names are put there. At its end they replace what was there before; what breaks it off leaves
        that as it was."""
        self.files = sorted(names)
        has_journal = os.path.lexists(self.root / self.journal)
        known = self.recorded()
        try:
            self._begin(known)
            yield
            self._finish(known)
        except BaseException:
            with contextlib.suppress(OSError):
                self._give_up(has_journal)
            raise
        finally:
            self._unlock()

    def put(self, name: str, source: pathlib.Path) -> None:
        """Copies a file, which all may read; and start, where its source may be started."""
        with open(source, "rb") as given, self._opened(name, PROGRAM_MODE if os.fstat(given.fileno()).st_mode & stat.S_IXUSR else FILE_MODE) as file:
            shutil.copyfileobj(given, file)

    def write(self, name: str, text: str) -> None:
        """Writes a file."""
        with self._opened(name, FILE_MODE) as file:
            file.write(text.encode(errors="surrogateescape"))

    def link(self, name: str, target: str) -> None:
        """Makes a symbolic link to another name of the tree, which goes wherever the tree goes."""
        self._make_folders(name)
        # A signal that comes between these would leave the link.
        with children.put_off():
            os.symlink(os.path.relpath(target, os.path.dirname(name)), self._place(name))
            self._made.append(name)

    def _begin(self, known: list[str]) -> None:
        """Lists what is about to be made beside what is there, and clears away what an earlier change left beside its place."""
        self._make_folders(self.record)
        self._take_lock()
        for name in filter(is_new, known):
            (self.root / name).unlink(missing_ok=True)
        plain, promises = [it for it in known if it in self._known], promises_of(self._promised)
        missing = [it for name in self.files for it in self._folders_of(name) if not os.path.isdir(self.root / it)]
        folders = [it for it in known if it.endswith("/")]
        new = map(new_name, [*self.files, self.record, self.journal])
        self.folders = [it for it in dict.fromkeys([*folders, *self.folders, *missing])]
        (self.root / new_name(self.journal)).unlink(missing_ok=True)
        self._list([*self.folders, *plain, *new, *promises])

    def _list(self, lines: Iterable[str]) -> None:
        """Replaces the record of the change."""
        self.write(self.journal, "".join(f"{it}\n" for it in dict.fromkeys(lines)))
        os.replace(self._place(self.journal), self.root / self.journal)
        self._made.remove(self.journal)

    def _promise(self, names: Iterable[str]) -> None:
        """Lists what is about to get its name, and looks once more whether another package has put something there meanwhile."""
        listed = files.named_content(self.root / self.journal, MOST_RECORD).decode(errors="surrogateescape").splitlines()
        self._list([*listed, *promises_of({it: {digest(self._place(it))} for it in names if it not in self._known})])
        self.expect_room(names)

    def _give_name(self, name: str) -> None:
        """Gives a new file its name. What another package has put there since the last look is not replaced."""
        place, path = self._place(name), self.root / name
        if self._is_own(name):
            os.replace(place, path)
            return
        try:
            os.link(place, path, follow_symlinks=False)
        except FileExistsError as error:
            raise Refused(f"{path} {EXISTS}") from error
        except OSError as error:
            # Some file systems have no hard links.
            if os.path.lexists(path):
                raise Refused(f"{path} {EXISTS}") from error
            os.replace(place, path)
        else:
            place.unlink()

    def _finish(self, known: list[str]) -> None:
        """Gives all files their names, takes away what the installation of before had more, and keeps the record."""
        made = [it for it in self.files if it in self._made]
        folders = [it for it in self.folders if is_above(it) or any(name.startswith(it) for name in (*made, self.record))]
        self.write(self.record, "".join(f"{it}\n" for it in [*folders, *made, self.record]))
        self._promise(made)
        mask = signal.pthread_sigmask(signal.SIG_BLOCK, {signal.SIGINT, *children.SIGNALS})
        self._is_finishing = True
        try:
            for name in made:
                self._give_name(name)
            more = {it for it in known if not is_new(it) and self._is_own(it)}
            self._take_away(more.difference(made, folders, [self.record, self.journal]))
            os.replace(self._place(self.record), self.root / self.record)
            (self.root / self.journal).unlink()
        finally:
            signal.pthread_sigmask(signal.SIG_SETMASK, mask)

    def _give_up(self, has_journal: bool) -> None:
        """Takes away what was put beside its place. What was there before is as it was. A change that was almost made stays listed."""
        for name in self._made:
            self._place(name).unlink(missing_ok=True)
        if not has_journal and not self._is_finishing:
            (self.root / self.journal).unlink(missing_ok=True)
            self._remove_folders(self.folders)

    def remove(self) -> bool:
        """Takes away what the record lists, but folders that have something else. Answers whether there was a record, which goes last."""
        names = self.recorded()
        if not names:
            # What is killed just as it begins leaves this.
            names = [new_name(self.journal), f"{os.path.dirname(self.record)}/"]
            if not os.path.lexists(self.root / names[0]):
                return False
        self._take_lock()
        try:
            records = [self.record, self.journal]
            self._take_away(set(names).difference(records))
            for name in (*map(new_name, records), *records):
                (self.root / name).unlink(missing_ok=True)
            self._remove_folders(names)
        finally:
            self._unlock()
        return True

    def _take_away(self, names: Iterable[str]) -> None:
        """Takes files away, and folders that are empty then."""
        for name in names:
            if not name.endswith("/"):
                (self.root / name).unlink(missing_ok=True)
        self._remove_folders(names)

    def _remove_folders(self, names: Iterable[str]) -> None:
        """Takes folders away that are empty, the lowest first: above the prefix there are `./`, `../` and so on."""
        for name in sorted(names, key=lambda it: (is_above(it), len(it) if is_above(it) else -it.count("/"))):
            folder = os.path.normpath(self.root / name)
            if name.endswith("/") and os.path.isdir(folder) and not os.path.islink(folder) and not os.listdir(folder):
                os.rmdir(folder)

    # Files and folders.

    def _place(self, name: str) -> pathlib.Path:
        """Where a new file is, until it gets its name."""
        return self.root / new_name(name)

    @contextlib.contextmanager
    def _opened(self, name: str, mode: int) -> Iterator[IO[bytes]]:
        """A new file."""
        self._make_folders(name)
        # A signal that comes between these would leave the file, which nothing lists then.
        with children.put_off():
            number = os.open(self._place(name), os.O_WRONLY | os.O_CREAT | os.O_EXCL | os.O_NOFOLLOW, mode)
            self._made.append(name)
        with os.fdopen(number, "wb") as file:
            os.fchmod(number, mode)
            yield file

    def _folders_of(self, name: str) -> list[str]:
        """The folders in which a file is, the topmost first, up to the prefix and above it, as a record names them."""
        return [f"{os.path.relpath(it, self.root)}/" for it in reversed((self.root / name).parents)]

    def _make_folders(self, name: str) -> None:
        """Makes the folders of a file, and notes those that were not there."""
        for folder in self._folders_of(name):
            path = os.path.normpath(self.root / folder)
            if not os.path.isdir(path):
                os.mkdir(path)
                os.chmod(path, FOLDER_MODE)
                self.folders += [folder] * (folder not in self.folders)

    def _take_lock(self) -> None:
        """Refuses to go on as another change is under way. Some file systems have no locks."""
        self._lock = os.open((self.root / self.record).parent, os.O_RDONLY | os.O_DIRECTORY)
        try:
            fcntl.flock(self._lock, fcntl.LOCK_EX | fcntl.LOCK_NB)
        except BlockingIOError as error:
            raise Refused(f"another scripts/install is running in {self.root}") from error
        except OSError:
            pass

    def _unlock(self) -> None:
        if self._lock >= 0:
            os.close(self._lock)
        self._lock = -1


def new_name(name: str) -> str:
    """The name of a new file, until it gets its own."""
    folder, last = os.path.split(name)
    return os.path.join(folder, f"{FRONT}{last}{NEW}")


def digest(path: pathlib.Path) -> str:
    """A digest of a file or of a link's target; nothing if it cannot be read, or is something else."""
    try:
        if path.is_symlink():
            return f"link={hashlib.sha256(os.fsencode(os.readlink(path))).hexdigest()}"
        # A pipe or a device may have no end.
        if not path.is_file():
            return ""
        found = hashlib.sha256()
        with os.fdopen(os.open(path, os.O_RDONLY | os.O_NOFOLLOW | os.O_NONBLOCK), "rb") as file:
            for block in iter(lambda: file.read(BLOCK), b""):
                found.update(block)
        return f"file={found.hexdigest()}"
    except OSError:
        return ""


def promises_of(digests: dict[str, set[str]]) -> list[str]:
    """The lines of a change's record for names, by the digests of what gets each."""
    return [f"{it} {name}" for name, them in digests.items() for it in sorted(them)]


def is_new(name: str) -> bool:
    """Whether that is such a name."""
    return name.endswith(NEW)


def is_above(name: str) -> bool:
    """Whether a recorded name is of the prefix, or of a folder above it."""
    return set(name.split("/")) <= {"", ".", ".."}
