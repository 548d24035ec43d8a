"""Folders that belong to this user, and those in which the tools keep results from run to run.

What is run or taken for true later is written into no other folder, and taken from no other one: docs/contributing/folders.md has the rule.
"""

from __future__ import annotations

import contextlib
import errno
import os
import pathlib
import pwd
import stat
from collections.abc import Iterator, Sequence

from .refusals import Refused, tell

OTHERS_WRITE, OTHERS_MAY_WRITE = 0o022, "other users may write there"
# Where programs that the tools start look for settings, among which may be commands: gdb, git, GNU parallel and MPI do.
SETTINGS = ("HOME", "XDG_CONFIG_HOME", "XDG_DATA_HOME")
# The home of users that have none, in Debian.
NOWHERE = "/nonexistent"
# Who else may look into a folder that is made is up to its user's umask; none but this user may write there.
MODE, PRIVATE = 0o755, 0o700
# As many links as Linux follows on the way to a file.
MOST_LINKS = 40


def fault(path: str | os.PathLike[str]) -> str:
    """Why a folder is not this user's own: it is a link, belongs to another user, or others may write there. Nothing if it is one, or is
    not there."""
    try:
        found = os.lstat(path)
    except FileNotFoundError:
        return ""
    if stat.S_ISLNK(found.st_mode):
        return "it is a link"
    if not stat.S_ISDIR(found.st_mode):
        return "it is not a folder"
    if found.st_uid != os.geteuid():
        return "it belongs to another user"
    return OTHERS_MAY_WRITE if found.st_mode & OTHERS_WRITE else ""


def is_users(path: str | os.PathLike[str]) -> bool:
    """Whether a folder in which a person keeps programs, or one that a link leads to, belongs to this user, and not all may write there. A
    group may: many systems have one for each user, and its members write what this user does."""
    try:
        found = os.stat(path)
    except OSError:
        return False
    return stat.S_ISDIR(found.st_mode) and found.st_uid == os.geteuid() and not found.st_mode & stat.S_IWOTH


def is_held(path: str | os.PathLike[str]) -> bool:
    """Whether what this user makes in a folder keeps its place there: none but this user and root may rename it, and put something else in
    its place. The owner of a folder may, and so may all who write into one without the sticky bit."""
    try:
        found = os.stat(path)
    except OSError:
        return False
    return found.st_uid in (0, os.geteuid()) and not (found.st_mode & stat.S_IWOTH and not found.st_mode & stat.S_ISVTX)


def is_held_throughout(path: str) -> bool:
    """The same of all folders above it, too, and of links on the way: who may rename one of them may put another tree in its place. Those above
    the user's home are not looked at, since who may rename them has all that the user does, nor is the owner of / another user."""
    try:
        owners = (0, os.geteuid(), os.stat("/").st_uid)
        found = [os.lstat(it) for it in _on_the_way(os.path.join(os.getcwd(), path), _above(os.environ.get("HOME", "")))]
    except OSError:
        return False
    return all(it.st_uid in owners and (stat.S_ISLNK(it.st_mode) or it.st_mode & (stat.S_IWOTH | stat.S_ISVTX) != stat.S_IWOTH) for it in found)


def _above(path: str) -> set[str]:
    """The folders above a path, and above the one to which it leads."""
    return {str(it) for place in (path, os.path.realpath(path)) if os.path.isabs(place) for it in pathlib.Path(place).parents}


def _on_the_way(path: str, known: set[str]) -> Iterator[str]:
    """The folders and links on the way to a folder, itself among them, without those that are known."""
    at, rest, links = "/", path.split("/")[::-1], 0
    while rest:
        name = rest.pop()
        at = os.path.dirname(at) if name == ".." else os.path.join(at, name) if name not in ("", ".") else at
        if at not in known:
            yield at
        if os.path.islink(at):
            links += 1
            if links > MOST_LINKS:
                raise OSError(errno.ELOOP, os.strerror(errno.ELOOP))
            target = os.readlink(at)
            rest += target.split("/")[::-1]
            at = "/" if os.path.isabs(target) else os.path.dirname(at)


def is_of_group(path: str | os.PathLike[str]) -> bool:
    """Whether the members of a group may rename what is in a folder. They may be none but this user: such a folder is held, and what is made
    there only has to be written by its number."""
    mode = os.stat(path).st_mode
    return bool(mode & stat.S_IWGRP) and not mode & stat.S_ISVTX


def expect_held(path: str | os.PathLike[str]) -> None:
    """Refuses a folder in one where others may rename what is there: while it is filled, a link could take its place, and later another one."""
    above = next(filter(os.path.exists, pathlib.Path(path).absolute().parents))
    if not is_held(above):
        raise Refused(f"other users may rename files in {above}: give another folder")
    tell_of_others_above(above)


def tell_of_others_above(path: str | os.PathLike[str]) -> None:
    """Says if another user may rename a folder above one that was named. It is not refused, because on a cluster the folder of a group may
    belong to its head."""
    if not is_held_throughout(os.fspath(path)):
        tell([f"another user may rename a folder above {os.fspath(path)}, and put other files in its place: name another folder if you do not trust that user"])


def drop_homes_of_others() -> None:
    """Takes the folders of settings out of the environment that are not this user's or root's, or where all may write, as those of whoever
    called sudo. What the tools start would run commands from there; without HOME it finds this user's own."""
    for variable in SETTINGS:
        path = os.environ.get(variable, "")
        if path and not (os.path.isabs(path) and _is_of_user(path)):
            del os.environ[variable]


def homed(words: Sequence[str]) -> list[str]:
    """A command with HOME, for a program that looks for settings elsewhere without it: GNU parallel in /tmp, and Open MPI in the folder in
    which it is started. They may have commands of another user."""
    if os.environ.get("HOME"):
        return list(words)
    try:
        home = pwd.getpwuid(os.geteuid()).pw_dir
    except KeyError:
        home = ""
    return ["env", f"HOME={home if os.path.isabs(home) and _is_of_user(home) else NOWHERE}", *words]


def _is_of_user(path: str) -> bool:
    """Whether a folder, or the nearest one above it that is there, belongs to this user or to root, and not all may write there."""
    while not os.path.lexists(path):
        path = os.path.dirname(path)
    try:
        found = os.stat(path)
    except OSError:
        return False
    return found.st_uid in (0, os.geteuid()) and not found.st_mode & stat.S_IWOTH


def make(path: str | os.PathLike[str]) -> str:
    """Makes a folder below one that is this user's own, if it is not there. A link in its place is replaced, and never followed. Answers why
    it is not this user's own."""
    if os.path.islink(path):
        os.unlink(path)
    with contextlib.suppress(FileExistsError):
        os.mkdir(path, MODE)
    return fault(path)


def cache(*names: str) -> str:
    """The folder of these names, one below the other, in the user's folder of what is kept from run to run and can be made again; it is made
    if it is not there. Nothing if no absolute path leads to it, if it is not this user's own, where others may rename it, or where it
    would be made in another's folder, as with sudo."""
    return _kept("XDG_CACHE_HOME", [".cache"], names)


def state(*names: str) -> str:
    """The same in the user's folder of what is kept, and cannot be made again."""
    return _kept("XDG_STATE_HOME", [".local", "state"], names)


def _kept(variable: str, below_home: list[str], names: Sequence[str]) -> str:
    """A folder in the one that a variable of the environment names, or that is below the user's home."""
    home, kept = os.environ.get("HOME"), os.environ.get(variable, "")
    above = [os.path.dirname(kept)]
    if not kept and home:
        above = [os.path.join(home, *below_home[:count]).rstrip("/") or "/" for count in range(len(below_home) - 1, -1, -1)]
        kept = os.path.join(home, *below_home)
    if not os.path.isabs(kept):
        return ""
    places = [os.path.join(kept, *names[:count]) for count in range(1, len(names) + 1)]
    try:
        if not os.path.lexists(places[-1]):
            nearest = next(filter(os.path.exists, (*reversed(places), kept, *above)))
            if os.stat(nearest).st_uid != os.geteuid():
                return ""
            os.makedirs(kept, PRIVATE, exist_ok=True)
        for place in places:
            if not os.path.lexists(place):
                with contextlib.suppress(FileExistsError):
                    os.mkdir(place, PRIVATE)
            why = fault(place)
            # What others put into a folder above is theirs, or a link, and so is seen; but not where it is put there after this.
            if not is_held_throughout(os.path.dirname(place)) or why and (why != OTHERS_MAY_WRITE or place == places[-1]):
                return ""
    except (OSError, StopIteration, ValueError):
        return ""
    return places[-1]
