"""The folder in which a sweep keeps its results, and the folders in it, which all belong to this user."""

from __future__ import annotations

import errno
import os
import pathlib
import tempfile

from .. import own_folders
from ..files import absolute
from ..refusals import Refused


class Unkept(Refused):
    """No results can be kept in a folder."""

    def __init__(self, folder: pathlib.Path, why: str | None) -> None:
        give = "Run chmod -R go-w on it if everything in it is yours, or give" if why == own_folders.OTHERS_MAY_WRITE else "Give"
        super().__init__(f"no results can be saved in {folder}: {why}. {give} another folder by --folder")


def expect_own(folder: pathlib.Path, why: str) -> None:
    """Refuses a folder of results that is not this user's own: what is in it is run, and believed."""
    if why:
        raise Unkept(folder, why)


def kept_in(path: str) -> pathlib.Path:
    """The folder where results are kept, which is made if it is missing."""
    folder = pathlib.Path(absolute(path))
    try:
        folder.parent.mkdir(parents=True, exist_ok=True)
        if not folder.is_symlink():
            folder.mkdir(own_folders.MODE, exist_ok=True)
        expect_own(folder, own_folders.fault(folder))
        tempfile.TemporaryFile(dir=folder).close()
    except OSError as error:
        is_above = isinstance(error, FileExistsError) and not folder.exists()
        why = "it is not a folder" if folder.exists() and not folder.is_dir() else os.strerror(errno.ENOTDIR) if is_above else error.strerror
        raise Unkept(folder, why) from error
    return folder.resolve()


def part(folder: pathlib.Path, *names: str) -> pathlib.Path:
    """A folder in the results, and those above it up to there, which are made if they are missing. Links there are replaced."""
    for name in ("", *names):
        folder = folder / name
        expect_own(folder, own_folders.make(folder))
    return folder


def new(folder: pathlib.Path, name: str) -> pathlib.Path:
    """A new folder below one of this name in the results, which none but this user may enter. It is for what a shell is given: where others may
    rename the results, it could be theirs by then, and is refused."""
    own_folders.expect_held(folder)
    return pathlib.Path(tempfile.mkdtemp(dir=part(folder, name)))
