"""The tools' modules, compiled once and kept in a folder of the user.

Most of the time of a short run would go into compiling them. Nothing is written beside the program. What is kept begins with the text that
it was compiled from, and is taken if that is the module's text, byte for byte, whatever times and places files have, and where the rest
has the digest that stands in front of it: Python would run spoiled code, and crash. So checkouts and installations share what they have in
common, and the folder has no more than one file for each module and version of Python.
"""

from __future__ import annotations

import contextlib
import marshal
import os
import sys
from importlib.machinery import FileFinder, SourceFileLoader
from importlib.util import MAGIC_NUMBER, source_hash
from types import CodeType
from typing import Any

from . import own_folders

PACKAGE = os.path.dirname(os.path.abspath(__file__))
TOP = os.path.dirname(PACKAGE)
LENGTH = 8
# None but this user may write what is run, whatever the umask.
FILE_MODE = 0o644


def digest(content: bytes) -> bytes:
    """A digest of these bytes. Python has this one at hand, and would have to load others."""
    found: Any = source_hash(content)
    return bytes(found)


def write(path: str, content: bytes) -> None:
    """Writes a file as a whole, or nothing if that cannot be. Another start may do so at the same time."""
    written = f"{path}.{os.getpid()}"
    try:
        with open(written, "wb", opener=lambda name, flags: os.open(name, flags, FILE_MODE)) as file:
            file.write(content)
        os.replace(written, path)
    except OSError:
        with contextlib.suppress(OSError):
            os.unlink(written)


def keep() -> None:
    """Has the modules of this package that are loaded from here on taken as they are kept, and kept if they are not."""
    # Tools that are installed elsewhere may be older: theirs have no digests, and are in a folder of another name.
    kept = own_folders.cache("bspemu", "modules") if sys.implementation.cache_tag else ""

    class Loader(SourceFileLoader):
        """Loads a module."""

        def get_code(self, fullname: str) -> CodeType:
            """Its code, in which its file has the name that it has in every checkout."""
            text = self.get_data(self.path)
            front = b"".join((MAGIC_NUMBER, len(text).to_bytes(LENGTH, "little"), text))
            path = os.path.join(kept, f"{fullname}.{sys.implementation.cache_tag}")
            # What is cut off or spoiled counts as what is not there.
            with contextlib.suppress(OSError, EOFError, ValueError, TypeError):
                with open(path, "rb") as file:
                    content = file.read()
                start = len(front) + LENGTH
                if content.startswith(front) and content[len(front) : start] == digest(content[start:]):
                    kept_code = marshal.loads(memoryview(content)[start:])
                    if isinstance(kept_code, CodeType):
                        return kept_code
            code: CodeType = self.source_to_code(text, os.path.relpath(self.path, TOP))
            made = marshal.dumps(code)
            write(path, front + digest(made) + made)
            return code

    def finder(path: str) -> FileFinder:
        if path != PACKAGE and not path.startswith(PACKAGE + os.sep):
            raise ImportError(path)
        return FileFinder(path, (Loader, [".py"]))

    if kept:
        sys.path_hooks.insert(0, finder)
        # This module was found there without it.
        sys.path_importer_cache.pop(PACKAGE, None)
