"""Results of runs, kept in files with a seal that shows whether they were changed.

Each has a seal, which follows from the name that it is kept under, from all that it has, and from a key that only this user can read. So
results that came with a folder of somebody else are not believed. Whoever writes a result needs no key: the ticket of its name is enough,
which a process on another host is given.
"""

from __future__ import annotations

import contextlib
import functools
import hashlib
import hmac
import json
import os
from typing import Any, NamedTuple

from . import own_folders
from .files import beside_name, own_content, put
from .limits import MOST_TABLE
from .refusals import Refused, counted

KEY_BYTES, KEY_MODE, OF_OTHERS = 32, 0o600, 0o077
UNKEPT = "cannot save a key for your results, so the next start will repeat their runs: set HOME or XDG_STATE_HOME to a folder of yours"


class Key(NamedTuple):
    """What this user's seals follow from, and whether the next start has the same."""

    secret: bytes
    is_kept: bool

    @property
    def name(self) -> str:
        """What tells this key from others, and does not tell it."""
        return digest(b"name" + self.secret)[:16]


def digest(content: bytes) -> str:
    """A name for these bytes."""
    return hashlib.sha256(content).hexdigest()


@functools.lru_cache(maxsize=None)
def own_key() -> Key:
    """This user's key, which is made if there is none; one for this process alone if none can be kept."""
    folder = own_folders.state("bspemu")
    if folder:
        path = os.path.join(folder, "key")
        # The disk may be full.
        with contextlib.suppress(OSError, Refused):
            secret = _key_in(path)
            if not secret:
                _make_key(path)
                secret = _key_in(path)
            if secret:
                return Key(secret, True)
    return Key(os.urandom(KEY_BYTES), False)


def _key_in(path: str) -> bytes:
    """The key in a file; nothing if it has none, or where others may know it."""
    with contextlib.suppress(Refused, FileNotFoundError, ValueError):
        found = os.lstat(path)
        secret = bytes.fromhex(own_content(path, 3 * KEY_BYTES).decode())
        if found.st_uid == os.geteuid() and not found.st_mode & OF_OTHERS and len(secret) == KEY_BYTES:
            return secret
    return b""


def _make_key(path: str) -> None:
    """Makes a key. If another start makes one at the same time, both take the one that is there first."""
    with contextlib.suppress(FileNotFoundError):
        os.unlink(path)
    beside = os.path.join(os.path.dirname(path), beside_name())
    try:
        put(beside, os.urandom(KEY_BYTES).hex(), KEY_MODE)
        os.link(beside, path)
    except FileExistsError:
        pass
    except OSError:
        # Some file systems have no further names for a file.
        os.replace(beside, path)
    finally:
        with contextlib.suppress(FileNotFoundError):
            os.unlink(beside)


def ticket(name: str) -> str:
    """What seals results of this name: the name of the key, and what follows from the key itself."""
    key = own_key()
    return f"{key.name}:{hmac.new(key.secret, name.encode(), hashlib.sha256).hexdigest()}"


def seal(with_ticket: str, record: Any) -> str:
    """What tells this record from any other."""
    return hmac.new(with_ticket.encode(), json.dumps(record).encode(), hashlib.sha256).hexdigest()


def found(path: str | os.PathLike[str], name: str) -> Any:
    """What is kept in a file under a name; None if there is nothing, or it is not what this user's tools wrote."""
    with contextlib.suppress(Refused, OSError, ValueError, TypeError, KeyError, RecursionError):
        known = json.loads(own_content(path, MOST_TABLE))
        return known["record"] if hmac.compare_digest(known["seal"], seal(ticket(name), known["record"])) else None
    return None


def is_of_others(path: str | os.PathLike[str]) -> bool:
    """Whether a file has a result that was sealed with another key, or with none."""
    with contextlib.suppress(Refused, OSError, ValueError, TypeError, KeyError, RecursionError):
        known = json.loads(own_content(path, MOST_TABLE))
        return "seal" in known and known.get("key") != own_key().name
    return False


def keep(path: str | os.PathLike[str], with_ticket: str, record: Any) -> None:
    """Keeps something in a file, with the ticket of its name."""
    known = {"record": record, "key": with_ticket.partition(":")[0], "seal": seal(with_ticket, record)}
    put(path, json.dumps(known, indent=1) + "\n")


def told_of_others(count: int, folder: str | os.PathLike[str]) -> list[str]:
    """A line where so many results are not believed."""
    was = "was" if count == 1 else "were"
    return [f"{counted(count, 'result')} in {os.fspath(folder)} {was} not sealed with your key, and {was} made again"] * bool(count)
