"""A process that can open only the given files, by Landlock, which Linux has since 5.13.

A hand-in may name any file to the compiler, as in `#include` or `.incbin`, and any to what reads its debug information, by `#line`.
"""

from __future__ import annotations

import ctypes
import os
import resource
import struct
from collections.abc import Iterable

# landlock(7): the numbers of its calls are the same on all processors.
CREATE_RULESET, ADD_RULE, RESTRICT_SELF = 444, 445, 446
ASK_VERSION, BENEATH = 1, 1
PR_SET_NO_NEW_PRIVS = 38
EXECUTE, WRITE_FILE, READ_FILE, READ_DIR = 1 << 0, 1 << 1, 1 << 2, 1 << 3
# Of version 1 all rights, of which later versions have more: to link or rename into another folder, to cut a file off.
ALL, REFER, TRUNCATE = (1 << 13) - 1, 1 << 13, 1 << 14
READ = EXECUTE | READ_FILE | READ_DIR
# What may be asked of a file, and not of a folder alone.
OF_A_FILE = EXECUTE | WRITE_FILE | READ_FILE | TRUNCATE
_LIBC = ctypes.CDLL(None, use_errno=True)


def version() -> int:
    """The version of Landlock that this kernel has, or 0."""
    return max(int(_LIBC.syscall(CREATE_RULESET, None, ctypes.c_size_t(0), ctypes.c_uint32(ASK_VERSION))), 0)


def confine(read: Iterable[str], write: Iterable[str]) -> None:
    """Leaves this process, and all that it starts from here on, nothing but files and folders to read, with what is below them, and others to
    read and to write. Those that are not there are left out."""
    handled = ALL | (REFER if version() >= 2 else 0) | (TRUNCATE if version() >= 3 else 0)
    rules = _called(CREATE_RULESET, ctypes.c_char_p(struct.pack("<Q", handled)), ctypes.c_size_t(8), ctypes.c_uint32(0))
    try:
        for path, rights in [*((it, READ) for it in read), *((it, handled) for it in write)]:
            _allow(rules, path, rights & handled)
        if _LIBC.prctl(PR_SET_NO_NEW_PRIVS, 1, 0, 0, 0) != 0:
            raise OSError(ctypes.get_errno(), os.strerror(ctypes.get_errno()))
        _called(RESTRICT_SELF, ctypes.c_int(rules), ctypes.c_uint32(0))
    finally:
        os.close(rules)


def _allow(rules: int, path: str, rights: int) -> None:
    try:
        place = os.open(path, os.O_PATH | os.O_CLOEXEC)
    except FileNotFoundError:
        return
    try:
        wanted = rights if os.path.isdir(path) else rights & OF_A_FILE
        rule = struct.pack("<Qi", wanted, place)
        _called(ADD_RULE, ctypes.c_int(rules), ctypes.c_int(BENEATH), ctypes.c_char_p(rule), ctypes.c_uint32(0))
    finally:
        os.close(place)


def _called(number: int, *given: object) -> int:
    """What a call of the system answers, or the error that it has."""
    answer = int(_LIBC.syscall(number, *given))
    if answer < 0:
        raise OSError(ctypes.get_errno(), f"Landlock: {os.strerror(ctypes.get_errno())}")
    return answer


def limit(memory: int, file: int, seconds: int) -> bool:
    """Bounds what each process that this one starts may take: bytes of address space and of a file that it writes, seconds of a processor.
    Answers whether the host lets them take less than that, as by `ulimit`."""
    is_less = False
    for kind, most in ((resource.RLIMIT_AS, memory), (resource.RLIMIT_FSIZE, file), (resource.RLIMIT_CPU, seconds), (resource.RLIMIT_CORE, 0)):
        _, hard = resource.getrlimit(kind)
        bound = most if hard == resource.RLIM_INFINITY else min(most, hard)
        is_less = is_less or bound < most
        resource.setrlimit(kind, (bound, hard))
    return is_less
