"""The block of arguments and files in front of a program's input.

bsplib/src/system.c takes it out again.
"""

from __future__ import annotations

import struct

# No text begins with a zero byte. A program that looks for the block has these bytes in its constants.
MAGIC = b"\0bsprun\1"


def block(arguments: list[bytes], files: list[tuple[bytes, bytes]]) -> bytes:
    """The block of the words of argv, the program's name the first of them, and of files, each a name and its bytes.

    After MAGIC come three numbers: the bytes of the whole block, and how many arguments and files there are. Then the files'
    sizes, the arguments, and each file's name and bytes. Numbers have four bytes, the lowest first; texts end with a zero byte.
    """
    sizes = b"".join(struct.pack("<I", len(content)) for _, content in files)
    texts = b"".join(word + b"\0" for word in arguments)
    contents = b"".join(name + b"\0" + content for name, content in files)
    rest = sizes + texts + contents
    size = len(MAGIC) + 12 + len(rest)
    return MAGIC + struct.pack("<III", size, len(arguments), len(files)) + rest
