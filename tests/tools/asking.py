"""A stand-in for a tool, which asks a process that has loaded the tool to make the run.

Usage: `python3 -I -S -B asking.py SOCKET NAME WORDS..`.

It stands where gdb starts a tool (`forked.py`), and loads no more than it has to, as nearly all that such a start costs is loading.
"""

import _socket
import marshal
import posix
import sys


def text(data: bytes) -> str:
    """What Python makes of bytes of the system."""
    return data.decode("utf-8", "surrogateescape")


asked = {
    "name": sys.argv[2],
    "words": sys.argv[3:],
    "folder": posix.getcwd(),
    "environment": {text(name): text(value) for name, value in posix.environ.items()},
}
content = marshal.dumps(asked)
peer = _socket.socket(_socket.AF_UNIX)
peer.connect(sys.argv[1])
streams = b"".join(it.to_bytes(4, sys.byteorder) for it in range(3))
peer.sendmsg([len(content).to_bytes(8, "big")], [(_socket.SOL_SOCKET, _socket.SCM_RIGHTS, streams)])
peer.sendall(content)
status = int(peer.recv(64) or 99)
if status < 0:
    posix.kill(posix.getpid(), -status)
posix._exit(status)
