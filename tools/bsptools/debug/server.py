"""Sessions with gdb: over an existing connection, or the first one that arrives at a socket."""

from __future__ import annotations

import contextlib
import pathlib
import socket
from typing import Iterator, Sequence, Tuple, Union

from ..refusals import about, tell
from ..reverse.reversible_machine import Machine
from .monitor import Typed
from .packets import Broken, Connection
from .stub import Stub

HOST = "127.0.0.1"
# gdb sends its first packet as soon as it has a connection. What sends none is let go after so long, since the next one waits for that.
SILENT_SECONDS = 5


class LocalSocket:
    """A Unix socket. Who may reach it is said by the folder that it is in."""

    def __init__(self, path: pathlib.Path) -> None:
        self._path = path

    def __str__(self) -> str:
        return str(self._path)

    def listen(self) -> socket.socket:
        """Lets connections come, until what this answers is closed."""
        self._path.unlink(missing_ok=True)
        listener = socket.socket(socket.AF_UNIX)
        with about(self._path):
            listener.bind(str(self._path))
        listener.listen()
        return listener


class Loopback:
    """A port of this host's loopback address; 0 is any that is free, and the same one each time."""

    def __init__(self, port: int) -> None:
        self._port = port

    def __str__(self) -> str:
        return f"{HOST}:{self._port}"

    def listen(self) -> socket.socket:
        """Lets connections come, until what this answers is closed."""
        listener = socket.socket()
        listener.setsockopt(socket.SOL_SOCKET, socket.SO_REUSEADDR, 1)
        # Connections have it from here.
        listener.setsockopt(socket.IPPROTO_TCP, socket.TCP_NODELAY, 1)
        with about(f"port {self._port}"):
            listener.bind((HOST, self._port))
        listener.listen()
        self._port = listener.getsockname()[1]
        return listener


Place = Union[LocalSocket, Loopback]


def serve(command: Sequence[str], place: Place) -> None:
    """Serves one session to its end. What is none, or breaks off, is told in a line, and the next connection is waited for."""
    while True:
        try:
            with begun(place) as connection:
                make_session(command, connection)
            tell(["the session is over"], "bspgdb: ")
            return
        except Broken as fault:
            tell([str(fault)], "bspgdb: ")


@contextlib.contextmanager
def begun(place: Place) -> Iterator[Connection]:
    """The next connection over which a packet has come. While it is there, no other one is let in."""
    with place.listen() as listener:
        tell([f"waiting for gdb: target remote {place}"], "bspgdb: ")
        peer, connection = first(listener)
    with peer:
        yield connection


def first(listener: socket.socket) -> Tuple[socket.socket, Connection]:
    """The first connection over which a packet comes."""
    while True:
        peer, _ = listener.accept()
        connection = Connection(peer.fileno(), peer.fileno())
        try:
            connection.begin(SILENT_SECONDS)
            return peer, connection
        except Broken as fault:
            peer.close()
            tell([str(fault)], "bspgdb: ")


def make_session(command: Sequence[str], connection: Connection, typed: Typed = None) -> None:
    """Serves a session, with a machine of its own, until gdb ends it."""
    machine = Machine(command)
    try:
        Stub(connection, machine, typed).serve()
    finally:
        machine.close()
