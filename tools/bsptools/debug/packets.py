"""gdb's remote serial protocol as bytes: packets, checksums, acknowledgements, the byte that interrupts."""

from __future__ import annotations

import os
import re
import select
import time
from typing import Optional, Tuple, Union

from ..refusals import Refused

# The longest packet that either side sends, in bytes, without its frame.
PACKET_SIZE = 0x10000
# The bytes of its frame: `$`, `#` and two digits.
FRAME = 4
INTERRUPT = b"\x03"
# How often one packet is sent, or asked for, before the connection is given up.
TRIES = 5


class Broken(Refused):
    """A connection is no session, or is none any more, and why."""

    why = ""

    def __init__(self) -> None:
        super().__init__(self.why)


class NotGdb(Broken):
    """Something else has come."""

    why = "received data that is not gdb's protocol"


class Silent(Broken):
    """Nothing whole has come for too long."""

    why = "no packet arrived over a connection"


class Closed(Broken):
    """The other side has closed the connection."""

    why = "the connection was closed before the session ended"


def checksum(payload: bytes) -> int:
    """The sum of a packet's bytes that follows it, modulo 256."""
    return sum(payload) % 256


def frame(payload: bytes) -> bytes:
    """A packet as it is sent. The payload is text or hexadecimal digits; what else there is has been escaped."""
    return b"$%s#%02x" % (payload, checksum(payload))


def escape(data: bytes) -> bytes:
    """Bytes as the protocol spells them within a packet."""
    return re.sub(rb"[$#}*]", lambda found: bytes([0x7D, found[0][0] ^ 0x20]), data)


def hexadecimal(text: Union[str, bytes]) -> bytes:
    """A text as hexadecimal digits, two a byte."""
    data = text.encode() if isinstance(text, str) else text
    return data.hex().encode()


class Connection:
    """Packets over two file descriptors, which may be the same one."""

    def __init__(self, source: int, target: int) -> None:
        self._source = source
        self._target = target
        self._waiting = b""
        self._last = b""
        self._acknowledges = True
        self._tries = 0

    def begin(self, seconds: float) -> None:
        """Waits for the first packet, for no longer than this. It is not taken yet."""
        until = time.monotonic() + seconds
        self._skip_acknowledgements()
        while self._end() is None:
            left = until - time.monotonic()
            if left <= 0 or not select.select([self._source], [], [], left)[0]:
                raise Silent
            self._read()
            self._skip_acknowledgements()

    def stop_acknowledging(self) -> None:
        """From now on neither side acknowledges packets."""
        self._acknowledges = False

    def send(self, payload: bytes) -> None:
        """Sends a packet."""
        self._last = frame(payload)
        self._write(self._last)

    def receive(self) -> bytes:
        """The payload of the next packet, or `INTERRUPT`."""
        while True:
            self._skip_acknowledgements()
            if self._waiting.startswith(INTERRUPT):
                self._waiting = self._waiting[1:]
                return INTERRUPT
            whole = self._take_packet()
            if whole is None:
                self._read()
            elif self._accepts(*whole):
                return whole[0]

    def is_interrupted(self) -> bool:
        """Whether gdb has asked to interrupt a run that goes on. It sends nothing else then."""
        while select.select([self._source], [], [], 0)[0]:
            self._read()
            self._expect_little()
        self._skip_acknowledgements()
        found = self._waiting.startswith(INTERRUPT)
        self._waiting = self._waiting[1:] if found else self._waiting
        return found

    def _skip_acknowledgements(self) -> None:
        while self._waiting.startswith((b"+", b"-")):
            if self._waiting.startswith(b"-"):
                self._count_try()
                self._write(self._last)
                self._waiting = self._waiting[1:]
            else:
                self._tries = 0
                self._waiting = self._waiting.lstrip(b"+")

    def _take_packet(self) -> Optional[Tuple[bytes, bytes]]:
        """The payload and the checksum of the first packet that waits, if it is there as a whole."""
        end = self._end()
        if end is None:
            return None
        whole = self._waiting[1:end], self._waiting[end + 1 : end + 3]
        self._waiting = self._waiting[end + 3 :]
        return whole

    def _end(self) -> Optional[int]:
        """Where the payload of the first packet ends, if it is there as a whole."""
        if self._waiting and not self._waiting.startswith(b"$"):
            raise NotGdb
        end = self._waiting.find(b"#")
        if end < 0 or len(self._waiting) < end + 3:
            self._expect_little()
            return None
        return end

    def _expect_little(self) -> None:
        """No more may wait than a packet with its frame, so that what is kept of garbage is bounded."""
        if len(self._waiting) > PACKET_SIZE + FRAME:
            raise NotGdb

    def _accepts(self, payload: bytes, digits: bytes) -> bool:
        """Whether a packet has come as it was sent. It is acknowledged, or asked for again."""
        if not self._acknowledges:
            return True
        is_right = digits.lower() == b"%02x" % checksum(payload)
        if is_right:
            self._tries = 0
        else:
            self._count_try()
        self._write(b"+" if is_right else b"-")
        return is_right

    def _count_try(self) -> None:
        self._tries += 1
        if self._tries == TRIES:
            raise NotGdb

    def _read(self) -> None:
        try:
            data = os.read(self._source, PACKET_SIZE)
        except OSError as fault:
            raise Closed from fault
        if not data:
            raise Closed
        self._waiting += data

    def _write(self, data: bytes) -> None:
        try:
            while data:
                data = data[os.write(self._target, data) :]
        except OSError as fault:
            raise Closed from fault
