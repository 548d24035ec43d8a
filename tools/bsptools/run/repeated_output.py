"""The output of a repeated run, without what an earlier attempt has already written."""

from __future__ import annotations

# Of each of the two streams: of a run that has written more no second attempt is made.
MOST_KEPT = 1 << 22


class Repeated:
    """What the attempts of a run write on standard output and on standard error. Each writes the same up to what it is given."""

    def __init__(self) -> None:
        self._written = {False: bytearray(), True: bytearray()}
        self._left = {False: b"", True: b""}
        self.is_long = False

    def again(self) -> None:
        """Another attempt begins."""
        self._left = {is_error: bytes(it) for is_error, it in self._written.items()}
        self._written = {False: bytearray(), True: bytearray()}

    def fresh(self, is_error: bool, content: bytes) -> bytes:
        """What is to be written of this. Where it differs from what stands there, as a time that is printed, it is written from the line's
        beginning on."""
        left = self._left[is_error]
        if len(self._written[is_error]) + len(content) > MOST_KEPT:
            self.is_long = True
        else:
            self._written[is_error] += content
        if content.startswith(left[: len(content)]):
            self._left[is_error] = left[len(content) :]
            return content[len(left) :]
        same = next(i for i, byte in enumerate(left) if content[i : i + 1] != left[i : i + 1])
        self._left[is_error] = b""
        return content[content.rfind(b"\n", 0, same) + 1 :]
