"""Lines of a connection, given to a call as they come, without a task that reads them."""

import asyncio
from collections.abc import Callable


class Pieces:
    """Cuts what comes into lines, however it comes; a long line is put together once."""

    def __init__(self) -> None:
        self._begun: list[bytes] = []
        self.size = 0           # of the line that has begun

    def feed(self, data: bytes) -> list[bytes]:
        """The lines that end within this piece, without their ends."""
        *lines, rest = data.split(b"\n")
        if lines:
            lines[0] = b"".join([*self._begun, lines[0]])
            self._begun, self.size = [], 0
        if rest:
            self._begun.append(rest)
            self.size += len(rest)
        return lines


class Reader(asyncio.StreamReader):
    """What comes over a connection; from some time on each piece is given to a call as it comes, and another is told of the end."""

    give: Callable[[bytes], None] | None = None
    ended: Callable[[], None] | None = None

    def feed_data(self, data: bytes) -> None:           # type: ignore[override]
        if self.give:
            self.give(data)
        else:
            super().feed_data(data)

    def feed_eof(self) -> None:
        super().feed_eof()
        if self.ended:
            self.ended()

    def set_exception(self, fault: Exception) -> None:
        super().set_exception(fault)
        if self.ended:
            self.ended()
