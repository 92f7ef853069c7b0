"""Answers of a site, and the records that they are to: cuts what it writes and keeps into those of one record each."""

import re
from collections.abc import Callable


class Answer:
    """What a site wrote for one record, a line `reply,n,..` with the packet or the rows that follow it; or for a question, a line that
    begins with `?`, with the rows that follow."""

    __slots__ = ("lines", "size")

    def __init__(self, lines: list[bytes], size: int) -> None:
        self.lines = lines      # without line ends
        self.size = size        # in bytes, line ends included

    @property
    def head(self) -> list[bytes]:
        return self.lines[0].split(b",")

    @property
    def kind(self) -> bytes:
        """The third field: ok, passed, rows, released, held, repeat, holding or refused."""
        return self.lines[0].split(b",", 3)[2]

    @property
    def is_to_question(self) -> bool:
        return self.lines[0].startswith(b"?")

    @property
    def refusal(self) -> str | None:
        head = self.head
        if self.is_to_question:
            return head[1].decode() if head[0] == b"?refused" else None
        return head[4].decode() if head[2] == b"refused" else None

    @property
    def packet(self) -> bytes | None:
        """The packet that goes to the other sites with this answer."""
        return self.lines[1][5:] if self.kind in (b"ok", b"passed") else None


def lines_after(head: bytes) -> int:
    """How many lines belong to the answer that begins with this line."""
    fields = head.split(b",", 4)
    if fields[0] == b"reply" and len(fields) > 2:
        kind = fields[2]
        return 1 if kind in (b"ok", b"passed") else int(fields[3]) if kind == b"rows" else 0
    if not head.startswith(b"?"):
        raise ValueError(f"not an answer: {head[:80]!r}")
    return int(fields[1]) if fields[0] == b"?rows" else 0


class AnswerReader:
    """Cuts bytes into answers, however the bytes come in."""

    def __init__(self) -> None:
        self._rest = b""
        self._lines: list[bytes] = []
        self._due = 0

    def feed(self, data: bytes) -> list[Answer]:
        """The answers that end within this piece."""
        answers = []
        *lines, self._rest = (self._rest + data).split(b"\n")
        some, due = self._lines, self._due
        size = sum(map(len, some)) + len(some)
        for line in lines:
            due = due - 1 if some else lines_after(line)
            some.append(line)
            size += len(line) + 1
            if not due:
                answers.append(Answer(some, size))
                some, size = [], 0
        self._lines, self._due = some, due
        return answers


_FIELD = rb'(?:"(?:[^"]|"")*"[^,\r]*|[^",\r][^,\r]*|)'
_RECORD = re.compile(_FIELD + rb"(?:," + _FIELD + rb")*")


def records_in(line: bytes) -> list[tuple[bytes, int]]:
    """The records of a line of `kept`, each with where it ends: none in an empty line, and several where a carriage return ends one."""
    if b"\r" not in line:
        return [(line, len(line))] if line else []
    found, at = [], 0
    while at < len(line):
        record = _RECORD.match(line, at)
        assert record
        at = record.end() + 1
        found += [(record[0], record.end())] if record[0] else []
    return found


class KeptReader:
    """Reads the records of a file `kept`, whose next line a call gives; at the end that is empty. Another one is told each line whose last
    record was read, without its end."""

    def __init__(self, next_line: Callable[[], bytes], was_read: Callable[[bytes], None] = lambda line: None) -> None:
        self._next_line, self._was_read = next_line, was_read
        self._records: list[tuple[bytes, int]] = []
        self._line, self._size = b"", 0     # the line that they are of
        self._at = 0            # up to which byte of it records are read

    def next(self) -> tuple[bytes, int]:
        """The next record, and how many bytes of the file it takes, with what no record is before it. At the end it is empty."""
        skipped = 0
        while not self._records:
            skipped += self._size - self._at
            line = self._next_line()
            self._line = line.rstrip(b"\n")
            if b"\r" not in line and len(line) > 1:         # one record, as most lines are
                self._size = self._at = 0
                self._was_read(self._line)
                return self._line, skipped + len(line)
            self._size, self._at = len(line), 0
            self._records = records_in(self._line)
            if not line:
                return b"", skipped
            if not self._records:
                self._was_read(self._line)
        record, end = self._records.pop(0)
        if not self._records:
            end = self._size
            self._was_read(self._line)
        taken, self._at = skipped + end - self._at, end
        return record, taken
