"""The sums of a site's file `kept`: FOLDER/SITE/sums has a line for each of its lines, so that a start sees one that was changed meanwhile.
They are written once a record is answered, so they may lag behind `kept` after a crash; a start writes those that lack."""

import hashlib
import re
from collections.abc import Iterable

SUM_BYTES = 8
LINE_BYTES = 2 * SUM_BYTES + 1      # of the file `sums`

_SUM = re.compile(rb"[0-9a-f]{%d}\n" % (2 * SUM_BYTES))


def sum_of(line: bytes) -> bytes:
    """The line of `sums` for a line of `kept`, which has no line end here."""
    return hashlib.blake2b(line, digest_size=SUM_BYTES).hexdigest().encode() + b"\n"


def compared(lines: Iterable[bytes], sums: bytes) -> tuple[int, int | None]:
    """How many lines of `kept` are as their sums say, up to the first that has none or another one; and the number of that one, if it was
    changed. A line that has no end isn't kept, and a sum that was torn is none."""
    count = 0
    for line in lines:
        its = sums[count * LINE_BYTES:(count + 1) * LINE_BYTES]
        if not line.endswith(b"\n") or its != sum_of(line[:-1]):
            return count, count + 1 if line.endswith(b"\n") and _SUM.fullmatch(its) else None
        count += 1
    return count, None


def why_changed(site: int, line: int) -> str:
    """What is said of a site whose line of that number isn't as its sum says."""
    return f"line {line} of its file `kept` was changed (put it back as it was, or say shop rebuild {site})"


class Sums:
    """The sums of a site that runs."""

    def __init__(self) -> None:
        self.lines = 0          # of `kept`, that are answered
        self.count = 0          # how many of its lines have their sum in the file
        self.is_behind = False  # some couldn't be written, so no more are until the next start
        self._new: list[bytes] = []

    def add(self, line: bytes) -> None:
        """The next line of `kept` is answered."""
        self.lines += 1
        if self.lines > self.count and not self.is_behind:
            self.count += 1
            self._new.append(sum_of(line))

    def take(self) -> bytes:
        """What is to be written behind the file now."""
        lines, self._new = b"".join(self._new), []
        return lines
