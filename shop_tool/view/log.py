"""The log of a site, read on from its files `kept` and `out` while it grows."""

import hashlib
import os
from typing import IO, NamedTuple

from ..carrier.answers import AnswerReader, KeptReader
from ..carrier.records import Message, packet_of
from ..carrier.release import Release
from ..folders import identity

PIECE = 1 << 20
TAIL_BYTES = 4096       # what stands before a place, so many bytes of it at most, tells that the files are the ones that were read


class Place(NamedTuple):
    """How far the files are read: up to the end of the answer to a record."""

    folder: str = ""        # which folder it is: a copy, and one that was made again, is another one
    tail: str = ""          # a hash of what stands before the place in both files
    kept_bytes: int = 0
    out_bytes: int = 0


class OtherFiles(Exception):
    """The files aren't those that were read."""


class SiteLog:
    """What a site has released since a place, and `release`, which has what waits there. A FileNotFoundError where the site has no files."""

    def __init__(self, folder: str, place: Place, release: Release[Message]) -> None:
        self.folder, self.release = folder, release
        self._is_of = identity(folder)
        self._kept, self._out = open(f"{folder}/kept", "rb"), open(f"{folder}/out", "rb")
        self._kept_bytes, self._out_bytes = place.kept_bytes, place.out_bytes
        if place.folder and place != self.place():
            raise OtherFiles
        self._kept.seek(place.kept_bytes)
        self._out.seek(place.out_bytes)
        self._answers, self._records = AnswerReader(), KeptReader(self._kept.readline)

    def read(self) -> list[Message] | None:
        """What was released next, in the order of the log, of a megabyte of answers at most; None where nothing more is there."""
        if not (data := self._out.read(PIECE)):
            return None
        released: list[Message] = []
        for answer in self._answers.feed(data):
            record, size = self._records.next()
            if not record:
                raise OtherFiles        # an answer to a record that was cut off
            self._kept_bytes += size
            self._out_bytes += answer.size
            kind = answer.kind
            if kind == b"ok":
                own = packet_of(answer.lines[1][5:])
                assert isinstance(own, Message)
                released.append(own)
                released += self.release.made(own)
            elif kind == b"released" or kind == b"held":
                came = packet_of(record)
                assert isinstance(came, Message)
                released += self.release.arrive(came)
        return released

    def place(self) -> Place:
        """Up to where it is read. Its tail is empty if the files aren't as long any more."""
        return Place(self._is_of, _tail_of((self._kept, self._kept_bytes), (self._out, self._out_bytes)), self._kept_bytes, self._out_bytes)

    def behind(self) -> int:
        """How many bytes of answers there are beyond the place; an OtherFiles where the files aren't the ones that are read."""
        try:
            for file, name, read in ((self._kept, "kept", self._kept_bytes), (self._out, "out", self._out_bytes)):
                found, is_open = os.stat(f"{self.folder}/{name}"), os.fstat(file.fileno())
                if (found.st_dev, found.st_ino) != (is_open.st_dev, is_open.st_ino) or found.st_size < read:
                    raise OtherFiles
        except FileNotFoundError:
            raise OtherFiles from None
        return is_open.st_size - self._out_bytes

    def close(self) -> None:
        self._kept.close()
        self._out.close()


def _tail_of(*places: tuple[IO[bytes], int]) -> str:
    digest = hashlib.blake2b(digest_size=16)
    for file, end in places:
        begin = max(end - TAIL_BYTES, 0)
        text = os.pread(file.fileno(), end - begin, begin)
        if len(text) < end - begin:
            return ""
        digest.update(text)
    return digest.hexdigest()
