"""Keys of asks that a version of before wrote down beside a site: each is known for a day, and no more are written.

A line says what record a key is for, and which number that has among all that the site keeps, or the answer to it. The last line of a key
counts. The site may have kept another record under that number, or none: then its ask was never kept."""

import contextlib
import hashlib
import json
from collections.abc import Iterable
from typing import NamedTuple

from .answers import Answer
from .records import UNDECIDED, bare, bytes_of, key_in, under

SECONDS = 86_400        # how long a key is known, by the clock of the machine
TAKEN = Answer([b"reply,0,refused,40,KeyTaken"], 0)


class OldKey(NamedTuple):
    sum: str        # of its record
    until: float    # it is known, in seconds since 1970
    number: int     # of its record, if its answer stands in `out`


class OldKeys:
    """The keys of one site that were written down."""

    def __init__(self) -> None:
        self._keys: dict[bytes, OldKey] = {}
        self._given: dict[int, bytes] = {}          # those whose answers stand in `out`, by the numbers of their records
        self._answers: dict[bytes, Answer] = {}

    def __bool__(self) -> bool:
        return bool(self._keys)

    def read(self, lines: Iterable[bytes], now: float) -> None:
        """Takes in the file, before it is known what the site has kept."""
        for line in lines:
            with contextlib.suppress(ValueError, TypeError, KeyError, AttributeError, OverflowError, RecursionError):
                said = json.loads(line)
                name, key = under(said["key"].encode(), b""), OldKey(said["sum"], said["at"] + SECONDS, int(said.get("number", 0)))
                if key.until >= now:
                    self._keys[name], self._given[key.number] = key, name
                    self._answers.pop(name, None)
                    self._answer(name, Answer([bytes_of(text) for text in said.get("answer", [])], 0))

    def note(self, number: int, record: bytes, answer: Answer) -> None:
        """The site has kept this record, and answered it."""
        name = self._given.pop(number, b"")
        if name and self._keys[name].number == number and self._keys[name].sum == sum_of(record):
            self._answer(name, answer)

    def answer(self, record: bytes, now: float) -> Answer | None:
        """What is answered to a record, if its key is known."""
        name = key_in(record)
        key = self._keys.get(name)
        if key is None or name not in self._answers or key.until < now:
            return None
        return self._answers[name] if key.sum == sum_of(bare(record)) else TAKEN

    def _answer(self, name: bytes, answer: Answer) -> None:
        if not answer.lines:
            return
        if answer.kind == b"ok":
            self._answers[name] = Answer([answer.lines[0].replace(b",ok,", b",again,", 1)], 0)
        elif answer.refusal and answer.refusal not in UNDECIDED:
            self._answers[name] = answer


def sum_of(record: bytes) -> str:
    return hashlib.blake2b(record, digest_size=16).hexdigest()
