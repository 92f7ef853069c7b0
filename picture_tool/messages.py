"""Records, and the messages that they say."""

import csv
import dataclasses
import io
import sys
from collections.abc import Sequence

from shop_tool.carrier.records import line_of

Fields = list[str]

csv.field_size_limit(sys.maxsize)

# Where a shadow's fields have the word that a caption shows.
TOLD = {"user": 1, "item": 2, "bid": 3, "buy": 3, "comment": 4, "restock": 2, "rename": 3}
CAPTION = 12


class Fault(Exception):
    """Why there is no picture, in one line."""

    def __init__(self, text: str) -> None:
        super().__init__(" ".join(text.split()))


@dataclasses.dataclass(frozen=True, eq=False, slots=True)
class Message:
    """A message, from its record `msg,version,origin,number,red,deps,SHADOW`. Two of one content are one object."""

    origin: int
    number: int
    red: int
    deps: tuple[int, ...]
    shadow: tuple[str, ...]
    fields: tuple[str, ...]

    @property
    def record(self) -> str:
        return line_of(list(self.fields))

    @property
    def id(self) -> str:
        return f"{self.origin}.{self.number}"

    @property
    def caption(self) -> str:
        kind = self.shadow[0]
        at = TOLD.get(kind, 0)
        text = f"{kind} {self.shadow[at]}" if 0 < at < len(self.shadow) else kind
        return text if len(text) <= CAPTION else text[: CAPTION - 1] + "…"


class Messages:
    """The messages of a picture, by their fields. `sites` is how many sites they have to count, where that is known."""

    def __init__(self, sites: int | None = None) -> None:
        self.sites = sites
        self._known: dict[tuple[str, ...], Message] = {}

    def read(self, fields: Sequence[str]) -> Message:
        """The message of a record's fields from `msg` on."""
        key = tuple(fields)
        if (known := self._known.get(key)) is None:
            known = self._known[key] = _message_of(key)
            if self.sites not in (None, len(known.deps)):
                raise Fault(f"a message counts {len(known.deps)} sites, and there are {self.sites}: {known.record[:80]}")
        return known


def _message_of(fields: tuple[str, ...]) -> Message:
    try:
        if fields[0] != "msg" or not fields[6]:
            raise ValueError
        deps = tuple(map(int, fields[5].split(":")))
        message = Message(int(fields[2]), int(fields[3]), int(fields[4]), deps, fields[6:], fields)
        if not 0 <= message.origin < len(deps) or message.number < 1:
            raise ValueError
    except (IndexError, ValueError):
        raise Fault(f"not a message: {line_of(list(fields))[:80]}") from None
    return message


def records_of(text: str) -> list[Fields]:
    """The records of a text, each as its fields. An empty line is none."""
    return [_without_key(fields) for fields in csv.reader(io.StringIO(text, newline="")) if fields]


def fields_of(line: str) -> Fields:
    return _without_key(next(csv.reader([line]), []))


def _without_key(fields: Fields) -> Fields:
    """An ask, or a packet that is sent or comes, is drawn as if it had no key."""
    at = fields[:1] == ["send"]
    return fields[:at] + fields[at + 2:] if fields[at:at + 1] == ["key"] and len(fields) > at + 2 else fields


def is_number(text: str) -> bool:
    """Whether it is a whole number that isn't negative, and not longer than any of a record."""
    return text.isascii() and text.isdecimal() and len(text) < 14


def number_at(fields: Sequence[str], at: int) -> int:
    """The number in a field of a record."""
    if at < len(fields) and is_number(fields[at]):
        return int(fields[at])
    raise Fault(f"field {at + 1} is no number: {line_of(list(fields))[:80]}")
