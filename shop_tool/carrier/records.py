"""Records, packets and rows: what stands on the lines that a site reads and writes."""

import csv
import enum
import re
from collections.abc import Callable
from typing import NamedTuple

RECORDS_OF_A_RUN = 4_000_000
BYTES_OF_A_RECORD = 4096
KEY_BYTES = 255             # how long the key of an ask is at most
SITES_OF_A_SHOP = 16
MESSAGES_OF_A_SITE = 1_000_000

# Asks that only the holder of the token accepts.
RED = frozenset({b"user", b"bid", b"buy", b"close", b"rename"})
ASKS = RED | {b"item", b"comment", b"restock"}

COLUMNS: dict[str, list[str]] = {
    "user": ["id", "nickname", "items", "bought", "rating", "comments"],
    "item": ["id", "seller", "name", "category", "stock", "sold", "start", "price", "bids", "best", "amount", "state", "winner"],
    "bid": ["id", "item", "bidder", "amount", "red"],
    "purchase": ["id", "item", "buyer", "quantity"],
    "comment": ["id", "item", "from", "to", "rating", "text"],
    "category": ["category", "items", "live"],
    "misfit": ["entry", "part", "id", "kind"],
}
NUMBERS = frozenset({
    "items", "bought", "rating", "comments", "category", "stock", "sold", "start", "price", "bids", "amount", "red", "quantity", "live",
    "entry", "part",
})
LISTINGS = {
    "users": "user", "items": "item", "bids": "bid", "purchases": "purchase", "comments": "comment", "categories": "category",
    "misfits": "misfit",
}

REFUSALS = {
    "BadRecord": "the record isn't in the grammar",
    "Full": "released and waiting messages are as many as the site keeps (--keep)",
    "NoToken": "the site doesn't hold the token",
    "RedBehind": "the site hasn't released all red messages so far",
    "NickTaken": "the nickname belongs to a user, or is the user's own",
    "NoUser": "a user that is named doesn't exist",
    "NoItem": "the item doesn't exist",
    "Closed": "the item's sale is closed",
    "LowBid": "the amount is below the start price",
    "StockShort": "the quantity is above the stock",
    "NotSeller": "the user isn't the item's seller",
    "OwnItem": "the bidder or buyer is the seller",
    "NoBuyNow": "the item's buy-now price is 0",
    "SelfComment": "the comment is addressed to its own author",
    "BadTarget": "the token is passed to another site below --sites only",
    "LastTurn": "the token has had its last turn, 1,000,000,000",
    "NotOurs": "the message claims that this site made it, and it didn't",
    "NotForMe": "the token is for another site",
    "KeyTaken": "another record was asked under that key",
}

# Refusals that decide nothing: the ask waits for what it lacks, and is given again.
UNDECIDED = ("NoToken", "RedBehind")

_FIELD = rb'(?:"(?:[^"]|"")*"|[^",]*)'
_ONE_RECORD = re.compile(_FIELD + rb"(?:," + _FIELD + rb")*")
_KEY = re.compile(rb"[ -~]{1,%d}" % KEY_BYTES)
_IS_UNDER = re.compile(rb'key,(?:[ !#-+\--~]{1,%d}|"(?:[ !#-~]|""){1,%d}"),(?!token,)' % (KEY_BYTES, KEY_BYTES))

Row = dict[str, "int | str"]


def text_of(data: bytes) -> str:
    """Bytes as text, whatever they are; `bytes_of` gives them back."""
    return data.decode("utf-8", "surrogateescape")


def bytes_of(text: str) -> bytes:
    return text.encode("utf-8", "surrogateescape")


def is_key(text: bytes) -> bool:
    return bool(_KEY.fullmatch(text))


def under(key: bytes, record: bytes) -> bytes:
    """An ask or a message under a key, which goes wherever the record goes."""
    return b"key,%b,%b" % (bytes_of(line_of([text_of(key)])), record)


def key_in(text: bytes) -> bytes:
    """The beginning of a record or packet that says its key; empty if it has none."""
    found = _IS_UNDER.match(text) if text.startswith(b"key,") else None
    return found[0] if found else b""


def bare(text: bytes) -> bytes:
    """A record or packet without its key."""
    return text[len(key_in(text)):] if text.startswith(b"key,") else text


def kind_of(record: bytes) -> bytes:
    """The first field of a record, behind its key."""
    return bare(record).split(b",", 1)[0]


class Purpose(enum.Enum):
    """What a site is given a record for."""

    ASK = "a request or a listing of a client"
    LISTING = "a listing"
    QUESTION = "a question, which isn't kept"
    PACKET = "a packet of another site"


def why_not_one_record(record: bytes, purpose: Purpose = Purpose.ASK) -> str | None:
    """Why a line isn't one record for this purpose, or None. What passes is kept by a site byte for byte, and answered once."""
    if not record:
        return "an empty line is no record"
    if b"\n" in record or b"\r" in record:
        return "a record has no line end in it"
    if len(record) > BYTES_OF_A_RECORD:
        return f"a record has at most {BYTES_OF_A_RECORD} bytes"
    if record.startswith(b"\xef"):
        return "a record doesn't begin with the byte 239, as a byte order mark does"
    if record.startswith(b"?") != (purpose == Purpose.QUESTION):
        return "a record doesn't begin with `?`, as questions do" if record.startswith(b"?") else "it is no question"
    if record.startswith(b'"'):
        return "the first field of a record has no quotes"
    if b'"' in record and not _ONE_RECORD.fullmatch(record):
        return "its quotes don't close, or stand inside a field"
    return _why_not_for(purpose, record.split(b",", 1)[0])


def _why_not_for(purpose: Purpose, kind: bytes) -> str | None:
    is_packet = kind in (b"msg", b"token")
    if purpose == Purpose.PACKET:
        return None if is_packet else "it is no packet"
    if is_packet:
        return "packets of other sites come by themselves"
    if kind == b"key":
        return "a key is said beside its ask (--key)"
    if purpose == Purpose.LISTING and kind != b"list":
        return "it is no listing"
    return None


def fields_of(line: str) -> list[str]:
    """The fields of one line of CSV."""
    return next(csv.reader([line])) if '"' in line else line.split(",")


def line_of(fields: list[str]) -> str:
    """One line of CSV with these fields, quoted where they have to be."""
    return ",".join('"' + field.replace('"', '""') + '"' if set(field) & set('",') else field for field in fields)


def row_of(line: str) -> Row:
    """A line `row,KIND,..` of a listing by the names of its columns."""
    _, kind, *values = fields_of(line)
    row: Row = {"kind": kind}
    for name, value in zip(COLUMNS[kind], values):
        row[name] = int(value) if name in NUMBERS else value
    return row


class Message(NamedTuple):
    """An accepted ask, as it goes to the other sites. `deps` counts what its origin had released of each site; `red` is 0 if it is blue."""

    origin: int
    number: int
    red: int
    deps: tuple[int, ...]
    shadow: bytes


class Token(NamedTuple):
    """The permission to issue red messages, on its way to site `to`, with how many red numbers were issued before."""

    turn: int
    to: int
    issued: int


def packet_of(text: bytes) -> Message | Token | None:
    """Reads a packet that a site sent, under a key or none; None for another line."""
    fields = bare(text).split(b",", 6)
    try:
        if fields[0] == b"msg" and len(fields) == 7:
            return Message(int(fields[2]), int(fields[3]), int(fields[4]), tuple(map(int, fields[5].split(b":"))), fields[6])
        if fields[0] == b"token" and len(fields) == 5:
            return Token(int(fields[2]), int(fields[3]), int(fields[4]))
    except ValueError:
        pass
    return None


def token_of(text: bytes) -> Token | None:
    """The same, of a token alone."""
    packet = packet_of(text)
    return packet if isinstance(packet, Token) else None


def ask_of(shadow: bytes, seller_of: Callable[[bytes], bytes]) -> bytes:
    """The ask that was answered by a message with this shadow; `seller_of` knows the seller of an item by its id."""
    fields = shadow.split(b",")
    match fields[0]:
        case b"close":
            return b",".join([b"close", fields[1], seller_of(fields[1])])
        case b"restock":
            return b",".join([b"restock", fields[1], seller_of(fields[1]), fields[2]])
        case b"rename":
            return b",".join([b"rename", fields[1], fields[3]])
    return shadow
