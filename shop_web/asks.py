"""Asks: what a request asks, as JSON or CSV, and the answers to it."""

import asyncio
import json
import os
import re
from collections.abc import AsyncIterator
from typing import Any, NamedTuple

from shop_tool.carrier.records import BYTES_OF_A_RECORD, KEY_BYTES, bytes_of, is_key, line_of, why_not_one_record
from shop_tool.client import AGAIN_SECONDS, Again
from shop_tool.ends import Fault
from shop_tool.requests import RECORDS_OF_A_REQUEST, REQUEST_BYTES, Request

from .line import Answer, Line
from .problems import Problem, of_fault, refused

PIECE = 500         # how many of the asks of one request go to the supervisor at once
MOST_ASKS = 100_000     # of one request: they are read and checked while everybody else waits
# The fields of each kind of ask, in the order of its record.
FIELDS: dict[str, tuple[str, ...]] = {
    "user": ("nickname",), "item": ("seller", "name", "category", "stock", "start", "price"), "bid": ("item", "bidder", "amount"),
    "buy": ("item", "buyer", "quantity"), "close": ("item", "seller"), "comment": ("item", "from", "to", "rating", "text"),
    "restock": ("item", "seller", "quantity"), "rename": ("user", "nickname"),
}
# What a site would take as a record, and isn't asked here.
NOT_ASKS = {"list": "rows are read by GET", "pass": "the token is passed by POST /sites/SITE/pass"}
# Where the row of an accepted ask is.
MADE = {"user": "users", "item": "items", "bid": "bids", "buy": "purchases", "comment": "comments"}


class One(NamedTuple):
    """An ask, and its key if it has one."""

    record: str
    key: str | None
    has_names: bool = False     # it came as an object whose members are its fields


class Told(NamedTuple):
    """The answer to an ask."""

    record: str
    head: list[str]         # the fields of its first line
    is_again: bool          # an ask under the same key was accepted before, with this id
    meaning: str | None = None      # of a refusal, where more is known than its name says

    @property
    def answer(self) -> str:
        """The name of a refusal, or ok."""
        return self.head[4] if self.head[2] == "refused" else self.head[2]

    @property
    def problem(self) -> Problem | None:
        return refused(self.record, self.head, self.meaning) if self.head[2] == "refused" else None

    def said(self) -> dict[str, Any]:
        """The object that says it."""
        said: dict[str, Any] = {"record": self.record, "answer": self.head[2]}
        if problem := self.problem:
            said["problem"] = problem.said()
        elif self.head[2] == "ok":
            said["id"] = self.head[3]
        return said | ({"again": True} if self.is_again else {})


def place_of(site: int, told: Told) -> str | None:
    """The URL of the row that an accepted ask has made."""
    table = MADE.get(told.record.split(",", 1)[0])
    return f"/sites/{site}/{table}/{told.head[3]}" if table and told.head[2] == "ok" else None


def of_json(body: bytes, key: str | None) -> tuple[list[One], bool]:
    """The asks of a body in JSON, and whether it is an array of them."""
    try:
        found = json.loads(body)
    except (ValueError, RecursionError) as fault:
        raise Problem("BadRequest", f"the body is no JSON: {fault}") from fault
    if isinstance(found, list):
        _check_count(len(found))
        return with_key([_of_object(one) for one in found], key), True
    return with_key([_of_object(found)], key), False


def of_csv(body: bytes, key: str | None) -> tuple[list[One], bool]:
    """The asks of a body in CSV, a record a line."""
    _check_count(body.count(b"\n"))
    try:
        lines = body.decode().split("\n")
    except UnicodeDecodeError as fault:
        raise Problem("BadRequest", f"the body is no text in UTF-8, from byte {fault.start} on; nothing was asked") from fault
    if lines[-1] == "":
        lines.pop()
    return with_key([One(line.removesuffix("\r"), None) for line in lines], key), len(lines) != 1


def _check_count(asks: int) -> None:
    if asks > MOST_ASKS:
        raise Problem("TooLong", f"a request has at most {MOST_ASKS} asks; nothing was asked")


def with_key(asks: list[One], key: str | None) -> list[One]:
    """The asks, the only one of them under the key that the request names."""
    if key is None:
        return asks
    if len(asks) != 1:
        raise Problem("BadRequest", "Idempotency-Key is for one ask; of several each has its own, as its field `key`")
    if asks[0].key not in (None, key):
        raise Problem("BadRequest", "Idempotency-Key and the field `key` differ")
    return [asks[0]._replace(key=key)]


def with_drawn_keys(asks: list[One]) -> list[One]:
    """The asks, those that have no key under keys that nobody else draws: so they may be asked again."""
    drawn = os.urandom(12).hex()
    return [ask if ask.key is not None else ask._replace(key=f"{drawn}.{number}") for number, ask in enumerate(asks, 1)]


def _of_object(said: Any) -> One:
    if not isinstance(said, dict):
        raise Problem("BadRequest", f"an ask is an object, and not {json.dumps(said)[:80]}")
    fields = dict(said)
    key = fields.pop("key", None)
    if "record" in fields:
        record, rest = fields.pop("record"), fields
    else:
        kind = fields.pop("ask", None)
        if not isinstance(kind, str) or kind not in FIELDS:
            raise Problem("BadRequest", f"`ask` is one of {', '.join(FIELDS)}, or `record` is the record")
        lacking = [name for name in FIELDS[kind] if name not in fields]
        if lacking:
            raise Problem("BadRequest", f"the ask {kind} has no {', '.join(lacking)}")
        record = line_of([kind, *(_field(name, fields.pop(name)) for name in FIELDS[kind])])
        rest = fields
    if rest or not isinstance(record, str) or not (key is None or isinstance(key, str)):
        raise Problem("BadRequest", f"an ask has no {', '.join(map(str, rest))}" if rest else "`record` and `key` are texts")
    return One(record, key, "record" not in said)


def by_names(ask: One, meaning: str) -> str:
    """What is wrong with an ask; of one whose fields came by their names, with the name in place of the number."""
    if not ask.has_names:
        return meaning
    names = FIELDS[ask.record.partition(",")[0]]
    return re.sub(r"\bfield ([2-9]):", lambda found: f"`{names[int(found[1]) - 2]}`:", meaning)


def _field(name: str, value: Any) -> str:
    if isinstance(value, bool) or not isinstance(value, (str, int)):
        raise Problem("BadRequest", f"`{name}` is a text or a whole number")
    return str(value)


def check(asks: list[One]) -> None:
    """Refuses asks that can't be given to a site, before the first one is."""
    for number, ask in enumerate(asks, 1):
        where = f"ask {number}: " if len(asks) > 1 else ""
        try:
            why = NOT_ASKS.get(ask.record.split(",", 1)[0]) or why_not_one_record(bytes_of(ask.record))
        except UnicodeEncodeError:
            why = "it isn't text"
        if why:
            raise Problem("BadRequest", f"{where}{ask.record[:80]!r}: {why}; nothing was asked")
        if ask.key is not None and not is_key(ask.key.encode("utf-8", "surrogatepass")):
            raise Problem("BadRequest", f"{where}a key has 1 to {KEY_BYTES} printable ASCII characters; nothing was asked")


def told_of(answer: dict[str, Any]) -> Told:
    head = answer["lines"][0].split(",")
    is_again = head[2] == "again"
    return Told(answer["record"], [*head[:2], "ok", *head[3:]] if is_again else head, is_again)


class Options(NamedTuple):
    """How asks are asked."""

    seconds: float = 10.0
    fetches_token: bool = True
    published: bool = False


async def asked(line: Line, site: int, asks: list[One], options: Options) -> AsyncIterator[Told]:
    """The answers to asks, as they come; a Problem where no more come."""
    answered = 0
    for begin in range(0, len(asks), PIECE):
        some = asks[begin:begin + PIECE]
        request = {"op": "ask", "site": site, "records": [ask.record for ask in some], "timeout": options.seconds,
                   "fetch": options.fetches_token, "published": options.published}
        if any(ask.key is not None for ask in some):
            request["keys"] = [ask.key for ask in some]
        try:
            async for answer in _answers(line, request):
                answered += 1
                yield told_of(answer)
        except Fault as fault:
            raise of_fault(fault, is_ask=True, key=next((ask.key for ask in asks[answered:]), None)) from fault


async def _answers(line: Line, request: Request) -> AsyncIterator[Answer]:
    """The answers to a request of asks. Those under keys are asked again if the supervisor ends before it answers."""
    again = Again(request)
    while True:
        try:
            if len(again.request["records"]) == 1:
                for answer in await line.whole(again.request):
                    yield answer
                return
            async for answer in line.call(again.request):
                if answer.get("end"):
                    return
                again.note(answer)
                yield answer
        except Fault as fault:
            again.look_at(fault)
        await asyncio.sleep(AGAIN_SECONDS)


# A byte takes at most six in JSON: a longer request would have the supervisor close the one connection that all requests share.
assert PIECE <= RECORDS_OF_A_REQUEST and 6 * PIECE * (BYTES_OF_A_RECORD + KEY_BYTES + 10) < REQUEST_BYTES
