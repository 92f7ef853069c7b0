"""Requests of the socket, checked before anything is done: each field is what it has to be, and each record is one."""

import json
import re
from typing import Any, NamedTuple, TypeVar

from .ends import Fault, Status
from .carrier.records import ASKS, COLUMNS, KEY_BYTES, Purpose, bytes_of, is_key, kind_of, line_of, text_of, under, why_not_one_record

REQUEST_BYTES = 16 << 20
RECORDS_OF_A_REQUEST = ROWS_OF_A_PAGE = 10_000
MOST_SECONDS = 1e6

Request = dict[str, Any]
Value = TypeVar("Value")


class AskRequest(NamedTuple):
    """What `ask` says."""

    records: list[bytes]    # under their keys
    fetches_token: bool     # or a site without it answers NoToken
    published: bool         # ok is said only once the others find the message


def no_request(why: str) -> Fault:
    return Fault(Status.MISUSE, f"not a request: {why}; nothing was asked")


def request_of(line: bytes) -> Request:
    """The request on a line of the socket; a Fault if it is none."""
    try:
        request = json.loads(line)
    except (ValueError, RecursionError) as fault:
        raise no_request(str(fault)) from fault
    if not isinstance(request, dict):
        raise no_request("it is no object")
    return request


def field(request: Request, name: str, kind: type[Value]) -> Value:
    """A field of a request; a Fault if it isn't of this type."""
    value = request.get(name)
    if not isinstance(value, kind):
        raise no_request(f"`{name}` is no {kind.__name__}")
    return value


def seconds_of(request: Request) -> float:
    """How long a request may take."""
    seconds = request.get("timeout")
    if not isinstance(seconds, (int, float)) or not 0 < seconds < MOST_SECONDS:
        raise no_request(f"`timeout` is no number of seconds above 0 and below {MOST_SECONDS:g}")
    return float(seconds)


def site_of(request: Request, sites: int) -> int:
    """The number of the site that a request is for."""
    number = field(request, "site", int)
    if not 0 <= number < sites:
        raise Fault(Status.MISUSE, f"there is no site {number}: this shop has {sites}")
    return number


def asks_of(request: Request) -> AskRequest:
    """What a site is asked, each record checked before the first one is asked."""
    records = field(request, "records", list)
    if len(records) > RECORDS_OF_A_REQUEST:
        raise Fault(Status.MISUSE, f"a request has at most {RECORDS_OF_A_REQUEST} records; nothing was asked")
    checked = [_record_of(text, Purpose.ASK) for text in records]
    if request.get("keys") is not None:
        keys = field(request, "keys", list)
        if len(keys) != len(checked):
            raise no_request(f"there are {len(keys)} `keys` for {len(checked)} records")
        checked = [*map(_under, keys, checked)]
    return AskRequest(checked, field(request, "fetch", bool), bool(request.get("published")))


def _under(key: Any, record: bytes) -> bytes:
    """A record under its key, if it has one. What changes no table needs none."""
    if key is None:
        return record
    if not isinstance(key, str) or not key.isascii() or not is_key(name := bytes_of(key)):
        raise Fault(Status.MISUSE, f"{str(key)[:80]!r}: a key has 1 to {KEY_BYTES} printable ASCII characters; nothing was asked")
    return under(name, record) if kind_of(record) in ASKS else record


def listing_of(request: Request) -> bytes:
    """The listing that a site is asked for."""
    return _record_of(request.get("record"), Purpose.LISTING)


def row_of_request(request: Request) -> tuple[str, str]:
    """The table and the key of the row that is asked for."""
    table, key = field(request, "table", str), field(request, "key", str)
    if table not in (*COLUMNS, "nickname") or table == "misfit":
        raise no_request(f"there is no table {table!r}")
    try:
        why = why_not_one_record(bytes_of(line_of(["?row", table, key])), Purpose.QUESTION)
    except UnicodeEncodeError:
        why = "it isn't text"
    if why:
        raise Fault(Status.MISUSE, f"{key[:80]!r}: {why}; nothing was asked")
    return table, key


def page_of(request: Request) -> tuple[str | None, int]:
    """Behind which row a page begins, and how many rows it has at most."""
    most = field(request, "most", int)
    if not 1 <= most <= ROWS_OF_A_PAGE:
        raise no_request(f"`most` is 1 to {ROWS_OF_A_PAGE}")
    return None if request.get("after") is None else field(request, "after", str), most


def message_of(request: Request, sites: int) -> tuple[int, int] | None:
    """The message that is asked for by its id; None if no message of the shop has it."""
    found = re.fullmatch(r"([0-9]{1,2})\.([0-9]{1,7})", field(request, "id", str))
    return (int(found[1]), int(found[2])) if found and int(found[1]) < sites else None


def _record_of(text: Any, purpose: Purpose) -> bytes:
    try:
        record = bytes_of(text)
    except (AttributeError, ValueError) as fault:
        raise no_request(f"{text!r} is no text") from fault
    if why := why_not_one_record(record, purpose):
        raise Fault(Status.MISUSE, f"{text_of(record[:80])!r}: {why}; nothing was asked")
    return record
