"""What went wrong, as RFC 9457 has it: problem details with a type, a title, the status, a detail, and the refusal's name and number."""

import json
from collections.abc import Iterable
from typing import Any, NamedTuple

from aiohttp import web

from shop_tool.carrier.records import REFUSALS
from shop_tool.carrier.told import is_not_known
from shop_tool.ends import Fault, Status
from shop_tool.render import shown

CONTENT = "application/problem+json"
RETRY_SECONDS = 1


class Kind(NamedTuple):
    status: int
    title: str


# Of refusals that aren't here the status is 409: what is asked doesn't fit what stands there.
_STATUSES = {"BadRecord": 400, "KeyTaken": 422, "SelfComment": 422, "BadTarget": 422, "Full": 507, "NoToken": 503, "RedBehind": 503}
_OWN = {
    "BadRequest": Kind(400, "the request isn't one that this page describes"),
    "Unauthorized": Kind(401, "the request has no bearer key that is known here"),
    "Forbidden": Kind(403, "the bearer key may not do this"),
    "NotFound": Kind(404, "there is no such thing"),
    "NoMethod": Kind(405, "this can't be done there"),
    "TooSlow": Kind(408, "the request didn't come to its end in time"),
    "TooLong": Kind(413, "the request is too long"),
    "BadExpect": Kind(417, "what the header `Expect` says isn't done here"),
    "OtherHost": Kind(421, "the request is for another host"),
    "OtherContent": Kind(415, "the content is neither JSON nor CSV"),
    "Refused": Kind(409, "it can't be done now"),
    "TooMany": Kind(429, "the bearer key has to wait before it asks for more"),
    "Broken": Kind(500, "a fault of the server's own"),
    "NoView": Kind(501, "what is asked for is read from a view of the site, which isn't served here (shop serve --view FILE)"),
    "NotYet": Kind(503, "the site hasn't had the message by then that the request wants to be behind"),
    "Away": Kind(503, "the site takes no asks now; nothing was given to it"),
    "Unknown": Kind(504, "no answer came in time, and whether the ask is accepted isn't known"),
}
KINDS = {name: Kind(_STATUSES.get(name, 409), meaning) for name, meaning in REFUSALS.items() if name not in ("NotOurs", "NotForMe")} | _OWN


class Problem(Exception):
    def __init__(self, name: str, detail: str, number: int | None = None, allowed: Iterable[str] = (), retry: int = RETRY_SECONDS) -> None:
        super().__init__(detail)
        self.name, self.detail, self.number, self.allowed, self.retry = name, detail, number, sorted(allowed), retry

    @property
    def status(self) -> int:
        return KINDS[self.name].status

    def said(self) -> dict[str, Any]:
        said = {"type": f"/problems/{self.name}", "title": KINDS[self.name].title, "status": self.status, "detail": shown(self.detail),
                "name": self.name}
        return said if self.number is None else said | {"number": self.number}

    def response(self) -> web.Response:
        retry = {"Retry-After": str(self.retry)}
        headers = {503: retry, 429: retry, 401: {"WWW-Authenticate": "Bearer"}, 405: {"Allow": ", ".join(self.allowed)}}.get(self.status, {})
        return web.Response(status=self.status, body=json.dumps(self.said()).encode() + b"\n", content_type=CONTENT, headers=headers)


def refused(record: str, head: list[str], meaning: str | None = None) -> Problem:
    """What a site, or `shop` itself, refused: a record, the fields of the answer's first line, and what it means."""
    name = head[4] if head[4] in KINDS else "Refused"
    return Problem(name, f"{record}: {meaning or REFUSALS.get(head[4], head[4])}", int(head[3]))


def of_fault(fault: Fault, is_ask: bool = False, key: str | None = None) -> Problem:
    """What a fault of `shop` is over HTTP, of an ask under a key if it had one."""
    if fault.status == Status.MISUSE:
        return Problem("BadRequest", fault.text)
    if fault.status == Status.REFUSED:
        return Problem("Refused", fault.text)
    if is_ask and is_not_known(fault.text):
        return Problem("Unknown", fault.text + (f"; it was asked under the key {key}" if key else ""))
    return Problem("Away", fault.text)
