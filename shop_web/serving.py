"""serve: the shop of a folder over HTTP."""

import argparse
import asyncio
import contextlib
import csv
import errno
import io
import ipaddress
import json
import logging
import os
import pathlib
import re
import signal
import ssl
import sys
import time
from collections.abc import AsyncIterator, Awaitable, Callable
from typing import Any

from aiohttp import HttpVersion11, web

from shop_tool import settings
from shop_tool.asks import EXPLAINED
from shop_tool.carrier.records import LISTINGS, Row
from shop_tool.ends import Fault, Status
from shop_tool.open_files import Faults, take_more
from shop_tool.reading import verdict_of, with_nulls
from shop_tool.reasons import meaning_of
from shop_tool.render import shown
from shop_tool.requests import message_of
from shop_tool.running import state_text
from shop_tool.view import writing

from . import access
from .access_log import ID, AccessLog, id_of
from .asks import One, Options, Told, asked, by_names, check, of_csv, of_json, place_of, with_drawn_keys
from .audits import audited, while_asked
from .budgets import Budgets
from .connections import BODY_BYTES, HEADERS, Connections, expected
from .line import Line
from .live import Watch, events, lines, status_of, told
from .metrics import Metrics
from .problems import KINDS, Problem, of_fault
from .routes import KEY, LAST, NEEDED, QUERY, ROUTES, Route, description
from .rows import FEW_ROWS, LOG, MOST_ROWS, TABLES, Page, Rows, listing_of
from .schemas import CATEGORY_MAX, columns_of, example_of
from .views import OF_USERS, SORTS, Listing, View, words_of, write

STOP_SECONDS = 5.0          # how long requests that are under way have at a stop
MOST_SECONDS = 600.0
AUDITS = 2                  # how many are made at once: each takes a process, and all logs
SCRAPE_SECONDS = 3.0        # Prometheus waits 10 s, and is to be told of a supervisor that hangs
JSON, LINES, CSV = "application/json", "application/x-ndjson", "text/csv"
PAGE = pathlib.Path(__file__).parent / "page.html"
# The page gets nothing from elsewhere, and is in no other page.
PAGE_POLICY = "default-src 'none'; style-src 'unsafe-inline'; script-src 'unsafe-inline'; connect-src 'self'; frame-ancestors 'none'"

OTHER_ORIGIN = ("cross-site", "same-site")     # what a browser says of a request that isn't of this server's own page, nor of its user
# What pages of other origins that are allowed may send.
PREFLIGHT = {"Access-Control-Allow-Methods": "GET, HEAD, POST", "Access-Control-Max-Age": "600",
             "Access-Control-Allow-Headers": f"Authorization, Content-Type, {KEY}, {ID}"}

_HOST = re.compile(r"(?:\[([0-9A-Fa-f:.]+)\]|([^][:@/]+))(?::[0-9]*)?")

Handler = Callable[[web.Request], Awaitable[web.StreamResponse]]


class Server:
    def __init__(self, args: argparse.Namespace, keys: access.Access, hosts: frozenset[str] | None, view: View | None) -> None:
        folder = self.folder = args.folder
        self.keys, self.hosts, self.view, self.log = keys, hosts, view, AccessLog(args.access_log)
        self.origins, self.retries = frozenset(args.allow_origin or ()), args.retry
        self.connections, self.budgets = Connections(args.idle), Budgets(args.requests)
        self.sites = settings.existing(folder).sites
        self.line = Line(folder)
        self.rows, self.watch, self.metrics = Rows(self.line), Watch(self.line, view.site if view else None), Metrics(folder)
        self.app = web.Application(client_max_size=BODY_BYTES, middlewares=[self._look_after])
        self.stopping = asyncio.Event()
        self.auditing = asyncio.Semaphore(AUDITS)
        self.app.on_response_prepare.append(self._prepare)
        self.app.on_shutdown.append(self._stop)
        self.app.on_cleanup.append(self._close)
        for route in ROUTES:
            for method in (route.method, "HEAD") if route.method == "GET" else (route.method,):
                self.app.router.add_route(method, route.path, self._handler(route), expect_handler=expected)

    async def _prepare(self, request: web.Request, response: web.StreamResponse) -> None:
        response.headers.update(HEADERS)
        if "id" in request:
            response.headers[ID] = request["id"]
        if self.origins:
            response.headers["Vary"] = "Origin"
        if (origin := request.headers.get("Origin")) in self.origins:
            response.headers["Access-Control-Allow-Origin"] = str(origin)
            response.headers["Access-Control-Expose-Headers"] = f"Link, Location, Idempotency-Replayed, {ID}"

    async def _stop(self, app: web.Application) -> None:
        self.stopping.set()

    async def _close(self, app: web.Application) -> None:
        await self.line.close()

    def _handler(self, route: Route) -> Handler:
        handler: Handler = getattr(self, route.does)

        async def handle(request: web.Request) -> web.StreamResponse:
            self._check_access(request, route)
            if wrong := set(request.query) - set(route.query):
                raise Problem("BadRequest", f"there is no {', '.join(sorted(wrong))} here")
            if len(set(request.query)) < len(request.query):
                raise Problem("BadRequest", f"{request.query_string} says something twice")
            return await handler(request)
        return handle

    def _check_access(self, request: web.Request, route: Route) -> None:
        # A page of another origin that had its name resolved to this machine would be served like one of this one.
        if (host := request.headers.get("Host")) is None and request.version >= HttpVersion11:
            raise Problem("BadRequest", "it has no header `Host`")
        if self.hosts is not None and host is not None and not (host_of(host) in self.hosts and host_of(request.host) in self.hosts):
            raise Problem("OtherHost", f"{request.host} isn't this server")
        is_of_another = request.headers.get("Sec-Fetch-Site") in OTHER_ORIGIN and request.headers.get("Origin") not in self.origins
        if route.may is not None and self.keys.is_open and is_of_another:
            raise Problem("Forbidden", "a page of another origin asks, so this takes --keys-file, and a key that may read")
        if route.may is not None:
            key = request["key"] = self.keys.of(request.headers.get("Authorization", ""))
            if key is None:
                raise Problem("Unauthorized", "the header is `Authorization: Bearer KEY`, with a key of the file of keys")
            if key.may < route.may:
                raise Problem("Forbidden", f"this takes a key that may {route.may.name.lower()}")
            if (name := self._key(request)) is not None:
                self.budgets.request(name)

    def _key(self, request: web.Request) -> bytes | None:
        """What stands for the bearer key of a request that has one; None where nobody needs one."""
        return None if self.keys.is_open else access.digest_of(request.headers["Authorization"].strip().partition(" ")[2].strip())

    @web.middleware
    async def _look_after(self, request: web.Request, handler: Handler) -> web.StreamResponse:
        """Says what goes wrong as a problem, and counts."""
        self.connections.begin(request)
        try:
            return await self._looked_after(request, handler)
        finally:
            self.connections.end(request)

    async def _looked_after(self, request: web.Request, handler: Handler) -> web.StreamResponse:
        began, name = time.monotonic(), id_of(request)
        request["id"] = name
        route = request.match_info.route.resource
        method, path = (request.method, route.canonical) if route else ("none", "none")
        try:
            response = web.Response(status=204, headers=PREFLIGHT) if self._is_preflight(request) else await handler(request)
        except Problem as problem:
            response = problem.response()
        except Fault as fault:
            response = of_fault(fault).response()
        except web.HTTPException as refusal:
            name = {404: "NotFound", 405: "NoMethod", 413: "TooLong"}.get(refusal.status, "BadRequest")
            allowed = refusal.allowed_methods if isinstance(refusal, web.HTTPMethodNotAllowed) else ()
            response = Problem(name, f"{request.method} {request.path}: {refusal.reason}", allowed=allowed).response()
        except ConnectionError:
            raise
        except web.RequestPayloadError as fault:       # its body isn't what its headers say
            response = Problem("BadRequest", f"{request.method} {request.path}: {fault}").response()
        except Exception as fault:
            print(f"shop serve: {request.method} {shown(request.path)} ({name}): {fault!r}", file=sys.stderr, flush=True)
            response = Problem("Broken", repr(fault)).response()
        self.metrics.requests_of(method, path, str(response.status)).inc()
        self.metrics.request_seconds_of(method, path).observe(time.monotonic() - began)
        key: access.Key | None = request.get("key")
        self.log.tell(request, name, key.whose if key else "", response.status, began)
        return response

    def _is_preflight(self, request: web.Request) -> bool:
        """Whether a browser asks if a page of an origin that is allowed may send a request."""
        return request.method == "OPTIONS" and "Access-Control-Request-Method" in request.headers and request.headers.get("Origin") in self.origins

    # What a request says.

    def _site(self, request: web.Request) -> int:
        text = request.match_info["site"]
        if not is_number(text) or len(text) > 4 or int(text) >= self.sites:
            raise Problem("NotFound", f"there is no site {text}: this shop has {self.sites}")
        return int(text)

    @staticmethod
    def _seconds(request: web.Request) -> float:
        text = request.query.get("timeout", "10")
        try:
            seconds = float(text)
        except ValueError:
            seconds = 0.0
        if not 0 < seconds <= MOST_SECONDS:
            raise Problem("BadRequest", f"`timeout` is a number of seconds above 0, at most {MOST_SECONDS:g}")
        return seconds

    @staticmethod
    def _is(request: web.Request, name: str, otherwise: bool) -> bool:
        text = request.query.get(name, str(otherwise).lower())
        if text not in ("true", "false"):
            raise Problem("BadRequest", f"`{name}` is true or false")
        return text == "true"

    def _of(self, request: web.Request, name: str) -> str:
        """What rows are listed by: a category, or an id."""
        text = request.query[name]
        if name == "category":
            if not is_number(text) or str(int(text[:4])) != text or int(text) > CATEGORY_MAX:
                raise Problem("BadRequest", f"`category` is a number from 0 to {CATEGORY_MAX}, and not {text}")
        elif message_of({"id": text}, self.sites) is None:
            raise Problem("BadRequest", f"`{name}` is an id, as {example_of(QUERY[name][0], {})}, and not {text}")
        return text

    @staticmethod
    def _limit(request: web.Request) -> int:
        text = request.query.get("limit", str(FEW_ROWS))
        if not is_number(text) or len(text) > 9 or not 1 <= int(text) <= MOST_ROWS:
            raise Problem("BadRequest", f"`limit` is a number from 1 to {MOST_ROWS}")
        return int(text)

    @staticmethod
    def _wants(request: web.Request, among: tuple[str, ...], otherwise: str) -> str:
        """The first of these types of content that the request accepts."""
        accepted = [part.split(";")[0].strip() for part in request.headers.get("Accept", "*/*").split(",")]
        return next((kind for kind in accepted if kind in among), otherwise)

    # Asks.

    async def post_asks(self, request: web.Request) -> web.StreamResponse:
        site = self._site(request)
        asks, is_many, content = await self._asks_of(request)
        check(asks)
        for ask in asks:
            if why := request["key"].why_not(ask.record):
                raise Problem("Forbidden", f"{ask.record[:80]!r}: {why}; nothing was asked")
        asks = with_drawn_keys(asks) if self.retries else asks
        options = Options(self._seconds(request), self._is(request, "fetch", True), self._is(request, "published", False))
        wants, key = self._wants(request, (JSON, LINES, CSV), content), self._key(request)
        if key is not None:
            self.budgets.ask(key)
        if is_many or wants == LINES:
            return await self._stream(request, self._asked(site, asks, options, key), key, CSV if wants == CSV else LINES)
        return await self._one(site, asks[0], options, wants, key)

    async def _asks_of(self, request: web.Request) -> tuple[list[One], bool, str]:
        """The asks of a request, whether they are several, and the type of their content."""
        readers, content = {JSON: of_json, CSV: of_csv}, content_of(request)
        if content not in readers:
            raise Problem("OtherContent", f"asks are {JSON} or {CSV}, and not {content}")
        keys: list[str] = request.headers.getall(KEY, [])
        if len(keys) > 1:
            raise Problem("BadRequest", f"{KEY} is given {len(keys)} times; nothing was asked")
        key = keys[0] if keys else None
        if key is not None and len(key) > 1 and key[0] == key[-1] == '"':
            key = key[1:-1]         # as structured fields have a text
        asks, is_many = readers[content](await self.connections.read(request), key)
        return asks, is_many, content

    async def _asked(self, site: int, asks: list[One], options: Options, key: bytes | None) -> AsyncIterator[Told]:
        explained, at = 0, iter(asks)
        async for one in asked(self.line, site, asks, options):
            ask = next(at)
            self.metrics.asks_of(str(site), one.answer).inc()
            if key is not None and one.problem:
                self.budgets.refused(key)
            explained += one.answer == "BadRecord"
            if one.answer == "BadRecord" and explained <= EXPLAINED:
                one = one._replace(meaning=by_names(ask, await asyncio.to_thread(meaning_of, one.answer, one.record, self.sites)))
            yield one

    async def _one(self, site: int, ask: One, options: Options, wants: str, key: bytes | None) -> web.Response:
        """One ask: what came of it is the status of the response."""
        began = time.monotonic()
        answers = [one async for one in self._asked(site, [ask], options, key)]
        self.metrics.ask_seconds_of(str(site)).observe(time.monotonic() - began)
        answer = answers[0]
        if answer.problem:
            return answer.problem.response()
        headers = {"Idempotency-Replayed": "true"} if answer.is_again else {}
        place = place_of(site, answer)
        if place:
            headers["Location"] = place
        if wants == CSV:
            return web.Response(status=201 if place else 200, body=csv_of(answer.head[2:]), content_type=CSV, headers=headers)
        return json_response(answer.said(), 201 if place else 200, headers)

    async def _stream(self, request: web.Request, answers: AsyncIterator[Told], key: bytes | None, content: str) -> web.StreamResponse:
        """The answers to several asks as they come, a line each; where no more come the last line says why."""
        response = web.StreamResponse(headers={"Content-Type": content})
        response.enable_chunked_encoding()
        await response.prepare(request)
        unsent: list[bytes] = []

        async def send() -> None:
            text = b"".join(unsent)
            unsent.clear()
            if text:
                await response.write(text)
        sending = asyncio.Event()

        async def send_on() -> None:
            while True:
                await sending.wait()
                sending.clear()
                await send()        # what came meanwhile goes together
        sender = asyncio.create_task(send_on())
        try:
            async for one in answers:
                unsent.append(csv_of(one.head[2:]) if content == CSV else json_line(one.said()))
                sending.set()
                if key is not None and one.problem:
                    self.budgets.ask(key)
        except Problem as problem:
            unsent.append(csv_of(["problem", str(problem.status), problem.name, problem.detail]) if content == CSV
                          else json_line({"problem": problem.said()}))
        finally:
            sender.cancel()
            await asyncio.gather(sender, return_exceptions=True)
        await send()
        await response.write_eof()
        return response

    async def post_pass(self, request: web.Request) -> web.StreamResponse:
        site = self._site(request)
        if content_of(request) != JSON:
            raise Problem("OtherContent", f"it is {JSON}, and not {content_of(request)}")
        try:
            said = json.loads(await self.connections.read(request))
        except (ValueError, RecursionError) as fault:
            raise Problem("BadRequest", f"the body is no JSON: {fault}") from fault
        to = said.get("to") if isinstance(said, dict) else None
        if not isinstance(to, int) or isinstance(to, bool) or not 0 <= to < 100 or len(said) != 1:
            raise Problem("BadRequest", 'the body is {"to": SITE}')
        return await self._one(site, One(f"pass,{to}", None), Options(self._seconds(request), fetches_token=False), JSON, self._key(request))

    # Rows.

    async def _wait_until_behind(self, request: web.Request, site: int, view: View | None = None) -> None:
        """Returns once a site, or its view, has the message that the request wants to be behind."""
        if (text := request.query.get("behind")) is None:
            return
        seconds, name = self._seconds(request), message_of({"id": text}, self.sites)
        if name is None:
            raise Problem("BadRequest", f"`behind` is the id of a message, as 0.17, and not {text}")
        if not (await view.has(*name, seconds) if view
                else (await self.line.one({"op": "has", "site": site, "id": text, "timeout": seconds}))["has"]):
            raise Problem("NotYet", f"{f'the view of site {site}' if view else f'site {site}'} hasn't {text} within {seconds:g} s")

    def _view(self, site: int, what: str) -> View:
        if self.view is None or self.view.site != site:
            served = "none is served here" if self.view is None else f"that of site {self.view.site} is served here"
            raise Problem("NoView", f"{what} from a view of site {site}; {served} (shop serve --view FILE)")
        return self.view

    async def get_view(self, request: web.Request) -> web.StreamResponse:
        site = self._site(request)
        return json_response({"site": site, **(await self._view(site, "this is read").stand(self._seconds(request)))._asdict()})

    async def _items(self, request: web.Request, site: int) -> web.Response:
        """Items by whatever a view knows of them."""
        query, where = request.query, dict[str, str | int]()
        if "seller" in query:
            where["seller"] = self._of(request, "seller")
        if "category" in query:
            where["category"] = int(self._of(request, "category"))
        if "open" in query:
            where["state"] = "open" if self._is(request, "open", True) else "closed"
        if (sort := query.get("sort", SORTS[0])) not in SORTS:
            raise Problem("BadRequest", f"`sort` is one of {', '.join(SORTS)}")
        listing = Listing("items", where, words_of(query["q"]) if "q" in query else [], sort)
        return await self._viewed(request, self._view(site, "items are listed by `category`; all of them, and by anything else,"), listing)

    async def get_of_user(self, request: web.Request) -> web.StreamResponse:
        site, name = self._site(request), request.path.split("/")[5]
        view = self._view(site, f"the {name} of a user are listed")
        await self._wait_until_behind(request, site, view)
        user = await view.user(request.match_info["key"], self._seconds(request))
        return await self._viewed(request, view, Listing(name, {OF_USERS[name]: user}))

    async def _viewed(self, request: web.Request, view: View, listing: Listing) -> web.Response:
        await self._wait_until_behind(request, view.site, view)
        page, stand = await view.page(listing, request.query.get("after"), self._limit(request), self._seconds(request))
        return self._page(request, LISTINGS[listing.table], page, {"view": {"messages": stand.messages, "behind": stand.behind}})

    async def get_listing(self, request: web.Request) -> web.StreamResponse:
        site, name = self._site(request), request.path.split("/")[3]
        kind, field = TABLES[name]
        if name == "items" and ("category" not in request.query or {"seller", "open", "q", "sort"} & request.query.keys()):
            return await self._items(request, site)
        await self._wait_until_behind(request, site)
        if "nickname" in request.query:
            row = await self.rows.row(site, "user", request.query["nickname"], self._seconds(request))
            page = Page([row] if row and row["nickname"] == request.query["nickname"] else [], None)
            return self._page(request, kind, page)
        if field in NEEDED and field not in request.query:
            raise Problem("BadRequest", f"{name} are listed by `{field}`, as {request.path}?{field}={example_of(QUERY[field][0], {})}")
        return await self._listed(request, site, kind, listing_of(name, self._of(request, field) if field else None))

    async def get_log(self, request: web.Request) -> web.StreamResponse:
        return await self._listed(request, self._site(request), "log", LOG)

    async def _listed(self, request: web.Request, site: int, kind: str, listing: str) -> web.Response:
        page = await self.rows.page(site, listing, request.query.get("after"), self._limit(request), self._seconds(request))
        return self._page(request, kind, page)

    def _page(self, request: web.Request, kind: str, page: Page, more: dict[str, Any] | None = None) -> web.Response:
        headers = {}
        if page.next is not None:
            headers["Link"] = f'<{request.rel_url.update_query(after=page.next)}>; rel="next"'
        if self._wants(request, (JSON, CSV), JSON) == CSV:
            return web.Response(body=csv_of_rows(kind, page.rows), content_type=CSV, headers=headers)
        return json_response({"rows": [with_nulls(row) for row in page.rows], "next": page.next, **(more or {})}, 200, headers)

    async def get_row(self, request: web.Request) -> web.StreamResponse:
        site, key, name = self._site(request), request.match_info["key"], request.path.split("/")[3]
        await self._wait_until_behind(request, site)
        row = await self.rows.row(site, TABLES[name][0], key, self._seconds(request))
        if row is None:
            raise Problem("NotFound", f"site {site} has no {TABLES[name][0]} {key}")
        return json_response(with_nulls(row))

    # The shop.

    async def get_sites(self, request: web.Request) -> web.StreamResponse:
        said = await status_of(self.line, self.view.site if self.view else None)
        if "away" in said:
            raise Problem("Away", said["away"])
        return json_response(said)

    async def get_site(self, request: web.Request) -> web.StreamResponse:
        site, said = self._site(request), await status_of(self.line, self.view.site if self.view else None)
        if "away" in said:
            raise Problem("Away", said["away"])
        return json_response(said["sites"][site])

    async def get_audit(self, request: web.Request) -> web.StreamResponse:
        verdict = await while_asked(request, self._audited(self._seconds(request)))
        return json_response(verdict_of(verdict))

    async def _audited(self, seconds: float) -> str:
        began = time.monotonic()
        try:
            async with asyncio.timeout(seconds):
                await self.auditing.acquire()
        except TimeoutError:
            raise Problem("Away", f"{AUDITS} audits are being made, and none had ended within {seconds:g} s") from None
        try:
            return await audited(self.line, self.sites, max(seconds - (time.monotonic() - began), 0.001))
        finally:
            self.auditing.release()

    async def get_events(self, request: web.Request) -> web.StreamResponse:
        return await told(request, self.stopping, {"status": self.watch.statuses(), "event": events(self.line, self.folder, request.headers.get(LAST))})

    async def get_follow(self, request: web.Request) -> web.StreamResponse:
        return await told(request, self.stopping, {"line": lines(self.line, self._site(request))})

    async def get_metrics(self, request: web.Request) -> web.StreamResponse:
        try:
            shop = (await self.line.one({"op": "status"}, SCRAPE_SECONDS))["shop"]
        except Fault:
            shop = None
        return web.Response(body=self.metrics.text(shop), headers={"Content-Type": "text/plain; version=0.0.4; charset=utf-8"})

    async def get_health(self, request: web.Request) -> web.StreamResponse:
        return json_response({"ok": True})

    async def get_readiness(self, request: web.Request) -> web.StreamResponse:
        try:
            sites = (await self.line.one({"op": "status"}, SCRAPE_SECONDS))["shop"]["site"]
        except Fault as fault:
            raise Problem("Away", fault.text) from None
        wanted = request.query.get("site")
        states = {str(site["site"]): state_text(site) for site in sites if wanted in (None, str(site["site"])) and "pid" in site}
        if "up" not in states.values():
            raise Problem("Away", f"no site {f'{wanted} ' if wanted else ''}here takes asks: {states or 'none runs here'}")
        return json_response({"ok": True, "sites": states})

    # What says how it is used.

    async def get_page(self, request: web.Request) -> web.StreamResponse:
        return web.Response(body=PAGE.read_bytes(), content_type="text/html", charset="utf-8",
                            headers={"Content-Security-Policy": PAGE_POLICY, "Cache-Control": "no-cache"})

    async def get_description(self, request: web.Request) -> web.StreamResponse:
        return json_response(description(self.keys.is_open))

    async def get_problem(self, request: web.Request) -> web.StreamResponse:
        name = request.match_info["name"]
        if name not in KINDS:
            raise Problem("NotFound", f"there is no problem {name}")
        return json_response({"type": f"/problems/{name}", "title": KINDS[name].title, "status": KINDS[name].status})


def content_of(request: web.Request) -> str:
    """The type of what a request brings. (The library's own way takes a fifth of the time of an ask.)"""
    return request.headers.get("Content-Type", "nothing").partition(";")[0].strip().lower()


def host_of(header: str) -> str:
    """The host of a header `Host`, without its port; empty if it isn't one."""
    found = _HOST.fullmatch(header)
    return (found[1] or found[2]).lower() if found else ""


def is_number(text: str) -> bool:
    return text.isascii() and text.isdecimal()


def json_line(said: Any) -> bytes:
    return json.dumps(said).encode() + b"\n"


def json_response(said: Any, status: int = 200, headers: dict[str, str] | None = None) -> web.Response:
    return web.Response(status=status, body=json_line(said), content_type=JSON, headers=headers)


def csv_of(fields: list[str]) -> bytes:
    text = io.StringIO()
    csv.writer(text, lineterminator="\n").writerow(fields)
    return text.getvalue().encode("utf-8", "surrogateescape")


def csv_of_rows(kind: str, rows: list[Row]) -> bytes:
    """Rows under the names of their columns."""
    names = columns_of(kind)
    return b"".join([csv_of(names), *(csv_of([str(row[name]) for name in names]) for row in rows)])


# The command.


def address_of(text: str) -> tuple[str, int]:
    host, colon, port = text.rpartition(":")
    if not colon or not port.isdecimal() or not 0 <= int(port) <= 65535:
        raise Fault(Status.MISUSE, f"--listen is HOST:PORT, as 127.0.0.1:8080, and not {text}")
    return host.removeprefix("[").removesuffix("]"), int(port)


def is_loopback(host: str) -> bool:
    try:
        return ipaddress.ip_address(host).is_loopback
    except ValueError:
        return host == "localhost"


def tls_of(args: argparse.Namespace) -> ssl.SSLContext | None:
    if (args.certificate is None) != (args.private_key is None):
        raise Fault(Status.MISUSE, "--certificate and --private-key go together")
    if args.certificate is None:
        return None
    context = ssl.create_default_context(ssl.Purpose.CLIENT_AUTH)
    load_certificate(context, args)
    return context


def load_certificate(context: ssl.SSLContext, args: argparse.Namespace) -> None:
    for path in (args.certificate, args.private_key):
        open(path).close()      # the fault of `load_cert_chain` doesn't say which isn't there

    def no_phrase() -> str:
        raise Fault(Status.MISUSE, f"{args.private_key} has a pass phrase, which nobody is there to say (openssl pkey -in {args.private_key} takes it off)")
    try:
        context.load_cert_chain(args.certificate, args.private_key, no_phrase)
    except ssl.SSLError as fault:
        raise Fault(Status.MISUSE, f"{args.certificate}, {args.private_key}: {fault.reason or fault}") from fault


def view_of(args: argparse.Namespace) -> View | None:
    """The view that is asked for, once it is seen that its file can be written, or is by another process."""
    if args.view is None:
        return None
    now = settings.existing(args.folder)
    folder, path, site = os.path.realpath(args.folder), os.path.realpath(args.view), writing.site_here(now)
    with contextlib.suppress(writing.Busy):
        writing.View(path, folder, site, now.sites).close()
    return View(path, folder, site)


def serve(args: argparse.Namespace, keys: access.Access) -> int:
    """Serves the shop, to who has one of these keys, until it is stopped by a signal."""
    host, port = address_of(args.listen)
    tls = tls_of(args)
    for origin in args.allow_origin or ():
        if not re.fullmatch(r"https?://[^/?#]+", origin):
            raise Fault(Status.MISUSE, f"--allow-origin is a scheme and a host, as https://shop.example, and not {origin}")
    if tls is None and not is_loopback(host):
        raise Fault(Status.MISUSE, f"without --certificate and --private-key it listens on this machine alone, as 127.0.0.1:8080, and not on {host}")
    if not is_loopback(host) and keys.is_open:
        raise Fault(Status.MISUSE, "others reach it there, so it takes --keys-file: who may read, ask and operate")
    hosts = frozenset({"localhost", "127.0.0.1", "::1", host}) if keys.is_open else None
    asyncio.run(_serve(Server(args, keys, hosts, view_of(args)), host, port, tls, args))
    return Status.WELL


def read_again(server: Server, tls: ssl.SSLContext | None, args: argparse.Namespace) -> None:
    """Reads the certificate and the keys once more, for connections and requests that come, and opens the access log anew. What can't be
    read stays as it was."""
    try:
        if tls:
            load_certificate(tls, args)
        server.keys = access.from_file(args.keys_file)
        server.log.open()
        print("shop serve: the certificate, the keys and the access log are read again", file=sys.stderr, flush=True)
    except (Fault, OSError) as fault:
        print(f"shop serve: what was read before stays: {fault}", file=sys.stderr, flush=True)


async def _serve(server: Server, host: str, port: int, tls: ssl.SSLContext | None, args: argparse.Namespace) -> None:
    logging.getLogger("aiohttp.server").setLevel(logging.CRITICAL)     # no traceback for each request that is malformed or left
    take_more()
    faults = Faults(lambda text: print(f"shop serve: {text}", file=sys.stderr, flush=True))
    asyncio.get_running_loop().set_exception_handler(faults.tell)
    runner = web.AppRunner(server.app, access_log=None, handle_signals=False, auto_decompress=False,
                           keepalive_timeout=server.connections.idle_seconds)
    await runner.setup()
    assert runner.server
    tasks = [asyncio.create_task(server.connections.close_idle(runner.server))]
    if server.view:
        tasks.append(asyncio.create_task(write(server.view, lambda text: print(f"shop serve: {text}", file=sys.stderr, flush=True))))
    try:
        site = web.TCPSite(runner, host, port, ssl_context=tls, shutdown_timeout=STOP_SECONDS)
        try:
            await site.start()
        except OSError as fault:
            why = "another process listens there" if fault.errno == errno.EADDRINUSE else os.strerror(fault.errno or 0)
            raise Fault(Status.AWAY, f"{args.listen}: {why} (--listen HOST:PORT)") from fault
        where = runner.addresses[0]
        name = f"[{where[0]}]" if ":" in where[0] else where[0]
        print(f"{'https' if tls else 'http'}://{name}:{where[1]}/", flush=True)
        stopped = asyncio.Event()
        for number in (signal.SIGTERM, signal.SIGINT):
            asyncio.get_running_loop().add_signal_handler(number, stopped.set)
        asyncio.get_running_loop().add_signal_handler(signal.SIGHUP, read_again, server, tls, args)
        await stopped.wait()
    finally:
        for task in tasks:
            task.cancel()
        await asyncio.gather(*tasks, return_exceptions=True)
        await runner.cleanup()
