"""What can be requested: one table, which the server serves and the OpenAPI description is made of."""

import re
from typing import NamedTuple

from .access import May
from .problems import CONTENT, KINDS
from .rows import FEW_ROWS, MOST_ROWS, TABLES
from .schemas import (ASK_KEY, CATEGORY, END, ENDS, ITEM, NAME_MAX, NAMES, NICKNAME, PROBLEM, SELLER, SITE, YES, Schema, array_of, content, object_of, ref,
                      schemas, text)
from .views import OF_USERS, SORTS


class Route(NamedTuple):
    method: str
    path: str
    does: str                           # the method of the server that serves it
    may: May | None                     # what the bearer key must be for; None: anybody
    about: str
    answers: dict[str, Schema]          # by the type of their content
    query: tuple[str, ...] = ()
    headers: tuple[str, ...] = ()
    body: dict[str, Schema] | None = None
    problems: tuple[str, ...] = ()
    name: str = ""                      # of the operation, where several have one method of the server

    @property
    def operation(self) -> str:
        return self.name or self.does


def json_of(name: str) -> dict[str, Schema]:
    return {"application/json": ref(name)}


ROWS_CSV = content("id,item,bidder,amount,red\n0.4,0.3,0.2,500,3\n")
EVENTS = {"text/event-stream": content("event: line\ndata: \"< user,ann\"\n\n")}
QUERY: dict[str, tuple[Schema, str]] = {
    "timeout": ({"type": "number", "exclusiveMinimum": 0, "maximum": 600, "default": 10, "examples": [2.5]}, "seconds until it gives up"),
    "fetch": (YES | {"default": True}, "whether the token is fetched for an ask that needs it"),
    "published": (YES | {"default": False}, "answer only once the server, or another site, has what was accepted"),
    "after": (END, "the `next` of the page before"),
    "limit": ({"type": "integer", "minimum": 1, "maximum": MOST_ROWS, "default": FEW_ROWS, "examples": [20]}, "how many rows at most"),
    "nickname": (NICKNAME, "only the user with this nickname"),
    "category": (CATEGORY, "of this category"),
    "item": (ITEM, "of this item"),
    "to": (SELLER, "to this user"),
    "seller": (SELLER, "of this seller; from a view"),
    "open": (YES, "whether they are open; from a view"),
    "q": (text("[0-9A-Za-z]", NAME_MAX, "blue lam"), "words of the name, whole or how they begin; from a view"),
    "sort": ({"enum": [*SORTS], "default": "-entry", "examples": ["-amount"]},
             "by the place in the log, the best bid's amount or the price, falling with -; from a view"),
    "site": (SITE, "of this site alone"),
    "behind": (ITEM, "of a message that the rows have to have, as one's own ask"),
}
NEEDED = ("item", "to")         # a listing that has one of these can't do without
KEY = "Idempotency-Key"
LAST = "Last-Event-ID"
HEADERS: dict[str, tuple[Schema, str]] = {
    LAST: (text("^[0-9]+-[0-9]+$", 40, "10977425-93"), "the id of the last event that the reader has: it gets those behind it"),
    KEY: (ASK_KEY,
          "asked again with this key, the ask isn't accepted a second time and gets the id that it got; a red one at any site, a blue one at the same"),
}
OF_ASKS = ("BadRecord", "Full", "NoToken", "RedBehind", "NickTaken", "NoUser", "NoItem", "Closed", "LowBid", "StockShort", "NotSeller", "OwnItem",
           "NoBuyNow", "SelfComment", "KeyTaken", "BadRequest", "NotFound", "TooLong", "OtherContent", "Away", "Unknown")


OF_ITEMS = ("category", "seller", "open", "q", "sort")


def _listings() -> list[Route]:
    made = []
    for name, (kind, field) in TABLES.items():
        query = ("nickname",) if name == "users" else OF_ITEMS if name == "items" else (field,) if field else ()
        made.append(Route("GET", f"/sites/{{site}}/{name}", "get_listing", May.READ, f"The {name} as a site has them, a page at a time",
                          {**json_of(f"{kind}_page"), "text/csv": ROWS_CSV}, (*query, "after", "limit", "behind", "timeout"),
                          problems=("BadRequest", "NotFound", *(["NoView"] if name == "items" else []), "NotYet", "Away"), name=f"list_{name}"))
        if kind != "misfit":
            made.append(Route("GET", f"/sites/{{site}}/{name}/{{key}}", "get_row", May.READ, f"One of the {name}", json_of(kind),
                              ("behind", "timeout"), problems=("NotFound", "NotYet", "Away"), name=f"get_{kind}"))
    for name, column in OF_USERS.items():
        made.append(Route("GET", f"/sites/{{site}}/users/{{key}}/{name}", "get_of_user", May.READ,
                          f"The {name} of a user, by `{column}`, from a view, the newest first", json_of(f"user_{name}"),
                          ("after", "limit", "behind", "timeout"), problems=("BadRequest", "NotFound", "NoView", "NotYet", "Away"), name=f"list_user_{name}"))
    return made


ROUTES = [
    Route("GET", "/", "get_page", None, "A page of the running shop", {"text/html": content("<!DOCTYPE html>")}),
    Route("GET", "/openapi.json", "get_description", None, "This description", {"application/json": {"type": "object", "examples": [{"openapi": "3.1.0"}]}}),
    Route("GET", "/problems/{name}", "get_problem", None, "What a type of problem is", json_of("kind"), problems=("NotFound",)),
    Route("GET", "/healthz", "get_health", None, "That this server runs", json_of("health")),
    Route("GET", "/readyz", "get_readiness", None, "Whether a site here takes asks; 503 if none does, or not the one that is named",
          json_of("health"), ("site",), problems=("Away",)),
    Route("GET", "/sites", "get_sites", May.READ, "How the shop and each of its sites is", json_of("shop"), problems=("Away",)),
    Route("GET", "/sites/{site}", "get_site", May.READ, "How a site is", json_of("site"), problems=("NotFound", "Away")),
    Route("POST", "/sites/{site}/asks", "post_asks", May.ASK, "Asks a site: one ask, or several, one behind the other",
          {**json_of("told"), "application/x-ndjson": ref("told_or_end"), "text/csv": content("ok,0.1\n")}, ("timeout", "fetch", "published"), (KEY,),
          {"application/json": {"oneOf": [ref("ask"), array_of(ref("ask"))]}, "text/csv": content("restock,0.3,0.1,2\ncomment,0.3,0.2,0.1,5,good\n")}, OF_ASKS),
    Route("POST", "/sites/{site}/pass", "post_pass", May.OPERATE, "Hands the token on from the site that holds it", json_of("told"), ("timeout",),
          body={"application/json": object_of({"to": SITE | {"examples": [1]}})},
          problems=("BadRequest", "NotFound", "NoToken", "BadTarget", "LastTurn", "OtherContent", "Away")),
    *_listings(),
    Route("GET", "/sites/{site}/log", "get_log", May.READ, "The messages that a site has released, in their order, a page at a time",
          {**json_of("log_page"), "text/csv": ROWS_CSV}, ("after", "limit", "timeout"), problems=("BadRequest", "NotFound", "Away")),
    Route("GET", "/sites/{site}/view", "get_view", May.READ, "How far the view of a site is", json_of("view"), ("timeout",),
          problems=("NotFound", "NoView", "Away")),
    Route("GET", "/sites/{site}/follow", "get_follow", May.READ, "What a site is asked (<) and answers (>), as it comes", EVENTS,
          problems=("NotFound",)),
    Route("GET", "/events", "get_events", May.READ, "What happened last in the shop, what happens, and how it is, as it comes", EVENTS,
          headers=(LAST,)),
    Route("GET", "/audit", "get_audit", May.READ, "Audits the logs of all sites", json_of("verdict"), ("timeout",), problems=("Away",)),
    Route("GET", "/metrics", "get_metrics", May.READ, "What Prometheus reads", {"text/plain": content("shop_up 1.0\n")}),
]


def _parameters(route: Route) -> list[Schema]:
    made: list[Schema] = []
    table = (route.path.split("/") + [""] * 3)[3]
    places = {"site": SITE, "name": PROBLEM, "key": NAMES.get(table, ITEM)}
    for name in re.findall(r"{(\w+)}", route.path):
        made.append({"name": name, "in": "path", "required": True, "schema": places[name]})
    for name in route.query:
        schema, about = QUERY[name]
        if name == "after":
            schema = schema | {"examples": [ENDS["items" if "{key}" in route.path else table]]}
        made.append({"name": name, "in": "query", "required": name in NEEDED, "schema": schema, "description": about})
    for name in route.headers:
        schema, about = HEADERS[name]
        made.append({"name": name, "in": "header", "required": False, "schema": schema, "description": about})
    return made


def _operation(route: Route, is_open: bool) -> Schema:
    problems: dict[str, list[str]] = {}
    for name in (*route.problems, *(() if is_open or route.may is None else ("Unauthorized", "Forbidden", "TooMany"))):
        problems.setdefault(str(KINDS[name].status), []).append(name)
    content = {kind: {"schema": schema} for kind, schema in route.answers.items()}
    said: dict[str, Schema] = {"200": {"description": route.about, "content": content}}
    if route.does == "post_asks":
        said["201"] = {"description": "One ask is accepted, and has made a row", "content": {"application/json": {"schema": ref("told")}},
                       "headers": {"Location": {"schema": text("^/sites/[0-9]+/[a-z]+/[0-9.]+$", 60, "/sites/0/users/0.1")}}}
    for status, names in sorted(problems.items()):
        about = "; ".join(f"{name}: {KINDS[name].title}" for name in names)
        said[status] = {"description": about, "content": {CONTENT: {"schema": ref("problem")}}}
    said["default"] = {"description": "Another problem", "content": {CONTENT: {"schema": ref("problem")}}}
    operation: Schema = {"operationId": route.operation, "summary": route.about, "parameters": _parameters(route), "responses": said}
    if route.body:
        operation["requestBody"] = {"required": True, "content": {kind: {"schema": schema} for kind, schema in route.body.items()}}
    if route.may is None:
        operation["security"] = []
    return operation


def description(is_open: bool) -> Schema:
    """The OpenAPI description of all routes; of a server that wants no keys if it is open."""
    paths: dict[str, Schema] = {}
    for route in ROUTES:
        paths.setdefault(route.path, {})[route.method.lower()] = _operation(route, is_open)
    components: Schema = {"schemas": schemas()}
    said: Schema = {"openapi": "3.1.0", "info": {"title": "A rubis shop", "version": "1"}, "paths": paths, "components": components}
    if not is_open:
        components["securitySchemes"] = {"key": {"type": "http", "scheme": "bearer"}}
        said["security"] = [{"key": []}]
    return said
