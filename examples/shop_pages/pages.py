#!/usr/bin/python3
"""A small auction site over `shop serve --view`: examples/shop_pages/pages.py [FOLDER] [--listen HOST:PORT]

It starts the shop of a folder, which stays, and a server of it with a view; then it serves pages: register, sell, search, bid, buy, close,
one's own bids, and what others do as it happens. No page takes more than two requests to `shop serve`."""

import argparse
import asyncio
import contextlib
import hashlib
import hmac
import html
import json
import pathlib
import secrets
import signal
import sys
import urllib.parse
from typing import Any

from aiohttp import ClientSession, ClientTimeout, web

HERE = pathlib.Path(__file__).resolve().parent
SHOP = str(HERE.parent.parent / "shop") if (HERE.parent.parent / "shop").exists() else "shop"      # it may be installed
SITE = "/sites/0"
SECRET = secrets.token_bytes(16)        # signs cookies; another start is another one, so everybody says again who they are
SORTS = {"-entry": "newest", "-amount": "highest bid", "price": "lowest price"}
Row = dict[str, Any]


class Problem(Exception):
    """What the shop says that isn't well."""


class Shop:
    """The shop, as pages ask it."""

    def __init__(self, session: ClientSession) -> None:
        self.session = session
        self.live: set[asyncio.Queue[str]] = set()

    async def get(self, path: str, **query: str | None) -> Row:
        async with self.session.get(SITE + path, params={name: value for name, value in query.items() if value}) as response:
            said: Row = await response.json(content_type=None)
            if response.status != 200:
                raise Problem(said["detail"])
            return said

    async def ask(self, key: str, **ask: str) -> str:
        """The id of the message by which the ask is accepted. Under its key it is accepted once, however often the form is sent."""
        async with self.session.post(SITE + "/asks", json=ask, headers={"Idempotency-Key": key}) as response:
            said: Row = await response.json(content_type=None)
            if "id" not in said:
                raise Problem(said["title"])
            return str(said["id"])

    async def follow(self) -> None:
        """Tells all browsers which item has changed, and by which message."""
        while True:
            with contextlib.suppress(OSError, asyncio.TimeoutError):
                async with self.session.get(SITE + "/follow", timeout=ClientTimeout(total=None)) as response:
                    async for line in response.content:
                        if line.startswith(b"data: ") and (news := news_of(json.loads(line[6:]).get("text", ""))):
                            for browser in self.live:
                                browser.put_nowait(json.dumps(news))
            await asyncio.sleep(1)


def news_of(text: str) -> Row | None:
    """What a line of the site says that it released: the message's id, and the item that it is about."""
    fields = text.partition("msg,")[2].split(",")
    if not text.startswith(("> send,msg,", "< msg,")) or fields[5] in ("user", "rename"):
        return None
    name = f"{fields[1]}.{fields[2]}"
    return {"behind": name, "item": name if fields[5] == "item" else fields[6]}


def text(value: object) -> str:
    """Whatever somebody wrote, on a page."""
    return html.escape(str(value))


def shop_of(request: web.Request) -> Shop:
    shop: Shop = request.app["shop"]
    return shop


def page(request: web.Request, title: str, live: str, forms: str = "", status: int = 200) -> web.Response:
    """A page: what changes while it is looked at, and forms. It isn't stored: one that was left would keep one of a browser's six connections."""
    user = user_of(request)
    who = f'<a href="/my">{text(user[1])}</a>' if user else form("/register", "register", field("nickname"))
    said = f'<p role="alert">{text(request.query["said"])}</p>' if "said" in request.query else ""
    body = (f'<!doctype html><html lang="en"><meta charset="utf-8"><meta name="viewport" content="width=device-width, initial-scale=1">'
            f'<title>{text(title)}</title><link rel="icon" href="data:,"><link rel="stylesheet" href="/static/pages.css">'
            f'<script src="/static/pages.js" defer></script><header><a href="/">Auction</a> <form action="/"><input name="q" aria-label="search" '
            f'value="{text(request.query.get("q", ""))}"><button>search</button></form> {who}</header>'
            f'<main><h1>{text(title)}</h1>{said}<div id="live">{live}</div>{forms}</main>')
    return web.Response(text=body, content_type="text/html", status=status, headers={"Cache-Control": "no-store"})


def form(action: str, button: str, fields: str = "") -> str:
    """A form that is sent once: its key names the ask."""
    key = f'<input type="hidden" name="key" value="{secrets.token_hex(16)}">'
    return f'<form method="post" action="{text(action)}">{key}{fields} <button>{text(button)}</button></form>'


def field(name: str, kind: str = "text", value: str = "") -> str:
    least = ' min="0"' if kind == "number" else ""
    return f'<label>{text(name)} <input name="{text(name)}" type="{kind}" value="{text(value)}"{least} required></label>'


def table(names: list[str], rows: list[list[str]]) -> str:
    head = "".join(f"<th>{text(name)}" for name in names)
    return f'<table><thead><tr>{head}<tbody>{"".join("<tr>" + "".join(f"<td>{cell}" for cell in row) for row in rows)}</table>'


def link_to(item: Row) -> str:
    return f'<a href="/items/{text(item["id"])}">{text(item["name"])}</a>'


def price_of(item: Row) -> str:
    bid = f'{item["amount"]} by {item["bids"]} bids' if item["bids"] else f'from {item["start"]}'
    return text(bid + (f', or {item["price"]} now' if item["price"] and item["stock"] else "") + ("" if item["state"] == "open" else ", closed"))


async def get_items(request: web.Request) -> web.Response:
    """The open items; by words, if there are some."""
    words, sort = request.query.get("q"), request.query.get("sort")
    found = await shop_of(request).get("/items", open="true", limit="20", q=words, sort=sort, after=request.query.get("after"),
                                       behind=request.query.get("behind"))
    links = [(name, {"sort": other}) for other, name in SORTS.items()]
    links += [("more", {"sort": sort or "", "after": found["next"]})] if found["next"] else []
    asked = {"q": words} if words else {}
    sorts = " ".join(f'<a href="/?{text(urllib.parse.urlencode(asked | query))}">{name}</a>' for name, query in links)
    sell = form("/items", "sell", field("name") + field("category", "number", "1") + field("stock", "number", "1") + field("start", "number", "1")
                + field("price", "number", "0")) if user_of(request) else ""
    items = table(["item", "price", "left"], [[link_to(item), price_of(item), text(item["stock"])] for item in found["rows"]])
    return page(request, "Open items", f"<p>{sorts}</p>{items}", sell)


async def get_item(request: web.Request) -> web.Response:
    """An item and its bids."""
    shop, item_id, behind = shop_of(request), request.match_info["id"], request.query.get("behind")
    item = await shop.get(f"/items/{item_id}", behind=behind)
    bids = (await shop.get("/bids", item=item_id))["rows"]
    user, at = user_of(request), f"/items/{item_id}"
    shown = table(["bid", "by user", ""], [[text(bid["amount"]), text(bid["bidder"]), "best" * (bid["id"] == item["best"])] for bid in reversed(bids)])
    forms = ""
    if user and item["state"] == "open" and user[0] == item["seller"]:
        forms = form(f"{at}/close", "close the sale")
    elif user and item["state"] == "open":
        forms = form(f"{at}/bid", "bid", field("amount", "number", str(max(item["amount"] + 1, item["start"]))))
        forms += form(f"{at}/buy", f"buy now for {item['price']}") if item["price"] and item["stock"] else ""
    return page(request, item["name"], f'<p>{price_of(item)}; {text(item["stock"])} left; sold by user {text(item["seller"])}</p>{shown}', forms)


async def get_my(request: web.Request) -> web.Response:
    """One's own bids and purchases."""
    shop, (user_id, nickname) = shop_of(request), must_be_user(request)
    behind = request.query.get("behind")
    bids, purchases = await shop.get(f"/users/{user_id}/bids", behind=behind), await shop.get(f"/users/{user_id}/purchases")
    shown = [[link_to(bid["item_row"]), text(bid["amount"]), text(state_of(bid))] for bid in bids["rows"]]
    bought = [[link_to(each["item_row"]), text(each["quantity"]), text((each["seen"] or "")[:16])] for each in purchases["rows"]]
    return page(request, nickname, f'<h2>My bids</h2>{table(["item", "bid", ""], shown)}<h2>My purchases</h2>{table(["item", "pieces", "when"], bought)}')


def state_of(bid: Row) -> str:
    item = bid["item_row"]
    if item["state"] == "open":
        return "the best" if item["best"] == bid["id"] else "outbid"
    return "won" if item["winner"] == bid["id"] else "lost"


async def post_register(request: web.Request) -> web.Response:
    """A new user; as all that users do, it takes one ask, and then shows a page that has it."""
    said = await request.post()
    nickname = str(said["nickname"]).strip().lower()
    user_id = await shop_of(request).ask(str(said["key"]), ask="user", nickname=nickname)
    response = web.Response(status=303, headers={"Location": f"/?behind={user_id}"})
    response.set_cookie("user", signed(f"{user_id}:{nickname}"), httponly=True, samesite="Strict")
    return response


async def post_item(request: web.Request) -> web.Response:
    (user_id, _), said = must_be_user(request), await request.post()
    fields = {name: str(said[name]).strip() for name in ("name", "category", "stock", "start", "price")}
    made = await shop_of(request).ask(str(said["key"]), ask="item", seller=user_id, **fields)
    raise web.HTTPSeeOther(f"/items/{made}?behind={made}")


async def post_about_item(request: web.Request) -> web.Response:
    """A bid, a purchase or a close."""
    (user_id, _), said, item, kind = must_be_user(request), await request.post(), request.match_info["id"], request.match_info["kind"]
    fields = {"bid": {"bidder": user_id, "amount": str(said.get("amount"))}, "buy": {"buyer": user_id, "quantity": "1"}, "close": {"seller": user_id}}[kind]
    made = await shop_of(request).ask(str(said["key"]), ask=kind, item=item, **fields)
    raise web.HTTPSeeOther(f"/items/{item}?behind={made}")


async def get_live(request: web.Request) -> web.StreamResponse:
    """Which items change, as they do."""
    response = web.StreamResponse(headers={"Content-Type": "text/event-stream", "Cache-Control": "no-store"})
    await response.prepare(request)
    browser, live = asyncio.Queue[str](), shop_of(request).live
    live.add(browser)
    try:
        while True:
            news = ": nothing new"
            with contextlib.suppress(asyncio.TimeoutError):
                news = f"data: {await asyncio.wait_for(browser.get(), 15)}"
            await response.write(f"{news}\n\n".encode())
    except ConnectionError:
        return response
    finally:
        live.discard(browser)


def signed(who: str) -> str:
    return f"{who}:{hmac.new(SECRET, who.encode(), hashlib.sha256).hexdigest()}"


def user_of(request: web.Request) -> tuple[str, str] | None:
    """The id and nickname of who has this cookie."""
    user_id, nickname, _ = (request.cookies.get("user", "") + "::").split(":", 2)
    return (user_id, nickname) if hmac.compare_digest(signed(f"{user_id}:{nickname}"), request.cookies.get("user", "")) else None


def must_be_user(request: web.Request) -> tuple[str, str]:
    if user := user_of(request):
        return user
    raise Problem("register first")


@web.middleware
async def tell_problems(request: web.Request, handler: Any) -> web.StreamResponse:
    try:
        response: web.StreamResponse = await handler(request)
        return response
    except Problem as problem:
        if request.method == "GET":
            return page(request, str(problem), "", status=404)
        back = request.path.rpartition("/")[0] if request.path.startswith("/items/") else "/"
        raise web.HTTPSeeOther(f"{back}?{urllib.parse.urlencode({'said': str(problem)})}") from None


def app_of(shop: Shop) -> web.Application:
    app = web.Application(middlewares=[tell_problems])
    app["shop"] = shop
    app.add_routes([
        web.get("/", get_items), web.get("/items/{id}", get_item), web.get("/my", get_my), web.get("/live", get_live),
        web.post("/register", post_register), web.post("/items", post_item), web.post("/items/{id}/{kind:bid|buy|close}", post_about_item),
        web.static("/static", HERE / "static")])
    return app


async def run(folder: str, listen: str) -> None:
    host, _, port = listen.rpartition(":")
    starting = await asyncio.create_subprocess_exec(SHOP, "start", folder)
    if await starting.wait():
        sys.exit(1)
    serve = await asyncio.create_subprocess_exec(SHOP, "-C", folder, "serve", "--listen", "127.0.0.1:0", "--view", f"{folder}/pages.db",
                                                 stdout=asyncio.subprocess.PIPE)
    assert serve.stdout
    if not (url := (await serve.stdout.readline()).decode().strip().rstrip("/")):
        sys.exit(1)
    async with ClientSession(url) as session:
        shop = Shop(session)
        runner = web.AppRunner(app_of(shop))
        await runner.setup()
        await web.TCPSite(runner, host, int(port), shutdown_timeout=1).start()
        print(f"http://{host}:{runner.addresses[0][1]}/ over {url}", flush=True)
        following = asyncio.create_task(shop.follow())
        for number in (signal.SIGINT, signal.SIGTERM):
            asyncio.get_running_loop().add_signal_handler(number, following.cancel)
        await asyncio.wait([following])
        await runner.cleanup()
    serve.terminate()
    await serve.wait()


if __name__ == "__main__":
    words = argparse.ArgumentParser(description="A small auction site over shop serve --view.")
    words.add_argument("folder", nargs="?", default="auction", help="the folder of the shop; auction by default")
    words.add_argument("--listen", metavar="HOST:PORT", default="127.0.0.1:8000")
    args = words.parse_args()
    asyncio.run(run(args.folder, args.listen))
