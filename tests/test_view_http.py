"""What pages ask for over HTTP: lists from a view, page by page, behind one's own ask."""

import os
import pathlib
import signal
import sqlite3
from typing import Any

import pytest
import workloads
from picture_tool.tests.browser import Browser
from tests.folder import SECONDS, Folder
from tests.web import Web

Rows = list[dict[str, Any]]


@pytest.fixture
def viewed(at: Folder) -> Web:
    """A shop of two sites with 120 items, served with a view of site 0."""
    at.start_sale(2)
    items = "\n".join(f"item,0.{1 + number % 2},{'blue ' * (number % 3 == 0)}cup {number},{7 + number % 2},1,5,{number}" for number in range(120))
    at.run(f"printf '%s\n' '{items}' | ./shop -C auction ask 0 -")
    at.shop("ask 1 bid,0.3,0.2,500 bid,0.11,0.1,40 bid,0.3,0.2,700 buy,0.3,0.2,1 comment,0.3,0.2,0.1,5,good close,0.5,0.2")
    return Web(at, "--view view.db")


def all_pages(web: Web, path: str) -> Rows:
    """The rows of all pages, each found by the header of the one before."""
    rows: Rows = []
    while path:
        said = web.get(path)
        assert said.status == 200, said
        rows += said.json["rows"]
        link = said.headers.get("link", "")
        assert bool(link) == (said.json["next"] is not None)
        path = link.partition("<")[2].partition(">")[0]
        assert not link or link.endswith('; rel="next"')
    return rows


def ids(rows: Rows) -> list[str]:
    return [row["id"] for row in rows]


def test_lists_of_items(viewed: Web) -> None:
    """By seller, category, whether they are open, words and order, in pages that leave none out and none twice."""
    items = f"/sites/0/items?behind={viewed.ask(0, 'restock,0.3,0.1,1').json['id']}"
    everything = all_pages(viewed, f"{items}&limit=50")
    assert [row["entry"] for row in everything] == list(range(123, 2, -1)), "the newest first"
    assert ids(all_pages(viewed, f"{items}&sort=entry&limit=7")) == ids(everything)[::-1]
    assert ids(all_pages(viewed, f"{items}&seller=0.2&limit=9")) == [row["id"] for row in everything if row["seller"] == "0.2"]
    open_ones = [row["id"] for row in everything if row["category"] == 8 and row["state"] == "open"]
    assert ids(all_pages(viewed, f"{items}&category=8&limit=9&open=true")) == open_ones
    assert ids(all_pages(viewed, f"{items}&open=false")) == ["0.5"]
    assert ids(all_pages(viewed, f"{items}&q=blu&limit=9")) == [row["id"] for row in everything if "blue" in row["name"]]
    assert ids(all_pages(viewed, f"{items}&q=Cup+17")) == ["0.21"], "both words, in whatever case"
    for column in ("amount", "price"):
        for sign in ("", "-"):
            found = all_pages(viewed, f"{items}&sort={sign}{column}&limit=11")
            assert found == sorted(everything, key=lambda row: (row[column], row["entry"]), reverse=sign == "-"), f"by {sign}{column}"
    first = everything[-1]
    assert (first["best"], first["winner"], first["seen"], first["stock"]) == ("1.3", None, None, 3)


def test_lists_of_a_user(viewed: Web) -> None:
    """What a user sells, bids, buys and writes, with the items beside it, in one request each; by id or nickname."""
    bids = viewed.get("/sites/0/users/bob/bids?behind=1.6").json
    assert [(row["id"], row["amount"], row["item_row"]["name"], row["item_row"]["best"]) for row in bids["rows"]] == [
        ("1.3", 700, "lamp", "1.3"), ("1.1", 500, "lamp", "1.3")]
    assert bids["view"] == {"messages": 129, "behind": 0}
    assert all_pages(viewed, "/sites/0/users/0.2/bids?limit=1") == bids["rows"]
    assert ids(viewed.get("/sites/0/users/0.2/purchases").json["rows"]) == ["1.4"]
    assert [row["text"] for row in viewed.get("/sites/0/users/bob/comments").json["rows"]] == ["good"]
    assert len(all_pages(viewed, "/sites/0/users/ann/items")) == 61
    assert viewed.get("/sites/0/users/1.77/bids").json["rows"] == []
    assert viewed.get("/sites/0/users/zed/bids").json["name"] == "NotFound"


def test_behind_an_ask(viewed: Web) -> None:
    """A read that names an ask, at whatever site, has it; or says that it didn't come in time."""
    assert viewed.get("/sites/0/items?behind=1.6").status == 200
    for number in range(20):
        made = viewed.ask(number % 2, f"item,0.1,new {number},9,1,5,0").json["id"]
        assert viewed.get(f"/sites/0/items?q=new+{number}&behind={made}").json["rows"][0]["id"] == made
        user = viewed.ask(number % 2, f"user,n{number}").json["id"]
        for site in (0, 1):
            assert viewed.get(f"/sites/{site}/users/{user}?behind={user}").json["nickname"] == f"n{number}", f"at site {site}"
    for path in ("/sites/0/items?behind=1.999", "/sites/1/users/0.1?behind=0.999"):
        late = viewed.get(f"{path}&timeout=0.3")
        assert (late.status, late.json["name"], late.headers["retry-after"]) == (503, "NotYet", "1"), path
    assert viewed.get("/sites/0/items?behind=2.1").status == 400, "a site that isn't there"
    with sqlite3.connect(viewed.at.path / "view.db") as db:
        assert db.execute("SELECT count(*) FROM items WHERE category = 9 AND seen IS NOT NULL").fetchone() == (20,), "those that came have times"


def test_what_is_refused(viewed: Web) -> None:
    """Each wrong request is told what it has to be; another site has no view."""
    for query, says in (("sort=name", "`sort` is one of"), ("open=yes", "`open` is true or false"), ("category=1000&open=true", "`category`"), ("q=+", "`q`"),
                        ("after=x", "`after`"), ("after=5", ""), ("sort=price&after=5", "`after`"), ("limit=0", "`limit`")):
        said = viewed.get(f"/sites/0/items?{query}")
        assert (said.status, says in said.text) == ((400, True) if says else (200, True)), f"{query}: {said}"
    assert (viewed.get("/sites/1/items").json["name"], viewed.get("/sites/1/view").status) == ("NoView", 501)
    assert ids(viewed.get("/sites/1/items?category=7&behind=0.3&limit=1").json["rows"]) == ["0.3"], "a category is listed by any site"
    without = Web(viewed.at)
    assert (without.get("/sites/0/items?open=true").status, without.get("/sites/0/users/0.1/bids").json["name"]) == (501, "NoView")


@pytest.mark.kill
def test_its_writer_is_started_again(viewed: Web) -> None:
    """Where the writer of the view is killed, another one goes on; it ends with the server, also where that is killed."""
    def writer() -> int:
        return int(viewed.at.run(f"pgrep -P {viewed.process.pid} -f 'view .*view.db'; true") or "0")
    viewed.at.wait("its writer", writer)
    first = writer()
    viewed.at.kill(first)
    made = viewed.ask(0, "item,0.1,after it,9,1,5,0").json["id"]
    assert viewed.get(f"/sites/0/items?q=after&behind={made}").json["rows"], "another writer"
    second = writer()
    assert second != first
    os.kill(viewed.process.pid, signal.SIGKILL)
    viewed.process.wait(SECONDS)
    viewed.at.wait("its end", lambda: viewed.at.run(f"ps -o pid= -p {second}; true") == "")


@pytest.mark.slow
def test_my_bids_of_100_000_messages(at: Folder) -> None:
    """A user's bids take one request, and less than 20 ms of the server's processor time."""
    (at.path / "asks").write_bytes(workloads.requests(100_000).text)
    at.run("mkdir auction && ./rubis keep auction/0 < asks > answers && ./shop start auction")
    web = Web(at, "--view view.db")
    at.wait("a view", lambda: web.get("/sites/0/view").json.get("messages") == 100_000)
    with sqlite3.connect(at.path / "view.db") as db:
        user, bids = db.execute("SELECT bidder, count(*) FROM bids GROUP BY 1 ORDER BY 2 DESC LIMIT 1").fetchone()

    def seconds() -> float:
        fields = pathlib.Path(f"/proc/{web.process.pid}/stat").read_text().rsplit(")", 1)[1].split()
        return (int(fields[11]) + int(fields[12])) / os.sysconf("SC_CLK_TCK")
    web.get(f"/sites/0/users/{user}/bids")
    before = seconds()
    for _ in range(20):
        assert len(web.get(f"/sites/0/users/{user}/bids?limit=1000").json["rows"]) == bids
    assert seconds() - before < 20 * 0.020


def test_the_live_page(at: Folder, browser: Browser) -> None:
    """The page of a running shop shows a shop of 10,000 messages: its newest items, by words, more of them, and on a narrow screen."""
    (at.path / "asks").write_bytes(workloads.requests(10_000).text)
    at.run("mkdir auction && ./rubis keep auction/0 < asks > answers && ./shop start auction")
    web = Web(at, "--view view.db")
    at.wait("a view", lambda: web.get("/sites/0/view").json.get("messages") == 10_000)
    items = web.get("/sites/0/items?open=true&limit=40").json["rows"]
    browser.size(390, 800)
    browser.call("Page.navigate", url=f"{web.url}/")
    browser.wait("document.querySelectorAll('#items tr').length === 20")

    def shown() -> object:
        return browser.value("[...document.querySelectorAll('#items tr')].map(row => row.cells[0].textContent)")
    assert shown() == ids(items[:20])
    browser.value("document.getElementById('more').click()")
    browser.wait("document.querySelectorAll('#items tr').length === 40")
    assert shown() == ids(items)
    assert browser.value("document.getElementById('stands').textContent") == "of 10000 messages"
    word = items[0]["name"].split()[0]
    browser.value(f"document.querySelector('#search [name=q]').value = {word!r}; document.querySelector('#search button').click()")
    browser.wait(f"[...document.querySelectorAll('#items tr')].every(row => row.cells[1].textContent.includes({word[:3]!r}))")
    assert browser.value("document.documentElement.scrollWidth <= 390"), "nothing is cut off, and what is wide can be moved"
    assert browser.faults == []
