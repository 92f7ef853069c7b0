"""The small auction site of examples/shop_pages, in a browser: what users do there, and that each page takes two requests at most."""

import re
import subprocess
import time

import pytest
from picture_tool.tests.browser import Browser
from tests.folder import Folder
from tests.needs import PYTHON, TOP, need

PAGES = TOP / "examples/shop_pages"


class Pages:
    """The site, as somebody sees it in a browser."""

    def __init__(self, at: Folder, browser: Browser) -> None:
        need("curl", "python3:aiohttp", "python3:prometheus_client")
        self.at, self.browser = at, browser
        self.process = subprocess.Popen([PYTHON, PAGES / "pages.py", "auction", "--listen", "127.0.0.1:0"], cwd=at.path,
                                        env={"RUBIS": str(at.program), "PATH": "/usr/bin:/bin"}, stdout=subprocess.PIPE, start_new_session=True)
        at.running.append(self.process)
        assert self.process.stdout
        found = re.match(r"(http\S*)/ over (http\S*)\n", self.process.stdout.readline().decode())
        assert found, "it says where it listens"
        self.url, self.shop_url = found.groups()

    def requests(self) -> int:
        """How many requests for rows or asks the shop has served."""
        said = self.at.run(f"curl -sS {self.shop_url}/metrics")
        return sum(int(float(count)) for count in re.findall(r'^shop_http_requests_total{method="(?:GET|POST)",path="/sites.*} (\S+)$', said, re.M))

    def go(self, url: str) -> None:
        self.browser.call("Page.navigate", url=url)
        self.browser.wait("document.readyState === 'complete'")

    def open(self, path: str, has: str, requests: int = 2) -> None:
        """Opens a page that has these words, and takes so many requests."""
        self.go("about:blank")      # no other page looks for news meanwhile
        time.sleep(0.2)
        before = self.requests()
        self.go(f"{self.url}{path}")
        self.sees(has)
        assert self.requests() - before == requests, path

    def sees(self, words: str) -> None:
        self.at.wait(f"{words} in: {self.text()}", lambda: words in self.text())

    def text(self) -> str:
        return str(self.browser.value("document.readyState === 'complete' ? document.body.innerText : ''"))

    def send(self, button: str, has: str, **fields: str) -> None:
        """Fills in a form and sends it by this button; the page that comes has these words."""
        for name, value in fields.items():
            self.browser.value(f"document.querySelector('form [name={name}]:not([type=hidden])').value = {value!r}")
        self.browser.value(f"[...document.querySelectorAll('button')].find(each => each.innerText.startsWith({button!r})).click()")
        self.sees(has)

    def ask(self, record: str) -> None:
        """Somebody else asks the shop."""
        self.at.shop(f"ask 0 '{record}'")


@pytest.fixture
def pages(at: Folder, browser: Browser) -> Pages:
    return Pages(at, browser)


def test_what_users_do(pages: Pages) -> None:
    """Register, sell, search, bid, buy, close, and one's own bids; no page waits for a connection that another one keeps for a minute."""
    began = time.monotonic()
    pages.open("/", "Open items", 1)
    pages.send("register", "ann", nickname="ann")
    pages.send("sell", "lamp", name="blue lamp", category="7", stock="3", start="100", price="80")
    assert pages.browser.value("document.querySelector('h1').innerText") == "blue lamp"
    pages.send("close", "closed")
    pages.ask("user,bob")
    pages.ask('item,0.4,"red vase, <b>old</b>",7,2,10,30')
    pages.open("/?q=vas&behind=0.5", "red vase, <b>old</b>", 1)
    assert "blue lamp" not in pages.text()
    pages.open("/items/0.5", "sold by user 0.4")
    pages.send("bid", "40 by 1 bids", amount="40")
    pages.send("buy", "1 left")
    pages.send("bid", "the amount is below the start price", amount="5")
    pages.open("/my", "the best")
    assert "red vase" in pages.text().partition("My purchases")[2]
    assert time.monotonic() - began < 50


def test_what_others_do(pages: Pages) -> None:
    """A page shows what others do as they do it, and what somebody writes in a form stays."""
    for record in ("user,ann", "user,bob", "item,0.1,lamp,7,3,100,80"):
        pages.ask(record)
    pages.open("/?behind=0.3", "lamp", 1)
    pages.send("register", "cat", nickname="cat")
    pages.open("/items/0.3", "from 100")
    pages.browser.value("document.querySelector('[name=amount]').value = '777'")
    pages.ask("bid,0.3,0.2,500")
    pages.sees("500 by 1 bids")
    assert pages.browser.value("document.querySelector('[name=amount]').value") == "777"
    pages.ask("close,0.3,0.1")
    pages.sees("closed")
    pages.open("/", "Open items", 1)
    pages.ask("item,0.1,cup,7,1,5,0")
    pages.sees("cup")
    assert pages.browser.faults == []


def test_what_strangers_send(pages: Pages) -> None:
    """A cookie that wasn't signed here is nobody's; who isn't registered can't bid; what isn't there is told."""
    pages.ask("user,ann")
    said = pages.at.run(f"curl -sS -i -b 'user=0.1:ann:0000' -d 'key=k&name=x&category=1&stock=1&start=1&price=0' {pages.url}/items")
    assert "303" in said.splitlines()[0] and "register+first" in said
    assert "register" in pages.at.run(f"curl -sS -b 'user=0.1:ann' {pages.url}/")
    assert pages.at.run(f"curl -sS -o page -w '%{{http_code}}' {pages.url}/items/0.77") == "404"
    assert "site 0 has no item 0.77" in pages.at.text("page")


def test_its_size() -> None:
    lines = sum(path.read_text().count("\n") for path in PAGES.rglob("*") if path.suffix in (".py", ".js", ".css"))
    assert lines <= 300
