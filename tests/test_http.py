"""The shop over HTTP, `shop serve`: where it listens, who may do what, asks and rows, events, the description, and what strangers may send."""

import concurrent.futures
import contextlib
import json
import os
import re
import shutil
import signal
import socket
import subprocess
import time

import pytest

from picture_tool.tests.browser import Browser
from tests.folder import SALE, SECONDS, Folder, kilobytes_of
from tests.needs import PYTHON, TOP, need
from tests.web import CSV, Web

MANY = 3000
KEYS = {"read": "r" * 32, "ask": "a" * 32, "operate": "o" * 32}
# Files of keys that are refused, and why.
WRONG_KEYS = {
    "write": ("write 0123456789abcdef\n", "write:1: a key may read, ask or operate"), "short": ("read short\n", "short:1: a key has at least 16 characters"),
    "open": ("", "others may read it"),
}


def test_where_it_listens(at: Folder) -> None:
    """Others reach it only over TLS and with keys; a host that isn't this one is refused where no keys are wanted."""
    at.shop("serve", 3, "there is no shop")
    at.run("./shop start auction")
    at.shop("serve --listen 0.0.0.0:8080", 2, "without --certificate and --private-key it listens on this machine alone")
    at.shop("serve --listen here", 2, "--listen is HOST:PORT")
    at.shop("serve --certificate auction/shop.json", 2, "--certificate and --private-key go together")
    web = Web(at)
    assert web.get("/sites").status == 200, "this machine"
    elsewhere = web.get("/sites", "-H", "Host: shop.example")
    assert (elsewhere.status, elsewhere.json["name"]) == (421, "OtherHost"), f"another host: {elsewhere}"
    assert web.post("/sites/0/asks", "user,ann", content="text/plain").status == 415, "what any page may send"
    assert at.shop("list 0 users") == "id  nickname  items  bought  rating  comments\n", "nothing was asked"
    os.kill(web.process.pid, signal.SIGTERM)
    assert web.process.wait(SECONDS) == 0, "its end"


def test_keys_of_who_may(at: Folder) -> None:
    """A bearer key reads, asks or operates, and no more; without one there is the page alone."""
    at.run("./shop start auction --sites 2")
    at.write_secret("keys", "".join(f"{may} {key} somebody\n" for may, key in KEYS.items()))
    for name, (text, _) in WRONG_KEYS.items():
        at.write_secret(name, text)
    os.chmod(at.path / "open", 0o644)
    web = Web(at, "--keys-file keys")
    tried = {None: (401, 401, 401), "read": (200, 403, 403), "ask": (200, 201, 403), "operate": (200, 409, 200)}
    for may, statuses in tried.items():
        words = ["-H", f"Authorization: Bearer {KEYS[may]}"] if may else []
        got = (web.get("/sites", *words).status, web.post("/sites/0/asks", {"record": "user,ann"}, *words).status,
               web.post("/sites/0/pass", {"to": 1}, *words).status)
        assert got == statuses, f"{may}: {got}"
    assert web.get("/sites", "-H", f"Authorization: Bearer {'x' * 32}").status == 401, "another key"
    assert web.get("/").status == 200 and web.get("/openapi.json").json["security"], "the page, and the description"
    assert web.post("/sites/0/asks", {"record": "pass,0"}, "-H", f"Authorization: Bearer {KEYS['ask']}").status == 400, "pass is no ask"
    at.run_at_once({f"./shop -C auction serve --keys-file {name}": why for name, (_, why) in WRONG_KEYS.items()}, 2)


def test_tls(at: Folder) -> None:
    """Over TLS an ask is answered; a key with a pass phrase is refused, since nobody is there to say it."""
    need("openssl")
    at.run("./shop start auction")
    at.run("openssl req -x509 -newkey ec -pkeyopt ec_paramgen_curve:prime256v1 -nodes -keyout key -out certificate -days 2 -subj /CN=localhost "
           "-addext subjectAltName=DNS:localhost,IP:127.0.0.1")
    at.write_secret("keys", f"ask {KEYS['ask']}\n")
    at.shop("serve --listen 0.0.0.0:0 --certificate certificate --private-key key", 2, "it takes --keys-file")
    at.shop("serve --certificate auction/shop.json --private-key key", 2, "auction/shop.json")
    at.run("openssl pkey -in key -aes128 -passout pass:word -out locked")
    at.shop("serve --certificate certificate --private-key locked", 2, "locked has a pass phrase")
    web = Web(at, "--certificate certificate --private-key key --keys-file keys")
    assert web.url.startswith("https://"), web.url
    assert web.post("/sites/0/asks", {"record": "user,ann"}, "--cacert", "certificate", "-H", f"Authorization: Bearer {KEYS['ask']}").status == 201, (
        "an ask over TLS")


def test_asked_again(at: Folder) -> None:
    """Under a key an ask is accepted once, whichever part is killed in between, and however many ask at once."""
    at.run("./shop start auction --sites 2")
    web = Web(at)
    twice = web.post("/sites/0/asks", {"record": "user,ann"}, "-H", "Idempotency-Key: a", "-H", "Idempotency-Key: b")
    assert (twice.status, web.get("/sites/0/users/0.1").status) == (400, 404), f"two keys: {twice}"
    first = web.ask(0, "user,ann", "a")
    assert (first.status, first.headers["location"]) == (201, "/sites/0/users/0.1"), f"the first: {first}"
    for part in ("keeper", "supervisor", "shop"):
        if part == "shop":
            at.run("./shop stop auction")
        else:
            at.kill(at.site(0)["pid"] if part == "keeper" else at.status()["pid"])
        at.run("./shop start auction")
        again = web.ask(0, "user,ann", "a")
        assert (again.status, again.json["id"], again.headers["idempotency-replayed"]) == (201, "0.1", "true"), f"again: {again}"
    assert (web.ask(0, "user,bob", "a").status, web.ask(0, "user,bob", "a").json["name"]) == (422, "KeyTaken"), "another record"
    with concurrent.futures.ThreadPoolExecutor(8) as pool:
        ids = {said.json["id"] for said in pool.map(lambda _: web.ask(0, "item,0.1,lamp,7,1,5,0", '"quoted"'), range(8))}
    assert ids == {"0.2"}, f"eight at once: {ids}"
    keeper = at.site(0)["pid"]
    with at.standing_still(keeper):
        late = web.post("/sites/0/asks?timeout=0.3", {"record": "user,cat", "key": "c"})
        assert (late.status, late.json["name"]) == (504, "Unknown"), f"no answer: {late}"
    assert web.ask(0, "user,cat", "c").json["id"] == "0.3" == web.ask(0, "user,cat", "c").json["id"], "once it goes on"
    at.run("./shop stop auction")
    away = web.ask(0, "user,dan", "d")
    assert (away.status, away.headers["retry-after"]) == (503, "1"), f"no shop: {away}"
    made = [line for line in at.text("auction/0/out").splitlines() if line.startswith("send,key,")]
    assert len(made) == 3, f"what was accepted: {made}"


def test_token_that_does_not_come(at: Folder) -> None:
    """An ask that waited for the token in vain is not accepted, and is tried anew under its key."""
    at.run("./shop start auction --sites 2")
    web = Web(at)
    with at.standing_still(at.site(0)["pid"]):
        said = web.post("/sites/1/asks?timeout=0.5", {"record": "user,ann", "key": "a"})
        assert (said.status, said.json["name"]) == (503, "Away") and "not accepted" in said.json["detail"], f"the token doesn't come: {said}"
    assert web.ask(1, "user,ann", "a").json["id"] == "1.1", "it comes"


def test_the_same_answers(at: Folder, web: Web) -> None:
    """By socket, by HTTP and by pipe."""
    records = [*SALE.split(), "bid,0.3,0.2,99", "user,ann", "bid,0.3,0.2,500", "nonsense", 'item,0.1,"a ""b""",7,1,5,0', "close,0.3,0.1"]
    by_pipe = [line.split(",", 2)[2] for line in at.run("printf '%s\\n' " + " ".join(f"'{record}'" for record in records) + " | ./rubis site")
               .splitlines() if line.startswith("reply")]
    by_http = web.post("/sites/0/asks", "\n".join(records), content=CSV)
    assert by_http.headers["content-type"] == CSV and by_http.text.splitlines() == by_pipe, f"by HTTP: {by_http}, by pipe: {by_pipe}"
    at.run("./shop start other")
    by_socket = [answer["lines"][0].split(",", 2)[2] for answer in at.said(json.dumps(
        {"op": "ask", "site": 0, "records": records, "timeout": 10, "fetch": True}).encode(), "other") if "lines" in answer]
    assert by_socket == by_pipe, f"by socket: {by_socket}"
    assert web.get("/sites/0/users?limit=1", "-H", f"Accept: {CSV}").text == "id,nickname,items,bought,rating,comments\n0.1,ann,2,0,0,0\n", "rows in CSV"
    lines = web.post("/sites/0/asks", "user,eve", "-H", "Accept: application/x-ndjson", content=CSV)
    assert lines.json["answer"] == "ok", f"CSV answered in JSON: {lines}"


def test_many(at: Folder, web: Web) -> None:
    """Answers to many asks are streamed; a request that is cut can be sent again whole; bad ones are refused before any is asked."""
    web.post("/sites/0/asks", "\n".join(SALE.split()), content=CSV)
    asks = [{"ask": "bid", "item": "0.3", "bidder": "0.2", "amount": 1000 + number, "key": f"k{number}"} for number in range(MANY)]
    (at.path / "asks").write_text(json.dumps(asks))
    bad = web.post("/sites/0/asks", [*asks[:2], {"ask": "bid", "item": "0.3"}])
    assert bad.status == 400 and "has no bidder, amount" in bad.json["detail"], f"one that isn't whole: {bad}"
    for body in ('{"ask": "bid"', "[1]", '{"ask": "walk"}', '{"record": 1}', '{"record": "user,a\\nuser,b"}', '{"record": "user,ann", "x": 1}',
                 '{"record": "list,users"}', '{"record": "token,1,2,0,0"}', '{"record": "user,ann", "key": ""}'):
        assert web.post("/sites/0/asks", body).status == 400, f"{body} is refused"
    assert web.post("/sites/0/asks", asks[:2], "-H", "Idempotency-Key: k").status == 400, "one key for two"
    first = web.post("/sites/0/asks", "@asks", "--max-time", "60")
    ids = [json.loads(line)["id"] for line in first.text.splitlines()]
    assert ids == [f"0.{number}" for number in range(4, MANY + 4)], f"the answers: {ids[:3]}.. {len(ids)}"
    at.kill(at.site(0)["pid"])
    again = web.post("/sites/0/asks", "@asks", "--max-time", "60")
    assert [json.loads(line)["id"] for line in again.text.splitlines()] == ids, "sent again"
    pages, after = [], ""
    while True:
        page = web.get(f"/sites/0/bids?item=0.3&limit=1000{after}").json
        pages += [row["id"] for row in page["rows"]]
        if page["next"] is None:
            break
        after = f"&after={page['next']}"
    assert pages == ids, "the pages are the listing"
    assert web.get("/sites/0/bids?item=0.3&after=7.7").status == 400, "after what isn't there"
    assert web.get("/sites/0/bids?item=0.3%0Auser,eve").status == 400, "a key with a line end"
    assert web.get("/sites/0/bids?item=0.3&color=red").status == 400, "what isn't there to say"


def test_bad_records_and_audits(web: Web) -> None:
    """Many records outside the grammar, of which the first are explained, and many audits at once hold nobody up for long."""
    said = web.post("/sites/0/asks", [{"record": "bid,0.3"}] * 3000).text
    assert (said.count("this record has 2"), said.count("BadRecord")) == (20, 3000 * 2), "how many are explained"
    with concurrent.futures.ThreadPoolExecutor(20) as pool:
        audits = [pool.submit(web.get, "/audit?timeout=50") for _ in range(20)]
        assert web.ask(0, "bid,0.3").json["detail"].endswith("this record has 2"), "one that is explained meanwhile"
        assert [audit.result().json["agrees"] for audit in audits] == [True] * 20, "each audit"


def test_a_client_that_goes(at: Folder, web: Web) -> None:
    """An ask that was given to the site stays, though its client has gone."""
    with at.standing_still(at.site(0)["pid"]):
        at.wait("the question whether it hangs, for one that has nothing to do", lambda: at.site(0)["waiting"] == 1)
        asker = at.start(f"""curl -sS --json '{{"record": "user,ann"}}' {web.url}/sites/0/asks""")
        at.wait("the ask behind it", lambda: at.site(0)["waiting"] == 2)
        at.kill(asker.pid)
    at.wait("the ask", lambda: "ann" in at.shop("list 0 users"))
    assert web.ask(0, "user,bob").status == 201, "the connection goes on"


def test_events(at: Folder, web: Web) -> None:
    """Events are told as they come, and go on when the supervisor comes back."""
    told = at.path / "told"
    with told.open("wb") as file:
        curl = subprocess.Popen(["curl", "-sSN", f"{web.url}/events"], stdout=file)
        try:
            at.wait("the status", lambda: '"well": true' in told.read_text())
            at.kill(at.site(0)["pid"])
            at.wait("the end of the keeper", lambda: "site 0: ended with status -9" in told.read_text())
            at.run("./shop stop auction")
            at.wait("the stop", lambda: '"away": ' in told.read_text())
            at.run("./shop start auction")
            at.wait("what came meanwhile", lambda: re.search(r'"away": .*supervisor: ended.*supervisor: started', told.read_text(), re.S))
            told_ids = re.findall(r"^id: (.*)$", told.read_text(), re.M)
            assert told_ids[:1] and len(set(told_ids)) == len(told_ids) and '"gap"' not in told.read_text()
            os.kill(web.process.pid, signal.SIGTERM)
            assert curl.wait(SECONDS) == 0 and web.process.wait(SECONDS) == 0, "a stop ends it well"
        finally:
            curl.kill()


def test_metrics(at: Folder) -> None:
    """What Prometheus reads has names by its conventions."""
    at.run("./shop start auction --sites 2")
    web = Web(at)
    web.ask(0, "user,ann")
    web.ask(0, "user,ann")
    text = web.get("/metrics").text
    for line in ('shop_http_asks_total{answer="NickTaken",site="0"} 1.0', 'shop_site_holds_token{site="0"} 1.0', 'shop_http_ask_seconds_count{site="0"} 2.0',
                 'shop_site_answers_total{answer="ok",site="0"} 1.0', 'shop_site_starts_total{site="1"} 1.0'):
        assert line in text.splitlines(), f"{line}: {text}"
    supervisor = at.status()["pid"]
    with at.standing_still(supervisor):
        began = time.monotonic()
        assert "shop_up 0.0" in web.get("/metrics").text and time.monotonic() - began < 9.0, f"a supervisor that hangs, {time.monotonic() - began:.1f} s"
    at.run("./shop stop auction")
    assert "shop_up 0.0" in web.get("/metrics").text, "a shop that is stopped"


def test_metrics_by_promtool(web: Web) -> None:
    """Prometheus's own tool finds no fault with them."""
    need("promtool")
    web.ask(0, "user,ann")
    done = subprocess.run(["promtool", "check", "metrics"], input=web.get("/metrics").text, text=True, capture_output=True)
    assert not done.returncode, done.stdout + done.stderr


def test_description(web: Web) -> None:
    """The description has each route once, and what it refers to; and each problem that it names is told of."""
    said = web.get("/openapi.json")
    for name in re.findall(r'"\$ref": "#/components/schemas/(\w+)"', said.text):
        assert name in said.json["components"]["schemas"], f"there is no {name}"
    operations = [operation for path in said.json["paths"].values() for operation in path.values()]
    names = [operation["operationId"] for operation in operations]
    assert len(set(names)) == len(names) > 20, f"the names: {names}"
    for path in said.json["paths"]:
        for name in re.findall(r"{(\w+)}", path):
            operation = said.json["paths"][path]["get" if "get" in said.json["paths"][path] else "post"]
            assert any(one["name"] == name and one["in"] == "path" for one in operation["parameters"]), path
    kinds = set(re.findall(r"(\w+): ", " ".join(answer["description"] for operation in operations for answer in operation["responses"].values())))
    for name in ("LowBid", "KeyTaken", "Unknown"):
        assert name in kinds and web.get(f"/problems/{name}").status == 200, f"the problem {name}"
    assert web.get("/problems/nothing").status == 404, "a problem that isn't there"
    refused = web.post("/sites/0/users", {})
    assert (refused.status, refused.headers["allow"]) == (405, "GET, HEAD"), f"what can't be done there: {refused}"


def raw(web: Web, *pieces: bytes) -> bytes:
    """What comes over a connection that is sent these pieces, until it is closed."""
    with web.line() as line:
        for piece in pieces:
            line.sendall(piece)
            time.sleep(0.1)
        return b"".join(iter(lambda: line.recv(1 << 16), b""))


def test_what_is_no_request(at: Folder, web: Web) -> None:
    """What isn't HTTP is told as a problem, and the connection closed."""
    for said in (b"nonsense\r\n\r\n", b"GET /sites HTTP/1.1\r\nHost: 127.0.0.1\r\nno header\r\n\r\n",
                 b"GET /sites HTTP/1.1\r\nHost: 127.0.0.1\r\nContent-Length: -1\r\n\r\n", b"GET /" + b"x" * 9000 + b" HTTP/1.1\r\n\r\n",
                 b"GET /sites HTTP/1.1\r\nHost: 127.0.0.1\r\nX: " + b"x" * 9000 + b"\r\n\r\n", b"\x16\x03\x01\x02\x00\x01\x00\r\n\r\n"):
        head, _, body = raw(web, said).partition(b"\r\n\r\n")
        assert b" 400 Bad Request" in head.split(b"\r\n")[0], f"{said[:50]!r}: {head!r}"
        assert b"Server: shop" in head and b"Content-Type: application/problem+json" in head, f"{said[:50]!r}: {head!r}"
        assert json.loads(body)["name"] == "BadRequest", f"{said[:50]!r}: {body!r}"
    for header, status, name in (("Host: evil", 421, "OtherHost"), ("Host: 127.0.0.1:1@evil", 421, "OtherHost"), ("Host: [::1", 421, "OtherHost"),
                                 ("Host:", 400, "BadRequest"), ("Expect: nothing", 417, "BadExpect"), ("Host: LOCALHOST:1", 200, "")):
        said_of = web.get("/problems/LowBid", "-H", header)
        assert (said_of.status, said_of.json.get("name", "")) == (status, name), f"{header}: {said_of}"
    for path, status in (("/sites/0/users?limit=%D9%A3", 400), ("/sites/%D9%A0/users", 404), ("/sites/0/users?limit=1&limit=2", 400),
                         ("/sites/0/users/0.1%0auser,eve", 400), ("/sites/0/users?nickname=ann%0d?state", 400), ("/sites/0/bids?item=0.3%0auser,eve", 400)):
        assert web.get(path).status == status, path
    assert at.shop("list 0 users").count("\n") == 1, "nothing was asked"


LONG = b"GET /sites/0/log?limit=10000 HTTP/1.1\r\nHost: 127.0.0.1\r\n\r\n"


def slowly(web: Web) -> tuple[int, int]:
    """How long an answer is, and how much of it comes to a client that reads slowly."""
    with web.line() as line:
        line.sendall(LONG)
        text = b""
        while b"\r\n\r\n" not in text:
            text += line.recv(1000)
        head, _, body = text.partition(b"\r\n\r\n")
        length, got = int(head.partition(b"Content-Length: ")[2].split(b"\r\n")[0]), len(body)
        while got < length and (data := line.recv(250_000)):
            got += len(data)
            time.sleep(0.1)
    return length, got


def test_idle_connections(at: Folder) -> None:
    """A connection on which no request comes, or none to its end, is closed; one that has a request under way isn't."""
    at.run("./shop start auction")
    web = Web(at, "--idle 3")
    head = b"POST /sites/0/asks HTTP/1.1\r\nHost: 127.0.0.1\r\nContent-Type: application/json\r\nContent-Length: 22\r\n\r\n"
    got = b"GET /problems/LowBid HTTP/1.1\r\nHost: 127.0.0.1\r\n\r\n"
    quotes = '"' * 402
    (at.path / "asks").write_text("\n".join([*SALE.split(), *[f"comment,0.3,0.2,0.1,5,{quotes}"] * 8000]))
    at.run("./shop -C auction ask 0 - < asks > answers")
    with concurrent.futures.ThreadPoolExecutor() as pool, socket.socket() as reader:
        reader.setsockopt(socket.SOL_SOCKET, socket.SO_RCVBUF, 4096)
        host, port = web.url.removeprefix("http://").split(":")
        reader.connect((host, int(port)))
        reader.sendall(LONG)
        slow = pool.submit(slowly, web)
        events = pool.submit(lambda: subprocess.run(["curl", "-sSN", "--max-time", "8", f"{web.url}/events"], capture_output=True))
        said = [*pool.map(lambda pieces: raw(web, *pieces), ([], [b"GET /sites HT"], [got], [head, b'{"record": '], [got, got[:30]]))]
        time.sleep(6.0)
        size = 0
        with contextlib.suppress(ConnectionResetError):
            while data := reader.recv(1 << 20):
                size += len(data)
        length, came = slow.result()
        assert length == came > 9_000_000, f"who reads slowly got {came} of {length} bytes"
        assert size < length, f"who reads nothing is cut off, and not when {size} bytes were sent"
    assert said[:2] == [b"", b""], f"nothing, and the beginning of a request: {said[:2]}"
    assert said[2].startswith(b"HTTP/1.1 200 ") and said[2].count(b"HTTP/1.1") == 1, f"one that isn't used any more: {said[2]!r}"
    assert said[3].startswith(b"HTTP/1.1 408 ") and b"within 3 s; nothing was asked" in said[3], f"half of a body: {said[3]!r}"
    assert said[4].count(b"HTTP/1.1 200 ") == 1, f"the beginning of a second request: {said[4]!r}"
    assert events.result().returncode == 28, "who reads events isn't cut off"
    assert web.get("/sites").status == 200, "it goes on"


def test_many_requests_at_once(web: Web) -> None:
    """Requests that come over one connection before the first of them is answered are not all kept, and each is answered."""
    most, size = 200_000, b"GET /sites/0/log HTTP/1.1\r\nHost: 127.0.0.1\r\n\r\n"
    sent = 0
    with web.line(1.5) as line:
        with contextlib.suppress(TimeoutError):
            while sent < most:
                line.sendall(1000 * size)
                sent += 1000
        assert (memory := kilobytes_of(web.process.pid)) < 90_000, f"its memory after {sent} requests: {memory} kB"
    count = 3000
    with web.line() as line:
        line.sendall(count * b"GET /problems/LowBid HTTP/1.1\r\nHost: 127.0.0.1\r\n\r\n")
        text = b""
        while text.count(b"HTTP/1.1 200") < count:
            assert bool(data := line.recv(1 << 16)), f"only {text.count(b'HTTP/1.1 200')} of {count} came"
            text += data


def test_no_more_files(at: Folder) -> None:
    """Where there are more connections than files for them it says so once, and goes on when some have gone."""
    at.run("./shop start auction")
    server = at.start("sh -c 'ulimit -n 64; exec ./shop -C auction serve --listen 127.0.0.1:0 --idle 2 > address 2> faults'")
    at.wait("the server", lambda: (at.path / "address").exists() and at.text("address").endswith("\n"))
    port = int(at.text("address").strip().strip("/").rpartition(":")[2])
    lines = [socket.create_connection(("127.0.0.1", port), SECONDS) for _ in range(100)]
    at.wait("what it says", lambda: at.text("faults"))
    time.sleep(1.5)
    for line in lines[:50]:
        line.close()
    at.wait("that it goes on", lambda: at.run(f"curl -sS --max-time 5 http://127.0.0.1:{port}/sites/0/log; true"))
    for line in lines:
        line.close()
    assert at.text("faults") == "shop serve: no more connections for now: Too many open files\n", f"what it says: {at.text('faults')[:500]}"
    assert server.poll() is None, "it runs"


def test_head(at: Folder) -> None:
    """HEAD is answered as GET is, without the body."""
    at.start_sale()
    web = Web(at)
    for path in ("/", "/sites", "/sites/0", "/sites/0/users", "/sites/0/users/0.1", "/sites/0/bids?item=0.3", "/sites/0/users/0.9", "/metrics",
                 "/openapi.json", "/nothing", "/events", "/sites/0/follow", "/sites/0/users?limit=0"):
        head = web.get(path, "--head")
        got = web.get(path) if "event-stream" not in head.headers.get("content-type", "") else head
        assert (head.status, head.text, head.headers.get("content-type")) == (got.status, "", got.headers.get("content-type")), f"{path}: {head}"
        if got.status == 200 and path not in ("/metrics", "/sites", "/sites/0"):
            assert head.headers.get("content-length") == got.headers.get("content-length"), f"{path}: {head}, {got}"
    assert web.get("/sites/0/asks", "--head").status == 405, "where there is no GET"


def test_description_is_valid(at: Folder) -> None:
    """The description is one by the rules of OpenAPI 3.1, with keys and without, as their validator says."""
    found = [PYTHON, *(path for folder in os.get_exec_path() if os.access(path := f"{folder}/python3", os.X_OK))]
    python = next((each for each in found if not subprocess.run([each, "-c", "import openapi_spec_validator"], capture_output=True).returncode), None)
    if not python:
        pytest.skip("no Python on this machine has openapi_spec_validator (pip install openapi-spec-validator)")
    at.run("./shop start auction")
    at.write_secret("keys", "".join(f"{may} {key} somebody\n" for may, key in KEYS.items()))
    for words in ("", "--keys-file keys"):
        said = Web(at, words).get("/openapi.json")
        validate = "import json, sys, openapi_spec_validator as v; v.OpenAPIV31SpecValidator(json.load(sys.stdin)).validate()"
        done = subprocess.run([python, "-c", validate], input=said.text, capture_output=True, text=True)
        assert done.returncode == 0, done.stderr[:1000]


TYPESCRIPT = """
import { ProblemError, ShopClient } from "./shop.js";

declare const process: { argv: string[] };
const [url, key] = process.argv.slice(2);
const shop = new ShopClient(url!, key);
const said: unknown[] = [];

const ann = { ask: "user", nickname: "ann" } as const;
said.push((await shop.postAsks(0, ann, { idempotencyKey: "order-17" })).id, (await shop.postAsks(0, ann, { idempotencyKey: "order-17" })).again);
for await (const told of shop.postAsksInLines(0, [{ record: "user,bob" },
  { ask: "item", seller: "0.1", name: "a/b, c", category: 7, stock: 3, start: 1, price: 80 },
  { ask: "bid", item: "0.3", bidder: "0.2", amount: 500, key: "k" }, { record: "user,eve", key: "k" }], { timeout: 5 })) {
  said.push("answer" in told ? told.problem?.name ?? told.id : told.problem.name);
}
said.push((await shop.getUser(0, "ann")).items, (await shop.getItem(0, "0.3")).name);
const page = await shop.listUsers(0, { limit: 1 });
said.push(page.rows[0]!.nickname, page.next, (await shop.listUsers(0, { limit: 1, after: page.next! })).rows[0]!.nickname);
said.push((await shop.listBids(0, { item: "0.3" })).rows.map((bid) => bid.amount));
for (const asked of [() => shop.postAsks(0, ann), () => shop.getUser(0, "no/body?"), () => new ShopClient(url!).getSites(), () => shop.getSite(9)]) {
  try {
    said.push(await asked());
  } catch (fault) {
    if (!(fault instanceof ProblemError)) throw fault;
    said.push([fault.name, fault.problem.status, fault.problem.number ?? null]);
  }
}
for await (const { event, data } of shop.getEvents()) {
  said.push(event, (data as { well: boolean }).well);
  break;
}
said.push((await shop.getAudit()).agrees, (await shop.getSites()).sites.length, (await shop.getMetrics()).includes("shop_up 1.0"));
console.log(JSON.stringify(said));
"""
TOLD = ["0.1", True, "0.2", "0.3", "0.4", "KeyTaken", 1, "a/b, c", "ann", "0.1", "bob", [500], ["NickTaken", 409, 5], ["NotFound", 404, None],
        ["Unauthorized", 401, None], ["NotFound", 404, None], "status", True, True, 1, True]


def test_typescript(at: Folder) -> None:
    """The types of the client in TypeScript hold, and node asks and reads a running shop by it."""
    need("tsc", "node")
    shutil.copy(TOP / "clients/shop.ts", at.path)
    (at.path / "trial.ts").write_text(TYPESCRIPT)
    (at.path / "package.json").write_text('{"type": "module"}')
    options = "--strict --noUncheckedIndexedAccess --noUnusedLocals --target ES2022 --module ES2022 --moduleResolution node --lib ES2022,DOM,DOM.Iterable"
    at.run(f"tsc {options} shop.ts trial.ts >&2")
    at.run("./shop start auction")
    at.write_secret("keys", f"operate {KEYS['operate']} somebody\n")
    said = json.loads(at.run(f"node trial.js {Web(at, '--keys-file keys').url} {KEYS['operate']}"))
    assert said == TOLD, f"what it says: {said}"


def test_page(at: Folder, browser: Browser) -> None:
    """The page of the running shop: an ask, a site that is killed, and a shop that is stopped while it is open."""
    at.run("./shop start auction --sites 2")
    web = Web(at)
    browser.call("Page.navigate", url=f"{web.url}/")
    browser.wait("document.getElementById('how')?.textContent === 'is well'")
    assert browser.value("document.querySelectorAll('#sites tr').length") == 2, "a row for each site"
    assert browser.value("document.getElementById('token').textContent").startswith("Site 0 holds the token"), "who has the token"
    browser.value("document.querySelector('#ask button').click()")
    browser.wait("document.getElementById('said').textContent === 'ok 0.1'")
    browser.value("document.querySelector('#ask button').click()")
    browser.wait("document.getElementById('said').textContent.startsWith('NickTaken: ')")
    os.kill(at.site(1)["pid"], signal.SIGSTOP)
    at.kill(at.site(1)["pid"])
    browser.wait("document.getElementById('events').textContent.includes('site 1: ended with status -9')")
    browser.wait("[...document.querySelectorAll('#sites tr')][1].textContent.includes('ended with status -9')")
    at.run("./shop stop auction")
    browser.wait("document.getElementById('how').textContent === \"can't be reached\"")
    at.run("./shop start auction")
    browser.wait("document.getElementById('how').textContent === 'is well'")
    faults = [fault for fault in browser.faults if "409" not in fault]
    assert not faults, f"what the page complained of: {faults}"


# What stands further right than the window, and isn't in what can be moved.
CUT_OFF = """[...document.querySelectorAll("body *")].filter(one => one.checkVisibility() && one.getBoundingClientRect().right > innerWidth + 0.5
  && !one.closest(".wide > *")).map(one => one.tagName + " " + one.id)"""


def test_page_of_a_phone_by_day_and_in_the_dark(at: Folder, browser: Browser) -> None:
    """The page opens with what happened last, cuts nothing off at 390 px, and each of its texts is read in both schemes."""
    at.run("./shop start auction --sites 2")
    web = Web(at, "--view view.db")
    web.post("/sites/0/asks", [{"record": "user,ann"}, {"record": f"item,0.1,{'w' * 64},7,1,1,1000000000000"}])
    at.kill(at.site(1)["pid"])
    at.wait("an event", lambda: "ended with status -9" in at.text("auction/events"))
    at.wait("a view", lambda: web.get("/sites/0/view").json.get("messages") == 2)
    browser.size(390, 800)
    for scheme in ("light", "dark"):
        browser.scheme(scheme)
        browser.call("Page.navigate", url=f"{web.url}/")
        browser.wait("document.querySelectorAll('#items tr').length === 1")
        browser.wait("document.getElementById('events').textContent.includes('site 1: ended with status -9')")
        browser.wait("(events => events.scrollTop + events.clientHeight >= events.scrollHeight - 4)(document.getElementById('events'))")
        browser.value("document.querySelector('#ask button').click()")
        browser.wait("document.getElementById('said').textContent.startsWith('NickTaken: ')")
        assert browser.value("document.documentElement.scrollWidth") == 390 and browser.value(CUT_OFF) == [], f"{scheme}: what is cut off"
        dark = browser.value("matchMedia('(prefers-color-scheme: dark)').matches")
        assert dark == (scheme == "dark") and browser.faint() == [], f"{scheme}: texts that are hard to read"
