"""What one asker, one reader or one lost file can do to all others."""

import gzip
import json
import os
import zlib

import pytest

from tests.folder import Folder, kilobytes_of
from tests.server import Server
from tests.web import CSV, Web


def test_a_lost_socket_comes_back(at: Folder) -> None:
    at.run("./shop start auction --sites 2")
    os.unlink(at.path / "auction/sock")
    at.wait("the socket", lambda: (at.path / "auction/sock").exists())
    assert at.shop("ask 0 user,ann") == "ok,0.1\n", "an ask behind it"
    (at.path / "auction/sock").unlink()
    (at.path / "auction/sock").write_text("no socket")
    at.wait("the socket in the place of a file", lambda: not (at.path / "auction/sock").is_file())
    assert at.shop("ask 0 user,bob") == "ok,0.2\n", "another one"
    at.shop("stop")
    assert not (at.path / "auction/sock").exists(), "it goes with the supervisor"


def test_a_request_of_long_records_keeps_the_connection(at: Folder, web: Web) -> None:
    """Each byte of its records takes six in JSON: in one piece they would be more than the supervisor takes."""
    record = f"comment,0.1,0.1,0.2,5,{chr(1) * 4000}\n"
    (at.path / "asks.csv").write_text(1000 * record)
    told = web.post("/sites/0/asks", "@asks.csv", "-H", "Expect:", content=CSV)
    assert told.status == 200 and told.text.count("refused") == 1000, "each is refused by the site"
    assert web.ask(0, "user,ann").status == 201, "and the next one is asked"


@pytest.mark.server
def test_two_sites_of_one_machine_are_taken_over(at: Folder, server: Server) -> None:
    """Neither can say any more what it had of the other one."""
    at.run(f"./shop start a --sites 3 --here 0 --over {server.over} --standby 1,2 --after 1")
    at.run(f"./shop start b --sites 3 --here 1,2 --over {server.over}")
    for site in (1, 2):
        at.wait("it yields", lambda: server.say(f"get auction:yields:{site}").startswith("1 "))
    at.shop("ask 1 user,ann", folder="b")
    at.shop("ask 2 item,1.1,lamp,7,3,100,80", folder="b")
    at.kill(at.status("b")["pid"])
    at.wait("both", lambda: json.loads(at.text("a/shop.json"))["here"] == [0, 1, 2])
    at.shop("wait 1 --timeout 30", folder="a")
    assert at.shop("ask 1 user,bob", folder="a") == "ok,1.2\n"
    assert at.shop("audit", folder="a") == "audit,Agree\n"
    at.run("./shop start b", 3)
    at.wait("that both are fenced", lambda: [site["state"] for site in at.status("b")["site"]][1:] == 2 * ["fenced"])
    assert at.shop("ask 1 user,carl", folder="b") == "ok,1.3\n", "an ask at the machine that they ran on goes where they run"
    assert "carl" in at.shop("list 1 users", folder="b") and at.shop("audit", folder="b") == "audit,Agree\n"


def test_an_audit_ends_with_its_client(at: Folder, web: Web) -> None:
    with at.standing_still(at.status()["site"][0]["pid"]):     # so that no log comes
        clients = [at.start(f"curl -s '{web.url}/audit?timeout=300'") for _ in range(2)]
        at.wait("two auditors", lambda: at.run(f"pgrep -c -P {web.process.pid}; true").strip() == "2")
        for client in clients:
            client.kill()
        at.wait("their end", lambda: at.run(f"pgrep -c -P {web.process.pid}; true").strip() == "0")
    assert web.get("/audit").json["agrees"]


def test_rubbish_in_the_place_of_a_life_fences_nobody(at: Folder, server: Server) -> None:
    server.start_shop()
    was = server.say("get auction:life:0").strip()
    server.say("set auction:life:0 rubbish")
    at.wait("what is wrong", lambda: "auction:life:0 has 'rubbish'" in at.status("a")["link"])
    assert at.site(0, "a")["state"] == "up"
    assert at.shop("ask 0 user,ann", folder="a") == "ok,0.1\n", "it goes on meanwhile"
    server.say(f"set auction:life:0 '{was}'")
    at.wait("the link", lambda: at.status("a")["link"] == "up")
    at.shop("wait 2", folder="b")
    assert "ann" in at.shop("list 2 users", folder="b")


def test_a_key_has_a_budget_of_requests_and_of_refused_records(at: Folder) -> None:
    """A site keeps what it refuses, and has room for so many records in all its time."""
    at.run("./shop start auction")
    at.write_secret("keys", f"ask {'a' * 32} ann\nread {'b' * 32} bob\n")
    web = Web(at, "--keys-file keys")
    ann, bob = ["-H", f"Authorization: Bearer {'a' * 32}"], ["-H", f"Authorization: Bearer {'b' * 32}"]
    (at.path / "asks.csv").write_text(30_000 * "bid,0.9,0.9,1\n")
    told = web.post("/sites/0/asks?timeout=60", "@asks.csv", "-H", "Expect:", *ann, content=CSV)
    *answers, last = told.text.splitlines()
    assert last.startswith("problem,429,TooMany,") and 20_000 <= len(answers) < 20_100, f"{len(answers)} refused, and then: {last}"
    assert at.site(0)["records"] < 21_000, "what was asked behind them"
    said = [web.post("/sites/0/asks", {"record": "bid,0.9,0.9,1"}, *ann) for _ in range(40)]
    assert [one.json["name"] for one in said].count("TooMany") > 20 and all(one.headers["retry-after"] == "1" for one in said if one.status == 429)
    assert web.get("/sites/0/users", *ann).status == 200, "rows are read all the same"
    web = Web(at, "--keys-file keys --requests 1")
    reads = [web.get("/sites/0/users", *bob) for _ in range(40)]
    assert [one.status for one in reads[:10]] == 10 * [200] and any(one.status == 429 and one.headers["retry-after"] == "1" for one in reads)


def test_a_page_of_another_origin_reads_nothing_without_a_key(web: Web) -> None:
    """It would have the browser of somebody who may read do it."""
    for site, status in (("cross-site", 403), ("same-site", 403), ("same-origin", 200), ("none", 200)):
        assert web.get("/sites", "-H", f"Sec-Fetch-Site: {site}").status == status, site
    assert web.get("/", "-H", "Sec-Fetch-Site: cross-site").status == 200, "a link to the page is followed"


def test_a_packed_body_is_unpacked_up_to_the_limit_and_for_known_keys_alone(at: Folder) -> None:
    """A few kilobytes may come to gigabytes."""
    at.run("./shop start auction")
    at.write_secret("keys", f"ask {'a' * 32} ann\n")
    web = Web(at, "--keys-file keys")
    key = ("-H", f"Authorization: Bearer {'a' * 32}")

    def post(body: bytes, *words: str, coding: str = "gzip") -> int:
        (at.path / "body").write_bytes(body)
        return web.post("/sites/0/asks", "@body", "-H", f"Content-Encoding: {coding}", "-H", "Expect:", *words).status
    # 200 MiB, of which each but the first comes to the same bytes, so two are packed.
    packer = zlib.compressobj(1, wbits=31)
    first, other = (packer.compress(bytes(1 << 20)) + packer.flush(zlib.Z_FULL_FLUSH) for _ in range(2))
    ask, bomb = gzip.compress(b'{"record": "user,ann"}'), first + 199 * other
    assert post(ask, *key) == 201
    assert post(bomb) == 401 and post(bomb, *key) == 413
    assert post(b"no gzip", *key) == 400 and post(ask[:-1], *key) == 400 and post(ask + b"x", *key) == 400
    assert post(ask, *key, coding="br") == 415
    assert (peak := kilobytes_of(web.process.pid, "VmHWM")) < 150_000, f"memory: {peak} kB"
