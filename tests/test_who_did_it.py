"""Who asks over HTTP: keys that are bound to users, the access log, and what SIGHUP has read again."""

import json
import os
import signal
from typing import Any

from tests.folder import SALE, Folder
from tests.needs import need
from tests.web import Web

KEYS = {"read": "r" * 32, "ask": "a" * 32, "ask:0.2": "b" * 32, "ask:0.1,ask:0.2": "c" * 32, "operate": "o" * 32}


def header(may: str) -> tuple[str, str]:
    return "-H", f"Authorization: Bearer {KEYS[may]}"


def served(at: Folder, words: str = "") -> Web:
    at.run("./shop start auction")
    at.shop(f"ask 0 {SALE}")
    at.write_secret("keys", "".join(f"{may} {key} key of {may}\n" for may, key in KEYS.items()))
    return Web(at, f"--keys-file keys {words}")


def logged(at: Folder) -> list[dict[str, Any]]:
    return [json.loads(line) for line in at.text("log").splitlines()]


def test_keys_of_users(at: Folder) -> None:
    """A key that is bound to a user asks as that user alone, also among many asks."""
    web = served(at)
    both = "ask:0.1,ask:0.2"
    for record, may, status in (
            ("bid,0.3,0.2,500", "ask:0.2", 201), ("buy,0.3,0.2,1", "ask:0.2", 201), ("comment,0.3,0.2,0.1,5,good", both, 201),
            ('item,0.1,"a, b",7,1,5,0', "ask:0.2", 403), ('item,0.1,"a, b",7,1,5,0', both, 201), ("comment,0.3,0.1,0.2,5,good", "ask:0.2", 403),
            ("restock,0.3,0.1,1", "ask:0.2", 403), ("restock,0.3,0.1,1", both, 200), ("rename,0.1,anna", "ask:0.2", 403), ("rename,0.2,rob", "ask:0.2", 200),
            ("user,cat", both, 403), ("user,cat", "ask", 201), ("close,0.3,0.1", "ask:0.2", 403), ("close,0.3,0.1", both, 200), ("nonsense", both, 403)):
        said = web.post("/sites/0/asks", {"record": record}, *header(may))
        assert said.status == status, f"{record} with {may}: {said}"
    before = at.shop("list 0 users")
    many = web.post("/sites/0/asks", [{"record": "item,0.2,cup,7,1,5,0"}, {"ask": "item", "seller": "0.1", "name": "x", "category": 1, "stock": 1, "start": 1,
                                                                           "price": 0}], *header("ask:0.2"))
    assert many.status == 403 and "this key asks as 0.2 alone, and not as 0.1; nothing was asked" in many.json["detail"]
    assert at.shop("list 0 users") == before
    assert web.post("/sites/0/pass", {"to": 1}, *header("ask:0.2")).status == 403
    wrong = ("read:0.1", "ask:ann", "ask:", "operate:0.1")
    for may in wrong:
        at.write_secret(f"keys of {may}", f"{may} {'x' * 32}\n")
    why = ":1: a key may read, ask or operate, or ask as a user (ask:0.7)"
    at.run_at_once({f"./shop -C auction serve --keys-file 'keys of {may}'": why for may in wrong}, 2)


def test_access_log(at: Folder) -> None:
    """Each request has a line, with whose key it was and the id that its answer has; a client may name the id."""
    web = served(at, "--access-log log")
    asked = web.post("/sites/0/asks", {"record": "user,cat"}, *header("ask"))
    assert (logged(at)[-1] | {"seconds": 0, "at": ""}) == {
        "at": "", "level": "info", "id": asked.headers["x-request-id"], "whose": "key of ask", "from": "127.0.0.1", "method": "POST", "path": "/sites/0/asks",
        "status": 201, "seconds": 0}
    assert web.get("/sites/0/users?limit=x", *header("read"), "-H", "X-Request-Id: order-17").headers["x-request-id"] == "order-17"
    assert [(said["level"], said["id"], said["status"], said["path"]) for said in logged(at)[-1:]] == [("warning", "order-17", 400, "/sites/0/users?limit=x")]
    denied = web.get("/sites", "-H", "X-Request-Id: a b")
    assert (logged(at)[-1]["whose"], logged(at)[-1]["status"], logged(at)[-1]["id"]) == ("", 401, denied.headers["x-request-id"]) != ("", 401, "a b")
    at.run("./shop stop auction")
    assert web.get("/sites", *header("read")).status == 503 and logged(at)[-1]["level"] == "error"
    assert (at.path / "log").stat().st_mode & 0o077 == 0


def test_read_again(at: Folder) -> None:
    """SIGHUP: another certificate and other keys count from then on, the log is opened anew; what can't be read stays as it was."""
    need("openssl")
    at.run("./shop start auction")

    def certify(name: str) -> None:
        at.run(f"openssl req -x509 -newkey ec -pkeyopt ec_paramgen_curve:prime256v1 -nodes -keyout key -out certificate -days 2 -subj /CN={name} "
               "-addext subjectAltName=IP:127.0.0.1")
    certify("first")
    at.write_secret("keys", f"read {'r' * 32} one\n")
    web = Web(at, "--certificate certificate --private-key key --keys-file keys --access-log log")

    def status(key: str) -> int:
        return web.get("/sites", "--cacert", "certificate", "-H", f"Authorization: Bearer {key * 32}").status
    assert status("r") == 200
    certify("second")
    (at.path / "keys").write_text(f"read {'n' * 32} two\n")
    at.run("mv log log.1")
    os.kill(web.process.pid, signal.SIGHUP)
    at.wait("the log", lambda: (at.path / "log").exists())
    assert (status("n"), status("r")) == (200, 401), "and the certificate is the new one, else curl refuses it"
    assert [said["whose"] for said in logged(at)] == ["two", ""]
    (at.path / "keys").write_text("nonsense\n")
    os.kill(web.process.pid, signal.SIGHUP)
    assert status("n") == 200


def test_pages_of_other_origins(at: Folder) -> None:
    """A page of an origin that is allowed may ask, and reads what it needs of the answer; any other is refused as before."""
    at.run("./shop start auction")
    web = Web(at, "--allow-origin https://shop.example")
    wants = ("-X", "OPTIONS", "-H", "Access-Control-Request-Method: POST", "-H", "Access-Control-Request-Headers: content-type,idempotency-key")
    allowed = web.get("/sites/0/asks", *wants, "-H", "Origin: https://shop.example")
    assert (allowed.status, allowed.headers["access-control-allow-origin"]) == (204, "https://shop.example")
    assert "Idempotency-Key" in allowed.headers["access-control-allow-headers"]
    said = web.post("/sites/0/asks", {"record": "user,ann"}, "-H", "Origin: https://shop.example")
    assert (said.status, said.headers["access-control-allow-origin"], said.headers["vary"]) == (201, "https://shop.example", "Origin")
    other = web.get("/sites/0/asks", *wants, "-H", "Origin: https://other.example")
    assert other.status == 405 and "access-control-allow-origin" not in other.headers
    assert "access-control-allow-origin" not in web.get("/sites").headers


def test_members_are_named(web: Web) -> None:
    """What is wrong with an ask in JSON is told by the name of its member, with a record by its field."""
    item = {"ask": "item", "seller": "0.1", "name": "lamp", "category": 1000, "stock": 1, "start": 5, "price": 0}
    assert "the record isn't in the grammar: `category`: " in web.post("/sites/0/asks", item).json["detail"]
    assert "`nickname`: a nickname has 1 to 20" in web.post("/sites/0/asks", {"ask": "user", "nickname": "Ann"}).json["detail"]
    assert "field 2: a nickname has 1 to 20" in web.post("/sites/0/asks", {"record": "user,Ann"}).json["detail"]
    many = web.post("/sites/0/asks", [{"record": "user,ann"}, item]).text.splitlines()
    assert "`category`: " in many[1]
