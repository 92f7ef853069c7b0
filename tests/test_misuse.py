"""What is said where something is wrong: what, where, and what to do."""

import socket

import pytest

from measure_shop import free_port
from tests.folder import Folder
from tests.needs import need
from tests.web import CSV, Web


def test_options_are_whole(at: Folder) -> None:
    """An option that there isn't is named, with the one that is meant, and nothing is done."""
    at.run("./shop start auction --site 3", 2, "there is no option --site; is --sites meant? (shop start --help)")
    assert not (at.path / "auction").exists()
    at.run("./shop --hlep", 2, "there is no option --hlep; is --help meant? (shop --help)")
    at.run("./shop ask --hlep", 2, "there is no option --hlep; is --help meant? (shop ask --help)")
    at.run("./shop ask 0 user,ann --time 5", 2, "there is no option --time; is --timeout meant?")
    at.run("./shop", 2, "a COMMAND is missing: start, run, stop,")


def test_a_listing_without_its_key(at: Folder) -> None:
    at.run("./shop list 0 items", 2, "items are listed by their category, as in: shop list 0 items 7")
    at.run("./shop list 1 comments", 2, "comments are listed by the user to whom they are, as in: shop list 1 comments 0.1")
    at.run("./shop list 0 users 7", 2, "list users takes no key, and '7' is one")


def test_a_program_that_is_none(at: Folder) -> None:
    """RUBIS that names another program, or none."""
    for command in ("start auction", "--version"):
        at.run(f"RUBIS=/bin/true ./shop {command}", 2, "/bin/true is no rubis: /bin/true --version says 'true (GNU coreutils)")
    at.run("RUBIS=nowhere ./shop start auction", 2, "there is no program nowhere (the variable RUBIS names it)")
    assert not (at.path / "auction").exists()
    at.run("./shop start auction")
    at.run("RUBIS=/bin/true ./shop -C auction audit", 1, "the auditor said ''")
    assert at.run("./shop --version").split()[2:4] == ["of", "rubis"]


def test_settings_that_are_missing(at: Folder) -> None:
    """A folder that has sites and no shop.json is a shop that lost it, and no new one."""
    at.run("./shop start auction --sites 2; ./shop -C auction ask 0 user,ann; ./shop stop auction; mv auction/shop.json aside")
    for command in ("start auction", "-C auction rebuild 1", "-C auction status", "-C auction ask 0 user,bob", "-C auction serve"):
        done = at.run(f"./shop {command} 2>&1; true")
        assert "auction/shop.json is missing, and auction has sites: put it back, or say what it had, as in: shop start auction --sites 2" in done, command
    at.run("./shop start auction --sites 2")
    assert at.shop("list 0 users").split()[-6:-4] == ["0.1", "ann"]


def test_a_server_that_is_not_there(at: Folder) -> None:
    need("python3:redis")
    at.run(f"./shop start auction --sites 2 --here 0 --over redis://127.0.0.1:{free_port()}/a", 3,
           "the server refuses connections: is redis-server running there, on that port?")
    at.run("./shop start other --sites 2 --over redis://no.such.name.invalid/a", 3, "no.such.name.invalid: no machine has this name")
    for place in ("localhost:99999/a", "localhost:x/a", "localhost:1:2/a", "/a", "localhost/"):
        at.run(f"./shop start third --over redis://{place}", 2, "--over is files or redis://HOST:PORT/NAME")


def test_settings_that_are_none(at: Folder) -> None:
    """A shop.json that somebody has changed."""
    at.run("mkdir auction")
    for text, says in (("{", "auction/shop.json is no JSON, from line 1, column 2 on; put it back as it was"), ("[]", "it is no object"),
                       ('"\\377"', "auction/shop.json is no text, from byte 1 on"), ('{"sites": "x"}', '`sites` can\'t be "x"'),
                       ('{"here": 0}', "`here` can't be 0"), ('{"sights": 1}', "there is no setting sights")):
        at.run(f"printf '{text}' > auction/shop.json; ./shop start auction", 2, says)


def test_values_of_options(at: Folder) -> None:
    """What is missing or is none of what can be said is named, and what can be."""
    at.run("./shop list 0", 2, "WHAT is missing (shop list --help)")
    at.run("./shop list 0 nothing", 2, "there is no WHAT 'nothing': it is one of 'users', 'items'")
    at.run("./shop keys", 2, "there is no COMMAND 'keys': it is one of 'start', 'run'")
    at.run("./shop ask x user,ann", 2, "argument SITE: 'x' is no number")
    at.run("./shop start auction --here x", 2, "'x' is no list of sites, as 0,2")
    for text in ("nan", "inf", "0", "-1", "soon"):
        at.run(f"./shop ask 0 user,ann --timeout={text}", 2, f"argument --timeout: '{text}' is no number of seconds above 0, as 2.5")
    assert not (at.path / "auction").exists()


def test_files_that_are_none(at: Folder) -> None:
    """A folder in place of a file, what isn't a database or a backup, and a shop that isn't there."""
    at.run("./shop start auction; mkdir place; echo nonsense > text")
    at.shop("backup place", 2, "place is a folder; name the file of the backup, as place/shop.tar.gz")
    assert not (at.path / "place.new").exists(), "nothing is left"
    at.shop("view text", 2, "text is no database; name a file that isn't there")
    at.shop("view place", 3, "place: Is a directory")
    at.run("./shop -C other restore text", 2, "text is no backup, or isn't whole; nothing was changed")
    at.run("./shop carry auction nowhere", 3, "nowhere: there is no shop (shop start)")


def test_what_cannot_be_served(at: Folder) -> None:
    need("python3:aiohttp")
    at.run("./shop start auction")
    with socket.socket() as other:
        other.bind(("127.0.0.1", 0))
        other.listen()
        where = f"127.0.0.1:{other.getsockname()[1]}"
        at.shop(f"serve --listen {where}", 3, f"{where}: another process listens there (--listen HOST:PORT)")
    for origin in ("shop.example", "https://shop.example/", "ftp://shop.example"):
        at.shop(f"serve --allow-origin {origin}", 2, f"--allow-origin is a scheme and a host, as https://shop.example, and not {origin}")
    at.shop("serve --keys-file nowhere", 3, "nowhere: No such file or directory")
    at.shop("serve --access-log /nowhere/log", 3, "/nowhere/log: No such file or directory")


ASKS = "/sites/0/asks"


@pytest.mark.parametrize("body, says", [
    ("{", "the body is no JSON"), ('"x"', 'an ask is an object, and not "x"'), ("[1]", "an ask is an object, and not 1"),
    ('{"ask": 1}', "`ask` is one of user, item"), ('{"ask": "user"}', "the ask user has no nickname"),
    ('{"ask": "user", "nickname": null}', "`nickname` is a text or a whole number"), ('{"ask": "user", "nickname": "ann", "x": 1}', "an ask has no x"),
    ('{"ask": "user", "nickname": "Ann"}', "`nickname`: a nickname has 1 to 20 of a-z"),
    ('{"ask": "item", "seller": "0.1", "name": "x", "category": 1000, "stock": 1, "start": 1, "price": 0}', "`category`: above 999"),
    ('{"record": 5}', "`record` and `key` are texts"), ('{"record": "\\ud800"}', "it isn't text; nothing was asked"),
    ('{"record": "list,users"}', "rows are read by GET")])
def test_asks_that_are_none(web: Web, body: str, says: str) -> None:
    """An ask in JSON is refused with the name of its member."""
    said = web.post(ASKS, body)
    assert said.status == 400 and says in said.json["detail"], said.text


def test_requests_that_are_none(web: Web) -> None:
    """What is wrong with a request is said by the name of the part of it."""
    web.at.run("printf 'user,\\377' > bytes; echo '{}' > unpacked")
    for said, says in (
            (web.get(ASKS, "-H", f"Content-Type: {CSV}", "--data-binary", "@bytes"), "the body is no text in UTF-8, from byte 5 on; nothing was asked"),
            (web.post(ASKS, "{}", "-H", "Content-Encoding: gzip"), "the body isn't packed by gzip, as its header says; nothing was asked"),
            (web.post("/sites/0/pass", {"to": 0, "x": 1}), 'the body is {"to": SITE}'),
            (web.get("/sites/0/items?category=x"), "`category` is a number from 0 to 999, and not x"),
            (web.get("/sites/0/items?category=1000"), "`category` is a number from 0 to 999, and not 1000"),
            (web.get("/sites/0/bids?item=x"), "`item` is an id, as 0.3, and not x"),
            (web.get("/sites/0/comments?to=ann"), "`to` is an id, as 0.1, and not ann"),
            (web.get("/sites/0/items?seller=ann"), "`seller` is an id, as 0.1, and not ann"),
            *((web.get(f"/sites/0/users?limit={limit}"), "`limit` is a number from 1 to 10000") for limit in ("x", 0, 10_001)),
            (web.get("/sites/0/users?x=1"), "there is no x here"),
            (web.get("/sites/0/users?after=zzz"), "there is no row 'zzz' in list,users")):
        assert said.status == 400 and says in said.json["detail"], said.text
    assert web.get("/nothing").status == 404 and web.get("/sites/9/view").json["detail"] == "there is no site 9: this shop has 1"
