"""Machines of two versions in one shop: asks and lists go in each direction, and machines are upgraded one after the other under asks."""

import json
import subprocess
import threading
import time

import pytest
from tests.folder import Folder
from tests.needs import TOP
from tests.server import Server

BEFORE = "fb3c02f7"     # the version before, which has no `form` in its requests
EARLIER = "80c02a8"     # one whose statuses and calls have no life: it can't be asked from here, and may only read
PARTS = ("shop", "shop_ask", "shop_tool", "shop_web")


def old_shop(at: Folder, commit: str) -> str:
    """The command of an earlier version, in the test's folder."""
    parts = subprocess.run(["git", "-C", TOP, "ls-tree", "--name-only", commit, *PARTS], capture_output=True, text=True).stdout.split()
    if not parts:
        pytest.skip(f"{commit} isn't in this clone's history")
    (at.path / commit).mkdir()
    archive = subprocess.run(["git", "-C", TOP, "archive", commit, *parts], stdout=subprocess.PIPE, check=True).stdout
    subprocess.run(["tar", "-x", "-C", at.path / commit], input=archive, check=True)
    return f"RUBIS={at.program} ./{commit}/shop"


def test_beside_the_version_before(server: Server) -> None:
    """Site 0 is the version before, and sites 1 and 2 are this one: whatever is asked there of the other is answered."""
    at = server.at
    old = old_shop(at, BEFORE)
    at.run(f"{old} start a --sites 3 --here 0 --over {server.over}")
    at.run(f"./shop start b --sites 3 --here 1,2 --over {server.over}")
    assert at.run(f"{old} -C a ask 0 user,ann") == "ok,0.1\n"
    at.run(f"{old} -C a ask 1 user,bob --key k", 3, "site 1 takes no keys until each machine has said that it knows them")
    assert at.run(f"{old} -C a ask 1 user,bob") == "ok,1.1\n"
    assert at.run("./shop -C b ask 0 item,0.1,lamp,7,3,100,80 --key k") == at.run("./shop -C b ask 0 item,0.1,lamp,7,3,100,80 --key k") == "ok,0.2\n"
    at.run("./shop -C b ask 0 user,ann", 1, "the nickname belongs to a user")
    for shop, folder in ((old, "a"), ("./shop", "b")):
        for site in (0, 1, 2):
            at.run(f"{shop} -C {folder} wait {site}")
            assert "bob" in at.run(f"{shop} -C {folder} list {site} users"), f"{folder} lists {site}"
            assert json.loads(at.run(f"{shop} -C {folder} show {site} item 0.2 --json"))["name"] == "lamp"
        assert [one["state"] for one in json.loads(at.run(f"{shop} -C {folder} status --json"))["site"]] == ["up", "up", "up"]
        assert at.run(f"{shop} -C {folder} audit") == "audit,Agree\n"
    assert at.run(f"{old} -C a ask 2 bid,0.2,1.1,500 --published") == "ok,2.1\n" and at.run("./shop -C b ask 0 bid,0.2,1.1,600") == "ok,0.3\n"


def test_beside_an_earlier_version(server: Server) -> None:
    """One that says no life in its status can't be asked from here, and nor can a site here from there, which is told at once; what it reads is
    answered in its form."""
    at = server.at
    old = old_shop(at, EARLIER)
    at.run(f"{old} start a --sites 2 --here 0 --over {server.over}")
    at.run(f"./shop start b --sites 2 --here 1 --over {server.over}")
    assert at.run(f"{old} -C a ask 0 user,ann") == "ok,0.1\n"
    began = time.monotonic()
    at.run("./shop -C b ask 0 user,bob", 3, "site 0 runs on a machine with an earlier version of shop, which can't be asked from here")
    at.run(f"{old} -C a ask 1 item,0.1,lamp,7,1,5,0", 3, "this one names none: upgrade the machine here; nothing was asked")
    assert time.monotonic() - began < 8
    at.run("./shop -C b wait 1")
    assert "ann" in at.run(f"{old} -C a list 1 users")


def test_a_later_form(server: Server) -> None:
    """A request of a later form is refused with words, and fields and wants that aren't known are passed over."""
    at = server.start_shop().at
    life = json.loads(server.say("get auction:status:0"))["life"] if "life" in server.say("get auction:status:0") else ""
    request = json.dumps({"op": "list", "site": 0, "record": "list,users", "timeout": 5, "later": 1})
    for name, form in (("one", 2), ("two", 1)):
        server.say(f"xadd auction:wants '*' call {name} site 0 life '{life}' form {form} new x request '{request}'")
    server.say("xadd auction:wants '*' form 2 news x")
    python = ("import json, redis, zlib; server = redis.Redis(port=%d); "
              "print(json.dumps([json.loads(zlib.decompress(server.blpop('auction:answer:' + name, 20)[1]))[-1] for name in ('one', 'two')]))")
    first, second = json.loads(at.run(f'/usr/bin/python3 -c "{python % server.port}"'))
    assert "knows requests up to form 1, and this is of form 2: upgrade it; nothing was asked" in first["fault"] and second["rows"] == []
    assert json.loads(server.say("get auction:status:0"))["form"] == 1
    assert "want that isn't one" not in at.text("a/events")


class Asking:
    """Asks at each machine for sites of all machines, one behind the other, until it is ended. What has no answer isn't asked again."""

    def __init__(self, at: Folder, folders: list[str]) -> None:
        self.at, self.folders, self.is_over = at, folders, False
        self.told: dict[str, str] = {}          # what was accepted, and under which id
        self.unknown: set[str] = set()
        self.tools = dict.fromkeys(folders, "")
        self.thread = threading.Thread(target=self._run)
        self.thread.start()

    def _run(self) -> None:
        number = 0
        while not self.is_over:
            for folder in self.folders:
                number += 1
                name = f"u{number}"
                tool = self.tools[folder]
                command = f"{tool} -C {folder} ask {number % 3} user,{name} --timeout 5"
                done = subprocess.run(command, shell=True, cwd=self.at.path, capture_output=True, text=True)
                if done.stdout.startswith("ok,"):
                    self.told[name] = done.stdout.strip().removeprefix("ok,")
                elif "nothing was asked" not in done.stderr and "not accepted" not in done.stderr and "is not running" not in done.stderr:
                    self.unknown.add(name)

    def end(self) -> None:
        self.is_over = True
        self.thread.join()


@pytest.mark.slow
def test_an_upgrade_under_asks(server: Server) -> None:
    """Three machines are upgraded one after the other while all are asked: what was told ok stands there once, under its id; then asks have keys."""
    at = server.at
    old, folders = old_shop(at, BEFORE), ["a", "b", "c"]
    for site, folder in enumerate(folders):
        at.run(f"{old} start {folder} --sites 3 --here {site} --over {server.over}")
    asking = Asking(at, folders)
    asking.tools.update(dict.fromkeys(folders, old))
    try:
        for site, folder in enumerate(folders):
            before = len(asking.told)
            at.wait("asks", lambda: len(asking.told) >= before + 8)
            at.run(f"{old} stop {folder}")
            at.run(f"./shop start {folder}")
            asking.tools[folder] = "./shop"
        before = len(asking.told)
        at.wait("asks of all that are new", lambda: len(asking.told) >= before + 12)
    finally:
        asking.end()
    seller = next(iter(asking.told.values()))
    asks = [f"./shop -C {folder} wait {site}; ./shop -C {folder} ask {site} item,{seller},lamp,7,1,5,0 --key {folder}{site}"
            for folder in folders for site in range(3)]
    keyed = [at.run(ask) for ask in asks]
    assert keyed == [at.run(ask) for ask in asks] and len(set(keyed)) == 9
    for folder, site in zip(folders, range(3)):
        at.run(f"./shop -C {folder} wait {site}")
        users = {row.split()[1]: row.split()[0] for row in at.run(f"./shop -C {folder} list {site} users").splitlines()[1:]}
        assert asking.told.items() <= users.items() and users.keys() <= asking.told.keys() | asking.unknown
    assert at.run("./shop -C a audit") == "audit,Agree\n"
    assert len(asking.told) > 30
