"""A machine that stands by for another one."""

import json
import os
import signal
import time

import pytest

from measure_shop import free_port
from tests.conftest import Extent
from tests.folder import SALE, SECONDS, Counted, Folder
from tests.needs import PYTHON
from tests.server import Server
from tests.test_kills import Course, Trial

pytestmark = pytest.mark.server


class Line:
    """A line between a machine and the server, which can be cut."""

    CARRY = """
import asyncio, sys
async def carried(reader, writer):
    while data := await reader.read(65536):
        writer.write(data)
    writer.close()
async def connected(reader, writer):
    there, back = await asyncio.open_connection("127.0.0.1", int(sys.argv[2]))
    await asyncio.gather(carried(reader, back), carried(there, writer))
async def main():
    async with await asyncio.start_server(connected, "127.0.0.1", int(sys.argv[1])) as server:
        await server.serve_forever()
asyncio.run(main())
"""

    def __init__(self, at: Folder, server: Server) -> None:
        self.at, self.to, self.port = at, server.port, free_port()
        (at.path / "line.py").write_text(self.CARRY)
        self.over = server.over.replace(str(server.port), str(self.port))
        self.join()

    def join(self) -> None:
        self.process = self.at.start(f"{PYTHON} line.py {self.port} {self.to}")


def yields(at: Folder, server: Server) -> None:
    """Waits until site 2 yields to its standby."""
    at.wait("that site 2 yields", lambda: len(set(server.say("mget auction:life:2 auction:yields:2").split("\n")[:2])) == 1)


def start_with_standby(at: Folder, over_of_b: str, server: Server, after: int = 1) -> None:
    """Sites 0 and 1 in a, 2 in b, and c stands by for 2."""
    at.run(f"./shop start a --sites 3 --here 0,1 --over {server.over}")
    at.wait("site 2", lambda: at.run(f"./shop start b --sites 3 --here 2 --over {over_of_b} && echo up; true") == "up\n")
    at.run(f"./shop start c --sites 3 --standby 2 --after {after} --over {server.over}")
    at.shop(f"ask 0 {SALE}", folder="a")
    assert at.shop("ask 2 bid,0.3,0.2,500", folder="b") == "ok,2.1\n", "a bid at site 2"
    yields(at, server)
    assert at.site(2, "b")["yields"], "what the status of b says"


def is_fenced_and_equal(at: Folder, server: Server, status: str = "") -> None:
    """The machine that came back is fenced, and all that run have the same tables; so too where what it said last of its site stands on the
    server once more."""
    at.wait("the fence", lambda: at.site(2, "b")["state"] == "fenced")
    assert "c/2 has it" in at.site(2, "b")["fault"], at.site(2, "b")["fault"]
    if status:
        server.say(f"set auction:status:2 '{status}' px 3500")
    assert "ann" in at.shop("list 2 users", folder="b"), "what is asked there is answered where the site runs"
    at.read_all(0, 1, folder="a")
    at.read_all(2, folder="c")
    rows = [at.shop(f"ask {site} list,tables", folder=folder) for folder, site in (("a", 0), ("a", 1), ("c", 2))]
    assert rows[0] == rows[1] == rows[2], "the tables"
    assert at.shop("audit", folder="c") == "audit,Agree\n", "the audit"


def test_standby_of_one_that_stood_still(at: Folder, server: Server) -> None:
    """A supervisor stands still for longer than --after, with an ask under way: the standby takes its site over, and what was told ok is
    there. When it goes on, its ask isn't told ok, and it is fenced."""
    start_with_standby(at, server.over, server)
    supervisor, status = at.status("b")["pid"], server.say("get auction:status:2").strip()
    with at.standing_still(supervisor):
        asker = at.start("sh -c './shop -C b ask 2 comment,0.3,0.2,0.1,2,late --timeout 30 > said 2>&1'")
        at.wait("the standby", lambda: json.loads(at.text("c/shop.json"))["here"] == [2])
        assert at.shop("ask 2 bid,0.3,0.2,600 comment,0.3,0.2,0.1,5,good", folder="c") == "ok,2.2\nok,2.3\n", "it goes on, with the token"
        assert at.shop("ask 2 comment,0.3,0.2,0.1,4,well", folder="a") == "ok,2.4\n", "asked from elsewhere"
    asker.wait(SECONDS)
    told = at.text("said")
    assert "ok," not in told and ("isn't known" in told or "nothing was" in told), f"what the late asker is told: {told}"
    is_fenced_and_equal(at, server, status)
    at.run("./shop stop c; ./shop start c")
    assert at.site(2, "c")["state"] == "up" and json.loads(at.text("c/shop.json"))["here"] == [2], "it is a site of c from now on"
    # The old machine stands by in its turn.
    at.run("./shop stop b; ./shop start b --here '' --standby 2 --after 1")
    assert "standby for site 2, once it has been gone for 1 s" in at.run("./shop -C b status; true"), "what the status says"
    yields(at, server)
    at.shop("ask 2 comment,0.3,0.2,0.1,3,fair", folder="c")
    at.kill(at.status("c")["pid"])
    at.wait("the standby", lambda: json.loads(at.text("b/shop.json"))["here"] == [2])
    assert at.shop("ask 2 bid,0.3,0.2,900", folder="b") == "ok,2.6\n", "it goes on, with the token"
    assert "fair" in at.shop("list 2 comments 0.1", folder="b") and (at.path / "b/2.lost.1").exists(), "all that was told, and the old folder"
    at.run("./shop start c", 3, "b/2 has it")


def test_standby_of_one_that_was_cut_off(at: Folder, server: Server) -> None:
    """A machine is cut off from the server, and not dead: what is accepted there isn't told ok, and doesn't count; when it is reached
    again it is fenced."""
    line = Line(at, server)
    start_with_standby(at, line.over, server)
    at.kill(line.process.pid)
    said = at.run("./shop -C b ask 2 comment,0.3,0.2,0.1,2,late --timeout 1 2>&1", 3)
    assert "whether it was accepted isn't known (shop log 2)" in said and "ok," not in said, f"what is told where the server is away: {said}"
    assert ",ok,2.2\n" in at.shop("log 2", folder="b"), "it is accepted there"
    at.wait("the standby", lambda: json.loads(at.text("c/shop.json"))["here"] == [2])
    assert at.shop("ask 2 bid,0.3,0.2,600", folder="c") == "ok,2.2\n", "the number that nobody was told"
    line.join()
    is_fenced_and_equal(at, server)
    assert "late" not in at.shop("list 2 comments 0.1", folder="c"), "what was accepted while it was cut off doesn't count"
    at.run("./shop stop b")
    server.kill()
    at.run("./shop start b", 3, "site 2: takes no asks until it is known what the others have of it")
    time.sleep(1)
    at.shop("ask 2 comment,0.3,0.2,0.1,1,bad --timeout 1", 3, "nothing was given to it", folder="b")


def test_standby_and_a_rebuild(at: Folder, server: Server) -> None:
    """A site is made again while its standby waits: that doesn't take its place before the new folder was started, or two would have it."""
    start_with_standby(at, server.over, server, after=3)
    at.kill(at.status("b")["pid"])
    at.shop("rebuild 2", folder="b")
    at.wait("why not", lambda: "site 2: it isn't taken over: it hasn't said that it yields to a standby" in at.shop("log", folder="c"))
    at.goes_on("./shop start b", "2 bid,0.3,0.2,600", "2.2", "it goes on", "b")
    yields(at, server)
    at.run("./shop stop b")
    at.wait("the standby", lambda: json.loads(at.text("c/shop.json"))["here"] == [2])
    assert at.shop("ask 2 bid,0.3,0.2,700", folder="c") == "ok,2.3\n", "it takes over what yields again"
    at.shop("audit", folder="c")


def test_standby_that_comes_and_goes(at: Folder, server: Server) -> None:
    """Without a standby a site goes on while the server is away; with one it waits, also once it was killed and started again; and where
    the standby is gone it goes on as before. A standby takes nothing over that runs, nor what never said that it yields."""
    at.run(f"./shop start b --sites 3 --here 2 --over {server.over}")
    at.run(f"./shop start a --sites 3 --here 0,1 --over {server.over}; ./shop stop b")
    at.run(f"./shop start c --sites 3 --standby 2 --after 1 --over {server.over}")
    at.wait("why not", lambda: "site 2: it isn't taken over: it hasn't said that it yields to a standby" in at.shop("log", folder="c"))
    at.run("./shop start b")
    at.wait("that site 2 yields", lambda: at.site(2, "b")["yields"])
    time.sleep(3)
    assert at.status("c")["site"][2]["state"] == "up" and not (at.path / "c/2").exists(), "one that runs isn't taken over"
    server.kill()
    at.shop("ask 2 item,2.1,vase,7,1,1,0 --timeout 1", 1, folder="b")
    server.start()
    at.shop(f"ask 0 {SALE}", folder="a")
    at.shop("wait 2", folder="b")
    server.kill()
    at.shop("ask 2 comment,0.3,0.2,0.1,2,one --timeout 1", 3, "whether it was accepted isn't known", folder="b")
    at.kill(at.status("b")["pid"])
    at.run("./shop start b", 3, "link: down")
    at.shop("ask 2 comment,0.3,0.2,0.1,2,two --timeout 1", 3, "whether it was accepted isn't known", folder="b")
    server.start()
    at.wait("what was accepted", lambda: int(server.say("xlen auction:2")) == 2)
    at.run("./shop stop c")
    at.wait("that it has no standby", lambda: not at.site(2, "b")["yields"])
    server.kill()
    assert at.shop("ask 2 comment,0.3,0.2,0.1,2,three", folder="b") == "ok,2.3\n", "it goes on as before"


class TakeOvers(Trial):
    """Sites 0 and 1 are in a; 2 is in b, for which c stands by, or the other way round. Its machine is killed, or stands still, again and again."""

    def __init__(self, course: Course, at: Folder) -> None:
        super().__init__(course, at)
        self.parts = dict(zip((str(at.path / name) for name in "abc"), ([0, 1], [2], list[int]())))

    def start(self, folder: str) -> None:
        assert self.server
        here = ",".join(map(str, self.parts[folder]))
        self.shop(f"start --sites 3 --here '{here}' --over {self.server.over}" + " --standby 2 --after 1" * (not here), folder)

    def kill(self) -> bool:
        assert self.server
        _, *two = self.parts
        holder, other = sorted(two, key=lambda folder: not self.parts[folder])
        yields(self.at, self.server)
        time.sleep(self.dice.random())
        state, is_killed = self.status(holder), self.dice.often(0.7)
        for process in (state["pid"], state["site"][2]["pid"]):
            if is_killed:
                self.at.kill(process)
            else:
                os.kill(process, signal.SIGSTOP)
        self.at.wait("the standby", lambda: json.loads(self.at.text(f"{other}/shop.json"))["here"] == [2])
        self.parts[holder], self.parts[other] = [], [2]
        if not is_killed:
            for process in (state["site"][2]["pid"], state["pid"]):
                os.kill(process, signal.SIGCONT)
            self.at.wait("that it is fenced", lambda: self.status(holder)["site"][2]["state"] != "up" or self.status(holder)["site"][2]["pid"] is None)
            self.shop("stop", holder)
        self.start(holder)
        self.kills["killed" if is_killed else "stood still"] += 1
        return True


@pytest.mark.kill
@pytest.mark.slow
def test_take_overs_under_asks(at: Folder, extent: Extent, counted: Counted) -> None:
    """What is asked under keys, here or there, is accepted once, and each asker is told what is in the logs, whoever runs the site."""
    trial = TakeOvers(Course(extent.seed, extent.count(3), "always", elsewhere=True, sites=3), at)
    print(json.dumps(trial.run(), indent=1))
    assert not trial.asked.bad, "\n".join(trial.asked.bad)
    counted("take-overs under asks", sum(trial.kills.values()))
    counted("keys under which an ask was accepted once", trial.asked.keys)
