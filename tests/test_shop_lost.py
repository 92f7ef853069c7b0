"""What a machine or the server loses: ends, folders, older copies; what is fenced, and how it is made again."""

import asyncio
import time

import pytest

from shop_tool.lives import lives_of
from shop_tool.settings import existing
from shop_tool.streams import Streams
from shop_tool.witness import witnessed
from tests.folder import SALE, Folder, sends
from tests.server import Server

pytestmark = pytest.mark.server


@pytest.fixture
def server(at: Folder) -> Server:
    """A server with a shop of three sites over it, and something sold at site 0."""
    return Server(at).start_sale()


def test_fence(at: Folder, server: Server) -> None:
    """A site whose folder has less than its stream is stopped before it gives a number twice, and rebuilt byte for byte, with the token."""
    at.shop("ask 0 'item,0.1,\"vase, blue\",7,1,100,0' restock,0.3,0.1,2", folder="a")
    at.shop("ask 2 rename,0.2,bea", folder="b")
    at.shop("ask 0 bid,0.3,0.2,500 close,0.3,0.1", folder="a")
    at.shop("wait 2", folder="b")
    was = sends(at, "a/0")
    assert at.status("a")["token"] == 0, "site 0 holds the token"
    at.shop("rebuild 0", 1, "a is running", folder="a")
    at.kill(at.status("a")["pid"])
    at.run("rm -r a/0")
    at.accepts_nothing("./shop start a", "its folder ends with 0-0 (shop rebuild 0)", "0 user,eve", "a")
    at.run("./shop stop a")
    assert "8 packets" in at.shop("rebuild 0", folder="a"), "what rebuild says"
    assert sends(at, "a/0") == was, "the same packets"
    at.goes_on("./shop start a", "0 user,eve", "0.8", "it holds the token still", "a")
    # kept loses its end: it starts only as long as nobody has more of it.
    at.run("./shop stop a")
    (at.path / "a/0/kept").write_text("user,ann\n")
    (at.path / "a/0/out").unlink()
    at.run("./shop start a", 3, "shop rebuild 0")
    at.run("./shop stop a")
    at.shop("rebuild 0", folder="a")
    at.run("./shop start a")
    at.shop("audit", folder="b")


def test_lost_twice(at: Folder, server: Server) -> None:
    """A folder is lost, and the server has lost its end: what the others have of the site goes into its stream first."""
    at.shop("ask 2 bid,0.3,0.2,500", folder="b")
    at.shop("ask 0 bid,0.3,0.2,600", folder="a")
    at.shop("ask 2 bid,0.3,0.2,700 comment,0.3,0.2,0.1,5,good", folder="b")
    at.read_all(0, 1, folder="a")
    at.read_all(2, folder="b")
    was = sends(at, "a/0")
    at.run("./shop stop a; ./shop stop b; rm -r a/0")
    # Two messages and both tokens of site 0.
    entries = server.say("xrange auction:0 - +").split("\n")
    packets = list(zip(entries[0::3], entries[2::3]))
    server.say("del auction:0")
    for name, packet in packets[:2]:
        server.say(f"xadd auction:0 {name} p '{packet}'")
    at.run("./shop start a", 3, "shop rebuild 0")
    at.run("./shop stop a")
    at.shop("rebuild 0", 1, "site 2 isn't running, and may have more of site 0", folder="a")
    at.run("./shop start b")
    at.shop("rebuild 0", folder="a")
    assert sends(at, "a/0") == was, f"the same packets: {sends(at, 'a/0')}"
    at.goes_on("./shop start a", "0 bid,0.3,0.2,800", "0.5", "its next number, with one token in the shop", "a")
    at.read_all(0, 1, folder="a")
    at.read_all(2, folder="b")
    at.shop("audit", folder="b")


def test_lost_over_files(at: Folder) -> None:
    """Over files a folder that was lost, or set back, is fenced, and made again from what the others have kept."""
    at.start_sale(3, published=True)
    at.shop("ask 2 bid,0.3,0.2,500")
    at.shop("ask 0 bid,0.3,0.2,600")
    at.shop("ask 1 comment,0.3,0.2,0.1,5,good rename,0.2,bea")
    at.read_all(*range(3))
    was = sends(at, "auction/0")
    at.shop("stop")
    at.run("cp -r auction/0 aside; rm -r auction/0")
    at.accepts_nothing("./shop start auction", "messages of it, and its folder has 0 (shop rebuild 0)", "0 user,eve")
    assert at.shop("ask 2 comment,0.3,0.2,0.1,4,well") == "ok,2.2\n", "the others go on"
    at.shop("stop")
    at.run("mv auction/2 gone")
    at.shop("rebuild 0", 1, "site 2 has no folder, and may have more of site 0")
    at.run("mv gone auction/2")
    at.shop("rebuild 0")
    assert sends(at, "auction/0") == was, f"the same packets: {sends(at, 'auction/0')}"
    at.goes_on("./shop start auction", "0 user,cat", "0.5", "it goes on", audit="auction")
    # Its files lost their ends with the power.
    at.shop("stop")
    for name, lines in (("kept", 2), ("out", 4)):
        path = at.path / "auction/0" / name
        path.write_text("".join(path.read_text().splitlines(keepends=True)[:lines]))
    at.run("./shop start auction", 3, "site 1 has 5 messages of it, and its folder has 2 (shop rebuild 0)")
    at.shop("stop")
    assert "what was there is auction/0.lost.1" in at.shop("rebuild 0"), "the old folder is kept"
    at.goes_on("./shop start auction", "0 user,dan", "0.6", "it goes on", audit="auction")


def test_rebuilt_with_what_was_left(at: Folder) -> None:
    """What a folder has of the others is taken along where it is made again, since nothing else may have that any more."""
    at.start_sale(2, published=True)
    at.shop("ask 1 comment,0.3,0.2,0.1,5,good --published")
    at.run("cp -a auction/1 older; ./shop stop auction; ./shop start auction; ./shop stop auction")
    put_back(at, "auction/1", "older")
    at.run("rm -r auction/0; ./shop start auction", 3, "shop rebuild 1")
    at.shop("stop")
    at.shop("rebuild 1")
    assert "3 packets" in at.shop("rebuild 0"), "all that site 0 sent"
    at.run("./shop start auction")
    at.read_all(0, 1)
    assert "bob" in at.shop("list 0 users") and "good" in at.shop("list 0 comments 0.1"), "all that was accepted"
    assert at.shop("audit") == "audit,Agree\n", "the audit"


def put_back(at: Folder, folder: str, copy: str) -> None:
    """Puts the files of a site's folder back to a copy; the folder itself stays the same one."""
    at.run(f"rm -f {folder}/* && cp -a {copy}/. {folder}/")


def test_a_rebuild_has_the_sites_beside_it_compared(at: Folder) -> None:
    """It may bring a later turn of the token than the machine's memory of their folders knows."""
    at.run("./shop start auction --sites 2; ./shop stop auction")
    folder = f"{at.path}/auction/0"
    assert witnessed(folder, lives_of(folder)) is not None, "its machine remembers it"
    at.shop("rebuild 1")
    assert witnessed(folder, lives_of(folder)) is None, "and no more"
    at.run("./shop start auction")
    assert at.shop("ask 0 user,ann") == "ok,0.1\n", "it is compared, and goes on"


def test_older_copy_that_lacks_a_pass(at: Folder) -> None:
    """A folder is put back to a copy of the same life that lacks nothing but that the token was passed on: it would be there twice."""
    at.start_sale(2, published=True)
    at.run("cp -a auction/0 aside")
    at.shop("pass 0 1")
    at.shop("wait 1")
    at.wait("the token", lambda: at.status()["token"] == 1)
    at.run("./shop stop auction")
    put_back(at, "auction/0", "aside")
    why = "site 1 has had the token of turn 1, and its folder holds that of turn 0 (shop rebuild 0)"
    at.accepts_nothing("./shop start auction", why, "0 user,eve")
    assert at.text("auction/0/fenced") == f"{why}\n", "why it is stopped"
    at.run("./shop stop auction; ./shop -C auction rebuild 0; ./shop start auction")
    assert at.shop("ask 1 user,cat") + at.shop("ask 0 user,dan") == "ok,1.1\nok,0.4\n", "red asks at each"
    assert at.shop("audit") == "audit,Agree\n", "the audit"


def test_lost_what_came_and_went(at: Folder) -> None:
    """A folder has lost that the token came and was passed on, and says truly that it doesn't hold it: that turn would be passed on twice."""
    at.run("./shop start auction --sites 2")
    for site, turn in ((0, 1), (1, 2), (0, 3)):
        at.shop(f"pass {site} {1 - site}")
        at.wait("the token", lambda: at.status()["token"] == 1 - site and at.status()["token_turn"] == turn)
    at.run("./shop stop auction; sed -i '$d' auction/0/kept; sed -i '$d' auction/0/kept; for line in 1 2 3; do sed -i '$d' auction/0/out; done")
    why = "site 1 has had the token of turn 3, and its folder doesn't know that it had that of turn 2 (shop rebuild 0)"
    at.accepts_nothing("./shop start auction", why, "0 user,eve")
    at.goes_on("./shop stop auction; ./shop -C auction rebuild 0; ./shop start auction", "0 user,cat", "0.1", "it goes on", audit="auction")


def test_what_a_fenced_site_sent_is_carried(at: Folder) -> None:
    """Over files, to a site whose folder has lost most of it, with the token; nothing is written into its folder."""
    at.start_sale(3, published=True)
    at.shop("pass 0 2")
    assert at.shop("ask 0 item,0.1,vase,7,1,1,0 --published") == "ok,0.4\n", "what only its folder loses"
    at.wait("the token", lambda: at.status()["token"] == 2)
    at.read_all(1, 2)
    at.run("./shop stop auction; sed -i '$d' auction/0/kept; sed -i '$d' auction/0/out; sed -i '$d' auction/0/out; sed -i '2,$d' auction/2/kept auction/2/out")
    at.run("./shop start auction", 3, "site 1 has 4 messages of it, and its folder has 3 (shop rebuild 0)")
    was = at.text("auction/0/kept"), at.text("auction/0/out")
    for start in ("true", "./shop stop auction; sed -i '2,$d' auction/2/kept auction/2/out; ./shop start auction || true"):     # it is fenced as that begins
        at.run(start)
        at.wait("what it sent", lambda: at.site(2)["messages"] == 3 and at.status()["token"] == 2)
    assert at.shop("ask 2 user,cat") == "ok,2.1\n", "the token is there"
    assert (at.text("auction/0/kept"), at.text("auction/0/out")) == was, "its folder"


def test_fenced_for_good(at: Folder, server: Server) -> None:
    """A folder is lost, and its site is fenced; then the server loses all: it is fenced still, and goes on once it is rebuilt."""
    at.shop("wait 2", folder="b")
    at.run("./shop stop a; rm -r a/0")
    at.run("./shop start a", 3, "and its folder ends with 0-0 (shop rebuild 0)")
    at.run("./shop stop a; ./shop stop b")
    server.say("flushall")
    at.accepts_nothing("./shop start a", "and its folder ends with 0-0 (shop rebuild 0)", "0 user,eve", "a")
    at.run("./shop start b; ./shop stop a")
    at.shop("rebuild 0", folder="a")
    at.goes_on("./shop start a", "0 user,eve", "0.4", "its next number", "a", audit="b")


def test_copy_on_the_same_machine(at: Folder, server: Server) -> None:
    """What stands in memory of a folder isn't said of a copy of it, made in the same start of the machine."""
    at.run("./shop stop a; cp -a a c")
    server.kill()
    at.accepts_nothing("./shop start c", "takes no asks until it is known what the others have of it", "0 user,eve --timeout 1", "c")
    at.goes_on("./shop stop c; ./shop start a; true", "0 item,0.1,vase,7,1,1,0", "0.4", "the original goes on", "a")


@pytest.mark.parametrize("options", ["", "--sync"])
def test_older_copy(at: Folder, options: str) -> None:
    """Over files a site's folder is put back to an older copy, in the same boot, made before its last start or after it: it accepts
    nothing, also where the others have no more of it, and goes on once it is rebuilt."""
    at.start_sale(2, options, published=True)
    at.run("cp -a auction/0 while_it_runs; ./shop stop auction; cp -a auction/0 stopped; ./shop start auction")
    at.shop("stop")
    put_back(at, "auction/0", "stopped")
    at.run("./shop start auction", 3, "its folder is a copy, or was put back to an earlier state")
    at.run("./shop stop auction; ./shop -C auction rebuild 0; ./shop start auction; cp -a auction/0 while_it_runs")
    assert at.shop("ask 0 user,cat --published") == "ok,0.4\n", "it goes on, and accepts more"
    at.shop("stop")
    put_back(at, "auction/0", "while_it_runs")
    at.accepts_nothing("./shop start auction", "site 1 has 4 messages of it, and its folder has 3 (shop rebuild 0)", "0 user,eve --timeout 1")
    at.goes_on("./shop stop auction; ./shop -C auction rebuild 0; ./shop start auction", "0 user,eve", "0.5", "no number is given twice")
    at.shop("wait 1")
    at.shop("audit")


def test_older_copy_without_its_server(at: Folder, server: Server) -> None:
    """Over a server that is away a folder that was put back to an older copy accepts nothing, until it is known what the others have;
    one that has all it answered goes on at once, though its supervisor was killed. --alone takes the risk."""
    at.run("./shop stop b; ./shop stop a; cp -a a/0 older; ./shop start a")
    at.shop("ask 0 user,cat --published", folder="a")
    server.kill()
    assert at.shop("ask 0 user,dan", folder="a") == "ok,0.5\n", "a site that was opened goes on without the server"
    at.kill(at.status("a")["pid"])
    at.run("cp -a a/0 newest; ./shop start a", 3, "link: down")
    assert at.shop("ask 0 user,eve", folder="a") == "ok,0.6\n", "it has all that it answered"
    at.kill(at.status("a")["pid"])
    put_back(at, "a/0", "newest")
    at.accepts_nothing("./shop start a", "site 0: takes no asks until it is known what the others have of it (or --alone)", "0 user,fay --timeout 1", "a")
    at.run("./shop stop a; ./shop start a --alone", 3, "link: down")
    assert at.shop("ask 0 user,fay", folder="a") == "ok,0.6\n", "at the operator's risk a number is given twice"
    at.run("./shop stop a")
    put_back(at, "a/0", "older")
    at.accepts_nothing("./shop start a", "takes no asks", "0 user,gus --timeout 1", "a")
    server.start()
    at.wait("the fence", lambda: at.site(0, "a")["state"] == "fenced")
    assert "had its packet 4-0" in at.site(0, "a")["fault"], "what it says"
    at.goes_on("./shop stop a; ./shop -C a rebuild 0 --anyway; ./shop start a; ./shop start b", "0 user,gus", "0.5", "it goes on", "a", audit="b")


def test_copy_with_the_same_end(at: Folder, server: Server) -> None:
    """An older copy whose last packet is the last one of its stream is fenced: it lacks an ask that was told ok, and may give its number
    again."""
    at.run("./shop stop a; cp -a a/0 older; ./shop start a")
    server.kill()
    assert at.shop("ask 0 restock,0.3,0.1,2", folder="a") == "ok,0.4\n", "an ask without the server"
    at.run("./shop stop a")
    put_back(at, "a/0", "older")
    server.start()
    at.run("./shop start a", 3, "its folder is a copy, or was put back to an earlier state: this is its start 2")
    at.shop("ask 0 restock,0.3,0.1,5 --timeout 1", 3, "nothing was given to it", folder="a")


def test_backup_of_yesterday(at: Folder, server: Server) -> None:
    """A machine is gone and comes back from a backup: it is fenced, and says what to do; after that all tables are equal."""
    at.shop("ask 2 bid,0.3,0.2,500", folder="b")
    at.run("cp -a b yesterday")
    at.shop("ask 2 bid,0.3,0.2,600 comment,0.3,0.2,0.1,5,good --published", folder="b")
    at.kill(at.status("b")["pid"])
    at.run("rm -r b; cp -a yesterday b; rm -f b/sock")
    at.accepts_nothing("./shop start b", "had its packet 3-0, and its folder ends with 1-0 (shop rebuild 2)", "2 comment,0.3,0.2,0.1,1,bad", "b")
    at.goes_on("./shop stop b; ./shop -C b rebuild 2; ./shop start b", "2 bid,0.3,0.2,700", "2.4", "it goes on, with the token", "b")
    at.shop("wait 0", folder="a")
    rows = at.shop("ask 0 list,tables", folder="a")
    assert "good" in rows and at.shop("ask 2 list,tables", folder="b") == rows, "the tables"
    at.shop("audit", folder="a")


def test_older_copy_and_an_empty_server(at: Folder) -> None:
    """The server has lost all, and a folder is put back to an older copy: a site beside it has more of it."""
    server = Server(at)
    at.run(f"./shop start a --sites 2 --over {server.over}")
    at.shop(f"ask 0 {SALE}", folder="a")
    at.run("cp -a a/0 older; ./shop -C a ask 0 user,cat; ./shop -C a wait 1")
    at.kill(at.status("a")["pid"])
    server.say("flushall")
    put_back(at, "a/0", "older")
    at.accepts_nothing("./shop start a", "site 1 has 4 messages of it, and its folder has 3 (shop rebuild 0)", "0 user,dan", "a")
    at.goes_on("./shop stop a; ./shop -C a rebuild 0; ./shop start a", "0 user,dan", "0.5", "no number is given twice", "a", audit="a")


def test_lost_folder_and_an_empty_server(at: Folder, server: Server) -> None:
    """A folder is lost, and the server has lost all: its site waits for the others, since any of them may have more of it, and is fenced
    then. Sites that lost nothing but the memory of their machines wait for each other, and go on; a new shop waits for nobody."""
    at.shop("ask 2 bid,0.3,0.2,500", folder="b")
    at.shop("wait 0", folder="a")
    at.run("./shop stop b; ./shop stop a; rm -r b/2")
    server.say("flushall")
    at.accepts_nothing("./shop start b", "site 2: takes no asks until it is known what sites 0, 1 have of it (or --alone)", "2 user,eve --timeout 1", "b")
    assert at.site(2, "b")["state"] == "waiting" and " waiting " in at.run("./shop -C b status; true"), "what the status says"
    at.run("./shop start a; true")
    at.wait("the fence", lambda: at.site(2, "b")["state"] == "fenced")
    assert "site 0 has 1 messages of it, and its folder has 0 (shop rebuild 2)" in at.site(2, "b")["fault"], at.site(2, "b")["fault"]
    at.goes_on("./shop stop b; ./shop -C b rebuild 2; ./shop start b", "2 bid,0.3,0.2,600", "2.2", "no number is given twice, and the token is there", "b")
    at.run("./shop stop b; ./shop stop a; rm -f /dev/shm/rubis-shop.$(id -u)/$(head -n 1 a/0/life) /dev/shm/rubis-shop.$(id -u)/$(head -n 1 b/2/life)")
    server.say("flushall")
    for folder in "ab":
        at.start(f"./shop start {folder}")
    at.wait("both", lambda: all((at.path / folder / "sock").exists() for folder in "ab"))
    at.wait("both", lambda: all(one["state"] == "up" for folder in "ab" for one in at.status(folder)["site"]))
    assert at.shop("ask 0 user,dan", folder="a") == "ok,0.4\n", "they go on"
    at.shop("audit", folder="b")


def test_other_past(at: Folder, server: Server) -> None:
    """A folder that went on at its operator's risk is compared packet by packet with what the others have, though its last one is equal."""
    at.run("cp -a a/0 older")
    at.shop("ask 0 user,cat restock,0.3,0.1,1 --published", folder="a")
    server.kill()
    at.run("./shop stop a")
    put_back(at, "a/0", "older")
    at.run("./shop start a --alone", 3, "link: down")
    assert at.shop("ask 0 user,eve restock,0.3,0.1,1", folder="a") == "ok,0.4\nok,0.5\n", "numbers that are given twice"
    server.start()
    at.wait("the fence", lambda: at.site(0, "a")["state"] == "fenced")
    assert "has another packet 4-0 of it: two processes were this site" in at.site(0, "a")["fault"], at.site(0, "a")["fault"]


CLONE = """
import os
stat = os.stat
os.stat = lambda path, *words, **named: stat(path.replace("/c/2", "/b/2") if isinstance(path, str) else path, *words, **named)
"""


def test_cloned_image(at: Folder, server: Server) -> None:
    """A clone of a machine's disk, whose folder has the name of the original: it is fenced while that runs, and once it has run since."""
    at.shop("wait 2", folder="b")
    (at.path / "sitecustomize.py").write_text(CLONE)
    start = f"PYTHONPATH={at.path} ./shop start c"
    at.run(f"cp -a b c; {start}", 3, "runs it (shop adopt 2, if that is gone for good)")
    at.goes_on("./shop stop c; ./shop stop b; rm -r c; cp -a b c; ./shop start b", "2 comment,0.3,0.2,0.1,5,good", "2.1", "the original goes on", "b")
    at.run("./shop stop b")
    at.run(start, 3, "shop rebuild 2")
    at.shop("ask 2 comment,0.3,0.2,0.1,1,bad --timeout 1", 3, "nothing was given to it", folder="c")
    at.run("./shop stop c; rm -r c; cp -a b c")
    at.run(f"{start}; ./shop stop c")
    at.run("./shop start b", 3, "its folder is a copy, or was put back to an earlier state")


def test_rebuilt_and_forgotten(at: Folder, server: Server) -> None:
    """A folder was made again, and the server has lost the end that says so: the folder isn't fenced as one that takes another's place."""
    keys = {key: server.say(f"get auction:{key}:0").strip() for key in ("owner", "life")}
    at.kill(at.status("a")["pid"])
    at.run("rm -r a/0; ./shop -C a rebuild 0; ./shop start a")
    for key, value in keys.items():
        server.say(f"set auction:{key}:0 '{value}'" if value else f"del auction:{key}:0")
    time.sleep(2.5)
    assert at.shop("ask 0 user,cat", folder="a") == "ok,0.4\n", "it goes on"
    at.goes_on("./shop stop a; ./shop start a", "0 user,dan", "0.5", "it goes on after a start", "a")


def test_a_life_that_is_said_late(at: Folder, server: Server) -> None:
    """What a process had sent off that has died, the life that it begins, arrives once its site was made again: that doesn't stop the new folder."""
    at.kill(at.status("b")["pid"])
    life, owner = (server.say(f"get auction:{key}:2").strip() for key in ("life", "owner"))
    at.run("rm -r b/2; ./shop -C b rebuild 2")

    async def say_late() -> bool:
        async with Streams(existing(f"{at.path}/b"), f"{at.path}/b") as streams:
            return await streams.see_life(2, life, "9 late", (0, 0), owner.split(" ")[0])
    assert not asyncio.run(say_late()), "it is refused"
    at.goes_on("./shop start b", "2 bid,0.3,0.2,500", "2.1", "it goes on", "b")


def test_deleted(at: Folder, server: Server) -> None:
    """Entries that were deleted by hand are published again, at the end of a stream and within it."""
    at.shop("ask 0 user,cat", folder="a")
    at.shop("wait 2", folder="b")
    for name in ("4-0", "2-0"):
        server.say(f"xdel auction:0 {name}")
        at.wait("the entry again", lambda: server.say("xlen auction:0") == "4\n")
    assert at.shop("ask 0 user,dan", folder="a") == "ok,0.5\n", "it goes on"
    at.shop("wait 2", folder="b")
    at.shop("audit", folder="b")


def test_copied(at: Folder, server: Server) -> None:
    """A copy of a folder doesn't serve, until it is adopted."""
    at.shop("ask 2 bid,0.3,0.2,500", folder="b")
    at.run("cp -a b c; ./shop start c", 3, "b/2 has it (shop adopt 2")
    assert "ann" in at.shop("list 2 users", folder="c"), "what is asked there is answered where the site runs"
    at.run("./shop stop c")
    at.shop("adopt 2", 1, "site 2 is running elsewhere", folder="c")
    at.kill(at.status("b")["pid"])
    at.shop("adopt 2", folder="c")
    at.run("./shop start b", 3, "c/2 has it")
    at.goes_on("./shop start c", "2 bid,0.3,0.2,600", "2.2", "it goes on", "c")


def test_removed_over_a_server(at: Folder, server: Server) -> None:
    """Over a server too, only the site ends whose files are removed."""
    at.shop("wait 1", folder="a")
    at.run("mv a/0 aside")
    at.wait("its end", lambda: at.site(0, "a")["state"] == "fenced")
    assert "its folder is gone" in at.site(0, "a")["fault"] and at.status("a")["link"] == "up", "the status"
    assert at.shop("ask 1 comment,0.3,0.2,0.1,5,good", folder="a") == "ok,1.1\n", "the other site goes on"
    at.shop("wait 2", folder="b")
    at.goes_on("./shop stop a; mv aside a/0; ./shop start a", "2 bid,0.3,0.2,500", "2.1", "and so does this one, once it is back", "b", audit="b")
