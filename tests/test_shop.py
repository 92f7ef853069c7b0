"""The command `shop`: its commands one by one, and what happened once."""

import itertools
import json
import os
import re
import shutil
import signal
import socket
import subprocess
import time
from collections.abc import Callable

from measure_shop import processor_seconds, to_socket
from shop_tool.program import known_by
from tests.folder import SALE, SECONDS, Folder
from tests.needs import PYTHON, TOP, need
from tests.server import Server


def test_shop(at: Folder) -> None:
    """Three sites: asks at each, the token comes, all agree; a shop that is started again stands where it stood."""
    at.run("./shop start auction --sites 3")
    assert at.shop(f"ask 0 {SALE}") == "ok,0.1\nok,0.2\nok,0.3\n", "the answers"
    assert at.shop("ask 2 bid,0.3,0.2,500") == "ok,2.1\n", "a bid at another site"
    assert at.shop("ask 1 comment,0.3,0.2,0.1,5,good buy,0.3,0.2,1") == "ok,1.1\nok,1.2\n", "asks at the third"
    at.read_all(0, 1, 2)
    rows = at.shop("ask 0 list,tables")
    for site in (1, 2):
        assert at.shop(f"ask {site} list,tables") == rows, f"the tables of site {site}"
    assert at.shop("audit") == "audit,Agree\n", "the audit"
    status = at.status()
    assert status["well"] and status["token"] == 1 and status["token_turn"] == 2, f"where the token is: {status}"
    assert [site["messages"] for site in status["site"]] == [6, 6, 6], "the messages of each site"
    assert [site["released"] for site in status["site"]] == [[3, 2, 1]] * 3, "how many of each site"
    shown = at.shop("status")
    assert "        of 0  of 1  of 2  waits  last answer\n" in shown and "site 1 *  3/3   2/2   1/1   -      20" in shown, f"the grid: {shown}"
    at.shop("stop")
    at.shop("status", 3, "auction is not running (shop start)")
    at.run("./shop start auction")
    assert at.shop("ask 0 list,tables") == rows, "the tables after a start"
    at.shop("ask 0 user,cat")
    at.shop("audit")


def test_statuses(at: Folder) -> None:
    """0 accepted, 1 refused, 2 misuse, 3 not running or out of time."""
    at.shop("status", 3, "there is no shop")
    at.shop("stop", 2, "there is no shop")
    at.goes_on("./shop start auction --sites 2", "0 user,ann", "0.1", "accepted")
    assert at.shop("ask 0 user,ann", 1, "user,ann: the nickname belongs to a user") == "refused,5,NickTaken\n", "refused"
    at.shop("ask 0 'item,0.1,\"lamp,7'", 2, "its quotes don't close")
    at.shop("ask 5 user,eve", 2, "there is no site 5: this shop has 2")
    at.shop("ask 0", 2, "there is no record to ask")
    at.shop("start --sites 4", 2, "auction has --sites 2, and that stays")
    at.shop("start --keep 10", 2, "can only become greater")
    at.shop("frobnicate", 2, "shop --help")
    at.shop("list 0 items", 2, "listed by their category")
    at.shop("show 0 item 0.9", 1, "site 0 has no item 0.9")
    at.run("RUBIS=./none ./shop start other", 2, "there is no program ./none")
    at.run("./shop start", 2, "shop is a file; name the folder of the shop")
    at.run("./shop status", 3, "shop: there is no shop")
    said = json.loads(at.shop("ask 0 user,bob --json"))
    assert said == {"record": "user,bob", "answer": "ok", "id": "0.2", "message": "msg,1,0,2,2,1:0,user,bob"}, f"JSON: {said}"
    assert at.shop("ask 0 --raw list,users").startswith("reply,4,rows,2\nrow,user,0.1,ann"), "the site's own lines"
    status = json.loads(at.shop("status --json"))
    assert status["well"] and status.keys() == at.status().keys() and [one["state"] for one in status["site"]] == ["up", "up"], f"status: {status}"


def test_refused_settings(at: Folder) -> None:
    """A setting that a start refuses isn't kept: the next start has those of before."""
    at.run("./shop start auction --batch 0", 2, "0 is not in 1..=65536")
    assert not (at.path / "auction/shop.json").exists(), "settings of a shop that never ran"
    at.run("./shop start auction --sites 2 --batch 128")
    at.shop("ask 0 user,ann")
    at.shop("stop")
    was = at.text("auction/shop.json")
    for said in ("--batch 0", "--shards 65", "--workers 17", "--keep 0", "--over tcp", "--here 2", "--sites 3"):
        for command in ("start", "run"):
            at.run(f"./shop {command} auction {said}", 2)
            assert at.text("auction/shop.json") == was, f"the settings after {said}"
    lock = at.start("flock auction/lock sleep 100")
    at.wait("the lock", lambda: subprocess.run(["flock", "-n", "auction/lock", "true"], cwd=at.path).returncode)
    at.run("./shop start auction --sync", 3)
    assert at.text("auction/shop.json") == was, "the settings while another process has the folder"
    os.killpg(lock.pid, signal.SIGKILL)
    (at.path / "auction/shop.json").unlink()
    at.run("./shop start auction", 2, "auction/shop.json is missing, and auction has sites")
    at.run("./shop start auction --sites 3", 2, "auction/0 is site 0 of 2, and keeps 1000000")
    at.goes_on("./shop start auction --sites 2 --shards 9", "0 user,bob", "0.2", "it goes on")
    assert '"shards": 9' in at.text("auction/shop.json"), "the settings that were taken"


def test_rows(at: Folder) -> None:
    """Rows have names, and go to a database."""
    at.run("./shop start auction --sites 2")
    at.shop("ask 0 user,ann user,bob 'item,0.1,\"a \"\"blue\"\" lamp, it'\"'\"'s old\",7,3,50,80' bid,0.3,0.2,60 buy,0.3,0.2,2 "
            "comment,0.3,0.2,0.1,-3,slow")
    at.shop("wait 1")
    item = json.loads(at.shop("show 1 item 0.3 --json"))
    assert item["name"] == 'a "blue" lamp, it\'s old' and item["stock"] == 1 and item["best"] == "0.4", f"the item: {item}"
    assert "nickname  bob" in at.shop("show 0 user bob"), "a user by the nickname"
    assert [row["amount"] for row in json.loads(at.shop("list 0 bids 0.3 --json"))] == [60], "the bids"
    for kind, key in (("bid", "0.4"), ("purchase", "0.5"), ("comment", "0.6"), ("category", "7"), ("user", "0.1")):
        at.shop(f"show 1 {kind} {key}")
    at.shop("show 1 bid 0.5", 1)
    assert at.shop("list 0 users").startswith("id   nickname  items  bought  rating  comments\n0.1  ann "), "columns"
    sql = at.shop("tables 1")
    count = at.run(f"{PYTHON} -c 'import sqlite3, sys; d = sqlite3.connect(\":memory:\"); d.executescript(sys.stdin.read()); "
                   "print(d.execute(\"select name, stock, winner from item\").fetchall())' <<'END'\n" + sql + "END\n")
    assert count == "[('a \"blue\" lamp, it\\'s old', 1, None)]\n", f"from the database: {count}"


def test_reads_leave_nothing(at: Folder) -> None:
    """10,000 rows, 1,000 listings and 100 audits leave `kept` and `out` as they were, byte for byte, and write no event."""
    at.run("./shop start auction --sites 2")
    assert known_by(str(at.path / "rubis")) == (True, True), "the program answers questions, and knows keys"
    at.shop(f"ask 0 {SALE} bid,0.3,0.2,500 comment,0.3,0.2,0.1,5,good buy,0.3,0.2,1")
    at.run("seq -f bid,0.3,0.2,1%05.0f 300 | ./shop -C auction ask 0 -")
    at.shop("wait 1")
    names = ["auction/events", *(f"auction/{site}/{name}" for site in (0, 1) for name in ("kept", "out", "life"))]
    before = {name: (at.path / name).read_bytes() for name in names}
    asks = [{"op": "row", "site": number % 2, "table": table, "key": key, "timeout": 10} for number, (table, key) in enumerate(zip(
        itertools.cycle(["user", "nickname", "item", "bid", "purchase", "comment", "category"]),
        itertools.islice(itertools.cycle(["0.1", "bob", "0.3", "0.4", "0.6", "0.5", "7", "0.99", "eve", "0.1", "1.1", "0.3", "9.9", "8"]), 10_000)))]
    asks += [{"op": "list", "site": 0, "record": record, "timeout": 10} for record in itertools.islice(itertools.cycle(
        ["list,users", "list,bids,0.3", "list,categories", "list,log", "list,tables", "list,misfits", "list,items,7"]), 1000)]
    asks += [{"op": "page", "site": 1, "record": "list,bids,0.3", "after": "0.4", "most": 10, "timeout": 10}] * 100
    answers = at.said_at_once(asks)
    shown = [answer["row"] for answer in answers[:10_000]]
    assert [row and row.split(",")[1] for row in shown[:14]] == ["user", "user", "item", "bid", "purchase", "comment", "category", *[None] * 7], (
        f"the rows: {shown[:14]}")
    assert all("fault" not in answer for answer in answers), f"answers: {[answer for answer in answers if 'fault' in answer][:3]}"
    for _ in range(100):
        for answer in at.said(b'{"op": "logs", "timeout": 10}'):
            assert "fault" not in answer, f"an audit: {answer}"
    for command in ("list 0 users", "show 0 item 0.3", "show 1 user ann", "tables 1", "audit", "status"):
        at.shop(command)
    after = {name: (at.path / name).read_bytes() for name in names}
    assert before == after, f"what reads have changed: {[name for name in names if before[name] != after[name]]}"
    at.kill(at.site(0)["pid"])
    assert at.shop("show 0 user ann --json").startswith('{"kind": "user", "id": "0.1"'), "a question that its keeper died with is asked again"
    assert at.shop("ask 0 '?state'", 2, "a record doesn't begin with `?`") == "", "an ask is no question"
    at.shop("stop")
    (at.path / "auction/0/kept").open("a").write("?list,users\n")
    at.run("./shop start auction")
    assert at.shop("log 0 -n 2") == "< ?list,users\n> reply,307,refused,1,BadRecord\n", "a line of an older folder stays a record"
    assert at.shop("audit") == "audit,Agree\n", "the audit"


FULL = """
import tempfile
made = tempfile.mkdtemp

def mkdtemp(suffix=None, prefix=None, dir=None):
    if dir is None:
        raise FileNotFoundError(2, "No usable temporary directory found")
    return made(suffix, prefix, dir)
tempfile.mkdtemp = mkdtemp
"""


def test_reads_where_temporary_folders_are_full(at: Folder) -> None:
    """Where no temporary folder can be made, a start still sees that the program answers questions, and reads leave nothing."""
    assert known_by(str(at.path / "rubis")) == (True, True), "the program answers questions, and knows keys"
    (at.path / "sitecustomize.py").write_text(FULL)
    at.run(f"PYTHONPATH={at.path} ./shop start auction --sites 2")
    at.shop("ask 0 user,ann")
    at.shop("list 0 users")
    at.shop("audit")
    assert at.text("auction/0/kept") == "user,ann\n", "what is kept"
    assert sorted(os.listdir(at.path / "auction")) == sorted("0 1 events lives lock shop.json sock".split()), "nothing else is left"


def test_log(at: Folder) -> None:
    """Events, and what a site was asked."""
    at.run("./shop start auction")
    follower = at.start("./shop -C auction log 0 -f", stdout=subprocess.PIPE)
    time.sleep(2)
    at.shop("ask 0 user,ann")
    assert follower.stdout
    lines = [follower.stdout.readline().decode().split(" ", 1)[1] for _ in range(3)]
    assert lines == ["< user,ann\n", "> reply,1,ok,0.1\n", "> send,msg,1,0,1,1,0,user,ann\n"], f"what is followed: {lines}"
    assert at.shop("log 0 -n 3") == "< user,ann\n> reply,1,ok,0.1\n> send,msg,1,0,1,1,0,user,ann\n", "the last lines"
    at.shop("stop")
    assert "supervisor: ended" in at.shop("log"), "events"
    assert "up with 0 records" in at.shop("log"), "events of a site"


def test_control_bytes(at: Folder) -> None:
    """Bytes of a record that would control a terminal are shown as \\x1b wherever people read them; `--raw` and the files have them."""
    at.run("./shop start auction --sites 2")
    at.start("sh -c './shop -C auction log 0 -f -n 0 > followed'")
    at.wait("a follower", lambda: (at.path / "followed").exists())
    time.sleep(1)
    escapes, shown = "\\033]0;eve\\007\\302\\2332J\\377", "user,\\x1b]0;eve\\x07\\x9b2J\\xff"
    raw = "user,\x1b]0;eve\x07\x9b2J\udcff"
    said = at.run(f"printf 'user,{escapes}\\n' | ./shop -C auction ask 0 - 2>&1", 1)
    why = "the record isn't in the grammar: field 2: a nickname has 1 to 20 of a-z, 0-9 and _, the first a letter"
    assert said == f"refused,1,BadRecord\nshop: {shown}: {why}\n", f"what the asker is told: {said!r}"
    assert at.shop("log 0 -n 2") == f"< {shown}\n> reply,1,refused,1,BadRecord\n", "what a site was asked"
    assert at.shop("log 0 -n 2 --raw") == f"< {raw}\n> reply,1,refused,1,BadRecord\n", "the same, raw"
    at.wait("what is followed", lambda: f"< {shown}\n" in at.text("followed"))
    assert json.loads(at.run(f"printf 'user,{escapes}\\n' | ./shop -C auction ask 0 - --json", 1))["record"] == raw, "JSON"
    at.shop("show 0 user \"$(printf '\\033[2J')\"", 1, "site 0 has no user \\x1b[2J")
    at.shop("list 0 items \"$(printf '\\033[2J')\"", 1, "list,items,\\x1b[2J: the record isn't in the grammar")
    # What a site says of its files.
    at.shop("stop")
    out = (at.path / "auction/0/out").read_bytes()
    (at.path / "auction/0/out").write_bytes(out.replace(b"BadRecord", b"\x1b[2J", 1))
    at.run("./shop start auction", 3, "out differs at line 1")
    for command in ("status", "log", "status --json"):
        seen = at.run(f"./shop -C auction {command} 2>&1; true")
        assert "out differs at line 1" in seen, f"the fault in `{command}`: {seen}"
        assert seen.replace("\n", "").isprintable(), f"what `{command}` shows: {seen!r}"
    assert "\x1b" not in at.text("auction/events"), "the file of events"


def followed(lines: list[str], sign: str) -> list[str]:
    """The records (<) or the answers (>) among the lines of a log that is followed: those of before, and those that came, with times."""
    plain = [line if line[:2] in ("< ", "> ") else line.split(" ", 1)[1] for line in lines]
    return [line[2:] for line in plain if line.startswith(sign)]


def test_follow(at: Folder) -> None:
    """Whenever somebody begins to follow, no line comes twice and none is left out, also when the site dies meanwhile."""
    at.start_sale()
    at.run("seq -f 'comment,0.3,0.2,0.1,5,%-200g' 500 | ./shop -C auction ask 0 - > /dev/null")
    # What was before fills this one's pipe, so it is at that still when more comes.
    slow = at.start("./shop -C auction log 0 -f -n 9999", stdout=subprocess.PIPE)
    asker = at.start("sh -c 'seq -f comment,0.3,0.2,0.1,4,%g 2000 | ./shop -C auction ask 0 -'")
    for number in range(6):
        at.start(f"sh -c 'exec ./shop -C auction log 0 -f -n 9999 > log.{number}'")
        at.start(f"sh -c 'exec ./shop -C auction log -f -n 9999 > events.{number}'")
        if number % 2:
            at.kill(at.keeper(0))
        time.sleep(0.1)
    assert asker.wait(SECONDS) == 0, "the asker's status"
    at.shop("ask 0 user,zed")
    for number in range(6):
        at.wait("the last record", lambda: "> send,msg,1,0,2504" in at.text(f"log.{number}"))
    assert slow.stdout
    logs = [at.text(f"log.{number}").splitlines() for number in range(6)]
    logs.append([slow.stdout.readline().decode().rstrip("\n") for _ in logs[0]])
    for number, lines in enumerate(logs):
        assert followed(lines, "< ") == at.text("auction/0/kept").splitlines(), f"the records that follower {number} saw"
        assert followed(lines, "> ") == at.text("auction/0/out").splitlines(), f"the answers that follower {number} saw"
    for number in range(6):
        at.wait("each event", lambda: at.text(f"events.{number}") == at.text("auction/events"))


def test_token(at: Folder) -> None:
    """Asks at every site at once: each gets the token in turn, and each ask is there once."""
    at.start_sale(4)
    command = "for n in $(seq 25); do ./shop -C auction ask {0} bid,0.3,0.2,1{0}$((1000 + n)) || exit 1; done"
    askers = [at.start("sh -c '" + command.format(site) + "'") for site in range(4)]
    for asker in askers:
        assert asker.wait(SECONDS) == 0, "an asker's status"
    at.read_all(*range(4))
    assert len(json.loads(at.shop("list 3 bids 0.3 --json"))) == 100, "the bids"
    at.shop("audit")
    holder = at.status()["token"]
    at.shop(f"pass {holder} {(holder + 1) % 4}")
    at.wait("the token", lambda: at.status()["token"] == (holder + 1) % 4)
    at.shop(f"pass {holder} 0", 1, "the site doesn't hold the token")
    at.shop(f"ask --no-wait {holder} user,eve", 1, "the site doesn't hold the token")


def test_kill(at: Folder) -> None:
    """After kill -9 of a site and of the supervisor the shop stands where it stood, torn lines or not."""
    at.start_sale(2)
    for turn in range(3):
        at.kill(at.keeper(0))
        assert at.shop(f"ask 0 bid,0.3,0.2,{500 + turn}") == f"ok,0.{4 + turn}\n", "an asker sees nothing of it"
    supervisor = at.status()["pid"]
    at.kill(supervisor)
    at.shop("ask 0 user,cat", 3, "is not running")
    with open(at.path / "auction/0/kept", "a") as kept:
        kept.write("user,ca")
    os.truncate(at.path / "auction/0/out", os.path.getsize(at.path / "auction/0/out") - 7)
    at.goes_on("./shop start auction", "0 user,dan", "0.7", "it knows what it made")
    assert at.text("auction/0/out") == at.run("grep -v '^list' auction/0/kept | ./rubis site --sites 2"), "the answers to what was kept"
    at.shop("wait 1")
    at.shop("audit")


def test_audit(at: Folder) -> None:
    """Logs of earlier audits are audited too, so that a changed past is found."""
    at.run("./shop start auction --sites 2")
    at.shop("ask 0 user,ann")
    at.shop("audit --save monday")
    assert at.text("monday").startswith("site,0\nmsg,1,0,1,1,0:0,user,ann\nrow,user,0.1,ann,0,0,0,0\nsite,1\n"), "the logs that were saved"
    at.shop("ask 0 user,bob")
    assert at.shop("audit --with monday") == "audit,Agree\n", "the past is the same"
    (at.path / "monday").write_text(at.text("monday").replace("ann", "eve"))
    assert at.shop("audit --with monday", 1).startswith("audit,Clash,"), "another past"


def test_held(at: Folder) -> None:
    """Where a process holds the folder and takes no requests, commands say so, and don't say that it isn't running."""
    at.run("./shop start auction; ./shop stop auction")
    held = at.start("flock auction/lock sleep 100")
    at.wait("the lock", lambda: subprocess.run(["flock", "-n", at.path / "auction/lock", "true"]).returncode)
    stopping = at.start("sh -c './shop stop auction 2> stopping'")
    for command in ("./shop start auction", "./shop -C auction status"):
        at.run(command, 3, "takes no requests")
    assert stopping.wait(SECONDS) == 3 and "takes no requests" in at.text("stopping"), "what a stop says"
    os.killpg(held.pid, signal.SIGKILL)
    at.run("./shop stop auction", 0, "auction is not running")


def test_stop_hands_the_token_over(at: Folder) -> None:
    """A stop passes the token to a site elsewhere that runs, so red asks go on; if none does, it stays, and the stop says so."""
    server = Server(at).start_apart()
    other = at.status("b")["pid"]
    with at.standing_still(other):
        at.run("./shop stop a")
        assert at.shop("ask 2 bid,0.3,0.2,500", folder="c") == "ok,2.1\n", "red asks go on, where a supervisor answers"
        at.run("./shop stop c", 0, "the token stays with site 2, since no site elsewhere takes it")
    at.goes_on("./shop start a; ./shop start c", "1 bid,0.3,0.2,600", "1.1", "it comes back", "b")
    server.kill()
    at.run("./shop stop b", 0, "the token stays with site 1, since no site elsewhere takes it")


def test_stop_by_signals(at: Folder) -> None:
    """A second signal ends a supervisor that waits for a site that hangs."""
    run = at.start("./shop run auction")
    at.wait("the shop", lambda: (at.path / "auction/sock").exists())
    at.shop("ask 0 user,ann")
    os.kill(at.site(0)["pid"], signal.SIGSTOP)
    at.shop("ask 0 user,bob --timeout 1", 3, "it may still be accepted")
    run.terminate()
    at.wait("the stop", lambda: "supervisor: SIGTERM" in at.text("auction/events"))
    assert run.poll() is None, "it waits for the site"
    run.terminate()
    assert run.wait(SECONDS) == 1, "its status"
    at.run("./shop start auction")
    assert at.shop("ask 0 user,cat").startswith("ok,0."), "it goes on"


def test_no_more_files(at: Folder) -> None:
    """A shop has as many files as its user may have at most. Where there are more connections than that it says so once, takes no processor
    time for it, and goes on when some have gone."""
    at.run("ulimit -S -n 40; ./shop start other --sites 12")
    assert at.shop("ask 11 user,ann", folder="other") == "ok,11.1\n", "a shop with more sites than the soft limit has room for"
    at.start("sh -c 'ulimit -n 40; exec ./shop run auction'")
    at.wait("the shop", lambda: (at.path / "auction/sock").exists())
    at.shop("ask 0 user,ann")
    process = at.status()["pid"]
    lines = [to_socket(str(at.path / "auction"))() for _ in range(60)]
    at.wait("what it says", lambda: "no more connections" in at.text("auction/events"))
    before = processor_seconds(process)
    time.sleep(3)
    assert processor_seconds(process) - before < 0.5, "the processor time of three seconds"
    for line in lines:
        line.close()
    assert at.shop("ask 0 user,bob") == "ok,0.2\n", "it goes on"
    events = at.text("auction/events")
    assert events.count("Too many open files") == 1 and "Traceback" not in events, f"what it says: {events}"


def test_statuses_that_are_none(at: Folder) -> None:
    """Where a key of the server has no status of a site, it is said which, that site isn't made again meanwhile, and the others go on."""
    server = Server(at).start_sale()
    at.shop("wait 2", folder="b")
    at.shop("stop", folder="b")
    for text in ("nothing", '\\\'{"x": 1}\\\'', '\\\'{"state": "up", "turn": 1, "has": {"0": null}}\\\''):
        server.say(f"set auction:status:2 {text}")
        why = "the key auction:status:2 has something else than the status of a site (redis-cli del auction:status:2)"
        at.run("./shop start b", 3, why)
        at.shop("status", 1, folder="a")
        at.shop("stop", folder="b")
        at.shop("rebuild 2", 3, why, folder="b")
    assert at.shop("ask 1 user,cat", folder="a") == "ok,1.1\n", "the others go on"
    at.run("./shop start b", 3, why)
    server.say("del auction:status:2")
    at.wait("site 2", lambda: at.site(2, "a")["state"] == "up")
    assert at.shop("ask 2 bid,0.3,0.2,500", folder="a") == "ok,2.1\n", "it goes on"
    assert "fault of its own" not in at.text("a/events") + at.text("b/events"), "no fault of its own"


def test_asked_from_elsewhere(at: Folder) -> None:
    """A site elsewhere is asked in the folder that has it: neither a copy of that answers, nor one that has lost it and is being stopped."""
    Server(at).start_sale()
    at.shop("ask 2 bid,0.3,0.2,500", folder="b")
    at.run("cp -a b c; ./shop start c", 3, "b/2 has it (shop adopt 2")

    def asked(bid: int, keeper: int, meanwhile: Callable[[], None]) -> str:
        """What is told of a bid at site 2, asked from the other machine, while its keeper takes its time."""
        with at.standing_still(keeper):
            asker = at.start(f"sh -c './shop -C a ask 2 bid,0.3,0.2,{bid} --timeout 30 > said 2>&1'")
            time.sleep(1)
            meanwhile()
            time.sleep(2)
        asker.wait(SECONDS)
        return at.text("said")

    told = asked(600, at.site(2, "b")["pid"], lambda: None)
    assert told == "ok,2.2\n", f"beside a copy: {told}"
    at.run("./shop stop c; rm -r c")
    # b is held up while c takes its place, and then stops, which takes its time.
    supervisor, keeper = at.status("b")["pid"], at.site(2, "b")["pid"]
    for process in (keeper, supervisor):
        os.kill(process, signal.SIGSTOP)
    at.run("cp -a b c")
    at.shop("adopt 2", folder="c")
    at.run("./shop start c")

    def stop() -> None:
        for number in (signal.SIGTERM, signal.SIGCONT):
            os.kill(supervisor, number)

    told = asked(700, at.site(2, "c")["pid"], stop)
    assert told == "ok,2.3\n", f"while the one before is being stopped: {told}"
    at.wait("its end", lambda: not os.path.exists(f"/proc/{supervisor}"))


def test_carry(at: Folder) -> None:
    """Users, open items and bids go to a new shop; it says what stays behind, asks before it begins, and goes on when it was cut."""
    at.run("./shop start old --sites 2; ./shop start new --sites 3")
    at.shop(f"ask 0 {SALE} item,0.1,cup,7,1,1,0 buy,0.3,0.2,1", folder="old")
    at.shop("ask 1 bid,0.3,0.2,500 close,0.4,0.1 comment,0.3,0.2,0.1,5,good", folder="old")
    said = at.run("./shop carry old new", 2, "say --yes")
    assert "2 users, 1 open items, 1 bids on them" in said and "1 closed sales, 1 purchases, 1 comments" in said, f"what it says: {said}"
    at.run("./shop carry old new --yes")
    assert at.text("new/carried.csv") == "user,0.1,0.1\nuser,0.2,0.2\nitem,0.3,0.3\nbid,1.1,0.4\n", "the map"
    item = json.loads(at.shop("show 2 item 0.3 --json", folder="new") if not at.shop("wait 2", folder="new") else "")
    assert (item["stock"], item["best"], item["amount"]) == (2, "0.4", 500), f"the item: {item}"
    at.run("./shop carry old new --yes")
    at.shop("audit", folder="new")
    # Cut after two asks: it goes on where it was.
    at.run("./shop start cut; cp new/carried.csv cut/; ./shop -C cut ask 0 user,ann user,bob; ./shop carry old cut --yes")
    assert at.shop("list 0 bids 0.3", folder="cut").split()[-2:] == ["500", "3"], "the bid"
    at.shop("ask 0 user,zed", folder="cut")
    at.run("./shop carry old cut --yes", 1, "has messages of its own")
    at.shop("ask 0 user,zed", folder="old")
    at.run("./shop carry old new --yes", 1, "old has changed since")


def test_service(at: Folder) -> None:
    """`shop run`, as systemd runs it: it says that it is ready, and ends at TERM."""
    with socket.socket(socket.AF_UNIX, socket.SOCK_DGRAM) as ready:
        ready.bind(str(at.path / "notify"))
        ready.settimeout(SECONDS)
        at.start(f"env NOTIFY_SOCKET={at.path}/notify ./shop run auction --sites 2")
        assert ready.recv(100) == b"READY=1", "that it is ready"
    at.shop("ask 0 user,ann")
    at.running[0].terminate()
    assert at.running[0].wait(SECONDS) == 0, "its status"
    at.shop("status", 3, "is not running")
    at.start("sh -c './shop run auction > journal'")
    at.wait("what it prints", lambda: (at.path / "journal").exists() and "site 1: up with" in at.text("journal"))
    at.wait("its events", lambda: at.text("auction/events").endswith(at.text("journal")))
    at.run("./shop stop auction")
    at.start(f"env NOTIFY_SOCKET={at.path}/nowhere ./shop run auction")
    at.wait("that it says so", lambda: "nowhere (NOTIFY_SOCKET) can't be told that it is ready: No such file or directory" in at.text("auction/events"))
    assert at.shop("ask 0 user,eve").startswith("ok,"), "it goes on"


def test_hung(at: Folder) -> None:
    """A keeper that hangs isn't well, also where nobody asks it."""
    at.run("./shop start auction --sites 2")
    at.shop("status")
    keeper = at.site(1)["pid"]
    with at.standing_still(keeper):
        at.run("./shop -C auction ask 1 user,ann --timeout 0.2", 3)
        at.wait("the status", lambda: at.site(1)["silent"])
        shown = at.run("./shop -C auction status; test $? = 1")
        assert "1     silent " in shown and "0     up " in shown, f"how it is shown: {shown}"
    at.wait("that it goes on", lambda: at.status()["well"])
    with at.standing_still(at.site(0)["pid"]):      # else the stop would wait half a minute for it
        at.wait("the status of one that isn't asked", lambda: at.site(0)["silent"])


def test_small_things(at: Folder) -> None:
    """What an operator meets: a version, what is wrong with a record, and somebody else's folder."""
    assert re.sub("^shop [0-9a-f]{12} of ", "", at.run("./shop --version")) == at.run("./rubis --version"), "the version"
    at.run("./shop", 2, "COMMAND")
    at.run("./shop start auction")
    at.shop("ask 0 user,Ann", 1, "user,Ann: the record isn't in the grammar: field 2: a nickname has 1 to 20 of a-z, 0-9 and _, the first a letter")
    at.shop("ask 0 bid,0.3", 1, "a bid has 4 fields, this record has 2")
    assert "this record has 2" in at.shop("ask 0 bid,0.3 --json", 1), "in JSON"
    at.run("yes bid,0.3 | head -n 5000 | ./shop -C auction ask 0 - 2> faults", 1)
    assert at.text("faults").count("this record has 2") == 20, "the first of many are explained, since each takes a process"
    assert at.text("faults").count("the record isn't in the grammar") == 5000, "all are told"
    for closed in ("<&-", ">&-", "2>&-", "<&- >&- 2>&-"):
        at.run(f"./shop -C auction status {closed} && ./shop -C auction ask 0 list,users {closed} && ./shop -C auction ask 0 - {closed} < /dev/null")
    most = "9" * 5000
    assert at.shop(f"log -n {most[:40]}").count("started") == 1, "more lines than a number of the machine"
    at.shop(f"log 0 -n {most[:40]}")
    at.shop(f"ask {most[:40]} user,ann", 2, "there is no site")
    at.shop(f"ask {most} user,ann", 2, "argument SITE: '9999")
    at.run("./shop start other --workers 0", 2, "0 is not in 1..=16")
    assert not (at.path / "other").exists(), "nothing is left of a start that is refused"
    if os.getuid() == 0 and shutil.which("setpriv"):
        os.chmod(at.path, 0o755)
        at.run("setpriv --reuid 65534 --regid 65534 --clear-groups ./shop -C auction ask 0 user,ann", 3, "auction: this user may not use it")


def test_unit(at: Folder) -> None:
    """The unit file, as systemd reads it: with the paths of this folder it finds no fault."""
    need("systemd-analyze")
    unit = (TOP / "systemd/shop@.service").read_text()
    assert "ExecStart=/usr/local/bin/shop run " in unit, "what the unit starts"
    (at.path / "shop@auction.service").write_text(unit.replace("/usr/local/bin/", f"{at.path}/"))
    at.run("systemd-analyze verify ./shop@auction.service > said 2>&1; cat said >&2; test ! -s said")


def test_once_two_starts_doubled_links(at: Folder) -> None:
    """A second start doubled every link; and each restart sent the whole history again, as records of the other sites."""
    at.start_sale(3)
    at.run("./shop start auction", 0, "auction is running")
    at.run("./shop start auction --sync", 2, "is running with other settings; stop it first")
    for _ in range(3):
        at.shop("stop")
        at.shop("stop", 0, "auction is not running")
        at.run("./shop start auction")
        at.kill(at.site(1)["pid"])
    at.shop("ask 1 bid,0.3,0.2,500")
    for site in range(3):
        at.shop(f"wait {site}")
        assert "repeat" not in at.text(f"auction/{site}/out"), f"what came to site {site} came once"
    assert [one["records"] for one in at.status()["site"]][2] == 4, "the records of a site that nobody asked"


def test_help(at: Folder) -> None:
    """Each command has its help."""
    for command in at.run("./shop --help").split("COMMAND\n")[1].split("\n\n")[0].split("\n"):
        if command.startswith("    ") and command[4] != " ":
            assert "usage: shop" in at.run(f"./shop {command.split()[0]} --help"), command
