"""What a shop finds in its folder: removed, changed, shortened, copied, full, and of another version."""

import itertools
import os
import re
import signal
import subprocess
import time

from measure_shop import processor_seconds
from tests.folder import SALE, SECONDS, Folder, sends
from tests.needs import need
from tests.server import Server


def test_folder(at: Folder) -> None:
    """A long path, one with a blank, and a folder that is removed while the shop runs."""
    name = "a b/" + "x" * 120
    at.run(f"./shop start '{name}'")
    at.shop("ask 0 user,ann", folder=f"'{name}'")
    supervisor = at.status(name)["pid"]
    at.run(f"rm -r '{name}'")
    at.wait("the end of the supervisor", lambda: not os.path.exists(f"/proc/{supervisor}"))


def test_removed_files(at: Folder) -> None:
    """A site whose folder is removed while the shop runs, or a file in it, ends, and says what to do; the others go on."""
    at.start_sale(5)
    at.read_all(*range(5))
    supervisor = at.status()["pid"]
    lost = {1: "mv auction/1 aside", 2: "rm auction/2/out", 3: "mv auction/3/kept .", 4: ": > auction/4/out"}
    told = {}
    for site, command in lost.items():
        at.run(command)
        told[site] = at.run(f"./shop -C auction ask {site} comment,0.3,0.2,0.1,{site},good 2>&1", 3)
    for site, why in ((1, "its folder is gone (stop the shop, put it back or say shop rebuild 1, and start it)"),
                      (2, "its file `out` was removed or changed (stop the shop, remove what is left of it and start it: `kept` is enough)"),
                      (3, "its file `kept` was removed or changed (stop the shop, put it back or say shop rebuild 3, and start it)"),
                      (4, "its file `out` was removed or changed")):
        assert why in told[site], f"what the asker at site {site} is told: {told[site]}"
        assert at.site(site)["state"] == "fenced" and why in at.site(site)["fault"], f"the status of site {site}: {at.site(site)}"
        assert f"site {site}: {why}" in at.shop("log"), f"the event of site {site}"
    assert at.shop("ask 0 user,cat") == "ok,0.4\n" and at.status()["pid"] == supervisor, "site 0 goes on"
    at.shop("audit", 3, "no log came from site 1: site 1: its folder is gone")
    at.shop("stop")
    at.run("mv aside auction/1; mv kept auction/3/kept; rm auction/4/out")
    at.run("./shop start auction")
    at.read_all(*range(5))
    for site, fault in told.items():
        is_there = f"comment,0.3,0.2,0.1,{site},good" in at.shop(f"log {site}")
        assert "may still be accepted" in fault or not is_there, f"what the asker at site {site} was told: {fault}"
    assert at.shop("list 0 users") == at.shop("list 4 users"), "the tables"
    at.shop("audit")
    # One that is asked nothing.
    at.run("rm -r auction/4")
    at.wait("its end", lambda: at.site(4)["state"] == "fenced")
    at.shop("stop")
    at.shop("rebuild 4")
    at.run("./shop start auction")
    at.shop("audit")


CUT = """
import os, signal, sys
rename, count = os.rename, 0

def renamed(*words, **named):
    global count
    count += 1
    if count == int(os.environ.get("CUT", 0)):
        os.kill(os.getpid(), signal.SIGKILL)
    rename(*words, **named)
os.rename = renamed
"""


def test_rebuild_that_is_cut(at: Folder) -> None:
    """A rebuild is killed at each of its renames, and said again, at once or behind a start: what only that folder has is there still."""
    (at.path / "sitecustomize.py").write_text(CUT)
    at.run("./shop start auction --sites 2")
    at.shop("ask 0 user,ann item,0.1,lamp,7,1,100,0")
    at.shop("wait 1")
    status = at.status()
    os.kill(status["site"][1]["pid"], signal.SIGSTOP)
    assert at.shop("ask 0 item,0.1,vase,7,1,100,0") == "ok,0.3\n", "what site 1 doesn't get"
    at.kill(status["pid"])
    at.kill(status["site"][1]["pid"])
    at.run("cp -a auction before")
    for number in itertools.count(1):
        at.run("rm -rf auction && cp -a before auction")
        command = f"PYTHONPATH={at.path} CUT={number} ./shop -C auction rebuild 0"
        if subprocess.run(["sh", "-c", command], cwd=at.path, capture_output=True).returncode == 0:
            break
        if number % 2:
            at.run("./shop start auction; ./shop stop auction")
        assert "site 0: 3 packets" in at.shop("rebuild 0"), f"what is made, cut at rename {number}"
        at.goes_on("./shop start auction", "0 item,0.1,bowl,7,1,100,0", "0.4", f"the next one, cut at rename {number}")
        assert "vase" in at.shop("list 0 items 7"), f"what was accepted, cut at rename {number}"
        at.shop("stop")
    assert number > 3, f"it has renames: {number}"


def test_files_that_are_none(at: Folder) -> None:
    """Where files of a site are folders, or its folder is a file, its start is tried again, and the others go on; what is no life, or says
    nothing of why it was stopped, isn't taken for less than it may have been."""
    at.start_sale(4)
    at.read_all(*range(4))
    at.shop("stop")
    at.run("mv auction/0/life aside; mkdir auction/0/life auction/1/keys; mv auction/2 two; touch auction/2")
    said = at.run("./shop start auction 2>&1", 3)
    for site, name in ((0, "0/life: Is a directory"), (1, "1/keys: Is a directory"), (2, "2: File exists")):
        assert f"auction/{name}" in said, f"what the start says of site {site}: {said}"
        assert at.site(site)["state"] in ("down", "starting"), f"site {site}"
    assert at.shop("ask 3 comment,0.3,0.2,0.1,3,good") == "ok,3.1\n", "the last one goes on"
    at.run("rmdir auction/0/life auction/1/keys; rm auction/2; mv aside auction/0/life; mv two auction/2")
    for site in range(4):
        at.wait(f"site {site}", lambda: at.site(site)["state"] == "up")
        at.shop(f"wait {site}")
    assert len(at.text("auction/0/life").split()) == 2, "a start that is tried again begins no more lives"
    assert at.shop("ask 0 user,cat") == "ok,0.4\n", "site 0 goes on"
    at.shop("audit")
    at.shop("stop")
    (at.path / "auction/1/life").write_bytes(b"\0\377" * 17)
    at.run("echo > auction/2/fenced; mv auction/3/kept aside; mkdir auction/3/kept; echo '[1]' > auction/lives")
    said = at.run("./shop start auction 2>&1", 3)
    for what in ("site 2: its file `fenced` doesn't say why", "site 3: "):
        assert what in said, f"what the start says: {said}"
    assert at.shop("ask 0 user,dan") == "ok,0.5\n", "site 0 lacks nothing, and goes on"
    at.shop("stop")
    at.run("rm -r auction/1; touch auction/1; rmdir auction/3/kept; mv aside auction/3/kept")
    for site in (1, 2):
        at.shop(f"rebuild {site}")
    at.run("./shop start auction")
    at.read_all(*range(4))
    at.shop("audit")


def changed(at: Folder, path: str, old: str, new: str) -> None:
    """Changes a word in a file."""
    text = at.text(path)
    assert old in text, f"{path} has {old}"
    (at.path / path).write_text(text.replace(old, new))


def test_changed_word(at: Folder) -> None:
    """A word of a packet that was changed in `kept` of a stopped site is seen by its start, which names the line; the site goes on once
    the line is put back, or once it is made again. Sums that lag behind, were torn or are gone are written by the next start."""
    at.start_sale(2, published=True)
    at.shop("stop")
    was = at.text("auction/1/sums")
    assert len(was.splitlines()) == 3, f"a sum for each line: {was}"
    changed(at, "auction/1/kept", "user,bob", "user,bub")
    why = "line 2 of its file `kept` was changed (put it back as it was, or say shop rebuild 1)"
    at.run("./shop start auction", 1, f"site 1: {why}")
    assert at.site(1)["state"] == "fenced" and why in at.site(1)["fault"] and not at.status()["well"], "the status"
    at.shop("list 1 users", 3, "line 2 of its file `kept` was changed")
    assert at.shop("ask 0 item,0.1,vase,7,3,100,80") == "ok,0.4\n", "the other one goes on"
    at.shop("stop")
    at.shop("shorten 1", 1, why)
    changed(at, "auction/1/kept", "user,bub", "user,bob")
    at.run("./shop start auction")
    at.shop("wait 1; ./shop -C auction stop")
    assert at.text("auction/1/sums").startswith(was) and len(at.text("auction/1/sums").splitlines()) == 4, "the sums go on"
    was = at.text("auction/1/sums")
    for left in ("", was[:17], was[:30], was[:34] + "\0" * 17):
        (at.path / "auction/1/sums").write_text(left)
        at.run("./shop start auction && ./shop stop auction")
        assert at.text("auction/1/sums") == was, f"sums of which {left!r} was left"
    # What another site has is taken only up to a line that was changed.
    changed(at, "auction/1/kept", "user,ann", "user,eve")
    at.run("rm -r auction/0; ./shop start auction", 1, "line 1 of its file `kept` was changed")
    at.shop("stop")
    changed(at, "auction/1/kept", "user,eve", "user,ann")
    changed(at, "auction/1/kept", "vase", "vaze")
    at.shop("rebuild 0; ./shop -C auction rebuild 1; ./shop start auction")
    assert "bob" in at.shop("list 1 users") and "vase" not in at.shop("list 0 items 7"), "what was in front of the line"
    assert at.shop("audit") == "audit,Agree\n", "the audit"


def test_changed_word_while_it_runs(at: Folder) -> None:
    """The same of a word that is changed in place while the shop runs, once the keeper is started again: it never reads that line."""
    at.run("./shop start auction --sites 2")
    at.shop("ask 0 user,ann item,0.1,white,7,1,100,0")
    at.shop("wait 1")
    with open(at.path / "auction/1/kept", "r+b") as kept:
        kept.seek(kept.read().index(b"white"))
        kept.write(b"black")
    os.kill(at.site(1)["pid"], signal.SIGKILL)
    at.wait("its end", lambda: at.site(1)["state"] == "fenced")
    assert "line 2 of its file `kept` was changed" in at.site(1)["fault"], f"why: {at.site(1)}"
    at.shop("list 1 items 7", 3, "line 2 of its file `kept` was changed")
    assert at.shop("ask 0 user,bob") == "ok,0.3\n", "site 0 goes on"
    at.shop("stop")
    changed(at, "auction/1/kept", "black", "white")
    at.run("./shop start auction")
    at.shop("wait 1")
    at.shop("audit")


def test_changed_word_over_a_server(at: Folder) -> None:
    """The same over a server, where a shop that was killed has sums that lag behind; what was asked is answered as it was kept."""
    server = Server(at).start_sale()
    at.shop("wait 2", folder="b")
    at.kill(at.status("b")["pid"])
    changed(at, "b/2/kept", "user,bob", "user,bub")
    at.run("./shop start b", 1, "site 2: line 2 of its file `kept` was changed (put it back as it was, or say shop rebuild 2)")
    at.run("./shop stop b; ./shop -C b rebuild 2; ./shop start b")
    at.shop("wait 2", folder="b")
    assert at.shop("ask 0 list,tables", folder="a") == at.shop("ask 2 list,tables", folder="b"), "the tables"
    server.kill()


def accepts_while_it_is_killed(at: Folder) -> None:
    """A site accepts each of 4,000 asks while it is killed again and again."""
    asker = at.start("sh -c 'seq -f comment,0.3,0.2,0.1,4,%g 4000 | ./shop -C auction ask 0 - > said'")
    for _ in range(3):
        at.kill(at.site(0)["pid"])
        at.wait("the site", lambda: at.site(0)["pid"] and at.site(0)["state"] == "up")
    assert asker.wait(SECONDS) == 0 and at.text("said").count("ok,0.") == 4000, "each is accepted"


def test_byte_239(at: Folder) -> None:
    """A record that begins with the byte 239, for which a site keeps another line, is refused; a crash later finds what was given."""
    at.start_sale()
    for start in ("\\357", "\\357\\273\\277", "\\357\\277\\275,"):
        at.run(f"printf '{start}user,eve\\n' | ./shop -C auction ask 0 -", 2, "the byte 239")
    accepts_while_it_is_killed(at)
    assert at.text("auction/0/kept").count("comment,") == 4000, "each is kept once"


def test_kept_by_hand(at: Folder) -> None:
    """A site that `rubis keep` was given lines that are no record, or two, is read as it counts them; a crash later finds what was given."""
    at.run("printf 'user,ann\\n\\nuser,bob\\r\\nstop\\rgo\\n\\r\\n\\357\\273\\277user,eve\\n' | ./rubis keep auction/0 > said")
    at.goes_on("./shop start auction", "0 item,0.1,lamp,7,3,100,80", "0.3", "an ask")
    log = [line for line in at.shop("log 0").splitlines() if line.startswith("< ")]
    assert log == ["< user,ann", "< user,bob", "< stop", "< go", "< broken", "< item,0.1,lamp,7,3,100,80"], f"its records: {log}"
    accepts_while_it_is_killed(at)


def test_forged_packets(at: Folder, server: Server) -> None:
    """What stands in a stream and isn't one packet isn't given to a site, which goes on with what comes behind it."""
    at.run(f"./shop start a --sites 3 --here 0,1 --over {server.over}")
    packets = ("token,1,5,0,0\\nuser,eve", "token,1,6,0,0\\n", "msg,1,2,1,1,0:0:0,user,ann\\nuser,eve", "\\357msg,1,2,2,1,0:0:1,user,ann")
    for number, packet in enumerate(packets):
        at.run(f"printf '{packet}' | redis-cli -p {server.port} -x xadd auction:2 0-{number + 1} p")
    at.wait("a fault for each", lambda: at.text("a/events").count("isn't given to it") == 2 * len(packets))
    assert at.shop("ask 0 user,cat", folder="a") == "ok,0.1\n", "site 0 holds the token still"
    assert at.text("a/0/kept") == "user,cat\n", f"what it was given: {at.text('a/0/kept')!r}"


def test_shorten(at: Folder) -> None:
    """A recording without what changed nothing gives the same packets and tables. One that can't be shortened is said so, also where whoever
    runs the command ignores SIGCHLD; what was changed in `out` is told by its log."""
    at.start_sale(2)
    at.shop("ask 0 user,ann user,bob 'bid,0.3,0.2,5'", 1)
    at.shop("ask 1 bid,0.3,0.2,500")
    at.shop("wait 0")
    rows = at.shop("ask 1 list,tables")
    at.shop("shorten 0", 1, "auction is running")
    at.shop("stop")
    at.run("cp auction/0/out aside; echo strange >> auction/0/out")
    at.run("env --ignore-signal=CHLD ./shop -C auction shorten 0", 1, "out differs")
    at.shop("log 0", 1, "auction/0/out was changed: not an answer: b'strange'")
    at.run("mv aside auction/0/out")
    at.run("cp -r auction short; ./shop -C short shorten 0 > said")
    assert at.text("said") == "site 0: 5 of 8 records are left\n", at.text("said")
    left = "user,ann\nuser,bob\nitem,0.1,lamp,7,3,100,80\npass,1\nmsg,1,1,1,3,3:0,bid,0.3,0.2,500\n"
    assert at.text("short/0/kept") == left, "what is left"
    at.run("./shop start short")
    assert at.shop("ask 0 list,tables", folder="short") == rows, "the same tables"
    assert sends(at, "short/0") == sends(at, "auction/0"), "the same packets"
    assert at.shop("ask 0 user,cat", folder="short") == "ok,0.4\n", "the next number"
    at.shop("audit", folder="short")


def seconds_of_calls(count: int) -> float:
    """The processor time that Python takes to call a function that many times that does next to nothing."""
    def successor(number: int) -> int:
        return number + 1
    began = time.process_time()
    for number in range(count):
        successor(number)
    return time.process_time() - began


def test_start_of_many_records(at: Folder) -> None:
    """A start over 105,000 records, half of them a site's own asks and half messages of another one, takes the supervisor no more processor
    time than Python takes for 25 million calls, some 2 s on a fast machine. The least of three counts, since what else runs makes
    one take longer."""
    def keep(site: int, records: list[str]) -> list[str]:
        """The messages that a site sends of these asks."""
        (at.path / "records").write_text("".join(f"{record}\n" for record in records))
        at.run(f"./rubis keep auction/{site} --site {site} --sites 2 < records > said")
        return sends(at, f"auction/{site}")
    own = keep(0, [*SALE.split(), *(f"restock,0.3,0.1,{number % 9 + 1}" for number in range(52_497))])
    others = keep(1, [*own[:3], *(f"comment,0.3,0.2,0.1,{number % 5},good" for number in range(52_500))])
    keep(0, others)
    taken = []
    calls = []
    for options in ("--sites 2", "", ""):
        at.run(f"./shop start auction --here 0,1 {options}")
        taken.append(processor_seconds(at.status()["pid"]))
        calls.append(seconds_of_calls(25_000_000))
        assert at.site(0)["records"] == 105_000, f"what it has read: {at.site(0)}"
        at.run("./shop stop auction")
    assert min(taken) <= min(calls), f"three starts took {taken} s of processor time, 25 million calls {calls} s"


def test_full(at: Folder) -> None:
    """A site that is full goes on with a greater --keep, once its recording is shortened; in whichever order that is done."""
    at.run("./shop start auction --keep 3")
    at.shop(f"ask 0 {SALE} user,cat", 1, "are as many as the site keeps (--keep)")
    assert not at.status()["well"] and " full " in at.run("./shop -C auction status; test $? = 1"), "a site that is full isn't well"
    at.shop("stop")
    was = at.text("auction/shop.json")
    at.run("./shop start auction --keep 100", 3, 'out differs at line 7: it has "reply,4,refused,2,Full"')
    at.shop("status", 3, "is not running")
    assert at.text("auction/shop.json") == was, "a start that failed leaves nothing behind"
    assert at.shop("shorten 0") == "site 0: 3 of 4 records are left\n", "what is left"
    at.goes_on("./shop start auction --keep 100", "0 user,dan", "0.4", "it goes on", audit="auction")


def test_upgrade(at: Folder) -> None:
    """A folder whose answers have the text of another version is started with --upgrade, and from then on without."""
    at.start_sale(2)
    at.run("./shop stop auction")
    setup = at.path / "auction/0/setup"
    was = setup.read_text()
    setup.write_text(re.sub(",[0-9]+\n$", ",0\n", was))
    at.run("./shop start auction", 3, "auction/0 has answers of version 0: --upgrade writes them anew")
    at.run("./shop stop auction; ./shop start auction --upgrade")
    assert setup.read_text() == was, f"what the folder says: {setup.read_text()}"
    assert at.shop("ask 0 user,eve") == "ok,0.4\n", "it goes on"
    at.run("./shop stop auction; ./shop start auction")
    at.shop("audit")


def test_once_another_start_damaged_the_shop(at: Folder) -> None:
    """A site that was started as another one wrote messages in its name, and the audit still agreed."""
    at.start_sale(2)
    at.shop("stop")
    at.run("./shop start auction --sites 3", 2, "auction has --sites 2, and that stays")
    at.run("mv auction/0 aside; mv auction/1 auction/0; mv aside auction/1")
    at.run("./shop start auction", 3, "is site 1 of 2")
    at.run("./shop stop auction; mv auction/0 aside; mv auction/1 auction/0; mv aside auction/1; ./shop start auction")
    at.shop("ask 1 bid,0.3,0.2,500")
    at.shop("audit")


def test_once_shortening_lost_the_shop(at: Folder) -> None:
    """With an empty `out` all of `kept` was emptied, with status 0."""
    at.run("./shop start auction")
    at.shop(f"ask 0 {SALE} user,ann", 1)
    at.shop("stop")
    kept = at.text("auction/0/kept")
    (at.path / "auction/0/out").write_text("")
    assert at.shop("shorten 0") == "site 0: 3 of 4 records are left\n", "what is left"
    assert at.text("auction/0/kept") == kept.removesuffix("user,ann\n"), "the records"
    (at.path / "auction/0/out").unlink()
    (at.path / "auction/0/kept").write_text("")
    assert at.shop("shorten 0") == "site 0: 0 of 0 records are left\n", "nothing is left of nothing"
    (at.path / "auction/0/out").write_text("reply,1,ok,0.1\nsend,msg,1,0,1,1,0,user,ann\n")
    at.shop("shorten 0", 1, 'out differs at line 1: it has "reply,1,ok,0.1", and the answer is ""; it is as it was')
    assert at.text("auction/0/out").startswith("reply,1,ok"), "nothing was changed"


def test_once_a_full_disk_said_nothing(at: Folder) -> None:
    """A disk that was full ended a site without a word, and what was asked then waited for ever."""
    need("prlimit")
    run = at.start("sh -c 'ulimit -S -f 16; exec ./shop run auction'")
    at.wait("the shop", lambda: (at.path / "auction/sock").exists())
    at.shop(f"ask 0 {SALE}")
    for number in range(100):
        record = f"comment,0.3,0.2,0.1,5,{'x' * 150}{number}"
        command = [str(at.path / "shop"), "-C", "auction", "ask", "0", record, "--timeout", "2"]
        said = subprocess.run(command, cwd=at.path, capture_output=True, text=True)
        if said.returncode:
            break
    assert said.returncode == 3 and "File too large" in said.stderr, f"what the asker is told: {said.stderr}"
    at.shop("status", 1)
    fault = at.site(0)["fault"]
    assert "write out: File too large" in fault or "write kept: File too large" in fault, f"the fault: {fault}"
    at.run(f"prlimit --pid {run.pid} --fsize=unlimited")
    at.wait("the site", lambda: at.site(0)["state"] == "up")
    assert at.shop("ask 0 user,cat").startswith("ok,0."), "it goes on"
    at.shop("audit")
