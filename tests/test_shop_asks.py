"""Asks of the command `shop`: their ways, keys, connections, limits and times."""

import concurrent.futures
import hashlib
import itertools
import json
import os
import re
import signal
import subprocess
import time
from typing import Any

import pytest

from measure_shop import ask_by_socket, driven, is_whole_line, seconds_of, to_socket
from tests.folder import SALE, SECONDS, Folder, kilobytes_of
from tests.needs import PYTHON
from tests.web import Web


def test_asks_that_are_quick(at: Folder) -> None:
    """An ask by the quick way, which loads little, writes and says what it does by the long one, whatever comes of it."""
    at.start_sale(2)
    for words in ("0 bid,0.3,0.2,500 bid,0.3,0.2,500", "0 bid,0.3,0.2,5", "0 bid,0.3,0.2,600 bid,0.3,0.2,5 bid,0.3,0.2,600",
                  "0 restock,0.3,0.1,1 list,users restock,0.3,0.1,1",
                  "0 'user,\"'", "0 ''", "0 \"$(printf 'user,\\351\\377')\"", "5 user,eve", "1 bid,0.3,0.2,900 --no-wait", "0 restock,0.3,0.1,1 --key one",
                  "0 restock,0.3,0.1,1 --key ''", "0 pass,9 pass,0", "0 bid,0.3,0.2,600 --timeout 0.4"):
        said = []
        for way in ("", "--timeout=10 " if "--timeout" not in words else "--raw "):
            at.run(f"./shop -C auction ask {way}{words} > told 2> faults; echo $? >> told")
            said.append((at.path / "told").read_bytes() + (at.path / "faults").read_bytes())
        numbers = re.compile(rb"0\.\d+|reply,\d+,|send,.*\n")
        assert numbers.sub(b"", said[0]) == numbers.sub(b"", said[1]), f"ask {words}: {said}"
    at.run("./shop -C auction ask 0 bid,0.3,0.2,5 > /dev/full", 3, "No space left on device")
    supervisor = at.status()["pid"]
    with at.standing_still(supervisor):
        at.shop("ask 0 bid,0.3,0.2,700 --timeout 0.2", 3, "gave no answer within 0.2 s; whether it was accepted isn't known (shop log 0)")


def test_time_of_an_ask(at: Folder) -> None:
    """`shop ask` as a command takes at most twice the processor time of a Python that does nothing; the least of thirty of each, one after
    the other, so that what else runs meets both."""
    at.start_sale()
    commands = {"nothing": [PYTHON, "-I", "-S", "-c", "pass"], "ask": [str(at.path / "shop"), "-C", str(at.path / "auction"), "ask", "0", "bid,0.3,0.2,500"]}
    taken: dict[str, list[float]] = {name: [] for name in commands}
    for _ in range(30):
        for name, command in commands.items():
            taken[name].append(1000 * seconds_of(command, stdout=subprocess.DEVNULL))
    nothing, ask = (min(taken[name]) for name in commands)
    assert ask <= 2.0 * nothing, f"an ask takes {ask:.1f} ms where nothing takes {nothing:.1f}"


def test_records_on_standard_input(at: Folder) -> None:
    """Many records by one call, answered in their order; a bad one ends it before its piece is asked."""
    at.start_sale()
    answers = at.run("seq -f bid,0.3,0.2,1%05.0f 2500 | ./shop -C auction ask 0 -").split()
    assert answers == [f"ok,0.{number}" for number in range(4, 2504)], "the answers"
    at.run("printf 'user,cat\\r\\nuser,\"eve\\n' | ./shop -C auction ask 0 -", 2, "its quotes don't close")
    at.run("printf 'user,cat\\n\\nuser,dan\\n' | ./shop -C auction ask 0 -", 2, "line 2: '': an empty line is no record; nothing was asked")
    assert "cat" not in at.shop("list 0 users"), "nothing of that piece was asked"
    at.run("printf 'user,cat\\r\\nuser,dan' | ./shop -C auction ask 0 -")
    at.run("printf 'user,\\377\\n' | ./shop -C auction ask 0 -", 1)
    assert "< user,\udcff\n" in at.shop("log 0 -n 2 --raw"), "bytes that are no text"
    asker = at.start("./shop -C auction ask 0 -", stdin=subprocess.PIPE, stdout=subprocess.PIPE)
    assert asker.stdin and asker.stdout
    asker.stdin.write(b"user,eve\n")
    asker.stdin.flush()
    assert asker.stdout.readline().startswith(b"ok,0."), "a line is asked when it comes"
    asker.stdin.close()
    assert asker.wait(SECONDS) == 0, "its status"
    assert "dan" in at.shop("list 0 users"), "a last line without its end"


def test_several(at: Folder) -> None:
    """A connection that is kept has many requests at once, each answered under its number; one can be left."""
    at.start_sale(2)
    answers = at.said_at_once([{"op": "ask", "site": 0, "records": [f"bid,0.3,0.2,{1000 + number}"], "timeout": 10, "fetch": True}
                               for number in range(1000)])
    assert {answer.get("fault") for answer in answers} == {None}, "each is answered"
    assert len(at.shop("list 0 bids 0.3").splitlines()) == 1001, "each is accepted once"
    with at.standing_still(at.site(0)["pid"]):
        with at.line() as line:
            said = line.makefile("rb")
            line.sendall(b'{"op": "several"}\n{"call": 1, "op": "wait", "site": 0, "timeout": 0.2}\n')
            assert json.loads(said.readline())["call"] == 1, "one that is answered"
            line.sendall(b'{"call": 2, "op": "list", "site": 0, "record": "list,users", "timeout": 30}\n{"leave": 2}\n{"leave": 7}\n')
            line.sendall(b'{"call": 3, "op": "nothing", "site": 0, "timeout": 1}\n')
            assert json.loads(said.readline())["call"] == 3, "one that is left isn't answered"
            line.sendall(b'{"op": "status"}\n')
            assert "`call` is no int" in json.loads(said.readline())["fault"] and said.readline() == b"", "one without a number ends it"
        with at.line() as line:
            line.sendall(b'{"op": "several"}\n' + b"x" * (17 << 20))
            assert b"it has more than 16777216 bytes" in line.recv(1 << 16), "one that is too long is refused, though it is written still"


def test_kept_connections_while_keepers_are_killed(at: Folder) -> None:
    """Each ask over a connection that is kept comes to its end, and what is told is there once, while the keepers are killed."""
    at.start_sale(2)
    told: dict[str, int] = {}
    until = time.monotonic() + 6.0

    def asker(number: int) -> None:
        """Asks one bid after the other at one of the sites."""
        with to_socket(os.path.relpath(at.path / "auction"))() as line, line.makefile("rb") as answers:
            line.settimeout(SECONDS)
            for amount in itertools.count(1000 + 1_000_000 * number):
                if time.monotonic() > until:
                    return
                ask = {"call": amount, "op": "ask", "site": number % 2, "records": [f"bid,0.3,0.2,{amount}"], "timeout": 20, "fetch": True}
                line.sendall(json.dumps(ask).encode() + b"\n")
                told[(answer := json.loads(answers.readline()))["lines"][0].split(",")[3]] = amount
                assert (answer["call"], json.loads(answers.readline())) == (amount, {"call": amount, "end": True}), f"an answer: {answer}"

    with concurrent.futures.ThreadPoolExecutor() as pool:
        asking = [pool.submit(asker, number) for number in range(8)]
        for turn in range(6):
            time.sleep(0.5)
            if keeper := at.site(turn % 2)["pid"]:
                at.kill(keeper)
        for each in asking:
            each.result()
    at.read_all(0, 1)
    assert at.shop("audit") == "audit,Agree\n", "the audit"
    accepted = {row["id"]: row["amount"] for row in json.loads(at.shop("list 0 bids 0.3 --json"))}
    assert accepted == told and len(told) > 50, f"{len(told)} were told, and {len(accepted)} are there"


def test_flood(at: Folder) -> None:
    """A client that makes requests and reads none of the refusals is given no more to read than waits for it, and leaves no event."""
    at.run("./shop start auction")
    supervisor = at.status()["pid"]
    with at.line(seconds=2.0) as line:
        line.sendall(b'{"op": "several"}\n')
        try:
            for number in range(200_000):
                line.sendall(b'{"call": %d, "op": "nothing", "site": 0, "timeout": 1}\n' % number)
            pytest.fail("200,000 requests were taken")
        except TimeoutError:
            pass
        assert at.shop("ask 0 user,ann") == "ok,0.1\n", "others are served"
    assert (memory := kilobytes_of(supervisor)) < 200_000, f"its memory: {memory} kB"
    at.shop("wait 0")
    assert "fault" not in at.text("auction/events"), at.text("auction/events")


def test_time_of_asks_over_kept_connections(at: Folder) -> None:
    """Sixteen askers, one ask each at a time over connections that are kept, with --sync: an ask takes the supervisor less than half of a
    millisecond of processor time, by the least of three; some 0.08 where nothing else runs."""
    at.run("./shop start auction --sync")
    at.shop(f"ask 0 {SALE}")
    supervisor = {"supervisor": at.status()["pid"]}
    taken = [driven(to_socket(os.path.relpath(at.path / "auction")), ask_by_socket, is_whole_line, 1.0, 1, supervisor) for _ in range(3)]
    assert min(each["processor µs an ask"]["supervisor"] for each in taken) < 500, f"what was measured: {taken}"
    assert at.shop("audit") == "audit,Agree\n", "the audit"


def test_keys(at: Folder) -> None:
    """An ask is accepted once under its key and always told its id, whatever is killed in between, and a red one by any site. Another one is
    refused, red and blue ones are apart, and a refusal isn't remembered."""
    at.run("./shop start auction --sites 2")
    assert at.shop("ask 0 user,ann --key a") == "ok,0.1\n" == at.shop("ask 0 user,ann --key a"), "asked again"
    assert at.shop("ask 0 user,bob --key a", 1, "another record was asked under that key") == "refused,40,KeyTaken\n", "another record"
    at.run_at_once({
        "./shop -C auction ask 0 user,bob user,cat --key b": "--key is for one record",
        f"./shop -C auction ask 0 user,bob --key {'x' * 256}": "a key has 1 to 255 printable ASCII characters",
        "./shop -C auction ask 0 key,b,user,bob": "a key is said beside its ask",
    }, 2)
    lamp = "item,0.1,lamp,7,3,100,80"
    assert at.shop(f"ask 0 user,bob {lamp} list,users --keys m").startswith("ok,0.2\nok,0.3\nuser,0.1,ann"), "keys of several"
    assert at.shop("ask 0 user,ann --key b", 1) == "refused,5,NickTaken\n", "a refusal"
    assert at.shop("ask 0 user,eve --key b") == "ok,0.4\n", "which uses no key up"
    assert at.shop(f"ask 0 {lamp} --key b") == "ok,0.5\n", "a blue ask under the key of a red one"
    assert at.shop("ask 1 user,ann --key a") == "ok,0.1\n", "a red ask that another site has accepted"
    at.shop("ask 1 user,dan --key a", 1, "another record was asked under that key")
    said = at.said(b'{"op": "ask", "site": 1, "records": ["user,ann"], "keys": ["a"], "timeout": 5, "fetch": true}')[0]
    assert said["record"] == "user,ann" and said["lines"][0].endswith(",again,0.1"), f"what the socket says: {said}"
    assert json.loads(at.shop("ask 1 user,ann --key a --json")) == {"record": "user,ann", "answer": "ok", "id": "0.1", "again": True}, "as JSON"
    asked = f"ask 0 user,bob {lamp} user,cat --keys m"
    at.kill(at.site(0)["pid"])
    assert at.shop("ask 0 user,bob --key m.1") == "ok,0.2\n", "the keeper was killed"
    at.kill(at.status()["pid"])
    at.goes_on("./shop start auction", "0 user,ann --key a", "0.1", "the supervisor was killed")
    # An ask that its keeper got and didn't keep is given again, once; one that it kept is answered.
    keeper = at.site(0)["pid"]
    with at.standing_still(keeper):
        for _ in range(2):
            at.shop(f"ask 0 {lamp} --key e --timeout 0.3", 3, "it may still be accepted")
    first = at.shop(f"ask 0 {lamp} --key e")
    assert first == "ok,0.6\n" == at.shop(f"ask 0 {lamp} --key e"), "once it goes on"
    os.kill(keeper, signal.SIGSTOP)
    at.shop(f"ask 0 {lamp} --key f --timeout 0.3", 3, "it may still be accepted")
    at.kill(keeper)
    assert at.shop(f"ask 0 {lamp} --key f") == "ok,0.7\n" == at.shop(f"ask 0 {lamp} --key f"), "it was never kept"
    assert at.shop(asked) == "ok,0.2\nok,0.3\nok,0.8\n", "an ask of several goes on"
    for command in ("shorten", "rebuild"):
        at.shop("stop")
        at.shop(f"{command} 0")
        at.run("./shop start auction")
        assert at.shop(asked) == "ok,0.2\nok,0.3\nok,0.8\n", command
    assert at.shop("audit") == "audit,Agree\n", "the audit"


def test_asks_under_keys_that_outlive_the_supervisor(at: Folder) -> None:
    """An ask under a key that was begun when the supervisor was killed is asked again by the command, and by `shop serve`, once there is another
    one; without a key it isn't, but where --retry has one drawn."""
    at.run("./shop start auction")
    web, retrying = Web(at), Web(at, "--retry")
    with concurrent.futures.ThreadPoolExecutor() as pool:
        supervisor = at.status()["pid"]
        with at.standing_still(at.site(0)["pid"]):
            asks = {"user,ann": "--key a", "user,eve user,fay": "--retry", "user,cat": ""}
            told = [pool.submit(at.run, f"./shop -C auction ask 0 {records} {key} 2>&1; true") for records, key in asks.items()]
            served = [pool.submit(web.ask, 0, "user,bob", "b"), pool.submit(retrying.ask, 0, "user,gus"), pool.submit(web.ask, 0, "user,dan")]
            at.wait("the asks", lambda: at.site(0)["waiting"] == 6)
            at.kill(supervisor)
        at.run("./shop start auction")
        assert [bool(re.fullmatch("(ok,0.[1-7]\n)+", said.result())) for said in told] == [True, True, False], f"told: {[said.result() for said in told]}"
        assert "ended before it answered" in told[2].result(), f"without a key: {told[2].result()}"
        assert [said.result().status for said in served] == [201, 201, 504], f"over HTTP: {[said.result() for said in served]}"
    made = [line for line in at.text("auction/0/out").splitlines() if line.startswith("send,key,")]
    assert len(made) == 5, f"what was accepted under keys: {made}"


def test_drawn_keys_are_told(at: Folder) -> None:
    """Where it isn't known whether an ask under a drawn key was accepted, its asker is told how it is asked again."""
    at.run("./shop start auction")
    web = Web(at, "--retry")
    with at.standing_still(at.site(0)["pid"]):
        said = at.run("./shop -C auction ask 0 user,ann --retry --timeout 0.3 2>&1", 3)
        served = web.post("/sites/0/asks?timeout=0.3", [{"record": "user,bob"}]).json["problem"]["detail"]
    keys, key = re.findall("with (--keys [0-9a-f]{24}) in place of --retry goes on\n$", said), re.findall("under the key ([0-9a-f]{24}.1)$", served)
    assert at.shop(f"ask 0 user,ann {keys[0]}") == "ok,0.1\n" and at.shop(f"ask 0 user,bob --key {key[0]}") == "ok,0.2\n", f"{said}{served}"
    assert "place of --retry" not in at.run("./shop -C auction ask 0 user,ann --retry 2>&1", 1), "one that is refused"
    at.run("./shop stop auction")
    assert "place of --retry" not in at.run("./shop -C auction ask 0 user,cat --retry 2>&1", 3), "one that nobody was given"


def test_a_key_of_a_message_that_is_lost(at: Folder) -> None:
    """A key is known as long as its message is there: an ask may be told that a key is taken by one that is lost later, with its folder."""
    at.run("./shop start auction; ./shop stop auction; cp -r auction older; ./shop start auction")
    assert at.shop("ask 0 user,ann --key a") == "ok,0.1\n", "the first"
    assert at.shop("ask 0 user,bob --key a", 1) == "refused,40,KeyTaken\n", "another one"
    at.run("./shop stop auction; rm -r auction; mv older auction")
    at.goes_on("./shop start auction", "0 user,bob --key a", "0.1", "once the first is lost")


def test_keys_of_a_version_before(at: Folder) -> None:
    """What a version of before wrote down beside a site is known for a day from when it was asked, until the site is shortened; its file isn't
    written any more, and goes when its day is over."""
    at.start_sale()
    sums = {record: hashlib.blake2b(record.encode(), digest_size=16).hexdigest() for record in ("user,ann", "user,bob", "user,cat")}
    at.shop("ask 0 user,ann", 1)
    asked = [("a", "user,ann", 1), ("b", "user,bob", 2), ("never kept", "user,cat", 9), ("refused", "user,ann", 4)]

    def write(ago: int) -> None:
        lines = [{"key": key, "at": int(time.time()) - ago, "sum": sums[record], "number": number} for key, record, number in asked]
        (at.path / "auction/0/keys").write_text("".join(json.dumps(line) + "\n" for line in lines))
        at.run("./shop start auction")

    at.shop("stop")
    write(80_000)
    assert at.shop("ask 0 user,ann --key a") == "ok,0.1\n" == at.shop("ask 0 user,ann --key a"), "the answer of then"
    assert json.loads(at.shop("ask 0 user,bob --key b --json")) == {"record": "user,bob", "answer": "ok", "id": "0.2", "again": True}, "as JSON"
    assert at.shop("ask 0 user,ann --key refused", 1) == "refused,5,NickTaken\n", "a refusal of then"
    at.shop("ask 0 user,cat --key a", 1, "another record was asked under that key")
    assert at.shop("ask 0 user,cat --key 'never kept'") == "ok,0.4\n" == at.shop("ask 0 user,cat --key 'never kept'"), "one that was never kept"
    at.shop("stop")
    at.shop("shorten 0")
    assert not (at.path / "auction/0/keys").exists(), "the numbers are others now"
    write(90_000)
    assert not (at.path / "auction/0/keys").exists(), "their day is over"
    assert at.shop("ask 0 user,ann --key a", 1) == "refused,5,NickTaken\n", "a key that nobody knows"


def test_asks_that_are_cut(at: Folder) -> None:
    """An ask of many that is cut says how far it came, and the same command goes on, by the keys of its asks."""
    at.run("./shop start auction")
    records = "echo user,ann; echo user,bob; until [ -e go ]; do sleep 0.1; done; echo user,cat"
    asker = at.start(f"sh -c '({records}) | ./shop -C auction ask 0 - --keys m --timeout 2 > said 2>&1'")
    at.wait("the first two", lambda: "bob" in at.shop("list 0 users"))
    keeper = at.site(0)["pid"]
    with at.standing_still(keeper):
        at.run("touch go")
        assert asker.wait(SECONDS) == 3, "its status"
        said = at.text("said")
        assert said.startswith("ok,0.1\nok,0.2\n") and said.endswith("(answered: the first 2); the same command again goes on\n"), f"what it says: {said}"
    assert at.shop("ask 0 user,ann user,bob user,cat --keys m") == "ok,0.1\nok,0.2\nok,0.3\n", "the same again"


def test_away(at: Folder) -> None:
    """Asks of a site that can't start, or without a holder of the token, end in time and say what is known."""
    at.start_sale(2)
    at.shop("stop")
    out = at.text("auction/0/out")
    (at.path / "auction/0/out").write_text(out.replace("lamp", "lump"))
    at.run("./shop start auction", 3, 'out differs at line 6: it has "send,msg,1,0,3,0,2:0,item,0.1,lump')
    at.shop("ask 0 user,cat --timeout 1", 3, "no answer within 1 s; nothing was given to it")
    at.shop("ask 1 bid,0.3,0.2,500 --timeout 1", 3, "site 0 has the token (turn 0), and is not running; not accepted within 1 s")
    assert at.shop("ask 1 comment,0.3,0.2,0.1,5,good") == "ok,1.1\n", "blue asks go on"
    at.shop("status", 1)
    (at.path / "auction/0/out").write_text(out + "reply,4,ok,0.4\n")
    at.shop("stop")
    at.run("./shop start auction", 3, 'out differs at line 7: it has "reply,4,ok,0.4", and the answer is ""')
    at.shop("stop")
    (at.path / "auction/0/out").write_text(out)
    at.goes_on("./shop start auction", "1 bid,0.3,0.2,500", "1.2", "the token comes back with its holder")


def test_time_out(at: Folder) -> None:
    """Where a site or the supervisor hangs, a command ends when its time is over, and says what isn't known and how it is found out."""
    at.start_sale(2)
    at.shop("ask 0 user,zoe")
    keeper, supervisor = at.site(0)["pid"], at.status()["pid"]
    with at.standing_still(keeper):
        for number, name in enumerate(("hal", "eve"), 5):
            how = f"as record {number} of `shop log 0`; once another record stands there, it never will be"
            at.shop(f"ask 0 user,{name} --timeout 1", 3, f"it may still be accepted, {how}")
        assert "reply,5," not in at.shop("log 0"), "nothing is decided"
    assert at.shop("ask 0 user,cat") == "ok,0.7\n", "it goes on"
    found = at.shop("log 0")
    assert "< user,hal\n> reply,5,ok,0.5\n" in found and "< user,eve\n> reply,6,ok,0.6\n" in found, f"what the askers find: {found}"
    with at.standing_still(supervisor):
        for words in ("ask 0 user,dan", "list 0 users", "show 0 item 0.3", "audit", "status"):
            unknown = "; whether it was accepted isn't known (shop log 0)" if words.startswith("ask") else ""
            began = time.monotonic()
            at.shop(f"{words} --timeout 1", 3, f"the supervisor of auction gave no answer within 1 s{unknown}")
            assert time.monotonic() - began < 6, f"the time-out of {words}"
    at.shop("ask 0 user,fay")
    at.shop("audit")


def test_asked_while_it_stops(at: Folder) -> None:
    """What askers are told while a shop is being stopped, which takes its time, stays true."""
    at.start_sale(2)
    keeper = at.site(0)["pid"]
    with at.standing_still(keeper):
        given = at.start("sh -c './shop -C auction ask 0 user,eve --timeout 6 2> given'")
        at.wait("the ask", lambda: at.site(0)["waiting"] == 1)
        waits = at.start("sh -c './shop -C auction ask 1 bid,0.3,0.2,500 --timeout 20 2> waits'")
        at.wait("a want of the token", lambda: at.site(1)["waiting"] == 1)
        stop = at.start("./shop stop auction")
        at.wait("the stop", lambda: "asked to stop" in at.text("auction/events"))
        at.shop("ask 0 user,fay", 3, "the shop is being stopped; nothing was asked")
        for asker in (given, waits):
            assert asker.wait(SECONDS) == 3, "an asker's status"
        assert "as record 4 of `shop log 0`; once another" in at.text("given"), f"what was given: {at.text('given')}"
        assert at.text("waits").endswith("the shop is being stopped; not accepted\n"), f"what was refused: {at.text('waits')}"
    assert stop.wait(SECONDS) == 0, "the status of the stop"
    at.goes_on("./shop start auction", "0 user,gus", "0.5", "it goes on")
    assert "< user,eve\n> reply,4,ok,0.4\n" in at.shop("log 0") and "fay" not in at.shop("log 0"), "what the askers find"
    assert ",ok," not in at.shop("log 1"), "nothing was accepted at site 1"


def test_limits(at: Folder) -> None:
    """Many askers, and readers that read nothing: others are served, and no buffer grows without end."""
    at.start_sale()
    at.run("seq -f 'comment,0.3,0.2,0.1,5,%-200g' 3000 | ./shop -C auction ask 0 - > /dev/null")
    readers = [at.line() for _ in range(10)]
    for reader, request in zip(readers, itertools.cycle((b'{"op": "follow", "site": 0}\n', b'{"op": "logs", "timeout": 60}\n'))):
        reader.sendall(request)
    at.run("seq -f 'comment,0.3,0.2,0.1,5,%-200g' 9000 | ./shop -C auction ask 0 - > /dev/null")
    assert (memory := kilobytes_of(at.status()["pid"])) < 200_000, f"the supervisor takes {memory} KiB"
    readers += [at.line() for _ in range(500)]
    at.shop("ask 0 user,eve", 3, "others are connected; nothing was asked")
    for reader in readers:
        reader.close()
    asked = [str(at.path / "shop"), "-C", "auction", "ask", "0", "user,eve"]
    at.wait("room", lambda: subprocess.run(asked, cwd=at.path, capture_output=True).returncode != 3)
    line = at.run("head -c 20000000 /dev/zero | tr '\\0' x > long; ./shop -C auction ask 0 - < long", 2, "has at most 4096 bytes")
    assert line == "", "nothing was asked"


def test_one_record_a_request(at: Folder) -> None:
    """What comes over the socket is one record of the kind that its request is for, or nothing is given to a site."""
    at.start_sale(2)
    at.shop("list 0 items \"$(printf '7\\nuser,eve')\"", 2, "a record has no line end in it; nothing was asked")
    no_records = ["", "list,users\n", "list,users\nuser,eve", "list,users\ruser,eve", 'list,items,"7', '"list",users', "\ufefflist,users",
                  "\udcefist,users", "\ud800", "msg,1,1,1,1,0:0,user,eve", "token,1,9,0,9", "list,items," + "7" * 5000, None, 7,
                  ["list,users"], "?list,users", "?"]
    requests: list[dict[str, Any]] = [{"op": "list", "record": record} for record in [*no_records, "user,eve", "pass,1", "list\0,users"]]
    requests += [{"op": "ask", "records": ["user,eve", record], "fetch": True} for record in no_records]
    requests += [{"op": "ask", "records": records, "fetch": True} for records in ("user,eve", None, 7, ["user,eve"] * 10_001)]
    requests += [{"op": "ask", "records": ["user,eve"], "fetch": "no"}, {"op": "have", "origin": "0", "after": 0}]
    requests += [{"op": "ask"}, {"op": "eve"}]
    requests += [{"op": "row", "table": table, "key": key} for table, key in (
        ("user", "0.1\nuser,eve"), ("user", "0.1\r"), ("user", "7" * 5000), ("user", None), ("log", "1"), ("misfit", "1"), (None, "0.1"))]
    pages: list[dict[str, Any]] = [{}, {"most": 0}, {"most": 10_001}, {"most": 1, "after": 7}, {"most": 1, "record": "list,users\nuser,eve"}]
    requests += [{"op": "page", "record": "list,users"} | more for more in pages]
    lines = [json.dumps({"site": 0, "timeout": 5} | request) for request in requests]
    for seconds in ("NaN", "Infinity", "-1", "0", "1e300", '"5"', "null"):
        lines.append('{"op": "ask", "site": 0, "records": ["user,eve"], "fetch": true, "timeout": %s}' % seconds)
    lines += ['{"op": "ask", "site": %s, "timeout": 5}' % site for site in ("2", "-1", "null", '"0"', "[0]")]
    lines += ["", "{", "7", "null", '["op"]', "{}", "[" * 100_000, '"' + "x" * (17 << 20)]
    for line in [line.encode() for line in lines] + [b'{"op": "ask\xff"}']:
        answer = at.said(line)[-1]
        assert answer.get("end") is True and answer["status"] == 2 and bool(answer["fault"]), f"the answer to {line[:80]!r}: {answer}"
    assert at.said(b'{"op": "list", "site": 0, "record": "list,categories", "timeout": 5}')[0]["rows"] == ["row,category,7,1,1"], "a listing"
    at.run("printf 'user,\\000eve\\n' | ./shop -C auction ask 0 -", 1)
    assert at.shop("ask 0 user,cat") == "ok,0.4\n", "the next answer is that of its record"
    kept = b"user,ann\nuser,bob\nitem,0.1,lamp,7,3,100,80\nuser,\0eve\nuser,cat\n"
    assert (at.path / "auction/0/kept").read_bytes() == kept, "what site 0 was given"


def test_once_asks_hung(at: Folder) -> None:
    """An asker hung for ever: of a site that had died, of an empty record, of the word `stop`, of a carriage return."""
    at.run("./shop start auction --sites 2")
    at.shop("ask 0 ''", 2, "an empty line is no record; nothing was asked")
    at.shop("ask 0 \"$(printf 'user,dan\\rrest')\"", 2, "a record has no line end in it; nothing was asked")
    at.shop("ask 0 \"$(printf 'user,dan\\nrest')\"", 2, "a record has no line end in it; nothing was asked")
    assert at.shop("ask 0 stop", 1, "the record isn't in the grammar") == "refused,1,BadRecord\n", "a word that is no record"
    assert at.shop("ask 0 user,ann") == "ok,0.1\n", "the site is up still"
    # The site can't come up: its folder is locked by somebody else.
    process = at.site(0)["pid"]
    lock = at.start("flock auction/0/lock sleep 100")
    at.kill(process)
    at.wait("a fault", lambda: at.site(0)["state"] != "up" or at.site(0)["starts"] > 1)
    at.shop("ask 0 user,bob --timeout 1", 3, "no answer within 1 s; nothing was given to it")
    os.killpg(lock.pid, signal.SIGKILL)
    assert at.shop("ask 0 user,cat --timeout 50") == "ok,0.2\n", "it comes up by itself, and bob was never asked"


def test_once_asks_got_slower(at: Folder) -> None:
    """An ask read all that the site had ever answered."""
    at.start_sale()
    at.run("seq -f bid,0.3,0.2,1%05.0f 20000 | ./shop -C auction ask 0 - > /dev/null")
    began = time.monotonic()
    at.shop("ask 0 bid,0.3,0.2,500")
    assert time.monotonic() - began < 10, "an ask behind 20,000 others"
