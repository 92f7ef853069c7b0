"""Kills each part of a shop at random moments while it is asked, and then looks whether anything was lost or doubled.

Askers ask at random sites, red and blue asks, and write down what they were told. Meanwhile `kill -9` hits a site, a supervisor or the
server. Over `everysec` and `always` there are two supervisors and a redis-server with that appendfsync; with `everysec` the server also
loses the end of its file at times, as after a power failure. `Course` has what else goes wrong. Half of the asks have keys: one that isn't
answered is asked again until it is, a red one of any site, and some that were accepted are asked once more, and have to get the same id.
Where something is lost, what was told before it was published may be gone; so may a message that stood nowhere but in a folder that loses
it, since the server had just lost its end.

At the end a red ask at each site is accepted, all sites have equal logs as sets and equal tables, the audit says Agree, each accepted ask
is in the logs once, as it was asked, under each key there is one, none that was told *not accepted* is there, and where no folder loses
anything, one that was told which record it would be is that one if it was accepted. The figures are printed (`pytest -rP` shows them)."""

import collections
import contextlib
import json
import os
import pathlib
import re
import resource
import shutil
import threading
import time
from typing import Any, NamedTuple

import pytest

from shop_tool import client
from shop_tool.carrier.records import RED, UNDECIDED, Message, ask_of, bare, bytes_of, key_in, packet_of, text_of
from shop_tool.ends import Fault
from tests.conftest import Extent
from tests.folder import Counted, Folder, sends
from tests.server import Server
from traffic import KINDS, Dice, Known

TRIES = 1000        # how often one is asked again under its key at most: some time after the last kill
# The kinds of which each ask is another one, so that they can be counted in the logs.
COUNTED = KINDS.keys() - {"buy", "close"}
NUMBERED = re.compile(r"may still be accepted, as record ([0-9]+) of")


class Course(NamedTuple):
    """How a shop runs, and what is killed of it."""

    seed: int
    kills: int
    over: str = "files"
    disks: bool = False             # a site's folder is lost
    power: bool = False             # a site's files lose their ends
    older: bool = False             # a site's folder is put back to a copy
    full: bool = False              # the files of a folder can't grow for some time
    published: bool = False         # asks end once another site, or the server, has them
    elsewhere: bool = False         # any supervisor is asked for any site
    sites: int = 4
    askers: int = 8
    timeout: float = 15.0


class Asked:
    """What the askers asked and were told."""

    def __init__(self) -> None:
        self.accepted: dict[str, tuple[str, str]] = {}      # by id: what was asked, and the message
        self.never: list[str] = []                          # told: not accepted, or not given to a site
        self.open = 0                                       # not told how it ended
        self.numbered: list[tuple[int, int, str]] = []      # told which record of a site it would be
        self.refused: collections.Counter[str] = collections.Counter()
        self.faults: collections.Counter[str] = collections.Counter()
        self.seconds: list[float] = []
        self.users: list[str] = []
        self.items: list[tuple[str, str]] = []              # with their sellers
        self.bad: list[str] = []
        self.told: dict[str, float] = {}                    # when the askers of these messages were told of them
        self.lost: set[str] = set()                         # the ids of those that stood nowhere but in a folder that lost them
        self.again = 0                                      # asked again under their keys, since no answer had come
        self.same = 0                                       # and once more, after the answer
        self.keys = 0                                       # under which an ask was accepted


class Tagged(Known):
    """Draws asks over what was accepted before; each is another one, by the number of its asker and of its turn."""

    SHARES = {"user": 4, "item": 4, "bid": 6, "comment": 6, "buy": 2, "restock": 2, "rename": 2}

    def __init__(self, seed: int, asked: Asked, number: int) -> None:
        super().__init__(Dice(seed))
        self.users, self.items, self.number, self.turn = asked.users, asked.items, number, 0

    def record(self) -> str:
        self.turn += 1
        kind = "user" if len(self.users) < 3 else "item" if len(self.items) < 3 else self.dice.one([*self.kinds, "list"])
        return "list,categories" if kind == "list" else ",".join(self.ask(kind))

    def nickname(self) -> str:
        return f"u{self.number}_{self.turn}"

    def name(self) -> str:
        return f'"thing, {self.number}x{self.turn}"'

    def amount(self) -> int:
        return self.number * 10_000_000 + self.turn + 1000

    def quantity(self) -> int:
        return self.number * 10_000 + self.turn % 10_000 + 1 if self.kind == "restock" else 1


class Asker(threading.Thread):
    def __init__(self, trial: "Trial", number: int) -> None:
        super().__init__()
        self.trial, self.number = trial, number
        self.fields = Tagged(trial.course.seed * 100 + number, trial.asked, number)
        self.dice = self.fields.dice

    def run(self) -> None:
        while not self.trial.ending.is_set():
            record, site = self.fields.record(), self.dice.randrange(self.trial.course.sites)
            if self.dice.random() < 0.5:
                self.ask_by_key(site, record, f"{self.number}.{self.fields.turn}")
                continue
            try:
                self.ask(site, record)
            except Fault as fault:
                self.told_fault(site, record, fault)

    def ask_by_key(self, site: int, record: str, key: str) -> None:
        """Asks until an answer comes, what is red at any site, and then maybe once more, when the id has to be the same."""
        asked, first, is_red = self.trial.asked, None, record.split(",")[0].encode() in RED
        for _ in range(TRIES):
            at = self.dice.randrange(self.trial.course.sites) if is_red and self.dice.often(0.5) else site
            try:
                head = self.ask(at, record, key)
            except Fault as fault:
                self.note_fault(fault)
                asked.again += first is None
                continue
            if head[2] == "refused" and (first or head[4] in UNDECIDED):
                if head[4] not in (*UNDECIDED, "Full") and first not in asked.lost:
                    asked.bad.append(f"{record} was accepted as {first} under its key, and then answered {head}")
                continue
            if first not in (None, head[3]) and first not in asked.lost:
                asked.bad.append(f"{record} was accepted as {first} under its key, and then as {head[3]}")
            if first or head[2] in ("refused", "rows") or self.dice.random() < 0.7:
                asked.same += first is not None
                return
            first = head[3]
        asked.open += first is None

    def ask(self, site: int, record: str, key: str | None = None) -> list[str]:
        """The first line of the answer."""
        course, asked, began = self.trial.course, self.trial.asked, time.monotonic()
        request = {"op": "ask", "site": site, "records": [record], "keys": [key] if key else None, "timeout": course.timeout, "fetch": True,
                   "published": course.published}
        folder = self.dice.choice(list(self.trial.parts)) if course.elsewhere else self.trial.folder_of(site)
        answers = list(client.call(folder, request, 60))
        client.raise_fault(answers[-1])
        asked.seconds.append(time.monotonic() - began)
        lines: list[str] = answers[0]["lines"]
        head = lines[0].split(",")
        if head[2] == "refused":
            asked.refused[head[4]] += 1
        elif head[2] in ("ok", "again") and (head[2] == "ok" or asked.accepted.get(head[3], ("", ""))[0] != record):
            message = lines[1][5:] if head[2] == "ok" else ""
            if head[3] in asked.accepted and head[3] not in asked.lost:
                asked.bad.append(f"{head[3]} was given to {record} and to {asked.accepted[head[3]][0]}")
            asked.accepted[head[3]] = (record, message)
            asked.told[head[3]] = time.monotonic()
            self.fields.note(head[3], record.split(","))
        return head

    def told_fault(self, site: int, record: str, fault: Fault) -> None:
        asked = self.trial.asked
        if "not accepted" in fault.text or "nothing was" in fault.text:
            asked.never.append(record)
        else:
            asked.open += 1
            if found := NUMBERED.search(fault.text):
                asked.numbered.append((site, int(found[1]), record))
        self.note_fault(fault)

    def note_fault(self, fault: Fault) -> None:
        asked = self.trial.asked
        asked.faults[re.sub(r"\(.*?\)|[0-9T:+.-]*[0-9]", "N", fault.text.replace(str(self.trial.at.path), ".."))[:100]] += 1
        if any(words in fault.text for words in ("running", "ended", "takes no requests")):
            time.sleep(0.05)


class Trial:
    """A shop, its askers, and what is killed of it."""

    def __init__(self, course: Course, at: Folder) -> None:
        self.course, self.at, self.dice = course, at, Dice(course.seed)
        self.asked, self.ending = Asked(), threading.Event()
        self.loses = course.disks or course.power or course.older
        self.kills: collections.Counter[str] = collections.Counter()
        half = course.sites // 2
        groups = [range(course.sites)] if course.over == "files" else [range(half), range(half, course.sites)]
        self.parts = {str(at.path / name): list(group) for name, group in zip("ab", groups)}
        self.server = None if course.over == "files" else Server(at, f"--appendfsync {course.over}")
        self.lost_end = 0.0                     # when the server that lost its end last came back

    def folder_of(self, site: int) -> str:
        return next(folder for folder, sites in self.parts.items() if site in sites)

    def shop(self, words: str, folder: str) -> str:
        """What a command says, whatever comes of it."""
        return self.at.run(f"./shop -C {folder} {words} 2>&1; true")

    def start(self, folder: str) -> None:
        here = ",".join(map(str, self.parts[folder]))
        self.shop(f"start --sites {self.course.sites} --here {here} --over {self.server.over if self.server else 'files'}", folder)

    def status(self, folder: str) -> dict[str, Any]:
        found: dict[str, Any] = client.one(folder, {"op": "status"}, 10)["shop"]
        return found

    # Kills.

    def kill(self) -> bool:
        """Kills something; False if it wasn't there."""
        folder = self.dice.choice(list(self.parts))
        kinds = ["site", "site", "supervisor"] + ["server"] * 2 * (self.server is not None)
        kinds += ["disk"] * self.course.disks + ["power"] * 4 * self.course.power + ["older"] * 8 * self.course.older
        kinds += ["full"] * 4 * self.course.full
        kind = self.dice.choice(kinds)
        try:
            state = self.status(folder)
            site = self.dice.choice([one for one in state["site"] if one["site"] in self.parts[folder]])
            hit = getattr(self, f"kill_{kind}")(folder, state, site)
        except (Fault, ProcessLookupError):
            return False
        self.kills[kind] += hit
        return bool(hit)

    def kill_site(self, folder: str, state: dict[str, Any], site: dict[str, Any]) -> bool:
        if site["pid"]:
            self.at.kill(site["pid"])
        return bool(site["pid"])

    def kill_supervisor(self, folder: str, state: dict[str, Any], site: dict[str, Any]) -> bool:
        self.at.kill(state["pid"])
        time.sleep(self.dice.random() * 0.5)
        self.start(folder)
        return True

    def kill_server(self, folder: str, state: dict[str, Any], site: dict[str, Any]) -> bool:
        assert self.server
        self.server.kill()
        has_lost = self.course.over == "everysec" and self.dice.often(0.5)
        if has_lost:
            file = max(self.at.path.glob("appendonlydir/*.incr.aof"))
            os.truncate(file, max(200, file.stat().st_size - self.dice.randrange(6000)))
            self.kills["server lost its end"] += 1
        time.sleep(self.dice.random() * 1.5)
        self.lost_end = time.monotonic() if has_lost else self.lost_end
        self.server.start()
        return True

    def kill_disk(self, folder: str, state: dict[str, Any], site: dict[str, Any]) -> bool:
        """A site's folder is lost, and made again from the streams."""
        number = self.about_to_lose(folder, state, site)
        sent = sends(self.at, f"{folder}/{number}")
        shutil.rmtree(f"{folder}/{number}")
        self.rebuild(folder, number)
        again = sends(self.at, f"{folder}/{number}")
        for is_token in (False, True):      # how they stand among each other isn't determined where nobody but others had them
            was, now = ([text for text in packets if text.startswith("token") == is_token] for packets in (sent, again))
            if now != was[:len(now)]:
                self.asked.bad.append(f"site {number} was rebuilt with other packets")
        self.kills["packets lost with the disk"] += len(sent) - len(again)
        self.start(folder)
        return True

    def kill_power(self, folder: str, state: dict[str, Any], site: dict[str, Any]) -> bool:
        """A site's files lose their ends. It starts, or is refused or fenced and then made again from the streams."""
        number = self.about_to_lose(folder, state, site)
        for name, most in (("kept", self.dice.choice([0, 30, 300, 3000])), ("out", self.dice.choice([0, 300, 3000, 9000]))):
            path = f"{folder}/{number}/{name}"
            os.truncate(path, max(0, os.path.getsize(path) - int(most * self.dice.random())))
        self.mend(folder, number, "power")
        return True

    def kill_older(self, folder: str, state: dict[str, Any], site: dict[str, Any]) -> bool:
        """A site's folder is copied; the next time it is put back to the copy. It starts, or is fenced or refused and then made again."""
        copy = self.at.path / f"{pathlib.Path(folder).name}.{site['site']}.older"
        if not copy.exists():
            shutil.copytree(f"{folder}/{site['site']}", copy)
            return False
        number = self.about_to_lose(folder, state, site)
        for name in ("kept", "out", "life", "setup", "sums"):
            shutil.copyfile(copy / name, f"{folder}/{number}/{name}")
        shutil.rmtree(copy)
        self.mend(folder, number, "older")
        return True

    def kill_full(self, folder: str, state: dict[str, Any], site: dict[str, Any]) -> bool:
        """The files of a folder get no longer than one of them is: a supervisor and its keepers, also those that it starts meanwhile."""
        size = os.path.getsize(f"{folder}/{site['site']}/{self.dice.choice(['kept', 'out'])}") + self.dice.randrange(500)
        for limit in (size, resource.RLIM_INFINITY):
            for process in (state["pid"], *(one["pid"] for one in self.status(folder)["site"] if one["site"] in self.parts[folder])):
                with contextlib.suppress(ProcessLookupError, TypeError):        # there is none just then
                    resource.prlimit(process, resource.RLIMIT_FSIZE, (limit, resource.RLIM_INFINITY))
            time.sleep(self.dice.random())
        return True

    def about_to_lose(self, folder: str, state: dict[str, Any], site: dict[str, Any]) -> int:
        """Ends what runs a site whose folder is about to lose something: its number. Of what was told before the server lost its end, some
        messages may stand nowhere else: then their numbers may be given again. What was told since stands in a stream."""
        self.at.kill(state["pid"])
        time.sleep(0.5)
        number: int = site["site"]
        if self.course.over != "everysec":
            return number
        assert self.server
        elsewhere = set(self.server.say(f"xrange auction:{number} - +").splitlines())
        for part, sites in self.parts.items():
            for other in sites:
                if other != number and os.path.exists(f"{part}/{other}/kept"):
                    elsewhere |= set(pathlib.Path(part, str(other), "kept").read_text(errors="replace").split("\n"))
        only_here = [packet_of(bytes_of(text)) for text in set(sends(self.at, f"{folder}/{number}")) - elsewhere]
        names = [f"{packet.origin}.{packet.number}" for packet in only_here if isinstance(packet, Message)]
        lost = {name for name in names if self.asked.told.get(name, self.lost_end) < self.lost_end}
        self.kills["messages that only the folder had"] += len(lost - self.asked.lost)
        self.asked.lost |= lost
        return number

    def mend(self, folder: str, number: int, kind: str) -> None:
        """Starts sites of which one may have lost something; it goes on, or is made again."""
        self.start(folder)
        for turn in range(40):
            one = next(one for one in self.status(folder)["site"] if one["site"] == number)
            if one["state"] == "fenced" or "run fault" in (one["fault"] or ""):
                self.kills[f"{kind}: {one['state']}, rebuilt"] += 1
                self.shop("stop", folder)
                self.rebuild(folder, number)
                self.start(folder)
                break
            if one["state"] == "up" and one["published"] == one["sent"] and turn > 10:
                self.kills[f"{kind}: went on"] += 1
                break
            time.sleep(0.1)

    def rebuild(self, folder: str, number: int) -> None:
        said = self.shop(f"rebuild {number} --anyway", folder)
        if "packets of its own came out again" not in said:
            self.asked.bad.append(f"site {number} wasn't rebuilt: {said.strip()}")

    # Its course.

    def run(self) -> dict[str, Any]:
        for folder in self.parts:
            self.start(folder)
        askers = [Asker(self, number) for number in range(self.course.askers)]
        for asker in askers:
            asker.start()
        began, done = time.monotonic(), 0
        try:
            while done < self.course.kills:
                time.sleep(self.dice.random() * 0.8)
                done += self.kill()
        finally:
            self.ending.set()
        seconds = time.monotonic() - began
        for asker in askers:
            asker.join()
        for folder in self.parts:
            self.start(folder)
        return self.compare() | {"seconds": round(seconds, 1)}

    def compare(self) -> dict[str, Any]:
        asked, sites, began = self.asked, range(self.course.sites), time.monotonic()
        for site in sites:
            try:
                Asker(self, self.course.askers + site).ask(site, f"user,end{site}")
            except Fault as fault:
                asked.bad.append(f"red asks don't go on: {fault.text}")
        for site in sites:
            if said := self.shop(f"wait {site} --timeout 60", self.folder_of(site)):
                asked.bad.append(said.strip())
        caught_up = time.monotonic() - began
        logs: list[list[str]] = [client.one(self.folder_of(site), {"op": "log", "site": site, "timeout": 60})["text"].splitlines() for site in sites]
        messages = [[line for line in log if line.startswith("msg,")] for log in logs]
        rows = [sorted(line for line in log if line.startswith("row,")) for log in logs]
        for site in sites[1:]:
            if set(messages[site]) != set(messages[0]):
                asked.bad.append(f"sites 0 and {site} differ in {len(set(messages[site]) ^ set(messages[0]))} messages")
            if rows[site] != rows[0]:
                asked.bad.append(f"sites 0 and {site} have different tables")
        audit = self.shop("audit", self.folder_of(0)).strip().rpartition("\n")[2]     # behind whose logs it waits for, on a slow machine
        if audit != "audit,Agree":
            asked.bad.append(f"the audit: {audit}")
        self.compare_asks(messages[0])
        passes = sum(line.startswith("token") for site in sites for line in sends(self.at, f"{self.folder_of(site)}/{site}"))
        spans = sorted(asked.seconds)
        within = [spans[len(spans) // 2], spans[len(spans) * 99 // 100], spans[-1]]
        return {
            "over": self.course.over, "seed": self.course.seed, "kills": dict(self.kills),
            "asks answered": len(spans), "accepted": len(asked.accepted), "not told": asked.open, "of these told a number": len(asked.numbered),
            "accepted under keys": asked.keys, "asked again by key": asked.again, "and after the answer": asked.same,
            "of these accepted": len(messages[0]) - len(asked.accepted), "told: not accepted": len(asked.never),
            "refused": dict(asked.refused), "faults told": dict(asked.faults), "token passes": passes, "messages": len(messages[0]),
            "answered within ms (half, 99 of 100, all)": [round(1000 * seconds) for seconds in within],
            "caught up in s": round(caught_up, 1), "audit": audit, "bad": asked.bad}

    def compare_asks(self, log: list[str]) -> None:
        """Each accepted ask is in the logs as it was asked, once; none that was told not to be accepted is there."""
        asked = self.asked
        messages = {".".join(line.split(",")[2:4]): line for line in log}
        sellers = {name.encode(): line.split(",")[7].encode() for name, line in messages.items() if line.split(",")[6] == "item"}
        asked_as = {}
        for name, line in messages.items():
            packet = packet_of(line.encode())
            assert isinstance(packet, Message)
            asked_as[name] = ask_of(packet.shadow, lambda item: sellers[item]).decode()
        asks = collections.Counter(asked_as.values())
        for name, (record, message) in asked.accepted.items():
            if name not in asked.lost and (name not in messages or message and messages[name] != text_of(bare(bytes_of(message)))):
                asked.bad.append(f"{name} was accepted as {message}, and the logs have {messages.get(name)}")
            elif name not in asked.lost and asked_as[name] != record:
                asked.bad.append(f"the asker of {record} was told {name}, which is {asked_as[name]}")
        for record, count in asks.items():
            if count > 1 and record.split(",")[0] in COUNTED:
                asked.bad.append(f"{record} was accepted {count} times")
        for record in asked.never:
            if asks[record] and record.split(",")[0] in COUNTED:
                asked.bad.append(f"{record} was told as not accepted, and is in the logs")
        under = collections.Counter(key for folder, sites in self.parts.items() for site in sites for text in sends(self.at, f"{folder}/{site}")
                                    if (key := key_in(bytes_of(text))))
        asked.bad += [f"under {key!r} {count} asks were accepted" for key, count in under.items() if count > 1]
        asked.keys = len(under)
        kept = {site: pathlib.Path(folder, str(site), "kept").read_text().split("\n") for folder, sites in self.parts.items() for site in sites}
        for site, number, record in asked.numbered if not self.loses else ():
            if asks[record] and record.split(",")[0] in COUNTED and kept[site][number - 1:number] != [record]:
                asked.bad.append(f"{record} was told to be record {number} of site {site}, and is another one")


# How a shop runs, and how often something of it is killed.
COURSES = {
    "files": Course(0, 15), "everysec": Course(0, 15, "everysec"), "always": Course(0, 4, "always"),
    "elsewhere": Course(0, 4, "everysec", elsewhere=True), "disks": Course(0, 6, "everysec", disks=True, published=True),
    "power": Course(0, 6, "everysec", power=True, published=True), "older": Course(0, 6, "everysec", older=True, published=True),
    "full": Course(0, 6, full=True),
}


@pytest.mark.kill
@pytest.mark.slow
@pytest.mark.parametrize("name", COURSES)
def test_kills(name: str, at: Folder, extent: Extent, counted: Counted) -> None:
    trial = Trial(COURSES[name]._replace(seed=extent.seed, kills=extent.count(COURSES[name].kills)), at)
    print(json.dumps(trial.run(), indent=1))
    assert not trial.asked.bad, "\n".join(trial.asked.bad)
    counted("kills of shops' parts", sum(trial.kills[kind] for kind in ("site", "supervisor", "server", "disk", "power", "older", "full")))
    counted("keys under which an ask was accepted once", trial.asked.keys)
    counted("asks answered while parts are killed", len(trial.asked.seconds))
