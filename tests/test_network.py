"""Sites that come back, over a network that loses, repeats and delays, on a clock of its own.

Requests come at random sites. Of what a site sends a tenth is lost, a twentieth comes twice, and each copy comes after a delay of its own. Sites
are killed every few seconds, some of them in the middle of an answer, and started again, with other settings. Now and then the logs
are audited, and what `rubis lack` names is sent again, to be lost again perhaps. At the end nothing is lost any more, and each message that is
lacking comes, or every one twice: all logs have to be the same set, all tables the same, and an audit of the logs, and of those of random
moments, Agree.

A site is a process of `rubis keep` with a folder of its own: what it answered before it was killed is read off the folder, as whoever
carries its packets would have to, and now and then it is shortened. Or it is a process of `rubis site`, and its records and answers are
recorded here: it reads its recording again, whole or without some of the records that changed nothing, and has to answer as it did."""

import abc
import dataclasses
import heapq
import itertools
import pathlib
import signal
import subprocess
import time
from collections.abc import Callable, Sequence

import pytest

from tests.conftest import Extent
from tests.folder import Counted
from traffic import Dice, Known

ASKS_A_SECOND = 8
LOSS, REPEAT, DELAY = 0.1, 0.05, 2.0
SECONDS_TO_KILL, SECONDS_TO_AUDIT, SECONDS_DOWN = 6.0, 40.0, 5.0
SHOPS, SECONDS = 8, 30


class Site(abc.ABC):
    """A site, which is up while it has a process."""

    def __init__(self, program: pathlib.Path, site: int, sites: int, dice: Dice) -> None:
        self.program, self.site, self.dice = str(program), site, dice
        self.words = ["--site", str(site), "--sites", str(sites)]
        self.child: subprocess.Popen[str] | None = None
        self.up_at = 0.0

    @abc.abstractmethod
    def start(self) -> list[str]:
        """Starts the process. Returns what it sent before, of which nobody heard."""

    @abc.abstractmethod
    def answer(self, record: str) -> list[str]:
        """Gives a record. Returns its answer without its number, and what that sends."""

    @abc.abstractmethod
    def records(self) -> bytes:
        """What it was given and answered so far."""

    def run(self, *command: str) -> None:
        settings = ["--batch", self.dice.one(["1", "3", "64", "4096"]), "--shards", self.dice.one(["1", "4", "7", "16"]), "--workers", self.dice.one("124")]
        command = (self.program, *command, *self.words, *settings)
        self.child = subprocess.Popen(command, stdin=subprocess.PIPE, stdout=subprocess.PIPE, text=True, bufsize=1)

    def line(self) -> str:
        assert self.child and self.child.stdout
        return self.child.stdout.readline().rstrip("\n")

    def give(self, record: str) -> None:
        assert self.child and self.child.stdin
        self.child.stdin.write(record + "\n")
        self.child.stdin.flush()

    def answered(self, record: str) -> tuple[int, list[str]]:
        """Gives a record. Returns its number, and its answer with what that sends, or has the rows of a listing."""
        self.give(record)
        first = self.line()
        fields = first.split(",")
        assert fields[0] == "reply", f"site {self.site} answers {record} with {first!r}"
        more = {"ok": 1, "passed": 1, "rows": int(fields[3]) if fields[2] == "rows" else 0}.get(fields[2], 0)
        return int(fields[1]), [first.split(",", 2)[2], *(self.line() for _ in range(more))]

    def kill(self, record: str | None) -> None:
        """Kills the process, where a record is given while it may be answering it."""
        assert self.child
        if record:
            self.give(record)
        self.child.send_signal(signal.SIGKILL)
        self.child.communicate()
        self.child = None

    def rows(self, listing: str) -> list[str]:
        """What a site lists that was given the same records."""
        command = [self.program, "site", *self.words]
        said = subprocess.run(command, input=self.records() + f"list,{listing}\n".encode(), capture_output=True, check=True).stdout
        return said[said.rindex(b"reply,"):].decode().splitlines()[1:]

    def log(self) -> str:
        """The site's log, for an audit."""
        return f"site,{self.site}\n" + "".join(row.split(",", 3)[3] + "\n" for row in self.rows("log"))

    def end(self) -> None:
        assert self.child
        self.child.communicate()
        assert self.child.returncode == 0, f"site {self.site} ends with {self.child.returncode}"


class Kept(Site):
    """A process of `rubis keep` over a folder."""

    def __init__(self, program: pathlib.Path, site: int, sites: int, dice: Dice, folder: pathlib.Path) -> None:
        super().__init__(program, site, sites, dice)
        self.folder, self.seen = folder, 0

    def start(self) -> list[str]:
        sent = self.shorten() if self.folder.exists() and self.dice.often(0.05) else []
        self.run("keep", str(self.folder))
        kept = self.line().split(",")
        assert kept[0] == "kept", f"site {self.site} begins with {kept}"
        return sent + self.sent_since()

    def shorten(self) -> list[str]:
        """Shortens what is kept, by which the answers are numbered anew. Returns what was sent and not heard of."""
        self.complete()
        sent = self.sent_since()
        self.complete("--shorten")
        self.complete()
        self.seen = 0
        self.sent_since()
        return sent

    def complete(self, *settings: str) -> None:
        """Has a process complete the folder."""
        command = [self.program, "keep", str(self.folder), *self.words, *settings]
        ended = subprocess.run(command, stdin=subprocess.DEVNULL, capture_output=True, text=True)
        assert ended.returncode == 0, f"site {self.site} ends with {ended.stderr!r}"

    def sent_since(self) -> list[str]:
        """What those answers in the folder sent that nobody has heard of."""
        sent, number = [], 0
        for line in (self.folder / "out").read_text().splitlines():
            if line.startswith("reply,"):
                number = int(line.split(",", 2)[1])
            elif number > self.seen and line.startswith("send,"):
                sent.append(line.removeprefix("send,"))
        self.seen = number
        return sent

    def answer(self, record: str) -> list[str]:
        number, answer = self.answered(record)
        self.seen += 1
        assert number == self.seen, f"site {self.site} answers {record} with number {number} after {self.seen - 1}"
        return answer

    def records(self) -> bytes:
        kept = (self.folder / "kept").read_bytes()
        return kept[:kept.rfind(b"\n") + 1]


@dataclasses.dataclass
class Recording:
    """A record that was answered, its answer, and whether the answer says that it changed nothing."""

    record: str
    answer: list[str]
    is_idle: bool


class Recorded(Site):
    """A process of `rubis site`, whose records and answers are recorded."""

    def __init__(self, program: pathlib.Path, site: int, sites: int, dice: Dice) -> None:
        super().__init__(program, site, sites, dice)
        self.recording, self.to_replay = list[Recording](), list[Recording]()

    def start(self) -> list[str]:
        self.run("site")
        share = self.dice.random() if self.dice.often(0.5) else 0.0
        self.to_replay = [it for it in self.recording if not (it.is_idle and self.dice.often(share))]
        self.replay(self.dice.below(len(self.to_replay) + 1))      # the rest before the next record; it may be killed until then
        return []

    def replay(self, most: int) -> None:
        for it in self.to_replay[:most]:
            _, answer = self.answered(it.record)
            assert answer == it.answer or it.is_idle, f"site {self.site} answered {it.record} with {it.answer}, and now with {answer}"
        self.to_replay = self.to_replay[most:]

    def answer(self, record: str) -> list[str]:
        self.replay(len(self.to_replay))
        _, answer = self.answered(record)
        self.recording.append(Recording(record, answer, answer[0].split(",")[0] in ("rows", "refused", "repeat")))
        return answer

    def records(self) -> bytes:
        return "".join(it.record + "\n" for it in self.recording).encode()


class Guesses(Known):
    """Draws asks over users and items that were made somewhere, and nicknames that may be taken."""

    def __init__(self, dice: Dice) -> None:
        super().__init__(dice)
        self.users, self.items = ["0.1"], [("0.1", "0.1")]

    def nickname(self) -> str:
        return f"n{self.dice.below(10 ** self.dice.choice([1, 6]))}"


class Network:
    """The sites, and the packets that are on their way."""

    def __init__(self, program: pathlib.Path, sites: Sequence[Site], dice: Dice) -> None:
        self.program, self.sites, self.dice, self.fields = str(program), sites, dice, Guesses(dice)
        self.now, self.order, self.is_lossy, self.holder = 0.0, itertools.count(), True, 0
        self.on_its_way: list[tuple[float, int, int, str]] = []
        self.messages: list[str] = []
        self.past: list[str] = []           # logs of random moments
        self.asked = self.kills = self.audits = 0
        for site in sites:
            site.start()

    def run(self, goes_on: Callable[[], bool]) -> None:
        next_kill, next_audit = SECONDS_TO_KILL, SECONDS_TO_AUDIT
        while goes_on():
            self.now += 1 / ASKS_A_SECOND
            self.bring_back()
            self.deliver()
            self.ask()
            if self.now >= next_kill:
                next_kill = self.now + self.dice.expovariate(1 / SECONDS_TO_KILL)
                self.kill()
            if self.now >= next_audit:
                next_audit = self.now + SECONDS_TO_AUDIT
                self.audit()

    def send(self, packet: str, to: int) -> None:
        """Puts a packet on its way to a site: lost, or once or twice. Only a token comes for sure."""
        if self.is_lossy and not packet.startswith("token,") and self.dice.often(LOSS):
            return
        for _ in range(2 if self.is_lossy and self.dice.often(REPEAT) else 1):
            delay = self.dice.expovariate(1 / DELAY) if self.is_lossy else 0.0
            heapq.heappush(self.on_its_way, (self.now + delay, next(self.order), to, packet))

    def publish(self, site: int, packets: list[str]) -> None:
        for packet in packets:
            fields = packet.split(",")
            if fields[0] == "token":
                self.holder = int(fields[3])
                self.send(packet, self.holder)
                continue
            self.messages.append(packet)
            self.fields.note(f"{fields[2]}.{fields[3]}", fields[6:])
            for to in range(len(self.sites)):
                if to != site:
                    self.send(packet, to)

    def a_request(self) -> str:
        if self.dice.often(0.05):
            return self.dice.one([f"pass,{self.dice.below(len(self.sites))}", "list,users", "no such record"])
        return self.fields.any_ask()

    def ask(self) -> None:
        at = self.holder if self.dice.often(0.6) else self.dice.below(len(self.sites))
        if self.sites[at].child:
            self.asked += 1
            self.publish(at, [line.removeprefix("send,") for line in self.sites[at].answer(self.a_request())[1:] if line.startswith("send,")])

    def deliver(self) -> None:
        """Gives the sites what has come by now; what comes to one that is down waits."""
        while self.on_its_way and self.on_its_way[0][0] <= self.now:
            _, _, to, packet = heapq.heappop(self.on_its_way)
            if not self.sites[to].child:
                heapq.heappush(self.on_its_way, (self.now + 1.0, next(self.order), to, packet))
                continue
            answer = self.sites[to].answer(packet)[0]
            assert answer.split(",")[0] in ("released", "held", "repeat", "holding"), f"site {to} answers {packet} with {answer}"

    def kill(self) -> None:
        up = [site for site in self.sites if site.child]
        if up:
            site = self.dice.choice(up)
            site.kill(self.a_request() if self.dice.often(0.5) else None)
            site.up_at = self.now + self.dice.uniform(0.0, SECONDS_DOWN)
            self.kills += 1

    def bring_back(self) -> None:
        for site in self.sites:
            if not site.child and site.up_at <= self.now:
                self.publish(site.site, site.start())

    def said(self, command: str, records: str) -> str:
        return subprocess.run([self.program, command, "--sites", str(len(self.sites))], input=records, capture_output=True, text=True, check=True).stdout

    def audit(self) -> int:
        """Audits the logs, sends again what they lack, and returns how many messages that is."""
        logs = [site.log() for site in self.sites]
        self.past.append(self.dice.one(logs))
        records = "".join(logs)
        assert self.said("audit", records) == "audit,Agree\n", "the audit"
        named = [line.split(",", 2) for line in self.said("lack", records).splitlines()]
        assert all(word in ("lacks", "lack") for word, _, _ in named), "something is lost for good"
        missing = [(int(number) - 1, packet) for word, number, packet in named if word == "lack"]
        for to, packet in missing:
            self.send(packet, to)
        self.audits += 1
        return len(missing)

    def settle(self, gives_all: bool) -> None:
        """Loses nothing any more, until no log lacks anything; then all have to be the same."""
        self.is_lossy, self.now = False, self.now + SECONDS_DOWN
        self.bring_back()
        if gives_all:
            for site in self.sites:
                for packet in self.dice.sample(self.messages * 2, 2 * len(self.messages)):
                    self.send(packet, site.site)
        for _ in range(3):
            while self.on_its_way:
                self.now = max(self.now, self.on_its_way[0][0])
                self.deliver()
            if not self.audit():
                break
        logs = [sorted(site.log().splitlines()[1:]) for site in self.sites]
        assert all(log == sorted(self.messages) for log in logs), "a log has other messages than were sent"
        tables = [site.rows("tables") for site in self.sites]
        assert all(rows == tables[0] for rows in tables), "the tables differ"
        assert self.said("audit", "".join(self.past)) == "audit,Agree\n", "the audit of logs of all moments"
        for site in self.sites:
            site.end()


def made_sites(program: pathlib.Path, folder: pathlib.Path, dice: Dice, kept: Sequence[bool]) -> list[Site]:
    return [Kept(program, site, len(kept), dice, folder / str(site)) if is_kept else Recorded(program, site, len(kept), dice)
            for site, is_kept in enumerate(kept)]


def play(network: Network, goes_on: Callable[[], bool], gives_all: bool, counted: Counted) -> None:
    try:
        network.run(goes_on)
        network.settle(gives_all)
    finally:
        for site in network.sites:
            if site.child:
                site.child.kill()
    for what, count in (("asks", network.asked), ("messages", len(network.messages)), ("kills", network.kills), ("audits", network.audits)):
        counted(f"{what} in networks", count)


@pytest.mark.kill
@pytest.mark.parametrize("number", range(SHOPS))
def test_four_sites(number: int, program: pathlib.Path, folder: pathlib.Path, extent: Extent, counted: Counted) -> None:
    """Sites that keep their records, and sites whose records are kept here."""
    dice = Dice(f"{extent.seed} {number}")
    network = Network(program, made_sites(program, folder, dice, [dice.often(0.4) for _ in range(4)]), dice)
    until = (25 + 100 * dice.random()) * extent.count(SHOPS) / SHOPS
    play(network, lambda: network.now < until, number % 2 == 1, counted)


@pytest.mark.kill
@pytest.mark.slow
def test_sixteen_sites(program: pathlib.Path, folder: pathlib.Path, extent: Extent, counted: Counted) -> None:
    """For half a minute, or as many --seconds."""
    dice, until = Dice(extent.seed), time.monotonic() + extent.seconds(SECONDS)
    network = Network(program, made_sites(program, folder, dice, [True] * 16), dice)
    play(network, lambda: time.monotonic() < until, False, counted)
