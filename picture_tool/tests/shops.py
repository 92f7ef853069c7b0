"""Runs of shops that are made up for tests: what each site was given, and what the program answers to it.

`tests/test_pictures.py` has the program answer the same records, so these are runs of it."""

import dataclasses
import heapq
import os
import random

from picture_tool.messages import Message, Messages, fields_of
from shop_tool.carrier.release import Release

USERS, ITEMS = 6, 4


@dataclasses.dataclass
class Network:
    """How packets fare: how many steps late at most, how many in a hundred are late, and from which step on a site gets nothing."""

    late: int = 40
    share: int = 4
    lagging: int | None = None
    from_step: int = 0


class MadeSite:
    def __init__(self, number: int, sites: int) -> None:
        self.number = number
        self.kept: list[str] = []
        self.out: list[str] = []
        self.state: Release[Message] = Release(sites)
        self.log: list[Message] = []
        self.users: list[str] = []
        self.items: list[tuple[str, str]] = []      # each with its seller
        self.issued: int | None = 0 if number == 0 else None

    def note(self, messages: list[Message]) -> None:
        """They are in the log."""
        for message in messages:
            self.log.append(message)
            if message.shadow[0] == "user":
                self.users.append(message.id)
            elif message.shadow[0] == "item":
                self.items.append((message.id, message.shadow[1]))


class MadeShop:
    """A shop of several sites whose users ask at random. The same seed gives the same shop."""

    def __init__(self, sites: int, messages: int, seed: int = 1, network: Network | None = None) -> None:
        self.random = random.Random(seed)
        self.network = network or Network()
        self.sites = [MadeSite(number, sites) for number in range(sites)]
        self.messages = Messages()
        self.world_records: list[str] = []
        self.world_answers: list[str] = []
        self.packets = 0
        self.turn = 0
        self.on_way: list[tuple[int, int, int, int, str]] = []      # when, tie, to, packet's number, packet
        self.step = self.ties = self.count = 0
        self._open()
        while self.count < messages:
            self.step += 1
            self._deliver()
            self._one_ask(self.sites[self.random.randrange(sites)])
        while self.on_way:
            self.step += 1
            self._deliver()

    def _open(self) -> None:
        first = self.sites[0]
        for number in range(USERS):
            self._ask(first, f"user,u{number}")
        for number in range(ITEMS):
            self._ask(first, f'item,{first.users[number]},"lamp ""{number}""",7,900000,100,80')

    # What is asked.

    def _one_ask(self, site: MadeSite) -> None:
        draw = self.random.random()
        if site.issued is not None and draw < 0.08 and len(self.sites) > 1:
            self._pass(site)
        elif draw < 0.1 and site.issued is None:
            self._refused(site, f"user,v{self.step}", 3, "NoToken")
        elif len(site.users) < 2 or not site.items:
            return
        elif site.issued is not None and site.issued == site.state.reds and draw < 0.6:
            self._ask(site, self._red(site))
        else:
            self._ask(site, self._blue(site))

    def _red(self, site: MadeSite) -> str:
        item, seller = self.random.choice(site.items)
        others = [user for user in site.users if user != seller]
        kind = self.random.random()
        if kind < 0.1:
            return f"user,w{self.step}"
        if kind < 0.3:
            return f"buy,{item},{self.random.choice(others)},1"
        return f"bid,{item},{self.random.choice(others)},{100 + self.step}"

    def _blue(self, site: MadeSite) -> str:
        item, seller = self.random.choice(site.items)
        if self.random.random() < 0.1:
            return f"restock,{item},{seller},5"
        if self.random.random() < 0.03:
            return f"item,{self.random.choice(site.users)},cup {self.step},9,900000,50,80"
        one, other = self.random.sample(site.users, 2)
        return f"comment,{item},{one},{other},{self.random.randrange(-5, 6)},said at {self.step}"

    # What sites answer.

    def _record(self, site: MadeSite, record: str, event: str) -> None:
        site.kept.append(record)
        self.world_records.append(event)

    def _answer(self, site: MadeSite, reply: str, send: str = "") -> None:
        site.out.append(f"reply,{len(site.kept)},{reply}")
        self.world_answers.append(f"at,{site.number},reply,{len(self.world_records)},{reply}")
        if send:
            site.out.append(f"send,{send}")
            self.world_answers.append(f"at,{site.number},send,{send}")
            self.packets += 1

    def _ask(self, site: MadeSite, record: str) -> None:
        self._record(site, record, f"at,{site.number},{record}")
        kind, *rest = fields_of(record)
        is_red = kind in ("user", "bid", "buy")
        number = site.state.counts[site.number] + 1
        red = 0
        if is_red:
            assert site.issued is not None
            red = site.issued = site.issued + 1
        shadow = record if kind != "restock" else f"restock,{rest[0]},{rest[2]}"
        deps = ":".join(map(str, site.state.counts))
        packet = f"msg,{2 if kind == 'restock' else 1},{site.number},{number},{red},{deps},{shadow}"
        message = self.messages.read(fields_of(packet))
        self._answer(site, f"ok,{message.id}", packet)
        site.note([message, *site.state.made(message)])
        self.count += 1
        for other in self.sites:
            if other is not site:
                self._send(other.number, packet)

    def _pass(self, site: MadeSite) -> None:
        to = self.random.choice([other.number for other in self.sites if other is not site])
        self._record(site, f"pass,{to}", f"at,{site.number},pass,{to}")
        self.turn += 1
        packet = f"token,1,{self.turn},{to},{site.issued}"
        site.issued = None
        self._answer(site, "passed", packet)
        self._send(to, packet)

    def _refused(self, site: MadeSite, record: str, code: int, name: str) -> None:
        self._record(site, record, f"at,{site.number},{record}")
        self._answer(site, f"refused,{code},{name}")

    # The network.

    def _send(self, to: int, packet: str) -> None:
        network = self.network
        if to == network.lagging and self.step >= network.from_step and packet.startswith("msg") and self.random.random() < 0.5:
            return      # lost
        is_late = self.random.randrange(100) < network.share
        delay = self.random.randrange(1, network.late if is_late else 4)
        self.ties += 1
        heapq.heappush(self.on_way, (self.step + delay, self.ties, to, self.packets, packet))

    def _deliver(self) -> None:
        while self.on_way and self.on_way[0][0] <= self.step:
            _, _, to, number, packet = heapq.heappop(self.on_way)
            site = self.sites[to]
            self._record(site, packet, f"deliver,{to},{number}")
            if packet.startswith("token"):
                site.issued = int(packet.split(",")[4])
                self._answer(site, "holding")
                continue
            released = site.state.arrive(self.messages.read(fields_of(packet)))
            self._answer(site, f"released,{len(released)}" if released else "held")
            site.note(released)

    # What is written.

    def logs(self) -> str:
        """The input of an audit."""
        return "".join(f"site,{site.number}\n" + "".join(message.record + "\n" for message in site.log) for site in self.sites)

    def write(self, folder: str) -> None:
        """A folder of each site, as `rubis keep` makes them."""
        for site in self.sites:
            path = f"{folder}/{site.number}"
            os.makedirs(path)
            for name, lines in (("kept", site.kept), ("out", site.out), ("setup", [f"setup,{site.number},{len(self.sites)},1000000,1"])):
                with open(f"{path}/{name}", "w", encoding="utf-8") as file:
                    file.writelines(line + "\n" for line in lines)
