"""Auction traffic: the table of its kinds, what a site decides of an ask, and networks of sites that ask and send.

KINDS is the one table of kinds, and FIELDS that of what stands in their fields; tests compare both with the manual's and with the program.
Whoever makes traffic says by a class of `Fields` how each field is drawn, and how often each kind comes. A kind that is new in the table is
then drawn by all of them, and one whose field nobody draws ends them."""

import dataclasses
import random
import re
from collections.abc import Sequence
from typing import Any, NamedTuple

from shop_tool.carrier.release import Release


class Field(NamedTuple):
    """What a field may be: its form; the method of `Fields` that draws it; and the least and the greatest of a number."""

    form: str
    draws: str
    least: int = 0
    most: int = 0


class Kind(NamedTuple):
    """A kind of ask: its fields, whether it is red, those of its messages where they are others, and the version of these."""

    asked: tuple[str, ...]
    is_red: bool
    told: tuple[str, ...]
    version: int


def kind(asked: str, is_red: bool, told: str = "", version: int = 1) -> Kind:
    return Kind(tuple(asked.split()), is_red, tuple((told or asked).split()), version)


ID = r"(?:0|[1-9][0-9]?)\.[1-9][0-9]{0,6}"
NICK = r"[a-z][a-z0-9_]{0,19}"
NUMBER = r"(?:0|[1-9][0-9]{0,12})"
PLAIN = r"[ !#-+\--~]"      # of a text that needs no quotes
NAMES = ("lamp", "good", '"a, ""b"""')

FIELDS = {
    "nickname": Field(NICK, "nickname"), "old": Field(NICK, "old"), "new": Field(NICK, "nickname"), "user": Field(ID, "user"), "seller": Field(ID, "seller"),
    "bidder": Field(ID, "user"), "buyer": Field(ID, "user"), "from": Field(ID, "user"), "to": Field(ID, "other"), "item": Field(ID, "item"),
    "name": Field(PLAIN + "{1,64}", "name"), "text": Field(PLAIN + "{0,200}", "text"), "rating": Field("(?:0|-?[1-5])", "rating", -5, 5),
    "category": Field(NUMBER, "category", 0, 999), "stock": Field(NUMBER, "stock", 1, 1_000_000),
    "start": Field(NUMBER, "start", 1, 10 ** 12), "price": Field(NUMBER, "price", 0, 10 ** 12), "amount": Field(NUMBER, "amount", 1, 10 ** 12),
    "quantity": Field(NUMBER, "quantity", 1, 1_000_000), "winner": Field(f"(?:none|{ID})", "winner"),
}

KINDS = {
    "user": kind("nickname", True),
    "item": kind("seller name category stock start price", False),
    "bid": kind("item bidder amount", True),
    "buy": kind("item buyer quantity", True),
    "close": kind("item seller", True, "item category winner"),
    "comment": kind("item from to rating text", False),
    "restock": kind("item seller quantity", False, "item quantity", 2),
    "rename": kind("user nickname", True, "user old new", 2),
}

RED = frozenset(name for name, kind in KINDS.items() if kind.is_red)


def form_of(kind: str, fields: Sequence[str]) -> re.Pattern[bytes]:
    """What a record of that kind with these fields is; a field of it is a group."""
    return re.compile(",".join([kind, *(f"({FIELDS[field].form})" for field in fields)]).encode())


class Dice(random.Random):
    """Quick draws."""

    def below(self, n: int) -> int:
        return int(self.random() * n)

    def often(self, share: float) -> bool:
        return self.random() < share

    def one(self, some: Sequence[str]) -> str:
        return some[int(self.random() * len(some))]


class Fields:
    """Draws asks: for each way in which a field of FIELDS is drawn there is a method, or the least and the greatest of NUMBERS. A class of it says
    whom and what asks are about."""

    SHARES: dict[str, int] = {}     # how often each kind comes; one that isn't named comes once
    NUMBERS = {"rating": (-5, 5), "category": (0, 999), "stock": (1, 5), "quantity": (1, 5), "start": (100, 100), "price": (0, 1), "amount": (90, 889)}

    def __init__(self, dice: Dice) -> None:
        self.dice = dice
        self.kinds = [kind for kind in dict.fromkeys([*self.SHARES, *KINDS]) for _ in range(self.SHARES.get(kind, 1))]
        self.kind = ""

    def begin(self, kind: str) -> None:
        """An ask of that kind is drawn next."""
        self.kind = kind

    def ask(self, kind: str) -> list[str]:
        return self.draw(kind, KINDS[kind].asked)

    def shadow(self, kind: str) -> list[str]:
        """What a message of that kind does, drawn without regard to what a site would accept."""
        return self.draw(kind, KINDS[kind].told)

    def draw(self, kind: str, fields: Sequence[str]) -> list[str]:
        self.begin(kind)
        return [kind, *(str(self.value_of(FIELDS[field].draws)) for field in fields)]

    def value_of(self, draws: str) -> object:
        """What is drawn by that method, or among the numbers of that name."""
        own = getattr(self, draws, None)
        return own() if own else self.between(*self.NUMBERS[draws])

    def between(self, least: int, most: int) -> object:
        return least + self.dice.below(most - least + 1)

    def any_ask(self) -> str:
        """A record of any kind, as often as its share."""
        return ",".join(self.ask(self.dice.one(self.kinds)))

    def name(self) -> str:
        return self.dice.one(NAMES)

    def text(self) -> str:
        return self.name()


class Known(Fields):
    """Draws asks about users and items that were made somewhere, mostly about the last ones."""

    def __init__(self, dice: Dice) -> None:
        super().__init__(dice)
        self.users = list[str]()
        self.items = list[tuple[str, str]]()        # with their sellers
        self.drawn = "", ""

    def recent(self, some: Sequence[Any]) -> Any:
        return self.dice.choice(some[-40:] if self.dice.often(0.8) else some)

    def note(self, id: str, made: Sequence[str]) -> None:
        """What was asked was accepted, and has that id now."""
        if made[0] == "user":
            self.users.append(id)
        elif made[0] == "item":
            self.items.append((id, made[1]))

    def begin(self, kind: str) -> None:
        super().begin(kind)
        self.drawn = self.recent(self.items) if self.items else ("", "")

    def user(self) -> str:
        return str(self.recent(self.users))

    other = user

    def item(self) -> str:
        return self.drawn[0]

    def seller(self) -> str:
        return self.user() if self.kind == "item" else self.drawn[1]


@dataclasses.dataclass(slots=True)
class Message:
    """What a site has sent; a text stands as it is written in a record."""

    origin: int
    number: int
    red: int
    deps: list[int]
    shadow: list[str]

    def text(self) -> str:
        version = KINDS[self.shadow[0]].version
        return f"msg,{version},{self.origin},{self.number},{self.red},{':'.join(map(str, self.deps))},{','.join(self.shadow)}"


@dataclasses.dataclass(slots=True)
class Token:
    turn: int
    to: int
    issued: int

    def text(self) -> str:
        return f"token,1,{self.turn},{self.to},{self.issued}"


@dataclasses.dataclass(slots=True)
class Item:
    """What of an item decides about asks."""

    seller: str
    category: str
    stock: int
    start: int
    price: int
    best: str = "none"
    amount: int = 0
    is_closed: bool = False


class Rows:
    """What a site has released, as far as it decides about asks."""

    def __init__(self) -> None:
        self.users: dict[str, str] = {}     # nicknames, by id
        self.nicks: set[str] = set()
        self.items: dict[str, Item] = {}
        self.user_ids: list[str] = []
        self.item_ids: list[str] = []
        self.bid_ids: list[str] = []

    def refusal(self, ask: Sequence[str]) -> str | None:
        """The first refusal of an ask that holds, but for those of room and of the token."""
        kind, *fields = ask
        match kind:
            case "user":
                return "NickTaken" if fields[0] in self.nicks else None
            case "rename":
                return "NoUser" if fields[0] not in self.users else "NickTaken" if fields[1] in self.nicks else None
            case "item":
                return None if fields[0] in self.users else "NoUser"
        item = self.items.get(fields[0])
        if item is None:
            return "NoItem"
        match kind:
            case "close" | "restock":
                return "NotSeller" if fields[1] != item.seller else "Closed" if item.is_closed else None
            case "comment":
                return "NoUser" if not {fields[1], fields[2]} <= self.users.keys() else "SelfComment" if fields[1] == fields[2] else None
            case "bid" | "buy":
                return self._refusal_of_buyer(kind, item, *fields[1:])
        raise KeyError(f"nothing decides about a {kind}")

    def _refusal_of_buyer(self, kind: str, item: Item, user: str, number: str) -> str | None:
        if user not in self.users:
            return "NoUser"
        if item.is_closed:
            return "Closed"
        if user == item.seller:
            return "OwnItem"
        if kind == "bid":
            return "LowBid" if int(number) < item.start else None
        return "NoBuyNow" if not item.price else "StockShort" if int(number) > item.stock else None

    def shadow(self, ask: list[str]) -> list[str]:
        """What an ask that is accepted does."""
        match ask:
            case ["close", id, _]:
                return ["close", id, self.items[id].category, self.items[id].best]
            case ["restock", id, _, quantity]:
                return ["restock", id, quantity]
            case ["rename", id, nick]:
                return ["rename", id, self.users[id], nick]
        return ask

    def apply(self, id: str, shadow: Sequence[str]) -> None:
        """Does what a message with that id does. A forged one may be of rows that aren't there."""
        kind, *fields = shadow
        match kind:
            case "user":
                self.users[id] = fields[0]
                self.nicks.add(fields[0])
                self.user_ids.append(id)
            case "item":
                self.items[id] = Item(fields[0], fields[2], int(fields[3]), int(fields[4]), int(fields[5]))
                self.item_ids.append(id)
            case "rename":
                self.users[fields[0]] = fields[2]
                self.nicks.discard(fields[1])
                self.nicks.add(fields[2])
            case _:
                if item := self.items.get(fields[0]):
                    self._change(id, item, kind, fields)

    def _change(self, id: str, item: Item, kind: str, fields: Sequence[str]) -> None:
        match kind:
            case "close":
                item.is_closed = True
            case "restock":
                item.stock += int(fields[1])
            case "buy":
                item.stock -= int(fields[2])
            case "bid":
                self.bid_ids.append(id)
                if item.best == "none" or int(fields[2]) > item.amount:
                    item.best, item.amount = id, int(fields[2])
            case "comment":
                pass
            case _:
                raise KeyError(f"nothing does what a {kind} does")


class Site(Rows):
    """What a site has, as far as honest messages go."""

    def __init__(self, me: int, sites: int) -> None:
        super().__init__()
        self.me, self.state = me, Release[Message](sites)
        self.token: int | None = 0 if me == 0 else None
        self.turn = 0

    @property
    def counts(self) -> list[int]:
        return self.state.counts

    def decide(self, ask: list[str]) -> list[str] | None:
        """The shadow of an ask that is accepted."""
        if ask[0] in RED and self.token != self.state.reds or self.refusal(ask):
            return None
        return self.shadow(ask)

    def make(self, shadow: list[str]) -> Message:
        """Releases an own message."""
        red = self.state.reds + 1 if shadow[0] in RED else 0
        self.token = red or self.token
        message = Message(self.me, self.counts[self.me] + 1, red, self.counts.copy(), shadow)
        self._release([message, *self.state.made(message)])
        return message

    def arrive(self, message: Message) -> None:
        self._release(self.state.arrive(message))

    def _release(self, messages: list[Message]) -> None:
        for message in messages:
            self.apply(f"{message.origin}.{message.number}", message.shadow)


LISTED = re.compile(rb"^(?:at,(\d+),)?row,(?:log,\d+,(msg.*)|(.*))\n", re.M)


def listed(output: bytes, only: int | None = None) -> list[tuple[int, bytes]]:
    """The messages and rows that the sites of a world list, or its only site, as lines of an audit."""
    return [(int(site or only or 0), message + b"\n" if message else b"row," + row + b"\n") for site, message, row in LISTED.findall(output)]


class Network:
    """Sites, and the packets that each of them sent and lacks; `records` has the input of a world of them, or of the only one that is tried."""

    def __init__(self, sites: int, only: int | None = None) -> None:
        self.sites = [Site(me, sites) for me in range(sites)]
        self.only = only
        self.packets: list[Message | Token] = []
        self.lacking: list[list[int]] = [[] for _ in range(sites)]
        self.holder = 0
        self.records: list[str] = []

    def at(self, site: int, record: str) -> None:
        if self.only is None:
            self.records.append(f"at,{site},{record}")
        elif self.only == site:
            self.records.append(record)

    def send(self, origin: int, packet: Message | Token) -> None:
        self.packets.append(packet)
        for place, lacking in enumerate(self.lacking):
            if place != origin and isinstance(packet, Message):
                lacking.append(len(self.packets))

    def deliver(self, place: int, packet: int) -> None:
        what, site = self.packets[packet - 1], self.sites[place]
        if self.only is None:
            self.records.append(f"deliver,{place},{packet}")
        elif self.only == place:
            self.records.append(what.text())
        if isinstance(what, Message):
            site.arrive(what)
        elif what.to == place and what.turn > site.turn:
            site.turn, site.token = what.turn, what.issued

    def deliver_all(self, place: int) -> None:
        """All messages that a site lacks."""
        lacking, self.lacking[place] = self.lacking[place], []
        for packet in lacking:
            self.deliver(place, packet)

    def hand_over(self, to: int) -> bool:
        """The holder of the token is asked to pass it; whether the token is on its way then."""
        holder = self.sites[self.holder]
        self.at(self.holder, f"pass,{to}")
        if to == self.holder or holder.token is None:
            return False
        token, holder.token = Token(holder.turn + 1, to, holder.token), None
        self.send(self.holder, token)
        return True
