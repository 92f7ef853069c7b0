"""Inputs for scripts/costs.py: the usual runs of README and the guide, and runs that somebody makes to slow rubis down. Each is the same on
every machine."""

import dataclasses
import itertools
import operator
from collections.abc import Callable, Iterator

from traffic import KINDS, RED, Dice, Fields, Message, Network, Site, listed

WORDS = ["red", "lamp", "vase", "old", "chair", "fine", "good", "clock", "blue", "quick", "seller", "as described", "box", "silver", "map"]


@dataclasses.dataclass
class Work:
    """A run: its command and its input, in which `records` says how many records there are."""

    command: list[str]
    text: bytes

    def records(self) -> int:
        return self.text.count(b"\n")

    def with_options(self, more: list[str]) -> "Work":
        return Work([*self.command, *more], self.text)


class Usual(Fields):
    """Draws asks of which most are accepted, in about the shares of RUBiS's bidding mix without its reads."""

    SHARES = {"bid": 57, "comment": 12, "item": 11, "buy": 6, "user": 5, "close": 5, "restock": 3, "rename": 1}
    NUMBERS = Fields.NUMBERS | {"stock": (1, 1000)}

    def __init__(self, site: Site) -> None:
        super().__init__(Dice(1))
        self.site, self.nicks = site, 0

    def begin(self, kind: str) -> None:
        super().begin(kind)
        dice, site = self.dice, self.site
        self.drawn_user = dice.one(site.user_ids) if kind != "user" else ""
        if kind == "item":
            self.drawn_start = 1 + dice.below(100_000)
            self.drawn_price = 0 if dice.often(0.3) else 2 * self.drawn_start
        elif "item" in KINDS[kind].asked:
            self.drawn_item = self.recent(site.item_ids)

    def words(self, most: int) -> str:
        return " ".join(self.dice.one(WORDS) for _ in range(1 + self.dice.below(most)))

    def recent(self, ids: list[str]) -> str:
        return self.dice.one(ids[-512:]) if self.dice.often(0.7) else self.dice.one(ids)

    def nickname(self) -> str:
        self.nicks += 1
        return f"user_{self.nicks}"

    def user(self) -> str:
        return self.drawn_user

    def item(self) -> str:
        return self.drawn_item

    def seller(self) -> str:
        return self.drawn_user if self.kind == "item" else self.site.items[self.drawn_item].seller

    def other(self) -> str:
        return self.site.items[self.drawn_item].seller

    def name(self) -> str:
        return self.words(4)

    def start(self) -> int:
        return self.drawn_start

    def price(self) -> int:
        return self.drawn_price

    def amount(self) -> int:
        item = self.site.items[self.drawn_item]
        return max(item.amount, item.start) + self.dice.below(50)

    def quantity(self) -> int:
        return 1 + self.dice.below(20 if self.kind == "restock" else 3)

    def text(self) -> str:
        return self.words(12)

    def accepted(self, site: Site, blue_only: bool = False) -> tuple[list[str], Message]:
        """An ask that was accepted at a site, and its message."""
        self.site = site
        while True:
            kind = self.dice.one(self.kinds)
            if len(site.user_ids) < 20:
                kind = "user"
            elif len(site.item_ids) < 20:
                kind = "item"
            if blue_only and kind in RED:
                continue
            ask = self.ask(kind)
            shadow = site.decide(ask)
            if shadow:
                return ask, site.make(shadow)


def text_of(records: Iterator[str]) -> bytes:
    return "".join(record + "\n" for record in records).encode()


def requests(many: int, listings: int = 0) -> Work:
    """Asks at one site, with as many small listings among them."""
    site = Site(0, 1)
    asker = Usual(site)

    def records() -> Iterator[str]:
        for place in range(many):
            yield ",".join(asker.accepted(site)[0])
            if listings and place % (many // listings) == many // listings - 1:
                kind = asker.dice.below(4)
                yield (
                    f"list,items,{asker.dice.below(1000)}",
                    f"list,comments,{asker.dice.one(site.user_ids)}",
                    f"list,bids,{asker.recent(site.item_ids or ['0.1'])}",
                    f"list,purchases,{asker.recent(site.item_ids or ['0.1'])}",
                )[kind]

    return Work(["site"], text_of(records()))


def users(many: int) -> Work:
    """New users, and two listings of all so far."""
    return Work(["site"], text_of("list,users" if place in (many // 2, many - 1) else f"user,n{place}" for place in range(many)))


def packets(many: int, block: int, mix: Callable[[list[str]], None]) -> Work:
    """The messages of another site, mixed in blocks."""
    site = Site(0, 2)
    asker = Usual(site)
    sent = [asker.accepted(site)[1].text() for _ in range(many)]

    def blocks() -> Iterator[str]:
        for start in range(0, many, block):
            part = sent[start:start + block]
            mix(part)
            yield from part

    return Work(["site", "--site", "1", "--sites", "2"], text_of(blocks()))


def in_order(many: int) -> Work:
    return packets(many, many, lambda part: None)


def shuffled(many: int) -> Work:
    return packets(many, 64, Dice(2).shuffle)


def reversed_order(many: int) -> Work:
    return packets(many, 10_000, lambda part: part.reverse())


class Market(Network):
    """Sites that ask, and are given each other's messages a little out of order; the token goes round."""

    def __init__(self, sites: int) -> None:
        super().__init__(sites)
        self.asker = Usual(self.sites[0])

    def ask(self, place: int) -> None:
        ask, message = self.asker.accepted(self.sites[place], place != self.holder)
        self.at(place, ",".join(ask))
        self.send(place, message)

    def round(self) -> None:
        dice = self.asker.dice
        for _ in range(60):
            place = dice.below(len(self.sites)) if dice.often(0.3) and self.sites[self.holder].item_ids else self.holder
            self.ask(place if self.sites[place].item_ids else self.holder)
            for other, lacking in enumerate(self.lacking):
                if len(lacking) > 6:
                    self.deliver(other, lacking.pop(dice.below(6)))

    def run(self, many: int) -> list[str]:
        while len(self.records) < many:
            self.round()
            to = (self.holder + 1) % len(self.sites)
            self.deliver_all(to)
            self.hand_over(to)
            self.deliver(to, len(self.packets))
            self.holder = to
        return self.records


def world(many: int) -> Work:
    return Work(["world", "--sites", "4"], text_of(iter(Market(4).run(many))))


def audited_world(many: int) -> Work:
    """A world that is audited at every tenth record."""
    records = Market(4).run(many)
    return Work(["world", "--sites", "4"], text_of(record for place, one in enumerate(records) for record in ([one, "audit"] if place % 9 == 8 else [one])))


def world_with_logs(many: int) -> Work:
    """A world that ends with the log and the tables of each site, of which an audit of about `many` records is made."""
    market = Market(4)
    market.run(many * 45 // 100)
    for place in range(4):
        market.deliver_all(place)
    shown = [f"at,{place},list,{listing}" for place in range(4) for listing in ("log", "tables")]
    return Work(["world", "--sites", "4"], text_of(iter(market.records + shown)))


def audit_of(output: bytes) -> Work:
    """An audit of the logs that such a world has shown."""
    logs = itertools.groupby(listed(output), operator.itemgetter(0))
    return Work(["audit", "--sites", "4"], b"".join(b"site,%d\n" % site + b"".join(line for _, line in rows) for site, rows in logs))


# ---- what somebody may send to slow rubis down


# The numbers by which nicknames are hashed where the system gives no random ones.
FIRST, SECOND, LAST = 0x243F6A8885A308D3, 0x13198A2E03707344, 0xA4093822299F31D0


def joined_product(a: int, b: int) -> int:
    """The two halves of a product of two words, joined."""
    return (a * b) % 2**64 ^ (a * b) >> 64


def nick_hash(nick: bytes) -> int:
    """How a nickname is hashed by these numbers."""
    first, second, third = (int.from_bytes(nick[at:at + 8], "little") for at in (0, 8, 16))
    product = joined_product((first + FIRST) % 2**64, (second + SECOND) % 2**64)
    return joined_product((third + product) % 2**64, LAST)


def nicknames(many: int, chosen: bool) -> Iterator[str]:
    """Nicknames; chosen ones are looked for in the first tenth of a table, under the numbers that are no secret."""
    place = 0
    for _ in range(many):
        while True:
            place += 1
            nick = f"u{place:x}".replace("0", "g")
            hashed = nick_hash(nick.encode()) if chosen else 0
            if (hashed ^ hashed >> 32) % 4096 < 410:
                break
        yield nick


def audit_of_users(many: int, chosen: bool) -> Work:
    """An audit of a log of users."""
    lines = (f"msg,1,0,{place},{place},{place - 1},user,{nick}" for place, nick in enumerate(nicknames(many, chosen), 1))
    return Work(["audit"], b"site,0\n" + text_of(lines))


def new_users(many: int, chosen: bool) -> Work:
    return Work(["site"], text_of(f"user,{nick}" for nick in nicknames(many, chosen)))


def waiting(many: int, chosen: bool) -> Work:
    """Messages that wait for the first one of their site; the hashes of chosen numbers, by a product with a number that is no secret, fall into
    the first tenth of a table."""
    numbers = [number for number in range(2, 1_000_001) if not chosen or joined_product(FIRST, number) % 16_384 < 1_638]
    Dice(2).shuffle(numbers)
    messages = (f"msg,1,0,{number},0,{number - 1}:0,comment,0.1,0.1,0.1,1,x" for number in numbers[:many])
    return Work(["site", "--site", "1", "--sites", "2"], text_of(messages))


def few_users_behind_many_rows(many: int) -> Work:
    """Pairs of a comment and a listing of three users."""
    start = ["user,ann", "user,bob", "user,eve", "item,0.1,lamp,7,1,100,0"]
    return Work(["site"], text_of(iter(start + ["comment,0.4,0.2,0.1,1,x", "list,users"] * many)))


def repeated(command: list[str], record: str) -> Callable[[int], Work]:
    return lambda many: Work(command, (record + "\n").encode() * many)


def sixteen_logs(many: int, lacking: int = 0) -> Work:
    """An audit of sixteen logs of `many` messages of one site; that of site s lacks s times as many hundredths of them, the last ones."""
    log = [f"msg,1,0,{place + 1},{place + 1},{place}{':0' * 15},user,n{place:x}\n" for place in range(many)]
    logs = (f"site,{site}\n" + "".join(log[:many - many * site * lacking // 100]) for site in range(16))
    return Work(["audit", "--sites", "16"], "".join(logs).encode())


def quotes(many: int) -> Work:
    """Comments of 200 quotes, which are then listed."""
    start = ["user,ann", "user,bob", "item,0.1,lamp,7,1,100,0"]
    comment = 'comment,0.3,0.2,0.1,1,"' + '""' * 200 + '"'
    return Work(["site"], text_of(iter(start + [comment] * many + ["list,comments,0.1"])))
