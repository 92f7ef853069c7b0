"""Random runs: a command line, its input, and how that reaches the program.

A small network of sites is kept track of here, so that most records fit: ids that are there, deps that are released, red numbers
in turn, the token with a site that is up to date. Then records are forged, broken and torn. A seed gives one case."""

import collections
import dataclasses
import re
from collections.abc import Sequence

from traffic import KINDS, RED, Dice, Fields, Message, Network, Site, listed

NICKS = [name + tail for name in ("ann", "bob", "cat", "dan", "eve", "fay") for tail in ("", "1", "_2")]
ODD_NICKS = ["Ann", "", "1a", "_a", "a-b", "a" * 20, "a" * 21, "ann ", '"ann"', "\xe9"]
TEXTS = ["lamp", "a", '"vase, ""blue"""', 'a "b"', "~ ", '" "', "x" * 64]
ODD_TEXTS = ["", '""', '"x\ny"', '"a"b', "t\xe9", "x" * 65, '"x\ry"', "\x00", "\x7f", "x" * 200, "x" * 201]
RATINGS = ["5", "-5", "0", "1", "-2"]
ODD_RATINGS = ["-0", "6", "-6", "+1", "", "00", "5.0"]
ODD_NUMBERS = ["0", "01", "-1", "+1", "", "x", "1000000", "1000001", "1000000000000", "1000000000001", "18446744073709551616", " 1", "1e3"]
ODD_IDS = ["0.0", "0.01", "00.1", "9.1", "15.1", "16.1", "0.1000000", "0.1000001", "0", ".1", "0.1.1", "", "0.", "0:1", "none", "255.1"]
ODD_RECORDS = [
    *("foo", "user", '""', '"user",ann', 'user,"ann"', "list", "close,0.1", ",", "user,ann,", "msg", "token", "token,1,1,0", "token,2,1,0,0"),
    *("msg,1,0,1,1,0", "msg,3,0,1,1,0,user,ann", "audit", "site,0", "row", "row,user,0.1,ann,0,0,0,0", "at,0", "at,0,user,ann", "audit,x"),
    *("deliver,0,1", "at,9,user,ann", "deliver,0", "deliver,0,0", "deliver,0,4000000", "deliver,0,4000001", "deliver,0,01", "at,0,"),
    *("at,0,msg,1,0,1,1,0,user,ann", "pass,100", "list,items,1000", "list,users,1", "list,x", "\xff\xfe", "\xef\xbb\xbfuser,ann"),
]
# What a byte of a text is changed to.
ODD_BYTES = b'\n\r",,.:0919amz- \x00\xff\xef~'

# How a record may end.
ENDS = [b"\n", b"\n", b"\n", b"\r\n", b"\r", b"\n\n"]


class OddFields(Fields):
    """Draws fields that mostly fit a site; `odd` says whether one was drawn that doesn't belong to the grammar, or may not."""

    SHARES = {"user": 2, "item": 3, "bid": 6, "buy": 3, "comment": 2, "rename": 1, "close": 1, "restock": 2}
    NUMBERS = {"category": (6, 8), "stock": (1, 4), "quantity": (1, 4), "start": (1, 60), "price": (0, 1), "amount": (40, 70)}

    def __init__(self, dice: Dice, oddness: float, nicks: Sequence[str], site: Site) -> None:
        super().__init__(dice)
        self.oddness, self.nicks, self.site = oddness, nicks, site
        self.odd = False
        self.drawn = ""         # the item, or the user that is renamed

    def one_of(self, usual: Sequence[str], odd: Sequence[str]) -> str:
        if self.dice.random() < self.oddness:
            self.odd = True
            return self.dice.one(odd)
        return self.dice.one(usual)

    def between(self, least: int, most: int) -> str:
        if self.dice.random() < self.oddness:
            self.odd = True
            return self.dice.one(ODD_NUMBERS)
        return str(least + self.dice.below(most - least + 1))

    def id(self, ids: list[str]) -> str:
        if ids and self.dice.random() < 0.94:
            return self.dice.one(ids[-40:]) if self.dice.random() < 0.7 else self.dice.one(ids)
        if self.dice.random() < 3 * self.oddness:
            self.odd = True
            return self.dice.one(ODD_IDS)
        return f"{self.dice.below(len(self.site.counts))}.{1 + self.dice.below(12)}"

    def nickname(self) -> str:
        return self.one_of(self.nicks, ODD_NICKS)

    def user(self) -> str:
        self.drawn = self.id(self.site.user_ids)
        return self.drawn

    def other(self) -> str:
        return self.id(self.site.user_ids)

    def item(self) -> str:
        self.drawn = self.id(self.site.item_ids)
        return self.drawn

    def seller(self) -> str:
        item = self.site.items.get(self.drawn) if self.kind != "item" else None
        return item.seller if item and self.dice.often(0.8) else self.id(self.site.user_ids)

    def name(self) -> str:
        return self.one_of(TEXTS, ODD_TEXTS)

    text = name

    def rating(self) -> str:
        return self.one_of(RATINGS, ODD_RATINGS)

    def category(self) -> str:
        item = self.site.items.get(self.drawn) if self.kind == "close" else None
        return item.category if item and self.dice.often(0.8) else self.between(*self.NUMBERS["category"])

    def winner(self) -> str:
        item = self.site.items.get(self.drawn)
        return item.best if item and self.dice.often(0.5) else "none" if self.dice.often(0.5) else self.id(self.site.bid_ids)

    def old(self) -> str:
        """The nickname that a rename gives up: mostly the user's own, or that of another one."""
        others = self.dice.one(list(self.site.users.values()) or NICKS)
        return self.site.users.get(self.drawn, "ann") if self.dice.often(0.5) else others if self.dice.often(0.6) else self.nickname()

    def any_kind(self) -> str:
        kind = self.dice.one(self.kinds)
        if not self.site.user_ids:
            return "user"
        return kind if self.site.item_ids or "item" not in KINDS[kind].asked else "item"

    def listing(self) -> str:
        kind = self.dice.below(9)
        if kind < 5:
            return "list," + ("users", "categories", "log", "misfits", "tables")[kind]
        if kind == 5:
            return "list,items," + self.between(*self.NUMBERS["category"])
        if kind == 6:
            return "list,comments," + self.id(self.site.user_ids)
        return f"list,{('bids', 'purchases')[kind - 7]}," + self.id(self.site.item_ids)

    def forged(self) -> Message:
        """A message that no site has made, mostly with the stamp of a next one."""
        dice, site, sites = self.dice, self.site, len(self.site.counts)
        shadow = self.shadow("rename" if dice.often(0.05) else self.any_kind())
        origin = dice.below(sites)
        if origin == site.me and dice.often(0.9):
            origin = (origin + 1) % sites
        number = site.counts[origin] + (1 if dice.often(0.7) else dice.below(6))
        is_red = (shadow[0] in RED) != dice.often(0.01)
        red = (site.state.reds + (1 if dice.often(0.85) else dice.below(5))) if is_red else 0
        deps = site.counts.copy()
        if dice.often(0.4):
            deps = [dice.below(count + 1) if dice.often(0.95) else count + dice.below(4) for count in site.counts]
        deps[origin] = max(number - 1, 0) if dice.often(0.99) else number
        return Message(origin, number, red, deps, shadow)


class OddNetwork(Network):
    """Sites that ask and send what mostly fits."""

    def __init__(self, dice: Dice, sites: int, only: int | None, oddness: float, forging: float) -> None:
        super().__init__(sites, only)
        self.dice = dice
        nicks = NICKS if dice.often(0.7) else [f"n{k}" for k in range(2000)]
        self.fields = [OddFields(dice, oddness, nicks, site) for site in self.sites]
        self.kinds = collections.Counter[str]()     # how often a site accepted each kind
        self.oddness, self.forging, self.listing, self.auditing = oddness, forging, 0.03, 0.01

    def ask(self, place: int) -> None:
        site, fields = self.sites[place], self.fields[place]
        fields.odd = False
        ask = fields.ask(fields.any_kind())
        self.at(place, ",".join(ask))
        shadow = None if fields.odd else site.decide(ask)
        if shadow:
            self.kinds[ask[0]] += 1
            self.send(place, site.make(shadow))

    def deliver_some(self) -> None:
        """A packet that a site lacks, mostly an early one; maybe one that it has."""
        place = self.dice.below(len(self.sites))
        if self.only is not None and self.dice.often(0.5):
            place = self.only
        lacking = self.lacking[place]
        if lacking and self.dice.often(0.93):
            near = 1 if self.dice.often(0.6) else min(len(lacking), 12)
            at = self.dice.below(near)
            packet = lacking[at] if self.dice.often(0.05) else lacking.pop(at)
            self.deliver(place, packet)
        elif self.packets:
            self.deliver(place, 1 + self.dice.below(len(self.packets)))

    def pass_on(self) -> None:
        """The token goes to another site, which is mostly given what it lacks."""
        to = self.dice.below(len(self.sites))
        if self.hand_over(to):
            if self.dice.often(0.8):
                self.deliver_all(to)
            self.deliver(to, len(self.packets))
            self.holder = to

    def forge(self, place: int) -> None:
        """A forged packet at the only site."""
        if self.dice.often(0.05):
            turn = self.fields[place].between(0, 6) if self.dice.often(0.9) else "1000000000"
            self.records.append(f"token,1,{turn},{place if self.dice.often(0.8) else self.dice.below(17)},{self.sites[place].state.reds + self.dice.below(2)}")
            return
        fields = self.fields[place]
        fields.odd = False
        message = fields.forged()
        self.records.append(message.text())
        if not fields.odd and message.origin != place and message.number > 0:
            self.sites[place].arrive(message)

    def event(self) -> None:
        dice = self.dice
        place = self.only if self.only is not None and dice.often(0.6) else dice.below(len(self.sites))
        roll = dice.random()
        if self.only is not None and roll < self.forging:
            self.forge(self.only)
        elif roll < 0.06 and len(self.sites) > 1:
            self.pass_on()
        elif roll < 0.5 and len(self.sites) > 1:
            self.deliver_some()
        elif dice.often(2 * self.listing):
            self.at(place, self.fields[place].listing())
        elif dice.often(2 * self.oddness):
            self.records.append(dice.one(ODD_RECORDS))
        elif self.only is None and dice.often(2 * self.auditing):
            self.records.append("audit")
        else:
            self.ask(self.holder if dice.often(0.5) and self.only is None else place)

    def run(self, many: int) -> list[str]:
        """As many records, unless the only site has too little to do. Listings and audits, which show or walk all, are few in a
        long run."""
        self.listing = min(0.03, 60 / many)
        self.auditing = min(0.01, 10 / many)
        for _ in range(4 * many):
            if len(self.records) >= many:
                break
            self.event()
        return self.records

    def command(self) -> list[str]:
        return [*(["world"] if self.only is None else ["site", "--site", str(self.only)]), "--sites", str(len(self.sites))]

    def end(self, *listings: str) -> None:
        for place in range(len(self.sites)):
            for listing in listings:
                self.at(place, f"list,{listing}")

    def text(self) -> bytes:
        return "".join(record + "\n" for record in self.records).encode("latin-1")


@dataclasses.dataclass
class Case:
    """A run: the command, its records with their ends, and the sizes of the pieces in which they come; `live` says that each
    piece waits for the answers to the one before, and `fails` whether reading or writing fails."""

    command: list[str]
    pieces: list[bytes]
    chunks: list[int] = dataclasses.field(default_factory=list)
    live: bool = False
    fails: str = ""

    def text(self) -> bytes:
        return b"".join(self.pieces)


def how_many(dice: Dice) -> int:
    """Mostly a small number of records."""
    roll = dice.random()
    if roll < 0.96:
        return 5 + dice.below(75)
    if roll < 0.9995:
        return 100 + dice.below(1_400)
    return 10_000 + dice.below(90_000)


def settings(dice: Dice) -> list[str]:
    """Options that change no answer."""
    words = []
    if dice.often(0.6):
        words += ["--batch", dice.one(["1", "2", "7", "64", "1000", "8192", "65536"])]
    if dice.often(0.5):
        words += ["--shards", dice.one(["1", "2", "5", "16", "64"])]
    if dice.often(0.8):
        words += ["--workers", "1" if dice.often(0.5) else dice.one(["2", "3", "4", "16"])]
    return words


def broken(dice: Dice, text: bytes) -> bytes:
    """A text with some bytes changed, left out, doubled or torn off."""
    changed = bytearray(text)
    for _ in range(1 + dice.below(4)):
        if not changed:
            break
        at, roll = dice.below(len(changed)), dice.below(6)
        if roll == 0:
            del changed[at:at + 1 + dice.below(8)]
        elif roll == 1:
            changed[at:at] = changed[max(0, at - dice.below(30)):at]
        elif roll == 2 and dice.often(0.3):
            del changed[at:]
        else:
            changed[at] = ODD_BYTES[dice.below(len(ODD_BYTES))]
    if dice.often(0.05):
        changed[0:0] = dice.one(["\xef\xbb\xbf", "\xef\xbb", "\xef", "\n\r\n"]).encode("latin-1")
    return bytes(changed)


def delivery(dice: Dice, case: Case, is_clean: bool) -> Case:
    """Chooses how the text comes: as a file, on a pipe in odd pieces, or on one that waits for answers. A few runs fail."""
    roll = dice.random()
    if roll < 0.7:
        case.fails = "" if roll > 0.003 else dice.one(["read", "write"])
        return case
    if is_clean and roll < 0.8 and len(case.pieces) < 400 and case.command[0] in ("site", "world"):
        case.live = True
    if roll < 0.9 or case.live:
        case.chunks = [1 + dice.below(dice.below(12) ** 4 + 3) for _ in range(6)]
    else:
        case.chunks = [1 << 20]
    return case


def is_one_record(piece: bytes) -> bool:
    record = piece.strip(b"\r\n")
    return record.count(b'"') % 2 == 0 and not any(mark in record for mark in (b"\n", b"\r", b"\xef"))


def finished(dice: Dice, command: list[str], records: list[str]) -> Case:
    """A case of these records, some of which are broken."""
    ends = ENDS if dice.often(0.2) else ENDS[:1]
    pieces = [record.encode("latin-1") + ends[dice.below(len(ends))] for record in records]
    if pieces and dice.often(0.1):
        pieces[-1] = pieces[-1].rstrip(b"\r\n")
    case = Case(command, pieces)
    if dice.often(0.15):
        case.pieces = re.findall(rb"[^\n]*\n|[^\n]+", broken(dice, case.text()))
        return delivery(dice, case, False)
    return delivery(dice, case, all(map(is_one_record, pieces)))


def network(dice: Dice, many: int, only_one: bool) -> OddNetwork:
    sites = 1 if only_one and dice.often(0.25) else int(dice.one(["2", "2", "3", "4", "7", "16"]))
    only = dice.below(sites) if only_one else None
    oddness = 0.0 if dice.often(0.4) else 0.015
    forging = 0.0 if dice.often(0.5) or sites == 1 else 0.25
    net = OddNetwork(dice, sites, only, oddness, forging)
    net.run(many)
    return net


def network_case(dice: Dice, only_one: bool) -> Case:
    """A run of a world, or of one site."""
    many = how_many(dice)
    net = network(dice, many, only_one)
    net.end("tables", "log", *["misfits"] * only_one)
    net.records += [] if only_one else ["audit"]
    command = net.command() + settings(dice)
    if dice.often(0.1):
        command += ["--keep", str(1 + dice.below(many))]
    return finished(dice, command, net.records)


def source(dice: Dice) -> OddNetwork:
    """A world, or a site that was given forged messages too; it ends with the logs and tables, of which audits are made."""
    net = network(dice, how_many(dice), dice.often(0.5))
    if net.only is not None and len(net.sites) > 1:
        net.forging = 0.5
        net.run(len(net.records) + 20)
    net.end("log", "tables")
    return net


def logs_of(dice: Dice, made: OddNetwork, output: bytes) -> list[list[bytes]]:
    """The records of an audit of some of the sites whose last listings stand in the output."""
    first = b"at,0,reply," if made.only is None else b"reply,"
    last = output.rfind(first, 0, max(0, output.rfind(first)))
    logs: list[list[bytes]] = [[b"site,%d\n" % site] for site in range(len(made.sites))]
    for site, line in listed(output[max(last, 0):], made.only):
        logs[site].append(line)
    if made.only is not None:
        logs = [logs[made.only]]
    if dice.often(0.4):
        logs = [[line for line in log if not line.startswith(b"row")] for log in logs]
    if dice.often(0.4):
        at = dice.below(len(logs))
        logs = logs[at:at + 1]
    if dice.often(0.1):
        logs += logs[:1]
    if dice.often(0.2):
        dice.shuffle(logs)
    return logs


DIGITS = re.compile(rb"\d+")


def changed_line(dice: Dice, line: bytes) -> bytes:
    """A line with one field replaced."""
    fields = line[:-1].split(b",")
    roll = dice.below(4)
    if roll == 0 and fields[-2:-1] and line.startswith(b"msg"):
        fields[-1] = dice.one(["none", "0.3", "1.2", "1000", dice.one(NICKS)]).encode()
        return b",".join(fields) + b"\n"
    if roll == 1 and line.startswith(b"msg") and len(fields) > 5 and fields[4] != b"0":
        fields[4] = b"%d" % (int(fields[4]) + 1 - 2 * dice.below(2))
        return b",".join(fields) + b"\n"
    numbers = list(DIGITS.finditer(line))
    if not numbers:
        return line[:-1] + b",x\n"
    which = numbers[-1 - dice.below(min(3, len(numbers)))] if roll == 2 else numbers[dice.below(len(numbers))]
    value = int(which[0]) + dice.below(5) - 2
    return line[:which.start()] + b"%d" % max(value, 0) + line[which.end():]


def change_lines(dice: Dice, lines: list[bytes]) -> None:
    for _ in range(dice.below(3)):
        if not lines:
            return
        at, roll = dice.below(len(lines)), dice.below(16)
        if roll == 0:
            del lines[at]
        elif roll == 1:
            lines.insert(at, lines[dice.below(len(lines))])
        elif roll == 2:
            other = dice.below(len(lines))
            lines[at], lines[other] = lines[other], lines[at]
        elif roll == 3 and dice.often(0.2):
            lines[at] = dice.one(ODD_RECORDS).encode("latin-1") + b"\n"
        else:
            lines[at] = changed_line(dice, lines[at])


def logs_case(dice: Dice, made: OddNetwork, output: bytes) -> Case:
    """An audit or a widening of logs."""
    lines = [line for log in logs_of(dice, made, output) for line in log]
    change_lines(dice, lines)
    given = len(made.sites) if dice.often(0.97) else 1 + dice.below(16)
    command = ["audit", "--sites", str(given)]
    if dice.often(0.25):
        command = ["widen", "--sites", str(given), "--to", str(given + dice.below(17 - given))]
    case = Case(command, lines)
    if dice.often(0.07):
        case.pieces = re.findall(rb"[^\n]*\n|[^\n]+", broken(dice, case.text()))
    return delivery(dice, case, False)
