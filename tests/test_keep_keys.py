"""Keys of records in `rubis keep`: against a site that knows none, and a short model of what keys are for; at restarts, when what was kept is
shortened, and when a site keeps more."""

import csv
import io
import itertools
import re
import subprocess

from tests.conftest import Extent
from tests.folder import Counted
from tests.test_keep import WAIT, Blind, Shop, Site
from tests.test_keep import fields, shop  # pylint: disable=unused-import  # fixtures
from traffic import RED

KEYS = ("k1", "k2", "k3", "a key, and more", 'with "quotes"', "~" * 255)
NO_KEYS = ("", "~" * 256, "\t", "\x7f", "é")
HELD = b"msg,1,1,2,0,0:1,item,0.1,lamp,7,1,100,0\n"


def text_of(*fields: str) -> bytes:
    """A record of CSV."""
    to = io.StringIO()
    csv.writer(to, lineterminator="\n").writerow(fields)
    return to.getvalue().encode()


def fields_of(line: bytes) -> list[str]:
    return next(csv.reader([line.decode().rstrip("\n")]))


def under(key: str, line: bytes) -> bytes:
    """A record under a key."""
    return text_of("key", key)[:-1] + b"," + line


def asked_part(kind: str, fields: list[str]) -> tuple[str, ...]:
    """What of an ask, or of the shadow that answers it, tells it from another one."""
    if kind == "close":
        fields = fields[:1]
    elif kind in ("restock", "rename"):
        fields = [fields[0], fields[-1]]
    return kind, *fields


class Model:
    """A site that knows keys, over a process of one that doesn't."""

    def __init__(self, program: str, *options: str) -> None:
        self.process = subprocess.Popen([program, "site", *options], stdin=subprocess.PIPE, stdout=subprocess.PIPE)
        self.numbers = itertools.count(1)
        self.asked = 0
        self.known: dict[tuple[str, bool], tuple[str, tuple[str, ...]]] = {}

    def close(self) -> None:
        assert self.process.stdin
        self.process.stdin.close()
        self.process.wait(WAIT)

    def bare(self, line: bytes) -> list[bytes]:
        """What the site that knows no keys answers to a record; one more says where its answer ends."""
        assert self.process.stdin and self.process.stdout
        self.process.stdin.write(line + b"end\n")
        self.process.stdin.flush()
        self.asked += 2
        answers: list[bytes] = []
        while not answers or not answers[-1].startswith(b"reply,%d," % self.asked):
            answers.append(self.process.stdout.readline())
        return answers[:-1]

    def note(self, key: str, packet: list[str]) -> None:
        kind = packet[6]
        self.known.setdefault((key, kind in RED), (f"{packet[2]}.{packet[3]}", asked_part(kind, packet[7:])))

    def answer(self, line: bytes) -> bytes:
        number = next(self.numbers)

        def numbered(answers: list[bytes]) -> bytes:
            return b"".join(re.sub(rb"^reply,\d+,", b"reply,%d," % number, answer) for answer in answers)

        fields = fields_of(line)
        if fields[0] != "key":
            return numbered(self.bare(line))
        refused = b"reply,%d,refused,1,BadRecord\n" % number
        if len(fields) < 3 or not re.fullmatch(r"[ -~]{1,255}", fields[1]) or fields[2] not in (*RED, "item", "comment", "restock", "msg"):
            return refused
        key, inner = fields[1], text_of(*fields[2:])
        if fields[2] == "msg":
            answers = self.bare(inner)
            if answers[0].split(b",")[2].rstrip() in (b"held", b"released"):
                self.note(key, fields[2:])
            return numbered(answers)
        found = self.known.get((key, fields[2] in RED))
        if found is None:
            answers = self.bare(inner)
            if len(answers) > 1:
                self.note(key, fields_of(answers[1])[1:])
                answers[1] = text_of("send", "key", key)[:-1] + b"," + answers[1][5:]
            return numbered(answers)
        # Whether the ask is well formed a site that answers it says.
        if self.is_bad(inner):
            return refused
        if found[1] == asked_part(fields[2], fields[3:]):
            return b"reply,%d,again,%b\n" % (number, found[0].encode())
        return b"reply,%d,refused,40,KeyTaken\n" % number

    def is_bad(self, inner: bytes) -> bool:
        """Whether another site, which keeps next to nothing, finds an ask malformed."""
        command = [*self.process.args[:1], "site", "--sites", "2"]   # type: ignore[index]
        done = subprocess.run(command, input=inner, capture_output=True, timeout=WAIT, check=True)
        return b",1,BadRecord" in done.stdout

    def answers(self, records: bytes) -> bytes:
        return b"".join(self.answer(line) for line in records.splitlines(keepends=True))


def expected(site: Site) -> bytes:
    """The answers to what a site kept."""
    model = Model(site.shop.program, *site.options)
    try:
        return model.answers(site.kept())
    finally:
        model.close()


def told(site: Site, records: bytes, more: tuple[str, ...] = ()) -> list[bytes]:
    """What a life answers to records, without the line `kept,..`."""
    done = site.run(records, more=more)
    assert done.returncode == 0, done.stderr
    lines: list[bytes] = done.stdout.splitlines()
    assert lines[0].startswith(b"kept,"), lines
    return lines[1:]


def last_of(lines: list[bytes]) -> list[bytes]:
    """Replies without their numbers."""
    return [re.sub(rb"^reply,\d+,", b"", line) for line in lines]


def test_asks_under_keys(shop: Shop) -> None:
    """The first ask under a key is sent under it; the same ask is told its id again, and another one that the key is taken. Red and blue keys are apart."""
    site = shop.site("asked")
    lines = told(site, b"key,K,user,ann\nkey,K,user,ann\nkey,K,user,bob\nkey,K,item,0.1,lamp,7,5,100,500\nkey,K,item,0.1,lamp,7,5,100,500\n"
                 b"key,K,item,0.1,lamp,7,6,100,500\nuser,ann\nkey,L,user,ann\nkey,L,user,bob\n")
    assert lines == [
        b"reply,1,ok,0.1", b"send,key,K,msg,1,0,1,1,0,user,ann", b"reply,2,again,0.1", b"reply,3,refused,40,KeyTaken",
        b"reply,4,ok,0.2", b"send,key,K,msg,1,0,2,0,1,item,0.1,lamp,7,5,100,500", b"reply,5,again,0.2", b"reply,6,refused,40,KeyTaken",
        b"reply,7,refused,5,NickTaken", b"reply,8,refused,5,NickTaken", b"reply,9,ok,0.3", b"send,key,L,msg,1,0,3,2,2,user,bob"], lines
    assert site.read("out") == expected(site)


def test_the_same_ask(shop: Shop) -> None:
    """Of each kind the same ask is told the id again, whoever asks for a close or a restock; with any other field changed, the key is taken."""
    site = shop.site("same")
    told(site, b"user,ann\nuser,bob\nuser,cat\nitem,0.1,lamp,7,5,100,500\n")
    asks = (b"user,dan", b"item,0.1,bulb,7,5,100,500", b"bid,0.4,0.2,150", b"buy,0.4,0.2,1", b"comment,0.4,0.2,0.1,5,good", b"restock,0.4,0.1,3",
            b"rename,0.2,bert", b"close,0.4,0.1")
    others = {b"user": (b"user,eve",), b"item": (b"item,0.2,bulb,7,5,100,500", b"item,0.1,bulb,8,5,100,500", b"item,0.1,bulb,7,5,100,501"),
              b"bid": (b"bid,0.4,0.3,150", b"bid,0.4,0.2,151", b"buy,0.4,0.2,1"), b"buy": (b"buy,0.4,0.3,1", b"buy,0.4,0.2,2", b"user,zoe"),
              b"comment": (b"comment,0.4,0.2,0.1,4,good", b"comment,0.4,0.2,0.1,5,Good", b"restock,0.4,0.1,3"),
              b"restock": (b"restock,0.4,0.1,4", b"restock,0.5,0.1,3"),
              b"rename": (b"rename,0.2,bart", b"rename,0.3,bert"), b"close": (b"close,0.5,0.1", b"bid,0.4,0.2,150")}
    for ask in asks:
        kind = ask.split(b",")[0]
        first = last_of(told(site, under("of " + kind.decode(), ask + b"\n")))
        assert first[0].startswith(b"ok,") and first[1].startswith(b"send,key,of "), first
        again = last_of(told(site, under("of " + kind.decode(), ask + b"\n")))
        assert again == [first[0].replace(b"ok", b"again")], (ask, again)
        for other in others[kind]:
            taken = last_of(told(site, under("of " + kind.decode(), other + b"\n")))
            assert taken == [b"refused,40,KeyTaken"], (ask, other, taken)
    for ask in (b"close,0.4,0.2", b"restock,0.4,0.2,3"):        # by another seller
        assert last_of(told(site, under("of " + ask.split(b",")[0].decode(), ask + b"\n")))[0].startswith(b"again,"), ask
    assert site.read("out") == expected(site)


def test_what_has_no_key(shop: Shop) -> None:
    """Anything but an ask or a message under 1 to 255 printable bytes is malformed, whether the key is known or not, and makes no key known."""
    site = shop.site("malformed", "--sites", "2")
    told(site, b"key,K,user,ann\n")
    for key in ("K", "free"):
        for record in (b"pass,1\n", b"list,users\n", b"token,1,1,0,0\n", b"key,L,user,bob\n", b"users,bob\n", b"user,Bob\n", b"user\n", b"\n", b"?state\n"):
            lines = last_of(told(site, under(key, record)))
            assert lines == [b"refused,1,BadRecord"], (key, record, lines)
    for text in (b"key\n", b"key,\n", b"key,K\n", b"key,,user,bob\n", b"Key,K,user,bob\n", b" key,K,user,bob\n"):
        assert last_of(told(site, text)) == [b"refused,1,BadRecord"], text
    for key in NO_KEYS:
        line = b"key," + (b'"%b"' % key.encode()) + b",user,bob\n"
        assert last_of(told(site, line)) == [b"refused,1,BadRecord"], key
    for at, key in enumerate(KEYS[1:]):
        lines = last_of(told(site, under(key, b"user,bob%d\n" % at) + under(key, b"user,bob%d\n" % at)))
        assert [line.split(b",")[0] for line in lines] == [b"ok", b"send", b"again"], (key, lines)
        assert lines[1].startswith(text_of("send", "key", key)[:-1] + b","), (key, lines)
    assert last_of(told(site, b'"key","k2","user","bob0"\n')) == [b"again,0.2"], "quotes around all fields"
    assert site.read("out") == expected(site)


def test_the_longest_lines(shop: Shop) -> None:
    """A line that begins with `key,` may be as much longer as a key in quotes takes; any other is as long as before."""
    site = shop.site("long")
    longest = b'key,"' + b'""' * 255 + b'",' + b"x" * 4096
    assert len(longest) == 4096 + 517
    for line, kept in ((longest, longest), (longest + b"x", b"broken"), (b"y" * 4096, b"y" * 4096), (b"y" * 4097, b"broken"),
                       (b"key;" + b"y" * 4093, b"broken"), (b"key," + b"y" * 4609, b"key," + b"y" * 4609)):
        told(site, line + b"\n")
        assert site.kept().endswith(kept + b"\n"), len(line)
    longest_ask = under('"' * 255, b'comment,0.4,0.2,0.1,-5,"' + b'""' * 200 + b'"\n')
    told(site, b"user,ann\nuser,bob\nitem,0.1,lamp,7,5,100,500\n" + longest_ask.replace(b"0.4,", b"0.3,"))
    sent = site.read("out").splitlines()[-1] + b"\n"
    assert sent.startswith(b'send,key,"""') and len(sent) > 900, sent
    other = shop.site("other", "--site", "1", "--sites", "2")
    first = shop.site("first", "--sites", "2")
    first.run(b"user,ann\nuser,bob\nitem,0.1,lamp,7,5,100,500\n" + longest_ask.replace(b"0.4,", b"0.3,"))
    assert last_of(told(other, b"".join(first.sent())))[-1] == b"released,1", "the longest packet"
    assert last_of(told(other, longest_ask.replace(b"0.4,", b"0.3,"))) == [b"again,0.4"]


def test_packets_under_keys(shop: Shop) -> None:
    """A packet that is released or waits makes its key known; one that came before, or is refused, doesn't."""
    site = shop.site("packets", "--sites", "2", "--keep", "3")
    item = HELD.replace(b",1,2,", b",1,1,").replace(b"0:1,", b"1:0,").replace(b"1:0,item", b"1:0,item")
    ours = b"msg,1,0,2,0,1:0,item,0.1,lamp,7,1,100,0\n"
    lines = last_of(told(site, b"user,ann\n" + under("waits", HELD) + under("again", HELD) + under("ours", ours)
                         + under("waits", b"item,0.1,lamp,7,1,100,0\n") + under("again", b"item,0.1,bulb,7,1,100,0\n")
                         + under("full", item) + under("full", b"user,bob\n") + under("waits", b"item,0.1,bulb,7,1,100,0\n")))
    assert lines == [b"ok,0.1", b"send,msg,1,0,1,1,0:0,user,ann", b"held", b"repeat", b"refused,20,NotOurs", b"again,1.2",
                     b"ok,0.2", b"send,key,again,msg,1,0,2,0,1:0,item,0.1,bulb,7,1,100,0", b"refused,2,Full", b"refused,2,Full", b"refused,40,KeyTaken"], lines
    assert site.read("out") == expected(site)


def test_a_site_that_is_full(shop: Shop) -> None:
    """Where a site keeps no more, an ask is refused and its key isn't known; one that was accepted is told its id. Once what was kept is shortened and it
    keeps more, the same ask is accepted under its key."""
    site = shop.site("full")
    lines = last_of(told(site, b"key,K,user,ann\nkey,L,user,bob\nkey,K,user,ann\nkey,L,user,bob\n", ("--keep", "1")))
    assert lines[2:] == [b"refused,2,Full", b"again,0.1", b"refused,2,Full"], lines
    assert site.run(b"", more=("--keep", "2")).returncode == 1, "answers differ from then on"
    assert site.run(more=("--shorten",)).returncode == 0
    assert site.kept() == b"key,K,user,ann\n", site.kept()
    lines = last_of(told(site, b"key,L,user,bob\nkey,K,user,ann\nkey,K,user,bob\n", ("--keep", "2")))
    assert lines == [b"ok,0.2", b"send,key,L,msg,1,0,2,2,1,user,bob", b"again,0.1", b"refused,40,KeyTaken"], lines


def test_a_torn_last_line(shop: Shop) -> None:
    """A record whose line is cut off is asked anew; one whose answer is cut off is answered again."""
    site = shop.site("torn")
    told(site, b"key,K,user,ann\n")
    for end in range(len(b"key,L,user,bob")):
        kept = site.kept()
        site.put(kept=kept + b"key,L,user,bob"[:end])
        assert last_of(told(site, b"key,K,user,ann\n")) == [b"again,0.1"], end
    out = site.read("out")
    for end in (len(out) - 1, len(out) // 2, 30, 17, 5, 0):
        site.put(out=out[:end])
        told(site, b"")
        assert site.read("out") == out, end
    assert last_of(told(site, b"key,L,user,bob\n"))[0] == b"ok,0.2"
    assert site.read("out") == expected(site)


def test_shortening(shop: Shop) -> None:
    """What is left out of what was kept leaves each key known."""
    site = shop.site("short", "--sites", "2")
    told(site, b"user,ann\nkey,K,user,bob\nkey,K,user,bob\nkey,K,user,cat\n" + under("waits", HELD) + under("again", HELD)
         + b"key,B,item,0.1,lamp,7,5,100,500\nlist,users\nkey,B,item,0.1,lamp,7,5,100,500\nkey,N,user,bob\n")
    sent = site.sent()
    assert site.run(more=("--shorten",)).returncode == 0
    assert site.kept() == b"user,ann\nkey,K,user,bob\n" + under("waits", HELD) + b"key,B,item,0.1,lamp,7,5,100,500\n", site.kept()
    assert site.sent() == sent
    lines = last_of(told(site, b"key,K,user,bob\nkey,K,user,cat\nkey,B,item,0.1,lamp,7,5,100,500\nkey,waits,item,0.1,lamp,7,1,100,0\nkey,N,user,dan\n"))
    assert lines[:5] == [b"again,0.2", b"refused,40,KeyTaken", b"again,0.3", b"again,1.2", b"ok,0.4"], lines
    assert site.read("out") == expected(site)


def test_a_folder_from_before(shop: Shop) -> None:
    """A folder from before keys goes on, and says so in its setup. One with a record that began with `key` is shortened first."""
    plain, keyed = shop.site("plain"), shop.site("keyed")
    for site, line in ((plain, b"user,bob\n"), (keyed, b"key,K,user,bob\n")):
        site.run(b"user,ann\n")
        assert site.read("setup") == b"setup,0,1,1000000,2\n"
        site.put(setup=b"setup,0,1,1000000,1\n", kept=b"user,ann\n" + line + b"user,cat\n", out=shop.site("any").answers(b"user,ann\n" + line + b"user,cat\n"))
    assert last_of(told(plain, b"key,K,user,dan\nkey,K,user,dan\n"))[::2] == [b"ok,0.4", b"again,0.4"]
    assert plain.read("setup") == b"setup,0,1,1000000,2\n"
    before = keyed.files()
    done = keyed.run(b"key,K,user,dan\n")
    assert done.returncode == 2 and b"--shorten" in done.stderr and keyed.files() == before, done.stderr
    assert keyed.read("setup") == b"setup,0,1,1000000,1\n"
    assert keyed.run(more=("--shorten",)).returncode == 0
    assert keyed.kept() == b"user,ann\nuser,cat\n" and keyed.read("setup") == b"setup,0,1,1000000,2\n"
    assert last_of(told(keyed, b"key,K,user,dan\n"))[0] == b"ok,0.3"
    assert keyed.read("out") == expected(keyed)
    mixed = shop.site("mixed")
    mixed.run(b"user,ann\n")
    mixed.put(setup=b"setup,0,1,1000000,1\n", kept=b"user,ann\nuser,bob\rkey,K,user,cat\n", out=b"")
    before = mixed.files()
    for more in ((), ("--shorten",), ("--upgrade",)):
        assert mixed.run(more=more).returncode == 2 and mixed.files() == before, "a line with such a record and another one"


class Keyed(Blind):
    """Draws records of which most are under keys, and some were drawn before."""

    def __init__(self, seed: object) -> None:
        super().__init__(seed)
        self.drawn = [b"user,ann\n"]

    def keyed(self) -> bytes:
        """A record of one line."""
        dice = self.dice
        if dice.often(0.3):
            return dice.choice(self.drawn)
        line = self.any_ask().encode() + b"\n"
        if dice.often(0.8):
            line = under(dice.choice((dice.one(KEYS), f"k{self.made}")), line)
        self.made += 1
        self.drawn.append(line)
        return line


def test_sites_with_keys(shop: Shop, extent: Extent, counted: Counted) -> None:
    """Two sites whose records and packets are under keys, over many lives, some of them shortened: they answer as the model, and agree at the end."""
    fields = Keyed(extent.seed)
    dice = fields.dice
    sites = [shop.site(str(number), "--site", str(number), "--sites", "2") for number in (0, 1)]
    lives = extent.count(40)
    for life in range(lives):
        number = dice.below(2)
        site, other = sites[number], sites[1 - number]
        packets = other.sent()
        some = packets[:dice.below(len(packets) + 1)]
        lines = [fields.keyed() for _ in range(dice.below(30))]
        if dice.often(0.1):
            lines.append(b"pass,%d\n" % (1 - number))
        # Each packet of the other site comes in its order, whatever comes in between.
        for packet in some:
            lines.insert(dice.below(len(lines) + 1), packet)
        done = site.run(b"".join(lines), more=dice.choice(((), (), ("--workers", "1"), ("--workers", "4", "--batch", "7"))))
        assert done.returncode == 0, done.stderr
        assert site.read("out") == expected(site), f"life {life} of site {number}"
        if dice.often(0.1):
            assert site.run(more=("--shorten",)).returncode == 0
            assert site.read("out") == expected(site), f"life {life} of site {number}, shortened"
    for number in (0, 1) * 3:
        assert sites[number].run(b"".join(sites[1 - number].sent())).returncode == 0
    logs = [bare_log(shop, site) for site in sites]
    assert sorted(logs[0]) == sorted(logs[1]), "a message is missing somewhere"
    counted("lives of sites with keys", lives)
    counted("asks told again", sum(site.read("out").count(b",again,") for site in sites))


def bare_log(shop: Shop, site: Site) -> list[bytes]:
    """The messages of a site's log, without their places in it."""
    rows = site.run(b"?list,log\n").stdout.splitlines()
    return [re.sub(rb"^row,log,\d+,", b"", row) for row in rows if row.startswith(b"row,log,")]
