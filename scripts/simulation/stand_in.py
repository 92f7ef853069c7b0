"""A site that answers as the program does, for the records that a simulation asks: asks, packets, passes and empty listings."""

import functools
import re
from collections.abc import Iterator

from shop_tool.carrier.records import BYTES_OF_A_RECORD, Message, Token, bare, key_in
from shop_tool.carrier.release import Release
from traffic import FIELDS, ID, KINDS, NUMBER, RED, Rows, form_of

from .remembered import packet_of

MOST = 1_000_000
KEY_ROOM = 517          # how much longer a line may be that begins with a key
_NUMBER = NUMBER.encode()
_ASKS = {kind.encode(): form_of(kind, it.asked) for kind, it in KINDS.items()}
_SHADOWS = {kind.encode(): form_of(kind, it.told) for kind, it in KINDS.items()}
_FORMS = _ASKS | {
    b"pass": re.compile(b"pass,(0|[1-9][0-9]?)"),
    b"list": re.compile(b"list,misfits()"),
    b"msg": re.compile(b"msg,([12]),(" + b"),(".join([_NUMBER] * 3) + b"),(" + _NUMBER + b"(?::" + _NUMBER + b")*),([a-z]+,.*)"),
    b"token": re.compile(b"token,(1),(" + b"),(".join([_NUMBER] * 3) + b")"),
}
# The codes of refusals that the rows decide.
_CODES = {"NickTaken": 5, "NoUser": 6, "NoItem": 7, "Closed": 8, "LowBid": 9, "StockShort": 10, "NotSeller": 11, "OwnItem": 12, "NoBuyNow": 13,
          "SelfComment": 14}


class Refused(Exception):
    def __init__(self, code: int, name: str) -> None:
        self.line = b"%d,%b" % (code, name.encode())


@functools.lru_cache(1 << 12)
def read(record: bytes) -> tuple[bytes, tuple[bytes, ...]] | None:
    """The kind of a record and its fields, if it is in the grammar."""
    kind = record.split(b",", 1)[0]
    form = _FORMS.get(kind)
    found = form.fullmatch(record) if form else None
    return (kind, found.groups()) if found else None


def in_limits(names: tuple[str, ...], fields: tuple[str, ...], sites: int) -> bool:
    """Whether numbers and ids are within their ends."""
    for name, text in zip(names, fields):
        field = FIELDS[name]
        if field.most and not field.least <= int(text) <= field.most:
            return False
        if ID in field.form and text != "none" and not (int(text.split(".")[0]) < sites and int(text.split(".")[1]) <= MOST):
            return False
    return True


@functools.lru_cache(1 << 12)
def shadow_of(text: bytes, sites: int) -> list[str] | None:
    """What a message does, if that is in the grammar of a shop of this many sites."""
    kind = text.split(b",", 1)[0]
    found = _SHADOWS[kind].fullmatch(text) if kind in _SHADOWS else None
    fields = tuple(field.decode() for field in found.groups()) if found else ()
    is_known = found and in_limits(KINDS[kind.decode()].told, fields, sites) and not (kind == b"rename" and fields[1] == fields[2])
    return [kind.decode(), *fields] if is_known else None


@functools.lru_cache(1 << 12)
def is_message(message: Message, version: int, sites: int) -> bool:
    """Whether a message is in the grammar of a shop of this many sites."""
    shadow = shadow_of(message.shadow, sites)
    if not shadow or version != KINDS[shadow[0]].version:
        return False
    return (message.origin < sites and 1 <= message.number <= MOST and len(message.deps) == sites
            and message.deps[message.origin] == message.number - 1 and (message.red > 0) == (shadow[0] in RED)
            and max(message.red, *message.deps) <= MOST)


def asked_part(kind: str, *fields: str) -> tuple[str, ...]:
    """What of an ask, or of what a message does, tells it from another ask: not who closes or restocks an item, nor what that comes to."""
    count = {"close": 1}.get(kind, len(fields))
    return kind, *(fields[::len(fields) - 1] if kind in ("restock", "rename") else fields[:count])


class StandIn:
    """A site: what it has released, what waits, under which keys, the rows that decide, and the token."""

    def __init__(self, site: int, sites: int, keep: int = MOST) -> None:
        self.site, self.sites, self.keep = site, sites, keep
        self.records = 0
        self.release: Release[Message] = Release(sites)
        self.log: list[tuple[Message, bytes]] = []          # the messages that it has released, with their texts
        self.rows = Rows()
        self.texts: dict[tuple[int, int], bytes] = {}
        self.known: dict[tuple[bytes, bool], tuple[bytes, tuple[str, ...]]] = {}    # the first message under each key, red and blue ones apart
        self.issued: int | None = 0 if site == 0 else None  # red numbers, if it holds the token
        self.turn = 0

    @property
    def is_full(self) -> bool:
        return len(self.log) + len(self.release.waiting) >= self.keep

    def answer(self, record: bytes) -> bytes:
        """The lines of its answer."""
        self.records += 1
        try:
            said = self._answer(record)
        except Refused as refusal:
            said = b"refused," + refusal.line
        return b"reply,%d,%b\n" % (self.records, said)

    def _answer(self, record: bytes) -> bytes:
        key, found = key_in(record), read(bare(record))
        if not found or key and found[0] in (b"list", b"pass"):
            raise Refused(1, "BadRecord")
        kind, fields = found
        match kind:
            case b"list":
                return b"rows,0"
            case b"pass":
                return self._pass(int(fields[0]))
            case b"msg":
                return self._message(record, fields)
            case b"token":
                return self._token(record)
        ask = [kind.decode(), *(field.decode() for field in fields)]
        if not in_limits(KINDS[ask[0]].asked, tuple(ask[1:]), self.sites):
            raise Refused(1, "BadRecord")
        if known := self.known.get((key, ask[0] in RED)):
            if known[1] != asked_part(*ask):
                raise Refused(40, "KeyTaken")
            return b"again," + known[0]
        self._check(ask)
        shadow = self.rows.shadow(ask)
        return self._made(key, bare(record) if shadow == ask else ",".join(shadow).encode(), ask[0])

    def _check(self, ask: list[str]) -> None:
        """Refuses an ask, by the first refusal that holds."""
        kind = ask[0]
        if self.is_full:
            raise Refused(2, "Full")
        if kind in RED:
            if self.issued is None:
                raise Refused(3, "NoToken")
            if self.release.reds != self.issued:
                raise Refused(4, "RedBehind")
        if name := self.rows.refusal(ask):
            raise Refused(_CODES[name], name)

    def _made(self, key: bytes, shadow: bytes, kind: str) -> bytes:
        red = 0
        if kind in RED:
            red = self.release.reds + 1
            self.issued = red
        number = self.release.counts[self.site] + 1
        deps = b":".join(b"%d" % count for count in self.release.counts)
        text = b"%bmsg,%d,%d,%d,%d,%b,%b" % (key, KINDS[kind].version, self.site, number, red, deps, shadow)
        message = packet_of(text)
        assert isinstance(message, Message)
        self._note(message, text)
        for released in [message, *self.release.made(message)]:
            self._release(released)
        return b"ok,%d.%d\nsend,%b" % (self.site, number, text)

    def _message(self, record: bytes, fields: tuple[bytes, ...]) -> bytes:
        message = packet_of(record)
        if not isinstance(message, Message) or not is_message(message, int(fields[0]), self.sites):
            raise Refused(1, "BadRecord")
        name = (message.origin, message.number)
        is_here = message.number <= self.release.counts[message.origin] or name in self.release.waiting
        if message.origin == self.site and not is_here:
            raise Refused(20, "NotOurs")
        if is_here:
            return b"repeat"
        if self.is_full:
            raise Refused(2, "Full")
        self._note(message, record)
        released = self.release.arrive(message)
        for each in released:
            self._release(each)
        return b"released,%d" % len(released) if released else b"held"

    def _note(self, message: Message, text: bytes) -> None:
        """A message is made here, or comes; from now on its key is known."""
        self.texts[message.origin, message.number] = text
        shadow = shadow_of(message.shadow, self.sites)
        assert shadow
        if key := key_in(text):
            self.known.setdefault((key, message.red > 0), (b"%d.%d" % message[:2], asked_part(*shadow)))

    def _release(self, message: Message) -> None:
        name = f"{message.origin}.{message.number}"
        self.log.append((message, self.texts[message.origin, message.number]))
        if shadow := shadow_of(message.shadow, self.sites):
            self.rows.apply(name, shadow)

    def _pass(self, to: int) -> bytes:
        if self.issued is None:
            raise Refused(3, "NoToken")
        if to >= self.sites or to == self.site:
            raise Refused(15, "BadTarget")
        issued, self.issued = self.issued, None
        return b"passed\nsend,token,1,%d,%d,%d" % (self.turn + 1, to, issued)

    def _token(self, record: bytes) -> bytes:
        token = packet_of(record)
        if not isinstance(token, Token) or token.to >= self.sites or token.turn > 10 ** 9 or token.issued > MOST:
            raise Refused(1, "BadRecord")
        if token.to != self.site:
            raise Refused(21, "NotForMe")
        if token.turn <= self.turn:
            return b"repeat"
        self.turn, self.issued = token.turn, token.issued
        return b"holding"


def records_of(line: bytes) -> Iterator[bytes]:
    """What a keeper takes a line of its input for: none if it is empty, and `broken` if it can't be a record by itself."""
    if not line:
        return
    most = BYTES_OF_A_RECORD + KEY_ROOM * line.startswith(b"key,")
    yield b"broken" if line.startswith(b"\xef") or len(line) > most or line.count(b'"') % 2 else line
