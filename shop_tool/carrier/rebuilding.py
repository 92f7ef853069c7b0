"""A site is made again from what it sent.

What a site sent determines its past. Each of its messages counts what the site had released of each other site, and its shadow gives
the ask. So a fresh site that is given, for each packet of its stream, the others' messages up to these counts, its next token where
it needs one, and then the ask, sends the same packets again; they are compared byte by byte. What it sent stands in its stream, in
what is left of its folder, and in what the others kept; the stream gets what it lacks first.
"""

from collections.abc import Iterator, Sequence
from typing import NamedTuple

from ..ends import Fault, Status
from .ledger import NOWHERE, is_of
from .lives import count_of
from .records import Message, Token, ask_of, bare, bytes_of, key_in, packet_of, token_of
from .steps import (Adopt, CallAll, Entries, Kept, KeptOf, Owner, Packets, Replay, Rewrite, SeenHere, SentHere, State, Statuses, Steps, StreamState,
                    Swap, TakeOver, TakePlace, Wait)

STATUS_SECONDS = 3.5    # a status that isn't written again for so long expires
CALL_SECONDS = 30.0
UNCHANGED = "nothing was changed"


class Given(NamedTuple):
    """A record that the fresh site is given, and the packet that it must send with its answer, if it is an ask."""

    record: bytes
    packet: bytes | None


class Rebuild:
    """The machine that makes the site again, while the shop's sites here are stopped."""

    def __init__(self, site: int, count: int, here: Sequence[int], anyway: bool, standby: Sequence[int] = ()) -> None:
        self.site, self.count, self.here, self.anyway = site, count, here, anyway
        self.standby = standby      # the sites whose place may be taken here

    def over_files(self) -> Steps[int]:
        """From what the folders of all sites have of it; how many packets came out again."""
        streams: list[Packets] = []
        for other in range(self.count):
            streams.append((yield SentHere(other)))
        past, lacking = Past(self.site, streams), []
        for other in range(self.count):
            if other != self.site and not (yield from self._add_kept(past, other)):
                lacking.append(other)
        self._refuse_silent(lacking, "has no folder")
        yield from self._add_left(past)
        yield Replay(self.site, list(past.steps()))
        yield Swap(self.site, count_of((yield SeenHere(self.site))))
        return len(past.packets())

    def over_server(self) -> Steps[int]:
        """From the streams, with what its old folder and the other sites have beyond them."""
        owner: str = yield Owner(self.site)
        past, was = yield from self._past_on_server()
        state: StreamState = yield State(self.site)
        if past.packets() != was or state.last != state.greatest:
            yield Rewrite(self.site, past.packets(), "")
        yield Replay(self.site, list(past.steps()))
        yield from statuses_without(self.site)
        state = yield State(self.site)
        if not (yield Adopt(self.site, owner, True, state.life)):
            raise Fault(Status.REFUSED, f"another folder has taken site {self.site}: {UNCHANGED}")
        yield Swap(self.site, count_of(state.life))
        return len(past.packets())

    def for_standby(self) -> Steps[bool]:
        """The same for a site that yields to a standby, which has all that counts in its stream; whether a folder here took its place."""
        state: StreamState = yield State(self.site)
        if state.yields != state.life or not state.life:
            raise Fault(Status.REFUSED, "it hasn't said that it yields to a standby")
        past, was = yield from self._past_on_server((yield from self._yielding()))
        last = was[-1][0] if was else NOWHERE
        if past.packets() != was or last != state.greatest:
            raise Fault(Status.REFUSED, f"its stream lacks what others have of it (shop rebuild {self.site})")
        yield Replay(self.site, list(past.steps()))
        took_over: bool = yield TakeOver(self.site, state.life, last)
        return took_over

    def _yielding(self) -> Steps[list[int]]:
        """The other sites whose place may be taken here too. Of such a site nothing counts but what stands in its stream, so it may be gone
        together with this one, as both are where they run on one machine."""
        yielding = []
        for other in self.standby:
            state: StreamState = yield State(other)
            if other != self.site and state.life and state.yields == state.life:
                yielding.append(other)
        return yielding

    def _past_on_server(self, may_be_gone: Sequence[int] | None = None) -> Steps[tuple["Past", Packets]]:
        """What is known of its past, and the packets in its stream. Where it yields, what its folder here sent beyond that doesn't count, and some
        sites may say nothing, if all that their own streams rest on stands in the streams."""
        statuses = yield from statuses_without(self.site)
        streams: list[Packets] = []
        for other in range(self.count):
            streams.append((yield from entries_of(other)))
        was = streams[self.site]
        told = (yield SentHere(self.site)) if may_be_gone is None else was
        past = Past(self.site, [told if other == self.site and told[:len(was)] == was else stream for other, stream in enumerate(streams)])
        silent = []
        for other in range(self.count):
            if other != self.site and not (other in self.here and (yield from self._add_kept(past, other))):
                if other not in statuses or not (yield from self._ask_other(past, other)):
                    silent.append(other)
        self._refuse_silent([other for other in silent if other not in (may_be_gone or ()) or not rests_on(streams, other)], "isn't running")
        yield from self._add_left(past)
        return past, was

    def _add_left(self, past: "Past") -> Steps[None]:
        """Adds what is left of its folder: the tokens that came to it, and what it has of the other sites, which they may have lost."""
        yield from self._add_kept(past, self.site)
        for other in range(self.count):
            kept: Kept | None = (yield KeptOf(self.site, other, 0)) if other != self.site else None
            past.left += [(other, number, text) for number, text in kept[0]] if kept else []
        past.add_passed()

    def _add_kept(self, past: "Past", other: int) -> Steps[bool]:
        """Adds what another site of this machine has; False if it has no folder."""
        kept: Kept | None = yield KeptOf(other, self.site, past.last)
        if kept:
            past.add([text for _, text in kept[0]], kept[1])
        return kept is not None

    def _ask_other(self, past: "Past", other: int) -> Steps[bool]:
        """Asks another site for what it has beyond the stream; False if it gives no answer."""
        request = {"op": "have", "site": other, "origin": self.site, "after": past.last, "timeout": CALL_SECONDS}
        found = (yield CallAll(request, [other], CALL_SECONDS)).get(other)
        if not found or "messages" not in found[-1]:
            return False
        past.add([bytes_of(text) for text in found[-1]["messages"]], [bytes_of(text) for text in found[-1]["tokens"]])
        return True

    def _refuse_silent(self, silent: list[int], why: str) -> None:
        """A site that says nothing may have more of this one, and then its numbers would be given again."""
        if silent and not self.anyway:
            raise Fault(Status.REFUSED, f"site {', '.join(map(str, silent))} {why}, and may have more of site {self.site}; bring it back, "
                        f"or say --anyway: {UNCHANGED}")


def entries_of(site: int) -> Steps[Packets]:
    """All that stands in a stream."""
    packets: Packets = []
    while page := (yield Entries(site, packets[-1][0] if packets else NOWHERE)):
        packets += page
    return packets


def rests_on(streams: list[Packets], site: int) -> bool:
    """Whether a site's stream could be sent again with what stands in the streams: they lack no message and no token that it had."""
    past = Past(site, streams)
    past.add_passed()
    try:
        return [step.packet for step in past.steps() if step.packet] == [text for _, text in streams[site]]
    except Fault:
        return False


def statuses_without(site: int) -> Steps[dict[int, object]]:
    """The statuses of the others. That of a site which was killed stays for some seconds; one that is said again is running elsewhere."""
    for _ in range(int((STATUS_SECONDS + 1) / 0.2)):
        statuses: dict[int, object] = yield Statuses()
        if site not in statuses:
            return statuses
        yield Wait(None, 0.2)
    raise Fault(Status.REFUSED, f"site {site} is running elsewhere: {UNCHANGED}")


def adopted(site: int) -> Steps[None]:
    """Gives the site to this folder, in the place of the one that was seen."""
    yield from statuses_without(site)
    state: StreamState = yield State(site)
    yield Adopt(site, (yield Owner(site)), False, state.life)
    yield TakePlace(site, count_of(state.life))


def seller_in(text: bytes) -> bytes | None:
    """The seller in the message of an item."""
    fields = bare(text).split(b",", 8)
    return fields[7] if fields[6] == b"item" else None


class Past:
    """What is known of one site's past: the streams of all sites, and what the others have beyond them."""

    def __init__(self, site: int, streams: list[Packets]) -> None:
        self.site, self.streams = site, streams
        self.own: dict[int, bytes] = {}                 # its messages
        self.passed: dict[int, tuple[int, bytes]] = {}  # its tokens by turn, each with the number of its message before
        for (number, token), text in streams[site]:
            packet = packet_of(text)
            if not is_of(site, (number, token), packet):
                raise Fault(Status.REFUSED, f"the stream of site {site} has an entry {number}-{token} that isn't its packet "
                            f"(redis-cli xdel): {UNCHANGED}")
            if isinstance(packet, Token):
                self.passed[packet.turn] = (number, text)
            else:
                self.own[number] = text
        self.tokens = {turn.turn: (turn, text) for stream in streams for _, text in stream if (turn := token_of(text))}
        self.left: list[tuple[int, int, bytes]] = []    # the messages of other sites in its folder, each with its site and number
        self.taken: dict[int, int] = {}                 # the last turn that is known to have come to each site
        self.last = max(self.own, default=0)            # what others are asked for begins behind it
        self.reds: list[tuple[int, int]] = []           # its red numbers, each with the number of the message, once all is known

    def add(self, messages: list[bytes], tokens: list[bytes]) -> None:
        """Takes in what another site has: messages of this site, and tokens that came to the other one."""
        for text in messages:
            packet = packet_of(text)
            if isinstance(packet, Message) and packet.number not in self.own:
                self.own[packet.number] = text
        for text in tokens:
            if turn := token_of(text):
                self.tokens.setdefault(turn.turn, (turn, text))
                self.taken[turn.to] = max(self.taken.get(turn.to, 0), turn.turn)

    def add_passed(self) -> None:
        """The token of a turn was passed by the site to which the turn before went, and by site 0 at first."""
        messages = ((number, packet_of(text)) for number, text in sorted(self.own.items()))
        self.reds = [(packet.red, number) for number, packet in messages if isinstance(packet, Message) and packet.red]
        for turn, (token, text) in sorted(self.tokens.items()):
            before = self.tokens.get(turn - 1)
            sender = before[0].to if before else 0 if turn == 1 else None
            if sender == self.site and turn not in self.passed:
                self.passed[turn] = (self._number_before(token), text)
        self._add_forgotten()

    def _add_forgotten(self) -> None:
        """Tokens that nobody has any more, and that came to it or went, since it passed the next one, or somebody has had a later one. One
        that went goes to a site now that has had a later one, and so doesn't take it."""
        for turn, (_, text) in sorted(self.passed.items()):
            if turn > 1 and turn - 1 not in self.tokens and (passed := token_of(text)):
                before = max((token.issued for its, (token, _) in self.tokens.items() if its < turn), default=0)
                issued = min((red for red, _ in self.reds if before < red <= passed.issued), default=passed.issued + 1) - 1
                self._add_token(Token(turn - 1, self.site, issued))
        came = {turn: token.issued for turn, (token, _) in self.tokens.items() if token.to == self.site} | ({0: 0} if self.site == 0 else {})
        for turn, issued in came.items():
            later = min((its for its in self.tokens if its > turn + 1), default=None)
            to = max((site for site in self.taken if site != self.site), key=lambda site: self.taken[site], default=None)
            if turn + 1 not in self.passed and later and to is not None and self.taken[to] > turn:
                last = max((red for red, _ in self.reds if red <= self.tokens[later][0].issued), default=0)
                token = self._add_token(Token(turn + 1, to, max(issued, last)))
                self.passed[turn + 1] = (self._number_before(token), self.tokens[turn + 1][1])

    def _add_token(self, token: Token) -> Token:
        self.tokens[token.turn] = token, b"token,1,%d,%d,%d" % token
        return token

    def _number_before(self, token: Token) -> int:
        """The last own message before a token: the next red one has a number that the token doesn't count."""
        return next((number for red, number in self.reds if red > token.issued), max(self.own, default=0) + 1) - 1

    def packets(self) -> Packets:
        """All that the site sent, in order, with the ids of its stream."""
        if gap := next((number for number in range(1, len(self.own) + 1) if number not in self.own), None):
            raise Fault(Status.REFUSED, f"others have message {self.site}.{max(self.own)}, and nobody has {self.site}.{gap}: {UNCHANGED}")
        tokens: dict[int, list[bytes]] = {}
        for _, (number, text) in sorted(self.passed.items()):
            tokens.setdefault(number, []).append(text)
        made: Packets = []
        for number in range(len(self.own) + 1):
            made += [((number, 0), self.own[number])] if number else []
            made += [((number, at + 1), text) for at, text in enumerate(tokens.get(number, []))]
        return made

    def steps(self) -> Iterator[Given]:
        """What a fresh site is given so that it sends these packets again; then what else it had of the others, and the tokens that it took
        and didn't use."""
        others = [{number: text for (number, token), text in stream if not token} for stream in self.streams]
        for site, number, text in self.left:
            others[site].setdefault(number, text)
        others[self.site] = self.own
        sellers = {b"%d.%d" % (site, number): seller for site, messages in enumerate(others) for number, text in messages.items()
                   if (seller := seller_in(text))}
        came = [text for _, (token, text) in sorted(self.tokens.items()) if token.to == self.site]
        given = [0] * len(others)
        holds = self.site == 0
        for _, text in self.packets():
            packet = packet_of(text)
            if isinstance(packet, Message):
                for site, count in enumerate(packet.deps):
                    while site != self.site and given[site] < count:
                        given[site] += 1
                        if given[site] not in others[site]:
                            raise Fault(Status.REFUSED, f"the stream of site {site} lacks message {site}.{given[site]}: {UNCHANGED}")
                        yield Given(others[site][given[site]], None)
                ask, is_red = key_in(text) + ask_of(packet.shadow, lambda item: sellers.get(item, b"")), packet.red > 0
            else:
                assert packet
                ask, is_red = b"pass,%d" % packet.to, True
            if is_red and not holds:
                if not came:
                    raise Fault(Status.REFUSED, f"the streams lack the token that was there before {text.decode()}: {UNCHANGED}")
                yield Given(came.pop(0), None)
            holds = isinstance(packet, Message) and (holds or is_red)
            yield Given(ask, text)
        for text in [text for site, number, text in self.left if number > given[site]] + came:
            yield Given(text, None)
