"""What a site has sent, taken in and holds, as it follows from the records that it kept and their answers."""

import bisect
from array import array
from collections.abc import Callable, Iterable, Sequence

from .answers import Answer
from .records import Message, Token, bare, packet_of, token_of
from .release import Release

# The place of a packet among those of its site: (n, t) is the t-th token after own message n, and (n, 0) that message. It is the id of
# the packet's entry in the site's stream, n-t.
Place = tuple[int, int]
NOWHERE: Place = (0, 0)

# Reads pieces of a site's file `out`, each by where it begins and its size; an OSError if it isn't all there.
ReadOut = Callable[[Sequence[tuple[int, int]]], list[bytes]]


class Prefix:
    """Numbers that have come, and how many of 1, 2, 3 .. have come without a gap."""

    def __init__(self) -> None:
        self.upto = 0
        self._beyond: set[int] = set()

    def add(self, number: int) -> None:
        if number == self.upto + 1:
            self.upto += 1
            while self.upto + 1 in self._beyond:
                self.upto += 1
                self._beyond.remove(self.upto)
        elif number > self.upto:
            self._beyond.add(number)

    @property
    def count(self) -> int:
        return self.upto + len(self._beyond)

    @property
    def greatest(self) -> int:
        return max(self._beyond, default=self.upto)


class Sends:
    """The packets of one site in the order in which it sent them, each with its place and where it stands in the file `out`."""

    def __init__(self, read_out: ReadOut) -> None:
        self._read_out = read_out
        self._numbers = array("I")
        self._tokens = array("I")
        self._starts = array("Q")
        self._sizes = array("H")
        self.messages = 0

    def __len__(self) -> int:
        return len(self._numbers)

    def add(self, is_message: bool, start: int, size: int) -> None:
        tokens = 0
        if is_message:
            self.messages += 1
        else:
            tokens = self._tokens[-1] + 1 if self._tokens else 1
        self._numbers.append(self.messages)
        self._tokens.append(tokens)
        self._starts.append(start)
        self._sizes.append(size)

    def place(self, index: int) -> Place:
        return self._numbers[index], self._tokens[index]

    @property
    def last(self) -> Place:
        return self.place(-1) if self._numbers else NOWHERE

    def count_upto(self, place: Place) -> int:
        """How many packets stand at this place or before it, so the index of the first one after it."""
        index = bisect.bisect_left(self._numbers, place[0])
        while index < len(self) and self.place(index) <= place:
            index += 1
        return index

    def read(self, begin: int, end: int) -> list[tuple[Place, bytes]]:
        """The packets from one index to another, read from `out`."""
        texts = self._read_out([(self._starts[at], self._sizes[at]) for at in range(begin, end)]) if begin < end else []
        return [(self.place(at), text) for at, text in zip(range(begin, end), texts)]

    def at(self, place: Place) -> bytes | None:
        """The packet at this place, if one was sent there."""
        index = self.count_upto(place) - 1
        return self.read(index, index + 1)[0][1] if index >= 0 and self.place(index) == place else None


class Ledger:
    """The state of one site that its supervisor needs. `note` takes each kept record with its answer, in their order."""

    def __init__(self, site: int, sites: int, read_out: ReadOut) -> None:
        self.site = site
        self.records = 0            # kept and answered
        self.kept_bytes = 0         # of the file `kept`, up to the record that was answered last
        self.out_bytes = 0          # of the file `out`, up to its answer
        self.sends = Sends(read_out)
        self.have = [Prefix() for _ in range(sites)]    # messages of each other site, released or held
        self.red = Prefix()         # red numbers of all messages that are here
        self.release: Release[Message] = Release(sites)
        self.holds_token = site == 0
        self.turn = 0               # of the token that it took or passed last
        self.issued = 0             # red numbers issued before the token came
        self.gave = [(0, 0)] * sites    # the last two turns at which it passed the token on to each site

    @property
    def messages(self) -> int:
        return self.sends.messages + sum(prefix.count for prefix in self.have)

    def note(self, record: bytes, answer: Answer, size: int | None = None) -> Message | Token | None:
        """Takes in one record, which takes so many bytes of the file `kept`, with its answer; returns the packet that was sent with it."""
        self.records += 1
        self.kept_bytes += len(record) + 1 if size is None else size
        sent = None
        match answer.kind:
            case b"ok" | b"passed":
                sent = self._sent(answer)
            case b"released" | b"held" | b"repeat":
                self._came(record)
            case b"holding":
                self._took(record)
        self.out_bytes += answer.size
        return sent

    def note_plain(self, record: bytes, answer: Answer, size: int) -> bool:
        """The same, in a third of the time, of most records of a past: those that were refused, have become a message, or were one that was
        released alone, while none waited. False, and nothing is taken in, for any other."""
        head = answer.lines[0].split(b",", 4)
        kind = head[2]
        if kind in (b"refused", b"again"):
            pass
        elif self.release.waiting:
            return False
        elif kind == b"ok":
            text = answer.lines[1]
            word, _, _, _, red, _ = bare(text[5:]).split(b",", 5)
            if word != b"msg":
                return False
            self.sends.add(True, self.out_bytes + len(answer.lines[0]) + 6, len(text) - 5)
            self.release.count_alone(self.site)
            if red != b"0":
                self._is_red(int(red))
        elif kind == b"released" and head[3] == b"1":
            _, _, origin, number, red, _ = bare(record).split(b",", 5)
            site = int(origin)
            if site == self.site or self.release.counts[site] + 1 != int(number):
                return False
            self.have[site].add(int(number))
            self.release.count_alone(site)
            if red != b"0":
                self._is_red(int(red))
        else:
            return False
        self.records += 1
        self.kept_bytes += size
        self.out_bytes += answer.size
        return True

    def _is_red(self, red: int) -> None:
        self.release.reds += 1
        self.red.add(red)

    def _sent(self, answer: Answer) -> Message | Token | None:
        text = answer.lines[1][5:]
        start = self.out_bytes + len(answer.lines[0]) + 1 + len(b"send,")
        packet = packet_of(text)
        self.sends.add(isinstance(packet, Message), start, len(text))
        if isinstance(packet, Message):
            self.release.made(packet)
            if packet.red:
                self.red.add(packet.red)
        elif isinstance(packet, Token):
            self.holds_token, self.turn = False, packet.turn
            self.gave[packet.to] = self.gave[packet.to][1], packet.turn
        return packet

    def _came(self, record: bytes) -> None:
        packet = packet_of(record)
        if isinstance(packet, Message) and packet.origin != self.site:
            self.have[packet.origin].add(packet.number)
            self.release.arrive(packet)
            if packet.red:
                self.red.add(packet.red)

    def _took(self, record: bytes) -> None:
        packet = packet_of(record)
        if isinstance(packet, Token):
            self.holds_token, self.turn, self.issued = True, packet.turn, packet.issued


def kept_in(kept: Iterable[bytes], out: Iterable[bytes], origin: int, after: int) -> tuple[list[tuple[int, bytes]], list[bytes]]:
    """What stands in the files of another site: messages of this one with a number above `after`, each with its number, and the tokens that
    came to the other one, or that it passed on to this one; a torn last line is none."""
    messages, tokens = list[tuple[int, bytes]](), list[bytes]()
    for line in kept:
        packet = packet_of(line[:-1]) if line.startswith((b"msg,", b"token,", b"key,")) and line.endswith(b"\n") else None
        if isinstance(packet, Token):
            tokens.append(line[:-1])
        elif packet and packet.origin == origin and packet.number > after:
            messages.append((packet.number, line[:-1]))
    passed = [line[5:-1] for line in out if line.startswith(b"send,token,") and line.endswith(b"\n")]
    return messages, tokens + [text for text in passed if (token := token_of(text)) and token.to == origin]


def sends_of(out: Iterable[bytes]) -> list[tuple[Place, bytes]]:
    """The packets among the lines of a file `out`, with their places; a torn last line is none."""
    sends: list[tuple[Place, bytes]] = []
    number = token = 0
    for line in out:
        if line.startswith(b"send,") and line.endswith(b"\n"):
            number, token = (number, token + 1) if line.startswith(b"send,token,") else (number + 1, 0)
            sends.append(((number, token), line[5:-1]))
    return sends


def is_of(site: int, place: Place, packet: Message | Token | None) -> bool:
    """Whether a packet is the site's that stands at that place; a token doesn't say whose it is."""
    if isinstance(packet, Message):
        return (packet.origin, packet.number, 0) == (site, *place)
    return packet is not None and place[1] > 0
