"""The server of a run: streams, and what supervisors say to each other. It can lose the end of what it was told, or everything."""

import functools
import math
import operator
from bisect import bisect_right
from collections.abc import Callable
from typing import TYPE_CHECKING, Any

from shop_tool.carrier.ledger import NOWHERE, Place
from shop_tool.carrier.lives import count_of, life_text, placed
from shop_tool.carrier.over_server import WANTS
from shop_tool.carrier.publisher import hash_of
from shop_tool.carrier.rebuilding import STATUS_SECONDS
from shop_tool.carrier.steps import (Adopt, Append, Entries, Hear, Marks, Owner, Packets, Page, PageOf, Read, Rewrite, SayYields, SeeLife,
                                     Signal, Sites, StandBy, State, Statuses, StreamState, TakeOver, Tell)

if TYPE_CHECKING:
    from .clock import Clock
    from .world import Process

PAGE = 50
place_of = number_of = operator.itemgetter(0)
WRITES = (Append, Rewrite, SeeLife, Adopt, SayYields)


class Stream:
    def __init__(self) -> None:
        self.entries: Packets = []
        self.greatest = NOWHERE

    @property
    def last(self) -> Place:
        return self.entries[-1][0] if self.entries else NOWHERE


class Server:
    def __init__(self, clock: "Clock", sites: int, is_always: bool) -> None:
        self.clock, self.sites, self.is_always = clock, sites, is_always
        self.is_up = True
        self.gone_at = self.came_at = -10.0     # when it went away last, and came back
        self.times = 0                      # how often it was started: a connection is of one of them
        self.news = Signal()                # an entry came, or it went away
        self.log: list[tuple[float, Callable[[], None]]] = []
        self._empty()

    def _empty(self) -> None:
        self.streams = [Stream() for _ in range(self.sites)]
        self.marks: list[bytes | None] = [None] * self.sites
        self.lives = [""] * self.sites
        self.owners = [""] * self.sites
        self.standbys = [""] * self.sites
        self.yields = [""] * self.sites
        self.said: dict[int, tuple[float, dict[str, Any]]] = {}
        self.wants: list[tuple[int, dict[bytes, bytes]]] = []
        self.answers: dict[bytes, list[dict[str, Any]]] = {}

    # What it is told, so that a beginning of it can be told again.

    def _write(self, change: Callable[[], None]) -> None:
        self.log.append((self.clock.now, change))
        change()
        self.news.tell()

    def lose_end(self, seconds: float = math.inf) -> None:
        """It comes back as it was that long ago, or as a new one."""
        log = [entry for entry in self.log if entry[0] <= self.clock.now - seconds]
        self._empty()
        for _, change in log:
            change()
        self.log = log

    def go(self) -> None:
        """It goes away, and all connections break."""
        self.is_up = False
        self.gone_at = self.clock.now
        self.times += 1
        self.news.tell()

    def come(self) -> None:
        if not self.is_up:
            self.is_up, self.came_at = True, self.clock.now

    # Steps.

    def do(self, by: "Process", step: tuple[Any, ...]) -> Any:
        match step:
            case State(site):
                stream = self.streams[site]
                packet = stream.entries[-1][1] if stream.entries else b""
                return StreamState(len(stream.entries), stream.last, packet, stream.greatest, self.lives[site], self.standbys[site], self.yields[site])
            case Read(after, most, _):
                return {site: entries for site, place in after.items() if (entries := self._entries(site, place, None, most))}
            case Tell(statuses):
                for site, status in statuses.items():
                    said = status | {"told": by.clock.now, "by": by.named_of(site)}
                    self.said[site] = self.clock.now + STATUS_SECONDS, said
                return [stream.last[0] for stream in self.streams], list(self.marks), ()
            case Hear(after):
                return [(b"%d" % number, fields) for number, fields in self.wants[bisect_right(self.wants, int(after), key=number_of):]]
            case Owner(site):
                return self.owners[site]
            case Sites(_):
                return self.sites
            case Adopt(site, before, is_fresh, life):
                if self.owners[site] != before or self.lives[site] != life:
                    return False
                self._set("owners", site, by.owner_text(site, is_fresh))
                self._set("yields", site, f"none {by.world.new_number()}")
                return True
            case Statuses():
                return {site: dict(said) for site, (until, said) in self.said.items() if until > self.clock.now}
            case SeeLife(site, before, life, last, own):
                if self.lives[site] != before or self.streams[site].last != last or self.owners[site].partition(" ")[0] != own:
                    return False
                self._set("lives", site, life)
                return True
            case Append(site, _, _, life) | Rewrite(site, _, life) if life and self.lives[site] != life:
                return False
            case Append(site, last, packets, _):
                if self.streams[site].last != last or packets[0][0] <= self.streams[site].greatest:
                    return False
                self._write(functools.partial(self._append, site, packets, by.world.new_mark()))
                return True
            case Rewrite(site, packets, _):
                if packets:
                    self._write(functools.partial(self._rewrite, site, list(packets), by.world.new_mark()))
                return True
            case StandBy(site):
                if self.standbys[site] != by.machine.name:
                    self._set("standbys", site, by.machine.name)
            case SayYields(site, before, life):
                if self.yields[site] != before:
                    return False
                self._set("yields", site, life or f"none {by.world.new_number()}")
                return True
            case TakeOver(site, life, last):
                return self._take_over(by, site, life, last)
            case PageOf(site, after, upto):
                page = self._entries(site, after, upto)
                tokens = [text for _, text in page if text.startswith(b"token,")]
                return Page(len(page), page[-1][0] if page else NOWHERE, hash_of(page), tokens)
            case Entries(site, after, upto):
                return self._entries(site, after, upto)
            case Marks():
                return list(self.marks)
            case _:
                raise NotImplementedError(step)

    def say(self, number: int, fields: dict[str, Any]) -> None:
        """A want, or a request to another supervisor."""
        said = {name.encode(): value if isinstance(value, bytes) else str(value).encode() for name, value in fields.items()}
        self.wants.append((number, said))
        del self.wants[:-WANTS]
        self.news.tell()

    def life_of(self, site: int) -> str:
        """The life of a site that was seen last; where that is lost, the one that is said beside its status."""
        until, said = self.said.get(site, (0.0, {}))
        return self.lives[site] or (str(said["life"]) if until > self.clock.now else "")

    def _entries(self, site: int, after: Place, upto: Place | None, most: int = PAGE) -> Packets:
        """Those behind a place, which stand in their order."""
        entries = self.streams[site].entries
        if not entries or entries[-1][0] <= after:
            return []
        begin = bisect_right(entries, after, key=place_of)
        return entries[begin:min(begin + most, len(entries) if upto is None else bisect_right(entries, upto, key=place_of))]

    def _take_over(self, by: "Process", site: int, life: str, last: Place) -> bool:
        if self.streams[site].last != last or self.said.get(site, (0.0, {}))[0] > self.clock.now or not self.lives[site] == self.yields[site] == life:
            return False
        assert by.made
        by.made.lives = placed([], count_of(life) + 1, f"{by.world.new_number():x}")
        for name, text in (("lives", now := life_text(by.made.lives)), ("yields", now), ("owners", by.owner_text(site, True))):
            self._set(name, site, text)
        if self.standbys[site] == by.machine.name:
            self._set("standbys", site, "")
        return True

    def _set(self, name: str, site: int, text: str) -> None:
        """Has something said of a site: its life, whose it is, who stands by, or as which life it yields."""
        self._write(lambda: operator.setitem(getattr(self, name), site, text))

    def _append(self, site: int, packets: Packets, mark: bytes) -> None:
        stream = self.streams[site]
        if not stream.entries:
            self.marks[site] = mark
        stream.entries += packets
        stream.greatest = packets[-1][0]

    def _rewrite(self, site: int, packets: Packets, mark: bytes) -> None:
        self.streams[site] = Stream()
        self._append(site, packets, mark)
        self.marks[site] = mark
        self.yields[site] = f"none {mark.decode()}"
