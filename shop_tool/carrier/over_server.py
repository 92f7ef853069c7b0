"""Carries packets over the streams of a server, and says and hears what supervisors say to each other there."""

import abc
from collections.abc import Callable

from ..ends import Fault
from .ledger import Place
from .lives import life_text
from .over_files import BATCH, UP
from .publisher import COMPARE_SECONDS, Publisher
from .reader import Reader
from .shop import Link, Shop
from .site import Site
from .standby import Standby
from .steps import Append, Broken, Connect, Hear, KeptOf, Mark, State, Statuses, Steps, StreamState, Tell, Wait
from .told import FORM, Once, is_called

STARTING = "not yet up"
FIRST_WAIT, LAST_WAIT = 0.1, 2.0
CALM = 5.0
WANTS = 1000                # how many entries the stream of wants keeps, about


class ServerLink(Link):
    is_here = False

    def __init__(self, shop: Shop, over: str) -> None:
        self.shop = shop
        self.over = over                            # the server, as people read it
        self.is_reached = False                     # the server has answered once
        self.is_over = False                        # nothing is carried any more; a cancel alone may be swallowed by a connection
        self.down: dict[str, str] = {}              # what of the link doesn't work, since when and why
        self.tops = [0] * shop.count                # how many messages the stream of each site has
        self.marks: list[Mark] = []                 # of the streams, as they were seen last
        self.counts: dict[int, int] = {}            # how many packets of each site here are in its stream
        self.without_keys = None
        self.calls = Once()

    @abc.abstractmethod
    def named(self, site: Site) -> str:
        """Names this supervisor as one that runs the site's folder: the start of the machine, which folder it is, and where."""

    @abc.abstractmethod
    def called(self, site: Site, fields: dict[bytes, bytes]) -> Callable[[], None]:
        """What answers a request of another supervisor for a site here; a Fault or ValueError if it is none."""

    @property
    def state(self) -> str:
        return next(iter(self.down.values()), UP if self.is_reached else STARTING)

    def works_of(self) -> dict[str, Callable[[], Steps[None]]]:
        """What the link does, each over a connection of its own."""
        works: dict[str, Callable[[], Steps[None]]] = {"tell": self._tell, "hear": self._hear}
        for site in self.shop.sites.values():
            works |= self.works_of_site(site)
        return works | {standby.name: standby.run for standby in (Standby(self, number) for number in self.shop.standby)}

    def works_of_site(self, site: Site) -> dict[str, Callable[[], Steps[None]]]:
        publisher, reader = Publisher(self, site), Reader(self, site)
        return {publisher.name: publisher.run, reader.name: reader.run}

    def forever(self, name: str, work: Callable[[], Steps[None]]) -> Steps[None]:
        """Works over a connection, which is made again whenever it fails. Returns when the work is over, or the link is."""
        wait = FIRST_WAIT
        while self.goes_on():
            began = self.shop.now()
            try:
                yield Connect()
                return (yield from work())
            except (Broken, OSError) as fault:
                self.fail(name, str(fault))
            wait = FIRST_WAIT if self.shop.now() - began > CALM else wait
            yield Wait(None, wait)
            wait = min(2 * wait, LAST_WAIT)

    def goes_on(self) -> bool:
        """Whether a connection is made again."""
        return not self.is_over

    def fail(self, name: str, why: str) -> None:
        if not self.down:
            self.shop.event(f"link: {self.over}: {why} ({name})")
        self.down.setdefault(name, f"down since {self.shop.stamp()}: {why}")
        for site in self.shop.sites.values():
            if name == Publisher(self, site).name:      # its stream can't be seen
                self.shop.open_unseen(site)
        self.shop.progress.tell()

    def works(self, name: str) -> None:
        self.is_reached = True
        if self.down.pop(name, None) and not self.down:
            self.shop.event(f"link: {self.over} is there")
            self.shop.progress.tell()

    # Statuses.

    def _tell(self) -> Steps[None]:
        while not self.is_over:
            said = [site.number for site in self.own_sites()]
            yield from self.look()
            self.works("tell")
            if said == [site.number for site in self.own_sites()]:
                yield Wait(self.shop.changes, COMPARE_SECONDS)
            for origin in range(self.shop.count):
                if origin not in self.shop.sites:
                    yield from self._append_for(origin)

    def look(self) -> Steps[None]:
        """Says how the sites here are, and sees what the streams have, and which machines know keys, until it has seen that all do."""
        statuses = {site.number: self.shop.status_of(site) | {"keys": self.shop.knows_keys} for site in self.own_sites()}
        self.tops, self.marks, without_keys = yield Tell(statuses)
        self.without_keys = () if self.without_keys == () else without_keys
        self.shop.progress.tell()

    def own_sites(self) -> list[Site]:
        """The sites that are this folder's: how another one is may another supervisor tell."""
        return [site for site in self.shop.sites.values() if (site.compared.is_set or site.silent) and not site.fenced_by]

    def is_published(self) -> bool:
        return all(site.fenced_by or self.published(site) >= len(site.ledger.sends) for site in self.shop.sites.values())

    def _append_for(self, origin: int) -> Steps[None]:
        """Where the server has lost messages of a site that isn't running, a site here that has them appends them."""
        if not self.shop.sites:
            return
        site = max(self.shop.sites.values(), key=lambda site: site.ledger.have[origin].upto)
        if site.ledger.have[origin].upto <= self.tops[origin] or origin in (yield Statuses()):
            return
        state: StreamState = yield State(origin)
        if state.last != state.greatest:
            return                  # entries were deleted by hand; only the site itself can mend that
        packets: list[tuple[Place, bytes]] = []
        for number, text in ((yield KeptOf(site.number, origin, state.last[0])) or ([], []))[0]:
            if number == state.last[0] + len(packets) + 1 and len(packets) < BATCH:
                packets.append(((number, 0), text))
        if packets and (yield Append(origin, state.last, packets, state.life)):
            self.shop.event(f"link: {len(packets)} messages of site {origin} that the server had lost are appended by site {site.number}")

    # Wants and requests of other supervisors.

    def _hear(self) -> Steps[None]:
        after = b"$"
        while not self.is_over:
            for after, fields in (yield Hear(after)):
                try:
                    self._heard(fields)
                except (ValueError, KeyError, Fault) as fault:
                    self.shop.event(f"link: {self.over} has a want that isn't one: {fault!r}")
            self.works("hear")

    def _heard(self, fields: dict[bytes, bytes]) -> None:
        if b"want" in fields:
            if not 0 <= (site := int(fields[b"want"])) < self.shop.count:
                raise ValueError(f"there is no site {site}")
            self.shop.hear_want(site, int(fields[b"known"]))
        elif b"leave" in fields:
            for left in fields[b"leave"].split(b","):
                self.shop.wants.drop(int(left))
        elif b"site" not in fields and int(fields.get(b"form", b"0")) > FORM:
            pass            # what a later version says, and this one doesn't know
        elif (called := self.shop.sites.get(int(fields[b"site"]))) and self._is_called(called, fields.get(b"life")):
            answer = self.called(called, fields)
            if self.calls.is_new(fields[b"call"]):
                answer()

    @staticmethod
    def _is_called(site: Site, life: bytes | None) -> bool:
        """Where no life is named, as by versions of before, what is called may be read, and an ask is refused with words."""
        return not site.fenced_by if life is None else is_called(life.decode("utf-8", "replace"), life_text(site.lives))

    def is_unseen(self, site: Site) -> bool:
        return Publisher(self, site).name in self.down

    def published(self, site: Site) -> int:
        return min(self.counts.get(site.number, 0), len(site.ledger.sends))

    def sent(self, origin: int) -> int:
        own = self.shop.sites.get(origin)
        return max(self.tops[origin], own.ledger.sends.messages if own else 0)
