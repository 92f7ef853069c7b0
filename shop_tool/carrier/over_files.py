"""Carries packets where all sites run here: from the file `out` of one to the others."""

import itertools

from ..ends import Fault
from .ledger import Sends, is_of
from .lives import Standing, life_text, standing, why_other
from .opening import must_compare_all, strange_packet
from .records import packet_of
from .shop import Link, Shop
from .site import Site
from .steps import Kept, KeptOf, Packets, SeeHere, SeenHere, SentHere, Steps, Wait

BATCH = 256         # packets that are carried at once
FULL_WAIT = 5.0     # seconds until a site that refused a message as Full is given it again
UP = "up"


def in_memory(packets: Packets) -> Sends:
    """Packets that aren't read from `out` again."""
    sends = Sends(lambda pieces: [packets[at][1] for at, _ in pieces])
    for at, (place, _) in enumerate(packets):
        sends.add(not place[1], at, 0)
    return sends


class FileLink(Link):
    def __init__(self, shop: Shop) -> None:
        self.shop = shop
        self.carried = dict.fromkeys(shop.sites, 0)     # how many packets of each site some other one has taken in
        self.left = set[int]()                          # the fenced sites whose packets are carried all the same

    @property
    def state(self) -> str:
        return UP

    def compare(self, site: Site) -> Steps[None]:
        """Opens a site once it is compared with what the others have of it. Of one that is fenced for that, what it sent is carried all the same,
        if the others know no other past of it."""
        if not site.is_marked:
            yield Wait(site.known)
            yield from self._open(site)
        if site.is_marked:
            try:
                yield from self._leave(site)
            except OSError as fault:
                self.shop.event(f"site {site.number}: what it sent isn't carried: {fault.filename}: {fault.strerror}")

    def _open(self, site: Site) -> Steps[None]:
        try:
            why = (yield from self.shop.why_behind(site)) or (yield from self._why_another_past(site, site.ledger.sends, self.shop.is_alone))
        except OSError as fault:
            if site.answered is None:
                return site.fence(f"{fault.filename}: {fault.strerror}")
            why = None      # it lacks nothing, whatever the others have
        if why:
            return site.fence(why, outlasts=True)
        try:
            yield SeeHere(site.number, life_text(site.lives))
        except OSError as fault:
            self.shop.event(f"lives: {fault.strerror}; the next start compares all of site {site.number}")
        self.shop.open(site)

    def _leave(self, site: Site) -> Steps[None]:
        """Has the others given what a fenced site sent. One that an earlier start has fenced has no keeper, and `out` alone says what that is, up
        to the first line that can't be."""
        sends = site.ledger.sends
        if not site.known.is_set:
            sent: Packets = yield SentHere(site.number)
            sends = in_memory([*itertools.takewhile(lambda entry: is_of(site.number, entry[0], packet_of(entry[1])), sent)])
        if not (yield from self._why_another_past(site, sends, True)):
            site.ledger.sends = sends
            self.left.add(site.number)
            self.shop.news.tell()

    def _why_another_past(self, site: Site, sends: Sends, all_of_it: bool) -> Steps[str | None]:
        """Why its folder has another past than the others know."""
        its = standing(site.lives, seen := (yield SeenHere(site.number)))
        if its is Standing.OTHER:
            return why_other(site.lives, seen, "this shop", site.number)
        for other in self.shop.sites if must_compare_all(its, all_of_it) else ():
            kept: Kept | None = (yield KeptOf(other, site.number, 0)) if other != site.number else None
            both = [((number, 0), text) for number, text in kept[0] if number <= sends.messages] if kept else []
            if place := strange_packet(both, sends.at):
                return f"site {other} has another message {site.number}.{place[0]} of it: two processes were this site (shop rebuild {site.number})"
        return None

    def read(self, site: Site) -> Steps[None]:
        """Gives a site what the others send. What it has is its position."""
        yield Wait(site.opened)
        while len(self.shop.sites) > 1:
            yield Wait(site.up)
            try:
                yield from self._carry(site, {})
            except Fault:
                return      # the site has ended
            yield Wait(None, FULL_WAIT)

    def _carry(self, site: Site, at: dict[int, int]) -> Steps[None]:
        """Carries packets until the site is full. `at` gets where it is in the sends of each other site."""
        while True:
            packets = []
            for number, other in self.shop.sites.items():
                if number != site.number and (number in self.left or other.known.is_set and other.opened.is_set and not other.fenced_by):
                    sends = other.ledger.sends
                    begin = at.setdefault(number, sends.count_upto((site.ledger.have[number].upto, 0)))
                    texts = other.sent(begin, min(len(sends), begin + BATCH))
                    at[number] = begin + len(texts)
                    packets += texts
            if packets and not (yield from self.shop.feed(site, packets)):
                return
            for number, end in at.items():
                self.carried[number] = max(self.carried[number], end)
            self.shop.progress.tell()
            if not packets:
                yield Wait(self.shop.news)

    def published(self, site: Site) -> int:
        return self.carried[site.number] if len(self.shop.sites) > 1 else len(site.ledger.sends)

    def sent(self, origin: int) -> int:
        return self.shop.sites[origin].ledger.sends.messages
