"""Publishes what one site sends: brings its stream on the server up to date, and compares the site with it."""

import hashlib
from typing import TYPE_CHECKING

from .ledger import NOWHERE, Place
from .lives import Standing, life_text, standing, takes_place, why_other
from .opening import must_compare_all, must_hear_all, said_in_packets, said_in_status, strange_packet, why_other_count
from .over_files import BATCH
from .reader import tokens_in
from .site import Site
from .steps import (Adopt, Append, Entries, Owner, Packets, Page, PageOf, Rewrite, SayYields, SeeHere, SeeLife, SeenHere, Sites, State, Statuses, Steps,
                    StreamState, Wait)

if TYPE_CHECKING:
    from .over_server import ServerLink

COMPARE_SECONDS = 1.0       # how often a site is compared with its stream
LOOK_SECONDS = 0.2          # how often it is looked whether another supervisor is gone


class Fenced(Exception):
    """The others have more of a site than its folder, or another past."""


class Elsewhere(Exception):
    """Another folder has the site, or another supervisor runs it."""


class Publisher:
    """Appends what one site sends to its stream. Appending again is refused by the ids, so nothing is there twice."""

    def __init__(self, link: "ServerLink", site: Site) -> None:
        self.link, self.site = link, site
        self.name = f"publish {site.number}"
        self.told: int | None = None        # how many packets it had sent when it began to tell ok only of those in the stream
        self.began = 0.0                    # when it first looked at the server over this connection

    def run(self) -> Steps[None]:
        yield Wait(self.site.known)
        self.began = self.site.shop.now()
        try:
            while not self.site.fenced_by and not self.link.is_over:
                last = yield from self._compare()
                yield from self._append_until(last, self.site.shop.now() + COMPARE_SECONDS)
        except Fenced as why:
            self.site.fence(str(why), outlasts=True)
        except Elsewhere as why:
            self.site.shop.forget(self.site)
            self.site.fence(str(why))
        except OSError:
            if not self.site.has_lost_files():
                raise

    def _append_until(self, last: Place, until: float) -> Steps[None]:
        """Appends what is sent, behind the entry `last`, for some time, or until the stream ends elsewhere."""
        site, sends = self.site, self.site.ledger.sends
        while (at := self.link.counts[site.number]) < len(sends) or site.shop.now() < until:
            if at == len(sends):
                yield Wait(site.shop.news, max(until - site.shop.now(), 0.001))
                continue
            packets = sends.read(at, min(at + BATCH, len(sends)))
            if not (yield Append(site.number, last, packets, life_text(site.lives))):
                return
            last = packets[-1][0]
            self.link.counts[site.number] = at + len(packets)
            self.link.works(self.name)
            site.shop.progress.tell()

    def _compare(self) -> Steps[Place]:
        """Compares the site with its stream; its last place there. A server that has lost its end is given it again."""
        site, sends = self.site, self.site.ledger.sends
        if not site.compared.is_set and (why := why_other_count(self.link.over, (yield Sites(site.shop.count)), site.shop.count)):
            raise Elsewhere(why)
        while True:
            state: StreamState = yield State(site.number)
            if standing(site.lives, state.life) is Standing.OTHER:
                site.doubt()
            if not (yield from self._has_site(state)):
                continue
            if not site.compared.is_set and ((yield from self._waited_for_others()) or (yield from self._waited_for_another())):
                continue
            if state.life == life_text(site.lives) or (yield from self._is_seen(state)):
                break
        if state.standby:
            self._yield()
        at, last = sends.count_upto(state.last), state.last
        if (state.entries, state.last) != (at, state.greatest):
            site.shop.event(f"site {site.number}: its stream lacks packets between others; all of it is published again")
            at, last = len(sends), sends.last
            if not (yield Rewrite(site.number, sends.read(0, at), life_text(site.lives))):
                return (yield from self._compare())
            state = state._replace(yields="")
        if at < self.link.counts.get(site.number, 0):
            lost = self.link.counts[site.number] - at
            site.shop.event(f"site {site.number}: the server lost {lost} of its packets, which are published again")
        self.link.counts[site.number] = at
        self.link.works(self.name)
        if not site.compared.is_set:
            yield from self._see_here()
        site.shop.open(site)
        if self.told is not None or site.yields:
            yield from self._say_yields(state, at)
        return last

    def _has_site(self, state: StreamState) -> Steps[bool]:
        """Has the site given to its folder, unless that can't be the one that the others know; False if another one has taken it meanwhile."""
        site = self.site
        owner: str = yield Owner(site.number)
        (its, _, where), (own, here) = owner.partition(" "), self.link.named(site).split(" ", 2)[1:]
        if its in ("", own) or takes_place(site.lives, state.life):
            where = ""              # no other folder has it
        why = self._why_other_stream(state)
        if where and (where != here or not why):
            raise Elsewhere(f"{where} has it (shop adopt {site.number}, if that is gone for good)")
        if not why and not site.compared.is_set:
            why = yield from self._why_behind(state)
        if why:
            raise Fenced(why)
        if its == own:
            return True
        is_taken: bool = yield Adopt(site.number, owner, False, state.life)
        return is_taken

    def _yield(self) -> None:
        """The site has a standby: from now on it tells ok only once a message stands in its stream, also where it is started again."""
        if not self.site.yields:
            self._set_yields(True)
        if self.site.yields and self.told is None:
            self.told = len(self.site.ledger.sends)

    def _set_yields(self, yields: bool) -> None:
        site = self.site
        try:
            site.write_yields(yields)
        except OSError as fault:
            return site.shop.event(f"site {site.number}: it can't be written whether it has a standby ({fault.strerror})")
        site.yields = yields
        site.shop.event(f"site {site.number}: it has {'a standby' if yields else 'no standby any more'}")

    def _say_yields(self, state: StreamState, published: int) -> Steps[None]:
        """Says that its life yields to the standby, once all that it told before stands in the stream; or, where there is no standby any more,
        that none does, and tells ok at once again when that is known."""
        site, life = self.site, life_text(self.site.lives)
        if state.standby:
            if self.told is not None and state.yields != life and published >= self.told:
                yield SayYields(site.number, state.yields, life)
        elif (yield SayYields(site.number, state.yields, "")):
            self._set_yields(False)
            self.told = None

    def _waited_for_another(self) -> Steps[bool]:
        """Whether it was said that another supervisor runs the site, and isn't any more: not this folder's, which holds the folder and so is the
        last. What one said that was killed stays for some seconds; one that says it again is running."""
        first = None
        while (status := (yield Statuses()).get(self.site.number)) and status.get("by") != self.link.named(self.site):
            self.site.doubt()
            if first not in (None, status.get("told")):
                raise Elsewhere(f"{str(status.get('by')).split(' ', 2)[-1]} runs it (shop adopt {self.site.number}, if that is gone for good)")
            first = status.get("told")
            yield Wait(None, LOOK_SECONDS)
        return first is not None

    def _why_other_stream(self, state: StreamState) -> str | None:
        """Why the end of the stream can't be what the folder has sent."""
        site, sends = self.site, self.site.ledger.sends
        if state.greatest > sends.last:
            return (f"{self.link.over} had its packet {shown(state.greatest)}, and its folder ends with {shown(sends.last)} "
                    f"(shop rebuild {site.number})")
        if state.last != NOWHERE and sends.at(state.last) != state.packet:
            return self._other_packet(state.last)
        return None

    def _other_packet(self, place: Place) -> str:
        return (f"{self.link.over} has another packet {shown(place)} of it: two processes were this site "
                f"(shop rebuild {self.site.number})")

    def _why_behind(self, state: StreamState) -> Steps[str | None]:
        """Why its folder can't be the one that the other sites know: one of them has more of it, or a process elsewhere whose place a folder here
        took. Notes which of them have to say first what they have."""
        site, shop = self.site, self.site.shop
        statuses = {other: status for other, status in (yield Statuses()).items() if other != site.number}
        is_forgotten = (state.greatest, state.life) == (NOWHERE, "")
        was_here, seconds = bool((yield SeenHere(site.number))), shop.now() - self.began
        must_hear = must_hear_all(is_forgotten, was_here, site.answered is not None, shop.is_alone, seconds)
        site.silent = [other for other in range(shop.count) if other not in shop.sites and other not in statuses] if must_hear else []
        said = [said_in_status(status, other, site.number) for other, status in statuses.items()]
        if site.answered is None and not site.silent:
            for other in (other for other in range(shop.count) if other not in shop.sites):
                said.append(said_in_packets(other, site.number, (), (yield from tokens_in(other))))
        return (yield from shop.why_behind(site, said))

    def _waited_for_others(self) -> Steps[bool]:
        """Whether a site elsewhere had to say first what it has. Until then this one says what it has itself, since they may wait for it."""
        if self.site.silent:
            self.site.shop.changes.tell()
            yield Wait(None, LOOK_SECONDS)
        return bool(self.site.silent)

    def _see_here(self) -> Steps[None]:
        """Notes beside the folder that its site was here."""
        try:
            yield SeeHere(self.site.number, life_text(self.site.lives))
        except OSError as fault:
            self.site.shop.event(f"lives: {fault.strerror}; if the folder and all on the server are lost, site {self.site.number} looks new")

    def _is_seen(self, state: StreamState) -> Steps[bool]:
        """Compares as much of its stream as the life asks for that was seen last, and has its own seen. False if another one was
        meanwhile, another folder has the site, or another process of it has appended something: from then on only this one does."""
        site, its = self.site, standing(self.site.lives, state.life)
        if its is Standing.OTHER:
            raise Fenced(why_other(site.lives, state.life, self.link.over, site.number))
        if must_compare_all(its, site.shop.is_alone) and (place := (yield from self._strange())):
            raise Fenced(self._other_packet(place))
        is_seen: bool = yield SeeLife(site.number, state.life, life_text(site.lives), state.last, self.link.named(site).split(" ", 2)[1])
        return is_seen

    def _strange(self) -> Steps[Place | None]:
        """The first entry of its stream that isn't what the folder sent at that place."""
        sends, after = self.site.ledger.sends, NOWHERE
        while True:
            page: Page = yield PageOf(self.site.number, after)
            if not page.entries:
                return None
            at = sends.count_upto(after)
            if hash_of(sends.read(at, min(at + page.entries, len(sends)))) != page.hash:
                entries: Packets = yield Entries(self.site.number, after, page.last)
                if place := strange_packet(entries, sends.at):
                    return place
            after = page.last


def shown(place: Place) -> str:
    return "%d-%d" % place


def hash_of(packets: Packets) -> bytes:
    """The hash of a page that has these entries."""
    return hashlib.sha1(b"".join(b"%d-%d %b\n" % (*place, text) for place, text in packets)).hexdigest().encode()
