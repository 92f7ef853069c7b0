"""The sites of one supervisor: what they are given of each other, and the token, as they want it, hold it and pass it on."""

import abc
from collections.abc import Callable, Collection, Mapping, Sequence
from typing import Any

from ..ends import Fault, Status
from .ledger import Prefix
from .lives import life_text
from .opening import Said, said_by, said_in_packets, why_behind, why_passed_on
from .records import Message, Purpose, Token, bare, packet_of, why_not_one_record
from .site import Pending, Site, State
from .steps import CallAll, Flag, IsRunning, KeptOf, SayLeave, SayWant, Signal, Steps, UpElsewhere, Wait
from .turns import SAY_AGAIN, Wants, taker

HAND_OVER_SECONDS = 2.0     # how long a stop waits until a site elsewhere has taken the token
ANSWER_SECONDS = 0.5        # how long supervisors elsewhere have to say that they could take it
AGAIN_SECONDS = 0.2         # until they are asked again
LOOK_SECONDS = 0.05
WHERE_SECONDS = 0.5         # how long it is looked where the token is, once the time of an asker is over


class Link(abc.ABC):
    """What carries packets."""

    is_here = True      # what the others have of a site can always be seen
    without_keys: Sequence[int] | None = ()     # the sites whose machines may not know keys; None as long as it isn't known which

    @property
    @abc.abstractmethod
    def state(self) -> str:
        """`up`, or since when and why packets aren't carried."""

    @abc.abstractmethod
    def sent(self, origin: int) -> int:
        """How many messages of a site are where the others find them."""

    @abc.abstractmethod
    def published(self, site: Site) -> int:
        """How many packets of a site here would stay if its folder were lost: another site has them, or the server does."""

    def is_unseen(self, _site: Site) -> bool:
        """Whether it was tried to see what the others have of a site here, and can't be seen now."""
        return self.state.startswith("down")


class Shop(abc.ABC):
    sites: Mapping[int, Site]                       # those that run here
    link: Link

    def __init__(self, count: int, is_alone: bool) -> None:
        self.count = count                          # how many sites the shop has, here and elsewhere
        self.is_alone = is_alone
        self.knows_keys = True                      # its sites know keys of asks
        self.standby: tuple[int, ...] = ()          # the sites elsewhere whose place it takes once they have been gone for some time
        self.after = 0.0                            # how long, in seconds
        self.wants = Wants()
        self.news = Signal()                        # a site has sent something, or came up
        self.progress = Signal()                    # that, or a site took something in, or something was published
        self.changes = Signal()                     # a site has another state
        self.stopping = Flag()
        self.is_leaving = False                     # it is being stopped: asks are refused, and the token is handed over
        self.stays: str | None = None               # then: what is to be said of a token that isn't elsewhere

    @abc.abstractmethod
    def now(self) -> float:
        """Seconds by a clock that only goes forward."""

    @abc.abstractmethod
    def unix_time(self) -> float:
        """Seconds since 1970, by the clock of the machine."""

    @abc.abstractmethod
    def stamp(self) -> str:
        """The time as people read it."""

    @abc.abstractmethod
    def event(self, text: str) -> None:
        """Writes down what happened."""

    @abc.abstractmethod
    def later(self, seconds: float, call: Callable[[], None]) -> None:
        """Has this called in some time."""

    @abc.abstractmethod
    def soon(self, call: Callable[[], None]) -> None:
        """Has this called once what comes now has come."""

    @abc.abstractmethod
    def begin(self, steps: Steps[None]) -> None:
        """Has these steps done beside the others."""

    @abc.abstractmethod
    def witness_of(self, site: Site, answered: int) -> Callable[[int], None]:
        """What is told from now on how many bytes of a site's `kept` are answered, after so many."""

    @abc.abstractmethod
    def forget(self, site: Site) -> None:
        """Takes back what was told so: another folder may have taken asks of the site since, so its next start has to be compared."""

    def took_over(self, site: int) -> None:
        """A folder here has taken the place of a site elsewhere, which runs here from now on."""

    def is_followed(self, site: int) -> bool:
        """Whether somebody reads a site's records and answers along."""
        return False

    def tell_followers(self, site: int, lines: list[bytes]) -> None:
        """Tells them."""

    # What a site may be given.

    def begin_site(self, site: Site, answered: int | None) -> None:
        """A life of the site begins whose folder is known to have all that it answered, so many bytes of `kept`, or isn't."""
        site.answered = answered
        if self.is_alone or answered is not None and self.link.is_here:
            self._opened(site, answered or 0)

    def open_unseen(self, site: Site) -> None:
        """What the others have of the site can't be seen. It takes asks all the same, before it is compared, if its folder lacks nothing, as far
        as the sites here know, or if its operator takes the risk."""
        has_all = site.answered is not None and site.known.is_set and self._has_all_of(site)
        if not site.opened.is_set and (self.is_alone or has_all):
            self._opened(site, site.answered or 0)

    def _has_all_of(self, site: Site) -> bool:
        """Whether the sites here have no more of the site than its folder, nor a later turn of the token than the one it holds. They may have
        read what a copy of that sent; what one has that couldn't be started isn't known."""
        others = [other for other in self.sites.values() if other is not site]
        if not all(other.tried.is_set and other.known.is_set for other in others):
            return False
        return _why_behind(site, [said_by(other.ledger, site.number) for other in others]) is None

    def _opened(self, site: Site, answered: int) -> None:
        site.witness = self.witness_of(site, answered)
        site.opened.set()

    def open(self, site: Site) -> None:
        """The site has been compared with what the others have of it: it takes asks and packets."""
        if not site.opened.is_set:
            self._opened(site, site.ledger.kept_bytes)
        if not site.compared.is_set:
            site.compared.set()
            self.changes.tell()
            self.news.tell()
        self.progress.tell()
        self.pass_on(site)

    def may_give(self, site: Site) -> bool:
        """Whether it may be given what changes it."""
        return site.up.is_set and site.opened.is_set and not site.fenced_by and not self.stopping.is_set

    def feed(self, site: Site, packets: list[bytes]) -> Steps[bool]:
        """Gives a site packets of others, but for those that it has; returns once they are answered, False if it is full."""
        new = [packet for packet in packets if self._is_new(site, packet)]
        is_full = False
        for pending in site.give(new, Purpose.PACKET) if new else []:
            if not pending.done.is_set:
                yield Wait(pending.done)
            refusal = pending.result().refusal
            if refusal:
                is_full = is_full or refusal == "Full"
                site.note_fault(f"{pending.record[:80].decode('utf-8', 'replace')}: {refusal}")
        self.pass_on(site)
        return not is_full

    def _is_new(self, site: Site, text: bytes) -> bool:
        if why := why_not_one_record(bare(text), Purpose.PACKET):
            site.note_fault(f"{text[:80]!r} isn't given to it: {why}")
            return False
        match packet_of(text):
            case Message(origin=origin, number=number):
                return origin != site.number and number > site.ledger.have[origin].upto
            case Token(turn=turn, to=to):
                self.wants.passed(turn, to)
                # Where a later turn is known it was here already, though this folder may have lost that.
                return to == site.number and turn > site.ledger.turn and turn >= self.wants.turn
        return False

    def why_behind(self, site: Site, elsewhere: Sequence[Said] = ()) -> Steps[str | None]:
        """Why a site can't go on of which sites elsewhere say this: they have more of it, or sites of this folder have."""
        said = [*elsewhere]
        for other in self.sites.values():
            if other is not site:
                yield Wait(other.tried)
                if other.known.is_set:
                    said.append(said_by(other.ledger, site.number))
                elif kept := (yield KeptOf(other.number, site.number, 0)):      # it can't be started
                    said.append(said_in_packets(other.number, site.number, *kept))
        self.wants.known(max((its.turn for its in said), default=0))
        return _why_behind(site, said)

    def behind(self, site: Site) -> dict[int, int]:
        """How many messages of each other site it hasn't, of those that were sent."""
        def lack(origin: int, have: Prefix) -> int:
            return max(0, self.link.sent(origin) - have.upto)
        return {origin: lack(origin, have) for origin, have in enumerate(site.ledger.have) if origin != site.number}

    def status_of(self, site: Site) -> dict[str, Any]:
        """How a site is, as the others need to know it."""
        ledger = site.ledger
        state = State.WAITING if site.state is State.UP and site.silent and not site.opened.is_set else site.state
        return {"site": site.number, "state": state, "life": life_text(site.lives), "own": ledger.sends.messages, "turn": ledger.turn,
                "has": {str(origin): have.upto for origin, have in enumerate(ledger.have) if origin != site.number},
                "greatest": {str(origin): have.greatest for origin, have in enumerate(ledger.have) if origin != site.number},
                "gave": {str(to): turns for to, turns in enumerate(ledger.gave) if any(turns)},
                "holds_token": ledger.holds_token and site.known.is_set}

    # The token.

    def fetch_token(self, site: Site, seconds: float) -> Steps[bool]:
        """Returns once the site may hold the token; False if that takes longer. It is wanted once for all askers of a site."""
        if site.ledger.holds_token and not site.is_passing:
            return True
        site.token_askers += 1
        try:
            if not site.is_wanting:
                site.is_wanting = True
                self.begin(self._want(site))
            came: bool = yield Wait(site.token_came, seconds)
            return came
        finally:
            site.token_askers -= 1

    def _want(self, site: Site) -> Steps[None]:
        try:
            while site.token_askers and not self.is_leaving and not (site.ledger.holds_token and not site.is_passing):
                yield SayWant(site.number, site.ledger.turn)
                yield Wait(site.token_came, SAY_AGAIN)
        finally:
            site.is_wanting = False

    def hear_want(self, site: int, known: int) -> None:
        """A site, here or elsewhere, wants the token, which it had last at turn `known`."""
        if site in self.sites and self.sites[site].ledger.holds_token and not self.sites[site].is_passing:
            return
        self.wants.hear(site, known, self.now())
        for holder in self.sites.values():
            self.pass_on(holder)

    def pass_on(self, site: Site) -> None:
        """Passes the token on, now or when the holder has had its time, if another site wants it."""
        if not site.ledger.holds_token or site.is_passing or self.is_leaving or not self.may_give(site):
            return
        now = self.now()
        to = self.wants.next(site.number, now)
        if to is None:
            return
        left = site.hold.seconds_left(site.red_askers > 0, now)
        if left <= 0:
            self.wants.drop(to)
            self.pass_to(site, to)
        elif not site.passes_later:
            site.passes_later = True
            self.later(left + 0.001, lambda: self._pass_later(site))

    def pass_to(self, site: Site, to: int) -> Pending:
        site.is_passing = True
        pending, = site.give([b"pass,%d" % to])
        return pending

    def _pass_later(self, site: Site) -> None:
        site.passes_later = False
        self.pass_on(site)

    def where_is_token(self, site: Site) -> Steps[str]:
        if site.ledger.holds_token:
            return "it holds the token, and hasn't all red messages before it"
        holder = self.wants.holder
        said = f"site {holder} has the token (turn {self.wants.turn})"
        if self.link.state != "up":
            return f"{said}, as far as is known: the link is {self.link.state}"
        is_running = yield IsRunning(holder, WHERE_SECONDS)
        return "it isn't known where the token is" if is_running is None else said if is_running else f"{said}, and is not running"

    # A stop.

    def hand_over(self) -> Steps[None]:
        """Passes the token to a site elsewhere that runs, so that red asks go on without the sites here. `stays` says if it doesn't go."""
        if self.wants.holder in self.sites:
            yield SayLeave()        # else it would come back at once to a site here that waits for it
        while (holder := self.sites.get(self.wants.holder)) and not holder.fenced_by:
            self.stays = f"the token stays with site {holder.number}, since no site elsewhere takes it"
            if holder.is_passing or not holder.ledger.holds_token or not self.may_give(holder):
                yield Wait(self.progress)       # it is on its way
                continue
            if not (running := (yield UpElsewhere())):
                return
            to = taker(self.wants.waiting(), (yield from self._turns_at(running, ANSWER_SECONDS)))
            if to is None:
                yield Wait(None, AGAIN_SECONDS)     # one that gave no answer may give one yet, or be started again
                continue
            yield from self._hand_to(holder, to)
        if not holder:
            self.stays = None

    def _hand_to(self, holder: Site, to: int) -> Steps[None]:
        pending, stays = self.pass_to(holder, to), self.stays
        self.stays = f"it isn't known whether the token goes to site {to}, since site {holder.number} doesn't answer"
        yield Wait(pending.done)
        if pending.result().refusal:
            self.stays = stays
            raise Fault(Status.REFUSED, "it was the last turn")
        self.stays = f"the token goes to site {to}, which hasn't taken it yet"
        while (yield from self._turns_at([to], HAND_OVER_SECONDS)).get(to, 0) < holder.ledger.turn:
            yield Wait(None, LOOK_SECONDS)

    def _turns_at(self, sites: Collection[int], seconds: float) -> Steps[dict[int, int]]:
        """The turn of the token that each of some sites elsewhere had last, of those whose supervisors answer, and aren't being stopped."""
        said = yield CallAll({"op": "status"}, list(sites), seconds)
        turns = {}
        for site, answers in said.items():
            shop = answers[-1].get("shop") if answers else None
            if shop and not shop.get("stopping"):
                turns.update({site: one["turn"] for one in shop["site"] if one["site"] == site and "turn" in one})
        return turns


def _why_behind(site: Site, said: Sequence[Said]) -> str | None:
    """Why a site can't go on of which others say this."""
    ledger = site.ledger
    return why_behind(site.number, ledger.sends.messages, said) or why_passed_on(site.number, ledger.turn, ledger.holds_token, said)
