"""An asker's records at a site: the token is fetched for those that need it, and each ask is with the site once at most."""

from collections.abc import Sequence

from ..ends import Fault, Status
from .answers import Answer
from .records import RED, UNDECIDED, Message, key_in, kind_of, packet_of
from .site import Gone, Pending, Site, State
from .steps import Say, Steps, Wait
from .told import counts_unknown, not_given

WINDOW = 64         # how many records of one asker are with the site at once, where that changes no answer
ASK_AGAIN = 1.0     # seconds


class Ask:
    """One asker. Records are asked one behind the other, and each answer is said."""

    def __init__(self, site: Site, seconds: float, fetches_token: bool, published: bool = False) -> None:
        self.site, self.seconds, self.fetches_token = site, seconds, fetches_token
        self.published = published      # ok is said only once the message is where the others find it, so that the loss of this disk keeps it
        self.until = site.shop.now() + seconds
        self.records: Sequence[bytes] = ()
        self.answered = 0
        self.was_refused = False        # the record that is asked was answered NoToken or RedBehind

    @property
    def left(self) -> float:
        return max(self.until - self.site.shop.now(), 0.001)

    def run(self, records: list[bytes]) -> Steps[None]:
        """Asks them all. A Fault says what is known of the rest when the time is over, or the site is gone."""
        self.records = records
        if not self.site.opened.is_set and not (yield Wait(self.site.opened, self.left)):
            if not self.site.up.is_set:
                raise self._no_answer(None)
            raise Fault(Status.AWAY, f"site {self.site.number}: it isn't known yet what the others have of it "
                        f"({self.site.shop.link.state}); {self._not_given()}")
        try:
            while (at := self.answered) < len(records):
                if answer := self._answer_of_before(records[at]):
                    yield from self._say(records[at], answer)
                else:
                    yield from self._ask(records[at:self._window_end(records, at)])
        except Gone as gone:
            raise Fault(gone.status, f"{gone.why}; {gone.unknown or self._not_given()}") from None

    def _answer_of_before(self, record: bytes) -> Answer | None:
        """What a version of before, which wrote keys down beside the site, has answered under its key."""
        return self.site.old_keys.answer(record, self.site.shop.unix_time()) if self.site.old_keys else None

    def _window_end(self, records: list[bytes], at: int) -> int:
        """Several are given at once only where none can be answered NoToken or RedBehind, after which it is asked again."""
        site = self.site
        any_kind = not self.fetches_token or (site.ledger.holds_token and not site.is_passing and site.hold.used_since is not None)
        end = at + 1
        while end < len(records) and end - at < WINDOW and (any_kind or not {kind_of(records[end]), kind_of(records[end - 1])} & RED):
            if self._answer_of_before(records[end]):
                break
            end += 1
        return end

    def _ask(self, window: list[bytes]) -> Steps[None]:
        site = self.site
        if any(map(key_in, window)):
            yield from self._all_know_keys()
        is_red = any(kind_of(record) in RED for record in window)
        site.red_askers += is_red
        try:
            self.was_refused = False
            pending = yield from self._asked(window)
            while is_red and self.fetches_token and len(pending) == 1 and not (yield from self._is_settled(pending[0])):
                self.was_refused = True
                pending = yield from self._asked(window)
            if is_red and site.ledger.holds_token:
                site.hold.used(site.shop.now())
            yield from self._say_all(pending)
        finally:
            site.red_askers -= is_red
            site.shop.pass_on(site)

    def _all_know_keys(self) -> Steps[None]:
        """Returns once it is known that all machines of the shop know keys: on one of before no packet with a key gets any further."""
        shop = self.site.shop
        while (lacking := shop.link.without_keys if shop.knows_keys else [self.site.number]) is None:
            if not (yield Wait(shop.progress, self.left)):
                raise Fault(Status.AWAY, f"site {self.site.number}: it isn't known yet whether all machines know keys ({shop.link.state}); "
                            f"{self._not_given()}")
        if lacking:
            raise Fault(Status.AWAY, f"site {self.site.number} takes no keys until each machine has said that it knows them, and of site "
                        f"{', '.join(map(str, lacking))} none has: upgrade shop and rubis on every machine, and start it; {self._not_given()}")

    def _say_all(self, answered: list[Pending], are_more: bool = False) -> Steps[None]:
        """Says the answers of records that were given at once, of all or of the first ones."""
        for at, each in enumerate(answered):
            yield from self._say(each.record, each.result(), is_last=at == len(answered) - 1 and not are_more)

    def _say(self, record: bytes, answer: Answer, is_last: bool = True) -> Steps[None]:
        if self.site.yields or self.published and (answer.packet or answer.kind == b"again"):
            yield from self._stands(answer, is_last)
        yield Say(record, answer)
        self.answered += 1

    def _stands(self, answer: Answer, is_last: bool) -> Steps[None]:
        """Returns once what the site had sent by this answer is where the others find it. Where a standby takes its place nothing else counts,
        so that no refusal may rest on it either, nor what is answered again."""
        site, sends = self.site, self.site.ledger.sends
        packet = packet_of(answer.packet) if answer.packet else None
        count = sends.count_upto((packet.number, 0)) if isinstance(packet, Message) else len(sends)
        while site.shop.link.published(site) < count:
            if site.fenced_by or not (yield Wait(site.shop.progress, self.left)):
                raise Fault(Status.AWAY, f"site {site.number}: {self._not_published(answer, is_last)}")

    def _not_published(self, answer: Answer, is_last: bool) -> str:
        """Why an answer isn't said that a site gave, and what is known of its record, and of those that were given behind it if it isn't the
        last one."""
        late = f"not published within {self.seconds:g} s ({self.site.shop.link.state})"
        if not self.site.yields:
            return f"accepted here as {answer.head[3].decode()}, and {late}"
        why = self.site.fenced_by or f"it has a standby, and what it sent before its answer is {late}"
        return f"{why}; {not_given(was_refused=True) if answer.refusal and is_last else counts_unknown(self.site.number)}"

    def _asked(self, window: list[bytes]) -> Steps[list[Pending]]:
        """Gives these records and waits for their answers, which come in their order."""
        pending = self.site.give(window)
        try:
            if (yield Wait(pending[-1].done, self.left)) or pending[-1].done.is_set:
                return pending
        except GeneratorExit:
            self.site.leave(pending)
            raise
        given = self.site.leave(pending)
        yield from self._say_all([each for each in pending if each.done.is_set], are_more=True)
        raise self._no_answer(given)

    def _no_answer(self, given: int | None) -> Fault:
        """That none came in time, where the record of that number was given, or none was."""
        site = self.site
        why = f" ({site.fault[1]})" if site.state != State.UP and site.fault else ""
        what = self._not_given() if given is None else site.not_known(given)
        return Fault(Status.AWAY, f"site {site.number} is {site.state}{why}: no answer within {self.seconds:g} s; {what}")

    def _not_given(self) -> str:
        """What is said of the records that this asker hasn't given: the first of them may have been asked under its key before."""
        return not_given(self.answered, self.was_refused, any(map(key_in, self.records[self.answered:self.answered + 1])))

    def _is_settled(self, pending: Pending) -> Steps[bool]:
        """False once what it was refused for may have changed: the token came, or the red messages before it did."""
        site, refusal = self.site, pending.result().refusal
        if refusal not in UNDECIDED:
            return True
        waiting = site.shop.fetch_token(site, self.left) if refusal == "NoToken" else self._red_messages(pending.releases)
        if not (yield from waiting):
            yield from self._say(pending.record, pending.result())
            where = yield from site.shop.where_is_token(site)
            raise Fault(Status.AWAY, f"site {site.number}: {where}; not accepted within {self.seconds:g} s")
        return False

    def _red_messages(self, releases: int) -> Steps[bool]:
        """Waits for a release after the answer, and until all red messages before the token are here; False if that takes too long."""
        site = self.site
        while site.releases <= releases or site.ledger.red.upto < site.ledger.issued:
            # What an own ask releases isn't told, so it is asked again at times.
            if not (yield Wait(site.released, min(self.left, ASK_AGAIN))):
                if site.shop.now() >= self.until:
                    return False
                if site.ledger.red.upto >= site.ledger.issued:
                    return True
        return True
