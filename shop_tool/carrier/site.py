"""A site as its supervisor knows it: what it was given and has answered, what its files have, and whether it may be given more."""

import abc
import collections
import enum
import itertools
from collections.abc import Callable, Iterator
from typing import TYPE_CHECKING

from ..ends import Fault, Status
from .answers import Answer, AnswerReader, KeptReader
from .files import Files, Look
from .ledger import Ledger, ReadOut
from .old_keys import OldKeys
from .records import Purpose, Token, bare, text_of, why_not_one_record
from .steps import Flag, Signal, Steps, Wait
from .sums import Sums
from .told import counts_unknown, not_given, not_known
from .turns import Hold

if TYPE_CHECKING:
    from .shop import Shop

FIRST_WAIT, LAST_WAIT = 0.1, 10.0   # seconds until a site that ended is started again: doubled each time
CALM = 30.0                         # seconds after which a site that ends has the first wait again
READ_AGAIN = 1.0                    # seconds until packets that couldn't be read are read again


class State(enum.StrEnum):
    STARTING = "starting"
    UP = "up"
    WAITING = "waiting"     # it is up, and takes no asks until others have said what they have of it
    DOWN = "down"           # it ended, and is started again
    FENCED = "fenced"       # it would give numbers a second time, so it isn't started
    ENDED = "ended"


class Disagreement(Exception):
    """The site's files aren't those that this supervisor knows."""


class Gone(Fault):
    """A site has ended; `unknown` is what is said of a record that it was given and hasn't answered."""

    def __init__(self, why: str, unknown: str | None) -> None:
        self.why, self.unknown = why, unknown
        super().__init__(Status.AWAY, f"{why}; {unknown or not_given()}")


class Pending:
    """One record on its way through a site."""

    __slots__ = ("record", "is_question", "done", "answer", "gone", "is_given", "is_left", "releases", "records")

    def __init__(self, record: bytes) -> None:
        self.record = record
        self.is_question = record.startswith(b"?")      # it isn't kept, and has no number
        self.done = Flag()
        self.answer: Answer | None = None
        self.gone: Gone | None = None
        self.is_given = False       # written to the keeper, so it may be kept
        self.is_left = False        # nobody waits for its answer
        self.releases = 0           # how often the site had released messages when it was answered
        self.records = 0            # how many records it had answered then

    def result(self) -> Answer:
        """Its answer, once it is done."""
        if self.gone:
            raise self.gone
        assert self.answer
        return self.answer


class Site(abc.ABC):
    def __init__(self, shop: "Shop", number: int, read_out: ReadOut, look: Look) -> None:
        self.shop, self.number = shop, number
        self.ledger = Ledger(number, shop.count, read_out)
        self.old_keys, self.sums = OldKeys(), Sums()
        self.files = Files(number, look)
        self.state = State.STARTING
        self.starts = 0
        self.fault: tuple[str, str] | None = None   # the last one: when, and what
        self.faults = 0
        self.fenced_by: str | None = None
        self.is_marked = False                      # its folder says why
        self.line: collections.deque[Pending] = collections.deque()     # the first is answered next
        self.reader = AnswerReader()
        self.lives: list[str] = []                  # of its folder; the last has begun with this supervisor
        self.answered: int | None = None            # how many bytes of `kept` were in the life before, if it is known that they are there
        self.witness: Callable[[int], None] | None = None       # is told how many are
        self.up = Flag()                            # records can be given to it
        self.known = Flag()                         # what it kept before this supervisor has been read
        self.opened = Flag()                        # asks and packets may be given to it
        self.compared = Flag()                      # it has been compared with what the others have of it
        self.silent: list[int] = []                 # sites that have to say first what they have of it
        self.tried = Flag()                         # its first start has succeeded or failed
        self.yields = False                         # a standby may take its place, so ok is told only once a message stands in its stream
        self.hold = Hold()
        self.is_passing = False
        self.gives_soon = False
        self.silent_since: float | None = None      # since when it hasn't answered what it was given
        self.red_askers = 0                         # askers with a record under way that only the holder accepts
        self.token_askers = 0                       # those of them that wait for the token
        self.is_wanting = False                     # it is being said that it wants the token
        self.passes_later = False
        self.token_came, self.released = Signal(), Signal()
        self.releases = 0

    @abc.abstractmethod
    def write(self, data: bytes) -> None:
        """Gives its keeper these bytes."""

    @abc.abstractmethod
    def write_sums(self, lines: bytes) -> None:
        """Writes these lines behind the sums of `kept`, or an OSError."""

    @abc.abstractmethod
    def write_fence(self, text: str) -> None:
        """Writes into its folder why it is stopped."""

    @abc.abstractmethod
    def write_yields(self, yields: bool) -> None:
        """Writes into its folder whether it yields to a standby, or an OSError."""

    @abc.abstractmethod
    def kill(self) -> None:
        """Ends its keeper at once."""

    # Its life.

    def become(self, state: State) -> None:
        self.state = state
        self.shop.changes.tell()

    def next_wait(self, wait: float, ran: float, status: object) -> float:
        """Its keeper has ended, after so many seconds: how long it is until the next start."""
        self.become(State.DOWN)
        wait = FIRST_WAIT if ran > CALM else wait
        self.shop.event(f"site {self.number}: ended with status {status}, is started again in {wait:.1f} s")
        self.tried.set()
        return wait

    def catch_up(self, count: int, next_line: Callable[[], bytes], next_piece: Callable[[], bytes]) -> Steps[None]:
        """Reads on in `kept` and `out` from where this supervisor was, up to so many records. What was kept and not answered in time is
        answered there."""
        given: Iterator[Pending] = iter([pending for pending in self.line if pending.is_given and not pending.is_question])
        self.reader = AnswerReader()
        records = KeptReader(next_line, self.sums.add)
        is_past = not self.known.is_set
        while data := next_piece():
            for answer in self.reader.feed(data):
                record, size = records.next()
                if is_past and self.old_keys:
                    self.old_keys.note(self.ledger.records + 1, record, answer)
                if is_past and self.ledger.note_plain(record, answer, size):
                    continue
                pending = next(given, None)
                if self.known.is_set and (not pending or pending.record != record):
                    raise Disagreement("its file `kept` has other records than it was given")
                self._note(record, answer, size)
                if pending:
                    self._answer(pending, answer)
            self._write_sums()
            yield Wait(None, 0)
        if self.ledger.records != count:
            raise ValueError(f"{count} records are kept, and {self.ledger.records} are answered")
        self.files.read(self.ledger.kept_bytes, self.ledger.out_bytes)
        # What is left wasn't kept, so it is given again, unless nobody waits for it.
        self.line = collections.deque(pending for pending in self.line if not pending.done.is_set and not pending.is_left)

    def come_up(self) -> None:
        """All that it kept is known: it gets what it was given and didn't keep."""
        self.known.set()
        self.silent_since = None
        self.become(State.UP)
        self._write(list(self.line))
        self.up.set()
        self.tried.set()
        self.shop.news.tell()
        self.shop.progress.tell()
        self.shop.pass_on(self)

    def take(self, data: bytes) -> bool:
        """Takes in what its keeper has written; False if that is in no file that anybody finds again."""
        answers = self.reader.feed(data)
        if self.has_lost_files(sum(answer.size for answer in answers if not answer.is_to_question)):
            return False
        for answer in answers:
            if not self.line or self.line[0].is_question != answer.is_to_question:
                raise Disagreement("it answered what it wasn't given")
            pending = self.line.popleft()
            if not pending.is_question:
                self._note(pending.record, answer)
                self.sums.add(pending.record)
            self._answer(pending, answer)
        self._write_sums()
        self.silent_since = self.shop.now() if self.line and self.line[0].is_given else None
        self.shop.pass_on(self)
        return True

    def _write_sums(self) -> None:
        if lines := self.sums.take():
            try:
                self.write_sums(lines)
            except OSError as fault:
                self.sums.is_behind = True
                self.shop.event(f"site {self.number}: its sums can't be written ({fault.strerror}); the next start writes them")

    def note_fault(self, text: str) -> None:
        self.faults += 1
        if not self.fenced_by or text == self.fenced_by:
            self.fault = self.shop.stamp(), text    # what a site says that is stopped for good isn't why
        self.shop.event(f"site {self.number}: {text}")

    def has_lost_files(self, more: int = 0) -> bool:
        """Whether the site is fenced; it is from now on, if its files aren't those any more that it had, `out` with so many bytes more."""
        if not self.fenced_by:
            if why := self.files.why_lost(self.ledger.kept_bytes, self.ledger.out_bytes + more, self.up.is_set):
                self.fence(why)
        return bool(self.fenced_by)

    def sent(self, begin: int, end: int) -> list[bytes]:
        """Packets that it sent, from its file `out`; where that can't be read, the site is fenced, or it is tried again."""
        try:
            return [text for _, text in self.ledger.sends.read(begin, end)]
        except OSError as fault:
            if not self.has_lost_files():
                self.note_fault(f"read out: {fault.strerror}")
                self.shop.later(READ_AGAIN, self.shop.news.tell)
            return []

    def fence(self, text: str, outlasts: bool = False) -> None:
        """Stops the site for good: it would give numbers a second time. What others know may be lost, and what was seen of it `outlasts`
        that: it is written into the folder, so that each later start of it is stopped too."""
        if not self.fenced_by:
            if outlasts:
                self.write_fence(text)
            self.fenced_by, self.is_marked = text, outlasts
            self.note_fault(text)
            self.opened.set()
            self.compared.set()
            self.shop.progress.tell()
            self.kill()

    def doubt(self) -> None:
        """Another process of the site has run, or may run: that its folder has all that it answered itself says no more that nothing is missing,
        so it isn't opened any more where what the others have can't be seen."""
        self.answered = None

    def end(self) -> None:
        """It isn't started again: all who wait are told that no answer comes."""
        self.become(State.FENCED if self.fenced_by else State.ENDED)
        self.tried.set()
        for pending, number in list(self.numbered()):
            if not pending.done.is_set:
                pending.gone = self.gone(number if pending.is_given and not pending.is_question else None)
                pending.done.set()
        self.line.clear()
        self.token_came.tell()
        self.released.tell()

    def gone(self, number: int | None = None) -> Gone:
        """That no answer comes, since the site has ended: to the record of that number, or to one that it isn't given."""
        why = f"site {self.number}: {self.fenced_by or 'the shop is being stopped'}"
        return Gone(why, None if number is None else self.not_known(number))

    def not_known(self, number: int) -> str:
        """What is said of the record of that number, which it was given and hasn't answered."""
        return counts_unknown(self.number) if self.yields else not_known(self.number, number)

    def numbered(self) -> Iterator[tuple[Pending, int]]:
        """Its line, each with which of its records that is: it keeps those that it was given in their order, each as that one or never."""
        number = self.ledger.records
        for pending in self.line:
            number += not (pending.is_question or pending.done.is_set)
            yield pending, number

    # Records.

    def give(self, records: list[bytes], purpose: Purpose = Purpose.ASK) -> list[Pending]:
        """Gives it records, one behind the other. Each is given again when the keeper died before it kept it. What isn't one record would
        shift the answers of all that come after it, so nothing else gets through here."""
        for record in records:
            if why := why_not_one_record(bare(record), purpose):
                raise Fault(Status.MISUSE, f"{text_of(record[:80])!r}: {why}; nothing was asked")
        if self.fenced_by or self.shop.stopping.is_set:
            raise self.gone()
        given = [*map(Pending, records)]
        self.line.extend(given)
        if self.up.is_set and not self.gives_soon:
            self.gives_soon = True          # what comes together is written together
            self.shop.soon(self._give_line)
        return given

    def _give_line(self) -> None:
        self.gives_soon = False
        if self.up.is_set and not self.fenced_by and not self.shop.stopping.is_set:
            self._write([*itertools.takewhile(lambda each: not each.is_given, reversed(self.line))][::-1])

    def leave(self, pending: list[Pending]) -> int | None:
        """Nobody waits for these any more: what wasn't given isn't given. The number of the first that was given and isn't answered."""
        for each in pending:
            each.is_left = True
        self.line = collections.deque(each for each in self.line if each.is_given or not each.is_left)
        return next((number for each, number in self.numbered() if each in pending and not each.done.is_set), None)

    def unanswered(self) -> list[bytes]:
        """The records that the keeper was given and hasn't answered."""
        return [pending.record for pending in self.line if pending.is_given and not pending.done.is_set and not pending.is_question]

    def _write(self, pending: list[Pending]) -> None:
        """Gives the keeper the last records of its line."""
        if not pending:
            return
        self.write(b"".join(each.record + b"\n" for each in pending))
        if self.shop.is_followed(self.number):
            self.shop.tell_followers(self.number, [b"< " + each.record for each in pending if not (each.is_given or each.is_question)])
        for each in pending:
            each.is_given = True
        if self.silent_since is None:
            self.silent_since = self.shop.now()

    @property
    def silent_seconds(self) -> float:
        """How long it hasn't answered what it was given; 0 where it isn't up."""
        return self.shop.now() - self.silent_since if self.up.is_set and self.silent_since is not None else 0.0

    def _note(self, record: bytes, answer: Answer, size: int | None = None) -> None:
        sent = self.ledger.note(record, answer, size)
        if self.witness:
            self.witness(self.ledger.kept_bytes)
        kind = answer.kind
        if isinstance(sent, Token):
            self.is_passing = False
            self.shop.wants.passed(sent.turn, sent.to)
        elif kind == b"holding":
            self.is_passing = False
            self.hold.took()
            self.shop.wants.passed(self.ledger.turn, self.number)
            self.token_came.tell()
        elif kind == b"released":
            self.releases += 1
            self.released.tell()
        elif kind == b"refused" and record.startswith(b"pass,"):
            self.is_passing = False
        if sent:
            self.shop.news.tell()
        self.shop.progress.tell()

    def _answer(self, pending: Pending, answer: Answer) -> None:
        if self.shop.is_followed(self.number) and not pending.is_question:
            self.shop.tell_followers(self.number, [b"> " + line for line in answer.lines])
        pending.releases, pending.records = self.releases, self.ledger.records
        if not pending.done.is_set:
            pending.answer = answer
            pending.done.set()
