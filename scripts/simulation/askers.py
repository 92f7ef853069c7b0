"""Askers: what they ask, of whom, and what they were told."""

import functools
import random
import re
from collections.abc import Callable
from typing import TYPE_CHECKING, Any

from shop_tool.carrier.records import RED, UNDECIDED, bytes_of, kind_of, text_of, under
from traffic import Dice, Fields

from .world import SimulatedSite, Supervisor, Violation, heard

if TYPE_CHECKING:
    from .clock import Task
    from .world import World

KEYED_TRIES = 4         # how often one asks again once it was accepted; three times as often before
KEYS = 8                # how many keys there are for blue asks at one site; red asks are under any of them
MARGIN = 2.0            # as the client's: seconds beyond its time-out that a request has
# What a fault says of the records behind those that were answered: the first of these that it has.
SAID = {"may still be accepted": "unknown", "isn't known": "unknown", "nothing was given to it": "not-given", "nothing more was given to it": "not-given",
        "nothing was asked": "not-given", "not accepted": "not-accepted", "published": "unknown", "accepted here": "unknown"}
WORDS = {"ok": "TellsOk", "unknown": "TellsUnknown", "not-given": "TellsNothing", "not-accepted": "TellsNothing", "refused": "TellsNo"}
NUMBER = re.compile(r"may still be accepted, as record ([0-9]+) of")


class Told:
    """What an asker was told of one record: an answer, that it isn't accepted, or that this isn't known, and maybe which record of its site it
    is if it is accepted."""

    def __init__(self, site: int, record: bytes, what: str, id: tuple[int, int] | None = None, number: int | None = None) -> None:
        self.site, self.record, self.what, self.id, self.number = site, record, what, id, number

    @classmethod
    def of_answer(cls, site: int, record: bytes, line: str) -> "Told":
        """What an answer says. One that a request ends with, since the token didn't come, is no acceptance either."""
        head = line.split(",")
        if head[2] not in ("ok", "again"):
            return cls(site, record, "refused")
        origin, number = map(int, head[3].split("."))
        return cls(site, record, "ok", (origin, number))


class Asker:
    """One request of a client, and what came of it."""

    def __init__(self, world: "World", supervisor: Supervisor | None, site: int, records: list[bytes], seconds: float,
                 published: bool, key: str | None = None, on_end: Callable[[], None] = lambda: None) -> None:
        self.key, self.on_end = key, on_end
        self.world, self.supervisor, self.site, self.records, self.seconds = world, supervisor, site, records, seconds
        self.answers: list[dict[str, Any]] = []
        self.told: list[Told] = []
        self.is_over = False
        self.published, self.server_times = published, world.server.times
        self.task: "Task | None" = None
        for _ in records if key is None else ():
            world.note("IsAsked")
        if not supervisor or not supervisor.is_alive:
            self._end([{"end": True, "fault": "not running; nothing was asked"}])
            return
        self.request = {"op": "ask", "site": site, "records": [text_of(record) for record in records], "timeout": seconds, "fetch": True,
                        "published": published, "keys": [key] if key else None}
        self.task = supervisor.spawn(supervisor.serve(self.request, self.answers), self._ended, functools.partial(heard, self.answers))
        world.clock.after(seconds + MARGIN, self._unknown)

    def look(self) -> None:
        """Sees whether the supervisor has gone."""
        if self.supervisor and not self.supervisor.is_alive:
            self._unknown()

    def leave(self) -> None:
        """The client goes away; what it isn't told it doesn't know."""
        if not self.is_over and self.task:
            self.task.cancel()
            self._unknown()

    def _ended(self, said: Any, fault: Exception | None) -> None:
        if fault:
            raise fault
        if not self.is_over:
            self._end(self.answers)

    def _unknown(self) -> None:
        if not self.is_over:
            self._end([*self.answers, {"end": True, "fault": "whether it was accepted isn't known"}])

    def _end(self, answers: list[dict[str, Any]]) -> None:
        self.is_over = True
        records = iter(self.records)
        last = ""
        for answer in answers:
            if "record" in answer:
                record = next(records, None)
                if record != bytes_of(answer["record"]):
                    raise Violation(f"the answer to {answer['record']!r} came where {record!r} was asked")
                self.told.append(Told.of_answer(self.site, self._as_asked(record), answer["lines"][0]))
            else:
                last = answer.get("fault", "")
        found = NUMBER.search(last)
        what = next((what for words, what in SAID.items() if words in last), None)
        for at, record in enumerate(records):
            if not what:
                raise Violation(f"an asker isn't told what came of a record: {last or 'there is neither an answer nor a fault'}")
            self.told.append(Told(self.site, self._as_asked(record), what, number=int(found[1]) + at if found else None))
        here = self.supervisor.sites.get(self.site) if self.supervisor else None
        if here and self.published and not last:
            self._look_at_published(here)
        if self.key is None:
            note_told(self.world, self.told)
        self.on_end()

    def _as_asked(self, record: bytes) -> bytes:
        return under(self.key.encode(), record) if self.key else record

    def _look_at_published(self, here: SimulatedSite) -> None:
        """What was accepted is where the others find it, unless the server lost something meanwhile; of what is answered again, before."""
        world = self.world
        texts = {world.text_of.get(told.record, told.record) for told, answer in zip(self.told, self.answers) if ",ok," in answer["lines"][0]}
        if world.is_over_server:
            found = {text for stream in world.server.streams for _, text in stream.entries}
            if world.server.times != self.server_times:
                return
        else:
            found = {line[:-1] for site in here.shop.sites.values() for line in site.folder.lines("kept")}      # its own has none that it sent
        if not texts <= found and here.folder.is_whole and len(here.shop.sites) > 1 - world.is_over_server:
            raise Violation(f"{sorted(texts - found)} were told published, and nobody else has them")


def note_told(world: "World", told: list[Told]) -> None:
    for one in told:
        world.note(WORDS[one.what])


class KeyedAsker:
    """Asks one record under a key, again and again until it is accepted, and then some times more: it always gets the id that it got. What is red
    it asks of any site. Others may ask something else under that key."""

    def __init__(self, world: "World", at: Callable[[], Supervisor | None], site: int, record: bytes, dice: random.Random) -> None:
        self.world, self.at, self.site, self.record, self.dice = world, at, site, record, dice
        self.is_red = kind_of(record) in RED
        self.key = f"key, {dice.randrange(world.sites) if self.is_red else site}.{dice.randrange(KEYS)}"
        self.line = under(self.key.encode(), record)
        self.first: Told | None = None          # that it is accepted
        self.told: list[Told] = []              # what it knows at last
        self.wrong: str | None = None           # what it was told otherwise, though nothing was lost that it knows of
        self.tries = 0
        world.note("IsAsked")
        self._ask()

    @property
    def is_over(self) -> bool:
        return bool(self.told)

    def look(self) -> None:
        self.asker.look()

    def leave(self) -> None:
        self.asker.leave()

    def _ask(self) -> None:
        self.tries += 1
        self.world.note("asked-by-key" if self.tries == 1 else "asked-again")
        site = self.dice.randrange(self.world.sites) if self.is_red and self.dice.random() < 0.5 else self.site
        seconds = self.dice.choice([0.05, 0.1, 0.5, 3.0, 10.0])
        is_published = self.dice.random() < 0.15
        self.asker = Asker(self.world, self.at(), site, [self.record], seconds, is_published, self.key, lambda: self.world.clock.soon(self._ended))
        if self.dice.random() < 0.1:
            self.world.clock.after(self.dice.random() * 0.1, self.asker.leave)

    def _ended(self) -> None:
        told, = self.asker.told
        if self.first and self._is_another(told):
            self.wrong = f"{self.line!r} was accepted as {self.first.id}, and then answered {self.asker.answers}"
        if told.what == "ok":
            self.first = self.first or told
        if self.tries < (KEYED_TRIES if self.first else 3 * KEYED_TRIES) and not self.world.is_calm:
            return self.world.clock.after(self.dice.choice([0.0, 0.05, 0.5, 3.0]), self._ask)
        self.told = [self._last()]
        note_told(self.world, self.told)

    def _is_another(self, told: Told) -> bool:
        """Whether that can't be told of an ask that was accepted: another id, or a refusal that says more than that a site doesn't know it yet."""
        assert self.first
        if told.what == "refused":
            head = str(self.asker.answers[0]["lines"][0]).split(",")
            return head[4] not in (*UNDECIDED, "Full") and told.site not in self.world.taken_over and not self._is_lost()
        return told.what == "ok" and told.id != self.first.id and not self._is_lost()

    def _is_lost(self) -> bool:
        """Whether the message is lost that it was told."""
        assert self.first and self.first.id
        text = self.world.made.get(self.first.id)
        return text is None or self.world.is_gone(text)

    def _last(self) -> Told:
        """What it knows at last. A try that failed, or was refused, says nothing of the others."""
        if self.first and not self._is_lost():
            return self.first
        return self.asker.told[0] if self.tries == 1 else Told(self.site, self.line, "unknown")


class Unique(Fields):
    """Draws asks of which each is another one, by its number, but for closes."""

    SHARES = {"user": 10, "item": 10, "bid": 3}
    NUMBERS = Fields.NUMBERS | {"category": (0, 8), "start": (1, 5)}

    def __init__(self, dice: Dice, sites: int) -> None:
        super().__init__(dice)
        self.sites, self.number = sites, 0

    def id(self) -> str:
        return f"{self.dice.below(self.sites)}.{1 + self.dice.below(6)}"

    user = other = seller = item = id

    def nickname(self) -> str:
        return f"u{self.number}"

    def name(self) -> str:
        return f"n{self.number}"

    def stock(self) -> int:
        return 1_000_000 if self.dice.often(0.5) else 1

    def price(self) -> int:
        return 5 * self.dice.below(2)

    def amount(self) -> int:
        return self.number + 1

    quantity = amount


def asked(dice: random.Random, number: int, sites: int, before: set[bytes]) -> list[bytes]:
    """What an asker asks: records that nobody has asked before, and some that no site may be given."""
    fields, made = Unique(Dice(dice.random()), sites), list[bytes]()
    for at in range(dice.choice([1, 1, 1, 1, 2, 3])):
        fields.number = number * 10 + at
        drawn = dice.choices([fields.any_ask(), f"user,U{fields.number}", f"item,0.1,n{fields.number}"], [23, 1, 1])[0].encode()
        made.append(drawn if drawn not in before else b"user,u%d" % fields.number)
    before.update(made)
    if dice.random() < 0.06:
        made[dice.randrange(len(made))] = dice.choice([
            b"", b"user,a%d\nuser,b%d" % (number, number), b"user,q%d\r" % number, b"\xefuser,e%d" % number, b'user,"q%d' % number,
            b"msg,1,0,1,1,%b,user,m%d" % (b":".join([b"0"] * sites), number), b"token,1,9,%d,9" % dice.randrange(sites)])
    return made
