"""The steps that the machines of the carrier want done, each by the name that the model has for it, and what they wait for."""

from collections.abc import Callable, Generator, Sequence
from typing import Any, NamedTuple, TypeVar

from .ledger import Place

Result = TypeVar("Result")
Steps = Generator[tuple[Any, ...], Any, Result]
Packets = list[tuple[Place, bytes]]


class Broken(Exception):
    """A step over the server that failed: it may have been done or not."""


class Signal:
    """Wakes all who wait for it, each time it is told."""

    is_set = False

    def __init__(self) -> None:
        self._waiters: dict[Callable[[], None], None] = {}

    def tell(self) -> None:
        if self._waiters:
            waiters, self._waiters = self._waiters, {}
            for wake in waiters:
                wake()

    def add(self, wake: Callable[[], None]) -> None:
        """Has this called the next time that it is told."""
        self._waiters[wake] = None

    def discard(self, wake: Callable[[], None]) -> None:
        self._waiters.pop(wake, None)


class Flag(Signal):
    """One that stays told until it is taken back."""

    def set(self) -> None:
        self.is_set = True
        self.tell()

    def clear(self) -> None:
        self.is_set = False


class StreamState(NamedTuple):
    """A stream that was only appended to has as many entries as were sent up to its last one, which is its greatest."""

    entries: int
    last: Place
    packet: bytes
    greatest: Place
    life: str
    standby: str = ""       # who stands by for its site
    yields: str = ""        # the life of its site that said last that it yields to a standby


class Page(NamedTuple):
    """Some entries of a stream, one behind the other."""

    entries: int
    last: Place
    hash: bytes
    tokens: list[bytes]


class Wait(NamedTuple):
    """Until the signal is told; False if that takes longer. Without a signal for this time."""

    signal: Signal | None
    seconds: float | None = None


class Say(NamedTuple):
    """An asker is told the answer to a record, which may be under a key."""

    record: bytes
    answer: Any


# A turn of the token is asked for: all supervisors hear it.
SayWant = NamedTuple("SayWant", [("site", int), ("known", int)])

# All supervisors hear that no site here wants the token any more.
SayLeave = NamedTuple("SayLeave", [])

# What the supervisors of some sites elsewhere answer to a request, of those that answer in time.
CallAll = NamedTuple("CallAll", [("request", dict[str, Any]), ("sites", Sequence[int]), ("seconds", float)])

# Whether a site is up, on whichever machine; None if that isn't known in time.
IsRunning = NamedTuple("IsRunning", [("site", int), ("seconds", float)])

# The sites that other supervisors say are up.
UpElsewhere = NamedTuple("UpElsewhere", [])

# The messages of a site above a number that stand in the file `kept` of another one here, each with its number, all tokens that stand
# there, and those that this one passed on to the first: a Kept; None if there is no such file.
KeptOf = NamedTuple("KeptOf", [("keeper", int), ("origin", int), ("after", int)])

Kept = tuple[list[tuple[int, bytes]], list[bytes]]

# All that stands in the file `out` of a site here, with its places.
SentHere = NamedTuple("SentHere", [("site", int)])

# A fresh site beside a folder here is given records, and sends the same packets again.
Replay = NamedTuple("Replay", [("site", int), ("records", list[Any])])

# Puts that site's folder in the place of the one here, which is kept if it has records, and of every one that was started so many
# times, or fewer.
Swap = NamedTuple("Swap", [("site", int), ("starts", int)])

# Has a site's folder here take the place of every one that was started so many times, or fewer; what it was stopped for is over.
TakePlace = NamedTuple("TakePlace", [("site", int), ("starts", int)])

# Over files: the life of a site that the others saw last.
SeenHere = NamedTuple("SeenHere", [("site", int)])

# Over files: writes down the life of a site.
SeeHere = NamedTuple("SeeHere", [("site", int), ("life", str)])

# Makes the connection to the server, anew if there was one.
Connect = NamedTuple("Connect", [])

# How the stream of a site is: a StreamState.
State = NamedTuple("State", [("site", int)])

# Which folder has a site, and where that is; empty if none has it.
Owner = NamedTuple("Owner", [("site", int)])

# How many sites the shop on the server has, by whoever came first; that is this folder's number, if nobody came before.
Sites = NamedTuple("Sites", [("count", int)])

# Gives a site to its folder here, or to the fresh one beside it; False if another folder than `before` has it now, or another life than
# `life` was seen last, as of a standby that has taken its place. Only once the folder's life says that it yields does a standby do that.
Adopt = NamedTuple("Adopt", [("site", int), ("before", str), ("is_fresh", bool), ("life", str)])

# The statuses of all sites that run.
Statuses = NamedTuple("Statuses", [])

# Writes statuses of sites; how many messages each stream has, its mark, and the sites whose machines haven't said yet that they know keys.
Tell = NamedTuple("Tell", [("statuses", dict[int, dict[str, Any]])])

# Writes down the life of a site's folder; False if another was since `before` was, its stream ends elsewhere, or another folder than `own` has it.
SeeLife = NamedTuple("SeeLife", [("site", int), ("before", str), ("life", str), ("last", Place), ("own", str)])

# Appends packets behind the entry `last`; False if that isn't the last one, or the life that was seen last isn't this one, if one is named.
Append = NamedTuple("Append", [("site", int), ("last", Place), ("packets", Packets), ("life", str)])

# Puts a stream with these packets in place of the site's stream, at once; False if the life that was seen last isn't this one, if one is
# named. Whoever said that it yields to a standby has to say so again.
Rewrite = NamedTuple("Rewrite", [("site", int), ("packets", Packets), ("life", str)])

# Says that this supervisor stands by for a site.
StandBy = NamedTuple("StandBy", [("site", int)])

# Says which life of a site yields to a standby, or with none that none does; False if it isn't `before` any more that was said last.
SayYields = NamedTuple("SayYields", [("site", int), ("before", str), ("life", str)])

# Has the fresh folder beside a site's folder here take the place of a site that runs nowhere; False if its stream has another last entry,
# or the life that was seen last isn't this one, or doesn't yield.
TakeOver = NamedTuple("TakeOver", [("site", int), ("life", str), ("last", Place)])


class PageOf(NamedTuple):
    """The next entries of a stream after a place as a Page, up to another place or the end."""

    site: int
    after: Place
    upto: Place | None = None


class Entries(NamedTuple):
    """The same entries themselves."""

    site: int
    after: Place
    upto: Place | None = None


# The mark of each stream: while it is the same, entries came in at the end only.
Marks = NamedTuple("Marks", [])

# What sites sent after these places; waits some time if there is nothing.
Read = NamedTuple("Read", [("after", dict[int, Place]), ("most", int), ("seconds", float)])

# What supervisors said after a place in the stream of wants; waits some time if there is nothing.
Hear = NamedTuple("Hear", [("after", bytes)])

Mark = bytes | None
