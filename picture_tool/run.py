"""A run to be drawn: its lanes, and what happened in them; and the part of it that is drawn."""

import bisect
import dataclasses
import enum

from shop_tool.grid import GridRow

from .messages import Fault, Message


class Kind(enum.StrEnum):
    MADE = "made"               # the message comes from here
    RELEASED = "released"       # it came from elsewhere, and is in the log
    HELD = "held"               # it arrived, and waits
    REFUSED = "refused"
    PASSED = "passed"           # the token goes
    HOLDING = "holding"         # the token comes


LOGGED = (Kind.MADE, Kind.RELEASED)


class Event:
    """Something in a lane. `place` is the number of its record, or of its entry in a log; `after` is what it comes from."""

    __slots__ = ("lane", "kind", "message", "text", "after", "place")

    def __init__(self, lane: int, kind: Kind, message: Message | None = None, text: str = "", place: int = 0) -> None:
        self.lane, self.kind, self.message, self.text, self.place = lane, kind, message, text, place
        self.after: list[Event] = []


@dataclasses.dataclass
class Lane:
    site: int
    name: str


@dataclasses.dataclass
class Run:
    """`events` are in an order in which each stands behind what it comes from, as far as there is one."""

    sites: int
    lanes: list[Lane]
    events: list[Event]
    first_holder: int | None = None     # the lane that has the token at the start, if it is drawn
    rows: list[GridRow] = dataclasses.field(default_factory=list)   # how each known site ended
    divergence: "Divergence | None" = None

    def log(self, lane: int) -> list[Event]:
        """What a lane's site released, in its order."""
        return [event for event in self.events if event.lane == lane and event.kind in LOGGED]

    def sent(self) -> tuple[int, ...]:
        """How many messages of each site are known to be made."""
        sent = [0] * self.sites
        for message in {event.message for event in self.events if event.message}:
            sent[message.origin] = max(sent[message.origin], message.number)
            for site, count in enumerate(message.deps[: self.sites]):
                sent[site] = max(sent[site], count)
        return tuple(sent)


@dataclasses.dataclass
class Spot:
    """A place that a verdict is about: a log, its entry from 1, and what is drawn there."""

    lane: int
    entry: int
    event: Event | None


@dataclasses.dataclass
class Divergence:
    """What an auditor found: the fault, the other version of the entry, and the last message that the two logs have in common."""

    kind: str
    why: str
    at: Spot
    other: Spot | None = None
    common: Event | None = None


def column_behind(event: Event, columns: dict[Event, int], last: int) -> int:
    """The first column behind the last one of the event's lane, and behind what it comes from."""
    for before in event.after:
        last = max(last, columns.get(before, 0))
    return last + 1


def in_order(rows: list[list[Event]]) -> list[Event]:
    """The events of lanes, each of which is in order: by column, so that what is concurrent stands side by side."""
    columns: dict[Event, int] = {}
    last, next_of = [0] * len(rows), [0] * len(rows)
    left = sum(map(len, rows))

    def place(lane: int) -> None:
        event = rows[lane][next_of[lane]]
        last[lane] = column_behind(event, columns, last[lane])
        columns[event] = last[lane]
        next_of[lane] += 1

    while len(columns) < left:
        before = len(columns)
        for lane, row in enumerate(rows):
            while next_of[lane] < len(row) and all(other in columns for other in row[next_of[lane]].after):
                place(lane)
        if len(columns) == before:      # logs with faults may allow no order
            place(next(lane for lane, row in enumerate(rows) if next_of[lane] < len(row)))
    return sorted(columns, key=lambda event: (columns[event], event.lane))


# The part that is drawn.


@dataclasses.dataclass
class View:
    """A part of a run: its events with their columns, the lanes that they are in, and how many of each lane are left out at both sides."""

    run: Run
    events: list[Event]
    columns: dict[Event, int]
    lanes: list[int]
    before: dict[int, int]
    after: dict[int, int]
    begin: int = 0
    end: int = 0

    @property
    def is_whole(self) -> bool:
        return len(self.events) == len(self.run.events)


def view_of(run: Run, begin: int = 0, end: int | None = None) -> View:
    """The events from one place to another, in columns of their own."""
    end = len(run.events) if end is None else end
    events = run.events[begin:end]
    before = {lane: 0 for lane in range(len(run.lanes))}
    after = dict(before)
    for event in run.events[:begin]:
        before[event.lane] += 1
    for event in run.events[end:]:
        after[event.lane] += 1
    columns: dict[Event, int] = {}
    last = [0] * len(run.lanes)
    for event in events:
        last[event.lane] = column_behind(event, columns, last[event.lane])
        columns[event] = last[event.lane]
    faulted = {run.divergence.at.lane} if run.divergence else set()
    return View(run, events, columns, sorted({event.lane for event in events} | faulted), before, after, begin, end)


def made_places(run: Run) -> list[int]:
    return [at for at, event in enumerate(run.events) if event.kind is Kind.MADE]


def last_of(run: Run, count: int) -> View:
    """The view of the last `count` messages, from where the first of them was made."""
    places = made_places(run)
    return view_of(run, places[-count] if 0 < count <= len(places) else 0)


def around(run: Run, lane: int, entry: int, each: int = 8) -> View:
    """An entry of a log, with `each` messages before it and after it."""
    if not 0 <= lane < len(run.lanes):
        raise Fault(f"there is no log {lane + 1}")
    log = run.log(lane)
    if not 0 < entry <= len(log):
        raise Fault(f"log {lane + 1} has no entry {entry}")
    return around_place(run, run.events.index(log[entry - 1]), each)


def around_place(run: Run, at: int, each: int = 8) -> View:
    places = made_places(run)
    middle = bisect.bisect_left(places, at)
    begin = places[max(0, middle - each)] if places else 0
    last = middle + each
    return view_of(run, min(begin, at), places[last] + 1 if last < len(places) else None)


def between(run: Run, one: str, other: str) -> View:
    """From where the one message was made to the last that is known of the other, or the other way round."""
    places: dict[str, list[int]] = {one: [], other: []}
    for at, event in enumerate(run.events):
        if event.message and event.message.id in places:
            places[event.message.id].append(at)
    for name, found in places.items():
        if not found:
            raise Fault(f"there is no message {name}")
    first, last = sorted(places.values())
    return view_of(run, first[0], max(first[-1], last[-1]) + 1 if first is last else last[-1] + 1)
