"""Runs from the records of a world with their answers."""

from collections.abc import Iterable

from shop_tool.grid import GridRow, waits_of
from shop_tool.carrier.records import line_of
from shop_tool.carrier.release import Release

from .messages import Fault, Fields, Message, Messages, number_at
from .run import Event, Kind, Lane, Run

Said = tuple[Fields, list[Fields]]      # a record with its answers


def world_said(records: list[Fields], rows: Iterable[Fields]) -> list[Said]:
    """Each record of a world with its answers."""
    said: list[Said] = [(record, []) for record in records]
    at = 0
    for row in rows:
        if row[:1] == ["at"] and row[2:3] == ["reply"]:
            at = number_at(row, 3)
        elif row[:1] in (["world"], ["audit"]):
            continue
        if not 0 < at <= len(said):
            raise Fault(f"these aren't the answers to these records: {line_of(row)[:80]}")
        said[at - 1][1].append(row)
    return said


def sites_in(records: Iterable[Fields]) -> int:
    """How many sites the records of a world need."""
    sites = 1
    for fields in records:
        named = [fields[1]] if fields[0] in ("at", "deliver") and len(fields) > 1 else []
        named += [fields[3]] if fields[2:3] == ["pass"] and len(fields) == 4 else []
        sites = max([sites, *(int(name) + 1 for name in named if name.isdecimal() and len(name) < 3)])
    return min(sites, 16)


class WorldReader:
    """Follows a world record by record."""

    def __init__(self, sites: int) -> None:
        self.messages = Messages(sites)
        self.states: list[Release[Message]] = [Release(sites) for _ in range(sites)]
        self.packets: list[tuple[Fields, Event]] = []
        self.made: dict[Message, Event] = {}
        self.events: list[Event] = []
        self.holder: int | None = 0
        self.place = 0

    def add(self, lane: int, kind: Kind, message: Message | None = None, text: str = "", after: Event | None = None) -> Event:
        event = Event(lane, kind, message, text, self.place)
        if after:
            event.after.append(after)
        self.events.append(event)
        return event

    def read(self, record: Fields, rows: list[Fields]) -> None:
        """Takes in a record with its answers."""
        self.place += 1
        reply = next((row for row in rows if row[2:3] == ["reply"]), None)
        if reply is None or len(reply) < 5:
            return
        lane, answer = number_at(reply, 1), reply[4]
        if lane >= len(self.states):
            raise Fault(f"there is no site {lane}")
        sent: Fields = next((row[3:] for row in rows if row[2:3] == ["send"]), [])
        if answer == "refused":
            self.add(lane, Kind.REFUSED, None, f"{reply[-1]}: {line_of(record)}")
        elif answer in ("ok", "passed"):
            self._sends(lane, sent)
        elif answer in ("held", "released", "holding"):
            self._takes(lane, record, reply)

    def _sends(self, lane: int, sent: Fields) -> None:
        if sent[:1] == ["token"]:
            self.packets.append((sent, self.add(lane, Kind.PASSED)))
            self.holder = None
            return
        message = self.messages.read(sent)
        self.made[message] = self.add(lane, Kind.MADE, message)
        self.packets.append((sent, self.made[message]))
        self._released(lane, self.states[lane].made(message))

    def _takes(self, lane: int, record: Fields, reply: Fields) -> None:
        at = number_at(record, 2) - 1
        if not 0 <= at < len(self.packets):
            raise Fault(f"there is no packet {record[2]}")
        packet, source = self.packets[at]
        if reply[4] == "holding":
            self.add(lane, Kind.HOLDING, after=source)
            self.holder = lane
            return
        message = self.messages.read(packet)
        released = self.states[lane].arrive(message)
        if len(released) != (number_at(reply, 5) if reply[4] == "released" else 0):
            raise Fault(f"not what a site answers: {line_of(reply)}")
        if reply[4] == "held":
            self.add(lane, Kind.HELD, message, after=source)
        self._released(lane, released)

    def _released(self, lane: int, messages: list[Message]) -> None:
        for message in messages:
            self.add(lane, Kind.RELEASED, message, after=self.made[message])


def run_of_world(sites: int, said: Iterable[Said]) -> Run:
    reader = WorldReader(sites)
    for record, rows in said:
        reader.read(record, rows)
    lanes = [Lane(site, f"site {site}") for site in range(sites)]
    run = Run(sites, lanes, reader.events, first_holder=0)
    run.rows = [
        GridRow(site, tuple(state.counts), waits_of(state), len(state.waiting), reader.holder == site)
        for site, state in enumerate(reader.states)]
    return run
