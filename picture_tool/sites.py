"""Runs from the recordings of sites: what each was given, and what it answered."""

import dataclasses
import json
import os
from collections.abc import Iterable

from shop_tool.grid import GridRow, waits_of
from shop_tool.carrier.records import line_of
from shop_tool.carrier.release import Release
from shop_tool.times import changed

from .messages import Fault, Fields, Message, Messages, number_at, records_of
from .run import Divergence, Event, Kind, Lane, Run, Spot, in_order


@dataclasses.dataclass
class Recording:
    """What a site was given, and its answers. `last` is when it wrote the last one; site and sites may not be known."""

    name: str
    records: list[Fields]
    answers: list[Fields]
    site: int | None = None
    sites: int | None = None
    last: str | None = None


def whole_lines(path: str) -> str:
    """A file up to its last line end: what is behind that is being written, or torn."""
    with open(path, "rb") as file:
        text = file.read().decode("utf-8", "replace")
    return text[: text.rfind("\n") + 1]


def is_site_folder(path: str) -> bool:
    return os.path.isfile(f"{path}/kept") and os.path.isfile(f"{path}/out")


def site_folders(path: str) -> list[str]:
    """The folders of sites that a path is or has."""
    if is_site_folder(path):
        return [path]
    inside = sorted((name for name in os.listdir(path) if name.isdecimal() and is_site_folder(f"{path}/{name}")), key=int)
    if not inside:
        raise Fault(f"{path} has no files kept and out, nor a folder 0 that has them")
    return [f"{path}/{name}" for name in inside]


def recording_in(folder: str) -> Recording:
    """The recording of a site's folder, as `rubis keep` writes it."""
    answers = records_of(whole_lines(f"{folder}/out"))      # first, since a site that runs writes `kept` before it
    found = Recording(folder, records_of(whole_lines(f"{folder}/kept")), answers, last=changed(f"{folder}/out"))
    if os.path.isfile(f"{folder}/setup"):
        setup = records_of(whole_lines(f"{folder}/setup"))
        if setup and setup[0][0] == "setup" and len(setup[0]) >= 3:
            found.site, found.sites = number_at(setup[0], 1), number_at(setup[0], 2)
    beside = f"{os.path.dirname(os.path.abspath(folder))}/shop.json"
    if found.sites is None and os.path.isfile(beside):
        with open(beside, encoding="utf-8") as file:
            found.sites = json.load(file).get("sites")
    name = os.path.basename(os.path.abspath(folder))
    if found.site is None and name.isdecimal():
        found.site = int(name)
    return found


class SiteReader:
    """Follows one recording."""

    def __init__(self, recording: Recording, sites: int, messages: Messages) -> None:
        self.recording, self.messages = recording, messages
        assert recording.site is not None
        self.site = recording.site
        self.state: Release[Message] = Release(sites)
        self.events: list[Event] = []
        self.turns: dict[Event, int] = {}           # of the tokens that were passed or came
        self.holds = self.site == 0

    def read(self) -> None:
        record: Fields = []
        place = 0
        for row in self.recording.answers:
            if row[0] == "reply" and len(row) > 2:
                place = number_at(row, 1)
                if not 0 < place <= len(self.recording.records):
                    raise Fault(f"{self.recording.name}: there is no record {place}, and an answer to it")
                record = self.recording.records[place - 1]
                self._answer(place, record, row)
            elif row[0] == "send":
                self._sends(place, row[1:])

    def add(self, kind: Kind, message: Message | None, place: int, text: str = "") -> Event:
        event = Event(-1, kind, message, text, place)
        self.events.append(event)
        return event

    def _answer(self, place: int, record: Fields, row: Fields) -> None:
        if row[2] == "refused":
            self.add(Kind.REFUSED, None, place, f"{row[-1]}: {line_of(record)}")
        elif row[2] == "holding":
            self.turns[self.add(Kind.HOLDING, None, place)] = number_at(record, 2)
            self.holds = True
        elif row[2] in ("held", "released"):
            message = self.messages.read(record)
            if row[2] == "held":
                self.add(Kind.HELD, message, place)
            released = self.state.arrive(message)
            if len(released) != (number_at(row, 3) if row[2] == "released" else 0):
                raise Fault(f"{self.recording.name}: not what a site answers: {line_of(row)}")
            self._released(place, released)

    def _sends(self, place: int, packet: Fields) -> None:
        if packet[:1] == ["token"]:
            self.turns[self.add(Kind.PASSED, None, place)] = number_at(packet, 2)
            self.holds = False
            return
        message = self.messages.read(packet)
        self.add(Kind.MADE, message, place)
        self._released(place, self.state.made(message))

    def _released(self, place: int, messages: list[Message]) -> None:
        for message in messages:
            self.add(Kind.RELEASED, message, place)

    def row(self) -> GridRow:
        state = self.state
        return GridRow(self.site, tuple(state.counts), waits_of(state), len(state.waiting), self.holds, self.recording.last)


def run_of_sites(recordings: list[Recording]) -> Run:
    """A lane for each recording, and one for each other site of which messages came."""
    sites = _name_sites(recordings)
    messages = Messages(sites)
    readers = [SiteReader(recording, sites, messages) for recording in recordings]
    for reader in readers:
        reader.read()
    known = {reader.site for reader in readers}
    others = _made_elsewhere([reader.events for reader in readers], known)
    lanes = [Lane(reader.site, f"site {reader.site}") for reader in readers] + [Lane(site, f"site {site}") for site in others]
    rows = [reader.events for reader in readers] + list(others.values())
    order = sorted(range(len(lanes)), key=lambda at: lanes[at].site)
    lanes, rows = [lanes[at] for at in order], [rows[at] for at in order]
    for lane, row in enumerate(rows):
        for event in row:
            event.lane = lane
    _join(rows, {event: turn for reader in readers for event, turn in reader.turns.items()})
    holder = next((lane for lane, one in enumerate(lanes) if one.site == 0 and 0 in known), None)
    run = Run(sites, lanes, in_order(rows), holder, sorted((reader.row() for reader in readers), key=lambda row: row.site))
    run.divergence = _clash(run)
    return run


def _name_sites(recordings: list[Recording]) -> int:
    """Says of each recording which site it is; how many sites there are."""
    messages = Messages()
    counted = [len(messages.read(packet).deps) for recording in recordings for packet in _packets(recording)[:1]]
    told = [recording.sites for recording in recordings if recording.sites]
    for recording in recordings:
        sent = next((number_at(row, 3) for row in recording.answers if row[:2] == ["send", "msg"]), None)
        recording.site = sent if sent is not None else recording.site or 0
    sites = max([*counted, *told, *(1 + (recording.site or 0) for recording in recordings)])
    if len({recording.site for recording in recordings}) < len(recordings):
        raise Fault("two of these are one site: audit their logs instead")
    if len(set(counted)) > 1:
        raise Fault("these aren't sites of one shop: their messages count different numbers of sites")
    return sites


def _packets(recording: Recording) -> list[Fields]:
    """A message that the site sent or was given, if there is one."""
    sent = (row[1:] for row in recording.answers if row[:2] == ["send", "msg"])
    came = (record for record in recording.records if record[0] == "msg" and len(record) > 6)
    return [packet for packet in (next(sent, None), next(came, None)) if packet]


def _made_elsewhere(rows: list[list[Event]], known: set[int]) -> dict[int, list[Event]]:
    """What sites without a recording made, as far as it came to others, in its order."""
    came = {event.message for row in rows for event in row if event.message and event.message.origin not in known}
    others: dict[int, list[Event]] = {}
    for message in sorted(came, key=lambda message: (message.origin, message.number)):
        others.setdefault(message.origin, []).append(Event(-1, Kind.MADE, message, place=message.number))
    return dict(sorted(others.items()))


def _join(rows: list[list[Event]], turns: dict[Event, int]) -> None:
    """Says of each event what it comes from: a message from where it was made, a token from where it was passed."""
    made = {event.message: event for row in rows for event in row if event.kind is Kind.MADE}
    by_id = {(message.origin, message.number): event for message, event in made.items() if message}
    passed = {turn: event for event, turn in turns.items() if event.kind is Kind.PASSED}
    recorded = {event.lane for row in rows for event in row if event.kind is not Kind.MADE}
    for event in (event for row in rows for event in row):
        if event.kind is Kind.HOLDING and turns[event] in passed:
            event.after.append(passed[turns[event]])
        elif event.kind in (Kind.HELD, Kind.RELEASED) and event.message in made:
            event.after.append(made[event.message])
        elif event.kind is Kind.MADE and event.lane not in recorded and event.message:
            counted = ((site, count) for site, count in enumerate(event.message.deps) if site != event.message.origin)
            event.after += [by_id[one] for one in counted if one in by_id]


def _clash(run: Run) -> Divergence | None:
    """Two messages with one id, if there are such."""
    first: dict[str, Event] = {}
    for event in run.events:
        if event.message:
            other = first.setdefault(event.message.id, event)
            if other.message is not event.message:
                return Divergence("Clash", "two messages have one id", _spot(run, event), _spot(run, other), _common(run, event, other))
    return None


def _spot(run: Run, event: Event) -> Spot:
    log = run.log(event.lane)
    return Spot(event.lane, log.index(event) + 1 if event in log else 0, event)


def _common(run: Run, one: Event, other: Event) -> Event | None:
    """The last message before one in its log that the other's log has before it."""
    def before(event: Event) -> list[Event]:
        log = run.log(event.lane)
        return log[: log.index(event)] if event in log else log
    elsewhere = {event.message for event in before(other)}
    return next((event for event in reversed(before(one)) if event.message in elsewhere), None)


def recordings_of(paths: Iterable[str]) -> list[Recording]:
    return [recording_in(folder) for path in paths for folder in site_folders(path)]
