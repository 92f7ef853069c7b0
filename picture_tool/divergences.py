"""Where logs part: what a verdict says of an entry, the other version of it, and what the two logs have in common."""

import collections
import dataclasses
from collections.abc import Callable

from .messages import Fault, Message
from .run import Divergence, Event, Spot

# What each fault of the auditor says, in short.
FAULTS = {
    "Clash": "another message has this id",
    "Order": "out of order in its log",
    "RedGap": "not the next red number",
    "Refers": "names what isn't there",
    "Nick": "the nickname is taken",
    "Stock": "more is bought than is left",
    "Winner": "not the highest bid",
    "Rows": "the rows aren't those of the log",
}

Place = tuple[int, int]     # a log and an entry, from 0


@dataclasses.dataclass
class Log:
    site: int
    messages: list[Message]


def divergence_of(logs: list[Log], entries: list[list[Event]], verdict: str) -> Divergence | None:
    """What the verdict `audit,Kind,LOG,ENTRY` is about; None if there is none, or it is Agree."""
    if verdict in ("", "audit,Agree"):
        return None
    parts = verdict.split(",")
    if len(parts) != 4 or parts[0] != "audit" or parts[1] not in FAULTS or not all(part.isdecimal() for part in parts[2:]):
        raise Fault(f"not a verdict on logs: {verdict[:80]}")
    kind, lane, entry = parts[1], int(parts[2]) - 1, int(parts[3])
    if not (0 <= lane < len(logs) and entry <= len(entries[lane])):
        raise Fault(f"the logs have no such entry: {verdict}")
    if not entry:
        return Divergence(kind, FAULTS[kind], Spot(lane, 0, None))
    why, other = _Parting(logs, lane, entry - 1).told(kind)
    found = Divergence(kind, why, Spot(lane, entry, entries[lane][entry - 1]))
    if other:
        found.other = Spot(other[0], other[1] + 1, entries[other[0]][other[1]])
    if kind in ("Clash", "Order", "RedGap"):
        common = last_in_common(logs, (lane, entry - 1), other)
        found.common = entries[common[0]][common[1]] if common else None
    return found


def last_in_common(logs: list[Log], at: Place, other: Place | None) -> Place | None:
    """The last message before an entry that the other log has before its version, or any other log has."""
    if other is None:
        elsewhere = {message for lane, log in enumerate(logs) if lane != at[0] for message in log.messages}
    elif other[0] == at[0]:
        elsewhere = set(logs[at[0]].messages[: min(at[1], other[1])])
    else:
        elsewhere = set(logs[other[0]].messages[: other[1]])
    before = logs[at[0]].messages[: at[1]]
    return next(((at[0], entry) for entry in range(len(before) - 1, -1, -1) if before[entry] in elsewhere), None)


class _Parting:
    """An entry of a log, and what is wrong with it."""

    def __init__(self, logs: list[Log], lane: int, entry: int) -> None:
        self.logs, self.lane, self.entry = logs, lane, entry
        self.message = logs[lane].messages[entry]
        self.before = logs[lane].messages[:entry]

    def told(self, kind: str) -> tuple[str, Place | None]:
        """Why it is a fault, and where the other version is."""
        if kind == "Clash":
            return "two messages have one id", self.with_id(self.message.id)
        if kind == "Order":
            return self.order()
        return self.red() if kind == "RedGap" else (FAULTS[kind], None)

    def best(self, is_meant: Callable[[Message], bool]) -> Place | None:
        """Where such a message stands other than this one: in the log of the site that made it, else in another log than this, else here."""
        found = [
            (lane == self.lane, log.site != message.origin, lane, entry)
            for lane, log in enumerate(self.logs) for entry, message in enumerate(log.messages) if message is not self.message and is_meant(message)]
        return min(found)[2:] if found else None

    def with_id(self, name: str) -> Place | None:
        return self.best(lambda message: message.id == name)

    def with_red(self, number: int) -> Place | None:
        return self.best(lambda message: message.red == number)

    def order(self) -> tuple[str, Place | None]:
        m, have = self.message, collections.Counter(message.origin for message in self.before)
        if m.number != have[m.origin] + 1:
            due = f"{m.origin}.{have[m.origin] + 1}"
            return f"{m.id} stands where {due} is due", self.with_id(due)
        if lacking := next((f"{site}.{have[site] + 1}" for site, count in enumerate(m.deps) if count > have[site]), None):
            return f"it counts {lacking}, which isn't before it", self.with_id(lacking)
        site = next((site for site, count in enumerate(m.deps) if count < have[site]), None)
        if m.origin == self.logs[self.lane].site and site is not None:
            passed = f"{site}.{m.deps[site] + 1}"
            return f"its own log has {passed} before it, and it doesn't count that", self.with_id(passed)
        return self.counts_less()

    def counts_less(self) -> tuple[str, Place | None]:
        m = self.message
        for site, count in enumerate(m.deps):
            place = self.with_id(f"{site}.{count}") if count and site != m.origin else None
            if place:
                last = self.logs[place[0]].messages[place[1]]
                if any(more > less for more, less in zip(last.deps, m.deps)):
                    return f"it counts {last.id}, which counts more than it does", place
        return FAULTS["Order"], None

    def red(self) -> tuple[str, Place | None]:
        m, due = self.message, 1 + sum(message.red > 0 for message in self.before)
        if m.red != due:
            return f"its red number is {m.red}, and {due} is the next", self.with_red(due)
        if (place := self.with_red(due)) is not None:
            return f"two messages have red number {due}", place
        one = self.with_red(due - 1)
        return f"it doesn't count the message with red number {due - 1}", one
