"""What one site has released, what waits there, and for what: the release rule."""

import heapq
import operator
from collections.abc import Sequence
from typing import Generic, Protocol, TypeVar


class Stamped(Protocol):
    """A message with its stamp; `red` is 0 if it is blue."""

    @property
    def origin(self) -> int: ...

    @property
    def number(self) -> int: ...

    @property
    def red(self) -> int: ...

    @property
    def deps(self) -> Sequence[int]: ...


M = TypeVar("M", bound=Stamped)

Id = tuple[int, int]
RED = -1        # in place of a site: a red number


class Release(Generic[M]):
    """A site by the release rule. `waiting` has what waits, in order of arrival, by id."""

    def __init__(self, sites: int) -> None:
        self.counts = [0] * sites
        self.reds = 0
        self.waiting: dict[Id, M] = {}
        self._arrivals = 0
        self._ready: list[tuple[int, Id]] = []                              # a heap by arrival
        self._parked: dict[Id, list[tuple[int, M]]] = {}                    # each under one thing that it still needs

    def awaited(self, message: M) -> list[Id]:
        """The first message of each site that it counts and that isn't released."""
        return [(site, have + 1) for site, (have, need) in enumerate(zip(self.counts, message.deps)) if have < need]

    def awaited_red(self, message: M) -> int | None:
        """The first red number before its own that isn't released."""
        return self.reds + 1 if self.reds + 1 < message.red else None

    def is_ready(self, message: M) -> bool:
        if self.counts[message.origin] != message.number - 1 or message.red not in (0, self.reds + 1):
            return False
        return all(map(operator.ge, self.counts, message.deps))

    def made(self, message: M) -> list[M]:
        """The site makes a message; returns what waited and is released now, in order."""
        self._count(message)
        return self._settle()

    def arrive(self, message: M) -> list[M]:
        """A message arrives; returns what is released now, in order. A duplicate changes nothing."""
        name = (message.origin, message.number)
        if message.number <= self.counts[message.origin] or name in self.waiting:
            return []
        if self.is_ready(message):              # the only one, since whatever is ready is released at once
            self._count(message)
            return [message, *self._settle()]
        self._arrivals += 1
        self.waiting[name] = message
        self._park(self._arrivals, message)
        return []

    def count_alone(self, origin: int) -> None:
        """The next message of a site is released, while none waits. Its red number is counted apart."""
        self.counts[origin] += 1

    def _settle(self) -> list[M]:
        """Releases whatever is ready, the earliest to arrive first."""
        released = []
        while self._ready:
            _, name = heapq.heappop(self._ready)
            message = self.waiting[name]
            if self.is_ready(message):          # another one may have taken its red number
                del self.waiting[name]
                released.append(message)
                self._count(message)
        return released

    def _count(self, message: M) -> None:
        self.counts[message.origin] += 1
        woken = self._parked.pop((message.origin, self.counts[message.origin]), [])
        if message.red:
            self.reds += 1
            woken += self._parked.pop((RED, self.reds), [])
        for arrival, other in woken:
            self._park(arrival, other)

    def _park(self, arrival: int, message: M) -> None:
        """Puts it where the next thing that it needs wakes it."""
        for site, (have, need) in enumerate(zip(self.counts, message.deps)):
            if have < need:
                self._parked.setdefault((site, need), []).append((arrival, message))
                return
        if self.reds + 1 < message.red:
            self._parked.setdefault((RED, message.red - 1), []).append((arrival, message))
            return
        heapq.heappush(self._ready, (arrival, (message.origin, message.number)))
