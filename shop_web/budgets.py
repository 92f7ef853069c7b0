"""Budgets: how many requests a bearer key may make, and how many records may be refused to it, before it has to wait."""

import math
import time

from .problems import Problem

SECONDS_AT_ONCE = 10.0          # of its requests a second, so many seconds' worth may come at once
REFUSED_A_SECOND = 1.0          # a site keeps what it refuses too, and has room for 4,000,000 records in all its time
REFUSED_AT_ONCE = 20_000.0


class Bucket:
    """Something of which each key gets more with time, up to a limit."""

    def __init__(self, a_second: float, most: float) -> None:
        self._a_second, self._most = a_second, most
        self._left: dict[bytes, tuple[float, float]] = {}       # how much a key had, and when that was

    def left(self, key: bytes) -> float:
        had, then = self._left.get(key, (self._most, 0.0))
        return min(had + (time.monotonic() - then) * self._a_second, self._most)

    def spend(self, key: bytes) -> None:
        self._left[key] = self.left(key) - 1, time.monotonic()

    def seconds(self, key: bytes) -> int:
        """How long until there is something again; 0 where there is."""
        return max(math.ceil((1 - self.left(key)) / self._a_second), 0)


class Budgets:
    """Those of the keys that a server knows; without keys nobody has one."""

    def __init__(self, requests_a_second: float) -> None:
        self._requests = Bucket(requests_a_second, SECONDS_AT_ONCE * requests_a_second)
        self._refused = Bucket(REFUSED_A_SECOND, REFUSED_AT_ONCE)

    def request(self, key: bytes) -> None:
        """A request is made; a Problem where it has to wait."""
        if seconds := self._requests.seconds(key):
            raise Problem("TooMany", "this key has made as many requests as it may", retry=seconds)
        self._requests.spend(key)

    def ask(self, key: bytes) -> None:
        """Something is to be asked; a Problem where too much was refused."""
        if seconds := self._refused.seconds(key):
            raise Problem("TooMany", "as many records were refused to this key as may be, and a site has to keep each of them", retry=seconds)

    def refused(self, key: bytes) -> None:
        self._refused.spend(key)
