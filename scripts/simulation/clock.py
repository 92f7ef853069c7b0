"""The clock of a run, and the machines of the carrier as tasks on it: each step takes some time, and anything may happen meanwhile."""

import random
from collections.abc import Callable
from functools import partial
from heapq import heappop, heappush
from typing import Any, Protocol

from shop_tool.carrier.steps import Signal, Steps, Wait

Call = Callable[[], None]


class Clock:
    def __init__(self, dice: random.Random) -> None:
        self.now = 0.0
        self._random = dice.random
        self._count = 0
        self._calls: list[tuple[float, int, Call]] = []

    def after(self, seconds: float, call: Call) -> None:
        self._count += 1
        heappush(self._calls, (self.now + seconds, self._count, call))

    def soon(self, call: Call) -> None:
        """In a moment, which isn't always the same one: so what is due at once comes in any order."""
        self._count += 1
        heappush(self._calls, (self.now + self._random() * 0.002, self._count, call))

    def run(self, until: float) -> None:
        calls = self._calls
        while calls and calls[0][0] <= until:
            self.now, _, call = heappop(calls)
            call()
        self.now = max(self.now, until)


class Owner(Protocol):
    """The process that a task runs in."""

    clock: Clock
    is_alive: bool
    paused_until: float

    def do(self, task: "Task", step: tuple[Any, ...]) -> None:
        """Begins a step of a task, which is resumed with what came of it."""


class Task:
    """A machine of the carrier that runs in a process."""

    __slots__ = ("owner", "steps", "_on_end", "is_over", "turn", "step", "connection", "hear", "_waits")

    def __init__(self, owner: Owner, steps: Steps[Any], on_end: Callable[[Any, Exception | None], None]) -> None:
        self.owner, self.steps, self._on_end = owner, steps, on_end
        self.is_over = False
        self.turn = 0           # how often it was resumed: what comes for an earlier turn comes too late
        self.step: tuple[Any, ...] = ()     # the one that it waits for
        self.connection: Any = None
        self.hear: Callable[[bytes, Any], None] | None = None      # is told answers to records
        self._waits: tuple[Signal, Call] | None = None
        owner.clock.soon(partial(self.resume, 0))

    def resume(self, turn: int, said: Any = None, fault: Exception | None = None) -> None:
        """Goes on after the step of that turn."""
        if self.is_over or turn != self.turn:
            return
        owner = self.owner
        if not owner.is_alive:
            return
        if owner.paused_until > owner.clock.now:
            return owner.clock.after(owner.paused_until - owner.clock.now, partial(self.resume, turn, said, fault))
        self.turn += 1
        if self._waits:
            self._waits[0].discard(self._waits[1])
            self._waits = None
        try:
            step = self.step = self.steps.throw(fault) if fault else self.steps.send(said)
        except StopIteration as end:
            return self._end(end.value, None)
        except Exception as raised:
            return self._end(None, raised)
        if isinstance(step, Wait):
            self._wait(step)
        else:
            owner.do(self, step)

    def _wait(self, step: Wait) -> None:
        signal, seconds = step
        clock = self.owner.clock
        if signal:
            woken = partial(self.resume, self.turn, True)
            if signal.is_set:
                return clock.soon(woken)
            wake = partial(clock.soon, woken)
            signal.add(wake)
            self._waits = signal, wake
        if seconds is not None:
            clock.after(seconds, partial(self.resume, self.turn, signal is None))

    def answer(self, said: Any = None, fault: Exception | None = None, seconds: float | None = None) -> None:
        """Has it go on with what came of its step, soon or after some time."""
        call = partial(self.resume, self.turn, said, fault)
        if seconds is None:
            self.owner.clock.soon(call)
        else:
            self.owner.clock.after(seconds, call)

    def cancel(self) -> None:
        """Ends it where it is, as the end of its process does."""
        if not self.is_over:
            self.is_over = True
            if self._waits:
                self._waits[0].discard(self._waits[1])
            self.steps.close()

    def _end(self, said: Any, fault: Exception | None) -> None:
        self.is_over = True
        self._on_end(said, fault)
