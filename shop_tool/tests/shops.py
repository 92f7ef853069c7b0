"""A shop whose sites are told what they answer, for tests of the machines of the carrier."""

import contextlib
import errno
from collections.abc import Callable
from typing import Any, Generic, TypeVar

from shop_tool.carrier.over_server import ServerLink
from shop_tool.carrier.shop import Link, Shop
from shop_tool.carrier.site import Site
from shop_tool.carrier.steps import (Owner, Page, PageOf, Rewrite, SayYields, SeeHere, SeeLife, SeenHere, Sites, State, Statuses, Steps, StreamState,
                                     Wait)
from shop_tool.ends import Fault

Linked = TypeVar("Linked", bound=Link)


class Known(Site):
    """A site whose files nobody looks at."""

    shop: "Supervisor[Any]"

    def __init__(self, shop: "Supervisor[Any]", number: int) -> None:
        super().__init__(shop, number, lambda pieces: [], lambda name: None)
        self.lives = ["a"]
        self.written: str | None = None     # why it is stopped for good, as its folder says
        self.given = b""                    # what its keeper was given
        self.sum_lines = b""                # the file of sums
        self.is_full = False                # whether the disk has no room
        self.is_written_as_yielding = False
        self.known.set()
        self.tried.set()

    def start(self) -> None:
        """It is up, and takes asks."""
        self.opened.set()
        self.up.set()

    def read_on(self, kept: bytes, out: bytes, count: int) -> None:
        """Its keeper has died, and so many records stand in its files, with these behind what was answered."""
        self.up.clear()
        lines, pieces = iter(kept.splitlines(keepends=True)), iter([out])
        for _ in self.catch_up(count, lambda: next(lines, b""), lambda: next(pieces, b"")):
            pass

    def again(self) -> bytes:
        """What it is given when it is up again."""
        self.given = b""
        self.come_up()
        return self.given

    def write(self, data: bytes) -> None:
        self.given += data

    def kill(self) -> None:
        pass

    def need_room(self) -> None:
        if self.is_full:
            raise OSError(errno.ENOSPC, "No space left on device")

    def write_sums(self, lines: bytes) -> None:
        self.need_room()
        self.sum_lines += lines

    def write_yields(self, yields: bool) -> None:
        self.need_room()
        self.is_written_as_yielding = yields

    def write_fence(self, text: str) -> None:
        self.written = text


class Supervisor(Shop, Generic[Linked]):
    link: Linked
    sites: dict[int, Known]

    def __init__(self, link: Callable[[Shop], Linked], sites: int, is_alone: bool = False) -> None:
        super().__init__(2, is_alone)
        self.time, self.begun = 0.0, list[Steps[None]]()
        self.events: list[str] = []
        self.taken: list[int] = []
        self.forgotten: list[int] = []
        self.sites = {number: Known(self, number) for number in range(sites)}
        self.link = link(self)

    def now(self) -> float:
        return self.time

    def unix_time(self) -> float:
        return self.time

    def stamp(self) -> str:
        return "now"

    def event(self, text: str) -> None:
        self.events.append(text)

    def later(self, seconds: float, call: Callable[[], None]) -> None:
        pass

    def soon(self, call: Callable[[], None]) -> None:
        call()

    def begin(self, steps: Steps[None]) -> None:
        self.begun.append(steps)

    def took_over(self, site: int) -> None:
        self.taken.append(site)

    def witness_of(self, site: Site, answered: int) -> Callable[[int], None]:
        return lambda upto: None

    def forget(self, site: Site) -> None:
        self.forgotten.append(site.number)


class OverServer(ServerLink):
    def __init__(self, shop: Shop) -> None:
        super().__init__(shop, "the server")

    def named(self, site: Site) -> str:
        return "boot me:1 here:0"

    def called(self, site: Site, fields: dict[bytes, bytes]) -> Callable[[], None]:
        return lambda: None


def answers(**changed: Any) -> dict[type, Any]:
    """What the server says of a site: its stream, with these changes, the statuses of others, and the life that was seen `here`."""
    state = StreamState(0, (0, 0), b"", (0, 0), "")._replace(**{key: value for key, value in changed.items() if key not in ("statuses", "here")})
    return {State: state, PageOf: Page(0, (0, 0), b"", []), Owner: "me:1 here:0", Statuses: changed.get("statuses", {}), SeeLife: True,
            SeenHere: changed.get("here"), SeeHere: None, Sites: 2, SayYields: True, Rewrite: True, type(None): None}


def done(steps: Steps[Any], answers: dict[type, Any], upto: int | None = None) -> list[tuple[Any, ...]]:
    """Has steps done with these answers until one waits for something, or as many as `upto`; what they were."""
    asked, said = list[tuple[Any, ...]](), None
    with contextlib.suppress(StopIteration):
        while upto is None or len(asked) <= upto:
            step = steps.send(said)
            asked.append(step)
            if isinstance(step, Wait) and not (step.signal and step.signal.is_set):
                break
            said = True if isinstance(step, Wait) else answers[type(step)]
    return asked


def begun(steps: Steps[Any]) -> Steps[Any]:
    """Steps of which the first is being done."""
    steps.send(None)
    return steps


def fault_of(steps: Steps[Any], said: Any = None) -> str:
    """The fault with which steps end that are told this."""
    try:
        raise AssertionError(f"they go on: {steps.send(said)}")
    except Fault as fault:
        return fault.text
