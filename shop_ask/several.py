"""A connection to the supervisor that is kept: many requests at once, each under its number. Asks among them take no task of the loop."""

import asyncio
import contextlib
import functools
import json
from json.encoder import encode_basestring_ascii as json_of     # type: ignore[attr-defined]
from typing import TYPE_CHECKING, Any

from shop_ask.lines import Pieces, Reader
from shop_tool.carrier.records import bare, text_of
from shop_tool.carrier.steps import Say, Signal, Wait
from shop_tool.ends import Fault, Status
from shop_tool.requests import REQUEST_BYTES, Request, field, no_request, request_of, site_of
from shop_tool.signals import Together

if TYPE_CHECKING:
    from shop_tool.server import Server

AT_ONCE = 4000              # how many requests of a connection are under way at once
UNREAD_BYTES = 1 << 16      # how much may wait for a client to read it, before it is waited for
REFUSE_SECONDS = 2.0        # how long the rest is read of a request that is too long
READER_SECONDS = 60.0       # a client that takes in nothing for so long is cut off


class Several:
    """A connection with many requests. A client that goes takes along what no site has yet."""

    def __init__(self, server: "Server", reader: Reader, writer: asyncio.StreamWriter) -> None:
        self.server, self.reader, self.writer = server, reader, writer
        self.together = Together(writer)
        self.serving: dict[int, "Asked | asyncio.Task[None]"] = {}
        self._pieces = Pieces()
        self._over = asyncio.Event()

    async def run(self) -> None:
        """Serves it until it ends."""
        try:
            came = await self.reader.read(1 << 30)      # all that has come; from then on it comes by calls
            self.reader.give, self.reader.ended = self._take, self._over.set
            if self.reader.at_eof():
                return
            self._take(came)
            await self._over.wait()
        finally:
            self.reader.give = lambda data: None
            tasks = [each for each in self.serving.values() if isinstance(each, asyncio.Task)]
            for each in list(self.serving.values()):
                each.cancel()
            await asyncio.gather(*tasks, return_exceptions=True)

    def _take(self, data: bytes) -> None:
        try:
            for line in self._pieces.feed(data):
                self._begin(line)
            if self._pieces.size > REQUEST_BYTES:
                raise no_request(f"it has more than {REQUEST_BYTES} bytes")
        except Fault as fault:
            self.end(None, fault)
            self.reader.give = lambda data: None
            # Once it is written; a client that is writing still wouldn't see it.
            asyncio.get_running_loop().call_later(REFUSE_SECONDS if self._pieces.size > REQUEST_BYTES else 0.0, self._over.set)
        if self.is_behind:
            self.writer.transport.pause_reading()       # type: ignore[attr-defined]
            self.server.shop.task(self._go_on(), is_needed=False)

    async def _go_on(self) -> None:
        """Takes requests again once the client has read what waited for it."""
        with contextlib.suppress(OSError):      # the client has gone, or reads nothing
            await self.read()
            self.writer.transport.resume_reading()      # type: ignore[attr-defined]

    def _begin(self, line: bytes) -> None:
        request = request_of(line)
        if "leave" in request:
            if under_way := self.serving.get(field(request, "leave", int)):
                under_way.cancel()          # one that has just ended isn't there any more
        elif (name := field(request, "call", int)) in self.serving:
            raise no_request("its `call` is that of another one")
        elif len(self.serving) == AT_ONCE:
            self.end(name, Fault(Status.AWAY, f"{AT_ONCE} requests are under way; nothing was asked"))
        elif request.get("op") == "ask":
            asked = Asked(self, name, request)
            asked.begin()
        else:
            self.serve(name, request)

    def serve(self, name: int, request: Request) -> None:
        """Serves a request by a task."""
        self.serving[name] = task = asyncio.create_task(self.server.serve(request, functools.partial(self.say, name)))
        task.add_done_callback(functools.partial(self._forget, name))

    def _forget(self, name: int, task: "asyncio.Task[None]") -> None:
        del self.serving[name]
        if not task.cancelled():
            task.exception()        # the client has gone, or reads nothing

    async def say(self, name: int, answer: dict[str, Any]) -> None:
        self.together.write(json.dumps({"call": name} | answer).encode() + b"\n")
        if self.is_behind:
            await self.read()

    @property
    def is_behind(self) -> bool:
        """Whether the client has more to read than may wait for it."""
        return self.writer.transport.get_write_buffer_size() > UNREAD_BYTES

    async def read(self) -> None:
        """Returns once the client has read what waited for it; one that reads nothing is cut off."""
        try:
            await asyncio.wait_for(self.writer.drain(), READER_SECONDS)
        except TimeoutError:
            self.writer.transport.abort()
            raise

    def end(self, name: int | None, fault: Fault) -> None:
        """Says that a request failed, or that what came isn't one."""
        call = {} if name is None else {"call": name}
        self.together.write(json.dumps(call | {"end": True, "status": fault.status, "fault": fault.text}).encode() + b"\n")


class Asked:
    """An ask that is under way. Its steps are done by calls of the loop, since a task for each takes as long as the rest of it."""

    __slots__ = ("several", "name", "request", "site", "steps", "signal", "timer", "is_waiting")

    def __init__(self, several: Several, name: int, request: Request) -> None:
        self.several, self.name, self.request = several, name, request
        self.signal: Signal | None = None
        self.timer: asyncio.TimerHandle | None = None
        self.is_waiting = False

    def begin(self) -> None:
        server = self.several.server
        try:
            site = server.shop.sites.get(site_of(self.request, server.shop.settings.sites))
            if site is None or site.fenced_by:
                return self.several.serve(self.name, self.request)      # it runs elsewhere, or may
            self.site, self.steps = site, server.ask_of(site, self.request)
        except Fault as fault:
            return self.several.end(self.name, fault)
        self.several.serving[self.name] = self
        self.go(None)

    def go(self, said: Any, fault: Exception | None = None) -> None:
        """Does its next steps, until it has to wait, or is over."""
        try:
            while True:
                step = self.steps.throw(fault) if fault else self.steps.send(said)
                said = fault = None
                if isinstance(step, Wait):
                    signal, seconds = step
                    if not (signal and signal.is_set):
                        return self._wait(signal, seconds)
                    said = True
                elif isinstance(step, Say):
                    self._say(step)
                    if self.several.is_behind:
                        return self._do(self.several.read())
                else:
                    return self._do(self.several.server.shop.link.do(step))
        except StopIteration:
            self._end(None)
        except Exception as raised:
            self._end(self.several.server.fault_of(raised, self.request))

    def _say(self, step: Say) -> None:
        self.site.count(step.answer)
        lines = ", ".join([json_of(text_of(line)) for line in step.answer.lines])
        self.several.together.write(f'{{"call": {self.name}, "record": {json_of(text_of(bare(step.record)))}, "lines": [{lines}]}}\n'.encode())

    def _end(self, fault: Fault | None) -> None:
        del self.several.serving[self.name]
        if fault:
            self.several.end(self.name, fault)
        else:
            self.several.together.write(b'{"call": %d, "end": true}\n' % self.name)

    def cancel(self) -> None:
        """Nobody waits for it any more."""
        del self.several.serving[self.name]
        self._stop_waiting()
        self.steps.close()

    # What it waits for.

    def _wait(self, signal: Signal | None, seconds: float | None) -> None:
        self.is_waiting, self.signal = True, signal
        if signal:
            signal.add(self._told)
        if seconds is not None:
            self.timer = asyncio.get_running_loop().call_later(seconds, self._late)

    def _stop_waiting(self) -> None:
        self.is_waiting = False
        if self.signal:
            self.signal.discard(self._told)
        if self.timer:
            self.timer.cancel()
            self.timer = None

    def _told(self) -> None:
        self._resume(True)

    def _late(self) -> None:
        self._resume(False)

    def _resume(self, is_told: bool) -> None:
        if self.is_waiting:
            self._stop_waiting()
            asyncio.get_running_loop().call_soon(self._go_on, is_told)      # not within what tells it

    def _go_on(self, said: Any, fault: Exception | None = None) -> None:
        if self.several.serving.get(self.name) is self:
            self.go(said, fault)

    def _do(self, work: "Any") -> None:
        """Has some other work done, and goes on with what comes of it."""
        async def done() -> None:
            try:
                said = await work
            except Exception as fault:
                return self._go_on(None, fault)
            self._go_on(said)
        self.several.server.shop.task(done(), is_needed=False)
