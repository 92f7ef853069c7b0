"""Asks over a connection that is kept are done by calls of the loop as a task would do them."""

import asyncio
import json
import unittest
from collections.abc import Callable
from typing import Any
from unittest import mock

from shop_ask.several import Asked, Several
from shop_tool.carrier.answers import Answer
from shop_tool.carrier.steps import Flag, IsRunning, Say, Signal, Steps, Wait
from shop_tool.ends import Fault, Status

OK = Answer([b"reply,1,ok,0.1", b"send,msg,1,0,1,1,0,user,ann"], 30)


class Asks(unittest.IsolatedAsyncioTestCase):
    def setUp(self) -> None:
        self.server, self.writer = mock.MagicMock(), mock.MagicMock()
        self.server.shop.settings.sites = 1
        self.server.shop.sites = {0: mock.MagicMock(fenced_by=None)}
        self.server.shop.task = lambda work, is_needed: asyncio.create_task(work)
        self.server.fault_of = lambda fault, request: fault if isinstance(fault, Fault) else Fault(Status.AWAY, repr(fault))
        self.written: list[bytes] = []
        self.writer.write = self.written.append
        self.writer.is_closing.return_value = False
        self.unread = 0
        self.writer.transport.get_write_buffer_size = lambda: self.unread
        self.several = Several(self.server, mock.MagicMock(), self.writer)

    def ask(self, steps: Callable[[], Steps[None]]) -> Asked:
        """An ask with these steps, which has begun."""
        self.server.ask_of = lambda site, request: steps()
        asked = Asked(self.several, 7, {"op": "ask", "site": 0})
        asked.begin()
        return asked

    async def said(self, waits: bool = False) -> list[dict[str, Any]]:
        """What was said once all that is ready is done; `waits` until there is something."""
        for _ in range(20):
            await asyncio.sleep(0)
        while waits and not self.written:
            await asyncio.sleep(0.001)
        return [json.loads(line) for line in b"".join(self.written).splitlines()]

    async def test_it_waits_says_and_ends(self) -> None:
        signal, was, heard = Signal(), Flag(), list[bool]()
        was.set()

        def steps() -> Steps[None]:
            heard.append((yield Wait(was)))
            heard.append((yield Wait(signal, 60.0)))
            yield Say(b"user,ann", OK)
            yield Say(b"key,k,user,\xff", OK)
        self.ask(steps)
        self.assertEqual((await self.said(), list(self.several.serving)), ([], [7]))
        signal.tell()
        self.assertEqual(heard, [True])             # what tells it isn't held up by what comes of it
        lines = [line.decode() for line in OK.lines]
        self.assertEqual(await self.said(), [{"call": 7, "record": "user,ann", "lines": lines},
                                             {"call": 7, "record": "user,\udcff", "lines": lines}, {"call": 7, "end": True}])
        self.assertEqual((heard, self.several.serving), ([True, True], {}))

    async def test_its_time_is_over(self) -> None:
        def steps() -> Steps[None]:
            if not (yield Wait(Signal(), 0.001)):
                raise Fault(Status.AWAY, "no answer")
        self.ask(steps)
        self.assertEqual((await self.said(True))[0], {"call": 7, "end": True, "status": 3, "fault": "no answer"})

    async def test_one_that_is_left_is_told_of_it_and_says_nothing(self) -> None:
        signal, ends = Signal(), list[str]()

        def steps() -> Steps[None]:
            try:
                yield Wait(signal)
                yield Say(b"user,ann", OK)
            finally:
                ends.append("left")
        for is_told in (False, True):       # also where what it waits for comes in the same moment
            asked = self.ask(steps)
            if is_told:
                signal.tell()
            asked.cancel()
            signal.tell()
            self.assertEqual((await self.said(), self.several.serving), ([], {}))
        self.assertEqual(ends, ["left", "left"])

    async def test_other_steps_are_done_by_the_link(self) -> None:
        async def do(step: tuple[Any, ...]) -> bool:
            if step == IsRunning(3, 0.5):
                raise OSError("broke")
            return True
        self.server.shop.link.do = do

        def steps() -> Steps[None]:
            assert (yield IsRunning(2, 0.5)) is True
            try:
                yield IsRunning(3, 0.5)
            except OSError as fault:
                raise Fault(Status.AWAY, str(fault)) from None
        self.ask(steps)
        self.assertEqual((await self.said())[0]["fault"], "broke")

    async def test_it_waits_for_a_reader_that_is_behind(self) -> None:
        drained = asyncio.Event()
        self.writer.drain = drained.wait

        def steps() -> Steps[None]:
            for _ in range(3):
                yield Say(b"user,ann", OK)
        self.unread = 1 << 20
        self.ask(steps)
        self.assertEqual(len(await self.said()), 1)
        self.unread = 0
        drained.set()
        self.assertEqual([len(answer) for answer in await self.said()], [3, 3, 3, 2])
