"""A link that is over ends, though a connection swallows that its work is cancelled."""

import asyncio
import tempfile
import unittest
from typing import Any
from unittest import mock

from shop_tool import lock
from shop_tool.carrier.over_server import ServerLink
from shop_tool.carrier.steps import Broken, Connect, Hear, Steps
from shop_tool.ends import Fault
from shop_tool.signals import done, is_over_within


def hearing() -> Steps[None]:
    yield Hear(b"$")


async def swallowing(step: tuple[Any, ...]) -> None:
    """A client of the server that swallows a cancel as redis-py 4.3.4 does."""
    if isinstance(step, Connect):
        return
    try:
        await asyncio.sleep(3600)
    except asyncio.CancelledError:
        raise Broken("closing timed out") from None


class Over(unittest.IsolatedAsyncioTestCase):
    async def test_a_work_whose_cancel_is_swallowed_ends_when_the_link_is_over(self) -> None:
        shop = mock.MagicMock(count=1)
        shop.now.return_value = 0.0
        with mock.patch.multiple(ServerLink, __abstractmethods__=set()):
            link = ServerLink(shop, "the server")       # type: ignore[abstract]
        work = asyncio.create_task(done(link.forever("hear", hearing), swallowing))
        await asyncio.sleep(0.01)
        work.cancel()
        await asyncio.wait({work}, timeout=0.2)
        self.assertFalse(work.done())       # as it was: it goes on for ever
        link.is_over = True
        await asyncio.sleep(0.2)
        work.cancel()
        await asyncio.wait({work}, timeout=5)
        self.assertTrue(work.done())

    async def test_work_that_is_cut_off_is_not_waited_for(self) -> None:
        async def stubborn() -> None:
            while True:
                try:
                    await asyncio.sleep(0.5)
                    return
                except asyncio.CancelledError:
                    pass
        self.assertFalse(await is_over_within(0.01, stubborn()))
        self.assertTrue(await is_over_within(0.1, asyncio.sleep(0)))


class Holder(unittest.TestCase):
    def test_who_holds_a_folder(self) -> None:
        with tempfile.TemporaryDirectory() as folder:
            self.assertIsNone(lock.holder_of(folder))
            lock.take_lock(folder)
            self.assertRegex(str(lock.holder_of(folder)), r"^process [0-9]+$")
            with mock.patch.object(lock, "SECONDS", 0.1), self.assertRaisesRegex(Fault, "is running; stop it first"):
                lock.take_lock(folder, "stop it first")
