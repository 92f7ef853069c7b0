"""How long answers share a site with those who ask it."""

import asyncio
import collections
import time
import unittest
from types import SimpleNamespace
from typing import Any

from shop_tool.carrier.answers import Answer
from shop_tool.carrier.records import Purpose
from shop_tool.carrier.site import Pending
from shop_tool.reads import ASKS_TO_READS, Reads

LISTING_SECONDS = 0.1


class Site:
    """A site that takes so long for a listing, and is asked all the time if it `is_asked`."""

    def __init__(self, is_asked: bool) -> None:
        self.number, self.state, self.is_asked = 0, "up", is_asked
        self.line: collections.deque[Pending] = collections.deque()
        self.begun: list[float] = []

    @property
    def ledger(self) -> Any:
        return SimpleNamespace(records=int(1e6 * time.monotonic()) if self.is_asked else 0)

    def give(self, records: list[bytes], purpose: Purpose) -> list[Pending]:
        self.begun.append(time.monotonic())
        given = [Pending(record) for record in records]
        self.line.extend(given)

        def end() -> None:
            for each in given:
                each.answer = Answer([b"?rows,0"], 0)
                each.done.set()
            self.line.clear()
        asyncio.get_running_loop().call_later(LISTING_SECONDS, end)
        return given

    def leave(self, pending: list[Pending]) -> None:
        pass


class Shares(unittest.TestCase):
    def begun(self, is_asked: bool) -> list[float]:
        """When each of three listings was begun that were asked for at once, and left at once."""
        site: Any = Site(is_asked)

        async def read() -> None:
            tasks = set[asyncio.Task[Any]]()
            shop: Any = SimpleNamespace(asks_questions=True, settings=SimpleNamespace(sites=1),
                                        task=lambda work, is_needed: tasks.add(asyncio.ensure_future(work)))
            reads = Reads(shop)
            await asyncio.gather(*(reads.listings(site, [b"list,log"], 60.0) for _ in range(3)))
            await asyncio.gather(*tasks)
        asyncio.run(read())
        return [after - before for before, after in zip(site.begun, site.begun[1:])]

    def test_asks_have_two_thirds_of_its_time(self) -> None:
        self.assertTrue(all(seconds >= (1 + ASKS_TO_READS) * LISTING_SECONDS for seconds in self.begun(True)))

    def test_one_is_made_behind_the_other(self) -> None:
        self.assertTrue(all(LISTING_SECONDS <= seconds for seconds in self.begun(False)))

    def test_where_nobody_asks_the_next_one_is_made_soon(self) -> None:
        self.assertLess(min(self.begun(False)), (1 + ASKS_TO_READS) * LISTING_SECONDS)
