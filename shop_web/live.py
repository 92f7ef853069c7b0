"""Server-sent events: what happens in the shop, how it is, and what a site is asked and answers."""

import asyncio
import collections
import contextlib
import json
import os
import re
from collections.abc import AsyncIterator, Iterator
from typing import Any

from aiohttp import web

from shop_tool.ends import Fault, Status
from shop_tool.render import shown
from shop_tool.running import said_by

from .line import Line

STATUS_SECONDS = 1.0        # how often it is looked how the shop is, while somebody reads that
QUIET_SECONDS = 15.0        # after which a line is sent that says nothing, so that a connection that is cut is seen
ANSWER_SECONDS = 10.0
READER_SECONDS = 60.0       # a reader that takes in nothing for so long is cut off
SHOWN = 20                  # how many events of the past a new reader gets
TAIL_BYTES = 1 << 14        # in which they are looked for
END = b""


class Watch:
    """The status of the shop, asked once for all who read along."""

    def __init__(self, line: Line, view: int | None) -> None:
        self._line, self._view = line, view
        self._readers: set[asyncio.Queue[dict[str, Any]]] = set()
        self._asking: asyncio.Task[None] | None = None
        self._last: dict[str, Any] | None = None

    async def statuses(self) -> AsyncIterator[dict[str, Any]]:
        """How the shop is, now and whenever that changes."""
        news = asyncio.Queue[dict[str, Any]]()
        if not self._readers:
            self._last, self._asking = None, asyncio.create_task(self._ask())
        elif self._last:
            news.put_nowait(self._last)
        self._readers.add(news)
        try:
            while True:
                yield await news.get()
        finally:
            self._readers.discard(news)
            if not self._readers and self._asking:
                self._asking.cancel()

    async def _ask(self) -> None:
        while True:
            said = await status_of(self._line, self._view)
            if said != self._last:
                self._last = said
                for news in self._readers:
                    news.put_nowait(said)
            await asyncio.sleep(STATUS_SECONDS)


async def status_of(line: Line, view: int | None) -> dict[str, Any]:
    """How the shop is, or why that isn't known; and the site of which a view is served."""
    try:
        said = await line.one({"op": "status"}, ANSWER_SECONDS)
    except Fault as fault:
        return {"well": False, "away": fault.text, "sites": []}
    shop = said["shop"]
    return {"well": said["well"], "view": view, "sites": shop.pop("site"), **{name: value for name, value in shop.items() if name != "sites"}}


class Events:
    """The lines of the file `events` of a shop, each under an id by which a reader goes on: which file it is of, and where it ends there."""

    def __init__(self, folder: str, after: str | None) -> None:
        self._path, self._after = f"{folder}/events", after

    def past(self, stood: int) -> Iterator[dict[str, Any]]:
        """What a reader lacks of the first bytes of the file, so many: what stands behind the line that it has, or the last of it. Then `tell`
        goes on from there."""
        found = re.fullmatch(r"([0-9]{1,20})-([0-9]{1,20})", self._after or "")
        file, place = (int(found[1]), int(found[2])) if found else (0, 0)
        now = os.stat(self._path).st_ino
        if found and file == now:
            yield from self._between(self._path, place, stood)
        elif found and self._is_before(file):
            yield from self._between(f"{self._path}.before", place, None)
            yield from self._between(self._path, 0, stood)
        else:
            if self._after is not None:
                yield {"gap": True}
            yield from collections.deque(self._between(self._path, max(stood - TAIL_BYTES, 0), stood), SHOWN)
        self._after = f"{now}-{stood}"

    def tell(self, line: str) -> dict[str, Any]:
        """The next line."""
        assert self._after
        file, _, place = self._after.partition("-")
        self._after = f"{file}-{int(place) + len(line.encode()) + 1}"
        return self._said(line, self._after)

    def _is_before(self, file: int) -> bool:
        try:
            return os.stat(f"{self._path}.before").st_ino == file
        except OSError:
            return False

    def _between(self, path: str, begin: int, end: int | None) -> Iterator[dict[str, Any]]:
        with open(path, "rb") as file:
            name, place = os.fstat(file.fileno()).st_ino, begin
            file.seek(begin)
            if begin and end is not None and end - begin == TAIL_BYTES:
                place += len(file.readline())       # it may be in the middle of a line
            for line in file:
                place += len(line)
                if end is not None and place > end:
                    return
                yield self._said(line.decode("utf-8", "replace").rstrip("\n"), f"{name}-{place}")

    @staticmethod
    def _said(line: str, name: str) -> dict[str, Any]:
        at, _, text = line.partition(" ")
        return {"id": name, "at": at, "site": said_by(line)["site"], "text": shown(text)}


async def events(line: Line, folder: str, after: str | None) -> AsyncIterator[dict[str, Any]]:
    """What happened last, or behind the event that a reader had, and what comes. It goes on when the supervisor comes back, and says where
    something may be missing."""
    told = Events(folder, after)
    while True:
        with contextlib.suppress(Fault, OSError):
            async for answer in line.call({"op": "follow", "site": None}):
                for said in told.past(answer["stood"]) if "stood" in answer else [told.tell(answer["line"])] if "line" in answer else []:
                    yield said
        await asyncio.sleep(STATUS_SECONDS)


async def lines(line: Line, site: int) -> AsyncIterator[dict[str, Any]]:
    """A site's records and answers as they come. It goes on when the supervisor comes back, and then says that something may be missing."""
    is_missing = False
    while True:
        try:
            async for answer in line.call({"op": "follow", "site": site}):
                if is_missing and "stood" in answer:
                    yield {"gap": True}
                if "line" in answer:
                    at, _, text = answer["line"].partition(" ")
                    yield {"at": at, "text": shown(text), **{name: said for name, said in said_by(text).items() if name != "at"}}
        except Fault as fault:
            if fault.status == Status.MISUSE:
                yield {"fault": fault.text}     # the site runs on another machine
                return
        is_missing = True
        await asyncio.sleep(STATUS_SECONDS)


async def told(request: web.Request, stopping: asyncio.Event, sources: dict[str, AsyncIterator[dict[str, Any]]]) -> web.StreamResponse:
    """Sends what comes of these sources, each under its name, until the reader goes or the server is stopped. The first one begins."""
    response = web.StreamResponse(headers={"Content-Type": "text/event-stream", "Cache-Control": "no-store", "X-Accel-Buffering": "no"})
    await response.prepare(request)
    if request.method == "HEAD":
        return response
    news = asyncio.Queue[bytes](1000)

    has_begun = asyncio.Event()

    async def read(name: str, source: AsyncIterator[dict[str, Any]]) -> None:
        if name != next(iter(sources)):
            await has_begun.wait()
        async for said in source:
            number = f"id: {said.pop('id')}\n" if "id" in said else ""
            await news.put(f"event: {name}\n{number}data: {json.dumps(said)}\n\n".encode())
            has_begun.set()
        await news.put(END)

    async def end() -> None:
        await stopping.wait()
        await news.put(END)
    readers = [asyncio.create_task(end()), *(asyncio.create_task(read(name, source)) for name, source in sources.items())]
    try:
        text = b": it begins\n\n"
        while text != END:
            async with asyncio.timeout(READER_SECONDS):
                await response.write(text)
            text = b": nothing new\n\n"
            with contextlib.suppress(TimeoutError):
                async with asyncio.timeout(QUIET_SECONDS):
                    text = await news.get()
        return response
    except ConnectionError:
        return response
    except TimeoutError:
        if request.transport:
            request.transport.abort()       # else its end would wait for what isn't read
        return response
    finally:
        for reader in readers:
            reader.cancel()
        await asyncio.gather(*readers, return_exceptions=True)
        for source in sources.values():
            await source.aclose()       # type: ignore[attr-defined]
