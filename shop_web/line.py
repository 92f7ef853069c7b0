"""A connection to the supervisor of a shop that is kept, with many requests on it at once, and made again where it broke."""

import asyncio
import itertools
import json
import os
from collections.abc import AsyncIterator, Callable
from typing import Any

from shop_ask.lines import Pieces, Reader
from shop_ask.quick import CONNECT_SECONDS, MARGIN
from shop_tool.carrier.told import unanswered
from shop_tool.client import away, raise_fault
from shop_tool.ends import Ended, Fault, Status
from shop_tool.requests import Request
from shop_tool.signals import Together

MOST_UNREAD = 10_000        # how many answers of one request may wait here to be taken in; only one that follows has that many
Answer = dict[str, Any]


class Whole:
    """All answers to one request, once the last one is there, or is known not to come."""

    def __init__(self) -> None:
        self.answers: list[Answer | None] = []
        self.is_over = asyncio.get_running_loop().create_future()

    def put_nowait(self, answer: Answer | None) -> None:
        self.answers.append(answer)
        if answer is None or answer.get("end"):
            self.end(True)

    def end(self, is_answered: bool) -> None:
        if not self.is_over.done():
            self.is_over.set_result(is_answered)

    def qsize(self) -> int:
        return 0        # a request of asks has no more answers than asks


class Line:
    def __init__(self, folder: str) -> None:
        self.folder = folder
        self._names = itertools.count(1)
        self._waiting: dict[int, asyncio.Queue[Answer | None] | Whole] = {}
        self._writer: Together | None = None
        self._opening = asyncio.Lock()

    async def whole(self, request: Request) -> list[Answer]:
        """The supervisor's answers to one request, but the last one, once that is there. The faults are those of `call`."""
        loop, seconds = asyncio.get_running_loop(), request["timeout"]
        writer, name = self._writer or await self._connected(), next(self._names)
        waiting = self._waiting[name] = Whole()
        timer = loop.call_later(seconds + MARGIN, waiting.end, False)
        writer.write(json.dumps(request | {"call": name}).encode() + b"\n")
        is_answered = False
        try:
            is_answered = await waiting.is_over
        finally:
            timer.cancel()
            self._waiting.pop(name, None)
            if not is_answered:
                writer.write(json.dumps({"leave": name}).encode() + b"\n")
        if not is_answered:
            raise self._no_answer(request, seconds)
        *answers, last = waiting.answers
        if last is None:
            raise self._ended(request)
        raise_fault(last)
        return [answer for answer in answers if answer]

    async def call(self, request: Request, seconds: float | None = None) -> AsyncIterator[Answer]:
        """The supervisor's answers to one request; the last one has `end`. A Fault if there is no supervisor, it ends meanwhile, or it gives
        no last answer within `seconds`, by default the time-out of the request; or if an answer is one."""
        seconds = request.get("timeout") if seconds is None else seconds
        until = asyncio.get_running_loop().time() + seconds + MARGIN if seconds else None
        writer, name = await self._connected(), next(self._names)
        answers = self._waiting[name] = asyncio.Queue[Answer | None]()
        is_over = False
        try:
            writer.write(json.dumps(request | {"call": name}).encode() + b"\n")
            while not is_over:
                async with asyncio.timeout_at(until):
                    answer = await answers.get()
                if answer is None:
                    is_over = True
                    raise self._ended(request)
                is_over = bool(answer.get("end"))
                raise_fault(answer)
                yield answer
        except TimeoutError:
            raise self._no_answer(request, seconds or 0) from None
        finally:
            self._waiting.pop(name, None)
            if not is_over:
                writer.write(json.dumps({"leave": name}).encode() + b"\n")

    def _ended(self, request: Request) -> Fault:
        return Ended(Status.AWAY, f"the supervisor of {self.folder} ended before it answered{unanswered(request) or ' (shop log)'}")

    def _no_answer(self, request: Request, seconds: float) -> Fault:
        return Fault(Status.AWAY, f"the supervisor of {self.folder} gave no answer within {round(seconds, 2):g} s{unanswered(request)}")

    async def one(self, request: Request, seconds: float | None = None) -> Answer:
        """The last answer to one request."""
        last: Answer = {}
        async for answer in self.call(request, seconds):
            last = answer
        return last

    async def close(self) -> None:
        if self._writer:
            self._writer.writer.close()
            await asyncio.sleep(0)

    async def _connected(self) -> Together:
        if self._writer:
            return self._writer
        async with self._opening:
            if self._writer is None:
                reader, writer = await self._open()
                if reader.at_eof():
                    raise away(self.folder)
                reader.give, reader.ended = self._taking(writer), lambda: self._end(writer)
                self._writer = Together(writer)
                self._writer.write(b'{"op": "several"}\n')
            return self._writer

    async def _open(self) -> tuple[Reader, asyncio.StreamWriter]:
        try:
            # A socket's path has at most 107 bytes, so the folder is named by a number.
            folder = os.open(self.folder, os.O_PATH | os.O_DIRECTORY)
        except OSError:
            raise away(self.folder) from None
        try:
            loop = asyncio.get_running_loop()
            reader = Reader(loop=loop)
            protocol = asyncio.StreamReaderProtocol(reader, loop=loop)
            async with asyncio.timeout(CONNECT_SECONDS):
                transport, _ = await loop.create_unix_connection(lambda: protocol, f"/proc/self/fd/{folder}/sock")
            return reader, asyncio.StreamWriter(transport, protocol, reader, loop)
        except (OSError, TimeoutError):
            raise away(self.folder) from None
        finally:
            os.close(folder)

    def _taking(self, writer: asyncio.StreamWriter) -> Callable[[bytes], None]:
        """What gives each answer to the request that waits for it."""
        pieces = Pieces()

        def take(data: bytes) -> None:
            try:
                answers = [json.loads(text) for text in pieces.feed(data)]
            except ValueError:
                return writer.close()
            for answer in answers:
                name = answer.pop("call", None)
                if waiting := self._waiting.get(name):
                    waiting.put_nowait(answer)
                    if waiting.qsize() > MOST_UNREAD:       # its reader is too slow, and has to begin again
                        del self._waiting[name]
                        waiting.put_nowait(None)
                        writer.write(json.dumps({"leave": name}).encode() + b"\n")
        return take

    def _end(self, writer: asyncio.StreamWriter) -> None:
        """Nothing more comes over a connection."""
        writer.close()
        if self._writer and self._writer.writer is writer:
            self._writer = None
            for waiting in self._waiting.values():
                waiting.put_nowait(None)
