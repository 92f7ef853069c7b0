"""Connections: one on which no request comes to its end, or no answer is read, is closed; and what is no request is told as a problem."""

import asyncio
import zlib

from aiohttp import HttpVersion11, web

from .problems import Problem

BODY_BYTES = 16 << 20       # of a request, also once it is unpacked
IDLE_SECONDS = 60.0
LOOK_SECONDS = 5.0
MOST_WAITING = 100          # requests of one connection, beyond which no more are read
HEADERS = {"Server": "shop", "X-Content-Type-Options": "nosniff"}      # of every response


def waiting(request: web.Request) -> int:
    """How many requests came over its connection behind this one. The library keeps them all, and says so nowhere else."""
    return len(getattr(request.protocol, "_messages", ()))


class Connections:
    """The connections of a server, and those of them that have a request under way."""

    def __init__(self, idle_seconds: float) -> None:
        self.idle_seconds = idle_seconds
        self._busy: set[asyncio.BaseProtocol] = set()

    def begin(self, request: web.Request) -> None:
        self._busy.add(request.protocol)
        if waiting(request) > MOST_WAITING:
            request.protocol.pause_reading()

    def end(self, request: web.Request) -> None:
        self._busy.discard(request.protocol)
        if waiting(request) <= MOST_WAITING:
            request.protocol.resume_reading()

    async def read(self, request: web.Request) -> bytes:
        """The body of a request; a Problem if it doesn't come to its end in time."""
        if request.content.is_eof():
            return unpacked(await request.read(), request)      # as most are: it came with the head
        try:
            async with asyncio.timeout(self.idle_seconds):
                return unpacked(await request.read(), request)
        except TimeoutError:
            raise Problem("TooSlow", f"the body didn't come to its end within {self.idle_seconds:g} s; nothing was asked") from None

    async def close_idle(self, server: web.Server) -> None:
        """Closes connections that for some time have had no request under way, or whose client has taken in nothing of what waits for it,
        until it is cancelled."""
        still: dict[web.RequestHandler, tuple[int, float]] = {}     # what waits for the client, and since when that is so
        while True:
            await asyncio.sleep(min(LOOK_SECONDS, self.idle_seconds / 4))
            before, still, now = still, {}, asyncio.get_running_loop().time()
            for each in server.connections:
                transport = each.transport
                unread = transport.get_write_buffer_size() if isinstance(transport, asyncio.WriteTransport) else 0
                if each in self._busy and not unread:
                    continue        # it waits for what is being done
                was, since = before.get(each, (-1, now))
                still[each] = (unread, since if was == unread else now)
                if now - still[each][1] <= self.idle_seconds:
                    continue
                if isinstance(transport, asyncio.WriteTransport) and unread:
                    transport.abort()       # a close would wait for what isn't read
                else:
                    each.force_close()


def unpacked(body: bytes, request: web.Request) -> bytes:
    """What a body says. The library would unpack all of it before it is known who sends it."""
    coding = request.headers.get("Content-Encoding", "identity").strip().lower()
    if coding == "identity":
        return body
    if coding not in ("gzip", "x-gzip"):
        raise Problem("OtherContent", f"a body may be packed by gzip, and not by {coding}; nothing was asked")
    unpacking = zlib.decompressobj(zlib.MAX_WBITS | 16)
    try:
        text = unpacking.decompress(body, BODY_BYTES)
    except zlib.error as fault:
        raise Problem("BadRequest", "the body isn't packed by gzip, as its header says; nothing was asked") from fault
    if unpacking.unconsumed_tail:
        raise Problem("TooLong", f"the body has more than {BODY_BYTES} bytes once it is unpacked; nothing was asked")
    if not unpacking.eof or unpacking.unused_data:
        raise Problem("BadRequest", "the body is packed by gzip, and cut off or followed by something else; nothing was asked")
    return text


async def expected(request: web.Request) -> None:
    """Says that the body is wanted, to a client that waits for that before it sends it."""
    wants = request.headers.get("Expect", "").lower()
    if request.version >= HttpVersion11 and wants != "100-continue":
        response = Problem("BadExpect", f"`{wants}` isn't done here").response()
        raise web.HTTPExpectationFailed(body=response.body, content_type=response.content_type, headers=HEADERS)
    if request.version >= HttpVersion11:
        await request.writer.write(b"HTTP/1.1 100 Continue\r\n\r\n")


def told_as_problem(handler: web.RequestHandler, request: web.BaseRequest, status: int = 500, exc: BaseException | None = None,
                    message: str | None = None) -> web.StreamResponse:
    """What the library answers where it can't read a request, or fails."""
    if request.writer.output_size > 0:
        raise ConnectionError("something is sent already")
    name = {400: "BadRequest", 504: "Away"}.get(status, "Broken")
    response = Problem(name, message or f"a fault of its own: {exc!r}").response()
    response.headers.update(HEADERS)
    response.force_close()
    return response


web.RequestHandler.handle_error = told_as_problem       # type: ignore[assignment]      # the library has no other place for it
