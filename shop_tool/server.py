"""What the supervisor answers on the socket in its folder: a request is a line of JSON, and so is each answer to it; the last one has `end`.
A connection has one request, or, after a line {"op": "several"}, many at once: each has a number `call`, which its answers have too, and
{"leave": CALL} leaves one (`shop_ask.several`)."""

import asyncio
import contextlib
import functools
import json
import os
import socket
import time
from collections.abc import Awaitable, Callable
from typing import Any

from shop_ask.lines import Reader
from shop_ask.several import READER_SECONDS, UNREAD_BYTES, Several

from .carrier.asking import Ask
from .carrier.records import bare, text_of
from .carrier.steps import KeptOf, Steps
from .carrier.steps import Say as SayAnswer
from .carrier.told import FORM, unanswered
from .ends import Fault, Status
from .reads import Reads
from .requests import (REQUEST_BYTES, Request, asks_of, field, listing_of, message_of, no_request, page_of, request_of, row_of_request, seconds_of,
                       site_of)
from .signals import Together, done, waited
from .site import KeptSite
from .supervisor import Supervisor

CONNECTIONS = 500
WAITING = 100               # how many connections may wait until they are taken
REFUSE_SECONDS = 2.0        # how long one that is too many has to say what it wants
SEVERAL = b'{"op": "several"}\n'
AUDITED = [b"list,log", b"list,tables"]

Say = Callable[[dict[str, Any]], Awaitable[None]]


class Server:
    def __init__(self, shop: Supervisor) -> None:
        self.shop = shop
        self.connections: set[asyncio.StreamWriter] = set()
        self.reads = Reads(shop)

    async def listen(self) -> None:
        # A socket's path has at most 107 bytes, so the folder is named by a number.
        folder = os.open(self.shop.folder, os.O_PATH | os.O_DIRECTORY)
        try:
            try:
                os.unlink("sock", dir_fd=folder)
            except FileNotFoundError:
                pass
            loop = asyncio.get_running_loop()

            def made() -> asyncio.StreamReaderProtocol:
                return asyncio.StreamReaderProtocol(Reader(limit=REQUEST_BYTES, loop=loop), self._connected, loop=loop)
            listening = socket.socket(socket.AF_UNIX)
            listening.bind(f"/proc/self/fd/{folder}/sock")
            self.inode = os.stat("sock", dir_fd=folder).st_ino
            # The loop takes one connection at a time: where there are no more files, it tries again once for each that it would take.
            self.server = await loop.create_unix_server(made, sock=listening, backlog=1)
            listening.listen(WAITING)
        finally:
            os.close(folder)

    async def look_after(self) -> None:
        """Listens again where its socket was removed, or another file stands in its place: else nobody could reach it any more."""
        try:
            if os.stat(f"{self.shop.folder}/sock").st_ino == self.inode:
                return
        except OSError:
            pass
        self.server.close()
        with contextlib.suppress(OSError):      # it is tried again
            await self.listen()
            self.shop.event("supervisor: its socket was gone, and is there again")

    async def close(self) -> None:
        self.server.close()
        try:
            os.unlink(f"{self.shop.folder}/sock")
        except OSError:
            pass
        for writer in list(self.connections):
            writer.close()

    async def _connected(self, reader: asyncio.StreamReader, writer: asyncio.StreamWriter) -> None:
        say = functools.partial(said, AtOnce(writer), {})
        self.connections.add(writer)
        try:
            is_one_too_many = len(self.connections) > CONNECTIONS
            try:
                line = await asyncio.wait_for(reader.readline(), REFUSE_SECONDS if is_one_too_many else READER_SECONDS)
            except ValueError:
                return await self._refuse_long(reader, say)
            if not line.endswith(b"\n"):
                return
            if is_one_too_many:
                return await say(end_of(Fault(Status.AWAY, f"{CONNECTIONS} others are connected; nothing was asked")))
            if line == SEVERAL and isinstance(reader, Reader):
                return await Several(self, reader, writer).run()
            serving = asyncio.create_task(self._serve_line(line, reader, say))
            # A client that goes takes its request along, unless a site has it already.
            gone = asyncio.create_task(reader.read(1))
            await asyncio.wait({gone, serving}, return_when=asyncio.FIRST_COMPLETED)
            gone.cancel()
            if not serving.done():
                serving.cancel()
            await asyncio.gather(serving, return_exceptions=True)
        except (OSError, TimeoutError):
            pass        # the client has gone, or reads nothing
        finally:
            self.connections.discard(writer)
            writer.close()

    async def _refuse_long(self, reader: asyncio.StreamReader, say: Say) -> None:
        """Reads the rest, since a client that is writing still wouldn't see the answer."""
        await say(end_of(no_request(f"it has more than {REQUEST_BYTES} bytes")))
        async with asyncio.timeout(REFUSE_SECONDS):
            while await reader.read(1 << 20):
                pass

    async def _serve_line(self, line: bytes, reader: asyncio.StreamReader, say: Say) -> None:
        if reader.at_eof():
            return          # the client has gone already
        try:
            request = request_of(line)
        except Fault as fault:
            return await say(end_of(fault))
        await self.serve(request, say)

    async def serve(self, request: Request, say: Say, called: KeptSite | None = None) -> None:
        """Answers one request, of a client, or of another supervisor that calls a site here; the last answer has `end`."""
        try:
            if called and request.get("op") != "status":
                answer = await self._answer_of(called, request, say)
            else:
                answer = await self.answer(request, say)
            last = end_of(None) | (answer or {})
        except Exception as fault:
            last = end_of(self.fault_of(fault, request))
        await say(last)

    def fault_of(self, fault: Exception, request: Request) -> Fault:
        """What is said where a request failed."""
        if isinstance(fault, Fault):
            return fault
        if isinstance(fault, OSError):
            return Fault(Status.AWAY, f"{fault}{unanswered(request)}")
        self.shop.event(f"a fault of its own: {fault!r}")
        return Fault(Status.AWAY, f"a fault of its own: {fault!r}{unanswered(request)}")

    async def answer(self, request: Request, say: Say) -> dict[str, Any] | None:
        """Answers one request; the last answer is what this returns. Requests of a site elsewhere go there."""
        match request.get("op"):
            case "status":
                well, shop = await self.shop.status()
                return {"well": well, "shop": shop}
            case "stop":
                self.shop.stop("asked to stop")
                await waited(self.shop.stopping)
                if self.shop.stays:
                    await say({"said": self.shop.stays})
                await asyncio.Event().wait()        # the connection ends with the supervisor
            case "cut":
                return {"cut": self._cut()}
            case "logs":
                return await self._logs(request, say)
            case "follow":
                return await self._follow(request, say)
        number = site_of(request, self.shop.settings.sites)
        site = self.shop.sites.get(number)
        if site is None or site.fenced_by and await self.shop.link.runs_elsewhere(site):
            return await self._elsewhere(request, number, say)
        return await self._answer_of(site, request, say)

    async def _answer_of(self, site: KeptSite, request: Request, say: Say) -> dict[str, Any] | None:
        """The answer of a site here."""
        if (form := field({"form": FORM} | request, "form", int)) > FORM:
            raise Fault(Status.AWAY, f"site {site.number} runs on a machine with an earlier version of shop, which knows requests up to form {FORM}, "
                        f"and this is of form {form}: upgrade it; nothing was asked")
        seconds = seconds_of(request)
        match request.get("op"):
            case "ask" if form == 0:
                raise Fault(Status.AWAY, f"site {site.number} runs on a machine with a later version of shop, which takes only asks that name the "
                            "life of the site that they are for, and this one names none: upgrade the machine here; nothing was asked")
            case "ask":
                await self._ask(site, request, say)
                return None
            case "list":
                rows, = await self.reads.listings(site, [listing_of(request)], seconds)
                return {"rows": rows} | ({"lines": [f"reply,0,rows,{len(rows)}", *rows]} if form == 0 else {})
            case "row":
                return {"row": await self.reads.row(site, *row_of_request(request), seconds)}
            case "page":
                rows, following = await self.reads.page(site, listing_of(request), *page_of(request), seconds)
                return {"rows": rows, "next": following}
            case "log":
                return {"text": await self._log(site, seconds)}
            case "have":
                return await self._have(site, field(request, "origin", int), field(request, "after", int))
            case "count":
                # Behind whatever was given before.
                await self.reads.settle(site, seconds)
                return {"count": site.ledger.sends.messages}
            case "wait":
                await self._wait(site, seconds)
                return None
            case "has":
                return {"has": await self._has(site, request, seconds)}
        raise no_request(f"there is none of the name {request.get('op')!r}")

    async def _elsewhere(self, request: Request, site: int, say: Say) -> dict[str, Any]:
        answers = await self.shop.link.call(request, site, seconds_of(request))
        if not answers:
            raise Fault(Status.AWAY, f"site {site} runs on another machine, and gives no answer{unanswered(request)}")
        for answer in answers[:-1]:
            await say(answer)
        return answers[-1]

    def ask_of(self, site: KeptSite, request: Request) -> Steps[None]:
        """The steps of an ask, which is checked whole."""
        asked, seconds = asks_of(request), seconds_of(request)
        if self.shop.is_leaving:
            raise Fault(Status.AWAY, "the shop is being stopped; nothing was asked")
        return Ask(site, seconds, asked.fetches_token, asked.published).run(asked.records)

    async def _ask(self, site: KeptSite, request: Request, say: Say) -> None:
        async def do(step: tuple[Any, ...]) -> Any:
            if not isinstance(step, SayAnswer):
                return await self.shop.link.do(step)
            site.count(step.answer)
            return await say({"record": text_of(bare(step.record)), "lines": [text_of(line) for line in step.answer.lines]})

        await done(self.ask_of(site, request), do)

    async def _log(self, site: KeptSite, seconds: float) -> str:
        """A site's log and tables of one moment, as records for an audit."""
        log, tables = await self.reads.listings(site, AUDITED, seconds)
        return "\n".join([f"site,{site.number}", *(line.split(",", 3)[3] for line in log), *tables]) + "\n"

    async def _have(self, site: KeptSite, origin: int, after: int) -> dict[str, Any]:
        """What a site has of another one beyond a number, and all tokens that came to it, or went to the other: for a rebuild of that."""
        messages, tokens = await self.shop.link.here.do(KeptOf(site.number, origin, after)) or ([], [])
        return {"messages": [text_of(text) for _, text in messages], "tokens": [text_of(text) for text in tokens]}

    def _cut(self) -> dict[int, dict[str, int]]:
        """How many bytes of the files of each site here are answered, at one moment: what a site has of another is in that one's bytes too."""
        return {site.number: {"kept": site.ledger.kept_bytes, "out": site.ledger.out_bytes} for site in self.shop.sites.values() if site.known.is_set}

    async def _logs(self, request: Request, say: Say) -> dict[str, Any]:
        until = time.monotonic() + seconds_of(request)
        for number in range(self.shop.settings.sites):
            one = {"op": "log", "site": number, "timeout": max(until - time.monotonic(), 0.001)}
            try:
                answer = await self.answer(one, say)
            except Fault as fault:
                raise Fault(Status.AWAY, f"no log came from site {number}: {fault.text}") from None
            if answer and "text" in answer:
                await say({"text": answer["text"]})
            else:
                raise Fault(Status.AWAY, f"no log came from site {number}: {(answer or {}).get('fault', 'no answer')}")
        return {"sites": self.shop.settings.sites}

    async def _wait(self, site: KeptSite, seconds: float) -> None:
        """Returns once the site is up and has all that the others sent."""
        until = time.monotonic() + seconds
        try:
            await asyncio.wait_for(self.shop.link.refresh(), seconds)
        except TimeoutError:
            pass        # the server hangs, and the state of the link says so
        while not site.up.is_set or self.shop.link.state != "up" or any(self.shop.behind(site).values()):
            if site.fenced_by:
                raise site.gone()
            if not await waited(self.shop.progress, max(until - time.monotonic(), 0.001)):
                lacks = ", ".join(f"{count} of site {origin}" for origin, count in self.shop.behind(site).items() if count)
                lacks = f", and lacks messages: {lacks}" if lacks else ""
                raise Fault(Status.AWAY, f"site {site.number} is {site.state}{lacks}")

    async def _has(self, site: KeptSite, request: Request, seconds: float) -> bool:
        """Whether the site has released a message within some time."""
        until = time.monotonic() + seconds
        name = message_of(request, self.shop.settings.sites)
        if not name:
            raise Fault(Status.MISUSE, f"{request['id'][:80]!r} is the id of no message")
        while site.ledger.release.counts[name[0]] < name[1]:
            if site.fenced_by:
                raise site.gone()
            if not await waited(self.shop.progress, max(until - time.monotonic(), 0.001)):
                return False
        return True

    async def _follow(self, request: Request, say: Say) -> dict[str, Any]:
        """Says how many bytes of the file of events, or of a site's answers, stand there, and then each line that comes behind them."""
        number = None if request.get("site") is None else site_of(request, self.shop.settings.sites)
        if number is not None and number not in self.shop.sites:
            raise Fault(Status.MISUSE, f"site {number} doesn't run here")
        site = None if number is None else self.shop.sites[number]
        if site:
            await self._until_known(site)
        follower, stood = self.shop.follow(site)
        try:
            await say({"stood": stood})
            while not follower.is_cut:
                await say({"line": await follower.lines.get()})
        finally:
            self.shop.unfollow(site, follower)
        raise Fault(Status.AWAY, "the reader was too slow")

    async def _until_known(self, site: KeptSite) -> None:
        """Returns once it has been read what the site kept before."""
        while not site.known.is_set:
            if site.fenced_by or self.shop.stopping.is_set:
                raise Fault(Status.AWAY, f"site {site.number}: {site.fenced_by or 'the shop is being stopped'}")
            await waited(self.shop.changes)


class AtOnce(Together):
    """Writes each answer at once: a connection that has one request ends with its last one."""

    def write(self, data: bytes) -> None:
        self.writer.write(data)


async def said(to: Together, name: dict[str, Any], answer: dict[str, Any]) -> None:
    """Says an answer, under the number of its request if that has one."""
    to.write(json.dumps(name | answer).encode() + b"\n")
    if to.writer.transport.get_write_buffer_size() > UNREAD_BYTES:
        await asyncio.wait_for(to.writer.drain(), READER_SECONDS)


def end_of(fault: Fault | None) -> dict[str, Any]:
    return {"end": True, "status": fault.status, "fault": fault.text} if fault else {"end": True}
