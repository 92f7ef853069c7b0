"""Carries packets over the streams of a Redis server."""

import asyncio
import contextlib
import time
from collections.abc import Callable, Sequence
from typing import TYPE_CHECKING, Any, cast

from . import here
from .carrier.over_files import UP
from .carrier.over_server import ServerLink
from .carrier.site import Site
from .carrier.steps import Broken, CallAll, Connect, IsRunning, SayLeave, SayWant, TakeOver, UpElsewhere
from .link import Carrying
from .rebuild import took_over
from .requests import Request, request_of
from .signals import done
from .site import KeptSite
from .streams import Streams, faults, is_at, reason_of, run_by

if TYPE_CHECKING:
    from .supervisor import Supervisor

LAST_SECONDS = 2.0          # how long a stop waits for what was answered last to be published


class StreamLink(ServerLink, Carrying):
    shop: "Supervisor"

    def __init__(self, shop: "Supervisor") -> None:
        super().__init__(shop, shop.settings.shown_over)
        self.main, self.here = Streams(shop.settings, shop.folder), here.Here(shop.folder, shop.settings)

    def named(self, site: Site) -> str:
        return run_by(cast(KeptSite, site).folder)

    async def run(self) -> None:
        await asyncio.gather(*(self._work(name, work) for name, work in self.works_of().items()))

    async def run_site(self, site: KeptSite) -> None:
        await asyncio.gather(*(self._work(name, work) for name, work in self.works_of_site(site).items()))

    async def _work(self, name: str, work: Callable[[], Any]) -> None:
        connection = Connection(self)
        try:
            await done(self.forever(name, work), connection.do)
        finally:
            await connection.close()

    async def do(self, step: tuple[Any, ...]) -> Any:
        """Does a step whose failure changes nothing: it is done again, or what isn't known is told so."""
        with contextlib.suppress(*faults()):
            match step:
                case SayWant(site, known):
                    return await self.main.say({"want": site, "known": known})
                case SayLeave():
                    return await self.main.say({"leave": ",".join(map(str, self.shop.sites))})
                case IsRunning(site, seconds):
                    status = await asyncio.wait_for(self.status_of(site), seconds)
                    return status is not None and status["state"] == "up"
                case UpElsewhere():
                    statuses = await self.main.statuses()
                    return {site for site, status in statuses.items() if site not in self.shop.sites and status["state"] == "up"}
                case CallAll(request, sites, seconds):
                    return await self._call_all(request, sites, seconds)
                case _:
                    raise NotImplementedError(step)
        return set() if isinstance(step, UpElsewhere) else None

    async def _call_all(self, request: Request, sites: Sequence[int], seconds: float) -> dict[int, list[dict[str, Any]]]:
        asked = {asyncio.create_task(self.call(request, site, seconds)): site for site in sites}
        answered, late = await asyncio.wait(asked, timeout=seconds) if asked else (set(), set())
        for task in late:
            task.cancel()
        return {asked[task]: answers for task in answered if (answers := task.result())}

    async def finish(self) -> None:
        """Waits a moment until what was answered last is published; else that comes after the next start. Takes the statuses back."""
        until = time.monotonic() + LAST_SECONDS
        while self.state == UP and time.monotonic() < until and not self.is_published():
            await asyncio.sleep(0.02)
        self.is_over = True
        with contextlib.suppress(*faults()):        # they expire
            await self.main.forget([site.number for site in self.own_sites()])
            for number in self.shop.standby:
                await self.main.leave(number)

    async def refresh(self) -> None:
        try:
            await done(self.look(), self.main.do)
        except faults() as fault:
            self.fail("tell", reason_of(fault))

    def called(self, site: Site, fields: dict[bytes, bytes]) -> Callable[[], None]:
        name, request = fields[b"call"].decode(), request_of(fields[b"request"])
        request["form"] = int(fields.get(b"form", b"1")) if b"life" in fields else 0

        def answer() -> None:
            self.shop.task(self._called(name, cast(KeptSite, site), request), is_needed=False)
        return answer

    async def _called(self, name: str, site: KeptSite, request: Request) -> None:
        answers: list[dict[str, Any]] = []

        async def say(answer: dict[str, Any]) -> None:
            answers.append(answer)
        await self.shop.server.serve(request, say, site)
        with contextlib.suppress(*faults()):        # its asker is told that no answer came
            await self.main.reply(name, answers)

    async def call(self, request: Request, site: int, seconds: float) -> list[dict[str, Any]] | None:
        with contextlib.suppress(*faults()):
            async with Streams(self.shop.settings, self.shop.folder) as server:
                return await server.call(request, site, seconds)
        return None

    async def status_of(self, site: int) -> dict[str, Any] | None:
        with contextlib.suppress(*faults()):
            return (await self.main.statuses()).get(site)
        return None

    async def runs_elsewhere(self, site: KeptSite) -> bool:
        with contextlib.suppress(*faults()):
            status, owner = (await self.main.statuses()).get(site.number), await self.main.owner(site.number)
            # What this supervisor said last of a site that was taken over meanwhile may still stand there as its status.
            return status is not None and not is_at(owner or str(status.get("by", "")), site.folder)
        return False

    async def message(self, origin: int, number: int) -> bytes | None:
        if origin in self.shop.sites:
            return self.shop.sites[origin].ledger.sends.at((number, 0))
        with contextlib.suppress(*faults()):
            return await self.main.message(origin, number)
        return None


class Connection:
    """One connection of the link, over which the steps of one machine are done."""

    def __init__(self, link: StreamLink) -> None:
        self.link = link
        self.server: Streams | None = None

    async def do(self, step: tuple[Any, ...]) -> Any:
        folder, settings = self.link.shop.folder, self.link.shop.settings
        if isinstance(step, here.STEPS):
            return await self.link.here.do(step)
        if isinstance(step, CallAll):
            return await self.link.do(step)
        try:
            if isinstance(step, Connect):
                await self.close()
                self.server = Streams(settings, folder)
                return None
            assert self.server
            return await (took_over(step, folder, self.server) if isinstance(step, TakeOver) else self.server.do(step))
        except faults() as fault:
            raise Broken(reason_of(fault)) from fault

    async def close(self) -> None:
        server, self.server = self.server, None
        if server:
            await server.close()
