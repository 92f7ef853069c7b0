"""What carries packets between the sites of a shop, and what sites on other machines are asked over."""

import abc
import asyncio
from typing import TYPE_CHECKING, Any

from . import here
from .carrier.over_files import FileLink
from .carrier.shop import Link
from .carrier.steps import CallAll, IsRunning, SayLeave, SayWant, UpElsewhere
from .requests import Request
from .signals import done
from .site import KeptSite

if TYPE_CHECKING:
    from .site import KeptSite
    from .supervisor import Supervisor


class Carrying(Link):
    """A link as the supervisor and its socket use it."""

    here: here.Here

    @abc.abstractmethod
    async def run(self) -> None:
        """Carries packets until it is cancelled."""

    @abc.abstractmethod
    async def do(self, step: tuple[Any, ...]) -> Any:
        """Does a step of a machine of the shop."""

    @abc.abstractmethod
    async def message(self, origin: int, number: int) -> bytes | None:
        """A message by its id, if it was sent."""

    async def run_site(self, site: "KeptSite") -> None:
        """Carries packets of a site that came here later, until it is cancelled."""

    async def finish(self) -> None:
        """What is to be done when the sites here have stopped. Nothing is carried after that."""

    async def refresh(self) -> None:
        """Brings `sent` up to date."""

    async def status_of(self, site: int) -> dict[str, Any] | None:
        """The status of a site that doesn't run here."""
        return None

    async def runs_elsewhere(self, site: KeptSite) -> bool:
        """Whether a site that is stopped for good here runs in a folder of another name, as one does whose place a standby has taken."""
        return False

    async def call(self, request: Request, site: int, seconds: float) -> list[dict[str, Any]] | None:
        """What the supervisor of a site elsewhere answers to a request; None if it gives no answer."""
        return None


class LinkOverFiles(FileLink, Carrying):
    shop: "Supervisor"

    def __init__(self, shop: "Supervisor") -> None:
        super().__init__(shop)
        self.here = here.Here(shop.folder, shop.settings)

    async def run(self) -> None:
        sites = self.shop.sites.values()
        await asyncio.gather(*(done(steps, self.do) for site in sites for steps in (self.compare(site), self.read(site))))

    async def do(self, step: tuple[Any, ...]) -> Any:
        if isinstance(step, here.STEPS):
            return await self.here.do(step)
        match step:
            case SayWant(site, known):
                self.shop.hear_want(site, known)
            case IsRunning(site):
                return self.shop.sites[site].up.is_set
            case UpElsewhere():
                return set()
            case CallAll():
                return {}
            case SayLeave():
                pass
            case _:
                raise NotImplementedError(step)

    async def message(self, origin: int, number: int) -> bytes | None:
        return self.shop.sites[origin].ledger.sends.at((number, 0))
