"""rebuild and adopt: a site whose folder was lost, or was moved."""

import argparse
import asyncio
import contextlib
import os
from typing import Any

from . import here, settings, witness
from .carrier.lives import count_of, life_text
from .carrier.rebuilding import UNCHANGED, Rebuild, adopted
from .carrier.steps import CallAll, Result, Steps, Swap, TakeOver, TakePlace
from .ends import Fault, Status
from .folders import swapped
from .lives import lives_of, take_place
from .signals import done
from .site import FENCED
from .stopped import stopped_shop
from .streams import Streams, faults, reason_of


def rebuild(args: argparse.Namespace) -> int:
    """Makes the folder of a site again from what it sent. The shop's sites here are stopped meanwhile."""
    now = stopped_shop(args)
    stopped = Stopped(args.folder, now)
    machine = Rebuild(args.site, now.sites, now.here, args.anyway)
    count = stopped.done(machine.over_files() if now.over == settings.FILES else machine.over_server())
    lost = stopped.lost
    print(f"site {args.site}: {count} packets of its own came out again as they were" + (f"; what was there is {lost}" if lost else ""))
    return Status.WELL


def adopt(args: argparse.Namespace) -> int:
    """Says that this folder has the site from now on: it was moved here, or is a copy whose origin is gone."""
    now = stopped_shop(args)
    if now.over == settings.FILES:
        raise Fault(Status.MISUSE, f"{args.folder} is a shop over files: no other folder can have its sites")
    Stopped(args.folder, now).done(adopted(args.site))
    return Status.WELL


class Stopped:
    """The folder of a shop that is stopped, and its server."""

    def __init__(self, folder: str, now: settings.Settings) -> None:
        self.folder, self.now, self.here = folder, now, here.Here(folder, now)
        self.lost: str | None = None        # where the folder is whose place another one took

    def done(self, steps: Steps[Result]) -> Result:
        """Has these steps done."""
        async def over_server() -> Result:
            async with Streams(self.now, os.path.realpath(self.folder)) as self.server:
                return await done(steps, self.do)
        if self.now.over == settings.FILES:
            return asyncio.run(done(steps, self.do))
        try:
            return asyncio.run(over_server())
        except faults() as fault:
            raise Fault(Status.AWAY, f"{self.now.shown_over}: {reason_of(fault)}; {UNCHANGED}") from fault

    async def do(self, step: tuple[Any, ...]) -> Any:
        if isinstance(step, here.STEPS):
            return await self.here.do(step)
        match step:
            case CallAll(request, sites, seconds):
                return {site: await self.server.call(request, site, seconds) for site in sites}
            case Swap(site, starts):
                take_place(f"{self.folder}/{site}.new", max(starts, len(lives_of(f"{self.folder}/{site}"))))
                for other in self.now.here:     # it may bring a later turn of the token than they know
                    witness.forget(its := f"{os.path.realpath(self.folder)}/{other}", lives_of(its))
                self.lost = swapped(self.folder, site)
                return None
            case TakePlace(site, starts):
                with contextlib.suppress(FileNotFoundError):
                    os.unlink(f"{self.folder}/{site}/{FENCED}")
                return take_place(f"{self.folder}/{site}", starts)
        return await self.server.do(step)


async def took_over(step: TakeOver, folder: str, server: Streams) -> bool:
    """Has the folder SITE.new take the place of a site that runs nowhere; False if the server doesn't give it that. The life that is seen from
    then on counts more than the one before: that may be of a folder that took the site over too, and hasn't begun a life of its own."""
    new = f"{folder}/{step.site}.new"
    take_place(new, count_of(step.life) + 1)
    if not await server.take_over(step.site, step.life, step.last, life_text(lives_of(new))):
        return False
    swapped(folder, step.site)
    return True
