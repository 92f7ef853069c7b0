"""The steps of machines that are done in the folder of a shop, without a server."""

import asyncio
import os
import shutil
import subprocess
from typing import Any

from . import program
from .carrier.answers import AnswerReader
from .carrier.ledger import kept_in, sends_of
from .carrier.rebuilding import UNCHANGED, Given
from .carrier.steps import Kept, KeptOf, Replay, SeeHere, SeenHere, SentHere
from .ends import Fault, Status
from .folders import synced
from .lives import Seen
from .settings import Settings
from .site import keep_command, lines_of, unchanged

STEPS = (KeptOf, SentHere, SeenHere, SeeHere, Replay)


class Here:
    """A shop's folder."""

    def __init__(self, folder: str, settings: Settings) -> None:
        self.folder, self.settings = folder, settings
        self.seen = Seen(folder)

    async def do(self, step: tuple[Any, ...]) -> Any:
        """Does one of these steps, which may take long."""
        match step:
            case KeptOf(keeper, origin, after):
                return await asyncio.to_thread(self._kept_of, keeper, origin, after)
            case SentHere(site):
                return await asyncio.to_thread(lambda: sends_of(lines_of(f"{self.folder}/{site}/out")))
            case Replay(site, records):
                return await asyncio.to_thread(self._replay, site, records)
            case SeenHere(site):
                return self.seen[site]
            case SeeHere(site, life):
                self.seen[site] = life

    def _kept_of(self, keeper: int, origin: int, after: int) -> Kept | None:
        its = f"{self.folder}/{keeper}"
        return kept_in(unchanged(its), lines_of(f"{its}/out"), origin, after) if os.path.exists(f"{its}/kept") else None

    def _replay(self, site: int, steps: list[Given]) -> None:
        """Gives the steps to a fresh site in the folder SITE.new."""
        new = f"{self.folder}/{site}.new"
        shutil.rmtree(new, ignore_errors=True)
        given = b"".join(step.record + b"\n" for step in steps)
        done = subprocess.run(keep_command(new, site, self.settings, program.path()), input=given, stdout=subprocess.PIPE)
        answers = AnswerReader().feed(done.stdout.partition(b"\n")[2])
        for step, answer in zip(steps, answers):
            if answer.packet != step.packet or answer.refusal:
                want = step.packet.decode() if step.packet else "nothing"
                raise Fault(Status.REFUSED, f"{step.record.decode()} sends {want} no more, but {answer.lines}: {UNCHANGED}")
        if done.returncode or len(answers) < len(steps):
            raise Fault(Status.REFUSED, f"the site in {new} ended with status {done.returncode}: {UNCHANGED}")
        for name in ("kept", "out", ""):
            synced(f"{new}/{name}")
