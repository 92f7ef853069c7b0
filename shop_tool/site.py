"""A site's keeper: its process, which is started again whenever it ends, and the files of its folder."""

import asyncio
import collections
import errno
import itertools
import os
import time
from collections.abc import Iterator, Sequence
from typing import TYPE_CHECKING

from .carrier.answers import Answer
from .carrier.files import File
from .carrier.records import text_of
from .carrier.site import FIRST_WAIT, LAST_WAIT, Disagreement, Site, State
from .carrier.sums import LINE_BYTES, compared, why_changed
from .folders import put
from .settings import Settings
from .signals import done, waited
from .times import stamp

if TYPE_CHECKING:
    from .supervisor import Supervisor

PIECE = 1 << 16
KEYS = "keys"           # the file in a site's folder in which a version of before wrote keys of asks
SUMS = "sums"           # the file in a site's folder that has the sums of the lines of `kept`
YIELDS = "yields"       # the file in a site's folder that says that the site has a standby
FENCED = "fenced"       # the file in a site's folder that says why it is never started again


def keep_command(folder: str, site: int, settings: Settings, program: str) -> list[str]:
    """The command that keeps a site."""
    options = ["--site", str(site), "--sites", str(settings.sites), "--keep", str(settings.keep), *settings.site_options()]
    return [program, "keep", folder, *options] + (["--sync"] if settings.sync else [])


class KeptSite(Site):
    shop: "Supervisor"

    def __init__(self, shop: "Supervisor", number: int) -> None:
        self.folder = f"{shop.folder}/{number}"
        super().__init__(shop, number, self._read_out, lambda name: file_at(f"{self.folder}/{name}"))
        self.since = stamp()
        self.process: asyncio.subprocess.Process | None = None
        self.answers: collections.Counter[str] = collections.Counter()     # that askers were told, by what they are
        self._sums = -1                     # the file of sums, once it is open
        self.is_changed = False             # a line of `kept` isn't as its sum says
        self.has_begun = False              # the life of its folder has, that is this supervisor's

    def _read_out(self, pieces: Sequence[tuple[int, int]]) -> list[bytes]:
        return read_pieces(f"{self.folder}/out", pieces)

    def count(self, answer: Answer) -> None:
        """An asker was told this answer."""
        self.answers[answer.refusal or answer.kind.decode()] += 1

    async def run(self) -> None:
        """Starts the keeper, and again whenever it ends, until the shop is stopped or the site is fenced."""
        wait = FIRST_WAIT
        while not self.shop.stopping.is_set and not self.has_lost_files():
            began, self.starts, faults = time.monotonic(), self.starts + 1, self.fault
            self.become(State.STARTING)
            status = await self._live() if self.shop.begins(self) and self.is_unchanged() else "none"
            self.up.clear()
            if self.shop.stopping.is_set or self.fenced_by:
                break
            wait = self.next_wait(wait, time.monotonic() - began, status)
            if self.fault == faults:
                self.fault = stamp(), f"ended with status {status}"
            await waited(self.shop.stopping, wait)
            wait = min(2 * wait, LAST_WAIT)
        self.end()

    async def _live(self) -> int | str:
        """One life of the keeper; its status."""
        command = keep_command(self.folder, self.number, self.shop.settings, self.shop.program) + ["--upgrade"] * self.shop.upgrades
        try:
            process = self.process = await asyncio.create_subprocess_exec(
                *command, stdin=asyncio.subprocess.PIPE, stdout=asyncio.subprocess.PIPE, stderr=asyncio.subprocess.PIPE,
                process_group=0, restore_signals=False)     # a file that is too long is a fault to tell, and so is a reader that has gone
        except OSError as fault:
            self.note_fault(f"{command[0]}: {fault.strerror}")
            return "none"
        assert process.stdout and process.stderr
        if self.shop.stopping.is_set:
            self.stop()         # it was asked for while the process was made
        faults = asyncio.create_task(self._read_faults(process.stderr))
        try:
            await self._read_answers(process.stdout)
        except (Disagreement, ValueError, OSError) as fault:
            self.note_fault(str(fault))
            if isinstance(fault, Disagreement):
                self.fenced_by = self.fenced_by or str(fault)
        finally:
            self.up.clear()
            if process.returncode is None and not self.shop.stopping.is_set and not process.stdout.at_eof():
                process.kill()
        status = await process.wait()
        await faults
        return status

    async def _read_faults(self, stream: asyncio.StreamReader) -> None:
        rest = b""
        while data := await stream.read(PIECE):
            *lines, rest = (rest + data).split(b"\n")
            for line in lines:
                self.note_fault(line.decode("utf-8", "replace"))
            rest = rest[:PIECE]

    async def _read_answers(self, stream: asyncio.StreamReader) -> None:
        head = b""
        while b"\n" not in head:
            if not (data := await stream.read(PIECE)):
                return
            head += data
        line, _, data = head.partition(b"\n")
        began = time.monotonic()
        if self.has_lost_files():
            return
        with open(f"{self.folder}/kept", "rb") as kept, open(f"{self.folder}/out", "rb") as out:
            kept.seek(self.ledger.kept_bytes)
            out.seek(self.ledger.out_bytes)
            await done(self.catch_up(int(line.split(b",")[1]), kept.readline, lambda: out.read(1 << 20)), self.shop.link.do)
        self.shop.event(f"site {self.number}: up with {self.ledger.records} records and {self.ledger.sends.messages} own messages, "
                        f"read in {time.monotonic() - began:.2f} s")
        self.come_up()
        while (data or (data := await stream.read(PIECE))) and self.take(data):
            data = b""

    def become(self, state: State) -> None:
        self.since = stamp()
        super().become(state)

    def write(self, data: bytes) -> None:
        if self.process and self.process.stdin:
            self.process.stdin.write(data)

    def open_sums(self) -> int | None:
        """Opens the file of sums, before the keeper is started; the number of a line of `kept` that was changed."""
        self.sums.count, changed = checked(self.folder)
        if self._sums >= 0:
            os.close(self._sums)    # it was tried before
        self._sums = os.open(f"{self.folder}/{SUMS}", os.O_WRONLY | os.O_CREAT, 0o600)
        if changed is None:
            os.ftruncate(self._sums, self.sums.count * LINE_BYTES)
            os.lseek(self._sums, 0, os.SEEK_END)
        os.fsync(self._sums)        # a power failure takes none that a start has compared
        return changed

    def is_unchanged(self) -> bool:
        """Whether the lines of `kept` are as their sums say, which a keeper that is started again will read; else the site is fenced. Before
        the first one they were compared when the sums were opened."""
        if self.starts > 1:
            try:
                if line := checked(self.folder)[1]:
                    self.is_changed = True
                    self.fence(why_changed(self.number, line))
            except OSError as fault:
                self.note_fault(f"{fault.filename or self.folder}: {fault.strerror or fault}")
                return False
        return not self.is_changed

    def write_sums(self, lines: bytes) -> None:
        if os.write(self._sums, lines) < len(lines):
            raise OSError(errno.ENOSPC, os.strerror(errno.ENOSPC))

    def write_fence(self, text: str) -> None:
        try:
            put(f"{self.folder}/{FENCED}", f"{text}\n")
        except OSError as fault:
            self.shop.event(f"{self.folder}/{FENCED}: {fault.strerror}")

    def write_yields(self, yields: bool) -> None:
        path = f"{self.folder}/{YIELDS}"
        if yields:
            put(path, "a standby may take its place\n")
        elif os.path.exists(path):
            os.unlink(path)

    def stop(self) -> None:
        """Ends the keeper once what it was given is answered."""
        if self.process and self.process.returncode is None and self.process.stdin:
            self.process.stdin.close()

    def kill(self) -> None:
        if self.process and self.process.returncode is None:
            self.process.kill()


# The files of a site's folder.

def file_at(path: str) -> File | None:
    try:
        found = os.stat(path)
    except OSError:
        return None
    return File(found.st_dev, found.st_ino, found.st_size)


def read_pieces(path: str, pieces: Sequence[tuple[int, int]]) -> list[bytes]:
    """Pieces of a file, each by where it begins and its size; an OSError if it isn't all there."""
    file = os.open(path, os.O_RDONLY)
    try:
        found = [os.pread(file, size, start) for start, size in pieces]
    finally:
        os.close(file)
    if len(found[-1]) < pieces[-1][1]:
        raise OSError(errno.EIO, "it has lost its end", path)
    return found


def checked(folder: str) -> tuple[int, int | None]:
    """How many lines of a site's file `kept` are as their sums say, and the number of the first that was changed."""
    return compared(lines_of(f"{folder}/kept"), b"".join(lines_of(f"{folder}/{SUMS}")))


def unchanged(folder: str) -> Iterator[bytes]:
    """The lines of a site's file `kept` that stand in front of the first that was changed."""
    count, changed = checked(folder)
    return itertools.islice(lines_of(f"{folder}/kept"), None if changed is None else count)


def fence_of(folder: str) -> str | None:
    """Why a site's folder is stopped for good, or None. One whose file says nothing more, as after a power failure, is stopped too."""
    if not os.path.lexists(f"{folder}/{FENCED}"):
        return None
    return text_of(next(lines_of(f"{folder}/{FENCED}"), b"").strip()) or f"its file `{FENCED}` doesn't say why"


def lines_of(path: str) -> Iterator[bytes]:
    """The lines of a file; none if it isn't there."""
    try:
        with open(path, "rb") as file:
            yield from file
    except (FileNotFoundError, NotADirectoryError):
        pass
