"""The supervisor of a shop: runs the sites of one folder, has their packets carried, and hands the token on. One thread, by asyncio."""

import asyncio
import contextlib
import os
import signal
import socket
import time
from collections.abc import Callable, Coroutine
from typing import TYPE_CHECKING, Any

from .carrier.records import RECORDS_OF_A_RUN, Purpose, text_of
from .carrier.shop import HAND_OVER_SECONDS, Shop
from .carrier.site import Site, State
from .carrier.steps import Steps
from .carrier.sums import why_changed
from .ends import Fault, Status
from .folders import put_in_place
from .grid import waits_of
from .lives import begin_life, lives_of
from .lock import take_lock
from .open_files import Faults, take_more
from .program import known_by
from .reads import STATE
from .render import shown
from .settings import FILES, Settings, moved_here, write
from .signals import done, is_over_within, waited
from .site import KEYS, YIELDS, KeptSite, fence_of, lines_of
from .times import changed, stamp
from .witness import MEMORY, Witness, forget, has_all, witnessed

if TYPE_CHECKING:
    from .link import Carrying

EVENTS_BYTES = 16 << 20     # a start puts the events aside when there are more
FOLLOWED_LINES = 10_000     # how many lines a follower may be behind before it is cut off
SILENT_SECONDS = 5.0        # after which a keeper that hasn't answered is said to hang
LOOK_SECONDS = 1.0          # how often it looks whether its folder is still there
COMPARE_SECONDS = 10.0      # how long a start waits until its sites are compared with their streams
SHOWN_WAITS = 20            # how many messages that wait a status names
STOP_SECONDS = 30.0         # how long a stop waits for what sites were given to be answered
END_SECONDS = 3.0           # how long it then waits for each of: sites that are killed, the link, the clients, its tasks


class Follower:
    """Somebody who reads along: events, or a site's records and answers."""

    def __init__(self) -> None:
        self.lines: asyncio.Queue[str | None] = asyncio.Queue(FOLLOWED_LINES)
        self.is_cut = False

    def tell(self, line: str) -> None:
        try:
            self.lines.put_nowait(line)
        except asyncio.QueueFull:
            self.is_cut = True


class Supervisor(Shop):
    sites: dict[int, KeptSite]
    link: "Carrying"

    def __init__(self, folder: str, settings: Settings, program: str, is_alone: bool, upgrades: bool = False) -> None:
        super().__init__(settings.sites, is_alone)
        self.folder, self.settings, self.program, self.upgrades = os.path.realpath(folder), settings, program, upgrades
        self.asks_questions, self.knows_keys = known_by(program, MEMORY, self.folder)
        self.prints_events = "SHOP_READY" not in os.environ     # it runs in the foreground, or for systemd
        self.since = stamp()
        self.status_at_end = Status.WELL
        self.tasks: set[asyncio.Task[None]] = set()
        self.followers: dict[int | None, set[Follower]] = {}
        self.events = self._open_events()
        self.sites = {number: KeptSite(self, number) for number in settings.here}
        self.standby, self.after = settings.standby, settings.after
        self.site_tasks: list[asyncio.Task[None]] = []
        self.others: list[asyncio.Task[None]] = []
        self.link = self._new_link()
        from .server import Server
        self.server = Server(self)

    def _new_link(self) -> "Carrying":
        if self.settings.over == FILES:
            from .link import LinkOverFiles
            return LinkOverFiles(self)
        from .stream_link import StreamLink
        return StreamLink(self)

    now, unix_time = staticmethod(time.monotonic), staticmethod(time.time)
    stamp = staticmethod(stamp)

    def later(self, seconds: float, call: Callable[[], None]) -> None:
        asyncio.get_running_loop().call_later(seconds, call)

    def soon(self, call: Callable[[], None]) -> None:
        asyncio.get_running_loop().call_soon(call)

    def begin(self, steps: Steps[None]) -> None:
        self.task(done(steps, self.link.do), is_needed=False)

    def witness_of(self, site: Site, answered: int) -> Callable[[int], None]:
        return Witness(self.sites[site.number].folder, site.lives, answered).tell

    def forget(self, site: Site) -> None:
        forget(self.sites[site.number].folder, site.lives)

    # Events, and who follows them.

    def _open_events(self) -> int:
        path = f"{self.folder}/events"
        if os.path.exists(path) and os.path.getsize(path) > EVENTS_BYTES:
            os.rename(path, f"{path}.before")
        return os.open(path, os.O_WRONLY | os.O_CREAT | os.O_APPEND, 0o600)

    def event(self, text: str) -> None:
        line = f"{stamp()} {shown(text)}"
        if self.prints_events:
            with contextlib.suppress(OSError):
                print(line, flush=True)
        try:
            os.write(self.events, line.encode() + b"\n")
        except OSError:
            pass        # a full disk must not stop the sites that still answer
        for follower in self.followers.get(None, ()):
            follower.tell(line)

    def follow(self, site: KeptSite | None) -> tuple[Follower, int]:
        """Somebody who is told each event, or each record and answer of a site, from now on; and how many bytes of the file `events`, or
        of the site's file `out`, have those of before. What the site was given and hasn't answered comes first."""
        follower = Follower()
        self.followers.setdefault(site.number if site else None, set()).add(follower)
        if not site:
            return follower, os.fstat(self.events).st_size
        for record in site.unanswered():
            follower.tell(f"{stamp()} < {text_of(record)}")
        return follower, site.ledger.out_bytes

    def unfollow(self, site: KeptSite | None, follower: Follower) -> None:
        number = site.number if site else None
        self.followers[number].discard(follower)
        if not self.followers[number]:
            del self.followers[number]

    def is_followed(self, site: int) -> bool:
        return site in self.followers

    def tell_followers(self, site: int, lines: list[bytes]) -> None:
        for follower in self.followers.get(site, ()):
            for line in lines:
                follower.tell(f"{stamp()} {text_of(line)}")

    # How it is.

    def status_of(self, site: Site) -> dict[str, Any]:
        ledger, kept = site.ledger, self.sites[site.number]
        return super().status_of(site) | {
            "since": kept.since, "records": ledger.records, "records_left": RECORDS_OF_A_RUN - ledger.records, "messages": ledger.messages,
            "behind": {str(origin): count for origin, count in self.behind(site).items()},
            "released": list(ledger.release.counts), "held": len(ledger.release.waiting),
            "waits": [waits.record for waits in waits_of(ledger.release, SHOWN_WAITS)], "answered": changed(f"{kept.folder}/out"),
            "yields": site.yields, "sent": len(ledger.sends), "published": self.link.published(site), "waiting": len(site.line) + site.token_askers,
            "starts": site.starts, "pid": kept.process.pid if kept.process and kept.process.returncode is None else None,
            "full": ledger.messages >= self.settings.keep, "silent": silent if (silent := round(site.silent_seconds, 1)) > SILENT_SECONDS else None,
            "fault": " ".join(site.fault) if site.fault else None, "faults": site.faults, "answers": dict(kept.answers),
        }

    def _status_here(self, site: KeptSite) -> dict[str, Any]:
        """How a site here is, for those who ask it: up only if it takes asks. The others want to know whether it runs."""
        status = self.status_of(site)
        return status | {"state": State.WAITING} if status["state"] is State.UP and not site.opened.is_set else status

    async def status(self) -> tuple[bool, dict[str, Any]]:
        """Whether all is well, and how the shop and each of its sites is."""
        sites = []
        for number in range(self.settings.sites):
            if number in self.sites:
                sites.append(self._status_here(self.sites[number]))
            else:
                sites.append(await self.link.status_of(number) or {"site": number, "state": "away"})
        holder = next((one["site"] for one in sites if one.get("holds_token") and one["turn"] >= self.wants.turn), None)
        well = self.link.state == "up" and all(one["state"] == State.UP and not one.get("full") and not one.get("silent") for one in sites)
        return well, {
            "folder": self.folder, "sites": self.settings.sites, "over": self.settings.shown_over, "sync": self.settings.sync,
            "keep": self.settings.keep, "pid": os.getpid(), "since": self.since, "stopping": self.is_leaving,
            "link": self.link.state, "token": holder, "keys": self.knows_keys and self.link.without_keys == (),
            "token_turn": self.wants.turn, "token_sent_to": self.wants.holder, "token_wanted_by": self.wants.waiting(),
            "standby": list(self.standby), "after": self.after, "site": sites,
        }

    # Its life.

    def stop(self, why: str) -> None:
        if not self.is_leaving:
            self.event(f"supervisor: {why}")
            self.is_leaving = True
            self.task(self._leave())

    async def _leave(self) -> None:
        """Hands the token over, if there is somebody elsewhere, and stops the sites once what they were given is answered."""
        try:
            if len(self.sites) < self.settings.sites:
                await is_over_within(HAND_OVER_SECONDS, done(self.hand_over(), self.link.do))
        except Fault:
            pass        # the site has ended, or had its last turn
        finally:
            if self.stays:
                self.event(f"supervisor: {self.stays}")
            self.stopping.set()
            for site in self.sites.values():
                site.stop()

    def _begin(self, site: KeptSite) -> None:
        """Begins the next life of a site's folder, before its keeper is started; an OSError where the folder can't be read or written now. The
        life comes last of what may fail, so one that is tried again and again has no more of them."""
        os.makedirs(site.folder, mode=0o700, exist_ok=True)
        before, kept = lives_of(site.folder), f"{site.folder}/kept"
        answered = witnessed(site.folder, before)
        keys, why_fenced, line = [*lines_of(f"{site.folder}/{KEYS}")], fence_of(site.folder), site.open_sums()
        site.lives = begin_life(site.folder)
        site.has_begun = True
        if line:
            site.is_changed = True
            site.fence(why_changed(site.number, line))
        site.yields = os.path.exists(f"{site.folder}/{YIELDS}")
        site.old_keys.read(keys, self.unix_time())
        if keys and not site.old_keys:
            os.unlink(f"{site.folder}/{KEYS}")      # their day is over
        if why_fenced:
            site.fence(why_fenced, outlasts=True)
        self.begin_site(site, answered if has_all(kept, answered) else None)

    def begins(self, site: KeptSite) -> bool:
        """Whether the next life of a site's folder has begun. Where its disk is full, or its files can't be read, the others go on, and that is
        tried again."""
        try:
            if not site.has_begun:
                self._begin(site)
        except OSError as fault:
            site.note_fault(f"{fault.filename or site.folder}: {fault.strerror or fault}")
        return site.has_begun

    def _signalled(self, name: str) -> None:
        """A signal stops the shop; a further one ends this process at once, whatever it waits for."""
        if not self.is_leaving:
            return self.stop(name)
        self.event(f"supervisor: {name} again, ended at once")
        for site in self.sites.values():
            site.kill()
        os._exit(Status.REFUSED)

    async def run(self) -> None:
        loop = asyncio.get_running_loop()
        loop.set_exception_handler(Faults(lambda text: self.event(f"supervisor: {text}")).tell)
        for number in (signal.SIGTERM, signal.SIGINT):
            loop.add_signal_handler(number, self._signalled, signal.Signals(number).name)
        here = ", ".join(map(str, self.sites))
        self.event(f"supervisor: started, process {os.getpid()}, sites {here} of {self.settings.sites} over {self.settings.shown_over}")
        for site in self.sites.values():
            with contextlib.suppress(OSError):      # the start of its keeper tries it again, and says so
                self._begin(site)
        await self.server.listen()
        self.site_tasks += [self.task(site.run()) for site in self.sites.values()]
        self.others += [self.task(work) for work in (self.link.run(), self._look_after_folder(), self._get_ready())]
        await waited(self.stopping)
        await self._ended(STOP_SECONDS)
        for site in self.sites.values():
            site.kill()         # what it was given and hasn't answered is answered after the next start
        await self._ended(END_SECONDS)
        await is_over_within(END_SECONDS, self.link.finish())
        await is_over_within(END_SECONDS, self.server.close())
        for task in self.others:
            task.cancel()
        await asyncio.wait(self.others, timeout=END_SECONDS)
        self.event("supervisor: ended")

    async def _ended(self, seconds: float) -> None:
        """Waits for the ends of all sites, so long at most."""
        if self.site_tasks:
            await asyncio.wait(self.site_tasks, timeout=seconds)

    def took_over(self, site: int) -> None:
        self.event(f"standby for site {site}: it runs here from now on")
        self.settings = moved_here(self.settings, site)
        self.standby = self.settings.standby
        try:
            write(self.folder, self.settings)
        except OSError as fault:
            self.event(f"{self.folder}/shop.json: {fault.strerror}; say --here {','.join(map(str, self.settings.here))} to the next start")
        taken = KeptSite(self, site)
        self.sites = self.sites | {site: taken}     # not into the one that others are going through
        with contextlib.suppress(OSError):
            self._begin(taken)
        self.site_tasks.append(self.task(taken.run()))
        self.others.append(self.task(self.link.run_site(taken)))

    async def _get_ready(self) -> None:
        for site in self.sites.values():
            await waited(site.tried)
        await self._compared()
        self._say_ready()

    async def _compared(self) -> None:
        """Waits until it is known whether the sites that are up are fenced, or that this can't be seen, for some time."""
        until = time.monotonic() + COMPARE_SECONDS
        while any(site.up.is_set and not (site.compared.is_set or self.link.is_unseen(site)) for site in self.sites.values()):
            if not await waited(self.progress, max(until - time.monotonic(), 0.001)):
                break

    def task(self, work: Coroutine[Any, Any, None], is_needed: bool = True) -> "asyncio.Task[None]":
        """A task. The fault of one that is needed ends the supervisor, since it would be a shop that only seems to run."""
        def look(done: "asyncio.Task[None]") -> None:
            if not done.cancelled() and (fault := done.exception()):
                self.status_at_end = Status.AWAY if is_needed else self.status_at_end
                (self.stop if is_needed else self.event)(f"a fault of its own: {fault!r}")
        task: asyncio.Task[None] = asyncio.create_task(work)
        self.tasks.add(task)                        # a task that nobody holds may be forgotten
        task.add_done_callback(self.tasks.discard)
        task.add_done_callback(look)
        return task

    def _say_ready(self) -> None:
        """Tells `shop start`, or systemd, that the sites are up, or why they aren't; `shop start` ends with the status that it is told."""
        not_up = [site for site in self.sites.values() if site.fenced_by or not site.up.is_set]
        down = [f"site {site.number}: {site.fault[1] if site.fault else site.state}" for site in not_up]
        down += [f"site {site.number}: takes no asks until it is known what {they_have(site.silent)} of it (or --alone)"
                 for site in self.sites.values() if site.up.is_set and not site.opened.is_set]
        down += [f"link: {self.link.state}"] if self.link.state.startswith("down") else []
        if (ready := os.environ.pop("SHOP_READY", None)) is not None:
            status = Status.REFUSED if any(site.is_changed for site in not_up) else Status.AWAY if down else Status.WELL
            try:
                os.write(int(ready), f"{int(status)} {'; '.join(down)}\n".encode())
            except OSError:
                pass        # `shop start` had no time to wait for it
            os.close(int(ready))
        if notify := os.environ.get("NOTIFY_SOCKET"):
            try:
                with socket.socket(socket.AF_UNIX, socket.SOCK_DGRAM) as to:
                    to.connect(notify.replace("@", "\0", 1) if notify.startswith("@") else notify)
                    to.send(b"READY=1")
            except OSError as fault:
                self.event(f"supervisor: {notify} (NOTIFY_SOCKET) can't be told that it is ready: {fault.strerror or fault}")

    async def _look_after_folder(self) -> None:
        """Ends the supervisor when its folder is gone: nobody could reach it; and a site whose folder or files are gone. A lost socket is made
        again."""
        was = os.stat(self.folder).st_ino
        while True:
            await asyncio.sleep(LOOK_SECONDS)
            try:
                is_there = os.stat(self.folder).st_ino == was
            except OSError:
                is_there = False
            if not is_there:
                self.stop(f"{self.folder} is gone")
                return
            await self.server.look_after()
            for site in self.sites.values():
                if not site.has_lost_files() and self.asks_questions and self.may_give(site) and not site.line:
                    site.give([STATE], Purpose.QUESTION)        # a keeper that hangs is seen


def they_have(silent: list[int]) -> str:
    """These sites have, or all others."""
    return f"site{'s' * (len(silent) > 1)} {', '.join(map(str, silent))} ha{'ve' if len(silent) > 1 else 's'}" if silent else "the others have"


def run(folder: str, settings: Settings, program: str, is_alone: bool, upgrades: bool) -> None:
    """Runs the shop until it is stopped."""
    os.umask(0o077)
    take_more()
    take_lock(folder)
    for site in range(settings.sites):
        put_in_place(folder, site)      # a rebuild was cut
    write(folder, settings)

    async def main() -> None:
        supervisor = Supervisor(folder, settings, program, is_alone, upgrades)
        await supervisor.run()
        os._exit(supervisor.status_at_end)      # what a broken connection holds up doesn't hold up the end; all records are in files
    asyncio.run(main())
