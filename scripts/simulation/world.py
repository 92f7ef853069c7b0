"""A run: machines and their supervisors, the server, and what is known of all of them that no part of the shop knows."""

import collections
import functools
import json
import random
from collections.abc import Callable
from typing import Any

from shop_tool.carrier.asking import Ask
from shop_tool.carrier.ledger import kept_in, sends_of
from shop_tool.carrier.lives import life_text, placed
from shop_tool.carrier.opening import HEARD_SECONDS, said_in_status
from shop_tool.carrier.over_files import FileLink
from shop_tool.carrier.over_server import ServerLink
from shop_tool.carrier.rebuilding import UNCHANGED
from shop_tool.carrier.records import Message, Purpose, bare, key_in, text_of
from shop_tool.carrier.shop import HAND_OVER_SECONDS, Shop
from shop_tool.carrier.site import FIRST_WAIT, LAST_WAIT, Disagreement, Pending, Site, State
from shop_tool.carrier.steps import State as StateOf
from shop_tool.carrier.steps import (Adopt, Append, Broken, CallAll, Connect, Flag, Hear, IsRunning, Kept, KeptOf, Owner, Read, Replay, Rewrite, Say,
                                     SayLeave, SayWant, SayYields, SeeHere, SeeLife, SeenHere, SentHere, Signal, Statuses, Steps, Swap, TakeOver,
                                     Tell, UpElsewhere, Wait)
from shop_tool.carrier.sums import LINE_BYTES, why_changed
from shop_tool.carrier.told import unanswered
from shop_tool.ends import Fault, Status
from shop_tool.requests import Request, asks_of

from .clock import Clock, Task
from .disk import Folder, Keeper, Machine
from .model import Steps as ModelSteps
from .remembered import packet_of
from .server import WRITES, Server
from .stand_in import MOST, StandIn

OVER = (StateOf, Read, Tell, Hear, Owner, Append, Connect)      # some steps over the server, the most frequent ones
STOP_SECONDS, END_SECONDS, LAST_SECONDS, LOOK_SECONDS = 30.0, 3.0, 2.0, 1.0
FEW = 10, 60        # how many messages each site keeps of a shop whose sites are to be full


class Violation(Exception):
    """A promise that is broken."""


class Rules:
    """What the parts of the harness itself do as the shop does; a fault that is put back replaces one of these."""

    swallowed_cancel_ends = True    # a supervisor that is stopped ends, whatever a connection swallows
    hands_over = True               # a stop passes the token on first


class World:
    def __init__(self, seed: str) -> None:
        self.dice = random.Random(seed)
        self.clock = Clock(self.dice)
        self.counts: collections.Counter[str] = collections.Counter()
        self.numbers = 0
        self.sites = self.dice.choice([2, 2, 3, 3, 4, 5])
        self.is_over_server = self.dice.random() < 0.65
        self.is_synced = self.dice.random() < 0.4
        keep = random.Random(f"{seed} keep")
        self.keep = keep.randint(*FEW) if keep.random() < 0.15 else MOST    # how many messages each site keeps at first
        self.server = Server(self.clock, self.sites, self.dice.random() < 0.4)
        self.machines = self._machines()
        self.steps = ModelSteps(self)       # the run as a list of the model's steps
        self.standby: tuple[int, Machine] | None = self._standby()      # a site that has one, and on which machine
        self.taken_over: set[int] = set()   # sites of which a standby has taken the place
        self.published: set[bytes] = set()  # all packets that ever stood in a stream
        self.is_calm = False                # no fault comes any more
        self.disturbed_at = -10.0           # when a connection was last cut off, or a process stood still
        self.running: list[Supervisor] = []
        # What no part of the shop knows.
        self.accepted: dict[bytes, set[tuple[int, int]]] = {}       # asks, each with the ids under which a site accepted it
        self.made: dict[tuple[int, int], bytes] = {}                # the message that had each id last
        self.yielding: set[bytes] = set()   # packets that a folder sent while it yielded to a standby: they count once they stand in a stream
        self.text_of: dict[bytes, bytes] = {}                       # the message that each ask became
        self.numbers_of: dict[bytes, int] = {}      # which of its site's records each of these was
        self.lost: set[bytes] = set()                               # messages of which nothing whole was left
        self.excused: set[tuple[int, int]] = set()  # ids, and turns as negative numbers, that were given twice as they may be
        self.is_unreached = False           # a site was opened of which a folder has more that couldn't be reached
        self.turn = (0, 0, 0)                                       # of the last token, from and to which site
        self.passes: dict[int, bytes] = {}                          # the last token of each turn
        self.passed_by_copies: set[bytes] = set()                   # those that a copy of a folder passed, as long as it ran

    def _machines(self) -> list[Machine]:
        if not self.is_over_server or self.dice.random() < 0.15:
            return [Machine(self, "m0", range(self.sites))]
        sites, machines = list(range(self.sites)), list[Machine]()
        while sites:
            count = self.dice.randint(1, len(sites)) if len(machines) else self.dice.randint(1, max(1, len(sites) - 1))
            machines.append(Machine(self, f"m{len(machines)}", sites[:count]))
            sites = sites[count:]
        return machines

    def _standby(self) -> "tuple[int, Machine] | None":
        if len(self.machines) < 2 or self.dice.random() < 0.5:
            return None
        machine, home = self.dice.sample(self.machines, 2)
        return self.dice.choice(home.here), machine

    def supervisors(self) -> list["Supervisor"]:
        self.running = [supervisor for supervisor in self.running if supervisor.is_alive]
        return self.running

    def new_number(self) -> int:
        self.numbers += 1
        return self.numbers

    def new_mark(self) -> bytes:
        return b"%d" % self.new_number()

    def note(self, word: str, times: int = 1) -> None:
        """Counts that something happens: a step of the model, by the name that it has there, or something else, whose word begins with a small
        letter."""
        self.counts[word] += times

    def is_gone(self, text: bytes) -> bool:
        """Whether a message is lost, or may be out of the reach of a site: then its key may be used again."""
        return text in self.lost or bool(self.excused) or self.is_unreached or not self._is_anywhere(text)

    def _is_anywhere(self, text: bytes) -> bool:
        """Whether a folder or a stream has a message."""
        return any(text in (line.rstrip(b"\n") for line in folder.lines("kept")) or text in folder.sent()
                   for machine in self.machines for folder in machine.folders.values()) or \
            any(text == its for stream in self.server.streams for _, its in stream.entries)

    def note_brought_back(self, older: Folder) -> None:
        """A folder is put back to a copy: notes whether that has packets that nothing else has any more, and that no site could see."""
        packets = [line[:-1] for line in older.lines("kept") if packet_of(line[:-1])] + older.sent()
        self.is_unreached = self.is_unreached or not all(map(self._is_anywhere, packets))

    def _is_silent(self, machine: Machine, site: int) -> bool:
        """Whether a site can't say what its folder on a machine has."""
        return not any(supervisor.machine is machine and supervisor.reaches() and supervisor.paused_until < self.clock.now
                       and site in supervisor.sites and supervisor.sites[site].compared.is_set and not supervisor.sites[site].fenced_by
                       for supervisor in self.supervisors())

    def note_unreached(self, number: int, seen: list[Folder], own: int) -> None:
        """A site is opened with that many messages: notes whether a folder has more of it whose site can't say so. Those that it had to see, its
        own and those beside it, were looked at before, and excuse nothing."""
        for machine in self.machines:
            for site, folder in machine.folders.items():
                if folder.yields and site == number:
                    continue        # it told ok only of what stands in the stream
                if folder not in seen and self._is_silent(machine, site):
                    sent = sum(not text.startswith(b"token,") for text in folder.sent()) if site == number else 0
                    self.is_unreached = self.is_unreached or max(sent, greatest_of(folder, number)) > own

    def answered(self, keeper: Keeper, record: bytes, said: bytes) -> None:
        """A site has answered a record."""
        head, _, rest = said.partition(b"\n")
        fields = head.split(b",")
        site = keeper.number
        match fields[2]:
            case b"ok":
                number = int(fields[3].split(b".")[1])
                name, text = (site, number), rest[5:-1] if rest.endswith(b"\n") else rest[5:]
                self.note("Accepts")
                self.accepted.setdefault(record, set()).add(name)
                self.numbers_of[record] = int(fields[1])
                if len(self.accepted[record]) > 1 and not key_in(record):
                    raise Violation(f"one ask was accepted twice: {record!r} as {sorted(self.accepted[record])}")
                if (before := self.made.get(name, text)) != text and before not in self.yielding:
                    if self._is_anywhere(before):
                        self.excused.add(name)      # what knew of the first couldn't be asked when the site was opened
                    self.lost.add(before)
                self.made[name] = text
                self.text_of[record] = text
                if keeper.folder.yields:
                    self.yielding.add(text)
            case b"passed":
                text = rest[5:].rstrip(b"\n")
                turn, to = (int(field) for field in text.split(b",")[2:4])
                self.note("Passes")
                if turn > self.turn[0]:
                    self.turn = turn, site, to
                is_known = (before := self.passes.get(turn, text)) in self.passed_by_copies or self._is_anywhere(before)
                if before != text and before not in self.yielding and is_known:
                    self.excused.add((site, -turn))
                self.passes[turn] = text
                if not any(keeper.folder is folder for machine in self.machines for folder in machine.folders.values()):
                    self.passed_by_copies.add(text)
                if keeper.folder.yields:
                    self.yielding.add(text)
            case b"holding" | b"released" | b"held":
                self.note("Reads")
            case b"again":
                self.note("again")
            case b"refused":
                self.note("Refuses")
                self.note("full", fields[4] == b"Full")
                self.note("key-taken", fields[4] == b"KeyTaken")


def greatest_of(folder: Folder, site: int) -> int:
    """The greatest number of a site's message in a folder's `kept`, in front of the first line that was changed."""
    packets = (packet_of(line[:-1]) for line in folder.unchanged() if line.endswith(b"\n"))
    return max((packet.number for packet in packets if isinstance(packet, Message) and packet.origin == site), default=0)


def turns_of(folder: Folder) -> list[int]:
    """The turns of the tokens there."""
    return [int(text.split(b",")[2]) for text in folder.unchanged() if text.startswith(b"token,") and text.endswith(b"\n")]


class SimulatedSite(Site):
    shop: "Supervisor"

    def __init__(self, shop: "Supervisor", number: int) -> None:
        self.machine = shop.machine
        super().__init__(shop, number, lambda pieces: self.folder.read_out(pieces), lambda name: self.folder.look(name))
        self.keeper: Keeper | None = None
        self.output = Signal()
        self.is_unseen: bool = False    # it was opened while its stream couldn't be seen
        self.looked: dict[int, str] | None = None   # who said how each site is when it was last looked, before it opened, at what they have of it

    @property
    def folder(self) -> Folder:
        return self.machine.folders[self.number]

    def hears(self, number: int, status: dict[str, Any]) -> bool:
        """Whether its start knows this status: what is said only after the look comes too late for that."""
        return self.looked is None or self.looked.get(number) == status["by"]

    def write(self, data: bytes) -> None:
        if self.keeper:
            self.keeper.write(data)

    def kill(self) -> None:
        if self.keeper:
            self.keeper.kill()

    def stop(self) -> None:
        if self.keeper:
            self.keeper.close()

    def come_up(self) -> None:
        if self.opened.is_set and not self.fenced_by:
            self.shop.world.steps.opens(self.folder)
        super().come_up()

    def _write(self, pending: list[Pending]) -> None:
        super()._write(pending)
        for each in pending:
            if each.is_given:
                self.shop.world.steps.gives(self.folder, self.keeper, each.record)

    def fence(self, text: str, outlasts: bool = False) -> None:
        if not self.fenced_by:
            self.shop.world.note("fenced")
            self.shop.fenced.append((self.number, text))
        super().fence(text, outlasts)

    def open_sums(self) -> None:
        """As the shell's: takes in the sums of `kept`; stops the site for good if a line isn't as its sum says."""
        self.sums.count, changed = self.folder.checked()
        self._sums = self.folder.file("sums")
        if changed:
            self.fence(why_changed(self.number, changed))
        else:
            del self._sums.data[self.sums.count * LINE_BYTES:]
        self._sums.synced = len(self._sums.data)

    def write_sums(self, lines: bytes) -> None:
        self._sums.data += lines

    def write_yields(self, yields: bool) -> None:
        self.folder.yields = yields

    def write_fence(self, text: str) -> None:
        self.folder.fenced = text

    def run(self) -> Steps[None]:
        """As the shell's: starts the keeper, and again whenever it ends, until the shop is stopped or the site is fenced."""
        wait = FIRST_WAIT
        while not self.shop.stopping.is_set and not self.has_lost_files():
            began, self.starts, faults = self.shop.now(), self.starts + 1, self.fault
            self.become(State.STARTING)
            if self.starts > 1 and (changed := self.folder.checked()[1]):
                self.fence(why_changed(self.number, changed))
                break
            status = yield from self._live()
            self.up.clear()
            if self.shop.stopping.is_set or self.fenced_by:
                break
            wait = self.next_wait(wait, self.shop.now() - began, status)
            if self.fault == faults:
                self.fault = "", f"ended with status {status}"
            yield Wait(self.shop.stopping, wait)
            wait = min(2 * wait, LAST_WAIT)
        self.end()

    def _live(self) -> Steps[int]:
        keeper = self.keeper = Keeper(self.folder, self.number, self.output.tell)
        if self.starts > 1:
            self.shop.world.note("KeeperStarts")
            self.shop.world.steps.keeper_starts(self.folder)
        if self.shop.stopping.is_set:
            self.stop()
        try:
            yield from self._read_answers(keeper)
        except (Disagreement, ValueError, OSError) as fault:
            self.note_fault(str(fault))
            if isinstance(fault, Disagreement):
                self.shop.fenced.append((self.number, str(fault)))
                self.fenced_by = self.fenced_by or str(fault)
        finally:
            self.up.clear()
        if not self.shop.stopping.is_set and keeper.is_alive:
            keeper.kill()
        while keeper.is_alive:
            yield Wait(self.output, 0.1)
        if keeper.fault:
            self.note_fault(keeper.fault)
        assert keeper.status is not None
        return keeper.status

    def _read_answers(self, keeper: Keeper) -> Steps[None]:
        while keeper.head is None:
            if not keeper.is_alive:
                return
            yield Wait(self.output, 0.5)
        if self.has_lost_files():
            return
        kept, out = bytes(self.folder.file("kept").data), bytes(self.folder.file("out").data)
        lines = iter(kept[self.ledger.kept_bytes:].splitlines(keepends=True))
        pieces = iter([out[self.ledger.out_bytes:]])
        yield from self.catch_up(int(keeper.head.split(b",")[1]), lambda: next(lines, b""), lambda: next(pieces, b""))
        self.come_up()
        self.shop.look_at_open(self)
        while True:
            while keeper.output:
                if not self.take(keeper.output.pop(0)):
                    return
            if not keeper.is_alive:
                return
            yield Wait(self.output, 0.5)


class Process:
    """A process of a machine, and what it does over the server."""

    def __init__(self, world: World, machine: Machine) -> None:
        self.world, self.machine, self.clock = world, machine, world.clock
        self.is_alive = True
        self.paused_until = 0.0
        self.tasks: dict[Task, None] = {}       # in their order, so that a run is the same each time

    def spawn(self, steps: Steps[Any], on_end: Callable[[Any, Exception | None], None] | None = None,
              hear: Callable[[bytes, Any], None] | None = None) -> Task:
        def ended(said: Any, fault: Exception | None) -> None:
            self.tasks.pop(task, None)
            if on_end:
                on_end(said, fault)
            elif fault:
                self.failed(fault)
        task = Task(self, steps, ended)
        task.hear = hear
        self.tasks[task] = None
        return task

    def failed(self, fault: Exception) -> None:
        raise fault

    def end(self) -> None:
        """It ends at once."""
        self.is_alive = False
        for task in list(self.tasks):
            task.cancel()
        self.tasks.clear()

    made: Folder | None = None      # what takes the place of a folder

    def owner_text(self, site: int, is_fresh: bool = False) -> str:
        """Names the folder of a site here, or the fresh one beside it, and says where it is."""
        folder = self.made if is_fresh else self.machine.folders[site]
        return f"{self.machine.identity}:{folder and folder.inode} {self.machine.name}:{site}"

    def named_of(self, site: int) -> str:
        return f"{self.machine.boot} {self.owner_text(site)}"

    def kept_of(self, keeper: int, origin: int, after: int) -> Kept | None:
        """What stands in the file `kept` of a site here."""
        folder = self.machine.folders.get(keeper)
        if not folder or not folder.is_there or "kept" not in folder.files:
            return None
        return kept_in(folder.unchanged(), folder.lines("out"), origin, after)

    def takes_over(self, site: int) -> None:
        """Puts the folder that was made in the place of a site elsewhere."""
        assert self.made
        if self.machine.folders.get(site) is not self.made:
            self.machine.folders[site] = self.made
        self.world.taken_over.add(site)
        # What stood in its stream, and doesn't any more, the server has lost.
        self.world.lost |= {text for (origin, _), text in self.world.made.items() if origin == site} & self.world.published - set(self.made.sent())
        self.world.note("TakesOver")
        self.world.steps.takes_over(self.made, site)

    def replay(self, number: int, records: list[Any]) -> None:
        """Has a fresh folder beside a site's folder that is given these records."""
        made = Folder(self.world, self.machine)
        site = StandIn(number, self.world.sites, made.keep)
        kept, out = made.file("kept"), made.file("out")
        for given in records:
            said = site.answer(given.record)
            made.packets.append(self.world.steps.packet_of(given.record, said))
            lines = said.split(b"\n")[:-1]
            fields = lines[0].split(b",")
            packet = lines[1][5:] if fields[2] in (b"ok", b"passed") else None
            if packet != given.packet or fields[2] == b"refused":
                raise Fault(Status.REFUSED, f"{given.record!r} sends {given.packet!r} no more, but {lines}: {UNCHANGED}")
            kept.data += given.record + b"\n"
            made.noted += 1
            out.data += said
        kept.synced, out.synced = len(kept.data), len(out.data)
        self.made = made

    def reaches(self) -> bool:
        return self.world.server.is_up and not self.machine.is_cut_off

    def do(self, task: Task, step: tuple[Any, ...]) -> None:
        """Does a step here, or else over the server."""
        if isinstance(step, CallAll):
            return self.call_all(task, step)
        match step:
            case KeptOf(keeper, origin, after):
                task.answer(self.kept_of(keeper, origin, after))
            case SeenHere(site):
                task.answer(self.machine.seen.get(site))
            case SentHere(site):
                folder = self.machine.folders.get(site)
                task.answer(sends_of(folder.lines("out")) if folder else [])
            case Replay(site, records):
                try:
                    self.replay(site, records)
                    task.answer()
                except Fault as fault:
                    task.answer(fault=fault)
            case _:
                self.over(task, step)

    def over(self, task: Task, step: tuple[Any, ...]) -> None:
        """Does a step of a task over its connection to the server: before the connection breaks, after that, much later, or never."""
        dice, server = self.world.dice, self.world.server
        if isinstance(step, Connect):
            task.connection = server.times if self.reaches() else None
            return task.answer()
        if isinstance(step, (Append, Rewrite)):
            self.world.steps.sends(self.machine, [text for _, text in step.packets])
        if isinstance(step, WRITES) and not self.world.is_calm and dice.random() < 0.004:
            self.world.note("late")
            self.clock.after(dice.choice([1.0, 10.0, 3600.0]) * dice.random(), lambda: self._arrives_late(step))
            return task.answer(fault=Broken("timed out"), seconds=10 * dice.random())

        turn = task.turn

        def arrives() -> None:
            if task.turn != turn and dice.random() < 0.5:
                return
            if task.turn != turn:       # nobody waits for it any more, and it arrives all the same
                return self._arrives_late(step) if isinstance(step, WRITES) else None
            if not self.reaches() or task.connection != server.times:
                return task.answer(fault=Broken("away"), seconds=dice.choice([0.01, 0.01, 3.0]))
            if isinstance(step, (Read, Hear)):
                return self._read(task, Hear(b"%d" % server.wants[-1][0] if server.wants else b"0") if step == Hear(b"$") else step)
            said = server.do(self, step)
            self._note(step, said)
            if isinstance(step, TakeOver) and said:
                self.takes_over(step.site)
            if not self.world.is_calm and dice.random() < 0.004:
                return task.answer(fault=Broken("broke"))   # it was done, and that isn't known
            task.answer(said)
        self.clock.soon(arrives)

    def _arrives_late(self, step: tuple[Any, ...]) -> None:
        if self.world.server.is_up and not self.world.is_calm:
            self._note(step, self.world.server.do(self, step))

    def _read(self, task: Task, step: Read | Hear) -> None:
        """Answers once there is something to read, or its time is over."""
        server, turn = self.world.server, task.turn
        until = self.clock.now + (step.seconds if isinstance(step, Read) else 2.0)
        connection = task.connection

        def look() -> None:
            if task.is_over or task.turn != turn:
                return
            if not self.reaches() or server.times != connection:
                return task.answer(fault=Broken("away"))
            if (found := server.do(self, step)) or self.clock.now >= until:
                return task.answer(found)
            server.news.add(look)
        self.clock.after(until - self.clock.now, look)
        look()

    def _note(self, step: tuple[Any, ...], said: Any) -> None:
        match step:
            case Append(_, _, packets, _) if said:
                self.world.published |= {text for _, text in packets}
                for _, text in packets:
                    self.world.note("Appends")
                    self.world.steps.appends(self.machine, text)
            case SayYields(site, _, life) if said:
                self.world.steps.yields(site, bool(life))
            case Adopt(site, _, _, _) if said:
                self.world.steps.yields(site, False)
            case SeeLife(site, _, life, _, _) if said and self.world.server.yields[site] != life:
                self.world.steps.yields(site, False)
            case Rewrite(site, packets, _):
                self.world.published |= {text for _, text in packets}
                self.world.note("WritesAnew")
                if packets:
                    self.world.steps.writes_anew(self.machine.folders[site], site, [text for _, text in packets])

    def call(self, request: Request, site: int, seconds: float) -> Steps[list[dict[str, Any]] | None]:
        """What the supervisor of a site elsewhere answers; None if it gives no answer in time."""
        server, until = self.world.server, self.clock.now + seconds
        name = b"%d" % self.world.new_number()
        while not self.reaches() or not (life := server.life_of(site)):
            if self.clock.now > until:
                return None
            yield Wait(None, 0.1)
        yield Wait(None, 0)
        if request["op"] == "ask":
            self.world.steps.calls(name, life, request)
        server.say(self.world.new_number(), {"call": name, "site": site, "life": life.encode(), "request": json.dumps(request)})
        while self.clock.now < until:
            yield Wait(None, 0.02)
            if self.reaches() and name in server.answers:
                return server.answers.pop(name)
        return None

    def call_all(self, task: Task, step: CallAll) -> None:
        answers: dict[int, list[dict[str, Any]]] = {}
        turn, left = task.turn, set(step.sites)

        def ended(site: int, said: Any, fault: Exception | None) -> None:
            left.discard(site)
            if said:
                answers[site] = said
            if not left:
                task.resume(turn, answers)
        for site in step.sites:
            self.spawn(self.call(step.request, site, step.seconds), functools.partial(ended, site))
        self.clock.after(step.seconds if step.sites else 0.0, functools.partial(task.resume, turn, answers))


class SimulatedServerLink(ServerLink):
    shop: "Supervisor"

    def named(self, site: Site) -> str:
        return self.shop.named_of(site.number)

    def called(self, site: Site, fields: dict[bytes, bytes]) -> Callable[[], None]:
        request = json.loads(fields[b"request"])
        return lambda: self.shop.serve_call(fields[b"call"], self.shop.sites[site.number], request)


class Supervisor(Process, Shop):
    sites: dict[int, SimulatedSite]

    def __init__(self, world: World, machine: Machine, is_alone: bool = False) -> None:
        Process.__init__(self, world, machine)
        Shop.__init__(self, world.sites, is_alone)
        self.skew = 0.0
        self.fenced: list[tuple[int, str]] = []
        self.looked_at: set[int] = set()
        self.events: list[str] = []
        self.began = self.clock.now
        self.stopped_at: float | None = None
        self.is_gone = Flag()
        self.takers: set[tuple[int, str, int]] = set()
        self.sites = {number: SimulatedSite(self, number) for number in machine.here}
        if world.standby and world.standby[1] is machine and world.standby[0] not in machine.here:
            self.standby, self.after = (world.standby[0],), 3.0
        self.link: FileLink | SimulatedServerLink
        self.link = SimulatedServerLink(self, "the server") if world.is_over_server else FileLink(self)
        for site in self.sites.values():
            self._begin(site)
            self.spawn(site.run())
        if isinstance(self.link, SimulatedServerLink):
            for name, work in self.link.works_of().items():
                self.spawn(self.link.forever(name, work))
        else:
            for site in self.sites.values():
                self.spawn(self.link.compare(site))
                self.spawn(self.link.read(site))
        self.spawn(self._look_after())
        world.running.append(self)

    def now(self) -> float:
        return self.clock.now + self.skew

    unix_time = now

    def stamp(self) -> str:
        return f"{self.clock.now:.3f}"

    def event(self, text: str) -> None:
        self.events.append(f"{self.clock.now:.3f} {self.machine.name} {text}")

    def later(self, seconds: float, call: Callable[[], None]) -> None:
        self.clock.after(seconds, lambda: call() if self.is_alive else None)

    def soon(self, call: Callable[[], None]) -> None:
        self.clock.soon(lambda: call() if self.is_alive else None)

    def begin(self, steps: Steps[None]) -> None:
        self.spawn(steps)

    def witness_of(self, site: Site, answered: int) -> Callable[[int], None]:
        memory, first = self.machine.memory, site.lives[0]
        memory[first] = site.lives[-1], answered, self.sites[site.number].folder.inode

        def tell(upto: int) -> None:
            life, was, of = memory.get(first, ("", upto, 0))
            if upto > was:
                memory[first] = life, upto, of
        return tell

    def forget(self, site: Site) -> None:
        self.machine.forget(site.number)

    def _begin(self, site: SimulatedSite) -> None:
        """As the shell's: begins the next life of a site's folder."""
        folder, before = site.folder, list(site.folder.lives)
        answered = None
        if before and (found := self.machine.memory.get(before[0])) and (found[0], found[2]) == (before[-1], folder.inode):
            answered = found[1]
        if not folder.is_there:
            folder.is_there, folder.files, folder.lives = True, {}, []
        folder.lives.append(f"{self.world.new_number():016x}")
        site.lives = list(folder.lives)
        self.world.note("Starts")
        self.world.steps.starts(folder, life_text(site.lives))
        site.open_sums()
        site.yields = folder.yields
        has_all = answered is not None and "kept" in folder.files and len(folder.files["kept"].data) >= answered
        if folder.fenced:
            site.fence(folder.fenced, outlasts=True)
        self.begin_site(site, answered if has_all else None)

    def _opened(self, site: Site, answered: int) -> None:
        self.sites[site.number].is_unseen = isinstance(self.link, SimulatedServerLink) and self.link.is_unseen(site)
        super()._opened(site, answered)
        if site.up.is_set and not site.fenced_by:
            self.world.steps.opens(self.sites[site.number].folder)
        self.look_at_open(site)

    def question(self, site: SimulatedSite) -> None:
        """Asks a site how many records it has: as many as it has answered by then."""
        def steps() -> Steps[None]:
            if site.fenced_by or self.stopping.is_set:
                return
            pending, = site.give([b"?state"], Purpose.QUESTION)
            yield Wait(pending.done)
            if pending.answer and pending.answer.lines != [b"?state,%d" % pending.records]:
                raise Violation(f"site {site.number} says {pending.answer.lines} after {pending.records} records")
        self.world.note("question")
        self.spawn(steps())

    def look_at_open(self, site: Site) -> None:
        """A site is up and open for the first time only if nothing that it reaches has more of it, or another past. Where its machine remembers
        that its folder lost nothing and was the last of the site to be opened, the sites beside it that aren't known yet needn't be asked."""
        if site.number in self.looked_at or self.world.excused or self.world.is_unreached or site.fenced_by or not (site.up.is_set and site.opened.is_set):
            return
        self.looked_at.add(site.number)
        self.world.note("Opens")
        keeper = self.sites[site.number].keeper
        assert keeper
        messages, held = keeper.site.release.counts[site.number], keeper.site.turn if keeper.site.issued is not None else None
        self._look_at_those_that_ran_on(site, keeper.site)
        slot, seen = keeper.folder.slot, [keeper.folder]
        for other in self.sites.values():
            if other is site or not other.known.is_set and not self.world.is_over_server and slot and slot.was_remembered:
                continue
            seen.append(other.folder)
            if (has := greatest_of(other.folder, site.number)) > messages:
                raise Violation(f"site {site.number} is opened with {messages} messages, and site {other.number} beside it has {has}")
            if held is not None and (turn := max(turns_of(other.folder), default=0)) > held:
                raise Violation(f"site {site.number} is opened with the token of turn {held}, and site {other.number} beside it has had that of {turn}")
        self.world.note_unreached(site.number, seen, messages)
        own = dict(sends_of(keeper.folder.lines("out")))
        if not isinstance(self.link, SimulatedServerLink) or not self.reaches() or f"publish {site.number}" in self.link.down:
            return
        for place, text in self.world.server.streams[site.number].entries:
            if place[0] > messages or place in own and own[place] != text:
                raise Violation(f"site {site.number} is opened with {messages} messages, and its stream has {text!r} at {place}")
        for number, (until, said) in self.world.server.said.items():
            its = said_in_status(said, number, site.number)
            is_heard = until > self.clock.now and number != site.number and self.sites[site.number].hears(number, said)
            if is_heard and (its.greatest > messages or held is not None and its.turn > held):
                raise Violation(f"site {site.number} is opened with {messages} messages and the token of turn {held}, and site {number} says {its}")

    def _look_at_those_that_ran_on(self, site: Site, opens: StandIn) -> None:
        """The server came back a moment ago, and may have lost its end: a site whose folder may lack something is opened only once the sites
        elsewhere that ran on meanwhile have said again what they have. Where a site has two processes, one of them may have said it; and by a
        clock that jumps the time that they have for it is over at once."""
        world, server = self.world, self.world.server
        if site.answered is not None or self.skew or self.clock.now > server.came_at + HEARD_SECONDS or world.counts["copy-runs"] or world.taken_over:
            return
        messages, held = opens.release.counts[site.number], opens.turn if opens.issued is not None else None
        for other in (its for supervisor in world.supervisors() if supervisor.ran_on() for its in supervisor.sites.values()):
            if other.number not in self.sites and other.compared.is_set and not other.fenced_by:
                ledger = other.ledger
                if ledger.have[site.number].greatest > messages or held is not None and ledger.turn > held:
                    raise Violation(f"site {site.number} is opened with {messages} messages and the token of turn {held}, and site {other.number}, "
                                    f"which ran on, has {ledger.have[site.number].greatest} and that of turn {ledger.turn}")

    def ran_on(self) -> bool:
        """Whether it has run, and nothing stood in its way, since the server went away last."""
        since = self.world.server.gone_at
        return self.began < since and self.machine.disturbed_until < since and not self.is_leaving

    def failed(self, fault: Exception) -> None:
        if isinstance(fault, Violation):
            raise fault
        raise Violation(f"the supervisor of {self.machine.name} ended by a fault of its own: {fault!r}") from fault

    def _look_after(self) -> Steps[None]:
        while True:
            yield Wait(None, LOOK_SECONDS)
            for site in self.sites.values():
                site.has_lost_files()

    # Steps.

    def do(self, task: Task, step: tuple[Any, ...]) -> None:
        if isinstance(step, OVER):
            return self.over(task, step)
        server, is_over_server = self.world.server, self.world.is_over_server
        said: Any = None
        match step:
            case Say(record, answer):
                self.world.steps.says(record, answer)
                if task.hear:
                    task.hear(record, answer)
            case SeeHere(site, life):
                self.machine.seen[site] = life
            case SayWant(site, known):
                self.world.note("want")
                if not is_over_server:
                    self.hear_want(site, known)
                elif self.reaches():
                    server.say(self.world.new_number(), {"want": site, "known": known})
            case SayLeave():
                if self.reaches() and is_over_server:
                    server.say(self.world.new_number(), {"leave": ",".join(map(str, self.sites))})
            case IsRunning(site, seconds):
                return task.answer(self._is_running(site), seconds=self.world.dice.random() * 2 * seconds)
            case UpElsewhere():
                statuses = server.do(self, Statuses()) if self.reaches() and is_over_server else {}
                said = {site for site, status in statuses.items() if site not in self.sites and status["state"] == "up"}
            case _:
                return super().do(task, step)
        task.answer(said)

    def _note(self, step: tuple[Any, ...], said: Any) -> None:
        if isinstance(step, StateOf) and step.site in self.sites and not self.sites[step.site].opened.is_set:
            self.sites[step.site].looked = {number: status["by"] for number, status in self.world.server.do(self, Statuses()).items()}
        super()._note(step, said)

    def took_over(self, site: int) -> None:
        if site not in self.machine.here:
            self.machine.here.append(site)
        self.standby = ()
        self.sites = self.sites | {site: SimulatedSite(self, site)}
        self._begin(self.sites[site])
        self.spawn(self.sites[site].run())
        assert isinstance(self.link, SimulatedServerLink)
        for name, work in self.link.works_of_site(self.sites[site]).items():
            self.spawn(self.link.forever(name, work))

    def _is_running(self, site: int) -> bool | None:
        if not self.world.is_over_server:
            return self.sites[site].up.is_set
        if not self.reaches():
            return None
        until, said = self.world.server.said.get(site, (0.0, {}))
        return until > self.clock.now and said["state"] == "up"

    # Requests.

    def serve(self, request: Request, answers: list[dict[str, Any]], called: SimulatedSite | None = None, name: bytes = b"") -> Steps[None]:
        """As the shell's: answers a request of a client, or the call of another supervisor; the last answer has `end`."""
        last: dict[str, Any] = {"end": True}
        try:
            last |= (yield from self._answer(request, answers, called, name)) or {}
        except Fault as fault:
            last |= {"status": fault.status, "fault": fault.text}
        answers.append(last)

    def _answer(self, request: Request, answers: list[dict[str, Any]], called: SimulatedSite | None,
                name: bytes) -> Steps[dict[str, Any] | None]:
        if request["op"] == "status":
            return {"shop": {"stopping": self.is_leaving, "site": [self.status_of(site) for site in self.sites.values()]}}
        site = called or self.sites.get(request["site"])
        if site is None:
            found = (yield CallAll(request, [request["site"]], request["timeout"])).get(request["site"])
            if not found:
                raise Fault(Status.AWAY, f"site {request['site']} runs on another machine, and gives no answer{unanswered(request)}")
            answers += found[:-1]
            return dict(found[-1])
        if request["op"] == "have":
            messages, tokens = self.kept_of(site.number, request["origin"], request["after"]) or ([], [])
            return {"messages": [text_of(text) for _, text in messages], "tokens": [text_of(text) for text in tokens]}
        steps = self.world.steps
        asks = steps.asked_here(site.folder, name, request)
        asked = asks_of(request)
        if self.is_leaving:
            raise Fault(Status.AWAY, "the shop is being stopped; nothing was asked")
        ask = Ask(site, request["timeout"], asked.fetches_token, asked.published)
        steps.serves(site.folder, asks, asked.records)
        try:
            yield from steps.asking(asks, ask, ask.run(asked.records))
        except Fault as fault:
            steps.says_fault(site.folder, asks[ask.answered:], fault.text)
            raise
        finally:
            steps.leaves(site.folder, asks, asked.records)
        return None

    def serve_call(self, name: bytes, site: SimulatedSite, request: Request) -> None:
        answers: list[dict[str, Any]] = []

        def replied(said: Any, fault: Exception | None) -> None:
            if fault:
                return self.failed(fault)
            if self.reaches():
                self.world.server.answers[name] = answers
        self.spawn(self.serve(request, answers, site, name), replied, functools.partial(heard, answers))

    # Its end.

    def stop(self) -> None:
        if not self.is_leaving and self.is_alive:
            self.takers = self._takers()
            self.is_leaving, self.stopped_at = True, self.clock.now
            self.world.note("stopped")
            self.spawn(self._leave())

    def _takers(self) -> set[tuple[int, str, int]]:
        """The sites elsewhere that could take the token now, each with its life and how often it was started in that: one that was killed
        while the stop went on may be up again, but too late to be asked. None where one here couldn't pass it, or a connection failed."""
        holder = next((site for site in self.sites.values() if site.ledger.holds_token), None)
        link = self.link
        if not isinstance(link, SimulatedServerLink) or not self.reaches() or link.down or self.world.disturbed_at > self.clock.now - 3:
            return set()
        if not holder or not self.may_give(holder) or holder.is_passing or not all(site.known.is_set for site in self.sites.values()):
            return set()        # what stands in the files of one that can't be started may be anything
        said = self.world.server.do(self, Statuses())
        return {(site.number, site.lives[-1], site.starts) for other in self.world.supervisors() if other.machine.name != self.machine.name
                for site in other.sites.values()
                if site.number not in self.sites and other.reaches() and isinstance(other.link, SimulatedServerLink)
                and not other.link.down and not other.is_leaving and other.paused_until + 3 < self.clock.now
                and site.up.is_set and site.compared.is_set and not site.fenced_by and said.get(site.number, {}).get("state") == "up"}

    def _leave(self) -> Steps[None]:
        if len(self.sites) < self.count and Rules.hands_over:
            over = Flag()
            handing = self.spawn(self.hand_over(), lambda said, fault: over.set())
            yield Wait(over, HAND_OVER_SECONDS)
            handing.cancel()
        holder = next((site for site in self.sites.values() if site.ledger.holds_token and self.may_give(site)), None)
        if holder and self.takers and self.takers == self._takers():
            raise Violation(f"the shop of {self.machine.name} is stopped, and takes the token along with site {holder.number}, though there "
                            f"were sites elsewhere to take it: {sorted(self.takers)}")
        self.stopping.set()
        for site in self.sites.values():
            site.stop()
        until = self.clock.now + STOP_SECONDS
        while any(site.keeper and site.keeper.is_alive for site in self.sites.values()):
            if self.clock.now > until:
                for site in self.sites.values():
                    site.kill()
            yield Wait(None, 0.05)
        if isinstance(self.link, SimulatedServerLink):
            until = self.clock.now + LAST_SECONDS
            while self.link.state == "up" and self.clock.now < until and not self.link.is_published():
                yield Wait(None, 0.02)
            self.link.is_over = True
            for own in self.link.own_sites() if self.reaches() else ():
                self.world.server.said.pop(own.number, None)
        yield from self._cancel_tasks()
        self.clock.soon(self.end)

    def _cancel_tasks(self) -> Steps[None]:
        """Cancels what runs still. A connection may swallow that, as one of redis-py 4.3.4 does, and then its task goes on."""
        others = [task for task in self.tasks if task.connection is not None]
        for task in others:
            if not isinstance(task.step, Wait) and self.world.dice.random() < 0.5:
                task.resume(task.turn, None, Broken("closing timed out"))
            else:
                task.cancel()
        until = self.clock.now + END_SECONDS
        while any(not task.is_over for task in others):
            if self.clock.now > until and Rules.swallowed_cancel_ends:
                break
            yield Wait(None, 0.1)

    def end(self) -> None:
        if self.is_alive:
            for site in self.sites.values():
                self.world.note("IsKilled")
                if site.keeper:
                    site.keeper.leave()
                self.world.steps.supervisor_ended(site.folder, site.keeper)
            super().end()
            self.is_gone.set()


def heard(answers: list[dict[str, Any]], record: bytes, answer: Any) -> None:
    answers.append({"record": text_of(bare(record)), "lines": [text_of(line) for line in answer.lines]})


class Command(Process):
    """A command that changes the folder of a site while the shop is stopped."""

    def do(self, task: Task, step: tuple[Any, ...]) -> None:
        task.connection = self.world.server.times
        if not isinstance(step, Swap):
            return super().do(task, step)
        folders, site = self.machine.folders, step.site
        assert self.made
        self.made.lives = placed([], max(step.starts, len(folders[site].lives)), f"{self.world.new_number():x}")
        self.world.note("Rebuilds")
        self.world.steps.rebuilds(folders[site], self.made, site)
        for other in folders:
            self.machine.forget(other)
        folders[site] = self.made
        task.answer()
