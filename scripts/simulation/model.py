"""A run as a list of steps of the model of shops (crates/rubis_carrier): what a proved program decides about.

The model's folders are numbered: those of the sites first, then copies. A packet stands in a folder once its record is in the file `kept`,
whether it is answered by then or not. So that is when a site accepts, refuses, passes and reads; what only its memory says comes where it
comes. Some things happen otherwise than the model has them, and are written as what they come to:

- What a keeper was given is written where it was given, if it was kept, and the answer settled it: an ask that was answered NoToken or
  RedBehind, or that died on its way, still waits for the model.
- A refusal that is held back, as what was sent before it isn't published, is told when the site refuses. Who is then told *not accepted* is
  told no more by that.
- A life ends when its supervisor and its keeper have both ended: a keeper answers what stands in its pipe. What happens to the files of a
  folder that runs is written when its life ends, since the site goes on in files that nobody finds again; that it lost its end before a
  keeper of this life had its files, in front of its start. Of a folder that loses its end, or is changed, what its site sent stands on as
  far as it is in `out`.
- An ask that is asked again under its key is another one. That it is answered again is told of the one that was accepted; and of an earlier
  life, or of another site, it is no news, and written as unknown.
- Where a second folder of a site opens, the first one is closed; if its process sends something all the same, it opens again just before,
  or goes on, if something has more of the site by then.
- A folder that has lost passes, and whose site doesn't have the token, is made again with them before it starts, if nobody in reach knows
  that the turns before went to it: the start learns of the turns from the others, and takes no token that it had before. So is one that a
  rebuild gave a pass which nobody had any more, once the first one comes back: the folder has that turn.
- A folder that is made again has what was found, without passes that nobody has any more. Where it lacks what the old one had, the old one
  is lost first.

Three things that happen are no steps of the model; the steps that they come to are known as such before anybody decides. A site opens, and
folders or streams have more of it of which it reaches none: which supervisors run, and what they had said when it looked, says whether it does.
Somebody reads what a process sends whose supervisor is gone. Or a site passes a token on that a rebuild of another one made again: it went to a
site that had had a later one, and that has lost its folder since."""

import contextlib
from collections.abc import Callable, Generator, Iterable, Sequence
from functools import partial
from typing import TYPE_CHECKING, Any, cast

from shop_tool.carrier.answers import Answer
from shop_tool.carrier.asking import Ask
from shop_tool.carrier.records import UNDECIDED, bytes_of, token_of
from shop_tool.carrier.steps import Say

if TYPE_CHECKING:
    from .disk import Folder, Keeper, Machine
    from .world import SimulatedSite, World

Packet = tuple[str, int, int, int] | tuple[str, int, int, int, int]     # a message: site, number, ask; a pass: site, turn, to, number before

NOTHING = ("nothing was given to it", "nothing more was given to it", "nothing was asked", "not accepted")
SENDS = (b",ok,", b",passed\n")             # how answers go on that send a packet
UNKNOWN = ("may still be accepted", "isn't known", "published", "accepted here")

# What happens and is no step of the model.
UNREACHED = "a site is opened that doesn't reach what has more of it"
WENT_ON = "somebody reads what a process sends after its life has ended"
MADE_AGAIN = "a site passes a token on that a rebuild made again"


class Step:
    """A line of the list. One that turns out not to have happened for the model is void; one that the model doesn't have says why."""

    __slots__ = ("text", "is_void", "why_none")

    def __init__(self, text: str, is_void: bool = False) -> None:
        self.text, self.is_void = text, is_void
        self.why_none: str | None = None


def sent_in(rest: bytes) -> bytes:
    """The text of the packet that an answer sends."""
    return rest.rstrip(b"\n")[5:]


def packet_of(keeper: "Keeper", fields: Sequence[bytes], rest: bytes, more: int) -> Packet:
    """The packet that an answer sends: a message with that ask, or a pass with how many messages of its site are before it."""
    if fields[2] == b"ok":
        return "m", keeper.number, int(fields[3].split(b".")[1]), more
    turn, to = (int(field) for field in sent_in(rest).split(b",")[2:4])
    return "p", keeper.number, turn, to, more


class Given:
    """An ask on its way through a keeper."""

    def __init__(self, keeper: "Keeper | None", record: bytes, ask: int, step: Step) -> None:
        self.keeper, self.record, self.ask, self.step = keeper, record, ask, step


class Slot:
    """A folder of the model."""

    def __init__(self, number: int, site: int) -> None:
        self.number, self.site = number, site
        self.packets: list[Packet] = []
        self.life = 0                                   # in which it runs, or 0
        self.start: tuple[Step, list[Packet], int] | None = None    # how that began, with which packets, and after how many passes of all sites
        self.end: Step | None = None                    # how the life before ended
        self.has_opened = self.is_open = False          # its process takes asks; and, since it was opened, no other one does
        self.was_closed = False                         # another one was opened since
        self.is_remembered = False                      # its machine knows that it was the last of its site to open, and lost nothing
        self.was_remembered = False                     # it was so when its process was opened
        self.waiting: dict[bytes, list[int]] = {}       # the asks that this life has taken and not settled, by their records
        self.accepted: dict[bytes, int] = {}            # and those that its site has accepted
        self.refused: set[int] = set()                  # and refused, by which the model's asker is told
        self.given: list[Given] = []                    # what its keeper was given and hasn't kept
        self.harms: list[Callable[[], object]] = []       # what happened to its files while it ran
        self.draining: "Keeper | None" = None           # the keeper that outlives its supervisor
        self.is_stored = False                          # a copy that nobody sees unless it is put back
        self.goes_into: Slot | None = None              # the folder that was put back to it last, maybe in a life that hasn't ended
        self.takes_over = False                         # a standby made it, and it isn't open yet
        self.has_room = True                            # its site takes messages

    def last(self, kind: str) -> int:
        """The number of the last message of its site, or the last turn that this passed on."""
        return max((packet[2] for packet in self.packets if packet[:2] == (kind, self.site)), default=0)

    def taken(self) -> int:
        """The last turn of the token that its site took."""
        return max((packet[2] for packet in self.packets if packet[0] == "p" and packet[3] == self.site), default=0)

    def behind(self) -> Callable[[Iterable[Packet]], list[Packet]]:
        """Says which packets its site may send again, under their names: those of it that are beyond what the folder has."""
        last = {"m": self.last("m"), "p": max(self.last("p"), self.taken())}
        return lambda packets: [packet for packet in packets if packet[1] == self.site and packet[2] > last[packet[0]]]


class Steps:
    """The list of a run, and what it has come to."""

    def __init__(self, world: "World") -> None:
        self.world = world
        self.list: list[Step] = []
        self.slots: list[Slot] = []
        self.streams: list[list[Packet]] = [[] for _ in range(world.sites)]
        self.begun = self.asks = 0
        self.told: tuple[int, "Folder"] | None = None   # the ask whose answer is said, and the folder of its site
        self.yielding: set[int] = set()                 # the sites that yield to a standby
        self.uncompared: set[int] = set()               # those of which a folder was opened that was compared with nothing
        self.under_way: dict[Packet, tuple[Step | None, Slot]] = {}     # the packets that were sent to the server: behind which step, from where
        self.gone_on: set[Packet] = set()               # what processes sent whose sites had others by then
        self.lives: dict[str, int] = {}                 # the numbers of lives, by their texts
        self.called: dict[bytes, list[int]] = {}        # the asks of a call to another supervisor
        self.known: dict[bytes, Packet] = {}            # the packets that texts are
        self.passes: list[Packet] = []                  # those that were made, in their order
        self.last: dict[Packet, tuple[Step, dict[Slot, int]]] = {}      # where each was last before it was lost, and what folders had then
        self.lost_by: dict[Packet, Step] = {}           # by which step each was lost last in a folder
        self.unseen: dict[Slot, tuple[Step, list[Packet], Step]] = {}   # stored copies that are as good as lost, what they had, and what opened
        self.place: Step | None = None                  # before which steps are written, if not at the end
        for site, folder in sorted((site, folder) for machine in world.machines for site, folder in machine.folders.items()):
            folder.slot = Slot(site, site)
            self.slots.append(folder.slot)

    def lines(self) -> list[str]:
        return ["Server" if self.world.is_over_server else "Files"] + [step.text for step in self._happened()]

    def none(self) -> dict[int, str]:
        """The lines that are no steps of the model, by number, and why."""
        return {at: step.why_none for at, step in enumerate(self._happened(), 1) if step.why_none}

    def _happened(self) -> list[Step]:
        return [step for step in self.list if not step.is_void]

    def _add(self, word: str, *fields: object, is_void: bool = False, before: Step | None = None) -> Step:
        step, before = Step(",".join(map(str, (word, *fields))), is_void), before or self.place
        self.list.insert(self.list.index(before) if before else len(self.list), step)
        return step

    def _note_gone(self, step: Step, packets: Iterable[Packet]) -> None:
        """These packets are lost by this step."""
        had = {slot: len(slot.packets) for slot in self.slots}
        self.last.update((packet, (step, had)) for packet in packets)

    @staticmethod
    def _word(packet: Packet) -> str:
        return ",".join(map(str, packet[1:]))

    def _put(self, slot: Slot, packets: Iterable[Packet], before: Step | None = None) -> None:
        """A folder is made again with these packets, which stand somewhere."""
        made = len(self.slots)
        self.slots.append(Slot(made, made))
        for packet in packets:
            self._add("Finds", made, self._word(packet), before=before)
        self._add("Rebuilds", slot.number, made, before=before)
        self._add("IsLost", made, before=before)

    # What runs folders.

    def starts(self, folder: "Folder", life: str) -> None:
        slot = folder.slot
        if not slot:
            return              # a standby has taken its place
        if slot.life:
            self._end_life(slot)
        self.begun += 1
        slot.life = self.lives[life] = self.begun
        slot.start = self._add("Starts", slot.number), list(slot.packets), len(self.passes)

    def opens(self, folder: "Folder") -> None:
        slot = folder.slot
        if not slot or slot.has_opened or not slot.life:
            return
        slot.has_opened = True
        beyond = slot.behind()
        stored = [(other, list(other.packets)) for other in self.slots if other.is_stored and beyond(other.packets)]
        lost = [self._lose(other) for other, _ in stored]       # unless it is put back, it is as good as lost
        self._learn_passes(slot, folder)
        slot.was_remembered = slot.is_remembered
        is_unreached = not slot.is_remembered and self._is_unreached(folder, slot)
        if slot.site in self.yielding and (slot.takes_over or is_unreached):
            step = self._open(slot, None, "TakesOver")
            slot.takes_over = False
            if self.world.server.lives[slot.site] != self.world.server.yields[slot.site]:
                self.yields(slot.site, False)
        else:
            step = self._open(slot, UNREACHED if is_unreached else None)
        slot.takes_over = False
        self.unseen.update((other, (loss, packets, step)) for (other, packets), loss in zip(stored, lost))

    def _open(self, slot: Slot, why_none: str | None, word: str = "Opens") -> Step:
        """It opens, and so closes the others of its site; or it takes over, and they go on."""
        for other in self.slots:
            if other.site == slot.site:
                if other.is_open and word == "Opens":
                    self._add("Closes", other.number)       # it is fenced, or will be
                    other.is_open, other.was_closed = False, True
                other.is_remembered = False
        slot.is_open = slot.is_remembered = True
        step = self._add(word, slot.number)
        step.why_none = why_none
        if word != "Opens":
            self.uncompared.add(slot.site)
        return step

    def _open_again(self, slot: Slot) -> None:
        """Its process goes on after another folder of its site was opened."""
        if slot.has_opened and not slot.is_open:
            if any(map(slot.behind(), [*(other.packets for other in self.slots), *self.streams])):
                self._add("GoesOn", slot.number)
                slot.is_open = True
                self.uncompared.add(slot.site)
            else:
                self._open(slot, None)

    def _learn_passes(self, slot: Slot, folder: "Folder") -> None:
        """Where a folder has lost passes, its site doesn't have the token, and nobody in reach knows who gave it the turns before, the start
        learns from the others only that there were these turns. And a rebuild made some again that nobody had, which have come back since."""
        if not slot.start:
            return
        taken, beyond, is_cut_off = slot.taken(), slot.behind(), self._is_cut_off(folder)
        step, had, passes = slot.start
        places = [other.packets for other in self.slots if self._reaches(folder, other, is_cut_off)] + self.streams * (not is_cut_off)
        given = {packet[2] for place in places for packet in place if packet[0] == "p" and packet[3] == slot.site}
        passed = max((token.turn for text in folder.sent() if (token := token_of(text))), default=0)
        lost = {packet: None for place in places for packet in beyond(place)
                if packet in self.passes[:passes] and (packet[2] - 1 not in given or packet[2] <= passed)}
        is_without = slot.last("p") > taken or not taken and slot.site or folder.keeper and folder.keeper.site.issued is None
        if lost and is_without:
            self._put(slot, [*had, *lost], before=step)
            slot.is_remembered = False
            slot.packets[len(had):len(had)] = lost

    def _is_unreached(self, folder: "Folder", slot: Slot) -> bool:
        """Whether a site opens that doesn't reach what has more of it. What it reaches excuses nothing."""
        beyond, is_cut_off = slot.behind(), self._is_cut_off(folder)
        reached = [self._reaches(folder, other, is_cut_off) for other in self.slots if beyond(other.packets)]
        reached += [not is_cut_off for stream in self.streams if beyond(stream)]
        return bool(reached) and not any(reached)

    def _site_of(self, folder: "Folder") -> "SimulatedSite | None":
        """What runs a folder."""
        return next((site for supervisor in self.world.supervisors() for site in supervisor.sites.values() if site.folder is folder), None)

    def _is_cut_off(self, folder: "Folder") -> bool:
        """Whether the supervisor of a folder doesn't reach the server, or opened the site while its stream couldn't be seen."""
        own = self._site_of(folder)
        reaches = any(its.reaches() for its in self.world.supervisors() if its.machine is folder.machine)
        return self.world.is_over_server and (not reaches or own is not None and own.is_unseen)

    def _reaches(self, folder: "Folder", other: Slot, is_cut_off: bool) -> bool:
        """Whether what another folder has is known where this one opens: it is beside it, or its own supervisor says it to all, and said so when
        this one's looked."""
        now, own = self.world.clock.now, self._site_of(folder)
        for supervisor in self.world.supervisors():
            for number, site in supervisor.sites.items():
                if site.folder.slot is other:
                    if supervisor.machine is folder.machine:
                        return site.known.is_set
                    until, said = self.world.server.said.get(number, (0.0, {}))
                    is_said = until > now and said["by"] == supervisor.named_of(number) and not (folder.slot and folder.slot.site == other.site)
                    is_heard = is_said and not is_cut_off and (not own or own.hears(number, said))
                    return is_heard and supervisor.reaches() and supervisor.paused_until < now and site.compared.is_set and not site.fenced_by
        return False

    def keeper_starts(self, folder: "Folder") -> None:
        if folder.slot:
            self._add("KeeperStarts", folder.slot.number)

    def has_room(self, folder: "Folder", has_room: bool) -> None:
        """A keeper has read all of a folder, or has kept something: its site is full by then, or isn't any more, as it was raised, or lost some."""
        slot = folder.slot
        if slot and slot.life and slot.start and has_room != slot.has_room:
            if has_room:
                self._add("IsRaised", slot.number, before=slot.start[0])
            else:
                self._add("Fills", slot.number)
            slot.has_room = has_room

    def supervisor_ended(self, folder: "Folder", keeper: "Keeper | None") -> None:
        slot = folder.slot
        if not slot or not slot.life:
            return
        if keeper and keeper.is_alive and keeper.folder.slot is slot:
            slot.draining = keeper
        else:
            self._end_life(slot)

    def keeper_ended(self, keeper: "Keeper") -> None:
        for slot in self.slots:
            slot.given = [given for given in slot.given if given.keeper is not keeper]
            if slot.draining is keeper:
                self._end_life(slot)

    def _end_life(self, slot: Slot) -> None:
        slot.end = self._add("IsKilled", slot.number)
        slot.life, slot.draining = 0, None
        slot.has_opened = slot.is_open = slot.was_closed = False
        slot.waiting, slot.accepted, slot.refused, slot.given = {}, {}, set(), []
        harms, slot.harms = slot.harms, []
        for harm in harms:
            harm()

    def machine_starts(self, machine: "Machine") -> None:
        for folder in machine.folders.values():
            if folder.slot:
                self._harm(folder.slot, partial(self._forget, folder.slot))

    def _forget(self, slot: Slot) -> None:
        slot.is_remembered = False
        self._add("MachineStarts", slot.number)

    # Asks.

    def _asked(self, life: int, request: dict[str, Any]) -> list[int]:
        """The asks of a request that names this life."""
        return [self._ask(life, bytes_of(text)) for text in request["records"]]

    def _ask(self, life: int, record: bytes) -> int:
        self.asks += 1
        self._add("IsAsked", self.asks, life, len(record.split(b"\n")) if record else 0)
        return self.asks

    def calls(self, name: bytes, life: str, request: dict[str, Any]) -> None:
        """A supervisor sends a request to that of another site, for the life that was seen last."""
        self.called[name] = self._asked(self.lives.get(life, 0), request)

    def asked_here(self, folder: "Folder", name: bytes, request: dict[str, Any]) -> list[int]:
        """The asks of a request that a supervisor serves: of a call, or of its own askers."""
        return self.called[name] if name else self._asked(folder.slot.life if folder.slot else 0, request)

    def serves(self, folder: "Folder", asks: Sequence[int], records: Sequence[bytes]) -> None:
        """A supervisor takes these asks. What isn't one record gets no further."""
        slot = folder.slot
        for ask, record in zip(asks, records):
            if slot and slot.life:
                slot.waiting.setdefault(record, []).append(ask)
                self._add("Serves", slot.number, ask)

    def gives(self, folder: "Folder", keeper: "Keeper | None", record: bytes) -> None:
        slot = folder.slot
        if slot and (asks := slot.waiting.get(record)):
            others = {its.ask for its in slot.given} | slot.refused | {slot.accepted.get(record)}       # that are asked under the same key
            ask = next((ask for ask in asks if ask not in others), asks[0])
            slot.given.append(Given(keeper, record, ask, self._add("Gives", slot.number, ask, is_void=True)))

    def asking(self, asks: Sequence[int], ask: Ask, run: Generator[tuple[Any, ...], Any, None]) -> Generator[tuple[Any, ...], Any, None]:
        """The steps of the asker of these, of whom it is noted whose answer is said."""
        goes_on = partial(run.send, None)
        with contextlib.suppress(StopIteration):
            while True:
                step = goes_on()
                if isinstance(step, Say):
                    self.told = asks[ask.answered], cast("SimulatedSite", ask.site).folder
                try:
                    goes_on = partial(run.send, (yield step))
                except BaseException as raised:
                    goes_on = partial(run.throw, raised)

    def says(self, record: bytes, answer: Answer) -> None:
        """An asker is told an answer."""
        assert self.told
        (ask, folder), head = self.told, answer.head
        slot = folder.slot
        if not slot or not (record in slot.waiting if slot.life else record in slot.accepted):
            return
        if head[2] == b"ok" or head[2] == b"again" and record in slot.accepted:
            word = "TellsPublished" if folder.yields or slot.site in self.yielding else "TellsOk"
            ask, number = slot.accepted.get(record, 0), int(head[3].split(b".")[1])
            packet = "m", slot.site, number, ask
            lost = self.last.get(packet) if folder.yields and packet not in self.streams[slot.site] else None
            self._add(word, slot.number, ask, number, before=lost[0] if lost else None if slot.life else slot.end)
        elif answer.refusal in UNDECIDED:
            self._add("TellsNothing", slot.number, ask)
            slot.waiting[record] = [other for other in slot.waiting.get(record, []) if other != ask]
        elif head[2] == b"again":
            self._add("TellsUnknown", slot.number, ask)

    def says_fault(self, folder: "Folder", asks: Sequence[int], text: str) -> None:
        """What an asker is told of those of its records that have no answer."""
        slot = folder.slot
        is_nothing = any(words in text for words in NOTHING) and not any(words in text for words in UNKNOWN)
        for ask in asks:
            if slot and slot.life and is_nothing:
                if ask not in slot.refused:     # where that refusal was held back, it is told no only now, and truly
                    self._add("TellsNothing", slot.number, ask)
            elif slot:
                self._add("TellsUnknown", slot.number, ask)

    def leaves(self, folder: "Folder", asks: Sequence[int], records: Sequence[bytes]) -> None:
        """Nobody waits for these any more."""
        if slot := folder.slot:
            for ask, record in zip(asks, records):
                if ask in slot.waiting.get(record, []):
                    slot.waiting[record].remove(ask)

    # What a folder keeps.

    def kept(self, keeper: "Keeper", record: bytes, said: bytes) -> None:
        """A record is in the file `kept`, and will have this answer."""
        folder, slot = keeper.folder, keeper.folder.slot
        is_found = folder.is_there and folder.files.get("kept") is keeper.kept
        head, _, rest = said.partition(b"\n")
        fields = head.split(b",")
        if not slot or not is_found and not (folder.is_there and folder.files.get("out") is keeper.out and said.startswith(SENDS, said.index(b",", 6))):
            return self._sent_unseen(keeper, fields, rest)      # in files that nobody finds again
        packet: Packet | None = None
        lost = None
        given = next((given for given in slot.given if given.keeper is keeper and given.record == record), None)
        if given:
            slot.given.remove(given)
            given.step.is_void = fields[2] == b"again" or fields[2] == b"refused" and fields[4].decode() in UNDECIDED
            if slot.was_closed and not given.step.is_void:      # it is open again by then
                self._open_again(slot)
                self.list.append(self.list.pop(self.list.index(given.step)))
        elif fields[2] in (b"ok", b"passed"):
            self._open_again(slot)
        match fields[2]:
            case b"ok":
                self.known[sent_in(rest)] = packet = packet_of(keeper, fields, rest, given.ask if given else 0)
                if slot.life:
                    slot.accepted[record] = packet[3]
                    step = self._add("Accepts", slot.number, packet[3])
                    self._look_at_name(step, packet, slot.last("m") + 1)
            case b"passed":
                self.known[sent_in(rest)] = packet = packet_of(keeper, fields, rest, slot.last("m"))
                self.passes.append(packet)
                if slot.life:
                    step = self._add("Passes", slot.number, packet[3])
                    self._look_at_name(step, packet, slot.taken() + 1)
            case b"holding" | b"released" | b"held":
                packet = self.known.get(record) if slot.life else None
                if packet:
                    from_files = [its.packets for its in self.slots if its.site == packet[1]]
                    is_offered = any(packet in place for place in ([self.streams[packet[1]]] if self.world.is_over_server else from_files))
                    lost = None if is_offered else self.last.get(packet)
                    step = self._add("Reads", slot.number, self._word(packet), before=lost and lost[0])
                    if not is_offered and packet in self.gone_on:
                        step.why_none = WENT_ON
                    if lost:        # it was read before that
                        slot.packets.insert(lost[1].get(slot, 0), packet)
            case b"refused":
                if given and not given.step.is_void and slot.life:
                    self._add("Refuses", slot.number, given.ask)
                    slot.refused.add(given.ask)
        if packet and not slot.life:
            self.gone_on.add(packet)        # nobody may read what such a process sends
            packet = None
        if is_found:
            folder.packets.append(packet)
        if packet and not lost:
            slot.packets.append(packet)

    def _sent_unseen(self, keeper: "Keeper", fields: Sequence[bytes], rest: bytes) -> None:
        """What a process sends whose folder isn't one of the model any more."""
        if fields[2] in (b"ok", b"passed"):
            self.known.setdefault(sent_in(rest), packet_of(keeper, fields, rest, 0))

    def _look_at_name(self, step: Step, packet: Packet, next_one: int) -> None:
        """A folder has sent a packet: its name is the next one, if no packet stands there that its process sent as it went on, nor one that no
        folder sent."""
        names = {its[:3] for its in self.gone_on}
        if packet[2] != next_one and (*packet[:2], next_one) in names:
            step.why_none = WENT_ON
        elif packet[0] == "p" and packet[2] > 1 and not any(its[2:4] == (packet[2] - 1, packet[1]) for its in self.passes):
            step.why_none = MADE_AGAIN

    # What a server has.

    def yields(self, site: int, does: bool) -> None:
        """The server has it that the life of a site that was seen last yields to a standby, or doesn't. A standby that takes over is open first."""
        if does:
            self._add("Yields", site)
            self.yielding.add(site)
        elif site in self.yielding and not any(slot.site == site and slot.takes_over for slot in self.slots):
            self._add("TakesBack", site)
            self.yielding.remove(site)

    def sends(self, machine: "Machine", texts: Iterable[bytes]) -> None:
        """A supervisor begins to append these packets, or to write a stream anew with them."""
        slots = [folder.slot for folder in machine.folders.values() if folder.slot and folder.slot.life]
        for packet in (self.known[text] for text in texts if text in self.known):
            if slot := next((slot for slot in slots if packet in slot.packets), None):
                self.under_way[packet] = self.list[-1] if self.list else None, slot

    def appends(self, machine: "Machine", text: bytes) -> None:
        packet = self.known.get(text)
        if packet:
            self._append(packet, [folder.slot for folder in machine.folders.values() if folder.slot])

    def _append(self, packet: Packet, first: Sequence[Slot]) -> None:
        """A folder that runs carries it, one of these first. Else it comes late, or a command carries it, and the folder runs as long as that."""
        slots = sorted((slot for slot in self.slots if packet in slot.packets), key=lambda slot: (slot.life > 0, slot in first, slot.site == packet[1]))
        if not slots:
            return self._append_late(packet)
        slot = slots[-1]
        if not slot.life:
            self.begun += 1
            self._add("Starts", slot.number)
        self._add("Appends", slot.number, self._word(packet))
        self.streams[packet[1]].append(packet)
        if not slot.life:
            self._add("IsKilled", slot.number)

    def _append_late(self, packet: Packet) -> None:
        """It was on its way as the last folder that had it lost it."""
        if packet in self.under_way:
            behind, slot = self.under_way[packet]
            step = Step(f"Sends,{slot.number},{self._word(packet)}")
            self.list.insert(self.list.index(behind) + 1 if behind else 0, step)
            self._add("Arrives", self._word(packet))
            self.streams[packet[1]].append(packet)

    def writes_anew(self, folder: "Folder", site: int, texts: Sequence[bytes]) -> None:
        slot = folder.slot
        if slot and slot.life and site not in self.uncompared:
            self._add("WritesAnew", slot.number)
            self.streams[site] = [packet for packet in slot.packets if packet[1] == site]
        else:
            self._carry(site, [packet for text in texts if (packet := self.known.get(text))])

    def _carry(self, site: int, packets: list[Packet]) -> None:
        """A rebuild writes a stream anew, before there is the folder: it carries what others have, and what stands in stopped folders."""
        stream = self.streams[site]
        same = next((at for at, (one, other) in enumerate(zip(stream, packets)) if one != other), min(len(stream), len(packets)))
        if same < len(stream):
            self._note_gone(self._add("StreamLosesEnd", site, same), stream[same:])
            del stream[same:]
        for packet in packets[same:]:
            self._append(packet, [])

    def server_lost(self, streams: Sequence[Sequence[bytes]]) -> None:
        """Of each stream only these packets are left."""
        for site, texts in enumerate(streams):
            left = {self.known.get(text) for text in texts}
            count = next((at for at, packet in enumerate(self.streams[site]) if packet not in left), len(self.streams[site]))
            if count < len(self.streams[site]):
                self._note_gone(self._add("StreamLosesEnd", site, count), self.streams[site][count:])
                del self.streams[site][count:]

    def server_lost_all(self) -> None:
        self._note_gone(self._add("ServerLosesAll"), (packet for stream in self.streams for packet in stream))
        self.streams = [[] for _ in self.streams]

    # What happens to files.

    def _harm(self, slot: Slot, harm: Callable[[], object]) -> None:
        if slot.life:
            slot.harms.append(harm)
        else:
            harm()

    def _harm_before_start(self, slot: Slot, harm: Callable[[], object]) -> None:
        """Nothing is read or sent by this life yet, and no keeper has the files open: the next one finds them so."""
        assert slot.start
        self.place, _, passes = slot.start
        harm()
        slot.start = self.place, list(slot.packets), passes
        self.place = None

    def copied(self, folder: "Folder", made: "Folder", is_stored: bool = False) -> None:
        """There is another folder with what this one has."""
        if folder.slot:
            made.slot = self._copy_of(folder.slot)
            made.slot.is_stored = is_stored

    def _copy(self, slot: Slot, other: Slot) -> None:
        self._note_lost(self._add("IsCopied", slot.number, other.number), other)
        other.packets, other.site = list(slot.packets), slot.site

    def put_back(self, folder: "Folder", older: "Folder", made: "Folder") -> None:
        """A folder has what an older copy has, as the same folder or another one in its place."""
        slot, its = folder.slot, older.slot
        if not slot or not its:
            return
        folder.slot = None
        made.slot = its.goes_into = slot
        self._harm(slot, partial(self._put_back, its, slot))

    def _put_back(self, its: Slot, slot: Slot) -> None:
        if its in self.unseen:      # it was as good as lost where a site was opened: that site didn't reach it
            loss, its.packets, opened = self.unseen.pop(its)
            loss.is_void, opened.why_none = True, UNREACHED
        self._copy(its, slot)

    def lost(self, folder: "Folder", made: "Folder | None" = None) -> None:
        """Another one is in its place, or nobody comes back to this copy."""
        if slot := folder.slot:
            folder.slot = None
            if made:
                made.slot = slot
            self._harm(slot.goes_into or slot, partial(self._lose, slot))

    def _note_lost(self, step: Step, slot: Slot) -> None:
        """By this step a folder loses some of what it has; it is stopped then."""
        slot.is_remembered = False
        self.lost_by.update((packet, step) for packet in slot.packets)

    def _lose(self, slot: Slot) -> Step:
        step = self._add("IsLost", slot.number)
        self._note_lost(step, slot)
        slot.packets = []
        return step

    def lost_end(self, folder: "Folder") -> None:
        """Of a folder no more is left than its files have: what it sent may stand in `out` alone."""
        del folder.packets[len(folder.whole_lines()):]
        slot = folder.slot
        if slot and slot.start and slot.life and not slot.has_opened and not folder.keeper:
            self._harm_before_start(slot, partial(self._lose_end, slot, folder))
        elif slot:
            self._harm(slot, partial(self._lose_end, slot, folder))

    def _lose_end(self, slot: Slot, folder: "Folder") -> None:
        left = sum(packet is not None for packet in folder.packets)
        sent = self._sent(slot, folder, slot.packets[:left])
        if left + len(sent) < len(slot.packets):
            self._cut(slot, slot.packets[:left], sent, slot.packets[left:] if not sent else [])

    def changed(self, folder: "Folder", records: int) -> None:
        """Only this many records are as they were."""
        del folder.packets[records:]
        left, slot = [packet for packet in folder.packets if packet], folder.slot
        if slot:
            self._harm(slot, partial(self._change, slot, folder, left))

    def _change(self, slot: Slot, folder: "Folder", left: list[Packet]) -> None:
        self._cut(slot, left, self._sent(slot, folder, left))

    def _cut(self, slot: Slot, left: list[Packet], sent: list[Packet], gone: Sequence[Packet] = ()) -> None:
        """Only these are left in the folder, and what its site sent that is in `out` still."""
        copy = self._copy_of(slot) if sent else None
        step = self._add("LosesEnd", slot.number, len(left))
        self._note_lost(step, slot)
        self._note_gone(step, gone)
        slot.packets = left + sent
        if copy:
            self._put(slot, slot.packets)
            self._lose(copy)

    @staticmethod
    def _sent(slot: Slot, folder: "Folder", left: Sequence[Packet]) -> list[Packet]:
        """What else is left of what its site sent: in the file `out`."""
        return [packet for packet in [packet for packet in slot.packets if packet[1] == slot.site][:len(folder.sent())] if packet not in left]

    # What is made again.

    def packet_of(self, record: bytes, said: bytes) -> Packet | None:
        """The packet that a record with this answer sends or takes in, if it is known."""
        head, _, rest = said.partition(b"\n")
        match head.split(b",")[2]:
            case b"ok" | b"passed":
                return self.known.get(sent_in(rest))
            case b"released" | b"held" | b"holding":
                return self.known.get(record)
        return None

    def _copy_of(self, slot: Slot) -> Slot:
        copy = Slot(len(self.slots), slot.site)
        self.slots.append(copy)
        self._copy(slot, copy)
        return copy

    def _another(self, site: int) -> Slot:
        """Another folder of a site, that has nothing."""
        slot = self._copy_of(next(slot for slot in self.slots if slot.site == site))
        self._lose(slot)
        return slot

    def rebuilds(self, folder: "Folder", made: "Folder", site: int) -> None:
        """It takes the place of a folder."""
        slot, folder.slot = folder.slot or self._another(site), None
        made.slot = slot
        if slot.life:
            self._end_life(slot)
        self._rebuild(slot, made)

    def takes_over(self, made: "Folder", site: int) -> None:
        """It takes the place of a site elsewhere, of which other folders go on. One that it made before, without hearing that, never opens."""
        for slot in self.slots:
            slot.takes_over = slot.takes_over and slot.site != site
        made.slot = self._another(site)
        self._rebuild(made.slot, made)
        made.slot.takes_over = True

    def _rebuild(self, slot: Slot, made: "Folder") -> None:
        somewhere = {packet for its in [*(its.packets for its in self.slots), *self.streams] for packet in its}
        made.packets = [packet if packet in somewhere else None for packet in made.packets]
        packets = [packet for packet in made.packets if packet]
        if not set(slot.packets) <= set(packets):
            copy = self._copy_of(slot)
            self._lose(slot)
            self._put(slot, packets)
            self._lose(copy)
        else:
            self._put(slot, packets)
            slot.is_remembered = False
        slot.packets = packets
