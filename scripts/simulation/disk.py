"""Machines with folders, whose files have what is on the disk and what isn't yet, and keepers that write them."""

import copy
import errno
import random
from collections.abc import Callable, Sequence
from typing import TYPE_CHECKING, Any, NamedTuple

from shop_tool.carrier.answers import AnswerReader
from shop_tool.carrier.files import File as Seen

from .remembered import compared
from .stand_in import StandIn, records_of

if TYPE_CHECKING:
    from .model import Packet, Slot
    from .world import World


def is_question(line: bytes) -> bool:
    return line.startswith(b"?")


class File:
    """A file: its bytes, and how many of them are on the disk."""

    def __init__(self, inode: int, data: bytes = b"") -> None:
        self.inode, self.data, self.synced = inode, bytearray(data), len(data)

    def lose_end(self, dice: random.Random) -> bool:
        """What the power leaves of it: what is on the disk, and some of what comes behind; whether that isn't all."""
        size = len(self.data)
        if self.synced < size:
            del self.data[dice.randint(max(self.synced, size - 400), size):]
        return len(self.data) < size


class Past(NamedTuple):
    """How a keeper left its folder: what of `kept` it had answered, the answers, and its site."""

    kept: bytes
    out: bytes
    site: StandIn


class Folder:
    """The folder of a site: its files, and its lives."""

    def __init__(self, world: "World", machine: "Machine") -> None:
        self.world, self.machine = world, machine
        self.inode = self.number = world.new_number()       # a clone has the same inode, and another number
        self.files: dict[str, File] = {}
        self.lives: list[str] = []
        self.fenced: str | None = None      # why it is never started again
        self.yields = False                 # its site has a standby
        self.keep: int = machine.keep       # how many messages its site keeps
        self.noted = 0                      # how many of its records the run has taken down
        self.keeper: "Keeper | None" = None  # who holds its lock
        self.past: Past | None = None       # so that the next keeper needn't answer all of `kept` again
        self.is_there = True
        self.is_whole = True                # nothing was taken from it
        self.has_lost = False               # the power took something of `kept`
        self.slot: "Slot | None" = None     # which folder of the model it is
        self.packets: list["Packet | None"] = []    # the packet that each record of `kept` sent or took in

    def copied(self, machine: "Machine") -> "Folder":
        """A copy of it, with other files of the same bytes."""
        made = Folder(self.world, machine)
        made.files = {name: File(self.world.new_number(), bytes(file.data)) for name, file in self.files.items()}
        made.lives, made.noted, made.fenced, made.yields, made.keep = list(self.lives), self.noted, self.fenced, self.yields, self.keep
        made.packets = list(self.packets)
        return made

    def put_back(self, older: "Folder") -> None:
        """Has what an older copy has, in the same folder."""
        again = older.copied(self.machine)
        self.files, self.lives, self.noted, self.fenced, self.yields = again.files, again.lives, again.noted, again.fenced, again.yields
        self.packets, self.keep = again.packets, again.keep

    def file(self, name: str) -> File:
        if name not in self.files:
            self.files[name] = File(self.world.new_number())
        return self.files[name]

    def look(self, name: str) -> Seen | None:
        if not self.is_there:
            return None
        if not name:
            return Seen(1, self.inode, 0)
        found = self.files.get(name)
        return Seen(1, found.inode, len(found.data)) if found else None

    def read_out(self, pieces: Sequence[tuple[int, int]]) -> list[bytes]:
        if not self.is_there or "out" not in self.files:
            raise FileNotFoundError(errno.ENOENT, "No such file or directory", "out")
        data = self.files["out"].data
        found = [bytes(data[start:start + size]) for start, size in pieces]
        if len(found[-1]) < pieces[-1][1]:
            raise OSError(errno.EIO, "it has lost its end", "out")
        return found

    def _bytes(self, name: str) -> bytes:
        return bytes(self.files[name].data) if self.is_there and name in self.files else b""

    def lines(self, name: str) -> list[bytes]:
        return self._bytes(name).splitlines(keepends=True)

    def whole_lines(self) -> list[bytes]:
        """The lines of `kept`, without one that is torn."""
        return [line for line in self.lines("kept") if line.endswith(b"\n")]

    def checked(self) -> tuple[int, int | None]:
        """How many lines of `kept` are as their sums say, and the number of the first that was changed."""
        return compared(self._bytes("kept"), self._bytes("sums"))

    def unchanged(self) -> list[bytes]:
        """The lines of `kept` in front of the first that was changed."""
        count, changed = self.checked()
        return self.lines("kept")[:None if changed is None else count]

    def shorten(self, site: int) -> bool:
        """As `shop shorten`: leaves in `kept` only the records that changed something. False if no keeper would start."""
        records, one = [line[:-1] for line in self.whole_lines()], StandIn(site, self.world.sites, self.keep)
        said = [one.answer(record) for record in records]
        text = b"".join(said)
        if not self.is_there or self.keeper or self.checked()[1] is not None or not text.startswith(self._bytes("out")):
            return False
        left = [at for at, answer in enumerate(AnswerReader().feed(text)) if answer.kind in (b"ok", b"passed", b"released", b"held", b"holding")]
        self.packets = [self.packets[at] for at in left]
        self.files = {"kept": File(self.world.new_number(), b"".join(records[at] + b"\n" for at in left))}
        self.noted, self.past = len(left), None
        return True

    def sent(self) -> list[bytes]:
        """The packets in its file `out`."""
        return [line[5:-1] for line in self.lines("out") if line.startswith(b"send,") and line.endswith(b"\n")]


class Machine:
    """A machine: the folders of one shop, what is in memory, and which start of it this is."""

    def __init__(self, world: "World", name: str, here: Sequence[int], identity: str | None = None) -> None:
        self.world, self.name, self.here = world, name, list(here)
        self.keep: int = world.keep         # how many messages a new folder's site keeps
        self.identity = identity or name    # a clone of a disk has that of the original
        self.folders: dict[int, Folder] = {site: Folder(world, self) for site in here}
        self.seen: dict[int, str] = {}      # over files: the life of each site that the others saw
        self.memory: dict[str, tuple[str, int, int]] = {}
        self.boot = world.new_number()
        self.is_cut_off = False             # from the server
        self.disturbed_until = 0.0          # when it was last cut off, or a supervisor of it stood still

    def forget(self, site: int) -> None:
        """Remembers nothing any more of its folder of a site."""
        folder = self.folders[site]
        first = folder.lives[0] if folder.lives else ""
        if first in self.memory and self.memory[first][2] == folder.inode:
            del self.memory[first]

    def raise_keep(self, keep: int) -> None:
        """An operator has its sites keep more messages, while they are stopped. Where one can't be started, its folder keeps as many as before."""
        self.keep = keep
        for site, folder in self.folders.items():
            if folder.shorten(site):
                folder.keep = keep

    def lose_power(self, dice: random.Random) -> list[Folder]:
        """The power goes, and files lose what isn't on the disk; the folders of which that takes something that was kept."""
        self.memory, self.boot = {}, self.world.new_number()
        for folder in self.folders.values():
            folder.has_lost = [folder.file(name).lose_end(dice) for name in ("kept", "out")][0]
            folder.file("sums").lose_end(dice)
        return [folder for folder in self.folders.values() if folder.has_lost]

    def copied(self, name: str, is_clone: bool) -> "Machine":
        """Another machine with a copy of all folders; a clone of the disk can't be told from it."""
        made = Machine(self.world, name, self.here, self.identity if is_clone else None)
        for site, folder in self.folders.items():
            made.folders[site] = folder.copied(made)
            if is_clone:
                made.folders[site].inode = folder.inode
        made.seen, made.keep = copy.copy(self.seen), self.keep
        return made


class Keeper:
    """The process `rubis keep` of a site: each record is kept, then answered in `out`, then told."""

    def __init__(self, folder: Folder, number: int, told: Callable[[], None]) -> None:
        self.folder, self.number, self._told = folder, number, told
        self.world, self.clock, self.dice = folder.world, folder.world.clock, folder.world.dice
        self.site: StandIn = StandIn(number, self.world.sites, folder.keep)
        self.input: list[bytes] = []
        self.is_closed = False          # its input has ended
        self.is_heard = True            # somebody reads its output
        self.status: int | None = None  # once it has ended
        self.fault: str | None = None
        self.head: bytes | None = None
        self.output: list[bytes] = []
        self.said = bytearray()         # all its answers
        self.is_working = False
        self.clock.after(0.01 + self.dice.random() * 0.02, self._start)

    @property
    def is_alive(self) -> bool:
        return self.status is None

    def write(self, data: bytes) -> None:
        if self.is_alive:
            self.input.append(data)
            self._wake()

    def close(self) -> None:
        """Its input ends: it answers what it was given, and ends."""
        self.is_closed = True
        self._wake()

    def kill(self) -> None:
        """It is ended where it is; of what it was about to write, some bytes may be written."""
        if self.is_alive:
            self._end(-9)

    def leave(self) -> None:
        """The supervisor has gone: what stands in the pipe is still read."""
        self.is_heard = False
        self.close()

    def _soon(self, call: Callable[..., None], *words: Any) -> None:
        """Does something in a moment, unless it has ended by then."""
        self.clock.soon(lambda: call(*words) if self.is_alive else None)

    def _wake(self) -> None:
        if self.head is not None and not self.is_working and self.is_alive:
            self.is_working = True
            self._soon(self._keep)

    def _end(self, status: int, fault: str | None = None) -> None:
        self.status, self.fault = status, fault
        if self.folder.keeper is self:
            self.folder.keeper = None
        self.world.steps.keeper_ended(self)
        if self.is_heard:
            self.clock.soon(self._told)

    def _start(self) -> None:
        if not self.is_alive:
            return
        if self.folder.keeper:
            return self.clock.after(0.02, self._start)     # it waits for the lock
        if not self.folder.is_there:
            self.folder.is_there = True                    # it makes its folder
            self.folder.files = {}
        self.folder.keeper = self
        self.kept: File = self.folder.file("kept")
        self.out: File = self.folder.file("out")
        kept, out = self.kept, self.out
        del kept.data[kept.data.rfind(b"\n") + 1:]
        kept.synced = min(kept.synced, len(kept.data))
        text, past = bytes(kept.data), self.folder.past
        if not past or not text.startswith(past.kept) or self.folder.noted < past.site.records:
            past = Past(b"", b"", self.site)
        self.site, before = past.site, past.site.records
        records = [record for line in text[len(past.kept):].split(b"\n")[:-1] for record in records_of(line)]
        said = [self.site.answer(record) for record in records]
        for record, its in list(zip(records, said))[self.folder.noted - before:]:
            self.world.answered(self, record, its)
        self.folder.noted = self.site.records
        self.said += past.out + b"".join(said)
        self._is_read()
        if not self.said.startswith(out.data):
            return self._end(1, "out differs")
        out.data[:] = self.said
        self.head = b"kept,%d" % self.site.records
        if self.is_heard:
            self.clock.soon(self._told)
        self.is_working = True
        self._soon(self._keep)

    def _is_read(self) -> None:
        """All of `kept` is answered."""
        self.folder.past = Past(bytes(self.kept.data), bytes(self.said), self.site)
        self.world.steps.has_room(self.folder, not self.site.is_full)

    def _keep(self) -> None:
        """Keeps what one read of its input gives."""
        data = b"".join(self.input)
        self.input.clear()
        if not data:
            self.is_working = False
            if self.is_closed:
                self._end(0)
            return
        lines = data.split(b"\n")[:-1]
        records = [record for line in lines for record in ([line] if is_question(line) else records_of(line))]
        text = b"".join(next(records_of(line), line) + b"\n" for line in lines if not is_question(line))
        if text and self.dice.random() < 0.3:
            # A kill may come in the middle of this write.
            cut = self.dice.randrange(len(text))
            self.kept.data += text[:cut]
            said = self._made(records, text[:cut].count(b"\n"))
            return self._soon(self._keep_rest, text[cut:], records[len(said):], said)
        self._keep_rest(text, records, [])

    def _keep_rest(self, text: bytes, records: list[bytes], said: list[tuple[bytes, bytes]]) -> None:
        self.kept.data += text
        if self.world.is_synced:
            self.kept.synced = len(self.kept.data)
        said += self._made(records, len(records))
        self._soon(self._answer, said)

    def _made(self, records: list[bytes], count: int) -> list[tuple[bytes, bytes]]:
        """The answers to the first records, of which this many have just been kept, and to the questions among them."""
        said: list[tuple[bytes, bytes]] = []
        for record in records:
            if is_question(record):
                said.append((record, b"?state,%d\n" % self.site.records))
            elif count:
                count -= 1
                said.append((record, self.site.answer(record)))
                self.world.steps.kept(self, *said[-1])
            else:
                break
        return said

    def _answer(self, said: list[tuple[bytes, bytes]]) -> None:
        """Answers what was kept, in `out` and then to the supervisor."""
        answers = told = b""
        for record, its in said:
            told += its
            if not is_question(record):
                answers += its
                self.folder.noted += 1
                self.world.answered(self, record, its)
        self.out.data += answers
        self.said += answers
        self._is_read()
        if not self.is_heard:
            return self._end(1, "write")
        self._soon(self._tell, told)

    def _tell(self, answers: bytes) -> None:
        self.output.append(answers)
        if self.is_heard:
            self._told()
        self._soon(self._keep)
