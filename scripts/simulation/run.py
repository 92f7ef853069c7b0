"""One run: a shop is asked while things go wrong, then nothing goes wrong any more, and the promises are looked at."""

import collections
import functools
import random
from collections.abc import Iterable

from shop_tool.carrier.rebuilding import Rebuild
from shop_tool.carrier.records import ASKS, Message, Token, bare, key_in, kind_of, why_not_one_record
from shop_tool.carrier.site import State
from shop_tool.carrier.steps import Broken
from shop_tool.ends import Fault

from .askers import Asker, KeyedAsker, asked
from .disk import Folder, Machine
from .faults import FAULTS, Faults
from .remembered import packet_of
from .stand_in import MOST
from .world import Command, SimulatedSite, Supervisor, Violation, World

ASKS_OF_A_RUN, FAULTS_OF_A_RUN, QUESTIONS = (58, 75), (12, 18), (8, 14)
FAULT_SECONDS = 30.0        # how long things go wrong
CALM_SECONDS = 240.0        # how long it may take then until all goes on
WELL_SECONDS = 3.0          # how long it has to be well
LAST_SECONDS = 60.0         # how long a red ask may take then
LEAST_EVENTS, LEAST_TURNS, MORE = 300, 3, 12
FIRST_TURNS = 6             # how many red asks there are at alternate sites before anything goes wrong
LAST = 10 ** 6              # the number of the first of the last asks
GIVEN_TWICE = "an id or a turn was given twice by a site that couldn't reach what knew of it"
OPENED_UNREACHED = "a site was opened that couldn't reach what has more of it"
EXACT = 15                  # how often an operator tries to rebuild a site before he says --anyway


class Run:
    def __init__(self, seed: str, skip: frozenset[int] = frozenset()) -> None:
        self.seed, self.skip = seed, skip
        self.world = World(seed)
        self.askers: list[Asker | KeyedAsker] = []
        self.supervisors: dict[str, Supervisor] = {}
        self.copies: list[Supervisor] = []              # those of copies of folders
        self.backups: list[tuple[Machine, int, Folder]] = []
        self.resting: dict[str, float] = {}             # until when a machine isn't started
        self.commands: dict[str, Command] = {}
        self.to_rebuild: dict[str, list[tuple[int, str]]] = {}
        self.to_raise: set[str] = set()                 # machines with a site that is full
        self.tries: dict[int, int] = {}
        self.tainted: dict[int, tuple[float, str]] = {}     # folders to which something happened, by their number: when, and what
        self.changed: list[tuple[Folder, list[bytes]]] = []
        self.is_token_lost = False                      # nothing whole was left that knows of it
        self.may_be_lost = False                        # a site was rebuilt though others were silent
        self.fault_count = self.planned = 0
        self.asked: set[bytes] = set()

    # What happens.

    def play(self) -> None:
        """Plays it to its end; a Violation if a promise is broken."""
        plan = random.Random(f"{self.seed} plan")
        events = [(plan.uniform(0.3, FAULT_SECONDS + 1), "ask", str(plan.random())) for _ in range(plan.randint(*ASKS_OF_A_RUN))]
        events += [(plan.uniform(1, FAULT_SECONDS), plan.choices(list(FAULTS), list(FAULTS.values()))[0], str(plan.random()))
                   for _ in range(plan.randint(*FAULTS_OF_A_RUN))]
        events += [(plan.uniform(0.3, FAULT_SECONDS), "question", str(plan.random())) for _ in range(plan.randint(*QUESTIONS))]
        events += [(0.2 + 0.12 * at, "turn", str(at)) for at in range(FIRST_TURNS)]
        self.planned = len(events)
        for number, (at, what, seed) in enumerate(events):
            if number not in self.skip:
                self.world.clock.after(at, functools.partial(self._happens, number, what, seed))
        for machine in self.world.machines:
            self._start(machine)
        self._operate()
        self.world.clock.run(FAULT_SECONDS + 1.5)
        self._calm_down()
        self._ask_more(plan)
        self._goes_on()
        self._is_kept()

    def _ask_more(self, plan: random.Random) -> None:
        """Where little happened there are more asks."""
        counts = self.world.counts
        for _ in range(MORE):
            if counts["Passes"] >= LEAST_TURNS and sum(counts.values()) >= LEAST_EVENTS:
                break
            for number in range(len(self.askers), len(self.askers) + 20):
                self.world.clock.after(plan.uniform(0, 5), functools.partial(self._ask, 1000 + number, random.Random(plan.random())))
            self.world.clock.run(self.world.clock.now + 17)

    def _happens(self, number: int, what: str, seed: str) -> None:
        dice = random.Random(seed)
        if what == "ask":
            self._ask(number, dice)
        elif what == "question":
            if site := self.some_site(dice):
                site.shop.question(site)
        elif what == "turn":
            self._ask_red(int(seed) % self.world.sites, number)
        else:
            self.fault_count += 1
            getattr(Faults(self), what)(dice)

    def _ask(self, number: int, dice: random.Random) -> None:
        world = self.world
        site = dice.randrange(world.sites)
        at = dice.choice(world.machines) if dice.random() < 0.2 else next(machine for machine in world.machines if site in machine.here)
        supervisor = self.supervisors.get(at.name)
        if self.copies and dice.random() < 0.25:
            supervisor = dice.choice(self.copies)
        records = asked(dice, number, world.sites, self.asked)
        if dice.random() < 0.3 and kind_of(records[0]) in ASKS and not why_not_one_record(records[0]):
            def here() -> Supervisor | None:
                return self.supervisors.get(at.name)
            self.askers.append(KeyedAsker(world, here, site, records[0], dice))
            return
        seconds = dice.choice([0.1, 0.5, 3.0, 10.0])
        asker = Asker(world, supervisor, site, records, seconds, dice.random() < 0.15)
        self.askers.append(asker)
        if dice.random() < 0.05:
            world.clock.after(dice.random() * seconds, asker.leave)

    def ask_at(self, site: int, records: list[bytes]) -> Asker:
        """Asks a site where it runs."""
        supervisor = next((its for its in self.supervisors.values() if site in its.sites), None)
        asker = Asker(self.world, supervisor, site, records, LAST_SECONDS, False)
        self.askers.append(asker)
        return asker

    def _ask_red(self, site: int, number: int) -> Asker:
        """Asks a site what only the holder of the token accepts."""
        return self.ask_at(site, [b"user,red%d" % number])

    # Operators.

    def _start(self, machine: Machine) -> None:
        self.supervisors[machine.name] = Supervisor(self.world, machine)

    def _operate(self) -> None:
        """Operators look at their machines: they start what isn't running, and rebuild what is fenced."""
        world = self.world
        for asker in self.askers:
            asker.look()
        for machine in world.machines:
            supervisor = self.supervisors.get(machine.name)
            if machine.name in self.commands or self.resting.get(machine.name, 0.0) > world.clock.now:
                continue
            if supervisor and supervisor.is_alive:
                self._look_at(supervisor)
            elif self.to_rebuild.get(machine.name):
                self._mend(machine, *self.to_rebuild[machine.name].pop())
            elif machine.name in self.to_raise:
                self.to_raise.remove(machine.name)
                self._raise(machine)
            elif world.is_calm or world.dice.random() < 0.4:
                self._start(machine)
        world.clock.after(0.5 if world.is_calm else 0.5 + world.dice.random(), self._operate)

    def _look_at(self, supervisor: Supervisor) -> None:
        for number, why in supervisor.fenced:
            self._is_due(supervisor.sites[number], why)
        supervisor.fenced.clear()
        sick = [site for site in supervisor.sites.values()
                if site.state is State.FENCED or site.state is State.DOWN and site.keeper and site.keeper.fault]
        for site in sick:
            self._is_due(site, site.fenced_by or str(site.keeper and site.keeper.fault))
        elsewhere = [site for site in sick if self._runs_elsewhere(site)]
        if elsewhere and not supervisor.is_leaving:
            supervisor.stop()
            for site in elsewhere:      # its operator starts the machine without it
                supervisor.machine.here.remove(site.number)
                self.world.steps.lost(site.folder)
            return
        if not sick and not supervisor.is_leaving and self._is_small(supervisor):
            supervisor.stop()
            self.to_raise.add(supervisor.machine.name)
        if sick and not supervisor.is_leaving and (self.world.is_calm or self.world.dice.random() < 0.3):
            supervisor.stop()
            self.to_rebuild[supervisor.machine.name] = [(site.number, site.fenced_by or "") for site in sick]

    def _runs_elsewhere(self, site: SimulatedSite) -> bool:
        """Whether a standby has taken the place of this folder of the site: it is said so, or a rebuild says that the site is running."""
        return site.number in self.world.taken_over and any(
            supervisor.machine is not site.machine and site.number in supervisor.sites and supervisor.sites[site.number].compared.is_set
            and not supervisor.sites[site.number].fenced_by for supervisor in self.supervisors.values())

    def _is_due(self, site: SimulatedSite, why: str) -> None:
        """A site whose files nobody touched isn't stopped."""
        ran_copies = any(site.number in copy.sites for copy in self.copies) or site.number in self.world.taken_over
        if site.folder.inode not in self.tainted and not self.changed and not ran_copies and not self.why_excused():
            raise Violation(f"site {site.number} is stopped, and nothing happened to its folder: {why}")

    def _mend(self, machine: Machine, number: int, why: str) -> None:
        """Does what is said of a site that is stopped."""
        if "`kept` is enough" not in why:
            return self._rebuild(machine, number)
        machine.folders[number].files.pop("out", None)
        self.world.steps.lost_end(machine.folders[number])

    def _is_small(self, supervisor: Supervisor) -> bool:
        """Whether its sites have to keep more: one is full, and an operator has seen that; or one doesn't keep all that is asked at last."""
        up = [site for site in supervisor.sites.values() if site.up.is_set]
        if self.world.is_calm:
            return any(site.folder.keep < MOST for site in up)
        return any(site.keeper and site.keeper.site.is_full for site in up) and self.world.dice.random() < 0.1

    def _raise(self, machine: Machine) -> None:
        self.world.note("IsRaised")
        machine.raise_keep(MOST if self.world.is_calm else 2 * machine.keep)

    def _rebuild(self, machine: Machine, number: int) -> None:
        world, command = self.world, Command(self.world, machine)
        self.tries[number] = self.tries.get(number, 0) + 1
        anyway = self.tries[number] > EXACT and world.is_calm
        rebuild = Rebuild(number, world.sites, machine.here, anyway)
        self.commands[machine.name] = command

        def ended(said: object, fault: Exception | None) -> None:
            self.commands.pop(machine.name, None)
            command.end()
            self.may_be_lost = self.may_be_lost or anyway
            if fault and not isinstance(fault, (Fault, Broken)):
                raise fault
            if isinstance(fault, Fault) and "Full" in fault.text:
                self._raise(machine)
            self.note_losses()
        command.spawn(rebuild.over_server() if world.is_over_server else rebuild.over_files(), ended)

    def rest(self, machine: Machine, seconds: float) -> None:
        """Nobody starts it for some time."""
        self.resting[machine.name] = self.world.clock.now + seconds

    def switch_off(self, machine: Machine) -> None:
        """Its supervisor and what that runs end at once."""
        if command := self.commands.pop(machine.name, None):
            command.end()
        for supervisor in [self.supervisors.get(machine.name), *(copy for copy in self.copies if copy.machine is machine)]:
            if supervisor and supervisor.is_alive:
                supervisor.end()
                for site in supervisor.sites.values():
                    site.kill()
        for folder in machine.folders.values():
            if folder.keeper:
                folder.keeper.kill()

    # For faults.

    def some_supervisor(self, dice: random.Random) -> Supervisor | None:
        running = [supervisor for supervisor in [*self.supervisors.values(), *self.copies] if supervisor.is_alive]
        return dice.choice(running) if running else None

    def some_site(self, dice: random.Random) -> SimulatedSite | None:
        supervisor = self.some_supervisor(dice)
        return dice.choice(list(supervisor.sites.values())) if supervisor and supervisor.sites else None

    def some_folder(self, dice: random.Random) -> tuple[Machine, int, Folder]:
        """A folder, with its machine and its site."""
        machine = dice.choice(self.world.machines)
        return machine, *dice.choice(list(machine.folders.items()))

    def taint(self, folders: Iterable[Folder], what: str, is_whole: bool = False) -> None:
        """Something happened to these folders; they aren't whole any more, unless that is said."""
        for folder in folders:
            self.world.note(what)
            self.tainted[folder.inode] = self.world.clock.now, what
            folder.is_whole = folder.is_whole and is_whole
        self.note_losses()

    def disturb(self, machine: Machine | None = None, seconds: float = 0.0) -> None:
        """A connection is cut off, or a process stands still: of a machine for so long."""
        now = self.world.disturbed_at = self.world.clock.now
        if machine:
            machine.disturbed_until = max(machine.disturbed_until, now + seconds)

    # What was lost, as it may be.

    def note_losses(self) -> None:
        """After something was lost: the messages of which nothing whole is left, and whether the token is one of these things."""
        held: set[bytes] = set()
        for folder in (folder for machine in self.world.machines for folder in machine.folders.values()):
            if folder.is_whole:
                held.update(line.rstrip(b"\n") for line in folder.lines("kept"))
                held.update(folder.sent())
        for stream in self.world.server.streams:
            held.update(text for _, text in stream.entries)
        self.world.lost |= {text for text in self.world.made.values() if text not in held}
        self.is_token_lost = self.is_token_lost or any(text not in held for text in self.world.passes.values())

    def _is_past_lost(self) -> bool:
        """Whether a message is lost that others count, so that what counts it can't be released, or a red one that was issued before a pass, so that
        no red ask after it can be accepted."""
        world = self.world
        lost = {name for name, text in world.made.items() if text in world.lost}

        def counts(text: bytes) -> bool:
            packet = packet_of(text)
            return isinstance(packet, Message) and any((site, number) in lost for site, count in enumerate(packet.deps)
                                                       for number in range(1, count + 1))
        reds = {packet.red for text in world.made.values() if text in world.lost and isinstance(packet := packet_of(text), Message)} - {0}
        issued = max((packet.issued for text in world.passes.values() if isinstance(packet := packet_of(text), Token)), default=0)
        return bool(lost) and any(counts(text) for text in world.made.values() if text not in world.lost) or any(red <= issued for red in reds)

    # The end.

    def _calm_down(self) -> None:
        """Nothing goes wrong from now on: copies are gone, machines and the server run, and operators do what they are told to."""
        world = self.world
        world.is_calm = True
        for copy in self.copies:
            if copy.is_alive:
                copy.end()
        for folder in [folder for _, _, folder in self.backups] + [folder for copy in self.copies for folder in copy.machine.folders.values()]:
            world.steps.lost(folder)
        world.server.come()
        for machine in world.machines:
            machine.is_cut_off = False
        self.resting.clear()
        world.clock.run(max([world.clock.now, *(supervisor.paused_until + 2 for supervisor in self.supervisors.values())]))
        until = world.clock.now + CALM_SECONDS
        well_since = world.clock.now
        while world.clock.now - well_since < WELL_SECONDS:
            if not self._is_well():
                well_since = world.clock.now
            if world.clock.now > until:
                if self.why_excused():
                    return
                raise Violation(f"after {CALM_SECONDS:g} seconds in which nothing went wrong the shop doesn't go on: {self._state()}")
            world.clock.run(world.clock.now + 0.5)

    def _sites(self) -> list[SimulatedSite]:
        return [site for supervisor in self.supervisors.values() for site in supervisor.sites.values()]

    def _is_well(self) -> bool:
        return not self.commands and all(supervisor.is_alive and not supervisor.is_leaving and supervisor.link.state == "up"
                                         for supervisor in self.supervisors.values()) and \
            all(site.state is State.UP and site.compared.is_set for site in self._sites()) and \
            len({site.number for site in self._sites()}) == len(self._sites())      # none that a standby has taken over hasn't seen that yet

    def _state(self) -> str:
        said = [f"{name} {'runs' if supervisor.is_alive else 'has ended'} {supervisor.link.state} "
                + " ".join(f"{site.number}:{site.state}{'' if site.compared.is_set else ' not compared'} ({site.fenced_by or site.fault})"
                           for site in supervisor.sites.values()) for name, supervisor in self.supervisors.items()]
        return "; ".join(said)

    def why_excused(self) -> str | None:
        """Why so much was lost that the shop may not go on, if it was."""
        if self.world.excused:
            return GIVEN_TWICE
        if self.world.is_unreached:
            return OPENED_UNREACHED
        if self.is_token_lost:
            return "a pass is lost"
        if self.may_be_lost:
            return "a site was made again --anyway"
        return "a message is lost that others count" if self._is_past_lost() else None

    def _goes_on(self) -> None:
        """A red ask at each site is accepted, and all read all."""
        world = self.world
        if self.why_excused():
            return
        for site in range(world.sites):
            asker = self._ask_red(site, LAST + site)
            while not asker.is_over:
                world.clock.run(world.clock.now + 0.2)
            if asker.told[0].what != "ok":
                raise Violation(f"a red ask at site {site} isn't accepted: {asker.answers}; {self._state()}; "
                                f"token {world.turn}, turns {[(its.number, its.ledger.turn, its.ledger.holds_token) for its in self._sites()]}")
        until = world.clock.now + LAST_SECONDS
        while len(counts := {tuple(site.keeper.site.release.counts) for site in self._sites() if site.keeper}) > 1:
            if world.clock.now > until:
                raise Violation(f"messages aren't released everywhere: {sorted(counts)}")
            world.clock.run(world.clock.now + 0.5)

    def _is_kept(self) -> None:
        """What was told is true, and what was accepted is in all logs, once."""
        world = self.world
        for told in (told for asker in self.askers for told in asker.told):
            accepted = world.accepted.get(told.record, set())
            if told.what in ("refused", "not-given", "not-accepted") and accepted:
                raise Violation(f"{told.record!r} at site {told.site} was told {told.what}, and was accepted as {sorted(accepted)}")
            if told.what == "unknown" and told.number and accepted and world.numbers_of[told.record] != told.number:
                raise Violation(f"{told.record!r} was told that it is record {told.number} if it is accepted, and it is record "
                                f"{world.numbers_of[told.record]}")
            if told.what == "ok" and told.id not in accepted:
                raise Violation(f"{told.record!r} was told ok,{told.id}, and was accepted as {sorted(accepted)}")
        if self.why_excused():
            return
        if wrong := next((asker.wrong for asker in self.askers if isinstance(asker, KeyedAsker) and asker.wrong), None):
            raise Violation(wrong)
        logs = {site.number: site.keeper.site for site in self._sites() if site.keeper}
        texts = {number: {text for _, text in site.log} for number, site in logs.items()}
        if any(site.release.waiting for site in logs.values()):
            raise Violation(f"messages wait for ever: { {number: list(site.release.waiting) for number, site in logs.items()} }")
        if len({frozenset(log) for log in texts.values()}) > 1:
            common = set.intersection(*texts.values())
            raise Violation(f"the logs differ: { {number: sorted(log - common)[:3] for number, log in texts.items()} }")
        under = collections.Counter((key, message.red > 0) for message, text in logs[0].log if (key := key_in(text)))
        if twice := [key for key, count in under.items() if count > 1]:
            raise Violation(f"two asks were accepted under one key: {twice}, in {[text for _, text in logs[0].log if key_in(text)]}")
        ids = {(message.origin, message.number): message.shadow for message, _ in logs[0].log}
        for told in (told for asker in self.askers for told in asker.told if told.what == "ok"):
            if told.id and world.text_of[told.record] not in world.lost and ids.get(told.id) != bare(world.text_of[told.record]).split(b",", 6)[6]:
                raise Violation(f"{told.record!r} was told ok,{told.id}, and there the logs have {ids.get(told.id)!r}")
