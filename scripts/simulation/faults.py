"""What goes wrong in a run: each fault is one event of the model, at a moment of its own."""

import random
from collections.abc import Callable
from typing import TYPE_CHECKING

from .disk import Folder, Machine
from .world import Supervisor

if TYPE_CHECKING:
    from .run import Run


class Faults:
    """What may go wrong in a run."""

    def __init__(self, run: "Run") -> None:
        self.run, self.world = run, run.world

    def killed_keeper(self, dice: random.Random) -> None:
        if site := self.run.some_site(dice):
            self.world.note("keeper-killed")
            site.kill()

    def killed_supervisor(self, dice: random.Random) -> None:
        if supervisor := self.run.some_supervisor(dice):
            self.world.note("supervisor-killed")
            supervisor.end()

    def stopped(self, dice: random.Random) -> None:
        if supervisor := self.run.some_supervisor(dice):
            supervisor.stop()
            self.run.rest(supervisor.machine, dice.choice([0.0, 2.0, 8.0]))

    def lost_ends(self, machine: Machine, dice: random.Random) -> None:
        """The power of a machine goes: its memory is gone, and the ends of files that aren't on the disk."""
        self.world.note("MachineStarts", len(machine.folders))
        lost = machine.lose_power(dice)
        self.world.steps.machine_starts(machine)
        for folder in lost:
            self.world.steps.lost_end(folder)
        self.run.taint(lost, "LosesEnd", is_whole=True)

    def lost_power(self, dice: random.Random) -> None:
        machine = dice.choice(self.world.machines)
        self.run.switch_off(machine)
        self.lost_ends(machine, dice)
        self.run.rest(machine, dice.choice([0.5, 3.0]))

    def lost_all_power(self, dice: random.Random) -> None:
        """All machines at once, and the server."""
        for machine in self.world.machines:
            self.run.switch_off(machine)
            self.lost_ends(machine, dice)
            self.run.rest(machine, dice.random() * 3)
        self.server_loses_end(dice)

    def lost_end(self, dice: random.Random) -> None:
        """A file of a stopped site loses some of its end."""
        machine, _, folder = self.run.some_folder(dice)
        self.run.switch_off(machine)
        for name in dice.choice([["kept"], ["out"], ["kept", "out"], ["kept", "out"]]):
            if name in folder.files:
                data = folder.files[name].data
                del data[max(0, len(data) - dice.randint(1, 400)):]
                folder.files[name].synced = min(folder.files[name].synced, len(data))
        self.world.steps.lost_end(folder)
        self.run.taint([folder], "LosesEnd", is_whole=True)      # what is left of it is whole

    def copied(self, dice: random.Random) -> None:
        machine, number, folder = self.run.some_folder(dice)
        copy = folder.copied(machine)
        self.world.note("IsCopied")
        self.world.steps.copied(folder, copy, is_stored=True)
        self.run.backups.append((machine, number, copy))

    def put_back(self, dice: random.Random) -> None:
        """A folder is put back to a copy of before, while its site runs or not, over what is there or as another folder."""
        backups = [backup for backup in self.run.backups if backup[0] in self.world.machines]
        if not backups:
            return self.copied(dice)
        machine, number, older = dice.choice(backups)
        if dice.random() < 0.6:
            self.run.switch_off(machine)
        self.world.note_brought_back(older)
        folder = machine.folders[number]
        if dice.random() < 0.5:
            folder.put_back(older)
        else:
            folder.is_there = False
            machine.folders[number] = older.copied(machine)
        self.world.steps.put_back(folder, older, machine.folders[number])
        self.run.taint([machine.folders[number]], "IsPutBack")

    def restored(self, dice: random.Random) -> None:
        """The disk of a machine on which the server runs too is put back to how it was some seconds ago. The other machines run on."""
        world, machine, seconds = self.world, dice.choice(self.world.machines), dice.choice([0.3, 1.0, 3.0])
        if not world.is_over_server:
            return self.copied(dice)
        older = {number: folder.copied(machine) for number, folder in machine.folders.items()}
        for number, copy in older.items():
            world.note("IsCopied")
            world.steps.copied(machine.folders[number], copy, is_stored=True)

        def restore() -> None:
            if world.is_calm or older.keys() != machine.folders.keys() or not world.server.is_up:
                return
            self.run.switch_off(machine)
            machine.memory, machine.boot = {}, world.new_number()
            for number, copy in older.items():
                folder = machine.folders[number]
                world.note("MachineStarts")
                world.note_brought_back(copy)
                folder.put_back(copy)
                world.steps.put_back(folder, copy, folder)
            self.run.taint(machine.folders.values(), "IsPutBack")
            self.server_goes(dice, lambda: self.server_forgets(seconds))
        world.clock.after(seconds, restore)

    def lost(self, dice: random.Random) -> None:
        machine, number, folder = self.run.some_folder(dice)
        if dice.random() < 0.5:
            self.run.switch_off(machine)
        folder.is_there, folder.keeper = False, None
        folder.files = {}
        machine.folders[number] = made = Folder(self.world, machine)
        made.is_there = False
        self.world.steps.lost(folder, made)
        self.run.taint([made], "IsLost")

    def lost_file(self, dice: random.Random) -> None:
        """`out` or `kept` is removed while the site runs."""
        _, _, folder = self.run.some_folder(dice)
        if folder.files.pop(dice.choice(["out", "out", "kept"]), None):
            self.world.steps.lost_end(folder)
            self.run.taint([folder], "file-removed")

    def changed_word(self, dice: random.Random) -> None:
        """A byte of `kept` changes while its site is stopped, in a line that has its sum on the disk."""
        machine, _, folder = self.run.some_folder(dice)
        self.run.switch_off(machine)
        kept = folder.files.get("kept")
        size = sum(map(len, folder.lines("kept")[:folder.checked()[0]]))
        places = [at for at, byte in enumerate(kept.data[:size]) if byte in b"abcdefgu123"] if kept else []
        if kept and places:
            at = dice.choice(places)
            kept.data[at] += 1
            self.world.steps.changed(folder, bytes(kept.data[:at]).count(b"\n"))
            folder.files["sums"].synced = len(folder.files["sums"].data)
            self.run.taint([folder], "IsChanged")
            self.run.changed.append((folder, folder.lines("kept")))

    def ran_copy(self, dice: random.Random) -> None:
        """Another machine, or another folder of this one, runs a copy of all that stands here."""
        machine = dice.choice(self.world.machines)
        if not self.world.is_over_server or len(self.run.copies) > 1:
            return self.copied(dice)
        is_here = dice.random() < 0.5
        copy = machine.copied(machine.name if is_here else f"{machine.name}'", not is_here and dice.random() < 0.5)
        if is_here:
            copy.memory, copy.boot = machine.memory, machine.boot       # it is one machine, and one start of it
        for number, folder in machine.folders.items():
            self.world.note("IsCopied")
            self.world.steps.copied(folder, copy.folders[number])
        self.run.taint([*machine.folders.values(), *copy.folders.values()], "copy-runs", is_whole=True)
        if dice.random() < 0.4:
            self.run.switch_off(machine)
        self.run.copies.append(Supervisor(self.world, copy))

    def paused(self, dice: random.Random) -> None:
        """A supervisor stands still, as a laptop's that sleeps; or its clock jumps."""
        if supervisor := self.run.some_supervisor(dice):
            self.world.note("paused")
            seconds = dice.choice([0.3, 4.0, 8.0])
            self.run.disturb(supervisor.machine, seconds)
            supervisor.paused_until = self.world.clock.now + seconds

    def jumped(self, dice: random.Random) -> None:
        if supervisor := self.run.some_supervisor(dice):
            self.world.note("clock-jumps")
            supervisor.skew += dice.choice([1.0, 10.0, 3600.0])

    def cut_off(self, dice: random.Random) -> None:
        if not self.world.is_over_server:
            return self.killed_keeper(dice)
        machine = dice.choice(self.world.machines + [copy.machine for copy in self.run.copies])
        self.cut_off_for(machine, dice.choice([0.2, 2.0, 6.0]))

    def cut_off_for(self, machine: Machine, seconds: float) -> None:
        self.world.note("cut-off")
        self.run.disturb(machine, seconds)
        machine.is_cut_off = True

        def again() -> None:
            machine.is_cut_off = False
            self.run.disturb()
        self.world.clock.after(seconds, again)

    def server_goes(self, dice: random.Random, forget: Callable[[], None] | None = None) -> None:
        """The server goes away for some time; when it comes back it may have lost something."""
        server = self.world.server
        if not self.world.is_over_server or not server.is_up:
            return self.killed_supervisor(dice)
        self.world.note("server-goes")
        self.run.disturb()
        server.go()
        if forget:
            owners = list(server.owners)
            forget()
            self.run.note_losses()
            # Where the server has lost the word of it, two machines run a site that was taken over, and neither can know that.
            self.world.is_unreached |= any(owners[site] != server.owners[site] for site in self.world.taken_over)

        def come() -> None:
            server.come()
            self.run.disturb()
        self.world.clock.after(dice.choice([0.05, 0.5, 5.0]), come)

    def server_loses_end(self, dice: random.Random) -> None:
        self.server_goes(dice, lambda: self.server_forgets(0.0 if self.world.server.is_always else dice.choice([0.05, 0.3, 1.0, 2.0])))

    def server_forgets(self, seconds: float) -> None:
        """The server comes back as it was that long ago."""
        server = self.world.server
        server.lose_end(seconds)
        self.world.note("StreamLosesEnd", len(server.streams))
        self.world.steps.server_lost([[text for _, text in stream.entries] for stream in server.streams])

    def server_loses_all(self, dice: random.Random) -> None:
        def forget() -> None:
            self.world.note("ServerLosesAll")
            self.world.server.lose_end()
            self.world.steps.server_lost_all()
        self.server_goes(dice, forget)

    def server_comes_from_backup(self, dice: random.Random) -> None:
        self.server_goes(dice, lambda: self.server_forgets(dice.uniform(1, 30)))

    def passed_by_hand(self, dice: random.Random) -> None:
        """An operator passes the token by hand."""
        if site := self.run.some_site(dice):
            if site.shop.may_give(site):
                site.give([b"pass,%d" % dice.randrange(self.world.sites)])

    def passed_to_a_stopped_site(self, dice: random.Random) -> None:
        """The token is passed to a stopped site, a message follows, and the server loses something while the sender is stopped too."""
        holder = next((site for supervisor in self.run.supervisors.values() if supervisor.is_alive for site in supervisor.sites.values()
                       if site.ledger.holds_token and supervisor.may_give(site)), None)
        others = [machine for machine in self.world.machines if holder and machine is not holder.machine and machine.here]
        if not holder or not others:
            return self.killed_supervisor(dice)
        sender, to = holder.machine, dice.choice(others)
        self.run.switch_off(to)
        self.run.rest(to, 4.0)
        holder.give([b"pass,%d" % dice.choice(to.here)])
        self.run.ask_at(holder.number, [b"item,0.1,t%d,1,1,1,0" % self.world.new_number()])

        def lose() -> None:
            self.run.switch_off(sender)
            self.run.rest(sender, 6.0)
            dice.choice([self.server_loses_end, self.server_loses_all])(dice)
        self.world.clock.after(1.0, lose)

    def gone(self, dice: random.Random) -> None:
        """The machine of a site with a standby is gone for some time, or is cut off, or its supervisor stands still."""
        standby = self.world.standby
        machine = next((machine for machine in self.world.machines if standby and standby[0] in machine.here), None)
        if not machine or not standby or machine is standby[1]:
            return self.paused(dice)
        seconds, supervisor = dice.uniform(7.0, 14.0), self.run.supervisors.get(machine.name)
        how = dice.choice(["off", "cut off", "still"])
        self.world.note("gone")
        self.run.disturb(machine, seconds)
        if how == "off":
            self.run.switch_off(machine)
            self.run.rest(machine, seconds)
        elif how == "cut off":
            self.cut_off_for(machine, seconds)
        elif supervisor:
            supervisor.paused_until = self.world.clock.now + seconds


# How often each comes.
FAULTS = {
    "killed_keeper": 6, "killed_supervisor": 5, "stopped": 4, "lost_power": 0.7, "lost_all_power": 0.15, "restored": 0.4, "lost_end": 0.2, "copied": 2.5,
    "put_back": 0.6, "lost": 0.25, "lost_file": 0.25, "changed_word": 0.2, "ran_copy": 0.6, "paused": 2, "jumped": 1.5, "cut_off": 3, "server_goes": 2,
    "server_loses_end": 1.5, "server_loses_all": 0.5, "server_comes_from_backup": 0.2, "passed_by_hand": 1.5, "gone": 1.2, "passed_to_a_stopped_site": 0.4,
}
