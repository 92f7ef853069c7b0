"""How a run is written as a list of the model's steps."""

import pathlib
import re
import types
import unittest
from typing import cast

from simulation import model
from shop_tool.carrier.steps import Tell
from simulation.disk import Keeper
from simulation.model import UNREACHED, Slot
from simulation.world import Supervisor, World

READ = pathlib.Path(__file__).resolve().parents[3] / "crates/rubis_decider/stdin"      # what the program that decides reads in its stored run
SEED = next(str(seed) for seed in range(100) if World(str(seed)).is_over_server)
MESSAGE = "m", 0, 1, 1
SAID = b"reply,1,ok,0.1\nsend,msg,1,0,1,1,0:0,user,ann\n"


class Written(unittest.TestCase):
    """Site 0 has sent a message."""

    def setUp(self) -> None:
        self.world = World(SEED)
        self.steps = self.world.steps
        self.folder = next(machine.folders[0] for machine in self.world.machines if 0 in machine.folders)
        self.steps.starts(self.folder, "1 a")
        self.steps.opens(self.folder)
        self.slot = self.steps.slots[0]
        self.steps.known[SAID.split(b"\n")[1][5:]] = MESSAGE
        self.slot.packets.append(MESSAGE)
        self.steps.list.clear()

    def test_a_packet_that_comes_late_was_under_way(self) -> None:
        text = SAID.split(b"\n")[1][5:]
        self.steps.sends(self.folder.machine, [text])
        self.steps.supervisor_ended(self.folder, None)
        self.steps.lost(self.folder)
        self.steps.appends(self.folder.machine, text)
        self.assertEqual(self.steps.lines()[1:], ["Sends,0,0,1,1", "IsKilled,0", "IsLost,0", "Arrives,0,1,1"])

    def test_a_site_that_opens_behind_a_stopped_folder_is_known(self) -> None:
        made = self.folder.copied(self.folder.machine)
        self.steps.supervisor_ended(self.folder, None)
        self.steps.copied(self.folder, made)
        self.slot.packets.clear()
        self.steps.machine_starts(self.folder.machine)
        self.steps.starts(self.folder, "2 b")
        self.steps.opens(self.folder)
        self.assertEqual(list(self.steps.none().values()), [UNREACHED])
        self.assertEqual(self.steps.lines()[list(self.steps.none())[0]], "Opens,0")

    def test_a_site_that_lost_nothing_opens(self) -> None:
        self.steps.supervisor_ended(self.folder, None)
        self.steps.starts(self.folder, "2 b")
        self.steps.opens(self.folder)
        self.assertEqual(self.steps.none(), {})

    def test_what_is_lost_before_a_keeper_runs_is_lost_before_the_start(self) -> None:
        self.steps.supervisor_ended(self.folder, None)
        self.steps.starts(self.folder, "2 b")
        self.folder.keeper = None
        self.steps.lost_end(self.folder)
        self.assertEqual(self.steps.lines()[1:], ["IsKilled,0", "LosesEnd,0,0", "Starts,0"])
        self.assertEqual(self.slot.packets, [])

    def test_a_standby_takes_over_from_a_folder_that_goes_on(self) -> None:
        made = self.folder.copied(self.folder.machine)
        made.packets = []
        self.steps.yields(0, True)
        self.steps.takes_over(made, 0)
        self.steps.starts(made, "2 b")
        self.steps.opens(made)
        number = made.slot.number if made.slot else 0
        self.assertEqual(self.steps.lines()[-2:], [f"Starts,{number}", f"TakesOver,{number}"])
        self.assertTrue(self.slot.is_open)

    def test_a_standby_that_took_over_twice_takes_its_yield_back(self) -> None:
        """It didn't hear that it had the site after the first time: that folder never opens."""
        self.steps.yields(0, True)
        made = [self.folder.copied(self.folder.machine) for _ in range(2)]
        for each in made:
            each.packets = []
            self.steps.takes_over(each, 0)
        self.world.server.lives[0] = "2 b"
        self.steps.starts(made[-1], "2 b")
        self.steps.opens(made[-1])
        self.assertEqual(self.steps.lines()[-1], "TakesBack,0")

    def test_a_site_that_was_full_is_raised_before_it_starts(self) -> None:
        self.steps.has_room(self.folder, False)
        self.steps.supervisor_ended(self.folder, None)
        self.steps.starts(self.folder, "2 b")
        for _ in range(2):
            self.steps.has_room(self.folder, True)
        self.assertEqual(self.steps.lines()[1:], ["Fills,0", "IsKilled,0", "IsRaised,0", "Starts,0"])

    def test_what_was_passed_before_the_token_came_is_no_news(self) -> None:
        slot = Slot(0, 0)
        slot.packets.append(("p", 1, 8, 0, 0))
        passed = [("p", 0, turn, 1, 0) for turn in (7, 9)]
        self.assertEqual(slot.behind()(passed), passed[1:])


class Elsewhere(unittest.TestCase):
    """Site 0 runs, and another one on another machine."""

    def setUp(self) -> None:
        self.world = World(next(str(seed) for seed in range(100) if len(World(str(seed)).machines) > 1))
        self.steps = self.world.steps
        here, there = (Supervisor(self.world, machine) for machine in self.world.machines[:2])
        self.site, (other, its) = here.sites[0], next(iter(there.sites.items()))
        its.compared.set()
        self.world.clock.now = 1.0
        self.world.server.do(there, Tell({other: {}}))
        self.slot, self.other = self.steps.slots[0], self.steps.slots[other]

    def test_what_is_said_after_the_look_is_not_known(self) -> None:
        number, by = self.other.number, self.world.server.said[self.other.number][1]["by"]
        looks: list[tuple[dict[int, str] | None, bool]] = [(None, True), ({}, False), ({number: "another"}, False), ({number: by}, True)]
        for looked, is_known in looks:
            self.site.looked = looked
            self.assertEqual(self.steps._reaches(self.site.folder, self.other, False), is_known)

    def test_a_pass_that_a_rebuild_made_again_and_that_has_come_back(self) -> None:
        """The folder has that turn, under which the list has the first one."""
        took, passed = ("p", 1, 1, 0, 0), ("p", 0, 2, 1, 0)
        self.site.folder.keeper = cast(Keeper, types.SimpleNamespace(site=types.SimpleNamespace(issued=None)))
        self.steps.passes[:] = self.other.packets[:] = [took, passed]
        for out, packets in ((b"", [took]), (b"reply,2,passed\nsend,token,1,2,1,0\n", [took, passed])):
            self.site.folder.file("out").data[:] = out
            self.slot.packets, self.slot.start = [took], (self.steps.list[0], [took], 2)
            self.steps._learn_passes(self.slot, self.site.folder)
            self.assertEqual(self.slot.packets, [took, *packets[1:]])


class WentOn(unittest.TestCase):
    """A copy of a folder was opened, and the process of the folder goes on."""

    def setUp(self) -> None:
        self.steps = World(SEED).steps
        self.slot, self.other = Slot(0, 0), Slot(5, 0)
        self.steps.slots[:] = [self.slot, self.other]
        for slot in self.steps.slots:
            slot.has_opened = True
            self.steps._open(slot, None)
        self.steps.list.clear()

    def test_it_opens_again_where_the_copy_has_nothing_more(self) -> None:
        self.steps._open_again(self.slot)
        self.assertEqual((self.steps.lines()[1:], self.steps.none()), (["Closes,5", "Opens,0"], {}))

    def test_where_both_send_it_goes_on(self) -> None:
        self.other.packets.append(MESSAGE)
        self.steps._open_again(self.slot)
        self.assertEqual((self.steps.lines()[1:], self.steps.none()), (["GoesOn,0"], {}))

    def test_one_that_is_open_opens_once(self) -> None:
        self.steps._open_again(self.other)
        self.assertEqual(self.steps.lines()[1:], [])


class Kinds(unittest.TestCase):
    def test_each_kind_of_line_is_read_in_the_stored_run(self) -> None:
        written = set(re.findall(r'(?:_add\(|word = |else )"(\w+)"', pathlib.Path(model.__file__).read_text()))
        self.assertLessEqual({"Starts", "TellsPublished", "TellsOk", "WritesAnew"}, written)
        self.assertLessEqual(written, {line.split(",")[0] for line in READ.read_text().split("\n")})
