"""A written run: a copy of a folder passes the token on, and the folder is started while its own stream can't be seen."""

import unittest
from typing import Any

from shop_tool.carrier.lives import placed
from shop_tool.carrier.steps import Adopt, Broken, State
from simulation.clock import Task
from simulation.disk import Machine
from simulation.without import taken_out
from simulation.world import Command, Supervisor, Violation, World

SEED = next(str(seed) for seed in range(1000) if (World(str(seed)).is_over_server, World(str(seed)).sites, len(World(str(seed)).machines)) == (True, 2, 1))


class TimesOut(Supervisor):
    """The connection over which site 0 is compared with its stream times out."""

    def over(self, task: Task, step: tuple[Any, ...]) -> None:
        if step == State(0):
            return task.answer(fault=Broken("timed out"), seconds=3.0)
        super().over(task, step)


class TwoHolders(unittest.TestCase):
    """Site 0 and site 1 run on one machine."""

    def setUp(self) -> None:
        self.world = World(SEED)
        self.here, = self.world.machines

    def run_for(self, seconds: float) -> None:
        self.world.clock.run(self.world.clock.now + seconds)

    def stopped(self, supervisor: Supervisor) -> None:
        self.run_for(2)
        supervisor.stop()
        self.run_for(4)
        self.assertFalse(supervisor.is_alive)

    def opened(self) -> Supervisor:
        """The shop is stopped; a copy of site 0's folder is adopted elsewhere, and its site passes the token to site 1; then both are started again."""
        self.stopped(Supervisor(self.world, self.here))
        there = Machine(self.world, "there", [0])
        there.folders[0] = self.here.folders[0].copied(there)
        self.world.steps.copied(self.here.folders[0], there.folders[0])
        self.world.server.do(Command(self.world, there), Adopt(0, self.world.server.owners[0], False, self.world.server.lives[0]))
        there.folders[0].lives = placed([], 1, "b")
        copy = Supervisor(self.world, there)
        self.run_for(8)
        copy.sites[0].give([b"pass,1"])
        self.stopped(copy)
        shop = TimesOut(self.world, self.here)
        self.run_for(5)
        return shop

    def test_the_token_is_held_once(self) -> None:
        shop = self.opened()
        self.assertEqual([site.ledger.holds_token and site.opened.is_set for site in shop.sites.values()], [False, True])

    def test_without_the_rule_it_is_seen(self) -> None:
        with taken_out("turns"), self.assertRaises(Violation) as raised:
            self.opened()
        self.assertEqual(str(raised.exception), "site 0 is opened with the token of turn 0, and site 1 beside it has had that of 1")
        self.assertEqual((self.world.steps.lines()[-1], self.world.steps.none()), ("Opens,0", {}))
