"""What the simulation expects of a site that gives a number twice."""

import types
import unittest
from typing import cast

from simulation.disk import Folder, Keeper
from simulation.world import World

NAME, RECORDS = (3, 8), (b"user,ann", b"user,bob")


class GivenTwice(unittest.TestCase):
    """Two folders of a site, one of them cut off, accept an ask each under one number."""

    def setUp(self) -> None:
        self.world = World("1")
        self.world.machines[0].folders[3] = self.folder = Folder(self.world, self.world.machines[0])

    def accept_both(self) -> None:
        for folder, record in zip((self.folder, self.folder.copied(self.folder.machine)), RECORDS):
            said = b"reply,9,ok,%d.%d\nsend,msg,1,3,8,0,0:0:0:7,%b\n" % (*NAME, record)
            folder.file("out").data += said
            self.world.answered(cast(Keeper, types.SimpleNamespace(folder=folder, number=NAME[0])), record, said)

    def test_what_was_told_at_once_is_excused(self) -> None:
        """No standby is there, or it has taken the site's place before, and is the site now."""
        self.world.standby = NAME[0], self.world.machines[0]
        self.world.taken_over.add(NAME[0])
        self.accept_both()
        self.assertEqual(self.world.excused, {NAME})

    def test_what_is_told_once_it_stands_in_the_stream_is_not(self) -> None:
        self.folder.yields = True
        self.accept_both()
        self.assertFalse(self.world.excused or self.world.lost)
