"""Which folders may take asks."""

import os
import tempfile
import unittest
from unittest import mock

from shop_tool import lives, witness
from shop_tool.carrier.ledger import Place
from shop_tool.carrier.lives import Standing, life_text, standing, takes_place, why_other
from shop_tool.carrier.opening import Said, must_compare_all, said_in_packets, said_in_status, strange_packet, why_behind, why_passed_on
from shop_tool.lives import begin_life, lives_of, take_place


class Lives(unittest.TestCase):
    def setUp(self) -> None:
        place = tempfile.TemporaryDirectory()
        self.addCleanup(place.cleanup)
        self.folder = f"{place.name}/0"

    def test_each_start_begins_one(self) -> None:
        self.assertEqual(lives_of(self.folder), [])
        first = begin_life(self.folder)
        second = begin_life(self.folder)
        self.assertEqual(second[:1], first)
        self.assertEqual(lives_of(self.folder), second)
        self.assertEqual(len(set(second)), 2)

    def test_how_it_stands_to_the_life_that_was_seen(self) -> None:
        own = ["a", "b", "c", "d"]
        cases = {None: Standing.AHEAD, "": Standing.AHEAD, "4 d": Standing.NEXT, "3 c": Standing.NEXT, "2 b": Standing.AHEAD,
                 "1 a": Standing.AHEAD, "4 x": Standing.OTHER, "5 e": Standing.OTHER, "3 x": Standing.OTHER, "2 c": Standing.OTHER,
                 "?": Standing.OTHER}
        self.assertEqual({seen: standing(own, seen) for seen in cases}, cases)
        self.assertEqual(standing(["a"], life_text([])), Standing.AHEAD)

    def test_a_copy_and_its_original(self) -> None:
        """Whichever of the two is seen first, the other one is known."""
        before = begin_life(self.folder)
        original, copy = [*before, "original"], [*before, "copy"]
        self.assertEqual(standing(copy, life_text(before)), Standing.NEXT)
        self.assertEqual(standing(original, life_text(copy)), Standing.OTHER)
        self.assertEqual(standing([*original, "again"], life_text(copy)), Standing.OTHER)
        self.assertIn("this is its start 2, and the server saw start 2", why_other(original, life_text(copy), "the server", 0))

    def test_a_folder_that_was_made_again(self) -> None:
        os.makedirs(self.folder)
        take_place(self.folder, 3)
        own = begin_life(self.folder)
        cases = {"1 a": Standing.AHEAD, "3 c": Standing.AHEAD, life_text(own): Standing.NEXT, "4 x": Standing.OTHER, "5 e": Standing.OTHER}
        self.assertEqual({seen: standing(own, seen) for seen in cases}, cases)
        take_place(self.folder, 2)      # adopted: it takes the place of itself too
        self.assertEqual(standing(begin_life(self.folder), "4 x"), Standing.AHEAD)
        self.assertTrue(takes_place(own, None))         # the server lost its end: the word that this folder has the site, and the life
        self.assertFalse(takes_place(["a", "b"], None))

    def test_what_the_others_saw_over_files(self) -> None:
        os.makedirs(self.folder)
        lives.Seen(self.folder)[1] = "3 c"
        seen = lives.Seen(self.folder)
        self.assertEqual((seen[0], seen[1]), (None, "3 c"))
        seen[1] = None
        self.assertIsNone(lives.Seen(self.folder)[1])


class Opening(unittest.TestCase):
    def test_when_all_is_compared(self) -> None:
        self.assertFalse(must_compare_all(Standing.NEXT, False))
        self.assertTrue(must_compare_all(Standing.NEXT, True))
        self.assertTrue(must_compare_all(Standing.AHEAD, False))

    def test_another_site_has_more(self) -> None:
        self.assertIsNone(why_behind(0, 3, []))
        self.assertIsNone(why_behind(0, 3, [Said(1, 3, 0, ()), Said(2, 0, 0, ())]))
        self.assertEqual(why_behind(0, 3, [Said(1, 4, 0, ()), Said(2, 5, 0, ())]),
                         "site 2 has 5 messages of it, and its folder has 3 (shop rebuild 0)")

    def test_another_site_has_had_the_token_since(self) -> None:
        """A folder that lost nothing but a pass has as many messages as before, and would hold the token a second time."""
        self.assertIsNone(why_passed_on(0, 4, True, []))
        self.assertIsNone(why_passed_on(0, 4, True, [Said(1, 0, 3, ()), Said(2, 0, 0, ())]))
        self.assertIsNone(why_passed_on(0, 4, False, [Said(1, 0, 9, ())]))
        self.assertEqual(why_passed_on(0, 4, True, [Said(1, 0, 5, ()), Said(2, 0, 6, ())]),
                         "site 2 has had the token of turn 6, and its folder holds that of turn 4 (shop rebuild 0)")

    def test_it_has_passed_on_a_turn_that_its_folder_has_lost(self) -> None:
        """Another site gave it the token at a later turn than its folder has, and somebody has had a later one since: also where it is on its
        way to it again."""
        self.assertIsNone(why_passed_on(0, 4, False, [Said(1, 0, 4, (2, 4)), Said(2, 0, 9, ())]))
        self.assertIsNone(why_passed_on(0, 4, False, [Said(1, 0, 5, (2, 5)), Said(2, 0, 5, ())]), "nobody has passed that on")
        why = "site 2 has had the token of turn 6, and its folder doesn't know that it had that of turn 5 (shop rebuild 0)"
        self.assertEqual(why_passed_on(0, 4, False, [Said(1, 0, 5, (2, 5)), Said(2, 0, 6, ())]), why)
        self.assertEqual(why_passed_on(0, 4, False, [Said(1, 0, 5, (0, 5)), Said(2, 0, 6, (0, 6))]), why)

    def test_what_a_version_of_before_says_and_what_stands_in_a_stream_or_a_folder(self) -> None:
        self.assertEqual(said_in_status({"turn": 6, "has": {"0": 2}}, 1, 0), Said(1, 2, 6, ()))
        self.assertEqual(said_in_packets(1, 0, [(2, b"msg,.."), (4, b"msg,..")], [b"token,1,3,0,9", b"token,1,5,2,9"]), Said(1, 4, 5, [3]))

    def test_a_packet_that_it_did_not_send(self) -> None:
        sent: dict[Place, bytes] = {(1, 0): b"a", (1, 1): b"token", (2, 0): b"b"}
        self.assertIsNone(strange_packet([((1, 0), b"a"), ((2, 0), b"b")], sent.get))
        self.assertEqual(strange_packet([((1, 0), b"a"), ((2, 0), b"c")], sent.get), (2, 0))
        self.assertEqual(strange_packet([((1, 0), b"a"), ((1, 2), b"token")], sent.get), (1, 2))


class Memory(unittest.TestCase):
    def setUp(self) -> None:
        place = tempfile.TemporaryDirectory()
        self.addCleanup(place.cleanup)
        self.folder, self.kept = place.name, f"{place.name}/kept"
        patch = mock.patch.object(witness, "MEMORY", place.name)
        patch.start()
        self.addCleanup(patch.stop)

    def test_what_was_answered_in_the_last_life(self) -> None:
        told = witness.Witness(self.folder, ["a" * 16, "b" * 16], 0)
        told.tell(120)
        told.tell(90)       # a start that reads on takes nothing back
        self.assertEqual(witness.witnessed(self.folder, ["a" * 16, "b" * 16]), 120)
        self.assertIsNone(witness.witnessed(self.folder, ["a" * 16]))
        self.assertIsNone(witness.witnessed(self.folder, ["a" * 16, "b" * 16, "c" * 16]))
        self.assertIsNone(witness.witnessed(self.folder, []))

    def test_a_copy_of_the_folder_has_none(self) -> None:
        """Also one that is made in the same start of the machine, and one that is put in the place of the original."""
        original, copy = f"{self.folder}/original", f"{self.folder}/copy"
        os.mkdir(original)
        os.mkdir(copy)
        witness.Witness(original, ["a" * 16], 5)
        self.assertIsNone(witness.witnessed(copy, ["a" * 16]))
        os.rename(original, f"{self.folder}/aside")
        os.rename(copy, original)
        self.assertIsNone(witness.witnessed(original, ["a" * 16]))

    def test_what_is_taken_back(self) -> None:
        lives = ["a" * 16, "b" * 16]
        witness.Witness(self.folder, lives, 5)
        witness.forget(self.folder, [*lives, "c" * 16])     # that of another life
        self.assertEqual(witness.witnessed(self.folder, lives), 5)
        witness.forget(self.folder, lives)
        witness.forget(self.folder, lives)
        self.assertIsNone(witness.witnessed(self.folder, lives))

    def test_a_folder_that_is_gone_is_forgotten(self) -> None:
        gone = f"{self.folder}/gone"
        os.mkdir(gone)
        witness.Witness(gone, ["a" * 16], 5)
        os.rmdir(gone)
        witness.Witness(self.folder, ["b" * 16], 5)
        os.mkdir(gone)
        self.assertIsNone(witness.witnessed(gone, ["a" * 16]))
        self.assertEqual(witness.witnessed(self.folder, ["b" * 16]), 5)

    def test_a_file_that_has_all(self) -> None:
        self.assertFalse(witness.has_all(self.kept, 0))
        with open(self.kept, "w") as file:
            file.write("user,ann\n")
        self.assertTrue(witness.has_all(self.kept, 9))
        self.assertFalse(witness.has_all(self.kept, 10))
        self.assertFalse(witness.has_all(self.kept, None))
