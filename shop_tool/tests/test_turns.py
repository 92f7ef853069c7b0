"""Who gets the token, and when."""

import unittest

from shop_tool.carrier.turns import FORGET, PATIENCE, SLICE, Hold, Wants, taker


class Queue(unittest.TestCase):
    def test_each_site_once_in_the_order_of_first_hearing(self) -> None:
        wants = Wants()
        for site, now in ((2, 0.0), (1, 0.1), (2, 0.2), (3, 0.3), (2, 1.2)):
            wants.hear(site, 0, now)
        self.assertEqual(wants.waiting(), [2, 1, 3])
        wants.passed(1, 2)
        self.assertEqual(wants.next(2, 1.3), 1)

    def test_a_want_that_isnt_said_again_is_forgotten(self) -> None:
        wants = Wants()
        wants.hear(1, 0, 0.0)
        wants.hear(2, 0, 2.0)
        self.assertEqual(wants.next(0, FORGET + 0.1), 2)
        self.assertIsNone(wants.next(0, FORGET + 2.1))

    def test_a_site_to_which_the_token_is_on_its_way_isnt_heard(self) -> None:
        wants = Wants()
        wants.passed(4, 1)
        wants.hear(1, 2, 0.0)
        self.assertEqual(wants.waiting(), [])
        wants.hear(1, 4, 0.0)
        self.assertEqual(wants.waiting(), [1])

    def test_a_site_that_lost_that_it_passed_the_token_on_is_heard(self) -> None:
        """The token that went to it last was there: others have had later ones."""
        wants = Wants()
        wants.passed(4, 1)
        wants.known(6)
        wants.hear(1, 2, 0.0)
        self.assertEqual(wants.waiting(), [1])

    def test_the_holder_is_that_of_the_last_turn(self) -> None:
        wants = Wants()
        for turn, site in ((1, 2), (3, 1), (2, 0)):
            wants.passed(turn, site)
        self.assertEqual((wants.turn, wants.holder), (3, 1))

    def test_the_holder_itself_is_passed_over(self) -> None:
        wants = Wants()
        wants.hear(1, 0, 0.0)
        wants.hear(2, 0, 0.0)
        self.assertEqual(wants.next(1, 0.1), 2)


class Slices(unittest.TestCase):
    def test_a_holder_without_asks_passes_at_once(self) -> None:
        self.assertEqual(Hold().seconds_left(False, 5.0), 0.0)

    def test_a_busy_holder_has_a_slice_from_its_first_answer(self) -> None:
        hold = Hold()
        hold.used(1.0)
        hold.used(9.0)
        self.assertAlmostEqual(hold.seconds_left(True, 1.0), SLICE)
        self.assertLessEqual(hold.seconds_left(True, 1.0 + SLICE), 0)

    def test_one_that_waits_for_red_messages_isnt_waited_for_without_end(self) -> None:
        hold = Hold()
        self.assertAlmostEqual(hold.seconds_left(True, 1.0), PATIENCE)
        self.assertAlmostEqual(hold.seconds_left(True, 2.0), PATIENCE - 1.0)
        hold.took()
        self.assertAlmostEqual(hold.seconds_left(True, 9.0), PATIENCE)


class Taker(unittest.TestCase):
    def test_the_first_that_wants_it_and_runs(self) -> None:
        self.assertEqual(taker([3, 2, 1], {1, 2}), 2)
        self.assertEqual(taker([3], {5, 4}), 4)
        self.assertIsNone(taker([3], set()))
