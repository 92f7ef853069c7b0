"""Where a reader looks for tokens that stand behind it."""

import unittest

from shop_tool.carrier.reader import passes_to, to_search

TURNS = [b"token,1,3,2,9", b"token,1,1,2,4", b"token,1,4,1,12", b"msg,1,0,1,0,0:0:0,item,0.1,lamp,7,1,1,0", b"token,1,7,2,20"]


class Search(unittest.TestCase):
    def test_a_reader_that_starts_looks_through_all_streams(self) -> None:
        self.assertEqual(to_search(None, [b"x", None, b"y"]), [0, 1, 2])

    def test_then_through_those_that_were_begun_or_written_anew(self) -> None:
        self.assertEqual(to_search([b"x", None, b"y"], [b"x", b"z", b"y"]), [1])
        self.assertEqual(to_search([b"x", b"z", b"y"], [None, b"z", b"y"]), [0])
        self.assertEqual(to_search([b"x"], [b"x"]), [])


class Passes(unittest.TestCase):
    def test_those_for_the_site_that_it_has_not_had(self) -> None:
        self.assertEqual(passes_to(2, 1, TURNS), [b"token,1,3,2,9", b"token,1,7,2,20"])
        self.assertEqual(passes_to(2, 7, TURNS), [])
        self.assertEqual(passes_to(0, 0, TURNS), [])
