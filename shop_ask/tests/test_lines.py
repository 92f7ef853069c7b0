"""Lines are the same however they come."""

import itertools
import unittest

from shop_ask.lines import Pieces

TEXT = b"one\n\ntwo and more\n{}\nthe beginning"


class Cuts(unittest.TestCase):
    def test_lines_are_the_same_however_they_come(self) -> None:
        for ends in itertools.combinations(range(len(TEXT) + 1), 2):
            pieces = Pieces()
            parts = [TEXT[begin:end] for begin, end in zip((0, *ends), (*ends, len(TEXT)))]
            self.assertEqual([line for part in parts for line in pieces.feed(part)], [b"one", b"", b"two and more", b"{}"])
            self.assertEqual(pieces.size, len(b"the beginning"))
            self.assertEqual(pieces.feed(b"\n"), [b"the beginning"])
            self.assertEqual(pieces.size, 0)
