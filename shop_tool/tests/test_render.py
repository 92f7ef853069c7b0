"""How things are shown to people."""

import unittest

from shop_tool.carrier.records import text_of
from shop_tool.render import shown


class Shown(unittest.TestCase):
    def test_what_is_printable_stays(self) -> None:
        for text in ("", 'item,0.1,"a ""blue"" vase, old",7', "Grüße, 拍賣", "C:\\x1b"):
            self.assertEqual(shown(text), text)

    def test_what_is_not(self) -> None:
        for data, text in ((b"\x1b[2J", r"\x1b[2J"), (b"a\0\x07\x7f\r\n\tb", r"a\x00\x07\x7f\x0d\x0a\x09b"), (b"\xc2\x9b31m", r"\x9b31m"),
                           (b"\xff\x9b", r"\xff\x9b"), ("\u202eeve".encode(), r"\u202eeve"), ("\U000e0041".encode(), r"\U000e0041")):
            with self.subTest(data=data):
                self.assertEqual(shown(text_of(data)), text)
                self.assertEqual(shown(shown(text_of(data))), text)
