"""What a request of the socket has to be."""

import unittest
from typing import Any

from shop_tool.ends import Fault, Status
from shop_tool.requests import RECORDS_OF_A_REQUEST, asks_of, listing_of, message_of, request_of, row_of_request, seconds_of, site_of


class Requests(unittest.TestCase):
    def refused(self, read: Any, *words: Any) -> None:
        with self.subTest(words=str(words)[:80]), self.assertRaises(Fault) as caught:
            read(*words)
        self.assertEqual(caught.exception.status, Status.MISUSE)

    def test_lines(self) -> None:
        self.assertEqual(request_of(b'{"op": "status"}\n'), {"op": "status"})
        for line in (b"\n", b"{\n", b"[]\n", b"7\n", b"null\n", b'{"op": "\xff"}\n', b"[" * 100_000, b'"op"\n'):
            self.refused(request_of, line)

    def test_times_and_sites(self) -> None:
        self.assertEqual(seconds_of({"timeout": 5}), 5.0)
        for seconds in (None, 0, -1, float("nan"), float("inf"), 1e300, "5", [5]):
            self.refused(seconds_of, {"timeout": seconds})
        self.assertEqual(site_of({"site": 2}, 3), 2)
        for site in (None, 3, -1, "0", 0.0, [0]):
            self.refused(site_of, {"site": site}, 3)

    def test_asks(self) -> None:
        asked = asks_of({"records": ["user,ann", "user,\udcff", "list,users"], "fetch": True})
        self.assertEqual((asked.records, asked.fetches_token, asked.published), ([b"user,ann", b"user,\xff", b"list,users"], True, False))
        for records in (None, "user,ann", [7], [None], ["user,ann", ""], ["\ud800"], ["user,ann"] * (RECORDS_OF_A_REQUEST + 1)):
            self.refused(asks_of, {"records": records, "fetch": True})
        self.refused(asks_of, {"records": ["user,ann"]})
        keyed = asks_of({"records": ["user,ann", "list,users", "user,bob"], "keys": [" ~" * 127 + "x", "k", None], "fetch": True})
        self.assertEqual(keyed.records, [b"key," + b" ~" * 127 + b"x,user,ann", b"list,users", b"user,bob"])
        self.refused(asks_of, {"records": ["key,k,user,ann"], "fetch": True})
        for key in (7, "", "\ud800", "\udcff", "a\n", "a\tb", "\xe9", "a" * 256):
            self.refused(asks_of, {"records": ["user,ann"], "keys": [key], "fetch": True})

    def test_rows(self) -> None:
        self.assertEqual(row_of_request({"table": "user", "key": 'a,"b'}), ("user", 'a,"b'))
        for table, key in (("misfit", "1"), ("thing", "1"), (["user"], "1"), ("user", 7), ("user", "1\n?state"), ("user", "\ud800"), ("user", "x" * 4096)):
            self.refused(row_of_request, {"table": table, "key": key})

    def test_listings(self) -> None:
        self.assertEqual(listing_of({"record": "list,items,7"}), b"list,items,7")
        for record in (None, "", "list,users\n", "user,ann", "pass,1", ["list,users"]):
            self.refused(listing_of, {"record": record})

    def test_messages(self) -> None:
        self.assertEqual(message_of({"id": "1.17"}, 2), (1, 17))
        for name in ("2.1", "1", "1.", "1.x", "0.1\n", "9" * 5000 + ".1", "0." + "9" * 5000):
            self.assertIsNone(message_of({"id": name}, 2))
        self.refused(message_of, {"id": 7}, 2)
