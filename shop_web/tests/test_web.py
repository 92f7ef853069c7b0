"""What needs no server: keys, asks, problems, the description, and where it listens."""

import os
import tempfile
import unittest
from typing import Any
from unittest import mock

from shop_tool.ends import Fault, Status
from shop_web import access, asks, budgets, problems, routes, rows, serving
from shop_web.access import May


class Keys(unittest.TestCase):
    def file(self, text: str, mode: int = 0o600) -> access.Access:
        with tempfile.TemporaryDirectory() as folder:
            path = f"{folder}/keys"
            with open(path, "w") as file:
                file.write(text)
            os.chmod(path, mode)
            return access.from_file(path)

    def test_a_key_may_what_its_line_says(self) -> None:
        keys = self.file("# who\nread 0123456789abcdef Prometheus\nread,ask fedcba9876543210\n\n")
        self.assertEqual([keys.of(f"Bearer {key}") for key in ("0123456789abcdef", "fedcba9876543210", "0123456789abcdee")],
                         [access.Key(May.READ, None, "Prometheus"), access.Key(May.ASK, None, ""), None])
        self.assertIsNone(keys.of("Basic 0123456789abcdef"))
        self.assertIsNone(keys.of(""))

    def test_without_a_file_everybody_may_everything(self) -> None:
        self.assertEqual(access.from_file(None).of(""), access.ANYBODY)

    def test_files_that_are_refused(self) -> None:
        for text, mode in (("read 0123456789abcdef", 0o644), ("write 0123456789abcdef", 0o600), ("read", 0o600), ("read short", 0o600)):
            self.assertRaises(Fault, self.file, text, mode)


class Asks(unittest.TestCase):
    def test_fields_become_a_record(self) -> None:
        found, is_many = asks.of_json(b'{"ask": "item", "seller": "0.1", "name": "a \\"b\\", c", "category": 7, "stock": 1, "start": 5, "price": 0}', "k")
        self.assertEqual((found, is_many), ([asks.One('item,0.1,"a ""b"", c",7,1,5,0', "k", True)], False))

    def test_an_array_is_several(self) -> None:
        self.assertEqual(asks.of_json(b'[{"record": "user,ann", "key": "a"}]', None), ([asks.One("user,ann", "a")], True))

    def test_lines(self) -> None:
        self.assertEqual(asks.of_csv(b"user,ann\r\nuser,bob", None), ([asks.One("user,ann", None), asks.One("user,bob", None)], True))
        self.assertEqual(asks.of_csv(b"user,ann\n", "k"), ([asks.One("user,ann", "k")], False))

    def test_what_is_no_ask(self) -> None:
        for body in (b"", b"{}", b"[[]]", b'{"ask": "user"}', b'{"ask": "user", "nickname": true}', b'{"ask": "user", "nickname": "a", "b": 1}',
                     b'{"record": 7}', b'{"record": "user,a", "key": 7}', b'{"ask": ["user"]}', b"[" * 100_000):
            self.assertRaises(problems.Problem, asks.of_json, body, None)
        self.assertRaises(problems.Problem, asks.of_json, b'{"record": "user,a", "key": "k"}', "l")
        self.assertRaises(problems.Problem, asks.of_csv, b"user,\xff", None)
        for record, key in (("", None), ("list,users", None), ("pass,1", None), ("msg,1", None), ("user,a", ""), ("user,a", "\u00e9"), ("user,\ud800", None)):
            self.assertRaises(problems.Problem, asks.check, [asks.One(record, key)])

    def test_where_its_row_is(self) -> None:
        self.assertEqual(asks.place_of(1, asks.Told("buy,0.3,0.2,1", ["reply", "9", "ok", "1.4"], False)), "/sites/1/purchases/1.4")
        self.assertIsNone(asks.place_of(1, asks.Told("close,0.3,0.2", ["reply", "9", "ok", "1.4"], False)))


class Problems(unittest.TestCase):
    def test_a_refusal_has_its_name_and_number(self) -> None:
        said = problems.refused("bid,0.3,0.2,1", ["reply", "9", "refused", "9", "LowBid"]).said()
        self.assertEqual((said["status"], said["name"], said["number"], said["type"]), (409, "LowBid", 9, "/problems/LowBid"))

    def test_what_a_fault_says_of_an_ask(self) -> None:
        told = {"site 0 is up: no answer within 1 s; it may still be accepted: when ..": "Unknown", "nothing was given to it": "Away",
                "site 1: site 0 has the token (turn 0); not accepted within 10 s": "Away",
                "the supervisor of a gave no answer within 3 s; whether it was accepted isn't known (shop log 0)": "Unknown",
                "site 0: accepted here, and not published within 1 s": "Unknown"}
        for text, name in told.items():
            self.assertEqual(problems.of_fault(Fault(Status.AWAY, text), is_ask=True).name, name, text)
        self.assertEqual(problems.of_fault(Fault(Status.MISUSE, "no")).status, 400)


class KeyBudgets(unittest.TestCase):
    def test_a_budget_is_spent_and_fills_again_with_time_up_to_its_limit(self) -> None:
        for a_second, at_once, spend, may in (
                (5.0, 50, "request", "request"), (budgets.REFUSED_A_SECOND, int(budgets.REFUSED_AT_ONCE), "refused", "ask")):
            with mock.patch("time.monotonic") as clock:
                clock.return_value = 1000.0
                of_keys = budgets.Budgets(5.0)

                def spent(most: int) -> int:
                    """How much is spent until there is nothing left."""
                    for count in range(most):
                        try:
                            getattr(of_keys, may)(b"ann")
                        except problems.Problem as problem:
                            self.assertEqual((problem.status, problem.retry), (429, 1))
                            return count
                        if spend != may:
                            getattr(of_keys, spend)(b"ann")
                    return most
                self.assertEqual(spent(at_once + 9), at_once)
                getattr(of_keys, may)(b"bob")       # another key has its own
                clock.return_value += 3 / a_second
                self.assertEqual(spent(9), 3)
                clock.return_value += 1e9
                self.assertEqual(spent(at_once + 9), at_once)


class Description(unittest.TestCase):
    def test_each_name_is_there(self) -> None:
        said = routes.description(is_open=False)

        def refs(value: Any) -> list[str]:
            if isinstance(value, dict):
                return ([value["$ref"]] if "$ref" in value else []) + [name for one in value.values() for name in refs(one)]
            return [name for one in value for name in refs(one)] if isinstance(value, list) else []
        for name in refs(said):
            self.assertIn(name.rsplit("/", 1)[1], said["components"]["schemas"])
        for route in routes.ROUTES:
            self.assertTrue(hasattr(serving.Server, route.does), route.does)

    def test_listings(self) -> None:
        self.assertEqual((rows.listing_of("bids", "0.3"), rows.listing_of("misfits")), ("list,bids,0.3", "list,misfits"))
        self.assertEqual(rows.log_row("row,log,1,msg,1,0,1,1,0:0,comment,0.3,0.2,0.1,5,\"a, b\"")["shadow"], "comment,0.3,0.2,0.1,5,\"a, b\"")


class Listening(unittest.TestCase):
    def test_addresses(self) -> None:
        self.assertEqual(serving.address_of("[::1]:80"), ("::1", 80))
        for text in ("80", "host:", "host:x", "host:70000"):
            self.assertRaises(Fault, serving.address_of, text)
        hosts = {"localhost:80": "localhost", "127.0.0.1": "127.0.0.1", "[::1]:8080": "::1", "[::1]": "::1", "": "", "a.example:1": "a.example",
                 "LOCALHOST": "localhost", "[::1": "", "::1": "", "127.0.0.1:1@a.example": "", "127.0.0.1:x": "", "a b": "a b"}
        for header, host in hosts.items():
            self.assertEqual(serving.host_of(header), host)
        loopback = {"127.0.0.1": True, "127.9.9.9": True, "::1": True, "localhost": True, "0.0.0.0": False, "": False, "10.0.0.1": False, "::": False}
        for host, is_so in loopback.items():
            self.assertEqual(serving.is_loopback(host), is_so, host)
