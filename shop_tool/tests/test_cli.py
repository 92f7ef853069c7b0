"""The command line."""

import argparse
import unittest

from shop_tool.cli import CommandLine, command_of, with_records
from shop_tool.ends import Fault, Status


def read(*words: str) -> argparse.Namespace:
    return with_records(CommandLine().words, list(words))


class Words(unittest.TestCase):
    def test_each_command_has_a_function(self) -> None:
        for name, parser in CommandLine().commands.choices.items():
            with self.subTest(name=name):
                self.assertTrue(callable(command_of(parser.get_default("does"))))
                self.assertIn("usage: shop", parser.format_help())

    def test_records_may_stand_behind_options(self) -> None:
        args = vars(read("ask", "0", "user,ann", "--json", "user,bob"))
        self.assertEqual((args["site"], args["records"], args["json"]), (0, ["user,ann", "user,bob"], True))

    def test_the_folder(self) -> None:
        self.assertEqual(vars(read("start", "auction", "--here", "0,2"))["here"], (0, 2))
        self.assertEqual(vars(read("start", "auction", "--here", "", "--standby", "2"))["here"], ())
        self.assertEqual([vars(read(*words))["folder"] for words in (("start", "a"), ("-C", "a", "status"))], ["a", "a"])

    def test_misuse(self) -> None:
        for words in ((), ("begin",), ("ask",), ("ask", "one", "user,ann"), ("start", "--sites", "-1"), ("ask", "0", "user,ann", "--jsn"),
                      ("show", "0", "thing", "0.1"), ("ask", "0", "list,users", "--timeout", "0"), ("stop", "a", "b")):
            with self.subTest(words=words), self.assertRaises(Fault) as caught:
                read(*words)
            self.assertEqual(caught.exception.status, Status.MISUSE)
