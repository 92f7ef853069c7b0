"""What is asked quickly is what `shop_tool` would ask, and what isn't plain is left to it."""

import json
import os
import unittest
from unittest import mock

from shop_ask.quick import is_printed, plan_of
from shop_tool.asks import _request
from shop_tool.cli import CommandLine, with_records


class Plans(unittest.TestCase):
    def test_the_request_is_that_of_shop_tool(self) -> None:
        for words in (["ask", "0", "user,ann"], ["-C", "a b", "ask", "3", 'item,0.1,"vase, blue",7,1,100,0', "user,bob"],
                      ["ask", "1", "--timeout", "0.5", "bid,0.3,0.2,500", "--no-wait"], ["ask", "0", "user,\udcff\u00e9\u20ac\n\x07"],
                      ["ask", "0", "--published", "user,ann", "--key", 'order "17"'], ["ask", "12", "user,ann", "user,ann", "--timeout", "1e3"],
                      ["ask", "0", "--key", "k", "user,ann", "--no-wait", "--published", "--timeout", "7"], ["ask", "007", "", "x"]):
            with self.subTest(words=words):
                plan = plan_of(words)
                assert plan
                args = with_records(CommandLine().words, words)
                with mock.patch("shop_tool.asks.why_not_one_record", return_value=None):      # the supervisor looks at them
                    wanted = _request(args, [os.fsencode(record) for record in args.records], 0)
                self.assertEqual((plan[0], json.loads(plan[1]), plan[2]), (args.folder, wanted, args.timeout))
                self.assertEqual(plan[1].count(b"\n"), 1)

    def test_the_folder_of_the_variable(self) -> None:
        with mock.patch.dict(os.environ, {"SHOP": "here"}):
            plan = plan_of(["ask", "0", "user,ann"])
            self.assertEqual(plan and plan[0], "here")

    def test_what_is_left_to_shop_tool(self) -> None:
        left: list[list[str]] = [
            [], ["ask"], ["ask", "0"], ["ask", "0", "-"], ["status"], ["-C"], ["-C", "a"], ["-C", "", "ask", "0", "x"], ["-Ca", "ask", "0", "x"],
            ["ask", "one", "x"], ["ask", "-1", "x"], ["ask", "\u0663", "x"], ["ask", "0", "x", "--json"], ["ask", "0", "x", "--raw"],
            ["ask", "0", "x", "--time", "1"], ["ask", "0", "x", "--timeout=1"], ["ask", "0", "x", "--timeout"], ["ask", "0", "x", "--timeout", "x"],
            ["ask", "0", "x", "--timeout", "0"], ["ask", "0", "x", "--timeout", "nan"], ["ask", "0", "x", "--timeout", "1e6"],
            ["ask", "0", "x", "y", "--key", "k"], ["ask", "0", "x", "--key", "-k"], ["ask", "0", "x", "--key", ""], ["ask", "0", "x", "--key", "k" * 256],
            ["ask", "0", "x", "--keys", "k"], ["ask", "0", "x", "--retry"], ["--help"],
            ["ask", "0", "x", "--help"], ["ask", "0", "--", "x"]]
        for words in left:
            with self.subTest(words=words):
                self.assertIsNone(plan_of(words))

    def test_plain_answers(self) -> None:
        with mock.patch("os.write", side_effect=lambda file, text: len(text)) as written:
            self.assertTrue(is_printed({"record": "user,ann", "lines": ["reply,1,ok,0.1", "send,msg,1,0,1,1,0,user,ann"]}))
            self.assertTrue(is_printed({"record": "pass,1", "lines": ["reply,2,passed", "send,token,1,1,1,1"]}))
            others: list[dict[str, object]] = [
                {"record": "list,users", "lines": ["reply,3,rows,0"]}, {"record": "x", "lines": ["reply,4,refused,1,BadRecord"]},
                {"end": True, "status": 3, "fault": "gone"}, {"said": "a word"}]
            for answer in others:
                self.assertFalse(is_printed(answer))
        self.assertEqual([call.args for call in written.mock_calls], [(1, b"ok,0.1\n"), (1, b"passed\n")])
