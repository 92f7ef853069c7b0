"""The sums of `kept`: what of it is as it was, and what is written behind them."""

import unittest

from shop_tool.carrier.over_files import FileLink
from shop_tool.carrier.sums import LINE_BYTES, Sums, compared, sum_of
from shop_tool.tests.shops import Supervisor

LINES = [b"user,ann\n", b"user,bob\n", b"list,log\n"]
SUMS = b"".join(sum_of(line[:-1]) for line in LINES)


class Compared(unittest.TestCase):
    def test_all_is_as_it_was(self) -> None:
        self.assertEqual(compared(LINES, SUMS), (3, None))
        self.assertEqual(len(SUMS), 3 * LINE_BYTES)

    def test_a_changed_line_is_named(self) -> None:
        self.assertEqual(compared([LINES[0], b"user,bub\n", LINES[2]], SUMS), (1, 2))

    def test_a_line_that_is_gone_or_came_between_shifts_the_others(self) -> None:
        self.assertEqual(compared(LINES[1:], SUMS), (0, 1))
        self.assertEqual(compared([LINES[0], LINES[0], *LINES[1:]], SUMS), (1, 2))

    def test_sums_may_lag_behind_or_be_torn(self) -> None:
        self.assertEqual(compared(LINES, b""), (0, None))
        self.assertEqual(compared(LINES, SUMS[:2 * LINE_BYTES + 5]), (2, None))
        self.assertEqual(compared(LINES, SUMS[:LINE_BYTES] + bytes(LINE_BYTES)), (1, None))

    def test_kept_may_have_lost_its_end(self) -> None:
        self.assertEqual(compared(LINES[:1], SUMS), (1, None))
        self.assertEqual(compared([LINES[0], LINES[1][:-1]], SUMS), (1, None))
        self.assertEqual(compared([LINES[0], LINES[1][:4]], SUMS), (1, None))


class Written(unittest.TestCase):
    def test_lines_that_have_their_sums_get_no_others(self) -> None:
        sums = Sums()
        sums.count = 2
        for line in LINES:
            sums.add(line[:-1])
        self.assertEqual(sums.take(), sum_of(b"list,log"))
        self.assertEqual(sums.take(), b"")

    def test_answered_records_get_their_sums_and_questions_none(self) -> None:
        site = Supervisor(FileLink, 1).sites[0]
        site.start()
        site.give([b"user,Ann", b"list,misfits"])
        site.take(b"reply,1,refused,1,BadRecord\n")
        site.take(b"reply,2,rows,0\n")
        self.assertEqual(site.sum_lines, sum_of(b"user,Ann") + sum_of(b"list,misfits"))

    def test_on_a_full_disk_they_lag_behind_until_the_next_start(self) -> None:
        site = Supervisor(FileLink, 1).sites[0]
        site.start()
        site.is_full = True
        site.give([b"user,Ann", b"user,Bob"])
        site.take(b"reply,1,refused,1,BadRecord\n")
        site.is_full = False
        site.take(b"reply,2,refused,1,BadRecord\n")
        self.assertEqual(site.sum_lines, b"")
