"""Where logs part: the other version, why it is a fault, and what the logs have in common."""

import unittest

from picture_tool.messages import Fault
from picture_tool.run import Run
from picture_tool.sources import Given, run_of, source_of

ANN = "msg,1,0,1,1,0:0,user,ann\n"
BOB = "msg,1,0,2,2,1:0,user,bob\n"
EVE = "msg,1,0,2,2,1:0,user,eve\n"
LAMP = "msg,1,0,3,0,2:0,item,0.1,lamp,7,1,100,0\n"


def read(text: str, verdict: str) -> Run:
    return run_of([source_of("logs", text)], Given(verdict=verdict))


def told(text: str, verdict: str) -> tuple[str, str, str, str]:
    """Why; the entry, its other version and the last in common, as log:entry:id."""
    found = read(text, verdict).divergence
    assert found

    def spot(at: object) -> str:
        event = getattr(at, "event", None)
        return f"{getattr(at, 'lane')}:{getattr(at, 'entry')}:{event.message.id}" if event else "-"
    common = found.common
    return found.why, spot(found.at), spot(found.other), common.message.id if common and common.message else "-"


class Parts(unittest.TestCase):
    def test_clash(self) -> None:
        self.assertEqual(told(f"site,0\n{ANN}{EVE}site,1\n{ANN}{BOB}", "audit,Clash,2,2"), ("two messages have one id", "1:2:0.2", "0:2:0.2", "0.1"))

    def test_two_red_messages_with_one_number(self) -> None:
        other = "msg,1,1,1,2,1:0,user,cat\n"
        self.assertEqual(told(f"site,0\n{ANN}{BOB}site,1\n{ANN}{other}", "audit,RedGap,2,2"),
                         ("two messages have red number 2", "1:2:1.1", "0:2:0.2", "0.1"))

    def test_a_red_number_that_is_left_out(self) -> None:
        later = "msg,1,0,2,3,1:0,user,cat\n"
        self.assertEqual(told(f"site,0\n{ANN}{later}", "audit,RedGap,1,2"), ("its red number is 3, and 2 is the next", "0:2:0.2", "-", "-"))
        missing = "msg,1,1,1,2,1:0,user,dan\n"
        self.assertEqual(told(f"site,0\n{ANN}{later}site,1\n{ANN}{missing}", "audit,RedGap,1,2"),
                         ("its red number is 3, and 2 is the next", "0:2:0.2", "1:2:1.1", "0.1"))

    def test_a_red_message_that_does_not_count_the_one_before(self) -> None:
        other = "msg,1,1,1,2,0:0,user,cat\n"
        self.assertEqual(told(f"site,0\n{ANN}{other}", "audit,RedGap,1,2"), ("it doesn't count the message with red number 1", "0:2:1.1", "0:1:0.1", "-"))

    def test_orders(self) -> None:
        self.assertEqual(told(f"site,0\n{ANN}{LAMP}site,1\n{ANN}{BOB}", "audit,Order,1,2"), ("0.3 stands where 0.2 is due", "0:2:0.3", "1:2:0.2", "0.1"))
        cup = "msg,1,1,1,0,2:0,item,0.1,cup,9,3,50,80\n"
        self.assertEqual(told(f"site,0\n{ANN}{BOB}site,1\n{ANN}{cup}", "audit,Order,2,2"),
                         ("it counts 0.2, which isn't before it", "1:2:1.1", "0:2:0.2", "0.1"))
        early = "msg,1,1,1,0,1:0,item,0.1,cup,9,3,50,80\n"
        self.assertEqual(told(f"site,1\n{ANN}{BOB}{early}", "audit,Order,1,3"),
                         ("its own log has 0.2 before it, and it doesn't count that", "0:3:1.1", "0:2:0.2", "0.1"))

    def test_other_faults_ring_their_entry(self) -> None:
        self.assertEqual(told(f"site,0\n{ANN}{LAMP}", "audit,Nick,1,1"), ("the nickname is taken", "0:1:0.1", "-", "-"))
        self.assertEqual(told(f"site,0\n{ANN}", "audit,Rows,1,0"), ("the rows aren't those of the log", "-", "-", "-"))

    def test_verdicts(self) -> None:
        self.assertIsNone(read(f"site,0\n{ANN}", "audit,Agree").divergence)
        for verdict in ("audit,Clash,2,1", "audit,Clash,1,2"):
            with self.assertRaisesRegex(Fault, "no such entry"):
                read(f"site,0\n{ANN}", verdict)
        for verdict in ("Clash", "audit,Wrong,1,1", "audit,Clash,x,1"):
            with self.assertRaisesRegex(Fault, "not a verdict"):
                read(f"site,0\n{ANN}", verdict)

    def test_a_file_with_the_verdict(self) -> None:
        run = run_of([source_of("logs", f"site,0\n{ANN}{EVE}site,1\n{ANN}{BOB}"), source_of("verdict", "audit,Clash,2,2\n")], Given())
        self.assertEqual(run.divergence.kind if run.divergence else "", "Clash")
