"""What a lost site is given so that it sends the same packets again."""

import unittest

from shop_tool.ends import Fault
from shop_tool.carrier.ledger import Place
from shop_tool.carrier.rebuilding import Past
from shop_tool.carrier.records import under

ANN, ITEM = b"msg,1,0,1,1,0:0,user,ann", b"msg,1,0,2,0,1:0,item,0.1,lamp,7,1,1,0"
BID, CLOSE = b"msg,1,1,1,2,2:0,bid,0.2,1.9,5", b"msg,1,0,3,3,2:1,close,0.2,7,1.1"
FIRST, BACK, LAST = b"token,1,1,1,1", b"token,1,2,0,2", b"token,1,3,1,3"
ZERO: list[tuple[Place, bytes]] = [((1, 0), ANN), ((1, 1), FIRST), ((2, 0), ITEM), ((3, 0), CLOSE), ((3, 1), LAST)]
ONE: list[tuple[Place, bytes]] = [((1, 0), BID), ((1, 1), BACK)]


def records(past: Past) -> list[bytes]:
    return [step.record for step in past.steps()]


class Steps(unittest.TestCase):
    def test_asks_with_what_they_had(self) -> None:
        past = Past(0, [ZERO, ONE])
        self.assertEqual(records(past), [b"user,ann", b"pass,1", b"item,0.1,lamp,7,1,1,0", BID, BACK, b"close,0.2,0.1", b"pass,1"])
        self.assertEqual([step.packet for step in past.steps() if step.packet], [packet for _, packet in ZERO])

    def test_asks_under_their_keys(self) -> None:
        keyed = [(place, under(b'a, "b"', text) if text in (ANN, ITEM, CLOSE, BID) else text) for place, text in [*ZERO, *ONE]]
        past = Past(0, [keyed[:len(ZERO)], keyed[len(ZERO):]])
        self.assertEqual(records(past), [text if text.startswith((b"pass", b"token")) else under(b'a, "b"', text)
                                         for text in (b"user,ann", b"pass,1", b"item,0.1,lamp,7,1,1,0", BID, BACK, b"close,0.2,0.1", b"pass,1")])
        self.assertEqual([step.packet for step in past.steps() if step.packet], [packet for _, packet in keyed[:len(ZERO)]])

    def test_a_token_that_it_took_and_did_not_use(self) -> None:
        past = Past(1, [ZERO, ONE])
        self.assertEqual(records(past), [ANN, ITEM, FIRST, b"bid,0.2,1.9,5", b"pass,0", LAST])

    def test_what_its_folder_had_of_the_others(self) -> None:
        """The others may have lost it: what it counted stands nowhere else, and what it didn't count yet comes at the end."""
        past = Past(1, [ZERO[:1] + ZERO[1:2], ONE])
        past.left = [(0, 2, ITEM), (0, 3, CLOSE)]
        self.assertEqual(records(past), [ANN, ITEM, FIRST, b"bid,0.2,1.9,5", b"pass,0", CLOSE])

    def test_what_the_server_lost_and_others_have(self) -> None:
        past = Past(0, [ZERO[:1], ONE])
        past.add([CLOSE, ITEM], [FIRST, LAST])
        past.add_passed()
        self.assertEqual([packet for _, packet in past.packets()], [ANN, ITEM, FIRST, CLOSE, LAST])
        self.assertEqual([place for place, _ in past.packets()], [(1, 0), (2, 0), (2, 1), (3, 0), (3, 1)])
        self.assertEqual(records(past)[-4:], [BID, BACK, b"close,0.2,0.1", b"pass,1"])

    def test_a_message_that_nobody_has(self) -> None:
        past = Past(0, [ZERO[:1], ONE])
        past.add([CLOSE], [])
        self.assertRaises(Fault, past.packets)

    def test_streams_that_lack_what_it_counted(self) -> None:
        self.assertRaises(Fault, records, Past(0, [ZERO, []]))
        self.assertRaises(Fault, records, Past(1, [ZERO[2:], ONE]))

    def test_a_token_that_came_and_nobody_has_is_known_by_the_next_one(self) -> None:
        """Site 1 passed the token of turn 2, so that of turn 1 came to it before, for which nothing else is left."""
        past = Past(1, [ZERO[:1] + ZERO[2:4], ONE])
        past.add_passed()
        self.assertEqual(records(past), [ANN, ITEM, FIRST, b"bid,0.2,1.9,5", b"pass,0"])

    def test_a_pass_that_nobody_has_is_made_again_so_that_it_changes_nothing(self) -> None:
        """Site 0 passed the token, or others wouldn't have had later ones. It goes to one that has had a later one, and takes no earlier."""
        past = Past(0, [ZERO[:1], [], []])
        past.add([], [b"token,1,7,2,5"])
        past.add_passed()
        self.assertEqual(records(past), [b"user,ann", b"pass,2"])
        self.assertEqual(past.packets(), [*ZERO[:1], ((1, 1), b"token,1,1,2,1")])
