"""What a site has follows from its records and answers."""

import unittest
from array import array

from shop_tool.carrier.answers import AnswerReader
from shop_tool.carrier.ledger import Ledger, Prefix, kept_in, sends_of
from shop_tool.carrier.records import ASKS, kind_of

KEPT = [b"user,ann", b"pass,1", b"user,bob", b"comment,0.1,0.1,1.1,1,x", b"msg,1,1,2,3,1:1,user,cat", b"msg,1,1,1,2,1:0,user,dan",
        b"token,1,2,0,3", b"bid,0.3,0.1,5", b"pass,1"]
OUT = (b"reply,1,ok,0.1\nsend,msg,1,0,1,1,0:0,user,ann\nreply,2,passed\nsend,token,1,1,1,1\nreply,3,refused,3,NoToken\n"
       b"reply,4,ok,0.2\nsend,msg,1,0,2,0,1:0,comment,0.1,0.1,1.1,1,x\nreply,5,held\nreply,6,released,2\nreply,7,holding\n"
       b"reply,8,ok,0.3\nsend,msg,1,0,3,4,2:2,bid,0.3,0.1,5\nreply,9,passed\nsend,token,1,3,1,4\n")


class Prefixes(unittest.TestCase):
    def test_gaps_are_filled(self) -> None:
        prefix = Prefix()
        for number, upto in ((2, 0), (4, 0), (1, 2), (1, 2), (3, 4), (3, 4), (5, 5)):
            prefix.add(number)
            self.assertEqual(prefix.upto, upto)
        self.assertEqual(prefix.count, 5)
        prefix.add(9)
        self.assertEqual((prefix.upto, prefix.greatest), (5, 9))


def state_of(ledger: Ledger) -> dict[str, object]:
    """All that a ledger knows, to be compared."""
    parts = [vars(ledger), vars(ledger.red), vars(ledger.release), vars(ledger.sends), *map(vars, ledger.have)]
    return {f"{number} {name}": value for number, part in enumerate(parts) for name, value in part.items()
            if isinstance(value, (int, list, dict, set, array)) and name != "have"}


class Notes(unittest.TestCase):
    def setUp(self) -> None:
        self.ledger = Ledger(0, 2, lambda pieces: [OUT[start:start + size] for start, size in pieces])
        self.states = []
        for record, answer in zip(KEPT, AnswerReader().feed(OUT), strict=True):
            self.ledger.note(record, answer)
            self.states.append((self.ledger.holds_token, self.ledger.turn))

    def test_a_past_is_taken_in_as_its_records_are(self) -> None:
        """Whichever of them are plain, and wherever a past begins; what isn't plain is left to `note`."""
        kept = [*KEPT, b"msg,1,1,3,5,3:2,user,eve", b"msg,1,1,3,5,3:2,user,eve", b"msg,1,1,4,0,3:3,item,1.3,jar,7,1,5,0"]
        answers = AnswerReader().feed(OUT + b"reply,10,released,1\nreply,11,repeat\nreply,12,released,1\n")
        states = []
        for begin in (*range(len(kept)), len(kept)):
            past, plain = Ledger(0, 2, lambda pieces: []), []
            for number, (record, answer) in enumerate(zip(kept, answers, strict=True)):
                plain.append(number >= begin and past.note_plain(record, answer, len(record) + 1))
                if not plain[-1]:
                    past.note(record, answer)
            self.assertEqual(plain, [number >= begin and number in (0, 2, 3, 7, 9, 11) for number in range(len(kept))])
            states.append(state_of(past))
        self.assertTrue(all(state == states[-1] for state in states))

    def test_the_token(self) -> None:
        self.assertEqual(self.states, [(True, 0)] + [(False, 1)] * 5 + [(True, 2)] * 2 + [(False, 3)])
        self.assertEqual((self.ledger.issued, self.ledger.gave), (3, [(0, 0), (1, 3)]))

    def test_what_it_has(self) -> None:
        self.assertEqual([prefix.upto for prefix in self.ledger.have], [0, 2])
        self.assertEqual((self.ledger.red.upto, self.ledger.messages, self.ledger.records), (4, 5, 9))
        self.assertEqual((self.ledger.kept_bytes, self.ledger.out_bytes), (sum(map(len, KEPT)) + 9, len(OUT)))

    def test_what_is_released(self) -> None:
        self.assertEqual((self.ledger.release.counts, self.ledger.release.reds, dict(self.ledger.release.waiting)), ([3, 2], 4, {}))

    def test_what_it_sent(self) -> None:
        sends = self.ledger.sends
        self.assertEqual([place for place, _ in sends.read(0, len(sends))], [(1, 0), (1, 1), (2, 0), (3, 0), (3, 1)])
        self.assertEqual([text for _, text in sends.read(1, 3)], [b"token,1,1,1,1", b"msg,1,0,2,0,1:0,comment,0.1,0.1,1.1,1,x"])
        self.assertEqual([sends.count_upto(place) for place in ((0, 0), (1, 0), (1, 1), (1, 9), (3, 0), (9, 0))], [0, 1, 2, 2, 4, 5])
        self.assertEqual((sends.at((3, 0)), sends.at((4, 0)), sends.at((0, 0))), (b"msg,1,0,3,4,2:2,bid,0.3,0.1,5", None, None))
        self.assertEqual(sends.last, (3, 1))

    def test_what_it_has_of_another_site(self) -> None:
        """Of the tokens those that came to it, and those that it passed on to that one."""
        lines, out = [record + b"\n" for record in KEPT], OUT.splitlines(keepends=True)
        self.assertEqual(kept_in(lines, out, 1, 1), ([(2, KEPT[4])], [KEPT[6], b"token,1,1,1,1", b"token,1,3,1,4"]))
        self.assertEqual(kept_in(lines, out, 2, 0), ([], [KEPT[6]]))

    def test_what_is_under_keys_is_what_it_would_be_without(self) -> None:
        """Answered again is no news, and an ask under a key is no packet."""
        keyed = [b"key,k%d,%b" % (at, record) if kind_of(record) in ASKS | {b"msg"} else record for at, record in enumerate(KEPT)]
        out = OUT.replace(b"send,msg", b'send,key,"a, b",msg')
        read = [kept_in([record + b"\n" for record in keyed], out.splitlines(keepends=True), 1, 1), sends_of(out.splitlines(keepends=True))]
        self.assertEqual(read, [([(2, keyed[4])], [KEPT[6], b"token,1,1,1,1", b"token,1,3,1,4"]),
                                [(place, text.replace(b"msg", b'key,"a, b",msg')) for place, text in self.ledger.sends.read(0, 5)]])
        for is_plain in (False, True):
            other = Ledger(0, 2, lambda pieces: [out[start:start + size] for start, size in pieces])
            for record, answer in zip([*keyed, keyed[0]], AnswerReader().feed(out + b"reply,10,again,0.1\n"), strict=True):
                if not (is_plain and other.note_plain(record, answer, len(record) + 1)):
                    other.note(record, answer)
            self.assertEqual(other.sends.read(0, 5), read[1])
            self.assertEqual((vars(other.release), other.red.upto, other.turn), (vars(self.ledger.release), 4, 3))

    def test_a_line_that_is_being_written_is_none(self) -> None:
        """Its beginning may look like a packet that nobody sent."""
        lines = [KEPT[4] + b"\n", b"msg,1,1,3,0,1:2,user,ca"]
        self.assertEqual(kept_in(lines, [b"send,token,1,3,1,4"], 1, 0), ([(2, KEPT[4])], []))
        self.assertEqual(kept_in([b"token,1,2,0,1"], [], 1, 0), ([], []))
