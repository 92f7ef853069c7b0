"""The machines of the carrier, step by step: an asker, what gives a site packets, and a stop that hands the token over."""

import unittest

from shop_tool.carrier.asking import Ask
from shop_tool.carrier.over_files import BATCH, FileLink
from shop_tool.carrier.reader import BLOCK_SECONDS, Reader
from shop_tool.carrier.records import Purpose
from shop_tool.carrier.site import Disagreement, State
from shop_tool.carrier.steps import (CallAll, IsRunning, KeptOf, Marks, Packets, Page, PageOf, Read, Say, SayLeave, SayWant, SeenHere, SentHere, UpElsewhere,
                                     Wait)
from shop_tool.ends import Fault
from shop_tool.tests.shops import Known, OverServer, Supervisor, begun, done, fault_of

TOKEN, ANN = b"token,1,2,1,0", b"msg,1,0,1,1,0:0,user,ann"


def ask(site: Known, seconds: float = 3.0) -> Ask:
    return Ask(site, seconds, fetches_token=True)


class Asking(unittest.TestCase):
    """Site 1, which doesn't hold the token at first."""

    def setUp(self) -> None:
        self.shop = Supervisor(FileLink, 2)
        self.site = self.shop.sites[1]
        self.site.start()

    def test_an_answer_is_said(self) -> None:
        steps = ask(self.site).run([b"item,0.1,lamp,7,1,1,0"])
        self.assertEqual(steps.send(None), Wait(self.site.line[0].done, 3.0))
        self.assertEqual(self.site.given, b"item,0.1,lamp,7,1,1,0\n")
        self.site.take(b"reply,1,refused,6,NoUser\n")
        step = steps.send(True)
        self.assertIsInstance(step, Say)
        self.assertRaises(StopIteration, steps.send, None)

    def test_one_that_is_refused_for_want_of_the_token_is_asked_once_more(self) -> None:
        steps = begun(ask(self.site).run([b"user,bob"]))
        self.site.take(b"reply,1,refused,3,NoToken\n")
        self.assertEqual(steps.send(True), Wait(self.site.token_came, 3.0))
        self.assertEqual(self.shop.begun[0].send(None), SayWant(1, 0))
        self.site.give([b"list,misfits"])
        self.site.take(b"reply,2,rows,0\n")
        steps.send(True)
        self.assertEqual(self.site.given, b"user,bob\nlist,misfits\nuser,bob\n")

    def test_when_the_token_does_not_come_it_is_not_accepted(self) -> None:
        steps = begun(ask(self.site).run([b"user,bob", b"user,cat"]))
        self.site.take(b"reply,1,refused,3,NoToken\n")
        steps.send(True)
        self.assertIsInstance(steps.send(False), Say)
        self.assertEqual(steps.send(None), IsRunning(0, 0.5))
        self.assertEqual(fault_of(steps, True), "site 1: site 0 has the token (turn 0); not accepted within 3 s")

    def test_one_that_was_given_and_is_not_answered_may_still_be_accepted(self) -> None:
        steps = begun(ask(self.site).run([b"user,bob"]))
        self.assertIn("it may still be accepted, as record 1 of `shop log 1`; once another record stands there, it never will be",
                      fault_of(steps, False))

    def test_it_has_its_number_by_the_records_in_front_of_it(self) -> None:
        """Questions are in front of it too, and one whose answer has come; it keeps its number where the keeper died."""
        self.site.give([b"user,ann", b"user,cat"])
        self.site.give([b"?state"], Purpose.QUESTION)
        steps = begun(ask(self.site).run([b"user,bob"]))
        self.site.take(b"reply,1,refused,3,NoToken\n")
        self.site.up.clear()
        pieces = iter([b"reply,2,refused,3,NoToken\n"])
        reading = self.site.catch_up(3, lambda: b"user,cat\n", lambda: next(pieces, b""))
        reading.send(None)
        self.assertIn("as record 3 of `shop log 1`", fault_of(steps, False))

    def test_each_of_several_has_its_own_when_the_site_ends(self) -> None:
        several = [ask(self.site).run([b"user,bob"]), ask(self.site).run([b"user,cat"])]
        for steps in several:
            steps.send(None)
        self.site.end()
        for number, steps in enumerate(several, 1):
            self.assertIn(f"being stopped; it may still be accepted, as record {number} of", fault_of(steps, True))

    def test_one_that_was_not_given_is_not_given_any_more(self) -> None:
        self.site.up.clear()
        steps = begun(ask(self.site).run([b"user,bob"]))
        self.assertIn("nothing was given to it", fault_of(steps, False))
        self.site.come_up()
        self.assertEqual(self.site.given, b"")

    def test_an_asker_who_leaves_takes_along_what_was_not_given(self) -> None:
        self.site.up.clear()
        steps = begun(ask(self.site).run([b"user,bob"]))
        steps.close()
        self.assertFalse(self.site.line)

    def test_a_site_that_ends(self) -> None:
        steps = begun(ask(self.site).run([b"user,bob"]))
        self.site.fence("it is a copy")
        self.site.end()
        self.assertEqual(self.site.state, State.FENCED)
        self.assertIn("site 1: it is a copy; it may still be accepted", fault_of(steps, True))


class Keeping(unittest.TestCase):
    """What was given and not answered in time is answered where the keeper kept it, or given again."""

    def caught_up(self, kept: bytes, out: bytes, count: int) -> Known:
        site = Supervisor(FileLink, 2).sites[1]
        site.start()
        site.give([b"user,bob", b"user,cat"])
        site.read_on(kept, out, count)
        return site

    def test_what_was_kept_is_answered_and_the_rest_is_given_again(self) -> None:
        site = self.caught_up(b"user,bob\n", b"reply,1,refused,3,NoToken\n", 1)
        self.assertEqual([pending.record for pending in site.line], [b"user,cat"])
        self.assertEqual(site.again(), b"user,cat\n")

    def test_what_was_not_given_stops_it(self) -> None:
        self.assertRaises(Disagreement, self.caught_up, b"user,eve\n", b"reply,1,refused,3,NoToken\n", 1)
        self.assertRaises(ValueError, self.caught_up, b"user,bob\n", b"reply,1,refused,3,NoToken\n", 2)


class Questioning(unittest.TestCase):
    """Questions go through the line of a site beside records, and leave nothing."""

    def setUp(self) -> None:
        self.site = Supervisor(FileLink, 2).sites[1]
        self.site.start()

    def test_each_gets_its_answer(self) -> None:
        record, = self.site.give([b"user,bob"])
        rows, state = self.site.give([b"?list,users", b"?state"], Purpose.QUESTION)
        last, = self.site.give([b"user,cat"])
        self.assertEqual(self.site.given, b"user,bob\n?list,users\n?state\nuser,cat\n")
        self.site.take(b"reply,1,refused,3,NoToken\n?rows,1\nrow,user,0.1,ann,0,0,0,0\n?state,1,0,0:0,none,0,0\nreply,2,refused,3,NoToken\n")
        self.assertEqual([each.result().lines[0] for each in (record, rows, state, last)],
                         [b"reply,1,refused,3,NoToken", b"?rows,1", b"?state,1,0,0:0,none,0,0", b"reply,2,refused,3,NoToken"])
        self.assertEqual((self.site.ledger.records, self.site.ledger.out_bytes), (2, 52))

    def test_it_isn_t_counted_among_records(self) -> None:
        self.site.give([b"?state"], Purpose.QUESTION)
        steps = begun(ask(self.site).run([b"comment,0.3,0.2,0.1,5,a"]))
        self.assertIn("as record 1 of", fault_of(steps, False))

    def test_one_whose_keeper_died_is_asked_again(self) -> None:
        self.site.give([b"?state"], Purpose.QUESTION)
        self.site.give([b"user,bob"])
        self.site.read_on(b"user,bob\n", b"reply,1,refused,3,NoToken\n", 1)
        self.assertEqual(self.site.again(), b"?state\n")

    def test_an_answer_to_something_else_stops_the_site(self) -> None:
        self.site.give([b"?state"], Purpose.QUESTION)
        self.assertRaises(Disagreement, self.site.take, b"reply,1,refused,3,NoToken\n")
        self.site.give([b"user,bob"])
        self.site.line.popleft()
        self.assertRaises(Disagreement, self.site.take, b"?none\n")

    def test_a_record_is_no_question(self) -> None:
        self.assertRaises(Fault, self.site.give, [b"?state"])
        self.assertRaises(Fault, self.site.give, [b"list,users"], Purpose.QUESTION)
        self.assertEqual(self.site.given, b"")


class Reading(unittest.TestCase):
    def setUp(self) -> None:
        self.shop = Supervisor(OverServer, 2)
        del self.shop.sites[0]
        self.site = self.shop.sites[1]
        self.site.start()
        self.link = self.shop.link
        self.link.marks = [b"a", b"b"]

    def test_tokens_behind_it_are_looked_for_where_a_stream_has_another_mark(self) -> None:
        steps = Reader(self.link, self.site).run()
        self.assertIsInstance(steps.send(None), Wait)
        self.assertIsInstance(steps.send(True), Wait)
        self.assertIsInstance(steps.send(True), Wait)
        self.assertEqual(steps.send(True), Marks())
        # Nothing is behind the beginning.
        self.assertEqual(steps.send([b"a", b"b"]), Read({0: (0, 0)}, BATCH, BLOCK_SECONDS))
        self.assertEqual(steps.send({0: [((1, 0), ANN)]}), Wait(self.site.line[0].done))
        self.site.take(b"reply,1,released,1\n")
        self.assertIsInstance(steps.send(True), Wait)
        self.link.marks = [b"c", b"b"]
        self.assertEqual(steps.send(True), Marks())
        self.assertEqual(steps.send([b"c", b"b"]), PageOf(0, (0, 0), (1, 0)))
        steps.send(Page(2, (1, 0), b"", [TOKEN]))
        self.assertEqual(self.site.given, ANN + b"\n" + TOKEN + b"\n")

    def fed(self, packets: list[bytes], answers: bytes) -> bool:
        steps = self.shop.feed(self.site, packets)
        try:
            steps.send(None)
            self.site.take(answers)
            while True:
                steps.send(True)
        except StopIteration as end:
            return bool(end.value)

    def test_only_what_is_new_is_given(self) -> None:
        own, other = b"msg,1,1,1,0,0:0,item,0.1,a,1,1,1,0", b"token,1,3,0,0"
        self.assertTrue(self.fed([ANN, own, other], b"reply,1,released,1\n"))
        self.assertEqual(self.site.given, ANN + b"\n")
        self.assertTrue(self.fed([ANN], b""))

    def test_it_is_given_with_its_key(self) -> None:
        self.assertTrue(self.fed([b"key,k," + ANN, b"key,k," + TOKEN], b"reply,1,released,1\n"))
        self.assertEqual(self.site.given, b"key,k," + ANN + b"\n")
        self.assertIn("it is no packet", str(self.site.fault))

    def test_a_token_that_was_here_already_is_not_given(self) -> None:
        """Another site has had a later turn; the folder has lost that this one came and went."""
        self.shop.wants.known(5)
        self.assertTrue(self.fed([TOKEN], b""))
        self.assertEqual(self.site.given, b"")

    def test_a_site_that_is_full(self) -> None:
        self.assertFalse(self.fed([ANN], b"reply,1,refused,2,Full\n"))


class Fenced(unittest.TestCase):
    """What the other site is given of one that is fenced, over files."""

    item = b"msg,1,0,2,0,1:0,item,0.1,lamp,7,1,1,0"
    sent: Packets = [((1, 0), ANN), ((1, 1), TOKEN), ((2, 0), item)]

    def given(self, has: Packets, sent: Packets, outlasts: bool = True, seen: str | None = None) -> bytes:
        """What site 1, which has these messages, is given of site 0, which was fenced by an earlier start, and whose `out` has that."""
        shop = Supervisor(FileLink, 2)
        site, reads = shop.sites.values()
        site.known.clear()
        site.fence("site 1 has 9 messages of it", outlasts)
        for (number, _), _ in has:
            reads.ledger.have[0].add(number)
        reads.start()
        answers = {SentHere: sent, KeptOf: ([(number, text) for (number, _), text in has], []), SeenHere: seen}
        done(shop.link.compare(site), answers)
        done(shop.link.read(reads), answers, 3)
        return reads.given

    def test_what_the_other_lacks(self) -> None:
        self.assertEqual(self.given([], self.sent), b"\n".join([ANN, TOKEN, self.item, b""]))
        self.assertEqual(self.given(self.sent[:1], self.sent, seen="1 a"), b"\n".join([TOKEN, self.item, b""]))
        self.assertEqual(self.given([*self.sent[::2], ((3, 0), b"msg,..")], self.sent), b"")

    def test_nothing_where_another_past_is_known_or_its_folder_does_not_say_why(self) -> None:
        """As one of which a line was changed."""
        self.assertEqual(self.given([((2, 0), b"msg,1,0,2,0,1:0,item,0.1,vase,7,1,1,0")], self.sent), b"")
        self.assertEqual(self.given([], self.sent, seen="1 b"), b"", "its folder is a copy")
        self.assertEqual(self.given([], self.sent, outlasts=False), b"")

    def test_nothing_behind_a_line_that_was_changed(self) -> None:
        for strange in (b"msg,1,0,1,0,0:0,comment", b"msg,1,1,2,0,0:0,comment", b"msg,1,0", b"token,1"):
            self.assertEqual(self.given([], [self.sent[0], ((2, 0), strange), self.sent[1]]), ANN + b"\n")


class HandingOver(unittest.TestCase):
    def setUp(self) -> None:
        self.shop = Supervisor(OverServer, 1)
        self.shop.sites[0].start()

    def test_a_stop_passes_the_token_to_one_that_answers(self) -> None:
        steps = self.shop.hand_over()
        self.assertEqual(steps.send(None), SayLeave())
        self.assertEqual(steps.send(None), UpElsewhere())
        self.assertIsInstance(steps.send({1}), CallAll)
        steps.send({1: [{"shop": {"stopping": False, "site": [{"site": 1, "turn": 0}]}}]})
        self.assertEqual(self.shop.sites[0].given, b"pass,1\n")
        self.assertEqual(self.shop.stays, "it isn't known whether the token goes to site 1, since site 0 doesn't answer")
        self.shop.sites[0].take(b"reply,1,passed,1\nsend,token,1,1,1,0\n")
        self.assertIsInstance(steps.send(True), CallAll)
        self.assertEqual(self.shop.stays, "the token goes to site 1, which hasn't taken it yet")

    def test_it_stays_where_nobody_takes_it(self) -> None:
        steps = self.shop.hand_over()
        steps.send(None)
        steps.send(None)
        self.assertRaises(StopIteration, steps.send, set())
        self.assertEqual(self.shop.stays, "the token stays with site 0, since no site elsewhere takes it")

    def test_those_that_do_not_take_it_are_asked_again(self) -> None:
        """One that was killed may have been started again by then; the two seconds that a stop has end it."""
        for answers in ({}, {1: [{"shop": {"stopping": True, "site": [{"site": 1, "turn": 0}]}}]}):
            steps = self.shop.hand_over()
            steps.send(None)
            self.assertEqual(steps.send(None), UpElsewhere())
            self.assertIsInstance(steps.send({1}), CallAll)
            self.assertIsInstance(steps.send(answers), Wait)
            self.assertEqual(steps.send(True), UpElsewhere())
            steps.send({1})
            self.assertIsInstance(steps.send({1: [{"shop": {"stopping": False, "site": [{"site": 1, "turn": 0}]}}]}), Wait)
            self.assertEqual(self.shop.sites[0].given, b"pass,1\n")
            self.setUp()
