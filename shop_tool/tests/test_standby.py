"""A site with a standby: what it tells, when it says that it yields, and when the standby takes its place."""

import unittest
from typing import Any

from shop_tool.carrier.asking import Ask
from shop_tool.carrier.ledger import Place
from shop_tool.carrier.publisher import Publisher
from shop_tool.carrier.standby import LOOK_SECONDS, Standby
from shop_tool.carrier.steps import Entries, Replay, Rewrite, Say, SayYields, SentHere, StandBy, State, Statuses, StreamState, TakeOver, Wait
from shop_tool.tests.shops import OverServer, Supervisor, answers, begun, done, fault_of

ANN = b"msg,1,1,1,0,0:0,user,ann"
BOB = b"msg,1,1,2,2,0:1,user,bob"
LIFE = "1 a"


def stream(last: Place = (0, 0), **changed: Any) -> StreamState:
    return StreamState(last[0], last, ANN, last, LIFE)._replace(**changed)


class Yielding(unittest.TestCase):
    """Site 1, over a server."""

    def setUp(self) -> None:
        self.shop = Supervisor(OverServer, 2)
        self.shop.sites = {1: self.shop.sites[1]}
        self.site = self.shop.sites[1]
        self.site.start()
        self.link = self.shop.link
        self.publisher = Publisher(self.link, self.site)

    def accept(self) -> None:
        self.site.ledger.sends._read_out = lambda pieces: [ANN]
        self.site.give([b"user,ann"])
        self.site.take(b"reply,1,ok,1.1\nsend,%b\n" % ANN)

    def compare(self, state: StreamState) -> list[tuple[Any, ...]]:
        return done(self.publisher._compare(), answers(statuses={0: {"has": {"1": 0}, "turn": 0}}) | {State: state})

    def test_without_a_standby_nothing_is_said(self) -> None:
        steps = self.compare(stream())
        self.assertFalse(self.site.yields or any(isinstance(step, SayYields) for step in steps))

    def test_it_yields_once_all_that_was_told_before_is_published(self) -> None:
        self.accept()
        steps = self.compare(stream(standby="c"))
        self.assertTrue(self.site.yields and self.site.is_written_as_yielding)
        self.assertFalse(any(isinstance(step, SayYields) for step in steps))
        self.assertIn(SayYields(1, "before", LIFE), self.compare(stream((1, 0), standby="c", yields="before")))
        self.assertNotIn(SayYields(1, LIFE, LIFE), self.compare(stream((1, 0), standby="c", yields=LIFE)))

    def test_where_that_can_not_be_written_it_does_not_yield(self) -> None:
        self.site.is_full = True
        steps = self.compare(stream(standby="c"))
        self.assertFalse(self.site.yields or any(isinstance(step, SayYields) for step in steps))

    def test_without_its_standby_it_goes_on_once_the_server_knows(self) -> None:
        self.compare(stream(standby="c"))
        self.assertIn(SayYields(1, LIFE, ""), done(self.publisher._compare(), answers() | {State: stream(yields=LIFE), SayYields: False}))
        self.assertTrue(self.site.yields)
        self.compare(stream(yields=LIFE))
        self.assertFalse(self.site.yields or self.site.is_written_as_yielding)

    def test_a_stream_that_is_written_anew_is_yielded_anew(self) -> None:
        self.compare(stream(standby="c"))
        self.accept()
        steps = self.compare(stream((1, 0), standby="c", yields=LIFE, entries=0))
        self.assertIn(Rewrite(1, [((1, 0), ANN)], LIFE), steps)
        self.assertEqual(steps[-1], SayYields(1, "", LIFE))

    def test_ok_is_said_once_its_message_is_published(self) -> None:
        self.site.yields = True
        steps = Ask(self.site, 3.0, fetches_token=True).run([b"item,0.1,lamp,7,1,1,0"])
        self.assertEqual(steps.send(None), Wait(self.site.line[0].done, 3.0))
        self.site.take(b"reply,1,ok,1.1\nsend,msg,1,1,1,0,0:0,item,0.1,lamp,7,1,1,0\n")
        self.assertEqual(steps.send(True), Wait(self.shop.progress, 3.0))
        self.link.counts[1] = 1
        self.assertIsInstance(steps.send(True), Say)

    def test_else_it_is_not_known(self) -> None:
        self.site.yields = True
        for fenced_by in (None, "b/1 has it"):
            self.accept()
            steps = begun(Ask(self.site, 3.0, fetches_token=True).run([b"list,misfits"]))
            self.site.fenced_by = None
            self.site.take(b"reply,2,ok,1.2\nsend,msg,1,1,2,0,0:1,item,0.1,lamp,7,1,1,0\n")
            steps.send(True)
            self.site.fenced_by = fenced_by
            self.assertIn("; whether it was accepted isn't known (shop log 1)", fault_of(steps, bool(fenced_by)))

    def test_a_refusal_is_said_once_what_was_sent_before_it_is_published(self) -> None:
        """It may rest on that: with the site's place taken, the user whose nickname it names never was."""
        self.site.yields = True
        self.accept()
        steps = begun(Ask(self.site, 3.0, fetches_token=True).run([b"user,ann"]))
        self.site.take(b"reply,2,refused,2,NickTaken\n")
        self.assertIsInstance(steps.send(True), Wait)
        self.assertRegex(fault_of(steps, False), "its answer is not published within 3 s .*; not accepted")

    def test_nor_is_one_told_that_it_was_accepted_before(self) -> None:
        """Nor that its key is taken: where the place of the site is taken, what these rest on never was."""
        self.site.yields, self.link.without_keys = True, ()
        self.accept()
        for number, answer in enumerate((b"again,1.1", b"refused,40,KeyTaken"), 2):
            steps = begun(Ask(self.site, 3.0, fetches_token=True).run([b"key,k,user,ann"]))
            self.site.take(b"reply,%d,%b\n" % (number, answer))
            self.assertIsInstance(steps.send(True), Wait)
            self.assertIn("its answer is not published within 3 s", fault_of(steps, False))

    def test_of_records_behind_a_refusal_it_is_not_known(self) -> None:
        """They were given together with the refused one, and may be accepted."""
        self.site.yields = True
        self.accept()
        steps = begun(Ask(self.site, 3.0, fetches_token=True).run([b"comment,0.9,0.1,0.2,5,good", b"comment,0.1,0.1,0.2,5,good"]))
        self.site.take(b"reply,2,refused,6,NoUser\n")
        self.site.take(b"reply,3,ok,1.2\nsend,msg,1,1,2,0,0:1,comment,0.1,0.1,0.2,5,good\n")
        steps.send(True)
        self.assertIn("; whether it was accepted isn't known (shop log 1)", fault_of(steps, False))

    def test_a_refusal_before_which_nothing_was_sent_is_said_at_once(self) -> None:
        self.site.yields = True
        steps = begun(Ask(self.site, 3.0, fetches_token=True).run([b"item,0.1,lamp,7,1,1,0"]))
        self.site.take(b"reply,1,refused,6,NoUser\n")
        self.assertIsInstance(steps.send(True), Say)


class StandingBy(unittest.TestCase):
    """For site 1, which has been seen with one message; site 0 runs here."""

    def setUp(self) -> None:
        self.shop = Supervisor(OverServer, 1)
        self.shop.after = 30.0
        self.standby = Standby(self.shop.link, 1)
        self.state = stream((1, 0), yields=LIFE)
        self.entries = {1: [((1, 0), ANN)]}

    def steps(self, statuses: dict[int, Any], seconds: list[float], took_over: bool = True) -> list[tuple[Any, ...]]:
        """What it does while so many seconds are over at each look."""
        machine, asked = self.standby.run(), list[tuple[Any, ...]]()
        said: Any = None
        try:
            while True:
                step = machine.send(said)
                asked.append(step)
                said = None
                match step:
                    case Wait():
                        if not seconds:
                            return asked
                        self.shop.time = seconds.pop(0)
                    case Statuses():
                        said = statuses
                    case State():
                        said = self.state
                    case Entries(site, after):
                        said = [entry for entry in self.entries.get(site, []) if entry[0] > after]
                    case SentHere():
                        said = [*self.entries[1], ((2, 0), BOB)]    # a folder of it from before stands here
                    case TakeOver():
                        said = took_over
                    case Replay():
                        pass
                    case _:
                        said = ([], []) if step == (0, 1, 1) else None
        except StopIteration:
            return asked

    def test_one_that_runs_is_left_alone(self) -> None:
        steps = self.steps({1: {}}, [100.0, 200.0])
        self.assertEqual(steps, 3 * [StandBy(1), Statuses(), Wait(None, LOOK_SECONDS)])

    def test_one_that_is_gone_for_so_long_is_taken_over(self) -> None:
        steps = self.steps({}, [29.0, 30.0])
        self.assertEqual(steps[-1], TakeOver(1, LIFE, (1, 0)))
        self.assertEqual([step for step in steps if isinstance(step, StandBy)], 3 * [StandBy(1)])
        self.assertEqual(self.shop.taken, [1])

    def test_so_are_two_of_one_machine_neither_of_which_says_what_it_had(self) -> None:
        self.shop.standby, self.shop.count = (1, 2), 3
        self.entries[2] = [((1, 0), b"msg,1,2,1,0,0:1:0,item,1.1,lamp,7,1,1,0")]
        self.assertIn(TakeOver(1, LIFE, (1, 0)), self.steps({}, [30.0]))

    def test_but_none_of_which_the_other_had_a_message_that_is_lost(self) -> None:
        self.shop.standby, self.shop.count = (1, 2), 3
        self.entries[2] = [((1, 0), b"msg,1,2,1,0,0:2:0,item,1.1,lamp,7,1,1,0")]
        self.assertNotIn(TakeOver(1, LIFE, (1, 0)), self.steps({}, [30.0]))
        self.assertIn("site 2 isn't running, and may have more of site 1", self.shop.events[0])

    def test_nor_one_beside_another_that_is_gone_and_does_not_yield(self) -> None:
        self.shop.standby, self.shop.count = (1,), 3
        self.assertNotIn(TakeOver(1, LIFE, (1, 0)), self.steps({}, [30.0]))

    def test_one_that_never_said_that_it_yields_is_not(self) -> None:
        for yields in ("", "1 b", "none 17"):
            self.state = stream((1, 0), yields=yields)
            self.assertNotIn(TakeOver(1, LIFE, (1, 0)), self.steps({}, [30.0, 60.0]))
        self.assertEqual(self.shop.events, ["standby for site 1: it isn't taken over: it hasn't said that it yields to a standby"])

    def test_nor_one_of_whose_stream_something_is_lost(self) -> None:
        self.state = stream((1, 0), yields=LIFE, greatest=(2, 0))
        self.assertNotIn(TakeOver(1, LIFE, (1, 0)), self.steps({}, [30.0, 60.0]))
        self.assertIn("its stream lacks what others have of it", self.shop.events[0])

    def test_nor_one_that_goes_on_meanwhile(self) -> None:
        self.steps({}, [30.0, 60.0], took_over=False)
        self.assertEqual(self.shop.events, ["standby for site 1: it isn't taken over: somebody went on with it"])
        self.assertEqual(self.shop.taken, [])
