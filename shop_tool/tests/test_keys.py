"""Asks under keys: what the site is given and says, which machines know keys, and those that a version of before wrote down."""

import unittest

from shop_tool.carrier.answers import Answer, AnswerReader
from shop_tool.carrier.asking import Ask
from shop_tool.carrier.old_keys import SECONDS, OldKeys, sum_of
from shop_tool.carrier.over_files import FileLink
from shop_tool.carrier.records import under
from shop_tool.carrier.steps import Say, Steps, Wait
from shop_tool.tests.shops import OverServer, Supervisor, begun, fault_of

BOB, CAT = b"comment,0.3,0.2,0.1,5,bob", b"comment,0.3,0.2,0.1,5,cat"
AGAIN = b"reply,%d,again,1.1\n"


class Asking(unittest.TestCase):
    """Site 1, which doesn't hold the token at first."""

    def setUp(self) -> None:
        self.shop = Supervisor(FileLink, 2)
        self.site = self.shop.sites[1]
        self.site.start()

    def ask(self, *records: bytes, published: bool = False) -> Steps[None]:
        return Ask(self.site, 3.0, fetches_token=True, published=published).run(list(records))

    def told(self, steps: Steps[None], text: bytes) -> Say:
        """What it says once its site has written this."""
        begun(steps)
        self.site.take(text)
        step = steps.send(True)
        assert isinstance(step, Say)
        return step

    def test_the_site_is_given_the_key_and_its_answer_is_told(self) -> None:
        step = self.told(self.ask(under(b"k", BOB)), AGAIN % 1)
        self.assertEqual((self.site.given, step.record, step.answer.kind), (b"key,k," + BOB + b"\n", under(b"k", BOB), b"again"))

    def test_many_go_together(self) -> None:
        self.ask(under(b"a", BOB), under(b"a", BOB), CAT).send(None)
        self.assertEqual(self.site.given, b"key,a," + BOB + b"\nkey,a," + BOB + b"\n" + CAT + b"\n")

    def test_red_asks_wait_for_the_token(self) -> None:
        steps = begun(self.ask(under(b"k", b"user,bob")))
        self.site.take(b"reply,1,refused,3,NoToken\n")
        steps.send(True)
        self.assertTrue(self.site.token_askers)
        steps.send(True)
        self.assertEqual(self.site.given, b"key,k,user,bob\n" * 2)

    def test_of_one_that_isn_t_given_no_more_is_said_than_of_this_request(self) -> None:
        """One before it may have asked the same under the key."""
        self.shop.is_leaving = True
        for record, said in ((BOB, "nothing was given to it"), (under(b"k", BOB), "nothing was given to it by this request")):
            self.site.up.clear()
            self.assertRegex(fault_of(begun(self.ask(record)), False), f"{said}$")

    def test_again_is_told_published_once_what_was_sent_is(self) -> None:
        steps = begun(self.ask(under(b"k", BOB), published=True))
        self.site.take(AGAIN % 1)
        self.site.ledger.sends.add(True, 0, 0)
        self.assertEqual(steps.send(True), Wait(self.shop.progress, 3.0))
        self.shop.link.carried[1] = 1
        self.assertIsInstance(steps.send(True), Say)


class Machines(unittest.TestCase):
    """Over a server, a machine of before doesn't read a packet under a key."""

    def setUp(self) -> None:
        self.shop = Supervisor(OverServer, 2)
        self.site = self.shop.sites[1]
        self.site.start()

    def ask(self) -> Steps[None]:
        return Ask(self.site, 3.0, fetches_token=True).run([under(b"k", BOB)])

    def look(self, without_keys: tuple[int, ...]) -> None:
        steps = begun(self.shop.link.look())
        self.assertRaises(StopIteration, steps.send, ([0, 0], [None, None], without_keys))

    def test_until_all_know_keys_it_is_refused_and_nothing_is_given(self) -> None:
        steps = self.ask()
        self.assertEqual(steps.send(None), Wait(self.shop.progress, 3.0))
        self.look((0,))
        self.assertEqual(fault_of(steps, True), "site 1 takes no keys until each machine has said that it knows them, and of site 0 none has: "
                         "upgrade shop and rubis on every machine, and start it; nothing was given to it by this request")
        self.assertIn("it isn't known yet whether all machines know keys", fault_of(begun(self.reached_nobody()), False))
        self.assertEqual(self.site.given, b"")

    def test_where_the_program_here_knows_none_it_is_refused(self) -> None:
        self.shop.knows_keys, self.shop.link.without_keys = False, ()
        self.assertIn("of site 1 none has", fault_of(self.ask()))

    def reached_nobody(self) -> Steps[None]:
        self.shop.link.without_keys = None
        return self.ask()

    def test_once_all_do_it_is_given_for_good(self) -> None:
        for without_keys in ((), (0,)):
            self.look(without_keys)
            self.ask().send(None)
        self.assertEqual(self.site.given, (b"key,k," + BOB + b"\n") * 2)


class Before(unittest.TestCase):
    """Keys that stand in a file."""

    OK, NO, TOKEN = b"reply,1,ok,0.1\nsend,msg\n", b"reply,2,refused,6,NoUser\n", b"reply,1,refused,3,NoToken\n"

    def keys(self, *said: bytes, lines: tuple[bytes, ...] = (), now: float = 0) -> OldKeys:
        """Those of a file, of a site that has kept BOB again and again with these answers."""
        keys = OldKeys()
        keys.read(lines, now)
        for number, answer in enumerate(AnswerReader().feed(b"".join(said)), 1):
            keys.note(number, BOB, answer)
        return keys

    def line(self, number: int, key: bytes = b"k", record: bytes = BOB, at: int = 0, answer: bytes = b"") -> bytes:
        rest = b'"answer": [%b]' % answer if answer else b'"number": %d' % number
        return b'{"key": "%b", "at": %d, "sum": "%b", %b}\n' % (key, at, sum_of(record).encode(), rest)

    def found(self, keys: OldKeys, record: bytes = BOB, now: float = 0) -> list[bytes] | None:
        answer: Answer | None = keys.answer(under(b"k", record), now)
        return answer.lines if answer else None

    def test_the_answer_of_then(self) -> None:
        keys = self.keys(self.OK, self.NO, lines=(self.line(1), self.line(2, b"l")))
        self.assertEqual((self.found(keys), self.found(keys, CAT)), ([b"reply,1,again,0.1"], [b"reply,0,refused,40,KeyTaken"]))
        self.assertEqual(keys.answer(under(b"l", BOB), 0).lines, [self.NO[:-1]])        # type: ignore[union-attr]
        self.assertIsNone(keys.answer(BOB, 0))
        self.assertEqual(self.found(self.keys(lines=(self.line(0, answer=b'"reply,7,ok,0.3", "send,msg"'),))), [b"reply,7,again,0.3"])

    def test_what_decides_nothing(self) -> None:
        """The ask waited for the token, or was never kept, or another one was kept in its place, or under its number."""
        for said, lines in (((self.TOKEN,), (self.line(1),)), ((self.OK,), (self.line(2),)), ((self.OK,), (self.line(1, record=CAT),)),
                            ((self.OK,), (self.line(1), self.line(1, b"l"))), ((self.OK, self.TOKEN), (self.line(1), self.line(2)))):
            self.assertIsNone(self.found(self.keys(*said, lines=lines)), lines)
        self.assertEqual(self.found(self.keys(self.TOKEN, self.OK, lines=(self.line(1), self.line(2)))), [b"reply,1,again,0.1"])

    def test_for_a_day(self) -> None:
        keys = self.keys(self.OK, lines=(self.line(1),), now=SECONDS)
        self.assertEqual([self.found(keys, now=now) for now in (SECONDS, SECONDS + 1)], [[b"reply,1,again,0.1"], None])
        self.assertFalse(self.keys(self.OK, lines=(self.line(1),), now=SECONDS + 1))

    def test_lines_that_no_supervisor_wrote(self) -> None:
        for line in (self.line(1)[:-9], b"\n", b"[]\n", b"[" * 200_000 + b"\n", b'{"key":"k","at":Infinity,"sum":"x","number":[]}\n', b'{"key":7}\n'):
            self.assertFalse(self.keys(lines=(line,)), line[:60])


class Opening(unittest.TestCase):
    def test_a_start_reads_them_and_a_site_is_asked_only_for_what_they_do_not_know(self) -> None:
        site = Supervisor(FileLink, 2).sites[1]
        site.old_keys.read([Before().line(1)], 0)
        site.known.clear()
        site.read_on(BOB + b"\n", b"reply,1,ok,1.1\nsend,msg,1,1,1,0,0:0,%b\n" % BOB, 1)
        site.start()
        steps = Ask(site, 3.0, fetches_token=True).run([under(b"k", BOB), under(b"l", BOB)])
        self.assertEqual(steps.send(None), Say(under(b"k", BOB), site.old_keys.answer(under(b"k", BOB), 0)))
        begun(steps)
        self.assertEqual(site.given, b"key,l," + BOB + b"\n")
