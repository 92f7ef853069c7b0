"""Files and folders are told apart, and each gives the run that it says."""

import os
import tempfile
import unittest

from picture_tool.messages import Fault, records_of
from picture_tool.run import Kind, Run
from picture_tool.sources import Given, kind_of_text, run_of, source_of
from picture_tool.tests.shops import MadeShop, Network

CONVERSATION = '''# Site 1 holds one message, and refuses an ask.
$ rubis world --sites 3
> at,0,user,ann
at,0,reply,1,ok,0.1
at,0,send,msg,1,0,1,1,0:0:0,user,ann
> at,0,item,0.1,"lamp, ""old""",7,1,100,0
at,0,reply,2,ok,0.2
at,0,send,msg,1,0,2,0,1:0:0,item,0.1,"lamp, ""old""",7,1,100,0
> deliver,1,2
at,1,reply,3,held
> at,1,user,bob
at,1,reply,4,refused,3,NoToken
> at,0,pass,1
at,0,reply,5,passed
at,0,send,token,1,1,1,1
> deliver,1,3
at,1,reply,6,holding
'''


def kinds(run: Run) -> list[tuple[int, str, str]]:
    return [(event.lane, str(event.kind), event.message.id if event.message else "") for event in run.events]


def read(text: str, given: Given | None = None) -> Run:
    return run_of([source_of("a file", text)], given or Given())


class Telling(unittest.TestCase):
    def test_first_records(self) -> None:
        for text, kind in (
                (CONVERSATION, "conversation"), ("site,0\nmsg,1,0,1,1,0,user,ann\n", "audit"), ("at,0,user,ann\n", "world-records"),
                ("deliver,0,1\n", "world-records"), ("at,0,reply,1,ok,0.1\n", "world-answers"), ("\nuser,ann\n", "site-records"),
                ("msg,1,0,1,1,0,user,ann\n", "site-records"), ("kept,0,0\nreply,1,ok,0.1\n", "site-answers"), ("audit,Clash,2,2\n", "verdict")):
            self.assertEqual(kind_of_text(text, "a file"), kind)

    def test_unknown_ones_are_refused(self) -> None:
        for text in ("", "hello\n", "3,4\n"):
            with self.assertRaisesRegex(Fault, "no record that is known"):
                kind_of_text(text, "a file")

    def test_records_are_counted_as_a_site_counts_them(self) -> None:
        self.assertEqual(records_of('user,ann\r\n\n"a\nb",c\ruser,bob\n""\n'), [["user", "ann"], ["a\nb", "c"], ["user", "bob"], [""]])


class Worlds(unittest.TestCase):
    def test_a_conversation(self) -> None:
        run = read(CONVERSATION)
        self.assertEqual(kinds(run), [
            (0, "made", "0.1"), (0, "made", "0.2"), (1, "held", "0.2"), (1, "refused", ""), (0, "passed", ""), (1, "holding", "")])
        self.assertEqual(run.events[3].text, "NoToken: at,1,user,bob")
        self.assertEqual([(row.has, row.waiting, row.holds) for row in run.rows], [((2, 0, 0), 0, False), ((0, 0, 0), 1, True), ((0, 0, 0), 0, False)])
        self.assertEqual(run.rows[1].waits[0].text, "0.2 for 0.1")

    def test_records_and_answers_in_two_files(self) -> None:
        shop = MadeShop(3, 60, seed=4)
        records, answers = ("".join(line + "\n" for line in lines) for lines in (shop.world_records, shop.world_answers))
        sources = [source_of("answers", answers), source_of("records", records)]
        run = run_of(sources, Given())
        self.assertEqual([row.has for row in run.rows], [tuple(site.state.counts) for site in shop.sites])
        self.assertEqual([[event.message for event in run.log(lane)] != [] for lane in range(3)], [True] * 3)
        self.assertEqual([[event.message.record for event in run.log(site.number) if event.message] for site in shop.sites],
                         [[message.record for message in site.log] for site in shop.sites])

    def test_answers_that_are_not_a_sites_are_refused(self) -> None:
        with self.assertRaisesRegex(Fault, "not what a site answers"):
            read(CONVERSATION.replace("reply,3,held", "reply,3,released,1"))
        with self.assertRaisesRegex(Fault, "aren't the answers to these records"):
            run_of([source_of("records", "at,0,user,ann\n"), source_of("answers", "at,0,reply,2,ok,0.1\n")], Given())

    def test_answers_alone_need_logs(self) -> None:
        with self.assertRaisesRegex(Fault, "list each site's log"):
            read("at,0,reply,1,ok,0.1\n")
        run = read("at,0,row,log,1,msg,1,0,1,1,0:0,user,ann\nat,1,row,log,1,msg,1,0,1,1,0:0,user,ann\n")
        self.assertEqual(kinds(run), [(0, "made", "0.1"), (1, "released", "0.1")])


class Conversations(unittest.TestCase):
    def test_repeated_lines(self) -> None:
        run = read("$ rubis world\n* 2 4\n> at,0,item,0.1,x,1,1,1,0\nat,0,reply,{n-1},ok,0.{n-1}\n"
                   "at,0,send,msg,1,0,{n-1},0,{n-1},item,0.1,x,1,1,1,0\n*\n")
        self.assertEqual([event.message.id for event in run.events if event.message], ["0.1", "0.2", "0.3"])

    def test_a_site(self) -> None:
        run = read("$ rubis site --site 1 --sites 2\n> msg,1,0,2,2,1:0,user,bob\nreply,1,held\n> msg,1,0,1,1,0:0,user,ann\nreply,2,released,2\n")
        self.assertEqual([row.has for row in run.rows], [(2, 0)])
        self.assertEqual([event.kind for event in run.events if run.lanes[event.lane].site == 1], [Kind.HELD, Kind.RELEASED, Kind.RELEASED])

    def test_keys_are_not_drawn(self) -> None:
        """Nor what is answered again under one."""
        run = read("$ rubis keep 1 --site 1 --sites 2\n> key,k,user,bob\nreply,1,refused,3,NoToken\n> key,\"a, b\",msg,1,0,1,1,0:0,user,ann\n"
                   "reply,2,released,1\n> key,k,item,0.1,x,1,1,1,0\nreply,3,ok,1.1\nsend,key,k,msg,1,1,1,0,1:0,item,0.1,x,1,1,1,0\n"
                   "> key,k,item,0.1,x,1,1,1,0\nreply,4,again,1.1\n")
        self.assertEqual([(event.kind, event.message.record if event.message else event.text) for event in run.events if run.lanes[event.lane].site == 1],
                         [(Kind.REFUSED, "NoToken: user,bob"), (Kind.RELEASED, "msg,1,0,1,1,0:0,user,ann"),
                          (Kind.MADE, "msg,1,1,1,0,1:0,item,0.1,x,1,1,1,0")])

    def test_messages_that_count_other_sites(self) -> None:
        with self.assertRaisesRegex(Fault, "a message counts 3 sites, and there are 2"):
            read(CONVERSATION.replace("--sites 3", "--sites 2"))


class Folders(unittest.TestCase):
    def setUp(self) -> None:
        folder = tempfile.TemporaryDirectory()
        self.addCleanup(folder.cleanup)
        self.folder = folder.name
        self.shop = MadeShop(3, 80, seed=1, network=Network(late=60, share=10, lagging=2, from_step=60))
        self.shop.write(self.folder)

    def read(self, *names: str) -> Run:
        return run_of([source_of(os.path.join(self.folder, name)) for name in names], Given())

    def test_a_shop(self) -> None:
        run = self.read("")
        self.assertEqual([lane.name for lane in run.lanes], ["site 0", "site 1", "site 2"])
        for site in self.shop.sites:
            self.assertEqual([event.message.id for event in run.log(site.number) if event.message], [message.id for message in site.log])
            row = run.rows[site.number]
            self.assertEqual((row.has, row.waiting, row.holds), (tuple(site.state.counts), len(site.state.waiting), site.issued is not None))
            self.assertIsNotNone(row.last)
        place = {id(event): at for at, event in enumerate(run.events)}
        self.assertTrue(all(place[id(before)] < at for at, event in enumerate(run.events) for before in event.after))
        shown = {event.kind for event in run.events}
        self.assertEqual(shown, set(Kind), "everything that a site does is there")

    def test_one_site_shows_what_it_knows_of_the_others(self) -> None:
        run = self.read("1")
        self.assertEqual([lane.site for lane in run.lanes], [0, 1, 2])
        self.assertEqual([row.site for row in run.rows], [1])
        seen = {event.message.id for event in run.events if event.message and event.message.origin == 0}
        self.assertEqual({event.message.id for event in run.log(0) if event.message}, seen)

    def test_a_site_that_runs(self) -> None:
        """Its files end within a line, and an answer isn't there yet."""
        for name in ("kept", "out"):
            path = f"{self.folder}/0/{name}"
            with open(path, "r+", encoding="utf-8") as file:
                text = file.read()
                file.truncate(len(text) - (3 if name == "kept" else 60))
        self.assertTrue(self.read("0").events)

    def test_two_versions_of_one_message_are_found(self) -> None:
        path = f"{self.folder}/1/kept"
        with open(path, encoding="utf-8") as file:
            text = file.read()
        with open(path, "w", encoding="utf-8") as file:
            file.write(text.replace("user,u1\n", "user,eve\n"))
        found = self.read("").divergence
        assert found and found.other and found.at.event and found.other.event and found.at.event.message and found.other.event.message
        self.assertEqual((found.kind, found.at.event.message.id), ("Clash", found.other.event.message.id))
        self.assertEqual({found.at.event.message.shadow, found.other.event.message.shadow}, {("user", "u1"), ("user", "eve")})
        assert found.common and found.common.message
        self.assertEqual(found.common.message.id, "0.1")

    def test_other_folders_are_refused(self) -> None:
        with self.assertRaisesRegex(Fault, "no files kept and out"):
            run_of([source_of("/")], Given())


class Logs(unittest.TestCase):
    def test_the_logs_of_a_shop(self) -> None:
        shop = MadeShop(4, 120, seed=6)
        run = read(shop.logs())
        self.assertEqual([[event.message.id for event in run.log(lane) if event.message] for lane in range(4)],
                         [[message.id for message in site.log] for site in shop.sites])
        self.assertEqual(run.sent(), tuple(shop.sites[0].state.counts))
        self.assertEqual([row.has for row in run.rows], [run.sent()] * 4)

    def test_bad_records_are_refused(self) -> None:
        for text, fault in (("site,0\nmsg,1,0,x,1,0,user,ann\n", "not a message"), ("site,0\nmsg,1,3,1,1,0:0,user,ann\n", "not a message"),
                            ("site,0\nuser,ann\n", "no record of an audit"), ("site,x\n", "field 2 is no number")):
            with self.assertRaisesRegex(Fault, fault):
                read(text)

    def test_two_kinds_that_do_not_belong_together(self) -> None:
        with self.assertRaisesRegex(Fault, "no picture of"):
            run_of([source_of("one", "site,0\n"), source_of("other", "at,0,user,ann\n")], Given())
