"""What a picture shows: lanes, windows, labels that don't meet, a legend that says every mark, colours that are told apart."""

import itertools
import re
import unittest
import xml.etree.ElementTree as ET

from picture_tool import colours
from picture_tool.canvas import Label, overlapping
from picture_tool.cli import drawn
from picture_tool.drawing import MOST, Drawing
from picture_tool.grids import grid_of, grid_svg
from picture_tool.marks import Mark
from picture_tool.messages import Fault
from picture_tool.order import blue_steps, red_steps
from picture_tool.run import Kind, Run, around, between, last_of, view_of
from picture_tool.sources import Given, run_of, source_of
from picture_tool.tests.shops import MadeShop, Network
from picture_tool.tests.test_reading import CONVERSATION

CLASH = """site,0
msg,1,0,1,1,0:0,user,ann
msg,1,0,2,2,1:0,user,eve
site,1
msg,1,0,1,1,0:0,user,ann
msg,1,0,2,2,1:0,user,bob
"""


def read(text: str, verdict: str = "") -> Run:
    return run_of([source_of("a file", text)], Given(verdict=verdict))


def shop(sites: int, messages: int, seed: int = 1) -> Run:
    made = MadeShop(sites, messages, seed, Network(late=20, share=5))
    texts = ("".join(line + "\n" for line in lines) for lines in (made.world_records, made.world_answers))
    return run_of([source_of(name, text) for name, text in zip(("records", "answers"), texts)], Given(sites=sites))


def runs() -> dict[str, Run]:
    return {
        "two sites": read(CONVERSATION), "a clash": read(CLASH, "audit,Clash,2,2"), "rows": read(CLASH, "audit,Rows,2,0"),
        "four": shop(4, 61), "sixteen": shop(16, 60), "one": shop(1, 20)}


class Lanes(unittest.TestCase):
    def test_only_sites_that_have_something_to_show(self) -> None:
        text = drawn([], "$ rubis world --sites 16\n> at,3,item,0.1,x,1,1,1,0\nat,3,reply,1,refused,6,NoUser\n> at,0,user,ann\n"
                     "at,0,reply,2,ok,0.1\nat,0,send,msg,1,0,1,1,0:0:0:0:0:0:0:0:0:0:0:0:0:0:0:0,user,ann\n")
        self.assertEqual(re.findall(r">(site \d+)<", text), ["site 0", "site 3"])

    def test_the_same_input_gives_the_same_bytes(self) -> None:
        commands: list[list[str]] = [[], ["--dot"], ["--grid"], ["--html"]]
        for command in commands:
            self.assertEqual(drawn(command, CONVERSATION), drawn(command, CONVERSATION))

    def test_each_mark_has_its_record(self) -> None:
        root = ET.fromstring(drawn([], CONVERSATION))
        titles = [title.text for title in root.iter("{http://www.w3.org/2000/svg}title")]
        self.assertIn('site 1, 3: held: msg,1,0,2,0,1:0:0,item,0.1,"lamp, ""old""",7,1,100,0', titles)

    def test_bytes_that_no_xml_has(self) -> None:
        odd = '\ufeff$ rubis site\n> user,"a\x01<&\ufffe\x00"\nreply,1,refused,1,BadRecord\n'
        titles = [title.text for title in ET.fromstring(drawn([], odd)).iter("{http://www.w3.org/2000/svg}title")]
        self.assertIn('site 0, 1: refused: BadRecord: user,a\ufffd<&\ufffd\ufffd', titles)


class Windows(unittest.TestCase):
    def setUp(self) -> None:
        self.run_ = shop(3, 200)

    def test_last(self) -> None:
        view = last_of(self.run_, 30)
        self.assertEqual(sum(event.kind is Kind.MADE for event in view.events), 30)
        self.assertEqual(len(view.events) + sum(view.before.values()), len(self.run_.events))
        self.assertEqual(sum(view.after.values()), 0)
        self.assertTrue(last_of(self.run_, 500).is_whole)

    def test_around(self) -> None:
        view = around(self.run_, 1, 100)
        entry = self.run_.log(1)[99]
        self.assertIn(entry, view.events)
        self.assertEqual(len(view.events) + sum(view.before.values()) + sum(view.after.values()), len(self.run_.events))
        self.assertLess(sum(event.kind is Kind.MADE for event in view.events), 20)
        for lane, number in ((3, 1), (0, 0), (0, 999)):
            with self.assertRaises(Fault):
                around(self.run_, lane, number)

    def test_between(self) -> None:
        view = between(self.run_, "0.20", "0.12")
        made = {event.message.id for event in view.events if event.kind is Kind.MADE and event.message}
        self.assertTrue({f"0.{number}" for number in range(12, 21)} <= made)
        self.assertNotIn("0.11", made)
        self.assertEqual([event.message.id for event in view.events[-1:] if event.message], ["0.20"])
        with self.assertRaisesRegex(Fault, "no message 9.9"):
            between(self.run_, "9.9", "0.1")

    def test_what_is_left_out_is_a_count(self) -> None:
        view = around(self.run_, 1, 100)
        said = Drawing(view).svg()
        for lane in view.lanes:
            for count, side in ((view.before[lane], "earlier"), (view.after[lane], "later")):
                self.assertIn(f">{count:,} {side}<", said)

    def test_a_long_run_shows_its_end(self) -> None:
        texts = [CONVERSATION.split("\n> deliver")[0] + "\n"]
        for number in range(3, 140):
            texts.append(f"> at,0,item,0.1,cup,9,3,50,80\nat,0,reply,{number},ok,0.{number}\n"
                         f"at,0,send,msg,1,0,{number},0,{number - 1}:0:0,item,0.1,cup,9,3,50,80\n")
        said = drawn([], "".join(texts))
        self.assertIn(">99 earlier<", said)
        self.assertIn(">0.139<", said)

    def test_too_many_for_an_image(self) -> None:
        with self.assertRaisesRegex(Fault, "too many for one image"):
            Drawing(view_of(shop(1, MOST + 1))).svg()


class Labels(unittest.TestCase):
    def test_boxes_that_meet_are_found(self) -> None:
        one, other = Label(10, 10, 12, "ann"), Label(20, 12, 12, "bob")
        self.assertEqual(overlapping([one, other, Label(10, 40, 12, "ann")]), [(one, other)])

    def test_no_labels_meet(self) -> None:
        for name, run in runs().items():
            for view in (view_of(run), last_of(run, 20)):
                drawing = Drawing(view)
                drawing.svg()
                self.assertEqual(overlapping(drawing.canvas.labels), [], name)
                for label in drawing.canvas.labels:
                    left, top, right, bottom = label.box
                    self.assertTrue(left >= 0 and top >= 0 and right <= drawing.at.width and bottom <= drawing.at.bottom, f"{name}: {label.text}")

    def test_captions_stay(self) -> None:
        """Of a shop of four with 61 messages, each message has its id and what it is."""
        run = shop(4, 61)
        drawing = Drawing(view_of(run))
        drawing.svg()
        shown = [label.text for label in drawing.canvas.labels]
        for event in run.events:
            if event.kind is Kind.MADE and event.message:
                self.assertIn(event.message.id, shown)
                self.assertIn(event.message.caption, shown)
        self.assertLess(drawing.at.width, 1300)


class Legend(unittest.TestCase):
    def test_every_mark_is_said(self) -> None:
        seen: set[Mark] = set()
        for name, run in runs().items():
            drawing = Drawing(view_of(run))
            said = drawing.svg()
            for mark in Mark:
                self.assertEqual(f">{mark.value}<" in said, mark in drawing.marks, f"{name}: {mark}")
            seen |= drawing.marks
        drawing = Drawing(last_of(shop(3, 80), 20))
        drawing.svg()
        self.assertEqual(set(Mark) - seen - drawing.marks - {Mark.RED_GAP}, set(), "each mark has a picture that has it")

    def test_the_page_says_every_mark(self) -> None:
        said = drawn(["--html", "--verdict", "audit,Clash,2,2"], CLASH)
        for mark in set(Mark) - {Mark.STUB, Mark.LEFT_OUT}:
            self.assertIn(mark.value, said)


class Colours(unittest.TestCase):
    def test_no_two_are_taken_for_each_other(self) -> None:
        told_by_colour = [colours.RED, colours.BLUE, colours.RING, colours.PALE, colours.INK]
        for blindness in colours.BLINDNESS:
            for one, other in itertools.combinations(told_by_colour, 2):
                self.assertGreater(colours.difference(one, other, blindness), 20, f"{one} {other} {blindness}")
            self.assertGreater(colours.difference(colours.TOKEN, colours.WHITE, blindness), 8, blindness)

    def test_texts_are_read(self) -> None:
        for colour in (colours.RED, colours.INK, colours.GREY):
            self.assertGreater(colours.contrast(colour, colours.WHITE), 4.5)
        self.assertGreater(colours.contrast(colours.INK, colours.TOKEN), 4.5)
        self.assertGreater(colours.contrast(colours.WHITE, colours.RED), 4.5)

    def test_texts_of_the_page_are_read_by_day_and_in_the_dark(self) -> None:
        self.assertEqual(colours.LIGHT.keys(), colours.DARK.keys())
        for scheme in (colours.LIGHT, colours.DARK):
            for text, behind in (("ink", "paper"), ("grey", "paper"), ("ink", "hover"), ("ink", "token"), ("ink", "lacks"), ("paper", "red")):
                self.assertGreater(colours.contrast(scheme[text], scheme[behind]), 4.5, f"{text} on {behind}")
            for blindness in colours.BLINDNESS:
                self.assertGreater(colours.difference(scheme["red"], scheme["blue"], blindness), 20, blindness)


class Order(unittest.TestCase):
    def test_blue_lines_come_from_what_the_lane_has(self) -> None:
        """Of two versions of a message, a blue one follows that of its own log."""
        run = read(CLASH + "msg,1,1,1,0,2:0,item,0.2,cup,9,3,50,80\n")
        steps = [(a.lane, a.message.shadow[1], b.message.id) for a, b in blue_steps(run.events) if a.message and b.message]
        self.assertEqual(steps, [(1, "bob", "1.1")])

    def test_red_lines_fork_where_two_claim_a_number(self) -> None:
        run = read(CLASH)
        steps = [(a.message.id, b.message.shadow[1], is_next) for a, b, is_next in red_steps(run.events) if a.message and b.message]
        self.assertEqual(sorted(steps), [("0.1", "bob", True), ("0.1", "eve", True)])

    def test_left_out_red_numbers(self) -> None:
        run = read("site,0\nmsg,1,0,1,1,0:0,user,ann\nmsg,1,0,2,3,1:0,user,bob\n", "audit,RedGap,1,2")
        self.assertIn(Mark.RED_GAP.value, Drawing(view_of(run)).svg())


class Sides(unittest.TestCase):
    def test_both_versions_and_what_is_common(self) -> None:
        said = drawn(["--verdict", "audit,Clash,2,2"], CLASH)
        for text in ("site 1, entry 2", "site 0, entry 2", "user,bob", "user,eve", "last in common: 0.1, user,ann", "Clash: two messages have one id"):
            self.assertIn(text, said)
        self.assertIn(Mark.OTHER.value, said)


class Grids(unittest.TestCase):
    def test_a_lagging_site(self) -> None:
        run = read(CONVERSATION)
        said = drawn(["--grid", "--text"], CONVERSATION)
        self.assertEqual(said, "          of 0  waits\nsite 0    2/2   -\nsite 1 *  0/2   0.2 for 0.1\nsite 2    0/2   -\n* holds the token\n")
        svg = grid_svg(grid_of(run))
        for text in ("0/2", "2/2", "0.2 for 0.1", "it lacks some of them", "it holds the token"):
            self.assertIn(f">{text}", svg)

    def test_no_labels_meet(self) -> None:
        for name, run in runs().items():
            labels = [Label(float(x), float(y), float(size), "".join(part.itertext()), anchor=part.get("text-anchor", "start"))
                      for part in ET.fromstring(grid_svg(grid_of(run))).iter("{http://www.w3.org/2000/svg}text")
                      for x, y, size in [(part.get("x", "0"), part.get("y", "0"), part.get("font-size", "0"))]]
            self.assertEqual(overlapping(labels), [], name)
