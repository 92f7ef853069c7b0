"""When a site takes asks, and what stops it, as its supervisor decides it."""

import json
import unittest
from typing import Any

from shop_tool.carrier.opening import HEARD_SECONDS, Said, said_by, said_in_status
from shop_tool.carrier.over_files import FileLink
from shop_tool.carrier.publisher import Publisher
from shop_tool.carrier.site import State as SiteState
from shop_tool.carrier.steps import Owner, SeeLife, Sites, State
from shop_tool.tests.shops import Known, OverServer, Supervisor, answers, done


def published(said: dict[type, Any]) -> Known:
    """Site 0 once it was compared with what the server says."""
    shop = Supervisor(OverServer, 1)
    done(Publisher(shop.link, shop.sites[0]).run(), said)
    return shop.sites[0]


class Unseen(unittest.TestCase):
    """What opens before it was compared. The folder of site 0 is known to lack nothing."""

    def setUp(self) -> None:
        self.shop = Supervisor(OverServer, 2)
        self.site, self.other = self.shop.sites.values()
        self.shop.begin_site(self.site, 100)
        self.shop.begin_site(self.other, None)

    def open_when_away(self) -> list[bool]:
        """Which of them are open where the server is away."""
        for site in self.shop.sites:
            self.shop.link.fail(f"publish {site}", "away")
        return [site.opened.is_set for site in self.shop.sites.values()]

    def test_over_files_a_folder_that_lacks_nothing_opens_at_once(self) -> None:
        shop = Supervisor(FileLink, 2)
        shop.begin_site(shop.sites[0], 100)
        shop.begin_site(shop.sites[1], None)
        self.assertEqual([site.opened.is_set for site in shop.sites.values()], [True, False])

    def test_over_a_server_it_opens_only_where_the_server_is_away(self) -> None:
        """While the server answers, a clone of the folder may have run elsewhere, and the server says so."""
        self.shop.link.fail("hear", "broke")
        self.assertFalse(self.site.opened.is_set or self.other.opened.is_set)
        self.assertEqual(self.open_when_away(), [True, False])

    def test_not_one_of_which_a_site_here_has_more(self) -> None:
        """It has read what a clone of the folder sent, which ran meanwhile."""
        self.other.ledger.have[0].add(1)
        self.assertFalse(any(self.open_when_away()))

    def test_none_beside_one_that_could_not_be_started_or_was_not_tried(self) -> None:
        """What that one has read of a clone isn't known."""
        for flag in (self.other.known, self.other.tried):
            flag.clear()
            self.assertFalse(any(self.open_when_away()))
            flag.set()

    def test_not_one_whose_token_a_site_here_has_had_since(self) -> None:
        """A clone of the folder passed it on, and both would number red messages."""
        self.other.ledger.turn = 1
        self.assertFalse(any(self.open_when_away()))

    def test_not_one_that_has_seen_another_process_of_it(self) -> None:
        """A clone of the folder ran meanwhile, or runs, and the server goes away before the site is stopped for that."""
        for seen in (answers(life="2 b"), answers(statuses={0: {"by": "boot me:1 clone:0", "told": 1.0}})):
            self.setUp()
            del self.shop.sites[1]
            done(Publisher(self.shop.link, self.site)._compare(), seen, upto=2 if seen[State].life else None)
            self.assertFalse(any(self.open_when_away()) or self.site.fenced_by)

    def test_alone_it_opens(self) -> None:
        shop = Supervisor(OverServer, 1, is_alone=True)
        shop.begin_site(shop.sites[0], None)
        self.assertTrue(shop.sites[0].opened.is_set)


class Compared(unittest.TestCase):
    """Site 0 and its stream, and what site 1 says, which runs elsewhere."""

    def test_its_life_is_seen_where_its_stream_ends_as_it_was_compared(self) -> None:
        """Another process of the site may have appended something meanwhile; once the life is seen, that can't append any more."""
        shop = Supervisor(OverServer, 1)
        self.assertIn(SeeLife(0, "", "1 a", (0, 0), "me:1"), done(Publisher(shop.link, shop.sites[0]).run(), answers()))
        self.assertTrue(shop.sites[0].opened.is_set)

    def test_why_has_the_name_of_the_server_as_it_is(self) -> None:
        """An address of IPv6 may have a zone, and a percent sign before it."""
        shop = Supervisor(OverServer, 1)
        shop.link.over = "redis://[fe80::1%25eth0]/auction"
        publisher = Publisher(shop.link, shop.sites[0])
        self.assertIn("%25eth0]/auction has another packet 3-0 of it", publisher._other_packet((3, 0)))
        done(publisher.run(), answers(greatest=(3, 0)))
        self.assertIn("%25eth0]/auction had its packet 3-0, and its folder ends with 0-0", shop.sites[0].fenced_by or "")

    def test_what_others_know_stops_each_later_start_too(self) -> None:
        site = published(answers(greatest=(3, 0)))
        self.assertEqual(site.fenced_by, "the server had its packet 3-0, and its folder ends with 0-0 (shop rebuild 0)")
        self.assertEqual(site.written, site.fenced_by)

    def test_another_folder_that_has_it_may_go_and_so_may_a_shop_of_another_number_of_sites(self) -> None:
        other: list[tuple[type, Any, str]] = [(Owner, "other:1 elsewhere:0", "elsewhere:0 has it"), (Sites, 3, "the server is a shop with --sites 3")]
        for step, said, why in other:
            site = published(answers() | {step: said})
            self.assertIn(why, site.fenced_by or "")
            self.assertIsNone(site.written)
            self.assertEqual(site.shop.forgotten, [0])      # a start that can't see that doesn't take the folder for the last one that was asked

    def test_the_token_of_a_later_turn_is_elsewhere(self) -> None:
        site = published(answers(statuses={1: {"has": {"0": 0}, "turn": 2}}))
        self.assertEqual(site.fenced_by, "site 1 has had the token of turn 2, and its folder holds that of turn 0 (shop rebuild 0)")

    def test_one_that_was_here_waits_for_the_others_where_the_server_knows_nothing(self) -> None:
        """Its folder may be lost, and the server may have lost all: then it looks new."""
        site = published(answers(here="1 b"))
        self.assertFalse(site.opened.is_set or site.fenced_by)
        self.assertEqual(site.silent, [1])
        for known in (answers(here="1 b", statuses={1: {"has": {"0": 0}, "turn": 0}}), answers()):
            self.assertTrue(published(known).opened.is_set)
        site = published(answers(here="1 b", statuses={1: {"has": {"0": 0}, "greatest": {"0": 3}, "turn": 0}}))
        self.assertEqual(site.fenced_by, "site 1 has 3 messages of it, and its folder has 0 (shop rebuild 0)")

    def test_what_a_status_says_is_what_is_compared(self) -> None:
        """Of messages the greatest number, also behind a gap, and to whom the site gave the token."""
        site = Supervisor(OverServer, 2).sites[1]
        site.ledger.have[0].add(3)
        site.ledger.turn, site.ledger.gave[0] = 6, (2, 6)
        status = json.loads(json.dumps(site.shop.status_of(site)))
        self.assertEqual(said_in_status(status, 1, 0), Said(1, 3, 6, [2, 6]))
        self.assertEqual(said_by(site.ledger, 0), Said(1, 3, 6, (2, 6)))

    def test_a_process_elsewhere_is_heard_whose_place_a_folder_here_took(self) -> None:
        """It may go on for a second, and knows what the server has lost, and so the folder here too."""
        shop = Supervisor(OverServer, 2)
        done(Publisher(shop.link, shop.sites[0]).run(), answers(statuses={1: {"has": {"0": 3}, "turn": 0}}))
        self.assertEqual(shop.sites[0].fenced_by, "site 1 has 3 messages of it, and its folder has 0 (shop rebuild 0)")

    def test_where_the_server_may_have_lost_its_end_the_others_have_some_time_to_say_what_they_have(self) -> None:
        """They run, and make their connections again; the site's folder may have lost its end too."""
        shop = Supervisor(OverServer, 1)
        site, steps = shop.sites[0], Publisher(shop.link, shop.sites[0]).run()
        done(steps, answers(life="1 a"))
        self.assertEqual((site.opened.is_set, site.silent), (False, [1]))
        shop.time = HEARD_SECONDS
        done(steps, answers(life="1 a"))
        self.assertTrue(site.opened.is_set)
        self.assertTrue(published(answers(life="1 a", statuses={1: {"has": {"0": 0}, "turn": 0}})).opened.is_set)

    def test_one_that_lacks_nothing_waits_for_nobody(self) -> None:
        shop = Supervisor(OverServer, 1)
        shop.begin_site(shop.sites[0], 100)
        done(Publisher(shop.link, shop.sites[0]).run(), answers(life="1 a"))
        self.assertTrue(shop.sites[0].opened.is_set)

    def test_what_it_waits_for_others_are_told_too(self) -> None:
        """Two machines of which each lost all that its memory had would wait for each other."""
        site = published(answers(here="1 b"))
        site.state = SiteState.UP
        self.assertEqual(site.shop.link.own_sites(), [site])
        self.assertEqual(site.shop.status_of(site)["state"], "waiting")
