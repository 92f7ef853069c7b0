"""Puts faults back, one at a time, so that it is known that they are found: each takes one rule out."""

from contextlib import ExitStack
from typing import Any
from unittest import mock

from shop_tool.carrier.asking import Ask
from shop_tool.carrier.files import Files
from shop_tool.carrier.lives import Standing
from shop_tool.carrier.opening import must_hear_all
from shop_tool.carrier.over_server import ServerLink
from shop_tool.carrier.rebuilding import Given
from shop_tool.carrier.records import Purpose, bare, why_not_one_record
from shop_tool.carrier.shop import Shop
from shop_tool.carrier.site import Site
from shop_tool.carrier.sums import compared

from .world import Rules

# Where records are looked at before a site is given them.
LOOKS = ("shop_tool.carrier.site", "shop_tool.carrier.shop", "shop_tool.requests")

feed, stands = Shop.feed, Ask._stands

# What is replaced of the carrier, or of the harness, where a rule is taken out.
RULES: dict[str, list[Any]] = {
    "1": [mock.patch("shop_tool.carrier.over_server.is_called", lambda *_: True)],
    "2": [mock.patch.object(ServerLink, "goes_on", lambda _: True), mock.patch.object(Rules, "swallowed_cancel_ends", False)],
    "3": [mock.patch("shop_tool.carrier.reader.to_search", lambda *_: [])],
    "4": [mock.patch.object(Shop, "begin_site", lambda shop, site, answered: shop._opened(site, answered or 0))],
    "5": [mock.patch(f"{name}.why_not_one_record", lambda *_: None) for name in LOOKS],
    "6": [mock.patch(f"{name}.why_not_one_record", lambda record, purpose=Purpose.ASK: None if record.startswith(b"\xef")
                     else why_not_one_record(record, purpose)) for name in LOOKS],
    "7": [mock.patch.object(Site, "sent", lambda site, begin, end: [text for _, text in site.ledger.sends.read(begin, end)]),
          mock.patch.object(Files, "why_lost", lambda *_: None)],
    "9": [mock.patch("shop_tool.carrier.sums.compared", lambda lines, sums: (compared(lines, sums)[0], None))],
    "9-lives": [mock.patch(f"shop_tool.carrier.{name}.standing", lambda *_: Standing.NEXT) for name in ("publisher", "over_files")],
    "11": [mock.patch.object(Rules, "hands_over", False)],
    "hear": [mock.patch("shop_tool.carrier.publisher.must_hear_all", lambda is_forgotten, *more: is_forgotten and must_hear_all(is_forgotten, *more))],
    "packet-key": [mock.patch.object(Shop, "feed", lambda shop, site, packets: feed(shop, site, [*map(bare, packets)]))],
    "rebuilt-key": [mock.patch("shop_tool.carrier.rebuilding.Given", lambda record, packet: Given(bare(record), packet and bare(packet)))],
    "again-stands": [mock.patch.object(Ask, "_stands", lambda ask, answer, is_last: iter(()) if answer.kind == b"again" or answer.refusal == "KeyTaken"
                                       else stands(ask, answer, is_last))],
    "told-number": [mock.patch.object(Site, "numbered", lambda site: ((pending, site.ledger.records + 1) for pending in site.line))],
    "standby-told": [mock.patch.object(Ask, "_stands", lambda *_: iter(()))],
    "turns": [mock.patch("shop_tool.carrier.shop.why_passed_on", lambda *_: None)],
}


def taken_out(rule: str | None) -> ExitStack:
    """While this is open the rule is out."""
    stack = ExitStack()
    for patch in RULES[rule] if rule else []:
        stack.enter_context(patch)
    return stack
