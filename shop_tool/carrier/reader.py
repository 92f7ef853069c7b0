"""Gives one site what the streams of the others have. No position is stored: what a site has kept is where it reads on."""

from collections.abc import Iterable, Sequence
from typing import TYPE_CHECKING

from ..ends import Fault
from .ledger import NOWHERE, Place
from .over_files import BATCH, FULL_WAIT
from .records import token_of
from .site import Site
from .steps import Mark, Marks, Packets, PageOf, Read, Steps, Wait

if TYPE_CHECKING:
    from .over_server import ServerLink

BLOCK_SECONDS = 2.0         # how long one read waits
HOLE_SECONDS = 1.0          # how long a reader waits for entries that are missing, before it reads them again


def to_search(seen: Sequence[Mark] | None, now: Sequence[Mark]) -> list[int]:
    """The streams in which an entry may stand behind a reader that it didn't read: all when it starts, since its site may have had later
    messages from elsewhere; then those that have another mark."""
    return [site for site, mark in enumerate(now) if seen is None or seen[site] != mark]


def passes_to(site: int, turn: int, texts: Iterable[bytes]) -> list[bytes]:
    """The tokens for a site, of turns above the one that it had last, in their order."""
    tokens = [(token.turn, text) for text in texts if (token := token_of(text)) and token.to == site]
    return [text for its, text in sorted(tokens) if its > turn]


def tokens_in(origin: int, upto: Place | None = None) -> Steps[list[bytes]]:
    """The tokens that stand in a stream, up to a place."""
    tokens: list[bytes] = []
    after = NOWHERE
    while (upto is None or after < upto) and (page := (yield PageOf(origin, after, upto))).entries:
        tokens += page.tokens
        after = page.last
    return tokens


class Reader:
    def __init__(self, link: "ServerLink", site: Site) -> None:
        self.link, self.site = link, site
        self.name = f"read {site.number}"
        self.holes: set[Place] = set()
        self.marks: Sequence[Mark] | None = None    # of the streams, as they were when tokens were last looked for in them

    def start(self) -> dict[int, Place]:
        """Where it reads on in the stream of each other site: behind the messages that its site has without a gap."""
        return {origin: (have.upto, 0) for origin, have in enumerate(self.site.ledger.have) if origin != self.site.number}

    def run(self) -> Steps[None]:
        site = self.site
        yield Wait(site.opened)
        yield Wait(site.up)
        at, self.marks = self.start(), None
        while at and not site.fenced_by and not self.link.is_over:
            yield Wait(site.up)
            try:
                if self.marks != self.link.marks:
                    yield from self._look_behind(at)
                found: dict[int, Packets] = yield Read(at, BATCH, BLOCK_SECONDS)
                self.link.works(self.name)
                packets, has_hole = [], False
                for origin, entries in found.items():
                    has_hole = self._has_hole(origin, at[origin], [place for place, _ in entries]) or has_hole
                    packets += [text for _, text in entries]
                    at[origin] = entries[-1][0]
                    self.link.tops[origin] = max(self.link.tops[origin], entries[-1][0][0])
                if not (yield from site.shop.feed(site, packets)):
                    yield Wait(None, FULL_WAIT)
                    at = self.start()
            except Fault:
                return      # the site has ended
            if has_hole:
                # Its origin publishes it all again, once it runs.
                yield Wait(None, HOLE_SECONDS)
                at = self.start()

    def _look_behind(self, at: dict[int, Place]) -> Steps[None]:
        """Gives the site the tokens that stand where it doesn't read any more."""
        site, marks = self.site, (yield Marks())
        for origin in to_search(self.marks, marks):
            if origin in at and (tokens := passes_to(site.number, site.ledger.turn, (yield from tokens_in(origin, at[origin])))):
                yield from site.shop.feed(site, tokens)
        self.marks = marks

    def _has_hole(self, origin: int, before: Place, places: list[Place]) -> bool:
        """Whether a message is missing between these, which happens only where entries were deleted."""
        for place in places:
            if place[0] > before[0] + 1:
                if (origin, place[0]) not in self.holes:
                    self.holes.add((origin, place[0]))
                    self.site.shop.event("link: the stream of site %d has nothing between %d-%d and %d-%d" % (origin, *before, *place))
                return True
            before = place
        return False
