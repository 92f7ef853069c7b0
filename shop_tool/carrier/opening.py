"""May a site take asks? What is decided of what the others have of it."""

from collections.abc import Callable, Collection, Iterable, Mapping, Sequence
from typing import Any, NamedTuple

from .ledger import Ledger, Place
from .lives import Standing
from .records import token_of

HEARD_SECONDS = 6.0     # until then a supervisor that runs has made its connections again, and has said how its sites are


class Said(NamedTuple):
    """What a site, or its stream, says of another one: the greatest number of its messages; the last turn of the token that the first had; and
    the turns at which it passed that on to the other one, the last two of them at least."""

    by: int
    greatest: int
    turn: int
    gave: Collection[int]


def said_by(ledger: Ledger, of: int) -> Said:
    return Said(ledger.site, ledger.have[of].greatest, ledger.turn, ledger.gave[of])


def said_in_status(status: Mapping[str, Any], by: int, of: int) -> Said:
    """A version of before says only how many messages it has without a gap, and nothing of whom it gave the token."""
    greatest, gave = status.get("greatest", status["has"]), status.get("gave", {})
    return Said(by, greatest.get(str(of), 0), status["turn"], gave.get(str(of), ()))


def said_in_packets(by: int, of: int, messages: Iterable[tuple[int, bytes]], tokens: Iterable[bytes]) -> Said:
    """What its files or its stream have: messages of the other one, with their numbers, and tokens that it took or passed on."""
    turns = [token for text in tokens if (token := token_of(text))]
    return Said(by, max((number for number, _ in messages), default=0), max((token.turn for token in turns), default=0),
                [token.turn for token in turns if token.to == of])


def must_compare_all(standing: Standing, is_alone: bool) -> bool:
    """Whether each packet that the others have has to be compared. Else what they have is the beginning of what the folder had when it
    was last seen, and it is enough to count; but for one that took asks since at the operator's risk."""
    return standing is Standing.AHEAD or is_alone


def must_hear_all(is_forgotten: bool, was_here: bool, has_all: bool, is_alone: bool, seconds: float) -> bool:
    """Whether each site elsewhere has to say first what it has of a site whose folder may lack something, and which has looked for that on the
    server for so long. If the server knows nothing of a site that was here before, it has lost what it knew, and what the folder lacks may be
    anywhere. If it knows something, it may have lost the end of that just now, and with it how the sites elsewhere are: those that run say
    it again in time."""
    return not has_all and not is_alone and (was_here if is_forgotten else seconds < HEARD_SECONDS)


def why_behind(site: int, own: int, said: Sequence[Said]) -> str | None:
    """Why a site can't go on whose folder has so many messages of its own: another site has more of them."""
    most = max(said, key=lambda its: its.greatest, default=None)
    if not most or most.greatest <= own:
        return None
    return f"site {most.by} has {most.greatest} messages of it, and its folder has {own} (shop rebuild {site})"


def why_passed_on(site: int, last: int, holds: bool, said: Sequence[Said]) -> str | None:
    """Why a site can't go on whose folder had the token last at that turn, and holds it or has passed it on: it has passed on a later turn. A
    token doesn't say who sent it. But whoever has it at a turn has passed it on once somebody has had a later one: the site of a folder that
    holds it, or one to which another site gave it."""
    latest = max(said, key=lambda its: its.turn, default=None)
    if not latest or latest.turn <= last:
        return None
    lost = min((turn for its in said for turn in its.gave if last < turn < latest.turn), default=None)
    what = f"holds that of turn {last}" if holds else f"doesn't know that it had that of turn {lost}" if lost else None
    return f"site {latest.by} has had the token of turn {latest.turn}, and its folder {what} (shop rebuild {site})" if what else None


def why_other_count(over: str, there: int, here: int) -> str | None:
    """Why a folder can't be of the shop on a server: that has another number of sites, so neither would take the other's messages."""
    return f"{over} is a shop with --sites {there}, and this folder has --sites {here}" if there != here else None


def strange_packet(entries: Iterable[tuple[Place, bytes]], sent: Callable[[Place], bytes | None]) -> Place | None:
    """The first packet that others have of a site and that isn't the one that its folder sent at that place."""
    return next((place for place, text in entries if sent(place) != text), None)
