"""Reads of a site here, by questions, which leave nothing: rows, pages and listings. An older program keeps a listing as a record."""

import asyncio
import collections
import contextlib
import re
import time
from typing import TYPE_CHECKING

from .carrier.answers import Answer
from .carrier.records import COLUMNS, REFUSALS, Purpose, bare, bytes_of, fields_of, line_of, row_of, text_of
from .carrier.site import Pending
from .ends import Fault, Status
from .requests import message_of
from .signals import waited
from .site import KeptSite

if TYPE_CHECKING:
    from .supervisor import Supervisor

AT_ONCE = 4                 # how many long answers are made at once, since each is in memory whole
ASKS_TO_READS = 2           # how much more of a site's time asks have than long answers, where both are wanted
IDLE_SECONDS = 0.05         # a site that was given no record for so long isn't wanted by asks
TURNED = 1000               # of how many listings it is known where the last page ended
STATE = b"?state"
NAME = re.compile(r"[0-9.]{1,24}")      # of a row: an id or a number, or two numbers


class NoForm(Exception):
    """The row can't be had by a question: the program knows no such one, or the key is none, or what it is of has changed just then."""


class Reads:
    def __init__(self, shop: "Supervisor") -> None:
        self.shop = shop
        self._long = asyncio.Semaphore(AT_ONCE)
        self._turns = {number: asyncio.Lock() for number in range(shop.settings.sites)}
        self._rests: dict[int, float] = {}      # until when a site's time is its askers'
        # Of the listings of which pages were read last: the name of the last page's last row, and its place.
        self._turned: collections.OrderedDict[tuple[int, bytes], tuple[str, int]] = collections.OrderedDict()

    async def listings(self, site: KeptSite, listings: list[bytes], seconds: float) -> list[list[str]]:
        """The rows of listings, which are taken at one moment."""
        is_asked = self.shop.asks_questions
        records = [b"?" + listing if is_asked else listing for listing in listings]
        found, until, turn = [], time.monotonic() + seconds, self._turns[site.number]
        try:
            async with asyncio.timeout(seconds):
                await turn.acquire()
                try:
                    await self._rest(site)
                    await self._long.acquire()
                except BaseException:
                    turn.release()
                    raise
        except TimeoutError:
            raise Fault(Status.AWAY, f"site {site.number}: other long listings are being made, and its turn didn't come "
                        f"within {round(seconds, 2):g} s") from None
        began, pending = time.monotonic(), list[Pending]()
        try:
            for listing, answer in zip(listings, await self._answers(site, records, max(until - time.monotonic(), 0.001), pending)):
                if answer.refusal:
                    raise Fault(Status.REFUSED, f"{text_of(listing)}: {REFUSALS['BadRecord']}")
                found.append([text_of(line) for line in answer.lines[1:]])
        finally:
            self.shop.task(self._made(site, pending, began), is_needed=False)
        return found

    async def _rest(self, site: KeptSite) -> None:
        """Leaves the site to its askers for as long as the last long listing is to be made up for, or until they want nothing."""
        while (left := self._rests.get(site.number, 0.0) - time.monotonic()) > 0:
            before = site.ledger.records
            await asyncio.sleep(min(left, IDLE_SECONDS))
            if site.ledger.records == before and all(each.is_question for each in site.line):
                return

    async def _made(self, site: KeptSite, pending: list[Pending], began: float) -> None:
        """Lets the next long listing begin once these are made: the site makes them too where nobody waits any more."""
        try:
            while any(not each.done.is_set and each in site.line for each in pending):
                await waited(pending[-1].done, 1.0)
        finally:
            now = time.monotonic()
            self._rests[site.number] = now + ASKS_TO_READS * (now - began)
            self._long.release()
            self._turns[site.number].release()

    async def row(self, site: KeptSite, table: str, key: str, seconds: float) -> str | None:
        """One row of a table by its key; of `nickname` a user's."""
        if self.shop.asks_questions:
            with contextlib.suppress(NoForm):
                return await self._row_asked(site, table, key, seconds)
        listing = await self._listing_with(table, key)
        rows, = await self.listings(site, [listing], seconds) if listing else [[]]
        column = "nickname" if table == "nickname" else COLUMNS[table][0]
        return next((line for line in rows if str(row_of(line)[column]) == key), None)

    async def _row_asked(self, site: KeptSite, table: str, key: str, seconds: float) -> str | None:
        """One row by a question."""
        answer, = await self._answers(site, [bytes_of(line_of(["?row", table, key]))], seconds)
        if answer.refusal:
            raise NoForm
        line = None if answer.lines[0] == b"?none" else text_of(answer.lines[0][1:])
        if line is None or not line.startswith("row,nickname,"):
            return line
        # It has the user with that nickname, who may have another one by the time of the second question.
        user = await self._row_asked(site, "user", fields_of(line)[3], seconds)
        if user is None or row_of(user)["nickname"] != key:
            raise NoForm
        return user

    async def page(self, site: KeptSite, listing: bytes, after: str | None, most: int, seconds: float) -> tuple[list[str], str | None]:
        """The rows of a listing behind the one of this name, at most `most` of them; and the name of the last of them, if more come."""
        if self.shop.asks_questions:
            with contextlib.suppress(NoForm):
                return await self._page_asked(site, listing, after, most, seconds)
        rows, = await self.listings(site, [listing], seconds)
        names = [name_of(line) for line in rows]
        if after is not None and after not in names:
            raise no_row(after, listing)
        begin = 0 if after is None else names.index(after) + 1
        end = begin + most
        return rows[begin:end], names[end - 1] if end < len(rows) else None

    async def _page_asked(self, site: KeptSite, listing: bytes, after: str | None, most: int, seconds: float) -> tuple[list[str], str | None]:
        """A page by a question. The row that it begins behind is looked for from where it stood when the page before was read: a row's place
        never falls."""
        if after is not None and not NAME.fullmatch(after):
            raise no_row(after, listing)
        name, place = self._turned.get((site.number, listing), ("", 0))
        place = place if after == name else 0
        answer, = await self._answers(site, [b"?" + bytes_of(line_of(["page", str(most + 1), str(place), after or ""])) + b"," + listing], seconds)
        if answer.refusal == "NoRow":
            raise no_row(after or "", listing)
        if answer.refusal:
            raise NoForm
        rows = [text_of(line) for line in answer.lines[1:most + 1]]
        if len(answer.lines) - 1 <= most:
            self._turned.pop((site.number, listing), None)
            return rows, None
        last = name_of(rows[-1])
        self._turned[site.number, listing] = last, place + len(rows) - (after is None)
        self._turned.move_to_end((site.number, listing))
        if len(self._turned) > TURNED:
            self._turned.popitem(last=False)
        return rows, last

    async def settle(self, site: KeptSite, seconds: float) -> None:
        """Returns once whatever was given to the site before is answered."""
        await self._answers(site, [STATE if self.shop.asks_questions else b"list,misfits"], seconds)

    async def _answers(self, site: KeptSite, records: list[bytes], seconds: float, given: list[Pending] | None = None) -> list[Answer]:
        """The answers to questions that are asked at one moment; what was `given` for that is told, if a list is there for it."""
        pending = site.give(records, Purpose.QUESTION if self.shop.asks_questions else Purpose.LISTING)
        if given is not None:
            given.extend(pending)
        try:
            if not await waited(pending[-1].done, seconds):
                raise Fault(Status.AWAY, f"site {site.number} is {site.state}, and gave no answer within {round(seconds, 2):g} s")
            return [each.result() for each in pending]
        finally:
            site.leave(pending)

    async def _listing_with(self, table: str, key: str) -> bytes | None:
        """The listing that has a row: the message that made it says which; None where no such message was sent."""
        if table in ("user", "nickname", "category"):
            return b"list,categories" if table == "category" else b"list,users"
        name = message_of({"id": key}, self.shop.settings.sites)
        message = await self.shop.link.message(*name) if name else None
        shadow = fields_of(text_of(bare(message)))[6:] if message else [""]
        match table, shadow[0]:
            case "item", "item":
                return bytes_of(f"list,items,{shadow[3]}")
            case "bid", "bid":
                return bytes_of(f"list,bids,{shadow[1]}")
            case "purchase", "buy":
                return bytes_of(f"list,purchases,{shadow[1]}")
            case "comment", "comment":
                return bytes_of(f"list,comments,{shadow[3]}")
        return None


def no_row(name: str, listing: bytes) -> Fault:
    return Fault(Status.MISUSE, f"there is no row {name!r} in {text_of(listing)}")


def name_of(line: str) -> str:
    """What tells a row apart from the others of its listing."""
    fields = line.split(",", 4)
    return f"{fields[2]}.{fields[3]}" if fields[1] == "misfit" else fields[2]
