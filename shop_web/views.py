"""What pages ask for, read from the view of a site; and the process that keeps that up to date."""

import asyncio
import contextlib
import json
import os
import re
import sqlite3
import sys
import threading
import time
import urllib.parse
from collections.abc import Callable
from typing import Any, NamedTuple, TypeVar

from shop_tool.carrier.records import COLUMNS, LISTINGS

from .problems import Problem
from .rows import Page

LOOK_SECONDS = 0.01         # how often it is looked whether a view has a message that somebody waits for
AGAIN_SECONDS = 1.0         # after which its writer is started again
STEPS = 10_000              # of SQLite's machine, after which it is looked whether a query takes too long
SORTS = ("-entry", "entry", "-amount", "amount", "-price", "price")
SELLER = "seller"
# What is listed of a user, and by which column.
OF_USERS = {"items": SELLER, "bids": "bidder", "purchases": "buyer", "comments": "from"}

Found = TypeVar("Found")


class Stand(NamedTuple):
    """How far a view is."""

    messages: int           # that it has
    counts: list[int]       # of each site
    behind: int             # bytes of its site's answers that it has yet to read


class Listing(NamedTuple):
    """Rows of one table: those of which all of `where` holds, in an order."""

    table: str
    where: dict[str, str | int]         # the values of columns
    words: list[str] = []               # of which names have each, or begin so; of items alone
    sort: str = "-entry"

    def page(self, db: sqlite3.Connection, after: str | None, limit: int) -> Page:
        """The rows behind the one at which a page ended, at most so many."""
        is_falling, column = self.sort.startswith("-"), self.sort.lstrip("-")
        entry = "names.rowid" if self.words else f"{self.table}.entry"
        order = [entry] if column == "entry" else [f"{self.table}.{column}", entry]
        conditions, values = [f'{self.table}."{name}" = ?' for name in self.where], list(self.where.values())
        if self.words:
            conditions.append("names MATCH ?")
            values.append(" ".join(f'"{word}"*' for word in self.words))
        if after is not None:
            conditions.append(f"({', '.join(order)}) {'<' if is_falling else '>'} ({', '.join('?' * len(order))})")
            values += place_of(after, len(order))
        columns = [f"{self.table}.*", *(["items.*"] if self._has_items else [])]
        source = "names JOIN items ON items.entry = names.rowid" if self.words else self.table
        source += f" LEFT JOIN items ON items.id = {self.table}.item" if self._has_items else ""
        text = f"SELECT {', '.join(columns)} FROM {source}" + (f" WHERE {' AND '.join(conditions)}" if conditions else "")
        text += f" ORDER BY {', '.join(f'{each} DESC' if is_falling else each for each in order)} LIMIT ?"
        found = db.execute(text, [*values, limit + 1]).fetchall()
        rows = [self._row(values) for values in found[:limit]]
        return Page(rows, None if len(found) <= limit else ".".join(str(rows[-1][name]) for name in dict.fromkeys((column, "entry"))))

    @property
    def _has_items(self) -> bool:
        return self.table in ("bids", "purchases", "comments")

    def _row(self, values: tuple[Any, ...]) -> dict[str, Any]:
        """A row, with that of its item beside it; None where that isn't there."""
        kind = LISTINGS[self.table]
        row, rest = row_of(kind, values)
        return row | {"item_row": row_of("item", rest)[0] if rest[0] is not None else None} if self._has_items else row


def row_of(kind: str, values: tuple[Any, ...]) -> tuple[dict[str, Any], tuple[Any, ...]]:
    """A row of a table by the names of its columns, and the values behind it."""
    entry, *own = values[:len(COLUMNS[kind]) + 2]
    return {"kind": kind, **dict(zip([*COLUMNS[kind], "seen"], own)), "entry": entry}, values[len(COLUMNS[kind]) + 2:]


def place_of(after: str, parts: int) -> list[int]:
    """Where a page ended."""
    if not re.fullmatch(r"\.".join([r"[0-9]{1,13}"] * parts), after):
        raise Problem("BadRequest", "`after` is the `next` of a page that was listed so")
    return [int(part) for part in after.split(".")]


def words_of(text: str) -> list[str]:
    """The words that are searched for."""
    if not (words := re.findall(r"[0-9A-Za-z]+", text)):
        raise Problem("BadRequest", "`q` has no word in it")
    return words


class View:
    """The view of one site, as requests read it."""

    def __init__(self, path: str, folder: str, site: int) -> None:
        self.path, self.folder, self.site = path, folder, site
        self._of_thread = threading.local()

    async def read(self, seconds: float, query: Callable[[sqlite3.Connection], Found]) -> Found:
        """What a query finds at one moment; a Problem where it takes too long, or the view can't be read."""
        until = time.monotonic() + seconds
        return await asyncio.to_thread(lambda: self._read(until, query))

    def _read(self, until: float, query: Callable[[sqlite3.Connection], Found]) -> Found:
        try:
            db = self._opened()
            db.set_progress_handler(lambda: time.monotonic() > until, STEPS)
            db.execute("BEGIN")
            try:
                return query(db)
            finally:
                db.rollback()
        except sqlite3.Error as fault:
            self._of_thread.db = None
            raise Problem("Away", f"the view of site {self.site} can't be read: {fault}") from fault

    def _opened(self) -> sqlite3.Connection:
        """This thread's connection to the file that stands there now."""
        try:
            now = os.stat(self.path).st_ino
        except OSError as fault:
            raise Problem("Away", f"the view of site {self.site} isn't there yet") from fault
        known: sqlite3.Connection | None = getattr(self._of_thread, "db", None)
        if known is None or self._of_thread.file != now:
            known = sqlite3.connect(f"file:{urllib.parse.quote(self.path)}?mode=ro", uri=True, isolation_level=None)
            self._of_thread.db, self._of_thread.file = known, now
        return known

    async def stand(self, seconds: float) -> Stand:
        return await self.read(seconds, self._stand)

    def _stand(self, db: sqlite3.Connection) -> Stand:
        messages, counts, read = db.execute("SELECT messages, counts, out_bytes FROM stands").fetchone()
        with contextlib.suppress(OSError):
            return Stand(messages, json.loads(counts), max(os.path.getsize(f"{self.folder}/{self.site}/out") - read, 0))
        return Stand(messages, json.loads(counts), 0)

    async def page(self, listing: Listing, after: str | None, limit: int, seconds: float) -> tuple[Page, Stand]:
        return await self.read(seconds, lambda db: (listing.page(db, after, limit), self._stand(db)))

    async def user(self, key: str, seconds: float) -> str:
        """The id of a user by its id or nickname."""
        if "." in key:
            return key

        def query(db: sqlite3.Connection) -> list[tuple[str]]:
            return db.execute("SELECT user FROM nicknames WHERE nickname = ?", (key,)).fetchall()
        for user, in await self.read(seconds, query):
            return user
        raise Problem("NotFound", f"site {self.site} has no user {key}")

    async def has(self, origin: int, number: int, seconds: float) -> bool:
        """Whether the view has a message within some time."""
        end = time.monotonic() + seconds
        while (await self.stand(seconds)).counts[origin] < number:
            if time.monotonic() > end:
                return False
            await asyncio.sleep(LOOK_SECONDS)
        return True


async def write(view: View, tell: Callable[[str], None]) -> None:
    """Has a process of its own keep the view up to date, until this is cancelled; it ends too where this process is killed."""
    words = [os.path.realpath(sys.argv[0]), "-C", view.folder, "view", view.path, "--site", str(view.site), "--with-parent"]
    said = ""
    while True:
        writer = await asyncio.create_subprocess_exec(sys.executable, *words, stdin=asyncio.subprocess.DEVNULL, stdout=asyncio.subprocess.DEVNULL,
                                                      stderr=asyncio.subprocess.PIPE)
        try:
            _, told = await writer.communicate()
        except asyncio.CancelledError:
            with contextlib.suppress(ProcessLookupError):
                writer.kill()
            raise
        text = told.decode("utf-8", "replace").strip() or f"its writer ended with status {writer.returncode}"
        if text != said:
            tell(text.removeprefix("shop: "))
        said = text
        await asyncio.sleep(AGAIN_SECONDS)
