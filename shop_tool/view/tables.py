"""What each message does to the tables of a view: a second fold, which isn't proved. The first one is `rubis_shadow`'s, with the same parts:
each is done or a misfit, also where no request can have led to it. No sum comes near the ends of its type here."""

import sqlite3
from collections.abc import Callable

from ..carrier.records import Message, fields_of, text_of

TABLES = """\
CREATE TABLE users (entry INTEGER PRIMARY KEY, id TEXT NOT NULL UNIQUE, nickname TEXT NOT NULL, items INTEGER NOT NULL, bought INTEGER NOT NULL,
  rating INTEGER NOT NULL, comments INTEGER NOT NULL, seen TEXT);
CREATE TABLE items (entry INTEGER PRIMARY KEY, id TEXT NOT NULL UNIQUE, seller TEXT NOT NULL, name TEXT NOT NULL, category INTEGER NOT NULL,
  stock INTEGER NOT NULL, sold INTEGER NOT NULL, start INTEGER NOT NULL, price INTEGER NOT NULL, bids INTEGER NOT NULL, best TEXT,
  amount INTEGER NOT NULL, state TEXT NOT NULL, winner TEXT, seen TEXT);
CREATE TABLE bids (entry INTEGER PRIMARY KEY, id TEXT NOT NULL UNIQUE, item TEXT NOT NULL, bidder TEXT NOT NULL, amount INTEGER NOT NULL,
  red INTEGER NOT NULL, seen TEXT);
CREATE TABLE purchases (entry INTEGER PRIMARY KEY, id TEXT NOT NULL UNIQUE, item TEXT NOT NULL, buyer TEXT NOT NULL, quantity INTEGER NOT NULL,
  seen TEXT);
CREATE TABLE comments (entry INTEGER PRIMARY KEY, id TEXT NOT NULL UNIQUE, item TEXT NOT NULL, "from" TEXT NOT NULL, "to" TEXT NOT NULL,
  rating INTEGER NOT NULL, text TEXT NOT NULL, seen TEXT);
CREATE TABLE categories (category INTEGER PRIMARY KEY, items INTEGER NOT NULL, live INTEGER NOT NULL);
CREATE TABLE misfits (entry INTEGER NOT NULL, part INTEGER NOT NULL, id TEXT NOT NULL, kind TEXT NOT NULL, PRIMARY KEY (entry, part));
CREATE TABLE nicknames (nickname TEXT PRIMARY KEY, user TEXT NOT NULL) WITHOUT ROWID;
CREATE VIRTUAL TABLE names USING fts5 (name, content='items', content_rowid='entry');
CREATE INDEX items_by_seller ON items (seller);
CREATE INDEX items_by_category ON items (category, state);
CREATE INDEX items_by_amount ON items (amount);
CREATE INDEX items_by_price ON items (price);
CREATE INDEX bids_by_item ON bids (item);
CREATE INDEX bids_by_bidder ON bids (bidder);
CREATE INDEX purchases_by_item ON purchases (item);
CREATE INDEX purchases_by_buyer ON purchases (buyer);
CREATE INDEX comments_by_author ON comments ("from");
CREATE INDEX comments_by_user ON comments ("to");
"""


class Tables:
    """The tables of a view that is open for writing, and the place in the log of the last message that they have."""

    def __init__(self, db: sqlite3.Connection, entry: int) -> None:
        self._do, self.entry = db.execute, entry
        self._parts: dict[str, Callable[[str, int, list[str], str | None], None]] = {
            "user": self._user, "item": self._item, "bid": self._bid, "buy": self._buy, "close": self._close, "comment": self._comment,
            "restock": self._restock, "rename": self._rename}

    def add(self, message: Message, seen: str | None) -> None:
        """Does the parts of the next message of the log, which this machine saw at that time, if that is known."""
        self.entry += 1
        kind, *fields = fields_of(text_of(message.shadow))
        self._parts[kind](f"{message.origin}.{message.number}", message.red, fields, seen)

    def _misfit(self, part: int, name: str, kind: str) -> None:
        self._do("INSERT INTO misfits VALUES (?, ?, ?, ?)", (self.entry, part, name, kind))

    def _user(self, name: str, red: int, fields: list[str], seen: str | None) -> None:
        self._do("INSERT INTO users VALUES (?, ?, ?, 0, 0, 0, 0, ?)", (self.entry, name, *fields, seen))
        self._take_nickname(2, name, fields[0], name)

    def _item(self, name: str, red: int, fields: list[str], seen: str | None) -> None:
        seller, title, category, stock, start, price = fields
        self._do("INSERT INTO items VALUES (?, ?, ?, ?, ?, ?, 0, ?, ?, 0, NULL, 0, 'open', NULL, ?)",
                 (self.entry, name, seller, title, category, stock, start, price, seen))
        self._do("INSERT INTO names (rowid, name) VALUES (?, ?)", (self.entry, title))
        self._change_user(2, name, "UPDATE users SET items = items + 1 WHERE id = ?", (seller,))
        self._do("INSERT INTO categories VALUES (?, 1, 1) ON CONFLICT DO UPDATE SET items = items + 1, live = live + 1", (category,))

    def _bid(self, name: str, red: int, fields: list[str], seen: str | None) -> None:
        item, _, amount = fields
        self._do("INSERT INTO bids VALUES (?, ?, ?, ?, ?, ?, ?)", (self.entry, name, *fields, red, seen))
        self._change_item(2, name, item, """\
            UPDATE items SET bids = bids + 1, best = iif(amount < ?1, ?2, best), amount = max(amount, ?1)
            WHERE id = ?3 AND state = 'open'""", (int(amount), name, item))

    def _buy(self, name: str, red: int, fields: list[str], seen: str | None) -> None:
        item, buyer, quantity = fields
        self._do("INSERT INTO purchases VALUES (?, ?, ?, ?, ?, ?)", (self.entry, name, *fields, seen))
        self._change_item(2, name, item, """\
            UPDATE items SET stock = stock - ?1, sold = sold + ?1 WHERE id = ?2 AND state = 'open' AND stock >= ?1""", (int(quantity), item))
        self._change_user(3, name, "UPDATE users SET bought = bought + ? WHERE id = ?", (int(quantity), buyer))

    def _close(self, name: str, red: int, fields: list[str], seen: str | None) -> None:
        item, category, winner = fields
        self._change_item(1, name, item, "UPDATE items SET state = 'closed', winner = ? WHERE id = ? AND state = 'open'",
                          (None if winner == "none" else winner, item))
        self._do("INSERT INTO categories VALUES (?, 0, -1) ON CONFLICT DO UPDATE SET live = live - 1", (category,))

    def _comment(self, name: str, red: int, fields: list[str], seen: str | None) -> None:
        _, _, to, rating, _ = fields
        self._do("INSERT INTO comments VALUES (?, ?, ?, ?, ?, ?, ?, ?)", (self.entry, name, *fields, seen))
        self._change_user(2, name, "UPDATE users SET rating = rating + ?, comments = comments + 1 WHERE id = ?", (int(rating), to))

    def _restock(self, name: str, red: int, fields: list[str], seen: str | None) -> None:
        item, quantity = fields
        self._change_item(1, name, item, "UPDATE items SET stock = stock + ? WHERE id = ?", (int(quantity), item))

    def _rename(self, name: str, red: int, fields: list[str], seen: str | None) -> None:
        user, old, new = fields
        self._change_user(1, name, "UPDATE users SET nickname = ? WHERE id = ?", (new, user))
        if not self._do("DELETE FROM nicknames WHERE nickname = ? AND user = ?", (old, user)).rowcount:
            is_there = self._do("SELECT 1 FROM nicknames WHERE nickname = ?", (old,)).fetchone()
            self._misfit(2, name, "OtherUser" if is_there else "NoRow")
        self._take_nickname(3, name, new, user)

    def _take_nickname(self, part: int, name: str, nickname: str, user: str) -> None:
        if not self._do("INSERT OR IGNORE INTO nicknames VALUES (?, ?)", (nickname, user)).rowcount:
            self._misfit(part, name, "RowThere")

    def _change_user(self, part: int, name: str, change: str, values: tuple[str | int, ...]) -> None:
        if not self._do(change, values).rowcount:
            self._misfit(part, name, "NoRow")

    def _change_item(self, part: int, name: str, item: str, change: str, values: tuple[str | int | None, ...]) -> None:
        """Changes the row of an item; a misfit if there is none, or it isn't one that the change is for."""
        if not self._do(change, values).rowcount:
            found = self._do("SELECT state FROM items WHERE id = ?", (item,)).fetchone()
            self._misfit(part, name, "NoRow" if found is None else "ClosedItem" if found[0] == "closed" else "StockShort")
