"""Rows and pages of a site, as a shop that runs has them. All reads of this package go through here."""

from typing import Any, NamedTuple

from shop_tool.carrier.records import Purpose, Row, bytes_of, row_of, why_not_one_record
from shop_tool.client import member
from shop_tool.ends import Fault, Status

from .line import Line

MOST_ROWS, FEW_ROWS = 10_000, 100       # of a page, and of one that doesn't say how many


class Page(NamedTuple):
    """Some rows of a listing in its order, and where the next page begins; None if there is none."""

    rows: list[Row]
    next: str | None


# What is listed under each name, the kind of its rows, and the field of the listing, if it has one.
TABLES: dict[str, tuple[str, str | None]] = {
    "users": ("user", None), "items": ("item", "category"), "bids": ("bid", "item"), "purchases": ("purchase", "item"),
    "comments": ("comment", "to"), "categories": ("category", None), "misfits": ("misfit", None),
}


def listing_of(name: str, field: str | None = None) -> str:
    return ",".join(["list", name] + ([] if field is None else [field]))


LOG = "list,log"


class Rows:
    def __init__(self, line: Line) -> None:
        self._line = line

    async def page(self, site: int, listing: str, after: str | None, limit: int, seconds: float) -> Page:
        """The rows behind the one that `after` names, that many at most."""
        if why := why_not_one_record(bytes_of(listing), Purpose.LISTING):
            raise Fault(Status.MISUSE, f"{listing[:80]!r}: {why}; nothing was asked")
        request = {"op": "page", "site": site, "record": listing, "after": after, "most": limit, "timeout": seconds}
        try:
            said = await self._line.one(request)
        except Fault as fault:
            raise Fault(Status.MISUSE, fault.text) if fault.status == Status.REFUSED else fault from None
        return Page([log_row(line) if line.startswith("row,log,") else row_of(line) for line in member(said, "rows")], member(said, "next"))

    async def row(self, site: int, kind: str, key: str, seconds: float) -> Row | None:
        """One row by its id, a category by its number, and a user by its nickname too."""
        table = "nickname" if kind == "user" and "." not in key else kind
        line = member(await self._line.one({"op": "row", "site": site, "table": table, "key": key, "timeout": seconds}), "row")
        return row_of(line) if line else None


def log_row(line: str) -> Row:
    """An entry of a site's log by the names of its fields."""
    _, _, entry, text = line.split(",", 3)
    fields = text.split(",", 6)
    row: dict[str, Any] = {"kind": "log", "entry": int(entry), "id": f"{fields[2]}.{fields[3]}", "red": int(fields[4]), "deps": fields[5],
                           "shadow": fields[6], "message": text}
    return row
