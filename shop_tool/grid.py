"""The grid of a shop: how many messages of each site the others have, and what waits for what."""

import dataclasses
from collections.abc import Sequence
from typing import Any

from .carrier.release import Release, Stamped
from .render import columns

SHOWN = 3       # how many waiting messages a row of the text shows


@dataclasses.dataclass(frozen=True)
class Waits:
    """A message that waits, with the first missing message of each site, and the first missing red number."""

    id: str
    ids: tuple[str, ...]
    red: int | None = None

    @property
    def text(self) -> str:
        what = [*self.ids] + ([f"red {self.red}"] if self.red else [])
        return f"{self.id} for {', '.join(what)}" if what else f"{self.id}, never released"

    @property
    def record(self) -> dict[str, Any]:
        return {"id": self.id, "for": list(self.ids), "red": self.red}


@dataclasses.dataclass(frozen=True)
class GridRow:
    """A site: how many messages of each site it released, and what waits. `holds` is None if that isn't known."""

    site: int
    has: tuple[int, ...]
    waits: tuple[Waits, ...] = ()
    waiting: int = 0            # how many wait; `waits` may have the first of them only
    holds: bool | None = None
    last: str | None = None     # when it wrote its last answer


@dataclasses.dataclass(frozen=True)
class Grid:
    sent: tuple[int, ...]       # how many messages of each site are known to be made
    rows: tuple[GridRow, ...]

    @property
    def columns(self) -> list[int]:
        """The sites that have made a message."""
        return [site for site, count in enumerate(self.sent) if count]


def waits_of(release: "Release[Any]", most: int | None = None) -> tuple[Waits, ...]:
    """What waits at a site, in order of arrival: all of it, or the first of it."""
    waiting: Sequence[Stamped] = list(release.waiting.values())[:most]
    return tuple(
        Waits(f"{m.origin}.{m.number}", tuple(f"{site}.{number}" for site, number in release.awaited(m)), release.awaited_red(m))
        for m in waiting)


def grid_of_status(shop: dict[str, Any]) -> Grid:
    """The grid of a shop by its status; sites of which nothing is known have no row."""
    known = [site for site in shop["site"] if "released" in site]
    sent = [0] * shop["sites"]
    for site in known:
        for origin, count in enumerate(site["released"]):
            behind = site["has"].get(str(origin), 0) + site["behind"].get(str(origin), 0)
            sent[origin] = max(sent[origin], count, behind)
    return Grid(tuple(sent), tuple(_row_of(site, site["site"] == shop["token"]) for site in known))


def _row_of(site: dict[str, Any], holds: bool) -> GridRow:
    waits = tuple(Waits(one["id"], tuple(one["for"]), one["red"]) for one in site["waits"])
    return GridRow(site["site"], tuple(site["released"]), waits, site["held"], holds, site["answered"])


def waiting_text(row: GridRow, shown: int = SHOWN) -> str:
    """What waits at a site and for what; only the first of it, and how many more."""
    said = "; ".join(waits.text for waits in row.waits[:shown])
    more = row.waiting - min(len(row.waits), shown)
    return f"{said}; and {more} more" if said and more else said or "-"


def grid_cells(grid: Grid) -> list[list[str]]:
    """The grid as rows of text, the names of the columns first."""
    has_times = any(row.last for row in grid.rows)
    names = ["", *(f"of {site}" for site in grid.columns), "waits", *(["last answer"] if has_times else [])]
    lines = [names]
    for row in grid.rows:
        mark = " *" if row.holds else ""
        cells = [f"{row.has[site]}/{grid.sent[site]}" for site in grid.columns]
        lines.append([f"site {row.site}{mark}", *cells, waiting_text(row), *([row.last or "-"] if has_times else [])])
    return lines


def grid_text(grid: Grid) -> str:
    """The grid for a terminal."""
    return columns(grid_cells(grid)) + ("* holds the token\n" if any(row.holds for row in grid.rows) else "")
