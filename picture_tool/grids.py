"""The grid of a run: how many messages of each site the others have; as SVG."""

import math

from shop_tool.grid import Grid, waiting_text

from .canvas import Canvas, Label, text_width
from .colours import BLUE, GREY, INK, LANE, RING, TOKEN, TOKEN_EDGE
from .marks import LEGEND_SIZE
from .run import Run

ROW, LEFT, TOP = 46.0, 24.0, 44.0
FULL, LACK = "#dbe7f3", "#fff3d6"


def grid_of(run: Run) -> Grid:
    return Grid(run.sent(), tuple(run.rows))


def grid_svg(grid: Grid) -> str:
    """Sites by origins. A cell that lacks messages has an edge, and its bar is not full."""
    canvas = Canvas()
    cells = {(row.site, site): f"{row.has[site]:,}/{grid.sent[site]:,}" for row in grid.rows for site in grid.columns}
    wide = max([64.0, *(text_width(text, 12, True) + 18 for text in cells.values())])
    names = max(text_width(f"site {row.site}", 13, True) for row in grid.rows) + 40
    left = LEFT + names
    for at, site in enumerate(grid.columns):
        canvas.text(Label(left + wide * (at + 0.5), TOP - 12, 12, f"of site {site}", INK))
    notes = left + wide * len(grid.columns) + 18
    canvas.text(Label(notes, TOP - 12, 12, "what waits, and for what", INK, "start"))
    times = notes + 20 + max([text_width("what waits, and for what", 12), *(text_width(waiting_text(row), 12) for row in grid.rows)])
    if any(row.last for row in grid.rows):
        canvas.text(Label(times, TOP - 12, 12, "last answer", INK, "start"))
    for at, row in enumerate(grid.rows):
        y = TOP + at * ROW
        if row.holds:
            canvas.box((LEFT - 8, y + 4), (names - 4, ROW - 8), TOKEN, f' rx="8" stroke="{TOKEN_EDGE}" stroke-width="0.8"')
        canvas.text(Label(LEFT, y + ROW / 2 + 4, 13, f"site {row.site}", INK, "start", True))
        for column, site in enumerate(grid.columns):
            _cell(canvas, (left + wide * column, y), wide, row.has[site], grid.sent[site])
        canvas.text(Label(notes, y + ROW / 2 + 4, 12, waiting_text(row), INK if row.waiting else GREY, "start"))
        if row.last:
            canvas.text(Label(times, y + ROW / 2 + 4, 12, row.last, GREY, "start"))
    last = max((text_width(row.last, 12) for row in grid.rows if row.last), default=0.0)
    bottom = TOP + len(grid.rows) * ROW + 22
    end = _legend(canvas, bottom, any(row.holds for row in grid.rows), any(lacks(grid, row.has) for row in grid.rows))
    return canvas.svg(max(times + last + 24, end), bottom + 20, f"what {len(grid.rows)} sites have of each other")


def lacks(grid: Grid, has: tuple[int, ...]) -> bool:
    return any(have < sent for have, sent in zip(has, grid.sent))


def _cell(canvas: Canvas, at: tuple[float, float], wide: float, has: int, sent: int) -> None:
    x, y = at[0] + 3, at[1] + 3
    wide, high = wide - 6, ROW - 6
    is_full = has >= sent
    canvas.box((x, y), (wide, high), FULL if is_full else LACK, ' rx="4"' + ("" if is_full else f' stroke="{RING}" stroke-width="2.5"'))
    share = min(1.0, has / sent) if sent else 1.0
    bar = math.floor((wide - 12) * share)
    canvas.box((x + 6, y + high - 10), (wide - 12, 5), LANE)
    if bar:
        canvas.box((x + 6, y + high - 10), (bar, 5), BLUE)
    canvas.text(Label(x + wide / 2, y + 19, 12, f"{has:,}/{sent:,}", INK, is_bold=not is_full))


def _legend(canvas: Canvas, y: float, has_holder: bool, has_lack: bool) -> float:
    """What the marks of the grid mean; returns where it ends."""
    items = [(FULL, "", "it has all that is known to be made; the bar says how much it has")]
    if has_lack:
        items.append((LACK, f' stroke="{RING}" stroke-width="2.5"', "it lacks some of them"))
    if has_holder:
        items.append((TOKEN, f' stroke="{TOKEN_EDGE}" stroke-width="0.8"', "it holds the token"))
    x = LEFT
    for fill, more, words in items:
        canvas.box((x, y - 8), (26, 16), fill, f' rx="4"{more}')
        canvas.text(Label(x + 34, y + 4, LEGEND_SIZE, words, INK, "start"))
        x += 34 + text_width(words, LEGEND_SIZE) + 24
    return x
