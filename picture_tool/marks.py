"""Every mark of a picture of lanes: how it looks, and what the legend says of it."""

import enum

from .canvas import Canvas, Label, text_width
from .colours import BLUE, GREY, INK, LANE, PALE, RED, RING, TOKEN, TOKEN_EDGE, WHITE

Point = tuple[float, float]

LEGEND_SIZE, LEGEND_ROW = 11.5, 24.0
DASHES, TRAVELS, GAPS = ' stroke-dasharray="4 3"', ' stroke-dasharray="5 4"', ' stroke-dasharray="7 5"'
BOW = ' stroke-dasharray="1.5 3" stroke-linecap="round"'


class Mark(enum.Enum):
    """A mark, with what it means."""

    RED = "red message (circle), with its red number"
    RED_LINE = "red messages in order of their numbers"
    RED_GAP = "red numbers between are not drawn"
    BLUE = "blue message (square)"
    FOLLOWS = "to a blue message, from what it follows"
    RELEASED = "released at another site"
    DELIVERY = "from where it was made to where it arrived"
    STUB = "comes from another row, or from what is left out"
    HELD = "arrived, and is held"
    BOW = "from its arrival to its release"
    REFUSED = "an ask that was refused, and why"
    TOKEN = "the site holds the token"
    PASSED = "passes the token"
    CAME = "takes the token"
    TRAVELS = "the token's way"
    LEFT_OUT = "how many marks are left out at this side"
    FAULT = "what the auditor names"
    OTHER = "its other version"


def dot(canvas: Canvas, at: Point, is_red: bool, radius: float, edge: str = "") -> None:
    """A message's mark: a circle if it is red, a square if it is blue; hollow with an edge of this colour."""
    colour = RED if is_red else BLUE
    fill, more = (WHITE, f' stroke="{edge}" stroke-width="1.8"') if edge else (colour, "")
    if is_red:
        canvas.circle(at, radius, fill, more)
    else:
        side = radius * 1.8
        canvas.box((at[0] - side / 2, at[1] - side / 2), (side, side), fill, f' rx="{1.5 if radius < 7 else 3}"{more}')


def diamond(canvas: Canvas, at: Point, is_full: bool) -> None:
    x, y = at
    canvas.put(f'<path d="M{x:.1f} {y - 7:.1f}l7 7l-7 7l-7 -7z" fill="{RED if is_full else WHITE}" stroke="{RED}" stroke-width="1.8"/>')


def cross(canvas: Canvas, at: Point) -> None:
    x, y = at
    for sign in (1, -1):
        canvas.line((x - 5, y - 5 * sign), (x + 5, y + 5 * sign), INK, 2.2)


def bow(canvas: Canvas, start: Point, end: Point, is_red: bool, deep: float) -> None:
    (x1, y1), (x2, y2) = start, end
    path = f"M{x1:.1f} {y1:.1f}C{x1 + 6:.1f} {y1 + deep:.1f} {x2 - 6:.1f} {y2 + deep:.1f} {x2:.1f} {y2:.1f}"
    canvas.put(f'<path d="{path}" fill="none" stroke="{RED if is_red else BLUE}" stroke-width="1.8"{BOW}/>')


def band(canvas: Canvas, left: float, right: float, y: float) -> None:
    edge = f' rx="8" stroke="{TOKEN_EDGE}" stroke-width="0.8"'
    canvas.box((left, y - 13), (max(right - left, 1), 26), TOKEN, edge)


def ring(canvas: Canvas, at: Point, radius: float, is_other: bool) -> None:
    """Around what the auditor names, or with dashes around its other version."""
    canvas.circle(at, radius + 7.5, "none", f' stroke="{INK}" stroke-width="1.2"{DASHES if is_other else ""}')
    canvas.circle(at, radius + 5, WHITE, f' stroke="{RING}" stroke-width="4"{GAPS if is_other else ""}')


def sample(canvas: Canvas, mark: Mark, x: float, y: float) -> None:
    """A mark as the legend shows it, some 28 wide, around x and y."""
    at, left, right = (x, y), (x - 14, y), (x + 14, y)
    lines = {
        Mark.RED_LINE: (RED, 3.5, ""), Mark.RED_GAP: (RED, 3.5, GAPS), Mark.FOLLOWS: (BLUE, 1.8, ""), Mark.DELIVERY: (PALE, 1.4, ""),
        Mark.TRAVELS: (RED, 1.3, TRAVELS)}
    if mark in lines:
        colour, width, more = lines[mark]
        canvas.line(left, right, colour, width, more)
    elif mark in (Mark.RED, Mark.BLUE):
        dot(canvas, at, mark is Mark.RED, 8)
        if mark is Mark.RED:
            canvas.text(Label(x, y + 3.5, 9, "1", WHITE, is_bold=True))
    elif mark is Mark.RELEASED:
        dot(canvas, (x - 7, y), True, 5)
        dot(canvas, (x + 7, y), False, 5)
    elif mark is Mark.HELD:
        dot(canvas, (x - 7, y), True, 5, RED)
        dot(canvas, (x + 7, y), False, 5, BLUE)
    elif mark is Mark.LEFT_OUT:
        canvas.text(Label(x, y + 4, 10, "7 …", GREY))
    else:
        _rare(canvas, mark, at)


def _rare(canvas: Canvas, mark: Mark, at: Point) -> None:
    x, y = at
    if mark is Mark.STUB:
        canvas.line((x - 8, y - 7), (x + 4, y + 5), PALE, 1.6)
    elif mark is Mark.BOW:
        bow(canvas, (x - 13, y - 4), (x + 13, y - 4), True, 12)
    elif mark is Mark.REFUSED:
        cross(canvas, at)
    elif mark is Mark.TOKEN:
        canvas.box((x - 14, y - 8), (28, 16), TOKEN, f' rx="6" stroke="{TOKEN_EDGE}" stroke-width="0.8"')
        canvas.line((x - 14, y), (x + 14, y), LANE, 2)
    elif mark in (Mark.PASSED, Mark.CAME):
        diamond(canvas, at, mark is Mark.CAME)
    elif mark in (Mark.FAULT, Mark.OTHER):
        ring(canvas, at, 2, mark is Mark.OTHER)


def legend(canvas: Canvas, marks: set[Mark], y: float, width: float) -> float:
    """What the marks mean, in rows from y on; returns where it ends."""
    x = 24.0
    for mark in (mark for mark in Mark if mark in marks):
        wide = 34 + text_width(mark.value, LEGEND_SIZE)
        if x > 24 and x + wide > width - 8:
            x, y = 24.0, y + LEGEND_ROW
        sample(canvas, mark, x, y)
        canvas.text(Label(x + 20, y + 4, LEGEND_SIZE, mark.value, INK, "start"))
        x += wide + 16
    return y + LEGEND_ROW - 4
