"""A divergence: the two versions of an entry side by side, under the last message that their logs have in common."""

from itertools import zip_longest

from .canvas import Canvas, Label, text_width
from .colours import GREY, INK, LANE, RING, WHITE
from .messages import Message
from .run import Divergence, Run, Spot

SIZE, ROW, PAD = 11.5, 19.0, 12.0
NAMES = ("id", "red number", "counts", "shadow")


def parts_of(message: Message) -> list[str]:
    return [message.id, str(message.red) if message.red else "blue", ":".join(map(str, message.deps)), _shadow(message)]


def _shadow(message: Message) -> str:
    text = ",".join(message.shadow)
    return text if len(text) <= 48 else text[:47] + "…"


def where(run: Run, spot: Spot) -> str:
    return f"{run.lanes[spot.lane].name}, entry {spot.entry}" if spot.entry else f"{run.lanes[spot.lane].name}, waiting"


def draw_sides(canvas: Canvas, run: Run, top: float, width: float) -> tuple[float, float]:
    """Draws the divergence from `top` on; returns where it ends, and how wide the picture is."""
    found = run.divergence
    assert found and found.at.event and found.at.event.message
    this = parts_of(found.at.event.message)
    that = parts_of(found.other.event.message) if found.other and found.other.event and found.other.event.message else []
    label = max(text_width(name, SIZE) for name in NAMES) + 2 * PAD
    each = max([250.0, *(text_width(text, SIZE, True) + 2 * PAD for text in this + that)])
    width = max(width, 2 * (label + each) + 72)
    top = _common(canvas, found, run, top + 10)
    bottom = top + ROW * (len(NAMES) + 1) + PAD
    left = 24.0
    for spot, parts, others, dashes in ((found.at, this, that, ""), (found.other, that, this, ' stroke-dasharray="7 5"')):
        title = where(run, spot) if spot else "no other version is there"
        canvas.box((left, top), (label + each, bottom - top), WHITE, f' rx="6" stroke="{RING}" stroke-width="2.5"{dashes}')
        canvas.text(Label(left + PAD, top + ROW, 12, title, INK, "start", True))
        for at, (name, text, other) in enumerate(zip_longest(NAMES[: len(parts)], parts, others[: len(parts)]), 2):
            differs = bool(others) and text != other
            canvas.text(Label(left + PAD, top + ROW * at, SIZE, name, GREY, "start"))
            canvas.text(Label(left + label, top + ROW * at, SIZE, text, INK, "start", differs))
            if differs:
                wide = text_width(text, SIZE, True)
                canvas.line((left + label, top + ROW * at + 4), (left + label + wide, top + ROW * at + 4), RING, 2)
        left += label + each + 24
    return bottom + 16, width


def _common(canvas: Canvas, found: Divergence, run: Run, top: float) -> float:
    """The last message in common, over both boxes."""
    if found.common and found.common.message:
        m = found.common.message
        text = f"last in common: {m.id}, {_shadow(m)} ({run.lanes[found.common.lane].name}, entry {found.common.place})"
    else:
        text = "nothing in common before"
    canvas.text(Label(24, top + 6, 12, text, INK, "start"))
    canvas.line((24, top + 14), (24 + text_width(text, 12), top + 14), LANE, 2)
    return top + 24
