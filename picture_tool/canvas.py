"""An SVG that is being drawn: shapes, and texts that know their boxes."""

import dataclasses
import re
from html import escape

from .colours import INK, WHITE

FONT = "DejaVu Sans, Verdana, Helvetica, Arial, sans-serif"

# Advances of DejaVu Sans in thousandths of the size; it is the widest of these fonts but for Verdana, which is about as wide.
_ADVANCES = {
    " ": 318, ".": 318, ",": 318, ":": 337, ";": 337, "-": 361, "_": 500, "/": 337, "(": 390, ")": 390, "'": 275, '"': 460, "…": 1000,
    "!": 401, "*": 500, "=": 838, "+": 838, "<": 838, ">": 838, "&": 780, "%": 950, "@": 1000, "#": 838, "?": 531, "‹": 400, "›": 400,
} | dict.fromkeys("0123456789", 636) | dict(zip(
    "abcdefghijklmnopqrstuvwxyz",
    (613, 635, 550, 635, 615, 352, 635, 634, 278, 278, 579, 278, 974, 634, 612, 635, 635, 411, 521, 392, 634, 592, 818, 592, 592, 525),
)) | dict(zip(
    "ABCDEFGHIJKLMNOPQRSTUVWXYZ",
    (684, 686, 698, 770, 632, 575, 775, 752, 295, 295, 656, 557, 863, 748, 787, 603, 787, 695, 635, 611, 732, 684, 989, 685, 611, 685),
))
BOLD = 1.13


_NO_XML = re.compile("[^\t\n\r\x20-\ud7ff\ue000-\ufffd\U00010000-\U0010ffff]")


def escaped(text: str) -> str:
    """A text as XML has it; what no XML may have is shown as such."""
    return escape(_NO_XML.sub("\ufffd", text), False)


def text_width(text: str, size: float, is_bold: bool = False) -> float:
    return sum(_ADVANCES.get(letter, 700) for letter in text) * size / 1000 * (BOLD if is_bold else 1)


def number(value: float) -> str:
    return f"{value:.1f}".rstrip("0").rstrip(".")


@dataclasses.dataclass(frozen=True)
class Label:
    """A text: `anchor` says whether x is its start, its middle or its end; y is its baseline."""

    x: float
    y: float
    size: float
    text: str
    colour: str = INK
    anchor: str = "middle"
    is_bold: bool = False
    has_halo: bool = False      # so that it can be read over lines

    @property
    def box(self) -> tuple[float, float, float, float]:
        """Its left, top, right and bottom."""
        width = text_width(self.text, self.size, self.is_bold)
        left = self.x - {"start": 0.0, "middle": 0.5, "end": 1.0}[self.anchor] * width
        return left, self.y - 0.78 * self.size, left + width, self.y + 0.24 * self.size

    @property
    def svg(self) -> str:
        more = "" if self.anchor == "start" else f' text-anchor="{self.anchor}"'
        more += ' font-weight="bold"' if self.is_bold else ""
        more += ' class="h"' if self.has_halo else ""
        place = f'x="{number(self.x)}" y="{number(self.y)}" font-size="{number(self.size)}"'
        return f'<text {place} fill="{self.colour}"{more}>{escaped(self.text)}</text>'


def overlapping(labels: list[Label]) -> list[tuple[Label, Label]]:
    """The pairs of labels whose boxes have a point in common."""
    boxes = sorted(((label.box, label) for label in labels), key=lambda pair: pair[0])
    found = []
    for at, ((_, top, right, bottom), label) in enumerate(boxes):
        for (other_left, other_top, _, other_bottom), other in boxes[at + 1:]:
            if other_left >= right:
                break
            if top < other_bottom and other_top < bottom:
                found.append((label, other))
    return found


class Canvas:
    def __init__(self) -> None:
        self.parts: list[str] = []
        self.labels: list[Label] = []

    def put(self, text: str) -> None:
        self.parts.append(text)

    def line(self, start: tuple[float, float], end: tuple[float, float], colour: str, width: float, more: str = "") -> None:
        (x1, y1), (x2, y2) = start, end
        place = f'x1="{number(x1)}" y1="{number(y1)}" x2="{number(x2)}" y2="{number(y2)}"'
        self.put(f'<line {place} stroke="{colour}" stroke-width="{number(width)}"{more}/>')

    def circle(self, at: tuple[float, float], radius: float, fill: str, more: str = "") -> None:
        self.put(f'<circle cx="{number(at[0])}" cy="{number(at[1])}" r="{number(radius)}" fill="{fill}"{more}/>')

    def box(self, at: tuple[float, float], size: tuple[float, float], fill: str, more: str = "") -> None:
        """A box by its top left corner."""
        place = f'x="{number(at[0])}" y="{number(at[1])}" width="{number(size[0])}" height="{number(size[1])}"'
        self.put(f'<rect {place} fill="{fill}"{more}/>')

    def text(self, label: Label) -> None:
        self.labels.append(label)
        self.put(label.svg)

    def svg(self, width: float, height: float, title: str) -> str:
        size = f'width="{number(width)}" height="{number(height)}" viewBox="0 0 {number(width)} {number(height)}"'
        head = [
            f'<svg xmlns="http://www.w3.org/2000/svg" {size} font-family="{FONT}" role="img" aria-label="{escape(title)}">',
            f"<title>{escaped(title)}</title>",
            f'<style>.h{{paint-order:stroke;stroke:{WHITE};stroke-opacity:.85;stroke-width:3.5;stroke-linejoin:round}}</style>',
            f'<rect width="{number(width)}" height="{number(height)}" fill="{WHITE}"/>',
        ]
        return "\n".join(head + self.parts + ["</svg>", ""])
