"""Colours, and whether they are told apart: by everybody, and by people who see some of them alike."""

import math

RED, BLUE = "#b3261e", "#1f6fb5"
INK, GREY, PALE, LANE = "#23282e", "#5a626c", "#bcc3cb", "#c9ced4"
RING = "#f0a000"            # around a fault, always with a line of ink at its edge
TOKEN, TOKEN_EDGE = "#f8dcd8", "#c9857d"
WHITE = "#ffffff"
# What the page to walk a run is drawn with: by day, and where the reader's system asks for dark.
LIGHT = {
    "paper": WHITE, "ink": INK, "grey": GREY, "pale": PALE, "lane": LANE, "border": "#8b939d", "hover": "#eef1f4", "red": RED, "blue": BLUE, "ring": RING,
    "token": TOKEN, "edge": TOKEN_EDGE, "lacks": "#fff3d6"}
DARK = {
    "paper": "#15191e", "ink": "#e7eaee", "grey": "#a9b1ba", "pale": "#4b545e", "lane": "#3a424b", "border": "#717b86", "hover": "#262d35", "red": "#ff8c7e",
    "blue": "#6db3f5", "ring": RING, "token": "#4a2723", "edge": "#a8645c", "lacks": "#4a3a12"}

# Machado, Oliveira and Fernandes (2009): how linear colours look to people without one of the three kinds of cones.
BLINDNESS = {
    "none": ((1.0, 0.0, 0.0), (0.0, 1.0, 0.0), (0.0, 0.0, 1.0)),
    "protanopia": ((0.152286, 1.052583, -0.204868), (0.114503, 0.786281, 0.099216), (-0.003882, -0.048116, 1.051998)),
    "deuteranopia": ((0.367322, 0.860646, -0.227968), (0.280085, 0.672501, 0.047413), (-0.011820, 0.042940, 0.968881)),
    "tritanopia": ((1.255528, -0.076749, -0.178779), (-0.078411, 0.930809, 0.147602), (0.004733, 0.691367, 0.303900)),
}
TO_XYZ = ((0.4124, 0.3576, 0.1805), (0.2126, 0.7152, 0.0722), (0.0193, 0.1192, 0.9505))
WHITE_POINT = (0.9505, 1.0, 1.089)

Triple = tuple[float, float, float]
Matrix = tuple[Triple, Triple, Triple]


def linear(colour: str) -> Triple:
    """The colour `#rrggbb` in linear light."""
    def one(at: int) -> float:
        value = int(colour[at:at + 2], 16) / 255
        return value / 12.92 if value <= 0.04045 else math.pow((value + 0.055) / 1.055, 2.4)
    return one(1), one(3), one(5)


def through(matrix: Matrix, colour: Triple) -> Triple:
    a, b, c = (sum(part * value for part, value in zip(row, colour)) for row in matrix)
    return a, b, c


def seen(colour: str, blindness: str = "none") -> Triple:
    """The colour in CIELAB, as people with this blindness see it."""
    def bent(value: float) -> float:
        return math.cbrt(value) if value > 0.008856 else 7.787 * value + 16 / 116
    shown = through(BLINDNESS[blindness], linear(colour))
    clipped = (min(max(shown[0], 0), 1), min(max(shown[1], 0), 1), min(max(shown[2], 0), 1))
    x, y, z = (bent(value / white) for value, white in zip(through(TO_XYZ, clipped), WHITE_POINT))
    return 116 * y - 16, 500 * (x - y), 200 * (y - z)


def difference(one: str, other: str, blindness: str = "none") -> float:
    """How far apart two colours are seen; below 10 they are easily taken for each other."""
    return math.dist(seen(one, blindness), seen(other, blindness))


def contrast(one: str, other: str) -> float:
    """The ratio of two colours' luminances; a text should have 4.5 to what is behind it."""
    lights = sorted(0.2126 * r + 0.7152 * g + 0.0722 * b + 0.05 for r, g, b in (linear(one), linear(other)))
    return lights[1] / lights[0]
