"""The graphical symbols of symmetry elements (ITA 2.1.2), as SVG text, and what each of them means in words.

Places and sizes are in pixels, x to the right and y downwards. The shapes are those of U. Mueller's font `cryst`: a polygon for
each order, a tail at every vertex where a screw axis comes after so many of its steps, a white circle for an inversion point.
"""

from __future__ import annotations

from fractions import Fraction
from math import cos, gcd, hypot, log2, pi, sin

from .geometry import Glide

Way = tuple[float, float]

INK = "#111"
FONT = "Helvetica, Arial, 'Liberation Sans', 'DejaVu Sans', sans-serif"
SIZE = 6.5  # the radius of a fourfold axis; the others are fitted to it

_FRACTIONS = {
    (1, 2): "½", (1, 4): "¼", (3, 4): "¾", (1, 3): "⅓", (2, 3): "⅔", (1, 6): "⅙", (5, 6): "⅚",
    (1, 8): "⅛", (3, 8): "⅜", (5, 8): "⅝", (7, 8): "⅞",
}  # fmt: skip

_STYLES = {
    Glide.MIRROR: "",
    Glide.ALONG: "6 3.5",
    Glide.ACROSS: "1.4 3.2",
    Glide.BOTH: "8 2.6 1.4 2.6 1.4 2.6",
    Glide.DIAGONAL: "8 3 1.4 3",
    Glide.QUARTER: "8 3 1.4 3",
}

UPRIGHT_PLANES = {
    Glide.MIRROR: "mirror plane",
    Glide.ALONG: "glide plane: half a translation along the line",
    Glide.ACROSS: "glide plane: half a translation towards the reader",
    Glide.BOTH: "double glide plane: half a translation along the line, or half of one towards the reader",
    Glide.DIAGONAL: "glide plane: half a translation along the line and half of one towards the reader",
    Glide.QUARTER: "diamond glide plane: half a translation that goes along the arrow and towards the reader",
}
FLAT_PLANES = {
    Glide.MIRROR: "mirror plane in the paper",
    Glide.ALONG: "glide plane in the paper, along the arrow",
    Glide.ACROSS: "glide plane in the paper, along the arrow",
    Glide.BOTH: "double glide plane in the paper, along either arrow",
    Glide.DIAGONAL: "glide plane in the paper, along the arrow",
    Glide.QUARTER: "diamond glide plane in the paper, along the arrow",
}


def axis_meaning(symbol: str) -> str:
    """What an axis of that name is."""
    if symbol == "-1":
        return "inversion point"
    order = {"2": "twofold", "3": "threefold", "4": "fourfold", "6": "sixfold"}[symbol.lstrip("-")[0]]
    if symbol.startswith("-"):
        return f"{order} rotoinversion axis" + {"-3": ", 3 with inversion points", "-6": ", 3/m"}.get(symbol, "")
    words = f"{order} axis"
    if "_" in symbol:
        words = f"{order} screw axis, {fraction(Fraction(int(symbol[2]), int(symbol[0])))} of a translation"
    return words + (", with inversion points" if symbol.endswith("/m") else "")


def fraction(value: Fraction) -> str:
    if value.denominator == 1:
        return str(value.numerator)
    return _FRACTIONS.get((value.numerator, value.denominator), f"{value.numerator}/{value.denominator}")


def tag(name: str, content: str = "", **attributes: object) -> str:
    """An SVG element. An underscore in the name of an attribute stands for a hyphen; numbers have two decimals at most."""
    words = [name]
    for key, value in attributes.items():
        text = f"{value:.2f}".rstrip("0").rstrip(".") if isinstance(value, float) else value
        words.append(f'{key.rstrip("_").replace("_", "-")}="{text}"')
    return f"<{' '.join(words)}>{content}</{name}>" if content else f"<{' '.join(words)}/>"


def text(x: float, y: float, content: str, size: float = 11, anchor: str = "start", **attributes: object) -> str:
    return tag("text", content, x=x, y=y, font_size=float(size), text_anchor=anchor, **attributes) if content else ""


def segment(start: Way, end: Way, width: float, **attributes: object) -> str:
    ends = {"x1": start[0], "y1": start[1], "x2": end[0], "y2": end[1]}
    return tag("line", **ends, stroke=INK, stroke_width=width, **attributes)


def _path(points: list[Way], **attributes: object) -> str:
    drawn = "M" + "L".join(f"{x:.2f} {y:.2f}" for x, y in points) + "Z"
    return tag("path", d=drawn, **attributes)


def circle(x: float, y: float, radius: float, fill: str = "#fff", width: float = 1.0) -> str:
    return tag("circle", cx=x, cy=y, r=radius, fill=fill, stroke=INK, stroke_width=width)


# ---- axes seen end on

def _polygon(x: float, y: float, n: int, radius: float) -> list[Way]:
    """The vertices counter-clockwise from the topmost one."""
    return [(x - radius * sin(2 * pi * i / n), y - radius * cos(2 * pi * i / n)) for i in range(n)]


def _lens(x: float, y: float, half: float) -> str:
    radius = half / sin(40 * pi / 180)
    arc = f"A{radius:.2f} {radius:.2f} 0 0 1 {x:.2f}"
    return tag("path", d=f"M{x:.2f} {y + half:.2f}{arc} {y - half:.2f}{arc} {y + half:.2f}Z", fill=INK)


def _tails(x: float, y: float, n: int, p: int, radius: float) -> str:
    """Each prolongs the side that ends at its vertex, counter-clockwise for the screws to the right."""
    vertices = _polygon(x, y, n, radius)
    if 2 * p >= n:
        vertices = [vertices[0], *reversed(vertices[1:])]
    drawn = []
    for i in range(0, n, gcd(n, p)):
        (x0, y0), (x1, y1) = vertices[i - 1], vertices[i]
        stretch = 0.8 * SIZE / hypot(x1 - x0, y1 - y0)
        drawn.append(segment((x1, y1), (x1 + stretch * (x1 - x0), y1 + stretch * (y1 - y0)), 1.2, stroke_linecap="round"))
    return "".join(drawn)


def _twofold_tails(x: float, y: float, half: float) -> str:
    drawn = ""
    for side in (1, -1):
        curve = f"M{x:.2f} {y - side * half:.2f}q{side * half * 0.12:.2f} {-side * half * 0.16:.2f} {side * half * 0.42:.2f} "
        drawn += tag("path", d=curve + f"{-side * half * 0.28:.2f}", fill="none", stroke=INK, stroke_width=1.2)
    return drawn


def reach(symbol: str) -> float:
    """How far the symbol of an upright axis reaches from its middle, but for the tails of screws."""
    return 0.42 * SIZE if symbol == "-1" else 0.8 * SIZE if symbol.startswith("2") else 1.05 * SIZE


def axis(symbol: str, x: float, y: float, size: float = SIZE) -> str:
    """The symbol of an upright axis, or of an inversion point."""
    if symbol == "-1":
        return circle(x, y, 0.42 * size)
    if symbol == "-4":
        outline = _path(_polygon(x, y, 4, size * 1.1), fill="#fff", stroke=INK, stroke_width=1.0)
        return outline + _lens(x, y, size * 1.1)
    if symbol == "-6":
        outline = _path(_polygon(x, y, 6, size * 1.1), fill="#fff", stroke=INK, stroke_width=1.0)
        return outline + _path(_polygon(x, y, 3, size * 1.1), fill=INK)
    name, inversion = symbol.removesuffix("/m"), symbol.endswith("/m") or symbol == "-3"
    n, p = int(name.lstrip("-")[0]), int(name[2]) if "_" in name else 0
    if n == 2:
        drawn = _lens(x, y, 1.25 * size) + (_twofold_tails(x, y, 1.25 * size) if p else "")
    else:
        radius = size * {3: 1.15, 4: 1.0, 6: 1.05}[n]
        drawn = _path(_polygon(x, y, n, radius), fill=INK) + (_tails(x, y, n, p, radius) if p else "")
    return drawn + (tag("circle", cx=x, cy=y, r=0.32 * size, fill="#fff") if inversion else "")


# ---- axes and planes in the paper, planes seen edge on

def _barb(tip: Way, way: Way, side: int, size: float) -> str:
    (x, y), (dx, dy) = tip, way
    back = (x - size * dx - side * 0.42 * size * dy, y - size * dy + side * 0.42 * size * dx)
    return _path([(x, y), back, (x - 0.75 * size * dx, y - 0.75 * size * dy)], fill=INK)


def arrow(start: Way, way: Way, length: float, half: bool = False, size: float = 7.0) -> str:
    """An arrow by the unit vector `way`; a half one has its barb to the right of it."""
    tip = (start[0] + length * way[0], start[1] + length * way[1])
    neck = (tip[0] - 0.6 * size * way[0], tip[1] - 0.6 * size * way[1])
    drawn = segment(start, neck if not half else tip, 1.0) + _barb(tip, way, 1, size)
    return drawn if half else drawn + _barb(tip, way, -1, size)


def flat_length(symbol: str) -> float:
    """How long the symbol of an axis in the paper is."""
    return 15.0 if symbol in ("2", "2_1") else 20.0 if "_" in symbol else 15.5


def flat_axis(symbol: str, start: Way, way: Way) -> str:
    """The end of an axis in the paper: an arrow for 2, half of one for 2_1, else a stub with the symbol of the upright axis."""
    (x, y), (dx, dy) = start, way
    if symbol in ("2", "2_1"):
        return arrow(start, way, flat_length(symbol), half=symbol == "2_1")
    return segment(start, (x + 9 * dx, y + 9 * dy), 1.0) + axis(symbol, x + 10 * dx, y + 10 * dy, size=4.6)


def plane_line(start: Way, end: Way, glide: Glide, way: int = 0) -> str:
    """An upright plane; the arrow of a diamond glide goes from start to end where `way` is 1, and back where it is -1."""
    style = {"stroke_dasharray": _STYLES[glide]} if _STYLES[glide] else {}
    drawn = segment(start, end, 1.7 if glide is Glide.MIRROR else 1.4, **style)
    length = hypot(end[0] - start[0], end[1] - start[1])
    if way == 0 or length < 12:
        return drawn
    unit = (way * (end[0] - start[0]) / length, way * (end[1] - start[1]) / length)
    count = 2 ** max(0, round(log2(length / 110)))
    for i in range(count):
        share = (i + 5 / 16) / count  # where no axis is
        tip = (start[0] + share * (end[0] - start[0]) + 5 * unit[0], start[1] + share * (end[1] - start[1]) + 5 * unit[1])
        drawn += _barb(tip, unit, 1, 9.0) + _barb(tip, unit, -1, 9.0)
    return drawn


def corner(x: float, y: float, arms: tuple[Way, Way], arrows: list[Way]) -> str:
    """A plane in the paper: a corner with arms by these unit vectors, and an arrow by each vector of a glide."""
    drawn = "".join(segment((x, y), (x + 15 * dx, y + 15 * dy), 1.5, stroke_linecap="round") for dx, dy in arms)
    return drawn + "".join(arrow((x, y), way, 21.0) for way in arrows)


# ---- points

def comma(x: float, y: float, size: float) -> str:
    """The mark of the points that an operation of the other hand makes."""
    curve = f"M{x + 0.5 * size:.2f} {y - 0.1 * size:.2f}q{0.1 * size:.2f} {0.8 * size:.2f} {-0.7 * size:.2f} {1.1 * size:.2f}"
    return tag("circle", cx=x, cy=y - 0.1 * size, r=0.48 * size, fill=INK) + tag(
        "path", d=curve, fill="none", stroke=INK, stroke_width=0.3 * size
    )
