"""The diagrams of one cell, drawn as SVG: symmetry elements, the general position, points of rows. Sizes are in pixels."""

from __future__ import annotations

from collections import defaultdict
from collections.abc import Iterable, Sequence
from dataclasses import dataclass
from fractions import Fraction
from itertools import product as choices
from math import hypot

from . import symbols
from .answers import Affine, SpaceGroup
from .geometry import Elements, FlatPlane, Line, elements
from .labels import Labels, around, lines_box, width
from .paper import Projection, clear_point, projection, turned

CELL = 260.0  # the longer axis of a drawn cell
WIDE_CELL = 520.0  # that of a crowded one
CROWDED = 40  # so many points at different places of the paper are not yet a crowd
APART = 40.0  # how far apart points are wished to be
BEYOND = 34.0  # how far beyond the cell points are shown
STRIP = 26.0  # the height of the strip for planes in the paper

Way = tuple[float, float]
Height = tuple[Fraction, str]  # a constant and a variable part: 1/2 and `+` for z + 1/2, 0 and `−` for -z, 1/4 and none for 1/4


class Svg(str):
    """The text of an SVG picture, which a notebook shows as one."""

    def _repr_svg_(self) -> str:
        return str(self)


@dataclass(frozen=True)
class Drawing:
    """What is drawn on paper, how far beyond the cell the names of its axes stand, and the height of a strip above all."""

    title: str
    paper: Projection
    content: str
    gap: float
    strip: float = 0.0


def picture(drawing: Drawing, gap: float = 0.0, strip: float = 0.0) -> Svg:
    """The drawing with the cell and the names of its axes, and with no less room beside and above it than is told."""
    gap, strip = max(gap, drawing.gap) + 14, max(strip, drawing.strip)
    left, top, right, bottom = drawing.paper.box()
    left, top = left - gap, top - gap - strip
    size = {"width": round(right + gap - left), "height": round(bottom + gap - top)}
    content = symbols.tag("title", drawing.title) + symbols.tag("rect", x=left, y=top, **size, fill="#fff")
    content += _frame(drawing.paper, gap - 14) + drawing.content
    box = f"{left:.1f} {top:.1f} {size['width']} {size['height']}"
    return Svg(
        symbols.tag(
            "svg", content, xmlns="http://www.w3.org/2000/svg", viewBox=box, **size, font_family=symbols.FONT, fill=symbols.INK
        )
    )


def side_by_side(left: Drawing, right: Drawing) -> tuple[Svg, Svg]:
    """Both, with as much room around the cells, so that these stand at one height where they have one size."""
    gap, strip = max(left.gap, right.gap), max(left.strip, right.strip)
    return picture(left, gap, strip), picture(right, gap, strip)


# ---- the frame of a picture

def _frame(paper: Projection, gap: float) -> str:
    corners = [paper.place(u, v) for u, v in ((0, 0), (0, 1), (1, 1), (1, 0))]
    sides = "".join(symbols.segment(corners[i - 1], corners[i], 0.6) for i in range(4))
    (x, y), (u, v) = paper.down, _unit(paper.down)
    names = symbols.text(x + gap * u, y + gap * v + 5, paper.names[0], 13, "middle", font_style="italic")
    names += symbols.text(paper.right[0] + gap, 4.5, paper.names[1], 13, "middle", font_style="italic")
    return sides + names


def _unit(way: Way) -> Way:
    length = hypot(*way)
    return way[0] / length, way[1] / length


def _copies(place: tuple[Fraction, ...], paper: Projection, beyond: float) -> list[Way]:
    """Where the translates by whole cells lie that are in the cell or on its border, or so many pixels beyond it."""
    margins = [beyond / hypot(*way) for way in (paper.down, paper.right)]
    near = [[c + n for n in (-1, 0, 1) if -margin <= c + n <= 1 + margin] for c, margin in zip(place, margins)]
    return [paper.place(u, v) for u, v in choices(*near)]


def _words(x: float, y: float, words: str, size: float, anchor: str) -> str:
    """A text with a white border, since it may stand on a line."""
    return symbols.text(x, y, words, size, anchor, stroke="#fff", stroke_width=2.5, paint_order="stroke")


def _label(labels: Labels, x: float, y: float, radius: float, words: str, size: float) -> str:
    """A text beside a symbol of this radius."""
    if not words:
        return ""
    left, base, anchor = labels.beside(x, y, radius, [words], size)
    return _words(left, base, words, size, anchor)


# ---- symmetry elements

def draw_elements(group: SpaceGroup, axis: str) -> tuple[Drawing, Elements]:
    """The symmetry elements of one cell, projected along `axis`, and where they lie: planes below, then axes in the paper, axes
    seen end on, heights. Inclined elements are left out."""
    paper, found = projection(group, axis, CELL), elements(turned(group, axis))
    drawn, labels = [], Labels()
    for plane in found.upright_planes:
        for m, first, last in _crossings(plane.line):
            ends = [paper.place(*plane.line.point(m, multiple)) for multiple in (first, last)]
            drawn.append(symbols.plane_line(*ends, plane.glide, plane.way))
    upright = [(at, place) for at in found.upright_axes for place in _copies(at.position, paper, 0)]
    for at, place in upright:
        labels.take(around(*place, 0.75 * symbols.reach(at.symbol)))
    border, reach = _border(paper, found, labels)
    drawn += border
    drawn += [symbols.axis(at.symbol, *place) for at, place in upright]
    for at, place in upright:
        drawn.append(_label(labels, *place, symbols.reach(at.symbol), _listed(at.heights), 9.5))
    gap, strip = max(reach + 10, 24.0), STRIP if found.flat_planes else 0.0
    drawn += _corners(paper, found.flat_planes, gap)
    return Drawing(f"Symmetry elements along {axis}", paper, "".join(drawn), gap, strip), found


def _crossings(line: Line) -> list[tuple[int, Fraction, Fraction]]:
    """Where the copies of the line cross the cell: the m of each, with the least and the greatest multiple of the direction
    there, counted from its foot. A copy that only touches a corner does not cross."""
    found, reach = [], sum(map(abs, line.normal))
    for m in range(-reach, reach + 1):
        pairs = list(zip(line.point(m, Fraction(0)), line.direction))
        spans = [sorted((-start / step, (1 - start) / step)) for start, step in pairs if step]
        first, last = max(low for low, _ in spans), min(high for _, high in spans)
        if first < last and all(0 <= start <= 1 for start, step in pairs if not step):
            found.append((m, first, last))
    return found


def _border(paper: Projection, found: Elements, labels: Labels) -> tuple[list[str], float]:
    """The flat axes: a symbol at either end of each, outside the cell, and the height at the end that is further right or up.
    With that, how far they reach."""
    lines, drawn, reach = defaultdict(list), [], 0.0
    for axis in found.flat_axes:
        lines[axis.line].append(axis)
    for line, axes in lines.items():
        for m, first, last in _crossings(line):
            ends = {end: paper.place(*line.point(m, end)) for end in (first, last)}
            told = max(ends, key=lambda end: (round(ends[end][0]), -ends[end][1]))
            for end, sign in ((first, -1), (last, 1)):
                way = _unit(tuple(sign * w for w in paper.place(*line.direction)))
                words = [_listed(axis.heights_at(end)) if end == told or axis.slope else "" for axis in axes]
                ray, length = _ray(ends[end], way, [axis.symbol for axis in axes], words, labels)
                drawn.append(ray)
                reach = max(reach, length)
    return drawn, reach


def _ray(end: Way, way: Way, names: Sequence[str], words: Sequence[str], labels: Labels) -> tuple[str, float]:
    """The symbols of the flat axes of one line at an end of it, one beyond the other, each with its words beyond it; and how
    far they reach. All of it is taken."""
    drawn, distance, size = "", 4.0, 10.0

    def beyond(length: float) -> Way:
        return end[0] + length * way[0], end[1] + length * way[1]

    for name, label in zip(names, words):
        drawn += symbols.flat_axis(name, beyond(distance), way)
        last = distance + symbols.flat_length(name)
        while distance < last:
            labels.take(around(*beyond(distance), 2.5))
            distance += 4
        distance = last + 3
        if label:
            half = (abs(way[0]) * width(label, size) + abs(way[1]) * 0.72 * size) / 2
            x, y = beyond(distance + half)
            labels.take(lines_box(x, y + 0.36 * size, [label], size, "middle"))
            drawn += symbols.text(x, y + 0.36 * size, label, size, "middle")
            distance += 2 * half + 3
    return drawn, distance


def _corners(paper: Projection, planes: Sequence[FlatPlane], gap: float) -> list[str]:
    """A corner for each flat plane, to the right in the strip above the cell and the room around it, and its height."""
    drawn, arms = [], (_unit(paper.right), _unit(paper.down))
    x, y = paper.box()[2] + 10, paper.box()[1] - gap - 6 - STRIP
    for plane in planes:
        arrows = [_unit(paper.place(*vector)) for vector in plane.vectors]
        left = min(0.0, 15 * arms[1][0], *(21 * dx for dx, _ in arrows))
        label = _listed([plane.height])
        drawn.append(symbols.corner(x, y, arms, arrows) + symbols.text(x + left - 5, y + 9, label, 10, "end"))
        x += left - 40 - width(label, 10)
    return drawn


def _listed(heights: Sequence[Fraction]) -> str:
    """The heights, and nothing where there is 0 alone."""
    return ",".join(map(symbols.fraction, heights)) if any(heights) else ""


# ---- the general position

def draw_general(group: SpaceGroup, axis: str) -> Drawing:
    """The orbit of a general point, projected along `axis`: a circle for each point, with a comma where an improper operation
    makes it, and its height beside it. Where points of either hand lie one above the other, the circle is cut in two."""
    seen = turned(group, axis)
    maps = [operation.map for operation in seen.operations]
    crowded = len({(map.matrix[:2], map.shift[:2]) for map in maps}) > CROWDED
    paper = projection(group, axis, WIDE_CELL if crowded else CELL)
    point, distance = clear_point(maps, paper, APART)
    places = defaultdict(list)
    for operation in seen.operations:
        place = tuple(c % 1 for c in operation.map(point)[:2])
        places[place].append((operation.improper, _height(operation.map, paper.letters)))

    radius = min(5.0 if crowded else 7.0, max(2.4, distance / 4))
    beside = not crowded and all(len(_joined([height])) < 3 for images in places.values() for _, height in images)
    circles = [
        (x, y, [[height for improper, height in images if improper is side] for side in (False, True)])
        for place, images in places.items()
        for x, y in _copies(place, paper, 0 if crowded else BEYOND)
    ]
    labels = Labels()
    for x, y, _ in circles:
        labels.take(around(x, y, 0.75 * radius))
    drawn = [_circle(x, y, radius, *map(bool, sides)) for x, y, sides in circles]
    drawn += [_heights(labels, x, y, radius, sides, beside) for x, y, sides in circles]
    return Drawing(f"General position along {axis}", paper, "".join(drawn), 28.0 if crowded else BEYOND + 22)


def _circle(x: float, y: float, radius: float, proper: bool, improper: bool) -> str:
    """The circle of the general points at one place, of one hand or of both."""
    drawn = symbols.circle(x, y, radius, width=0.9 if radius > 4 else 0.7)
    if proper and improper:
        return drawn + symbols.segment((x, y - radius), (x, y + radius), 0.7) + symbols.comma(x + radius / 2, y, radius / 3)
    return drawn + (symbols.comma(x, y, radius / 2.3) if improper else "")


def _heights(labels: Labels, x: float, y: float, radius: float, sides: list[list[Height]], beside: bool) -> str:
    """The heights of the points at one place; if `beside`, those of the two hands to either side of it."""
    size = max(6.5, min(10.0, 1.5 * radius))
    proper, improper = map(_joined, sides)
    if not (proper and improper and beside):
        return _label(labels, x, y, radius, _joined(sides[0] + sides[1]), size)
    drawn = ""
    for words, at, anchor in ((proper, x - radius - 1, "end"), (improper, x + radius + 1, "start")):
        labels.take(lines_box(at, y - radius * 0.55, [words], size, anchor))
        drawn += _words(at, y - radius * 0.55, words, size, anchor)
    return drawn


def _height(map: Affine, letters: Sequence[str]) -> Height:
    """The height of a turned map's points."""
    row, shift = map.matrix[2], map.shift[2] % 1
    signs = [("−" if factor < 0 else "+") + ("" if abs(factor) == 1 else symbols.fraction(abs(factor))) for factor in row]
    if not any(row[:2]) and abs(row[2]) == 1:
        return shift, signs[2]
    return shift, "".join(sign + letter for factor, sign, letter in zip(row, signs, letters) if factor)


def _joined(heights: Iterable[Height]) -> str:
    """The heights; those that differ by the sign alone as one with the sign ±."""
    left, words = list(dict.fromkeys(heights)), []
    while left:
        constant, variable = left.pop(0)
        opposite = (constant, variable.translate(str.maketrans("+−", "−+")))
        if variable and opposite in left:
            left.remove(opposite)
            variable = "±" + variable[1:].translate(str.maketrans("+−", "±∓" if variable[0] == "+" else "∓±"))
        if constant or not variable:
            words.append(symbols.fraction(constant) + variable)
        else:
            words.append(variable if len(variable) == 1 else variable.removeprefix("+"))
    return ",".join(words)


# ---- points of rows

def draw_positions(group: SpaceGroup, rows: Iterable[int] | None, axis: str) -> Drawing:
    """The points in a cell of rows, which are told by their places in the table; if None, of those that have no free coordinate.
    Beside a point stand its row's place, and the heights."""
    chosen = sorted(set(rows) if rows is not None else {row.place for row in group.rows if row.is_fixed})
    for place in chosen:
        if not 1 <= place <= len(group.rows):
            raise ValueError(f"no row {place}: the table has {len(group.rows)}")
    paper, seen = projection(group, axis, CELL), turned(group, axis)
    point = (Fraction(7, 60), Fraction(11, 60), Fraction(1, 12))
    places = defaultdict(lambda: defaultdict(set))
    for row in seen.rows:
        if row.place in chosen:
            for operation in seen.operations:
                image = operation.map.after(row.form)
                place = tuple(c % 1 for c in image(point)[:2])
                places[place][row.place].add(_height(image, paper.letters))

    points = [(x, y, found) for place, found in places.items() for x, y in _copies(place, paper, 0)]
    labels = Labels()
    for x, y, _ in points:
        labels.take(around(x, y, 2.4))
    drawn = [symbols.circle(x, y, 3.2, fill=symbols.INK) for x, y, _ in points]
    for x, y, found in points:
        words = [(str(row), _joined(sorted(heights))) for row, heights in sorted(found.items())]
        left, base, anchor = labels.beside(x, y, 4.0, [f"{row} {heights}" for row, heights in words], 8.5)
        for line, (row, heights) in enumerate(words):
            text = f'<tspan font-weight="bold">{row}</tspan> {heights}'
            drawn.append(symbols.text(left, base + 8.5 * 1.15 * line, text, 8.5, anchor))
    names = ", ".join(map(str, chosen))
    return Drawing(f"Points of the rows {names} along {axis}", paper, "".join(drawn), 40.0)
