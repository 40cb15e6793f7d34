"""Where the symmetry elements of a space group lie, and what they are called (ITA 1.2.3, 2.1.2), in exact fractions.

All of this is said of a turned group (`paper.turned`): the paper is the plane of the first two coordinates, down and
right, and the third is the height. An element is upright where it is parallel to the direction of projection, and flat where it
is at right angles to that. Other elements are inclined; their kinds are listed, and they are not located.

Positions are modulo the cell. Heights are modulo the period at which the lattice repeats them: a point of inversion, a flat
plane or a flat twofold axis comes again half a translation higher. The basis is taken as right-handed.
"""

from __future__ import annotations

from collections import defaultdict
from collections.abc import Iterable, Iterator, Sequence
from dataclasses import dataclass
from enum import Enum
from fractions import Fraction
from functools import lru_cache
from itertools import product as choices
from math import gcd

from .answers import Matrix, Operation, SpaceGroup, Vector, times

Pair = tuple[Fraction, Fraction]

_UP = (0, 0, 1)
_FINEST = 24  # `sg` has translations in twenty-fourths of a cell.


class Glide(Enum):
    """What a plane does besides the reflection: by half of which translation of the lattice it glides. The first direction and
    the second are of an upright plane that of its line on the paper and the height, of a flat one down and right."""

    MIRROR = "of none"
    ALONG = "of one along the first direction"
    ACROSS = "of one along the second direction"
    BOTH = "of one along the first direction, and of one along the second"
    DIAGONAL = "of the sum of one along either direction"
    QUARTER = "of one that is no such sum"


@dataclass(frozen=True)
class UprightAxis:
    """An axis seen end on, or an inversion point that lies on none. The heights are those of its inversion points, or of its
    points of rotoinversion where these give it its name."""

    position: Pair
    symbol: str
    heights: tuple[Fraction, ...]


@dataclass(frozen=True)
class Line:
    """A line on paper: the points with normal . (down, right) = offset + m, for every whole m; 0 <= offset < 1."""

    normal: tuple[int, int]
    offset: Fraction

    @property
    def direction(self) -> tuple[int, int]:
        return -self.normal[1], self.normal[0]

    def point(self, m: int, multiple: Fraction) -> Pair:
        """The point of its copy m that is so many directions beyond a certain point of that, its foot."""
        foot = _whole_point(self.normal)
        return tuple(f * (self.offset + m) + multiple * d for f, d in zip(foot, self.direction))


@dataclass(frozen=True)
class UprightPlane:
    """A plane seen edge on. Where the glide is QUARTER, `way` is the sign of its part along the line's direction when it goes
    upwards by the least height, and else 0."""

    line: Line
    glide: Glide
    way: int


@dataclass(frozen=True)
class FlatPlane:
    """A plane in the paper's own. The height is that above the origin; the vectors are its shortest glides, on paper."""

    height: Fraction
    glide: Glide
    vectors: tuple[Pair, ...]


@dataclass(frozen=True)
class FlatAxis:
    """An axis in the paper's plane. The heights are those above the foot of its line, modulo `period`; they change by `slope`
    with each direction, and so not at all where that is a sum of the paper's basis vectors."""

    line: Line
    symbol: str
    heights: tuple[Fraction, ...]
    slope: Fraction
    period: Fraction

    def heights_at(self, multiple: Fraction) -> list[Fraction]:
        """The heights so many directions beyond the foot."""
        return sorted((height + self.slope * multiple) % self.period for height in self.heights)


@dataclass(frozen=True)
class Elements:
    upright_axes: tuple[UprightAxis, ...]
    upright_planes: tuple[UprightPlane, ...]
    flat_axes: tuple[FlatAxis, ...]
    flat_planes: tuple[FlatPlane, ...]
    period: Fraction  # the least translation along the direction of projection
    inclined: tuple[str, ...]  # the kinds of operations whose elements are inclined


def elements(group: SpaceGroup) -> Elements:
    """The elements of a turned group."""
    period = least_translation(group.centrings, _UP)
    points, lines, inclined = defaultdict(list), defaultdict(list), set()
    upright_planes, flat_planes = set(), set()
    for operation in group.operations:
        if operation.kind == "1":
            continue
        up = [row[2] for row in _onto_axis(operation)]
        upright = operation.kind == "-1" or not any(up[:2]) and up[2] != 0
        if not upright and any(up):
            inclined.add(operation.kind)
            continue
        for point, intrinsic in located(operation):
            if operation.kind == "m":
                plane = (_flat_plane if upright else _upright_plane)(group, operation, point, intrinsic)
                (flat_planes if upright else upright_planes).add(plane)
            elif upright:
                points[point[:2]].append((operation.kind, _screw(group, operation, _UP, intrinsic), point[2]))
            else:
                line, slope, height = flat_line(operation.axis, point)
                for n in range(slope.denominator):
                    entry = operation.kind, _screw(group, operation, operation.axis, intrinsic), point[2]
                    lines[line, slope, (height + n * slope) % period].append(entry)

    return Elements(
        tuple(sorted((_upright_axis(at, found, period) for at, found in points.items()), key=lambda axis: axis.position)),
        tuple(sorted(upright_planes, key=lambda plane: (plane.line.normal, plane.line.offset))),
        tuple(sorted(_flat_axes(lines, period), key=lambda axis: (axis.line.normal, axis.line.offset, axis.heights))),
        tuple(sorted(flat_planes, key=lambda plane: plane.height)),
        period,
        tuple(sorted(inclined)),
    )


# ---- one operation

def _weighted_powers(matrix: Matrix, weights: Sequence[int]) -> list[list[int]]:
    """The sum of the powers of the matrix, of whole numbers, from the power 0 on, each with its weight."""
    power = [[int(i == j) for j in range(3)] for i in range(3)]
    total = [[0] * 3 for _ in range(3)]
    for weight in weights:
        total = [[t + weight * p for t, p in zip(row, powers)] for row, powers in zip(total, power)]
        power = [[sum(int(m) * row[j] for m, row in zip(left, power)) for j in range(3)] for left in matrix]
    return total


def _onto_axis(operation: Operation) -> list[list[int]]:
    """A multiple of the projection onto the axis of the operation's proper part, at right angles to it in any metric that the
    group keeps."""
    sign = -1 if operation.improper else 1
    proper = tuple(tuple(sign * e for e in row) for row in operation.map.matrix)
    return _weighted_powers(proper, [1] * operation.rotation_order)


def located(operation: Operation) -> Iterator[tuple[Vector, Vector]]:
    """The elements of an operation with whole shifts added to it: a point of each, modulo the cell, and the screw or glide part
    that the operation has with that shift.

    Without its intrinsic part v the operation has a fixed point, the mean of the images of the origin under its k powers:
    (1/k) sum of (k-1-i) W^i v over i from 0 to k-2 (ITA 1.2.2.4). A shift by k m is one by (I - W) m' for a whole m', up to
    moves along the element, and so moves the point by whole cells; so shifts from 0 to k - 1 suffice.
    """
    k = operation.order
    unit, cell = _FINEST * k, _FINEST * k * k  # intrinsic parts are counted in 1 / unit, points in 1 / cell
    along = _weighted_powers(operation.map.matrix, [1] * k)
    centre = _weighted_powers(operation.map.matrix, [k - 1 - i for i in range(k)])
    translation, own = ([int(unit * c) for c in vector] for vector in (operation.map.shift, operation.intrinsic))
    met = set()
    for shift in choices(range(k), repeat=3):
        intrinsic = [i + _FINEST * sum(a * n for a, n in zip(row, shift)) for i, row in zip(own, along)]
        rest = [t + unit * n - i for t, n, i in zip(translation, shift, intrinsic)]
        point = tuple(sum(c * r for c, r in zip(row, rest)) % cell for row in centre)
        if point not in met:
            met.add(point)
            yield tuple(Fraction(c, cell) for c in point), tuple(Fraction(i, unit) for i in intrinsic)


@lru_cache(maxsize=256)
def least_translation(centrings: frozenset[Vector], direction: tuple[int, ...]) -> Fraction:
    """The least multiple of the direction that is a translation of the lattice. Its numbers have no common divisor."""
    return Fraction(1, next(n for n in range(_FINEST, 0, -1) if tuple(Fraction(d, n) % 1 for d in direction) in centrings))


def _screw(group: SpaceGroup, operation: Operation, axis: tuple[int, ...], intrinsic: Vector) -> Fraction:
    """The screw part in least translations along the axis, for the turn that is counter-clockwise when seen against it."""
    at = next(i for i in range(3) if axis[i] != 0)
    screw = intrinsic[at] / axis[at] / least_translation(group.centrings, axis)
    (a, b, c), sign = axis, -1 if operation.improper else 1
    for v in ((1, 0, 0), (0, 1, 0), (0, 0, 1)):
        x, y, z = (sign * e for e in times(operation.map.matrix, v))
        volume = a * (v[1] * z - v[2] * y) + b * (v[2] * x - v[0] * z) + c * (v[0] * y - v[1] * x)
        if volume != 0:
            return screw if volume > 0 else -screw
    return screw


# ---- axes: of each operation on one its kind, screw part and height

def _axis_symbol(found: Iterable[tuple[str, Fraction, Fraction]]) -> str:
    """The name of an axis, as 3_1, -4 or 2/m, from all the operations on it."""
    screws = {kind: screw for kind, screw, _ in found}
    n = max((int(kind) for kind in screws if not kind.startswith("-")), default=1)
    p = int(n * (screws[str(n)] % 1)) if n > 1 else 0
    name = f"{n}_{p}" if p else str(n)
    if (n == 2 and "-4" in screws) or (n == 3 and "-6" in screws):
        return f"-{2 * n}"
    if "-1" in screws or (n == 3 and "-3" in screws):
        return {1: "-1", 3: "-3"}.get(n, name + "/m")
    return name


def _upright_axis(position: Pair, found: list[tuple[str, Fraction, Fraction]], period: Fraction) -> UprightAxis:
    symbol = _axis_symbol(found)
    named = symbol if symbol in ("-4", "-6") else "-1"
    return UprightAxis(position, symbol, tuple(sorted({height % (period / 2) for kind, _, height in found if kind == named})))


def _flat_axes(lines: dict, period: Fraction) -> Iterator[FlatAxis]:
    by_symbol = defaultdict(set)
    for (line, slope, height), found in lines.items():
        by_symbol[line, slope, _axis_symbol(found).removesuffix("/m")].add(height)
    for (line, slope, symbol), heights in by_symbol.items():
        again = period / 2 if all((height + period / 2) % period in heights for height in heights) else period
        yield FlatAxis(line, symbol, tuple(sorted({height % again for height in heights})), slope, again)


# ---- lines on paper

def _whole_point(normal: tuple[int, int]) -> tuple[int, int]:
    """Whole numbers with which the normal, which has no common divisor, gives 1."""
    (a, b), (x, y) = normal, (1, 0)
    u, v = 0, 1
    while b:
        q = a // b
        a, b, x, u, y, v = b, a - q * b, u, x - q * u, v, y - q * v
    return (x, y) if a == 1 else (-x, -y)


def line_through(direction: Sequence[Fraction | int], point: Vector) -> tuple[Line, int]:
    """The line in that direction through the point, and the m of its copy that has the point."""
    a, b = (int(d) for d in direction[:2])
    normal = (b // gcd(a, b), -a // gcd(a, b))
    if normal < (0, 0):
        normal = (-normal[0], -normal[1])
    place = normal[0] * point[0] + normal[1] * point[1]
    return Line(normal, place % 1), place // 1


def flat_line(axis: Sequence[int], point: Vector) -> tuple[Line, Fraction, Fraction]:
    """The line of a flat axis through the point, its slope, and its height above the foot."""
    line, m = line_through(axis, point)
    at = 0 if line.direction[0] else 1
    slope = Fraction(axis[2] * line.direction[at], axis[at])
    return line, slope, point[2] - slope * (point[at] - line.point(m, 0)[at]) / line.direction[at]


# ---- planes

def _glides(lattice: set[Pair], part: Pair, cells: int) -> tuple[Glide, list[Pair]]:
    """What a plane does, and all its glides: those that differ from `part` by a translation of the lattice in the plane, which
    is listed modulo so many cells. Twice a glide is such a translation."""
    found = [((part[0] + u) % cells, (part[1] + v) % cells) for u, v in lattice]
    if (0, 0) in found:
        return Glide.MIRROR, found
    along, across = any(v == 0 for _, v in found), any(u == 0 for u, _ in found)
    if along or across:
        return Glide.BOTH if along and across else Glide.ALONG if along else Glide.ACROSS, found
    apart = any((2 * u % cells, 0) in lattice and (0, 2 * v % cells) in lattice for u, v in found)
    return Glide.DIAGONAL if apart else Glide.QUARTER, found


def _upright_plane(group: SpaceGroup, operation: Operation, point: Vector, intrinsic: Vector) -> UprightPlane:
    (a, b, _), (c, d, _), _ = operation.map.matrix
    across = (a - 1, b) if (a, b) != (1, 0) else (c, d - 1)
    line, _ = line_through((-across[1], across[0]), point)
    a, b = line.direction
    steps = [Fraction(n, _FINEST) for n in range(_FINEST)]
    lattice = {(s, c[2]) for s in steps for c in group.centrings if (s * a % 1, s * b % 1) == c[:2]}
    glide, glides = _glides(lattice, (intrinsic[0] / a if a else intrinsic[1] / b, intrinsic[2]), 1)
    if glide is not Glide.QUARTER:
        return UprightPlane(line, glide, 0)
    _, along = min((height, along) for along, height in glides)
    return UprightPlane(line, glide, 1 if along < Fraction(1, 2) else -1)


def _flat_plane(group: SpaceGroup, operation: Operation, point: Vector, intrinsic: Vector) -> FlatPlane:
    # A vector of the plane is fixed by W: its height is half of tilt . (down, right).
    tilt, period = operation.map.matrix[2][:2], least_translation(group.centrings, _UP)
    lattice = set()
    for c, m, n in choices(group.centrings, range(2), range(2)):
        u, v = c[0] + m, c[1] + n
        if ((tilt[0] * u + tilt[1] * v) / 2 - c[2]).denominator == 1:
            lattice.add((u, v))
    glide, glides = _glides(lattice, (intrinsic[0], intrinsic[1]), 2)
    centred = [(1 - (1 - u) % 2, 1 - (1 - v) % 2) for u, v in glides]
    shortest = sorted(centred, key=lambda glide: (abs(glide[0]) + abs(glide[1]), -glide[0], -glide[1]))
    along, across = (next((g for g in shortest if g[i] == 0), None) for i in (1, 0))
    vectors = {Glide.MIRROR: (), Glide.BOTH: (along, across)}.get(glide, (along or across or shortest[0],))
    height = point[2] - (tilt[0] * point[0] + tilt[1] * point[1]) / 2
    return FlatPlane(height % (period / 2), glide, vectors)
