"""The cell of a group seen along one of its axes: where points come to lie on paper.

The reader looks against the axis of projection, which points at him. Of the other two the one that follows it in the cycle
a, b, c points down, and the next one to the right; so along c it is a down and b right, as in ITA 2.1.3.6.
"""

from __future__ import annotations

from collections.abc import Iterable, Sequence
from dataclasses import dataclass, replace
from fractions import Fraction
from itertools import product as choices
from math import hypot, inf, sqrt

from .answers import Affine, Matrix, SpaceGroup, Vector

# Lengths 20, 23 and 26 with angles of 100 degrees: what the lattice leaves free is drawn so.
_FREE = ((400, -80, -90), (-80, 529, -104), (-90, -104, 676))
_STEPS = 59  # a general point is sought among the multiples of this part of a cell, which no symmetry element has


def metric(matrices: Iterable[Matrix]) -> Matrix:
    """A metric that every matrix of a point group keeps: the sum of W^T G W, for the free metric G."""
    total = [[Fraction(0)] * 3 for _ in range(3)]
    for w in matrices:
        for i, j, k, m in choices(range(3), repeat=4):
            if w[k][i] and w[m][j]:
                total[i][j] += w[k][i] * _FREE[k][m] * w[m][j]
    return tuple(map(tuple, total))


def _order(axis: str) -> tuple[int, int, int]:
    """The places of the axis that points down, of that to the right, and of the axis of projection."""
    if axis not in ("a", "b", "c"):
        raise ValueError(f"no axis {axis}: an axis is a, b or c")
    at = "abc".index(axis)
    return (at + 1) % 3, (at + 2) % 3, at


def main_axis(group: SpaceGroup) -> str:
    """The axis of the cell that the symmetry axes of most operations are parallel to, a plane's being its normal; c before b
    before a."""

    def parallel(axis: str) -> int:
        along = [name == axis for name in "abc"]
        return sum(o.axis is not None and [n != 0 for n in o.axis] == along for o in group.operations)

    return max("cba", key=parallel)


def turned_map(map: Affine, axis: str) -> Affine:
    order = _order(axis)
    return Affine(tuple(tuple(map.matrix[i][j] for j in order) for i in order), tuple(map.shift[i] for i in order))


def turned(group: SpaceGroup, axis: str) -> SpaceGroup:
    """The group with its coordinates in the order down, right, up: projected along `axis`, the third one is the height."""

    def turn(vector: Vector) -> Vector:
        return tuple(vector[i] for i in _order(axis))

    return SpaceGroup(
        tuple(
            replace(o, map=turned_map(o.map, axis), intrinsic=turn(o.intrinsic), axis=o.axis and turn(o.axis))
            for o in group.operations
        ),
        tuple(replace(row, form=turned_map(row.form, axis)) for row in group.rows),
    )


@dataclass(frozen=True)
class Projection:
    """Where points of a turned group come to lie on paper: x to the right and y downwards, in pixels from the origin. The names
    and letters are those of the axes and coordinates in the order down, right, up."""

    down: tuple[float, float]
    right: tuple[float, float]
    names: tuple[str, ...]
    letters: tuple[str, ...]

    def place(self, down: Fraction | float, right: Fraction | float) -> tuple[float, float]:
        u, v = float(down), float(right)
        return u * self.down[0] + v * self.right[0], u * self.down[1] + v * self.right[1]

    def box(self) -> tuple[float, float, float, float]:
        """The least x and y of the cell, and the greatest ones."""
        xs, ys = zip(*(self.place(u, v) for u, v in choices((0, 1), repeat=2)))
        return min(xs), min(ys), max(xs), max(ys)


def projection(group: SpaceGroup, axis: str, size: float) -> Projection:
    """The projection of `group`, as it stands before it is turned; `size` is the longer axis of the paper, in pixels.

    The axes of the paper are projected at right angles to the axis of projection. One that is oblique to it comes out
    shorter, and has the index p at its name.
    """
    g = metric({o.map.matrix for o in group.operations})
    i, j, k = order = _order(axis)
    down, right = (sqrt(g[n][n] - g[n][k] ** 2 / g[k][k]) for n in (i, j))
    along = float(g[i][j] - g[i][k] * g[j][k] / g[k][k]) / right
    scale = size / max(down, right)
    names = tuple("abc"[n] + ("ₚ" if n != k and g[n][k] != 0 else "") for n in order)
    return Projection(
        (along * scale, sqrt(down**2 - along**2) * scale), (right * scale, 0.0), names, tuple("xyz"[n] for n in order)
    )


def clear_point(maps: Sequence[Affine], paper: Projection, wanted: float) -> tuple[Vector, float]:
    """A point with an image for each of the turned maps, which lie well apart on the paper; and how far apart, in pixels.

    It is the one nearest to the origin where that is as `wanted`, or else the one where it is most. From the sides of the cell the
    images keep a quarter of that.
    """
    mixing = any(m.matrix[2][0] or m.matrix[2][1] or m.matrix[0][2] or m.matrix[1][2] for m in maps)
    images = {_numbers(m) for m in maps}
    # Two images are as far apart as one of these and another image; for each way in which a height is made there is one.
    starts = {max(m.matrix[2], tuple(-e for e in m.matrix[2])): _numbers(m) for m in reversed(maps)}.values()
    steps = [Fraction(n, _STEPS) for n in (range(3, 30, 3) if mixing else range(2, 30))]
    heights = steps if mixing else [Fraction(5, _STEPS)]
    best, distance = (steps[0], steps[1], steps[2]), -1.0
    for point in sorted(choices(steps, steps, heights), key=lambda p: (hypot(*paper.place(p[0], p[1])), p[2])):
        numbers = tuple(map(float, point))
        least = min(_nearest(start, images, numbers, paper, distance) for start in starts)
        if least > distance:
            least = min(least, *(4 * _to_sides(_at(image, numbers), paper) for image in images))
        if least > distance and len({tuple(c % 1 for c in map(point)) for map in maps}) == len(maps):
            best, distance = point, least
            if least >= wanted:
                break
    return best, distance


_Numbers = tuple[float, ...]


def _numbers(map: Affine) -> _Numbers:
    """The first two rows of a map, each with its shift."""
    return tuple(float(entry) for row, shift in zip(map.matrix[:2], map.shift) for entry in (*row, shift))


def _at(m: _Numbers, point: _Numbers) -> tuple[float, float]:
    x, y, z = point
    return m[0] * x + m[1] * y + m[2] * z + m[3], m[4] * x + m[5] * y + m[6] * z + m[7]


def _nearest(start: _Numbers, images: set[_Numbers], point: _Numbers, paper: Projection, enough: float) -> float:
    """The least distance on paper between the image by `start` and those by the others, or else a value up to `enough` that it
    does not exceed."""
    (u, v), least = _at(start, point), inf
    for image in images - {start}:
        s, t = _at(image, point)
        du, dv = (s - u) % 1.0, (t - v) % 1.0
        for p, q in ((du, dv), (du - 1, dv), (du, dv - 1), (du - 1, dv - 1)):
            right, down = paper.place(p, q)
            least = min(least, hypot(right, down))
        if least <= enough:
            break
    return least


def _to_sides(place: tuple[float, float], paper: Projection) -> float:
    """How far a place of the paper is from the nearest side of a cell."""
    area = abs(paper.down[0] * paper.right[1] - paper.down[1] * paper.right[0])
    sides = zip(place, (hypot(*paper.right), hypot(*paper.down)))
    return min(min(c % 1.0, -c % 1.0) * area / side for c, side in sides)
