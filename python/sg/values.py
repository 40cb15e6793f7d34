"""What a group answers, as values."""

from __future__ import annotations

import enum
from fractions import Fraction
from typing import Any, Iterator, NamedTuple, Optional, Sequence, Tuple

from .coordinates import Coordinate, exact

PARTS = 24
"""A translation counts twenty-fourths of a cell, and a phase so many times 180 degrees over this number."""

Index = Tuple[int, int, int]
Point = Tuple[Fraction, Fraction, Fraction]


def triplet(matrix: Sequence[Sequence[Coordinate]], shift: Sequence[Fraction]) -> str:
    """The map x -> matrix x + shift as the program prints it (docs/formats.md, "Printed texts")."""
    return ",".join(_component(row, constant) for row, constant in zip(matrix, shift))


def _component(row: Sequence[Coordinate], constant: Fraction) -> str:
    terms = [{1: letter, -1: f"-{letter}"}.get(number, f"{number}*{letter}") for number, letter in zip(row, "xyz") if number]
    if constant:
        terms.append(str(constant))
    return "+".join(terms).replace("+-", "-") or "0"


class Operator(NamedTuple):
    """x -> W x + t: the matrix, row by row, and the translation, in parts of a cell from 0 to below 1. As a text it is its
    triplet."""

    w: Tuple[Tuple[int, int, int], ...]
    t: Point

    def __str__(self) -> str:
        return triplet(self.w, self.t)

    def __call__(self, x: Coordinate, y: Coordinate, z: Coordinate) -> Point:
        """The image of a point."""
        point = [exact(value) for value in (x, y, z)]
        first, second, third = (sum((n * v for n, v in zip(row, point)), constant) for row, constant in zip(self.w, self.t))
        return first, second, third


class OperatorType(NamedTuple):
    """What an operator is (International Tables A 1.2.2.4): its kind, as `2`, `m` or `-3`; its intrinsic part, the translation
    along the axis or the plane, in parts of a cell and not reduced modulo a cell; and the direction of its axis, where it has one.
    As a text it is a line of `sg types`."""

    operator: Operator
    kind: str
    intrinsic: Point
    axis: Optional[Index]

    def __str__(self) -> str:
        axis = "-" if self.axis is None else ",".join(map(str, self.axis))
        return f"{self.operator} {self.kind} {','.join(map(str, self.intrinsic))} {axis}"


class Row(NamedTuple):
    """A row of the table of Wyckoff positions: how many points an orbit has in a cell; the matrix and the shift of its map, onto
    which some image of each of its points falls; and its parameter form, in which a letter is a coordinate that may be chosen."""

    multiplicity: int
    w: Tuple[Tuple[Fraction, Fraction, Fraction], ...]
    t: Point
    form: str

    @property
    def key(self) -> str:
        """The map as a triplet."""
        return triplet(self.w, self.t)


class Mark(enum.IntEnum):
    """Whether a reflection may have any phase, has one of two opposite phases, or is systematically absent."""

    FREE = 0
    RESTRICTED = 1
    ABSENT = 2


class Reflection(NamedTuple):
    """How many reflections are equivalent to one, itself among them; how many operators (W, t) have h W = h; and its mark. `phase`
    is in parts of PARTS times 180 degrees where the phase is restricted, which it is to this one or the opposite; else it is 0."""

    class_size: int
    fixers: int
    mark: Mark
    phase: int


class Site(NamedTuple):
    """The order of the site-symmetry group of a point, and how many points its orbit has in a cell."""

    order: int
    multiplicity: int


class Reflections:
    """The answers of many reflections as parallel arrays: `indices` of shape (n, 3), and `class_size`, `fixers`, `mark` and
    `phase`, as in Reflection. They are memoryviews, which numpy.asarray takes without a copy, or numpy's arrays, where the indices
    were one. A place gives a Reflection."""

    def __init__(self, indices: Any, class_size: Any, fixers: Any, mark: Any, phase: Any) -> None:
        self.indices = indices
        self.class_size = class_size
        self.fixers = fixers
        self.mark = mark
        self.phase = phase

    def __repr__(self) -> str:
        return f"<sg.Reflections of {len(self)}>"

    def __len__(self) -> int:
        return len(self.mark)

    def __getitem__(self, place: int) -> Reflection:
        return Reflection(int(self.class_size[place]), int(self.fixers[place]), Mark(self.mark[place]), int(self.phase[place]))

    def __iter__(self) -> Iterator[Reflection]:
        return (self[place] for place in range(len(self)))


class Sites:
    """The answers of many points as parallel arrays, `order` and `multiplicity`, as in Site; what Reflections says of arrays holds
    here too. A place gives a Site."""

    def __init__(self, order: Any, multiplicity: Any) -> None:
        self.order = order
        self.multiplicity = multiplicity

    def __repr__(self) -> str:
        return f"<sg.Sites of {len(self)}>"

    def __len__(self) -> int:
        return len(self.order)

    def __getitem__(self, place: int) -> Site:
        return Site(int(self.order[place]), int(self.multiplicity[place]))

    def __iter__(self) -> Iterator[Site]:
        return (self[place] for place in range(len(self)))


class MergedReflection(NamedTuple):
    """A class of measured reflections: its greatest index, by h, then by k, then by l; how many were measured; the sum of their
    values; and whether it is systematically absent."""

    index: Index
    count: int
    sum: int
    is_absent: bool


class Merged(NamedTuple):
    """The classes that were measured, descending by their indices; and the indices of those that are systematically absent
    although a value of theirs is not 0."""

    classes: Tuple[MergedReflection, ...]
    observed_absences: Tuple[Index, ...]


class Orbit(NamedTuple):
    """A site with the points of its orbit in the cell, each coordinate from 0 to below 1, ascending; or, where an earlier site has
    the same orbit, `same_as` is the place of the first such one, from 0, and `points` is empty."""

    label: str
    points: Tuple[Point, ...]
    same_as: Optional[int]


class SummedMap(NamedTuple):
    """For each grid point, in the order of the map, the sum of the map over the points of its orbit in a cell: an array of 64 bits,
    of shape (a, b, c) where it is numpy's. And the sum of the whole map. The sums of a map of ones are how many points the orbits
    have."""

    sums: Any
    total: int
