"""What `sg` answers of a group, as values: its operations with their types, and the rows of its table of Wyckoff positions.

Translations and points are fractions of the basis vectors (docs/formats.md, "Printed texts").
"""

from __future__ import annotations

import json
import os
import re
import subprocess
from collections.abc import Callable, Sequence
from dataclasses import dataclass
from fractions import Fraction
from functools import cached_property
from typing import Union

Vector = tuple[Fraction, ...]
Matrix = tuple[tuple[Fraction, ...], ...]
Input = Union[str, bytes]

# The words of a command and its input give what the command prints.
Call = Callable[[Sequence[str], Input], str]

_TERM = re.compile(r"([+-]?)(?:(?:(\d+(?:/\d+)?)\*)?([xyz])|(\d+(?:/\d+)?))")


class Refused(ValueError):
    """The program ended with this status, which is not 0, and told this text."""

    def __init__(self, status: int, text: str) -> None:
        super().__init__(text)
        self.status = status


@dataclass(frozen=True)
class Affine:
    """The map x -> matrix x + shift."""

    matrix: Matrix
    shift: Vector

    def __call__(self, point: Vector) -> Vector:
        return tuple(image + s for image, s in zip(times(self.matrix, point), self.shift))

    def after(self, first: Affine) -> Affine:
        return Affine(product(self.matrix, first.matrix), self(first.shift))


@dataclass(frozen=True)
class Operation:
    """An operator with its type (ITA 1.2.2.4): `kind` as 2, m or -3, screw or glide part, direction of the axis."""

    text: str
    map: Affine
    kind: str
    intrinsic: Vector
    axis: tuple[int, ...] | None

    @property
    def improper(self) -> bool:
        return self.kind == "m" or self.kind.startswith("-")

    @property
    def rotation_order(self) -> int:
        """The order of the proper part of its matrix."""
        return 2 if self.kind == "m" else abs(int(self.kind))

    @property
    def order(self) -> int:
        """The order of its matrix."""
        n = self.rotation_order
        return 2 * n if self.improper and n % 2 else n


@dataclass(frozen=True)
class Row:
    """A row of the table of Wyckoff positions: its place, counted from 1; how many points an orbit has in a cell; its map and
    its parameter form as texts; and the map that the form writes, whose points with any free coordinates are those of the row."""

    place: int
    multiplicity: int
    text: str
    parameters: str
    form: Affine

    @property
    def is_fixed(self) -> bool:
        """Whether its points have no free coordinate."""
        return not any(map(any, self.form.matrix))


@dataclass(frozen=True)
class SpaceGroup:
    """The operations of a group modulo whole cells, and its rows."""

    operations: tuple[Operation, ...]
    rows: tuple[Row, ...]

    @cached_property
    def centrings(self) -> frozenset[Vector]:
        """The translations of the lattice, each coordinate from 0 to below 1."""
        return frozenset(o.map.shift for o in self.operations if o.kind == "1")


def times(matrix: Matrix, vector: Sequence[Fraction | int]) -> Vector:
    return tuple(sum((m * v for m, v in zip(row, vector) if m and v), Fraction(0)) for row in matrix)


def product(left: Matrix, right: Matrix) -> Matrix:
    return tuple(zip(*(times(left, column) for column in zip(*right))))


def read_affine(text: str) -> Affine:
    """The map of a printed triplet such as `x-1/2*y,0,z+1/4`."""
    rows, shift = [], []
    for component in text.split(","):
        row, constant = [Fraction(0)] * 3, Fraction(0)
        for sign, factor, letter, number in _TERM.findall(component):
            value = Fraction(sign + (factor or number or "1"))
            if letter:
                row["xyz".index(letter)] += value
            else:
                constant += value
        rows.append(tuple(row))
        shift.append(constant)
    return Affine(tuple(rows), tuple(shift))


def _read_operation(line: str) -> Operation:
    triplet, kind, intrinsic, axis = line.split(" ")
    direction = None if axis == "-" else tuple(int(number) for number in axis.split(","))
    return Operation(triplet, read_affine(triplet), kind, tuple(Fraction(part) for part in intrinsic.split(",")), direction)


def by_program(program: str) -> Call:
    """The answers of the program at this path."""

    def call(words: Sequence[str], text: Input) -> str:
        given = text.encode() if isinstance(text, str) else text
        done = subprocess.run([program, *words], input=given, capture_output=True, check=False)
        if done.returncode != 0:
            told = done.stderr.decode(errors="replace").strip()
            raise Refused(done.returncode, told or f"{program}: status {done.returncode}")
        return done.stdout.decode()

    return call


def default_call() -> Call:
    """The program that SG names in the environment, or else the library."""
    if os.environ.get("SG"):
        return by_program(os.environ["SG"])
    from sg import answer

    return answer


def read_group(text: Input, call: Call | None = None) -> SpaceGroup:
    """The group that the operators of `text` generate, one a line, as `sg types` and `sg report` answer it."""
    ask = call or default_call()
    operations = tuple(map(_read_operation, ask(["types"], text).splitlines()))
    rows = json.loads(ask(["report"], text))["rows"]
    return SpaceGroup(
        operations,
        tuple(
            Row(place, row["mult"], row["text"], row["param"], read_affine(row["param"])) for place, row in enumerate(rows, 1)
        ),
    )
