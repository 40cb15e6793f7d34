"""Where the symmetry elements of 527 tabulated settings lie, beside the Wyckoff positions that other programs tell of them
(checks/tables): a position with one free coordinate lies on a rotation axis, one with two on a mirror plane. Each setting is
projected along one axis, in turn. checks/draw.sh runs this."""

from __future__ import annotations

import re
import unittest
from collections import Counter
from collections.abc import Iterator, Sequence
from math import gcd, lcm
from pathlib import Path

from groups import PROGRAM, group
from sg.draw.answers import Affine, Vector, read_affine
from sg.draw.geometry import Elements, Glide, elements, flat_line, line_through
from sg.draw.paper import metric, turned, turned_map

TABLE = Path(__file__).resolve().parents[2] / "checks" / "tables" / "settings.txt"


def settings() -> Iterator[tuple[str, str, list[tuple[int, Affine]]]]:
    """The name of each, its operators, and the multiplicity and the points of each position."""
    for block in re.split(r"^= ", TABLE.read_text(), flags=re.M)[1:]:
        operators = re.search(r"^<(.*)$", block, re.M)[1].split()
        positions = re.findall(r"^(\d+) \w+ (\S+,\S+,\S+)$", block, re.M)
        yield block.split("\n")[0], "\n".join(operators) + "\n", [(int(m), read_affine(points)) for m, points in positions]


def rotation(symbol: str) -> int:
    """The order of the rotations about an axis of this name."""
    if symbol in ("-4", "-6"):
        return int(symbol[1:]) // 2
    name = symbol.removesuffix("/m").lstrip("-")
    return gcd(*map(int, name.split("_"))) if "_" in name else int(name)


def whole(vector: Vector) -> list[int]:
    factor = lcm(*(c.denominator for c in vector))
    return [int(c * factor) for c in vector]


@unittest.skipUnless(PROGRAM, "no program is told")
class Tabulated(unittest.TestCase):
    def test_positions_lie_on_elements(self) -> None:
        met = Counter()
        for place, (name, operators, positions) in enumerate(settings()):
            axis = "abc"[place % 3]
            made = turned(group(operators), axis)
            found = elements(made)
            up = metric({operation.map.matrix for operation in made.operations})[2]
            for multiplicity, points in positions:
                form = turned_map(points, axis)
                free = [column for column in zip(*form.matrix) if any(column)]
                level = not any(sum(u * c for u, c in zip(up, column)) for column in free)
                with self.subTest(name, axis=axis, position=points):
                    met[self.lies(found, form, free, level, len(made.operations) // multiplicity)] += 1
        self.assertLess(80, min(met[kind] for kind in ("upright axis", "flat axis", "upright plane", "flat plane")), met)

    def lies(self, found: Elements, form: Affine, free: Sequence[Vector], level: bool, order: int) -> str:
        """Sees that points of a position, whose site-symmetry groups have this order, are on an element; and tells which one. The
        position is level where it is at right angles to the axis of projection."""
        rising = [column for column in free if column[2]]
        if len(free) == 1 and not any(free[0][:2]):
            at = tuple(c % 1 for c in form.shift[:2])
            symbol = next(axis.symbol for axis in found.upright_axes if axis.position == at)
            self.assertIn(order, (rotation(symbol), 2 * rotation(symbol)))
            return "upright axis"
        if len(free) == 1 and level and not rising:
            line, _, height = flat_line(whole(free[0]), form.shift)
            axes = [axis for axis in found.flat_axes if axis.line == line and height % axis.period in axis.heights]
            self.assertTrue(any(order in (rotation(axis.symbol), 2 * rotation(axis.symbol)) for axis in axes), axes)
            return "flat axis"
        if len(free) == 2 and level and not rising:
            glides = [plane.glide for plane in found.flat_planes if plane.height == form.shift[2] % (found.period / 2)]
            self.assertEqual((glides, order), ([Glide.MIRROR], 2))
            return "flat plane"
        if len(free) == 2 and len(rising) == 1 and not any(rising[0][:2]):
            line, _ = line_through(whole(next(column for column in free if not column[2])), form.shift)
            glides = [plane.glide for plane in found.upright_planes if plane.line == line]
            self.assertEqual((glides, order), ([Glide.MIRROR], 2))
            return "upright plane"
        return "none"


if __name__ == "__main__":
    unittest.main()
