"""Where symmetry elements lie and what they are called, compared with the space-group tables of International Tables A, and with
what a change of basis makes of them. checks/draw.sh runs this."""

from __future__ import annotations

import unittest
from fractions import Fraction as F

from groups import FM3M, I41AMD, P1BAR, P2_OBLIQUE, P21C, P21C_SHEARED, P41, P43, P6MMM, P212121, PROGRAM, R3BAR, R3BAR_PRIMITIVE, group
from sg.draw.geometry import Elements, FlatPlane, Glide, Line, elements
from sg.draw.paper import main_axis, projection, turned


def seen(text: str, axis: str) -> Elements:
    return elements(turned(group(text), axis))


def axes(found: Elements) -> dict[str, tuple[str, ...]]:
    """The symbol and the heights of the upright axes, by their positions."""
    return {" ".join(map(str, axis.position)): (axis.symbol, *map(str, axis.heights)) for axis in found.upright_axes}


def flat(found: Elements) -> set[tuple[Line, str, tuple[F, ...]]]:
    return {(axis.line, axis.symbol, axis.heights) for axis in found.flat_axes}


def planes(found: Elements) -> dict[Line, Glide]:
    return {plane.line: plane.glide for plane in found.upright_planes}


def x_is(numerator: int, denominator: int = 1) -> Line:
    """The line on paper whose first coordinate is this; that of which the second one is, by `y_is`."""
    return Line((1, 0), F(numerator, denominator))


def y_is(numerator: int, denominator: int = 1) -> Line:
    return Line((0, 1), F(numerator, denominator))


@unittest.skipUnless(PROGRAM, "no program is told")
class Located(unittest.TestCase):
    def test_p1bar(self) -> None:
        """No. 2: inversion points at all halves."""
        found = seen(P1BAR, "a")
        self.assertEqual(axes(found), {f"{y} {z}": ("-1", "0") for y in ("0", "1/2") for z in ("0", "1/2")})
        self.assertEqual((found.upright_planes, found.flat_axes, found.flat_planes, found.inclined), ((), (), (), ()))

    def test_p21c(self) -> None:
        """No. 14, unique axis b, cell choice 1: inversion points at halves, 2_1 at 0,y,1/4, and c at x,1/4,z."""
        along_b = seen(P21C, "b")
        screws = {f"{z} {x}": ("2_1",) for z in ("1/4", "3/4") for x in ("0", "1/2")}
        centres = {f"{z} {x}": ("-1", "0") for z in ("0", "1/2") for x in ("0", "1/2")}
        self.assertEqual(axes(along_b), screws | centres)
        self.assertEqual(along_b.flat_planes, (FlatPlane(F(1, 4), Glide.ALONG, ((F(1, 2), F(0)),)),))
        self.assertEqual((along_b.upright_planes, along_b.flat_axes), ((), ()))
        along_c = seen(P21C, "c")
        self.assertEqual(planes(along_c), {y_is(1, 4): Glide.ACROSS, y_is(3, 4): Glide.ACROSS})
        self.assertEqual(flat(along_c), {(x_is(n, 2), "2_1", (F(1, 4),)) for n in (0, 1)})
        along_a = seen(P21C, "a")  # b is down, c to the right
        self.assertEqual(planes(along_a), {x_is(1, 4): Glide.ALONG, x_is(3, 4): Glide.ALONG})
        self.assertEqual(flat(along_a), {(y_is(n, 4), "2_1", (F(0),)) for n in (1, 3)})

    def test_p212121(self) -> None:
        """No. 19: 2_1 at 1/4,0,z, at x,1/4,0 and at 0,y,1/4."""
        found = seen(P212121, "c")
        self.assertEqual(axes(found), {f"{x} {y}": ("2_1",) for x in ("1/4", "3/4") for y in ("0", "1/2")})
        along_a = {(y_is(n, 4), "2_1", (F(0),)) for n in (1, 3)}
        self.assertEqual(flat(found), along_a | {(x_is(n, 2), "2_1", (F(1, 4),)) for n in (0, 1)})
        self.assertEqual((found.upright_planes, found.flat_planes, found.inclined), ((), (), ()))

    def test_p41(self) -> None:
        """No. 76: 4_1 at 0,0,z and 1/2,1/2,z, 2_1 at 0,1/2,z. No. 78: 4_3."""
        self.assertEqual(axes(seen(P41, "c")), {"0 0": ("4_1",), "1/2 1/2": ("4_1",), "0 1/2": ("2_1",), "1/2 0": ("2_1",)})
        self.assertEqual(axes(seen(P43, "c"))["0 0"], ("4_3",))

    def test_r3bar(self) -> None:
        """No. 148, hexagonal axes: -3 at 0,0,0 and by (2/3,1/3,1/3), inversion points at 1/2,0,0, and 3_1 and 3_2 between."""
        found = axes(seen(R3BAR, "c"))
        self.assertEqual([found[at] for at in ("0 0", "2/3 1/3", "1/3 2/3")], [("-3", "0"), ("-3", "1/3"), ("-3", "1/6")])
        self.assertEqual({at for at, axis in found.items() if axis == ("3_1",)}, {"1/3 1/3", "0 2/3", "2/3 0"})
        self.assertEqual({at for at, axis in found.items() if axis == ("3_2",)}, {"2/3 2/3", "0 1/3", "1/3 0"})
        self.assertEqual([found[at] for at in ("1/2 0", "1/6 1/3", "5/6 2/3")], [("-1", "0"), ("-1", "1/3"), ("-1", "1/6")])
        self.assertEqual(len(found), 18)

    def test_r3bar_on_primitive_axes(self) -> None:
        """The threefold axis along [111] is inclined to each axis of the cell; inversion points stay."""
        found = seen(R3BAR_PRIMITIVE, "c")
        self.assertEqual(found.inclined, ("-3", "3"))
        self.assertEqual({axis.symbol for axis in found.upright_axes}, {"-1"})

    def test_p6mmm(self) -> None:
        """No. 191: 6/m at 0,0,0, -6 at 1/3,2/3,0, 2/m at 1/2,0,0; mirror planes with glide planes halfway between."""
        found = seen(P6MMM, "c")
        twofold = {at: ("2/m", "0") for at in ("0 1/2", "1/2 0", "1/2 1/2")}
        self.assertEqual(axes(found), {"0 0": ("6/m", "0"), "1/3 2/3": ("-6", "0"), "2/3 1/3": ("-6", "0")} | twofold)
        expected = {}
        for normal in ((1, 0), (0, 1), (1, 1), (1, -1), (2, -1), (1, -2)):
            expected |= {Line(normal, F(0)): Glide.MIRROR, Line(normal, F(1, 2)): Glide.ALONG}
        self.assertEqual(planes(found), expected)
        self.assertEqual(found.flat_planes, (FlatPlane(F(0), Glide.MIRROR, ()),))

    def test_i41amd(self) -> None:
        """No. 141, origin choice 2: m at 0,y,z and n at x,0,z, a at x,y,0, -4 at 0,1/4,3/8, 4_1 and 4_3 at a quarter along a,
        diamond glides along the diagonals."""
        found = seen(I41AMD, "c")
        named = axes(found)
        self.assertEqual([named[at] for at in ("0 1/4", "0 3/4")], [("-4", "3/8"), ("-4", "1/8")])
        self.assertEqual([named[at] for at in ("3/4 1/2", "1/4 0", "1/4 1/2")], [("4_1",), ("4_1",), ("4_3",)])
        self.assertEqual([named[at] for at in ("0 0", "1/4 1/4")], [("-1", "0"), ("-1", "1/4")])
        glides = planes(found)
        self.assertEqual([glides[x_is(0)], glides[x_is(1, 4)]], [Glide.MIRROR, Glide.DIAGONAL])
        self.assertEqual([glides[y_is(0)], glides[y_is(1, 4)]], [Glide.DIAGONAL, Glide.MIRROR])
        self.assertEqual([glides[Line((1, 1), F(0))], glides[Line((1, -1), F(0))]], [Glide.QUARTER] * 2)
        self.assertEqual([(p.height, p.glide) for p in found.flat_planes], [(F(0), Glide.ACROSS), (F(1, 4), Glide.ALONG)])

    def test_diamond_glides_of_i41amd(self) -> None:
        """-y+1/4,-x+3/4,z+1/4 glides by -1/4,1/4,1/4 in x+y = 1/2; with 1,0,0 added it glides by 1/4,-1/4,1/4 in x+y = 1."""
        ways = {plane.line: plane.way for plane in seen(I41AMD, "c").upright_planes}
        self.assertEqual(Line((1, 1), F(1, 2)).direction, (-1, 1))
        self.assertEqual([ways[Line((1, 1), F(1, 2))], ways[Line((1, 1), F(0))]], [1, -1])

    def test_fm3m_leaves_out_what_is_inclined(self) -> None:
        found = seen(FM3M, "c")
        self.assertEqual(found.inclined, ("-3", "2", "3", "m"))
        named = [axes(found)[at] for at in ("0 0", "1/4 1/4", "0 1/4")]
        self.assertEqual(named, [("4/m", "0"), ("4_2/m", "0"), ("2_1/m", "1/4")])

    def test_a_sheared_setting(self) -> None:
        """P2_1/c in the coordinates x + y, y, z: the points are where they were, the 2_1 axes are along [110] now."""
        found = seen(P21C_SHEARED, "c")
        self.assertEqual(axes(found), axes(seen(P21C, "c")))
        self.assertEqual(planes(found), {y_is(1, 4): Glide.ACROSS, y_is(3, 4): Glide.ACROSS})
        self.assertEqual(flat(found), {(Line((1, -1), F(n, 2)), "2_1", (F(1, 4),)) for n in (0, 1)})

    def test_axes_whose_height_changes(self) -> None:
        """P2 with axes at 1/4,y,0 in the coordinates x + y, y, y + z: an axis x0,y,z0, with x0 an odd multiple of 1/4 and z0 one of
        1/2, is at the height x0 + y along a, and at z0 + y along c."""
        along_a, along_c = (seen(P2_OBLIQUE, axis).flat_axes for axis in "ac")
        self.assertEqual({(axis.line, axis.symbol) for axis in along_a}, {(Line((1, -1), F(n, 2)), "2") for n in (0, 1)})
        self.assertEqual({(axis.line, axis.symbol) for axis in along_c}, {(Line((1, -1), F(n, 4)), "2") for n in (1, 3)})
        for multiple in (F(0), F(1, 3), F(2)):
            for axis in along_a:
                y, _ = axis.line.point(0, multiple)
                self.assertEqual(axis.heights_at(multiple), [(y + F(1, 4)) % F(1, 2)])
            for axis in along_c:
                _, y = axis.line.point(0, multiple)
                self.assertEqual(axis.heights_at(multiple), [y % F(1, 2)])

    def test_elements_are_carried_to_elements(self) -> None:
        """Each operation takes an upright axis to an upright axis of that name, or of the other hand where it is improper."""
        for text, axis in ((P41, "c"), (R3BAR, "c"), (P6MMM, "c"), (I41AMD, "c"), (P21C_SHEARED, "b"), (P212121, "a")):
            made = turned(group(text), axis)
            named = {axis.position: axis.symbol for axis in elements(made).upright_axes}
            other = {"3_1": "3_2", "3_2": "3_1", "4_1": "4_3", "4_3": "4_1"}
            for operation in made.operations:
                for (u, v), symbol in named.items():
                    image = operation.map((u, v, F(0)))
                    with self.subTest(text, operation=operation.text, axis=(u, v)):
                        at = image[0] % 1, image[1] % 1
                        self.assertEqual(named[at], other.get(symbol, symbol) if operation.improper else symbol)


@unittest.skipUnless(PROGRAM, "no program is told")
class Projected(unittest.TestCase):
    def test_hexagonal_axes_are_at_120_degrees(self) -> None:
        paper = projection(group(P6MMM), "c", 100.0)
        self.assertAlmostEqual(paper.right[0], 100.0)
        self.assertAlmostEqual(paper.down[0], -50.0)
        self.assertAlmostEqual(paper.down[1], 75.0**0.5 * 10)

    def test_an_axis_oblique_to_that_of_projection_is_named_so(self) -> None:
        self.assertEqual(projection(group(P21C), "c", 100.0).names, ("aₚ", "b", "c"))
        self.assertEqual(projection(group(P21C), "b", 100.0).names, ("c", "a", "b"))

    def test_main_axis(self) -> None:
        for text, axis in ((P21C, "b"), (P212121, "c"), (I41AMD, "c"), (P1BAR, "c")):
            self.assertEqual(main_axis(group(text)), axis)


if __name__ == "__main__":
    unittest.main()
