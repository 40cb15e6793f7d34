"""A group as a collection of operators, and each question on what the worked examples and International Tables A say."""

from __future__ import annotations

import copy
import ctypes
import pickle
import threading
import unittest
from array import array
from fractions import Fraction

import sg
from sg import _arrays
from inputs import P21C, P31, expected, group_text, with_library

HALF = Fraction(1, 2)


def point(*texts: str) -> tuple:
    return tuple(map(Fraction, texts))


class Refusals(unittest.TestCase):
    def refused(self, status: sg.Status, text: str, ask, line=None, place=None) -> None:
        with self.assertRaises(sg.Error) as caught:
            ask()
        error = caught.exception
        self.assertEqual((error.status, error.text, error.line, error.place), (status, text, line, place))
        again = pickle.loads(pickle.dumps(error))
        self.assertEqual((again.status, again.text, again.line, again.place), (status, text, line, place))


@with_library
class Collection(Refusals):
    def setUp(self) -> None:
        self.group = sg.Group(P21C)

    def test_operators_of_p21c(self):
        # International Tables A, No. 14, unique axis b, cell choice 1, in the group's order.
        triplets = ("x,y,z", "x,-y+1/2,z+1/2", "-x,y+1/2,-z+1/2", "-x,-y,-z")
        self.assertEqual(self.group.triplets(), triplets)
        self.assertEqual(tuple(map(str, self.group)), triplets)
        self.assertEqual(len(self.group), 4)
        self.assertEqual(self.group.order, 4)
        glide = self.group.operators[1]
        self.assertEqual(glide, (((1, 0, 0), (0, -1, 0), (0, 0, 1)), (0, HALF, HALF)))
        self.assertTrue(all(isinstance(part, Fraction) for part in glide.t))
        self.assertEqual(glide("0.1", Fraction(1, 5), 1), (Fraction(1, 10), Fraction(3, 10), Fraction(3, 2)))
        self.assertIn(glide, self.group)

    def test_inputs(self):
        for given in (P21C.encode(), P21C.splitlines(), iter(["-x,-y,-z", "x,-y+1/2,z+1/2"]), self.group, self.group.operators):
            with self.subTest(given):
                self.assertEqual(sg.Group(given), self.group)
        self.assertEqual(sg.Group("").triplets(), ("x,y,z",))
        self.assertEqual(sg.Group([]), sg.Group("x,y,z"))

    def test_printed_operators_are_those_of_the_program(self):
        for name in ("fm-3m", "p6mmm", "p31", "p41", "p212121"):
            with self.subTest(name):
                text = group_text(name)
                self.assertEqual("\n".join(sg.Group(text).triplets()) + "\n", sg.answer("ops", text))

    def test_equal_and_hash(self):
        same, other = sg.Group(["-x,-y,-z", "x,-y+1/2,z+1/2"]), sg.Group("-x,-y,-z")
        self.assertEqual(same, self.group)
        self.assertEqual(len({same, self.group, other}), 2)
        self.assertNotEqual(other, self.group)
        self.assertNotEqual(self.group, self.group.operators)

    def test_repr(self):
        self.assertEqual(repr(sg.Group("-x,-y,-z")), "<sg.Group of 2: x,y,z; -x,-y,-z>")
        self.assertEqual(repr(self.group.reflections([(0, 0, 0)])), "<sg.Reflections of 1>")
        self.assertEqual(repr(self.group.sites([])), "<sg.Sites of 0>")
        self.assertTrue(repr(sg.Group("-y,x,z\nz,x,y")).endswith("; ...>"))

    def test_pictures(self):
        self.assertTrue(self.group._repr_svg_().startswith("<svg"))
        self.assertIn("<svg", self.group._repr_html_())

    def test_copies(self):
        for made in (pickle.loads(pickle.dumps(self.group)), copy.copy(self.group), copy.deepcopy(self.group)):
            self.assertEqual(made, self.group)
            self.assertIsNot(made, self.group)
            made.close()
        self.assertEqual(self.group.reflection(0, 3, 0).mark, sg.Mark.ABSENT)

    def test_closing(self):
        with self.group as group:
            self.assertFalse(group.closed)
            self.assertEqual(len(group.wyckoff()), 5)
        self.assertTrue(group.closed)
        group.close()
        group.close()
        self.assertEqual(len(group), 4)
        self.assertEqual(group, sg.Group(P21C))
        self.assertEqual(pickle.loads(pickle.dumps(group)), group)
        for ask in (
            lambda: group.types(),
            lambda: group.reflection(0, 0, 0),
            lambda: group.reflections([(0, 0, 0)]),
            lambda: group.classes(1, 1, 1),
            lambda: group.class_keys([]),
            lambda: group.merge([], []),
            lambda: group.site(0, 0, 0),
            lambda: group.sites([(0, 0, 0)]),
            lambda: group.wyckoff(),
            lambda: group.fit(0, 0, 0),
            lambda: group.fits([]),
            lambda: group.expand([]),
            lambda: group.symmetrize([0], 1, 1, 1),
            lambda: group.basis("x,y,z"),
            lambda: group.recell(1, "x,y,z"),
            lambda: group.report(),
        ):
            self.refused(sg.Status.EMPTY, "sg: the group is closed", ask)

    def test_refused(self):
        for text, status, told, line in (
            ("x,y,z\n\nx,y", sg.Status.UNREADABLE, "sg: line 3: not a triplet", 3),
            ("2x,y,z", sg.Status.NOT_UNIMODULAR, "sg: line 1: not unimodular", 1),
            ("x+y,y,z", sg.Status.UNCLOSED, "sg: operators do not close", None),
            ("#" * (2**20 + 1), sg.Status.TOO_LONG, "sg: input too long", None),
            (["x,y,z", "x+0.333,y,z"], sg.Status.UNREADABLE, "sg: line 2: not a triplet", 2),
        ):
            with self.subTest(text[:20]):
                self.refused(status, told, lambda: sg.Group(text), line)
        with self.assertRaises(TypeError):
            sg.Group(None)

    def test_threads(self):
        # Each with a group of its own, and all with one.
        wanted = [(op.kind, op.axis) for op in self.group.types()]
        found = []

        def ask():
            with sg.Group(P21C) as own:
                for _ in range(50):
                    types = [(op.kind, op.axis) for op in own.types()]
                    marks = self.group.reflections([(0, 3, 0), (1, 1, 1)]).mark.tolist()
                    found.append((types, len(own.wyckoff()), marks))

        threads = [threading.Thread(target=ask) for _ in range(10)]
        for thread in threads:
            thread.start()
        for thread in threads:
            thread.join()
        self.assertEqual(len(found), 500)
        self.assertTrue(all(answer == (wanted, 5, [2, 1]) for answer in found))


@with_library
class Answers(Refusals):
    def test_words(self):
        for words in ("fit 0 1/2 0", ["fit", "0", "1/2", "0"], iter(("fit", "0", "1/2", "0"))):
            self.assertEqual(sg.answer(words, P21C), "3 2 0,0,1/2\n")
        self.assertEqual(sg.answer(["ops"]), "x,y,z\n")

    def test_refused(self):
        refused = "sg: words are not a command in range"
        for words in ("", "OPS", "fit 0 0", ["fit 0 0 0"], ["ops\n"], ["fit\n0", "0", "0"]):
            with self.subTest(words):
                self.refused(sg.Status.OUT_OF_RANGE, refused, lambda: sg.answer(words, P21C))
        self.refused(sg.Status.NOT_TEXT, "sg: words are no text", lambda: sg.answer(["\udcff"]))
        self.refused(sg.Status.BAD_DATA, "sg: line 3: not a data line", lambda: sg.answer("merge", "x,y,z\n%%\n1 0 0\n"), 3)

    def test_report(self):
        group = sg.Group("-x,-y,-z")
        found = group.report()
        self.assertEqual(found["operators"], ["x,y,z", "-x,-y,-z"])
        self.assertEqual(len(found["rows"]), 9)
        self.assertEqual(found["rows"][8], {"mult": 1, "param": "1/2,1/2,1/2", "text": "1/2,1/2,1/2"})


@with_library
class Operators(Refusals):
    def test_types_of_p21c(self):
        identity, glide, screw, inversion = sg.Group(P21C).types()
        self.assertEqual((identity.kind, identity.axis), ("1", None))
        self.assertEqual(glide[1:], ("m", (0, 0, HALF), (0, 1, 0)))
        self.assertEqual(screw[1:], ("2", (0, HALF, 0), (0, 1, 0)))
        self.assertEqual(inversion[1:], ("-1", (0, 0, 0), None))
        self.assertEqual(str(glide), "x,-y+1/2,z+1/2 m 0,0,1/2 0,1,0")

    def test_types_are_those_of_the_program(self):
        for name in ("fm-3m", "p6mmm", "p31", "p41", "p212121"):
            with self.subTest(name):
                text = group_text(name)
                self.assertEqual("".join(f"{op}\n" for op in sg.Group(text).types()), sg.answer("types", text))

    def test_basis(self):
        group = sg.Group(P21C)
        changed = group.basis("x-z,y,z")
        self.assertEqual(changed.triplets(), ("x,y,z", "x+1/2,-y+1/2,z+1/2", "-x+1/2,y+1/2,-z+1/2", "-x,-y,-z"))
        self.assertEqual(changed.basis(sg.Operator(((1, 0, 1), (0, 1, 0), (0, 0, 1)), (0, 0, 0))), group)
        self.refused(sg.Status.OUT_OF_RANGE, "sg: words are not a command in range", lambda: group.basis("2x,y,z"))
        self.refused(sg.Status.NOT_KEPT, "sg: changed entry beyond 2", lambda: group.basis("x+2y,y,z"))

    def test_recell(self):
        group = sg.Group(group_text("fm-3m"))
        primitive = group.recell(1, "-x+y+z,x-y+z,x+y-z")
        self.assertEqual("\n".join(primitive.triplets()) + "\n", expected("fm-3m-primitive.ops"))
        self.assertEqual(primitive.recell(2, "y+z,x+z,x+y"), group)
        for over, change, told in (
            (1, "2x,y,z", "sg: changed cell is no lattice cell"),
            (5, "x,5y,5z", "sg: changed translation is finer than 1/24"),
            (6, "x,y,z", "sg: changed group has more than 192 operators"),
        ):
            self.refused(sg.Status.NOT_KEPT, told, lambda: sg.Group("").recell(over, change))
        for over in (0, 13, -1):
            self.refused(sg.Status.OUT_OF_RANGE, "sg: words are not a command in range", lambda: group.recell(over, "x,y,z"))


@with_library
class Reflections(Refusals):
    def setUp(self) -> None:
        self.group = sg.Group(P21C)

    def test_one(self):
        # International Tables A, No. 14: 0k0 with k odd and h0l with l odd are absent.
        self.assertEqual(self.group.reflection(0, 3, 0), (2, 2, sg.Mark.ABSENT, 0))
        self.assertEqual(self.group.reflection(0, 2, 0), (2, 2, sg.Mark.RESTRICTED, 0))
        self.assertEqual(self.group.reflection(0, 2, 0, friedel=False).mark, sg.Mark.FREE)
        # P2_12_12_1: a phase of 90 or 270 degrees.
        self.assertEqual(sg.Group(group_text("p212121")).reflection(1, 0, 1), (4, 1, sg.Mark.RESTRICTED, 12))

    def test_many(self):
        indices = [(0, 3, 0), (0, 2, 0), (1, 1, 1), (1, 0, 1), (-10000, 10000, 9999)]
        for friedel in (True, False):
            wanted = [self.group.reflection(*index, friedel) for index in indices]
            for given in (indices, tuple(map(list, indices)), iter(indices), array("i", [n for index in indices for n in index])):
                self.assertEqual(list(self.group.reflections(given, friedel)), wanted)
        found = self.group.reflections(indices)
        self.assertEqual(found.indices.tolist(), [list(index) for index in indices])
        self.assertEqual(found.mark.tolist(), [2, 1, 1, 2, 1])
        self.assertEqual(found.class_size.tolist(), [2, 2, 4, 2, 4])
        self.assertEqual(found.fixers.tolist(), [2, 2, 1, 2, 1])
        self.assertEqual(len(found), 5)

    def test_buffers(self):
        flat = array("i", [0, 3, 0, 1, 1, 1])
        rows = memoryview(flat).cast("B").cast("i", (2, 3))
        self.assertEqual(self.group.reflections(rows).mark.tolist(), [2, 1])
        self.assertIs(self.group.reflections(flat).indices.obj, flat)
        self.assertEqual(ctypes.addressof(_arrays.indices(flat).c), flat.buffer_info()[0])
        self.assertEqual(self.group.reflections(memoryview(flat)[::-1]).mark.tolist(), [1, 2])
        self.assertEqual(self.group.reflections(rows.toreadonly()).mark.tolist(), [2, 1])
        self.assertEqual(self.group.reflections(array("q", flat)).mark.tolist(), [2, 1])
        self.assertEqual(self.group.reflections(array("b", flat)).mark.tolist(), [2, 1])

    def test_none(self):
        for given in ([], (), array("i")):
            found = self.group.reflections(given)
            self.assertEqual((len(found), list(found), found.mark.tolist()), (0, [], []))

    def test_refused(self):
        self.refused(sg.Status.OUT_OF_RANGE, "sg: index 10001 0 0 is out of range", lambda: self.group.reflection(10001, 0, 0))
        self.refused(sg.Status.OUT_OF_RANGE, f"sg: index 0 0 {2**32} is out of range", lambda: self.group.reflection(0, 0, 2**32))
        for number in (10001, -10001, 2**31, -(2**31) - 1, 2**32, 10**30):
            given = [(0, 0, 0), (1, 1, 1), (0, number, 0), (20000, 0, 0)]
            self.refused(sg.Status.OUT_OF_RANGE, "sg: index is out of range", lambda: self.group.reflections(given), place=2)
        for given in ([(0, 0)], [(0, 0, 0, 0)], array("i", [0, 0])):
            with self.subTest(given), self.assertRaises(ValueError):
                self.group.reflections(given)
        for given in ([(0, 0, 0.5)], [(0, 0, 1.0)], array("d", [0, 0, 1]), array("f", [0, 0, 1]), [("0", "0", "1")], b"\0" * 12, 7):
            with self.subTest(given), self.assertRaises(TypeError):
                self.group.reflections(given)

    def test_classes(self):
        # The worked example of the box of P2_1/c.
        found = self.group.classes(1, 1, 1)
        self.assertEqual(
            found.indices.tolist(),
            [[1, 1, 1], [1, 1, 0], [1, 1, -1], [1, 0, 1], [1, 0, 0], [1, 0, -1], [0, 1, 1], [0, 1, 0], [0, 0, 1], [0, 0, 0]],
        )
        self.assertEqual([m.mark for m in found], [1, 1, 1, 2, 1, 2, 1, 2, 2, 1])
        self.assertEqual(found.class_size.tolist(), [4, 4, 4, 2, 2, 2, 4, 2, 2, 1])
        # The worked example of anomalous scattering.
        apart = sg.Group("").classes(1, 0, 0, friedel=False)
        self.assertEqual(apart.indices.tolist(), [[1, 0, 0], [0, 0, 0], [-1, 0, 0]])
        self.assertEqual(list(apart), [(1, 1, sg.Mark.FREE, 0)] * 3)
        for box in ((201, 0, 0), (-1, 0, 0), (64, 64, 64)):
            self.refused(sg.Status.OUT_OF_RANGE, "sg: words are not a command in range", lambda: self.group.classes(*box))

    def test_merge(self):
        indices = [(0, 0, 1), (0, 0, -1), (1, 0, 0), (0, 1, 0), (-1, -1, 0), (-1, 1, 0)]
        values = [7, -7, 2, 3, 4, 9]
        group = sg.Group(P31)
        merged = group.merge(indices, values)
        self.assertEqual(
            merged.classes, (((2, -1, 0), 1, 4, False), ((1, 0, 0), 3, 14, False), ((0, 0, 1), 2, 0, True))
        )
        self.assertEqual(merged.observed_absences, ((0, 0, 1),))
        # An absence that was observed, and one that was not.
        absent = self.group.merge([(0, 1, 0), (0, -1, 0), (0, 2, 0), (1, 0, 1)], [7, -2, 40, 0])
        self.assertEqual(absent.classes, (((1, 0, 1), 1, 0, True), ((0, 2, 0), 1, 40, False), ((0, 1, 0), 2, 5, True)))
        self.assertEqual(absent.observed_absences, ((0, 1, 0),))
        apart = group.merge(iter(indices), array("i", values), friedel=False)
        self.assertEqual([told.index for told in apart.classes], [(2, -1, 0), (1, 0, 0), (1, -1, 0), (0, 0, 1), (0, 0, -1)])
        self.assertEqual(apart.observed_absences, ((0, 0, 1), (0, 0, -1)))
        self.assertEqual(group.merge([], []), ((), ()))

    def test_sums_beyond_32_bits(self):
        # More lines than a command takes.
        count = 150_000
        merged = self.group.merge([(0, 1, 0), (1, 1, 1), (0, -1, 0)] * (count // 3), [2**31 - 1] * (count - 1) + [-(2**31)])
        self.assertEqual(
            merged.classes,
            (((1, 1, 1), 50_000, 50_000 * (2**31 - 1), False), ((0, 1, 0), 100_000, 99_999 * (2**31 - 1) - 2**31, True)),
        )
        self.assertEqual(merged.observed_absences, ((0, 1, 0),))

    def test_merge_refused(self):
        merge = self.group.merge
        self.refused(sg.Status.WRONG_COUNT, "sg: 1 indices, but 2 values", lambda: merge([(0, 0, 0)], [1, 2]))
        far = [(0, 0, 0), (0, 0, 10001)]
        self.refused(sg.Status.OUT_OF_RANGE, "sg: index is out of range", lambda: merge(far, [1, 1]), place=1)
        self.refused(sg.Status.OUT_OF_RANGE, "sg: value is out of range", lambda: merge([(0, 0, 0)] * 2, [0, 2**31]), place=1)
        with self.assertRaises(TypeError):
            merge([(0, 0, 0)], [1.5])

    def test_class_keys(self):
        # The point group 2/m, with its axis along b: h k l and -h k -l are equivalent, and their negatives.
        indices = [(1, 2, 3), (-1, 2, -3), (-1, -2, -3), (1, -2, 3), (1, 2, -3), (0, -3, 0)]
        keys = self.group.class_keys(indices)
        self.assertEqual(keys.tolist(), [[1, 2, 3]] * 4 + [[1, 2, -3], [0, 3, 0]])
        self.assertEqual(self.group.class_keys(indices, friedel=False).tolist(), keys.tolist())
        # The point group 2 has the negatives by Friedel's law alone.
        axis = sg.Group("-x,y,-z")
        self.assertEqual(axis.class_keys(indices).tolist(), keys.tolist())
        apart = axis.class_keys(indices, friedel=False)
        self.assertEqual(apart.tolist(), [[1, 2, 3], [1, 2, 3], [1, -2, 3], [1, -2, 3], [1, 2, -3], [0, -3, 0]])
        self.assertEqual(self.group.class_keys([]).tolist(), [])
        self.assertEqual(sg.Group(group_text("p6mmm")).class_keys([(10000, 10000, 1)]).tolist(), [[20000, -10000, 1]])
        self.refused(sg.Status.OUT_OF_RANGE, "sg: index is out of range", lambda: self.group.class_keys([(10001, 0, 0)]), place=0)


@with_library
class Points(Refusals):
    def setUp(self) -> None:
        self.group = sg.Group(P21C)

    def test_rows_of_p21c(self):
        # International Tables A, No. 14: the positions 4e, 2a to 2d, here in the order of the program.
        rows = self.group.wyckoff()
        self.assertEqual([row.multiplicity for row in rows], [4, 2, 2, 2, 2])
        self.assertEqual([row.key for row in rows], ["x,y,z", "0,0,0", "0,0,1/2", "1/2,0,0", "1/2,0,1/2"])
        self.assertEqual(rows[0].w, ((1, 0, 0), (0, 1, 0), (0, 0, 1)))
        self.assertEqual(rows[4].t, (HALF, 0, HALF))
        mirror = sg.Group("y,x,z").wyckoff()[1]
        self.assertEqual((mirror.key, mirror.form), ("1/2*x+1/2*y,1/2*x+1/2*y,z", "x,x,z"))
        self.assertEqual(mirror.w[0], (HALF, HALF, 0))

    def test_rows_are_those_of_the_program(self):
        for name in ("fm-3m", "p6mmm", "p31", "p-1"):
            with self.subTest(name):
                text = group_text(name)
                rows = sg.Group(text).wyckoff()
                keys = "".join(f"{place} {row.multiplicity} {row.key}\n" for place, row in enumerate(rows, 1))
                forms = "".join(f"{place} {row.multiplicity} {row.form}\n" for place, row in enumerate(rows, 1))
                self.assertEqual(keys, sg.answer("wyckoff", text))
                self.assertEqual(forms, sg.answer("params", text))

    def test_site_and_fit(self):
        self.assertEqual(self.group.site(0, "1/2", 0), (2, 2))
        self.assertEqual(self.group.site("0.1", "0.2", Fraction(3, 10)), (1, 4))
        self.assertEqual(self.group.fit(0, "1/2", 0), self.group.wyckoff()[2])
        self.assertEqual(self.group.fit("5/2", "1/2", "1/2").key, "1/2,0,0")
        # The end of the range.
        self.assertEqual(self.group.site(10**9, -(10**9), Fraction(1, 10**6)).multiplicity, 4)

    def test_many(self):
        points = [(0, "1/2", 0), ("0.1", "0.2", "0.3"), (Fraction(5, 2), HALF, "1/2")]
        sites = self.group.sites(points)
        self.assertEqual(list(sites), [self.group.site(*told) for told in points])
        self.assertEqual((sites.order.tolist(), sites.multiplicity.tolist(), len(sites)), ([2, 1, 2], [2, 4, 2], 3))
        self.assertEqual(self.group.fits(points).tolist(), [2, 0, 3])
        self.assertEqual(self.group.fits([]).tolist(), [])
        self.assertEqual(len(self.group.sites(iter([]))), 0)

    def test_numerators_and_denominators(self):
        parts = array("q", [0, 1, 1, 2, 0, 1, 1, 10, 1, 5, 3, 10])
        buffer = memoryview(parts).cast("B").cast("q", (2, 3, 2))
        self.assertEqual(self.group.fits(buffer).tolist(), [2, 0])
        self.assertEqual(self.group.sites(buffer).order.tolist(), [2, 1])
        parts[7] = 0
        self.refused(sg.Status.OUT_OF_RANGE, "sg: point is out of range", lambda: self.group.fits(buffer), place=1)

    def test_refused(self):
        far = Fraction(1, 10**6 + 1)
        self.refused(sg.Status.OUT_OF_RANGE, f"sg: coordinate {far} is out of range", lambda: self.group.site(0, far, 0))
        told = "sg: coordinate 1000000001 is out of range"
        self.refused(sg.Status.OUT_OF_RANGE, told, lambda: self.group.fit(10**9 + 1, 0, 0))
        given = [(0, 0, 0), (0, 2**70, 0)]
        for ask in (self.group.sites, self.group.fits):
            self.refused(sg.Status.OUT_OF_RANGE, f"sg: coordinate {2**70} is out of range", lambda: ask(given), place=1)
        self.refused(sg.Status.OUT_OF_RANGE, "sg: 'x' is no coordinate", lambda: self.group.site("x", 0, 0))
        for ask in (
            lambda: self.group.site(0.5, 0, 0),
            lambda: self.group.fits([(0.5, 0, 0)]),
            lambda: self.group.sites(array("d", [0])),
        ):
            with self.assertRaises(TypeError):
                ask()

    def test_expand(self):
        # The worked example of rock salt.
        group = sg.Group(group_text("fm-3m"))
        sites = [("Na1+", 0, 0, 0), ("Cl", "1/2", HALF, "0.5"), ("O1' of a long name", "1/2", "1/2", 0)]
        sodium, chlorine, third = group.expand(sites)
        self.assertEqual(sodium.label, "Na1+")
        self.assertEqual(
            sodium.points, (point("0", "0", "0"), point("0", "1/2", "1/2"), point("1/2", "0", "1/2"), point("1/2", "1/2", "0"))
        )
        self.assertEqual(len(chlorine.points), 4)
        self.assertIsNone(chlorine.same_as)
        self.assertEqual(third, ("O1' of a long name", (), 0))
        self.assertEqual(group.expand([]), ())

    def test_expand_refused(self):
        site = ("A", 0, 0, 0)
        self.assertEqual(len(sg.Group("").expand([site] * 4096)), 4096)
        self.refused(sg.Status.WRONG_COUNT, "sg: too many data lines", lambda: self.group.expand([site] * 4097))
        given = [site, ("B", 0, 0, "1/1000001")]
        self.refused(sg.Status.OUT_OF_RANGE, "sg: coordinate 1/1000001 is out of range", lambda: self.group.expand(given), place=1)
        with self.assertRaises(TypeError):
            self.group.expand([("A", 0.5, 0, 0)])
        with self.assertRaises(ValueError):
            self.group.expand([("A", 0, 0)])


@with_library
class Maps(Refusals):
    def test_sums(self):
        # The worked example of P2_1/c.
        values = [0, -7, 28, -63, 112, -175, 252, -343, 448, -567, 700, -847, 1008, -1183, 1372, -1575]
        # The sums at the first points of the orbits are told there; the others follow by -x,-y,-z and x,-y+1/2,z+1/2.
        wanted = [-175, 105, -126, -126, 105, -175, -126, -126, -735, 441, -350, -350, 441, -735, -350, -350]
        shaped = memoryview(array("i", values)).cast("B").cast("i", (2, 4, 2))
        for given in (values, iter(values), array("i", values), array("q", values), shaped):
            with self.subTest(type(given)):
                summed = sg.Group(P21C).symmetrize(given, 2, 4, 2)
                self.assertEqual((summed.sums.tolist(), summed.total), (wanted, -840))

    def test_ends_of_the_range(self):
        for value in (2**31 - 1, -(2**31)):
            summed = sg.Group("x+1/2,y,z").symmetrize([value] * 2, 2, 1, 1)
            self.assertEqual((summed.sums.tolist(), summed.total), ([2 * value] * 2, 2 * value))
        self.assertEqual(sg.Group("").symmetrize(range(2048), 1, 1, 2048).total, 2047 * 1024)

    def test_refused(self):
        symmetrize = sg.Group(P21C).symmetrize
        self.refused(sg.Status.NOT_KEPT, "sg: grid is not kept", lambda: symmetrize([1] * 12, 2, 3, 2))
        self.refused(sg.Status.WRONG_COUNT, "sg: wrong number of values", lambda: symmetrize([1] * 15, 2, 4, 2))
        for grid in ((0, 1, 1), (1, 2049, 1), (-1, 1, 1), (1, 1 - 2**16, 1), (1, 1, 2**16 + 1), (2048, 2048, 2048)):
            told = "sg: grid {} {} {} is out of range".format(*grid)
            self.refused(sg.Status.OUT_OF_RANGE, told, lambda: symmetrize([1], *grid))
        self.refused(sg.Status.OUT_OF_RANGE, "sg: value is out of range", lambda: symmetrize([1, 2**31], 1, 2, 1), place=1)
        for given in ([0.5, 0], array("d", [0, 0])):
            with self.assertRaises(TypeError):
                symmetrize(given, 1, 2, 1)
        with self.assertRaises(TypeError):
            symmetrize([0, 0], 1, 2.0, 1)


if __name__ == "__main__":
    unittest.main()
