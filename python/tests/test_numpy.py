"""numpy's arrays go through without a copy where their numbers are those of the library, and numpy's arrays come back."""

from __future__ import annotations

import unittest

import sg
from inputs import P21C, with_library, with_numpy

try:
    import numpy
except ImportError:
    numpy = None


@with_library
@with_numpy
class Arrays(unittest.TestCase):
    def setUp(self) -> None:
        self.group = sg.Group(P21C)
        self.indices = numpy.array([(0, 3, 0), (0, 2, 0), (1, 1, 1), (1, 0, 1)], dtype=numpy.int32)

    def test_reflections(self):
        found = self.group.reflections(self.indices)
        self.assertIsInstance(found.mark, numpy.ndarray)
        self.assertTrue(numpy.shares_memory(found.indices, self.indices))
        self.assertEqual(found.indices.shape, (4, 3))
        self.assertEqual((found.mark == sg.Mark.ABSENT).tolist(), [True, False, False, True])
        self.assertEqual(found.class_size.tolist(), [2, 2, 4, 2])
        self.assertEqual(found.fixers.tolist(), [2, 2, 1, 2])
        self.assertEqual(found.phase.tolist(), [0, 0, 0, 0])
        self.assertEqual(found[0], self.group.reflection(0, 3, 0))
        self.assertEqual(self.indices[found.mark != sg.Mark.ABSENT].tolist(), [[0, 2, 0], [1, 1, 1]])

    def test_other_arrays(self):
        read_only = self.indices.copy()
        read_only.flags.writeable = False
        fortran = numpy.asfortranarray(self.indices)
        for given in (
            *(self.indices.astype(kind) for kind in ("i1", "i2", "i8", "u4", ">i4", ">i8")),
            read_only,
            fortran,
            numpy.repeat(self.indices, 2, axis=0)[::2],
            self.indices.reshape(12),
        ):
            with self.subTest(given.dtype, flags=given.flags):
                self.assertEqual(self.group.reflections(given).mark.tolist(), [2, 1, 1, 2])

    def test_none(self):
        self.assertEqual(self.group.reflections(numpy.zeros((0, 3), dtype=numpy.int32)).mark.tolist(), [])
        self.assertEqual(self.group.sites(numpy.zeros((0, 3, 2), dtype=numpy.int64)).order.tolist(), [])
        self.assertEqual(self.group.fits(numpy.zeros((0, 3), dtype=int)).tolist(), [])

    def test_refused(self):
        for number in (10001, 2**31, 2**32, -(2**40)):
            given = numpy.array([(0, 0, 0), (0, number, 0)], dtype=numpy.int64)
            with self.subTest(number), self.assertRaises(sg.Error) as caught:
                self.group.reflections(given)
            self.assertEqual((caught.exception.status, caught.exception.place), (sg.Status.OUT_OF_RANGE, 1))
        for given in (self.indices.astype(float), numpy.array([(0.0, 0.0, 1.0)])):
            with self.assertRaises(TypeError):
                self.group.reflections(given)
        for shape in ((4, 2), (2, 2, 3), (5,), ()):
            with self.subTest(shape), self.assertRaises((ValueError, TypeError)):
                self.group.reflections(numpy.zeros(shape, dtype=numpy.int32))

    def test_points(self):
        points = numpy.array([[(0, 1), (1, 2), (0, 1)], [(1, 10), (1, 5), (3, 10)], [(5, 2), (1, 2), (1, 2)]], dtype=numpy.int64)
        places = self.group.fits(points)
        self.assertIsInstance(places, numpy.ndarray)
        self.assertEqual(places.tolist(), [2, 0, 3])
        self.assertEqual(self.group.sites(points).multiplicity.tolist(), [2, 4, 2])
        self.assertEqual(self.group.sites(points.astype("i2")).order.tolist(), [2, 1, 2])
        # Rows of whole numbers are points of the lattice.
        self.assertEqual(self.group.fits(numpy.array([(0, 0, 0), (1, -1, 3)])).tolist(), [1, 1])
        with self.assertRaises(TypeError):
            self.group.fits(numpy.array([(0.5, 0.0, 0.0)]))
        self.assertEqual(self.group.site(numpy.int64(0), "1/2", 0), (2, 2))

    def test_values(self):
        keys = self.group.class_keys(self.indices * numpy.int32(-1))
        self.assertIsInstance(keys, numpy.ndarray)
        self.assertEqual(keys.tolist(), self.indices.tolist())
        merged = self.group.merge(self.indices, numpy.array([7, 40, 5, 0]))
        sums = [(told.index, told.sum) for told in merged.classes]
        self.assertEqual(sums, [((1, 1, 1), 5), ((1, 0, 1), 0), ((0, 3, 0), 7), ((0, 2, 0), 40)])
        self.assertEqual(merged.observed_absences, ((0, 3, 0),))
        summed = sg.Group("-x,-y,-z").symmetrize(numpy.array([5, 6, 7]).reshape(3, 1, 1), 3, 1, 1)
        self.assertIsInstance(summed.sums, numpy.ndarray)
        self.assertEqual((summed.sums.tolist(), summed.total), ([[[5]], [[13]], [[13]]], 18))


if __name__ == "__main__":
    unittest.main()
