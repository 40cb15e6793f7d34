"""Coordinates from texts: what is written, and what is meant."""

from __future__ import annotations

import unittest
from fractions import Fraction

from sg import LAST_DIGIT, UNCERTAINTY, Error, Status, coordinate
from sg.coordinates import exact, exact_in_range


class AsWritten(unittest.TestCase):
    def test_is_exact(self):
        for text, value in (
            ("0", 0),
            ("0.3333", Fraction(3333, 10000)),
            ("-0.25", Fraction(-1, 4)),
            ("+.5", Fraction(1, 2)),
            ("1.", 1),
            (" 2/3 ", Fraction(2, 3)),
            ("0.123456789", Fraction(123456789, 10**9)),
        ):
            with self.subTest(text):
                self.assertEqual(coordinate(text), value)

    def test_an_uncertainty_changes_nothing(self):
        self.assertEqual(coordinate("0.1234(2)"), Fraction(617, 5000))
        self.assertEqual(coordinate("-0.5(11)"), Fraction(-1, 2))

    def test_no_number(self):
        for text in ("", ".", "x", "1e3", "1/0", "1/2(1)", "0.1(", "0.1()", "0.1 (2)", "1 /2", "--1", "٣", "?"):
            for within in (None, LAST_DIGIT):
                with self.subTest(text, within=within), self.assertRaises(Error) as caught:
                    coordinate(text, within)
                self.assertEqual(caught.exception.status, Status.OUT_OF_RANGE)
                self.assertEqual(caught.exception.text, f"sg: {text!r} is no coordinate")


class Meant(unittest.TestCase):
    def test_last_digit(self):
        for text, value in (
            ("0.3333", Fraction(1, 3)),
            ("0.6667", Fraction(2, 3)),
            ("0.6666", Fraction(2, 3)),
            ("-0.6666", Fraction(-2, 3)),
            ("0.167", Fraction(1, 6)),
            ("0.166", Fraction(1, 6)),
            ("0.0417", Fraction(1, 24)),
            ("0.33", Fraction(1, 3)),
            ("1.6667", Fraction(5, 3)),
            ("0.3333(5)", Fraction(1, 3)),
            # What is a twenty-fourth stays, although others are as near.
            ("0.5", Fraction(1, 2)),
            ("0.2500", Fraction(1, 4)),
            ("0", 0),
            ("2/3", Fraction(2, 3)),
        ):
            with self.subTest(text):
                self.assertEqual(coordinate(text, within=LAST_DIGIT), value)

    def test_ends_of_the_last_digit(self):
        # 1/24 is 0.041666..: 0.0416 is cut off, 0.0417 is rounded, and no other text of four digits stands for it.
        for text in ("0.0415", "0.0418"):
            with self.subTest(text), self.assertRaises(Error):
                coordinate(text, within=LAST_DIGIT)
        # 1/8 as two digits is 0.12 or 0.13, half a unit being rounded up.
        self.assertEqual(coordinate("0.12", within=LAST_DIGIT), Fraction(1, 8))
        self.assertEqual(coordinate("0.13", within=LAST_DIGIT), Fraction(1, 8))
        # 0.0001 is not 0, and 0.4 is not 1/2, which is one unit above.
        with self.assertRaises(Error):
            coordinate("0.0001", within=LAST_DIGIT)
        with self.assertRaises(Error):
            coordinate("0.4", within=LAST_DIGIT, parts=2)

    def test_none_and_several(self):
        for text, told in (
            ("0.1234", "sg: 0.1234 stands for no whole number of parts of 1/24"),
            ("0.3", "sg: 0.3 stands for several whole numbers of parts of 1/24"),
            ("1/5", "sg: 1/5 stands for no whole number of parts of 1/24"),
        ):
            with self.subTest(text), self.assertRaises(Error) as caught:
                coordinate(text, within=LAST_DIGIT)
            self.assertEqual((caught.exception.status, caught.exception.text), (Status.OUT_OF_RANGE, told))
            self.assertIsNone(caught.exception.line)

    def test_a_distance(self):
        self.assertEqual(coordinate("0.332", within="0.002"), Fraction(1, 3))
        self.assertEqual(coordinate("0.25", within=0), Fraction(1, 4))
        self.assertEqual(coordinate("0.24", within=Fraction(1, 100)), Fraction(1, 4))
        with self.assertRaises(Error):
            coordinate("0.332", within="0.001")
        with self.assertRaises(TypeError):
            coordinate("0.332", within=0.002)

    def test_an_uncertainty_that_is_asked_for(self):
        self.assertEqual(coordinate("0.331(3)", within=UNCERTAINTY), Fraction(1, 3))
        self.assertEqual(coordinate("0.25", within=UNCERTAINTY), Fraction(1, 4))
        for text in ("0.331(2)", "0.3333"):
            with self.subTest(text), self.assertRaises(Error):
                coordinate(text, within=UNCERTAINTY)

    def test_other_parts(self):
        self.assertEqual(coordinate("0.0625", within=LAST_DIGIT, parts=48), Fraction(1, 16))
        self.assertEqual(coordinate("0.2", within=LAST_DIGIT, parts=5), Fraction(1, 5))
        # A file with more digits than a question takes.
        self.assertEqual(coordinate("0.12345678", within="0.0000005", parts=10**6), Fraction(123457, 10**6))
        with self.assertRaises(ValueError):
            coordinate("0.2", within=LAST_DIGIT, parts=0)


class Exact(unittest.TestCase):
    def test_values(self):
        found = [exact(value) for value in (3, Fraction(1, 7), "0.25", "-7/2", " +1 ")]
        self.assertEqual(found, [3, Fraction(1, 7), Fraction(1, 4), Fraction(-7, 2), 1])

    def test_floats_and_uncertainties_are_refused(self):
        for value in (0.25, None, 1j):
            with self.subTest(value), self.assertRaises(TypeError):
                exact(value)
        with self.assertRaises(Error):
            exact("0.25(1)")

    def test_ends_of_the_range(self):
        for value in (10**9, -(10**9), Fraction(1, 10**6), Fraction(999999999, 10**6), "0.000001"):
            self.assertEqual(exact_in_range(value), Fraction(value))
        for value in (10**9 + 1, -(10**9) - 1, Fraction(1, 10**6 + 1), "0.0000001"):
            with self.subTest(value), self.assertRaises(Error) as caught:
                exact_in_range(value, 7)
            self.assertEqual((caught.exception.status, caught.exception.place), (Status.OUT_OF_RANGE, 7))


if __name__ == "__main__":
    unittest.main()
