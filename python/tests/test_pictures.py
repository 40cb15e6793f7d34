"""The pictures and the page: what stands in them, compared with what International Tables A print. checks/draw.sh runs this."""

from __future__ import annotations

import contextlib
import io
import tempfile
import unittest
from collections import Counter
from pathlib import Path
from xml.etree import ElementTree

from groups import FM3M, I41AMD, P1BAR, P21C, P21C_SHEARED, P41, P6MMM, P212121, PROGRAM, R3BAR, group
from sg.draw import general_position, positions, sheet, symmetry_elements
from sg.draw.__main__ import main
from sg.draw.answers import Refused, read_affine
from sg.draw.labels import Labels, around
from sg.draw.symbols import FONT

SVG = "{http://www.w3.org/2000/svg}"
AXIS_NAMES = {"a", "b", "c", "aₚ", "bₚ", "cₚ"}


def texts(picture: str) -> Counter[str]:
    """How often each text stands in a picture, but for the names of its axes."""
    found = ("".join(text.itertext()) for text in ElementTree.fromstring(picture).iter(SVG + "text"))
    return Counter(text for text in found if text not in AXIS_NAMES)


def circles(picture: str, fill: str) -> int:
    return sum(circle.get("fill") == fill for circle in ElementTree.fromstring(picture).iter(SVG + "circle"))


@unittest.skipUnless(PROGRAM, "no program is told")
class GeneralPositions(unittest.TestCase):
    def heights(self, text: str, axis: str) -> set[str]:
        """The heights of the points in and around the cell. Each circle has one."""
        picture = general_position(group(text), axis)
        found = texts(picture)
        self.assertEqual(sum(found.values()), circles(picture, "#fff"))
        return set(found)

    def test_p21c(self) -> None:
        """x,y,z; -x,y+1/2,-z+1/2; -x,-y,-z; x,-y+1/2,z+1/2: the last two are of the other hand, and have a comma."""
        self.assertEqual(self.heights(P21C, "b"), {"+", "½+", "−", "½−"})
        picture = general_position(group(P21C), "b")
        found = texts(picture)
        self.assertEqual(circles(picture, "#111"), found["−"] + found["½−"])

    def test_p212121(self) -> None:
        self.assertEqual(self.heights(P212121, "c"), {"+", "−", "½+", "½−"})
        self.assertEqual(circles(general_position(group(P212121), "c"), "#111"), 0)

    def test_p41(self) -> None:
        self.assertEqual(self.heights(P41, "c"), {"+", "¼+", "½+", "¾+"})

    def test_r3bar(self) -> None:
        self.assertEqual(self.heights(R3BAR, "c"), {f"{part}{sign}" for part in ("", "⅓", "⅔") for sign in "+−"})

    def test_i41amd(self) -> None:
        self.assertEqual(self.heights(I41AMD, "c"), {f"{part}{sign}" for part in ("", "¼", "½", "¾") for sign in "+−"})

    def test_p6mmm(self) -> None:
        """Of two points at each place one has a comma, and the other one not."""
        picture = general_position(group(P6MMM), "c")
        found = texts(picture)
        self.assertEqual(set(found), {"+", "−"})
        self.assertEqual([found["+"], found["−"], circles(picture, "#111")], [circles(picture, "#fff")] * 3)

    def test_a_sheared_setting(self) -> None:
        """Along b its 2_1 axes are inclined, and a height there depends on two coordinates; along c nothing changes."""
        self.assertEqual(self.heights(P21C_SHEARED, "c"), self.heights(P21C, "c"))


@unittest.skipUnless(PROGRAM, "no program is told")
class Pictures(unittest.TestCase):
    def test_symmetry_elements_of_p21c(self) -> None:
        """Along b inversion points alone are circles, nine with those at the border, and the glide plane is at 1/4."""
        picture = symmetry_elements(group(P21C), "b")
        self.assertEqual(circles(picture, "#fff"), 9)
        self.assertEqual(texts(picture), {"¼": 1})

    def test_positions_of_p21c(self) -> None:
        """a 0,0,0 and 0,1/2,1/2; b 1/2,0,0; c 0,0,1/2; d 1/2,0,1/2. The general position of `sg` is row 1, and a row 2."""
        alone = positions(group(P21C), [2], "b")
        self.assertEqual(texts(alone), {"2 0": 4, "2 ½": 2})
        self.assertEqual(positions(group(P21C), None, "b"), positions(group(P21C), [2, 3, 4, 5], "b"))

    def test_a_free_coordinate_of_a_row(self) -> None:
        """Of I4_1/amd 8e: 0,1/4,z; 0,3/4,z+1/4; 1/2,1/4,-z+1/2; 1/2,3/4,-z+1/4; and these with 1/2,1/2,1/2 added."""
        made = group(I41AMD)
        row = next(row for row in made.rows if row.parameters == "0,1/4,z")
        self.assertEqual(row.multiplicity, 8)
        found = texts(positions(made, [row.place], "c"))
        self.assertEqual({text.split(" ")[1] for text in found}, {"+,¾−", "−,¼+", "½−,¾+", "¼−,½+"})

    def test_each_picture_is_well_formed(self) -> None:
        for text in (P1BAR, P21C, P21C_SHEARED, P212121, P41, R3BAR, P6MMM, I41AMD):
            made = group(text)
            for axis in "abc":
                for picture in (symmetry_elements(made, axis), general_position(made, axis), positions(made, None, axis)):
                    self.assertEqual(ElementTree.fromstring(picture).tag, SVG + "svg")
                    self.assertEqual(picture._repr_svg_(), picture)

    def test_the_page_stands_alone(self) -> None:
        page = sheet(group(P21C), "P2_1/c & <more>", "abc")
        self.assertEqual(page.count("<svg xmlns"), 7)
        self.assertIn("<h1>P2_1/c &amp; &lt;more&gt;</h1>", page)
        for word in ("<script", "href", "src=", "@import", "url("):
            self.assertNotIn(word, page)
        ElementTree.fromstring(page.replace("<!DOCTYPE html>", "").replace('<meta charset="utf-8">', "").replace("<wbr>", ""))

    def test_the_page_tells_what_is_left_out(self) -> None:
        self.assertNotIn("not drawn", sheet(group(P21C)))
        self.assertIn("inclined to c are not drawn", sheet(group(FM3M)))

    def test_a_notebook_shows_the_page_without_its_head(self) -> None:
        """What is styled there has the class of the page, so that a notebook keeps its own looks."""
        shown = sheet(group(P41))._repr_html_()
        self.assertTrue(shown.startswith("<style>") and shown.endswith("</div>"))
        style = shown[shown.index(">") + 1 : shown.index("</style>")].replace("@media print{", "").split("}")
        for rule in style:
            heads = rule.split("{")[-2] if "{" in rule else ""
            self.assertTrue(all(head.strip().startswith((".sg", "@page")) for head in heads.split(",") if head.strip()), rule)


@unittest.skipUnless(PROGRAM, "no program is told")
class Command(unittest.TestCase):
    def run_with(self, text: str, *words: str) -> tuple[int, str, str]:
        with tempfile.TemporaryDirectory() as folder:
            path = Path(folder) / "operators.txt"
            path.write_text(text)
            with contextlib.redirect_stdout(io.StringIO()) as out, contextlib.redirect_stderr(io.StringIO()) as err:
                status = main([str(path), *words])
        return status, out.getvalue(), err.getvalue()

    def test_a_page(self) -> None:
        status, page, fault = self.run_with("# P2_1/c\n" + P21C)
        self.assertEqual((status, fault), (0, ""))
        self.assertIn("<h1>P2_1/c</h1>", page)
        self.assertIn("Symmetry elements along b", page)

    def test_operators_that_are_refused(self) -> None:
        self.assertEqual(self.run_with("x,y\n"), (5, "", "sg: line 1: not a triplet\n"))
        with self.assertRaises(Refused):
            group("2*x,y,z\n")

    def test_rows_and_axes_that_are_not_there(self) -> None:
        self.assertIn("Points of the rows 2, 5, along b", self.run_with(P21C, "--rows", "5,2")[1])
        for words in (("--rows", "6"), ("--rows", "0"), ("--rows", "a"), ("--axes", "abd")):
            with self.subTest(words), self.assertRaises(SystemExit) as caught:
                self.run_with(P21C, *words)
            self.assertEqual(caught.exception.code, 2)


class Parts(unittest.TestCase):
    def test_a_printed_map_is_read(self) -> None:
        read = read_affine("1/2*x-1/2*y+7/8,-z,0")
        self.assertEqual([list(map(str, row)) for row in read.matrix], [["1/2", "-1/2", "0"], ["0", "0", "-1"], ["0", "0", "0"]])
        self.assertEqual(list(map(str, read.shift)), ["7/8", "0", "0"])

    def test_labels_keep_apart(self) -> None:
        """The first stands to the upper right, the second one elsewhere, and where all is taken one still stands somewhere."""
        labels = Labels()
        labels.take(around(0, 0, 3))
        places = [labels.beside(0, 0, 4, ["½"], 10) for _ in range(9)]
        self.assertEqual(len(set(places[:4])), 4)
        self.assertTrue(places[0][0] > 0 > places[0][1] and places[0][2] == "start")

    def test_the_font_is_quoted_for_an_attribute(self) -> None:
        self.assertNotIn('"', FONT)


if __name__ == "__main__":
    unittest.main()
