"""Diagrams in the style of International Tables A, for any group in any setting, as SVG and as one page to print.

    group = sg.Group(open("examples/p21c.txt").read())
    symmetry_elements(group, axis="b")         # axes, planes and inversion points, projected along b
    general_position(group, axis="b")          # the orbit of a general point
    positions(group, rows=[2, 3], axis="b")    # the points of rows of the table of Wyckoff positions
    sheet(group, "P2_1/c", axes="b")           # all of these and the table, an HTML page

Each is a text; a notebook shows it as a picture. The axis of projection points at the reader. Where none is told, it is the one
that most symmetry axes are parallel to. Heights are fractions of it.

`python3 -m sg.draw FILE [--axes abc] [--title TEXT] > sheet.html` writes the page of the operators in FILE.

The types of operators and the rows are what `sg` answers: a group of the module asks the library, and `read_group` asks the
program that SG names in the environment, or else the library. Where an element lies is computed here, in exact fractions.
"""

from __future__ import annotations

from collections.abc import Iterable
from typing import TYPE_CHECKING, Union

from . import sheet as _sheet, svg as _svg
from .answers import SpaceGroup, read_group
from .paper import main_axis
from .sheet import Html
from .svg import Svg

if TYPE_CHECKING:
    import sg

__all__ = ["Html", "SpaceGroup", "Svg", "general_position", "positions", "read_group", "sheet", "symmetry_elements"]

Source = Union["sg.Group", SpaceGroup]


def symmetry_elements(group: Source, axis: str | None = None) -> Svg:
    """The symmetry elements of one cell, projected along `axis`. Inclined elements are left out."""
    told = _answers(group)
    return _svg.picture(_svg.draw_elements(told, axis or main_axis(told))[0])


def general_position(group: Source, axis: str | None = None) -> Svg:
    """The orbit of a general point: a circle for each point, with a comma where an improper operation makes it, and its height
    beside it. Where points of either hand lie one above the other, the circle is cut in two."""
    told = _answers(group)
    return _svg.picture(_svg.draw_general(told, axis or main_axis(told)))


def positions(group: Source, rows: Iterable[int] | None = None, axis: str | None = None) -> Svg:
    """The points in a cell of rows of the table of Wyckoff positions, which are told by their places in it; without `rows`, of
    those that have no free coordinate. Beside a point stand its row's place, and the heights."""
    told = _answers(group)
    return _svg.picture(_svg.draw_positions(told, rows, axis or main_axis(told)))


def sheet(group: Source, title: str = "", axes: str | None = None, rows: Iterable[int] | None = None) -> Html:
    """A page without scripts that needs no other file: the diagrams along each of `axes`, a legend, the rows, the operators. The
    points of `rows` are shown, as by `positions`."""
    told = _answers(group)
    return _sheet.sheet(told, title, axes or main_axis(told), None if rows is None else sorted(set(rows)))


def _answers(group: Source) -> SpaceGroup:
    """What `read_group` gave, or what the library answers of a group of the module."""
    if isinstance(group, SpaceGroup):
        return group
    from sg import answer

    return read_group(group.input, answer)
