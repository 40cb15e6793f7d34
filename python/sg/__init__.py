r"""The space-group engine sg, as a package over its library.

    >>> import sg
    >>> group = sg.Group("-x,y+1/2,-z+1/2\n-x,-y,-z\n")
    >>> group
    <sg.Group of 4: x,y,z; x,-y+1/2,z+1/2; -x,y+1/2,-z+1/2; -x,-y,-z>
    >>> group.reflection(0, 3, 0).mark
    <Mark.ABSENT: 2>
    >>> group.site(0, "1/2", 0)
    Site(order=2, multiplicity=2)
    >>> group.fit(0, "1/2", 0).key
    '0,0,1/2'
    >>> print(sg.answer("fit 0 1/2 0", group.input), end="")
    3 2 0,0,1/2

Many questions at once take arrays of anything that gives a buffer, as numpy's do, and answer with arrays (`Group.reflections`,
`class_keys`, `merge`, `sites`, `fits`, `symmetrize`). `Group.classes`, `expand`, `basis`, `recell`, `report` and the forms of
`wyckoff` ask for the text of a command, and read it exactly.

Coordinates are exact; `sg.coordinate` reads those of files. Where there is no answer, an `sg.Error` tells its status and its text.

Needs the standard library alone, and libsg.so: that which the environment variable SG_LIBRARY names, else that in the next folder
`lib` up from this file, else that which the system finds. It is loaded when the first question is asked.

`python3 -m sg` is the command. A notebook shows a group as its diagrams; `sg.draw` draws others.
"""

from ._library import answer
from .coordinates import LAST_DIGIT, UNCERTAINTY, Coordinate, Within, coordinate
from .errors import Error, Status
from .group import Group
from .values import (
    PARTS,
    Mark,
    Merged,
    MergedReflection,
    Operator,
    OperatorType,
    Orbit,
    Reflection,
    Reflections,
    Row,
    Site,
    Sites,
    SummedMap,
)

__all__ = [
    "LAST_DIGIT",
    "PARTS",
    "UNCERTAINTY",
    "Coordinate",
    "Error",
    "Group",
    "Mark",
    "Merged",
    "MergedReflection",
    "Operator",
    "OperatorType",
    "Orbit",
    "Reflection",
    "Reflections",
    "Row",
    "Site",
    "Sites",
    "Status",
    "SummedMap",
    "Within",
    "answer",
    "coordinate",
]
