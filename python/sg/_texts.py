"""The questions that the library answers as texts alone: what is asked, and what the answer says, exactly. A call with arrays can
take the place of each function here.
"""

from __future__ import annotations

from array import array
from fractions import Fraction
from typing import Any, Dict, Iterable, List, Sequence, Tuple

from ._library import answer
from .coordinates import exact_in_range
from .values import Index, Orbit


def classes(group: bytes, box: Index, friedel: bool) -> array:
    """The first index of each class, descending, one after another."""
    found = array("i")
    words = ["refl", *map(str, box), *([] if friedel else ["anomalous"])]
    for line in answer(words, group).splitlines():
        found.extend(map(int, line.split(" ", 3)[:3]))
    return found


def forms(group: bytes) -> List[str]:
    return [line.split(" ")[2] for line in answer(["params"], group).splitlines()]


def expand(group: bytes, sites: Iterable[Tuple[str, Sequence[Any]]]) -> Tuple[Orbit, ...]:
    labels, lines = [], ["%%"]
    for place, (label, point) in enumerate(sites):
        x, y, z = (exact_in_range(value, place) for value in point)
        labels.append(label)
        lines.append(f"_ {x} {y} {z}")
    # A label of the program is shorter and has fewer characters than those of files, so none is told.
    points: List[List[Tuple[Fraction, ...]]] = [[] for _ in labels]
    same: Dict[int, int] = {}
    for line in answer(["atoms"], group + b"\n" + "\n".join(lines).encode()).splitlines():
        kind, site, *rest = line.split(" ")
        if kind == "at":
            points[int(site) - 1].append(tuple(map(Fraction, rest)))
        elif kind == "same":
            same[int(site) - 1] = int(rest[1]) - 1
    return tuple(Orbit(label, tuple(points[place]), same.get(place)) for place, label in enumerate(labels))


def basis(group: bytes, change: str) -> str:
    return answer(["basis", change], group)


def recell(group: bytes, over: int, change: str) -> str:
    return answer(["recell", str(over), change], group)
