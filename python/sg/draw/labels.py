"""Where texts stand on a picture: beside what they belong to, and apart from each other where there is room."""

from __future__ import annotations

from collections.abc import Sequence

Box = tuple[float, float, float, float]  # the least x and y, and the greatest ones, in pixels

# Where a text may stand, by how far to the right and down, in order of preference.
_SIDES = ((1, -1), (1, 1), (-1, -1), (-1, 1), (1, 0), (-1, 0), (0, -1), (0, 1))
_ANCHORS = {1: "start", 0: "middle", -1: "end"}
_WIDTHS = {",": 0.28, ".": 0.28, " ": 0.28, "½": 0.84, "¼": 0.84, "¾": 0.84}


def width(text: str, size: float) -> float:
    """About how wide the text is, in letters of so many pixels."""
    return size * sum(_WIDTHS.get(letter, 0.84 if letter in "⅓⅔⅙⅚⅛⅜⅝⅞" else 0.58) for letter in text)


def around(x: float, y: float, radius: float) -> Box:
    return x - radius, y - radius, x + radius, y + radius


def lines_box(x: float, y: float, lines: Sequence[str], size: float, anchor: str) -> Box:
    """The box of lines of text, the first of which has its baseline's start, middle or end at x, y."""
    wide = max(width(line, size) for line in lines)
    left = x - wide * {"start": 0.0, "middle": 0.5, "end": 1.0}[anchor]
    return left, y - 0.75 * size, left + wide, y + 0.1 * size + 1.15 * size * (len(lines) - 1)


class Labels:
    """The boxes that are taken."""

    def __init__(self) -> None:
        self._taken: list[Box] = []

    def take(self, box: Box) -> None:
        self._taken.append(box)

    def choose(self, boxes: Sequence[Box]) -> int:
        """The place of the first box that meets least of what is taken. It is taken then."""
        covered = [sum(_common(box, taken) for taken in self._taken) for box in boxes]
        best = covered.index(min(covered))
        self.take(boxes[best])
        return best

    def beside(self, x: float, y: float, radius: float, lines: Sequence[str], size: float) -> tuple[float, float, str]:
        """Where lines of text beside a symbol stand: the baseline of the first one, and which end of it that is."""
        tall = size * (0.72 + 1.15 * (len(lines) - 1))
        places = []
        for right, down in _SIDES:
            reach = radius if right == 0 or down == 0 else 0.8 * radius
            top = y + down * reach - tall * (0.5 - 0.5 * down)
            places.append((x + right * (reach + 1), top + 0.72 * size, _ANCHORS[right]))
        return places[self.choose([lines_box(*place[:2], lines, size, place[2]) for place in places])]


def _common(one: Box, other: Box) -> float:
    """The area that two boxes have in common."""
    wide = min(one[2], other[2]) - max(one[0], other[0])
    tall = min(one[3], other[3]) - max(one[1], other[1])
    return wide * tall if wide > 0 and tall > 0 else 0.0
