"""Why there is no answer."""

from __future__ import annotations

import enum
import re
from typing import Optional


class Status(enum.IntEnum):
    """The statuses of the program sg, and EMPTY, of a group that was closed (`Group.close`)."""

    OK = 0
    NOT_TEXT = 1
    OUT_OF_RANGE = 2
    UNREADABLE = 5
    NOT_UNIMODULAR = 6
    UNCLOSED = 7
    NOT_KEPT = 8
    NO_MEMORY = 9
    TOO_LONG = 10
    BAD_DATA = 11
    WRONG_COUNT = 12
    EMPTY = 13


class Error(ValueError):
    """There is no answer. `status` says why, and `text` is the line that the program would tell, or one that says as much. `line`
    is the number of the line of the input that is at fault, from 1, and `place` that of the first element of an array that is, from
    0; each is None where there is none."""

    def __init__(self, status: int, text: str, place: Optional[int] = None) -> None:
        super().__init__(text)
        self.status = Status(status)
        self.text = text
        line = re.match(r"sg: line (\d+): ", text)
        self.line = int(line.group(1)) if line else None
        self.place = place

    def __reduce__(self):
        return Error, (int(self.status), self.text, self.place)


def out_of_range(what: str, place: Optional[int] = None) -> Error:
    return Error(Status.OUT_OF_RANGE, f"sg: {what} is out of range", place)
