"""Coordinates: exact numbers, in parts of a cell, from numbers and texts."""

from __future__ import annotations

import enum
import re
from fractions import Fraction
from math import ceil, floor
from numbers import Integral, Rational
from typing import Optional, Union

from .errors import Error, Status, out_of_range

Coordinate = Union[int, Fraction, str]
"""A whole number, a fraction, or the text of one, as `1/3`, `0.25` or `-2`."""

MAX_NUMERATOR = 1_000_000_000
MAX_DENOMINATOR = 1_000_000

_NUMBER = re.compile(r"\s*([+-]?)(?:(\d+/0*[1-9]\d*)|(\d+\.?\d*|\.\d+)(?:\((\d+)\))?)\s*", re.ASCII)


class Within(enum.Enum):
    """How far from a text of a file the fraction may lie that it stands for. LAST_DIGIT: it has this text with as many digits,
    where it is rounded, half a unit being enough, or where it is cut off. UNCERTAINTY: it is at most the standard uncertainty away
    that stands behind the text in parentheses, in units of the last digit; where none stands there, it is the number that is
    written."""

    LAST_DIGIT = "last digit"
    UNCERTAINTY = "uncertainty"


LAST_DIGIT = Within.LAST_DIGIT
UNCERTAINTY = Within.UNCERTAINTY


def coordinate(text: str, within: Union[Within, Coordinate, None] = None, parts: int = 24) -> Fraction:
    """The number of a text from a file, such as `0.3333`, `1/3` or `0.1234(2)`, in parts of a cell.

    Without `within` it is the number as it is written: 0.3333 is 3333/10000, and no point of a threefold axis. A standard
    uncertainty in parentheses changes nothing.

    With `within` it is a whole number of `parts`, by default of twenty-fourths of a cell: the number as it is written, where that
    is one; else the only one that lies within LAST_DIGIT, UNCERTAINTY or a distance that is told, in parts of a cell. Where none
    lies there, or several do, an Error with status OUT_OF_RANGE is raised, as it is where the text is no number.

    >>> coordinate("0.3333"), coordinate("0.3333", within=LAST_DIGIT)
    (Fraction(3333, 10000), Fraction(1, 3))
    """
    if parts < 1:
        raise ValueError("a cell has one part at least")
    read = _NUMBER.fullmatch(text)
    if not read:
        raise _no_coordinate(text)
    sign, quotient, decimal, uncertainty = read.groups()
    size = Fraction(quotient or decimal)
    unit = 0 if quotient else Fraction(1, 10 ** len(decimal.partition(".")[2]))
    if within is None:
        found = size
    elif within is LAST_DIGIT:
        found = _whole_parts(text, parts, size, size - unit / 2, _below(size + unit, parts))
    else:
        distance = int(uncertainty or 0) * unit if within is UNCERTAINTY else exact(within)
        found = _whole_parts(text, parts, size, size - distance, size + distance)
    return -found if sign == "-" else found


def _below(end: Fraction, parts: int) -> Fraction:
    """The greatest whole number of parts below this end."""
    return Fraction(ceil(end * parts) - 1, parts)


def _whole_parts(text: str, parts: int, size: Fraction, least: Fraction, greatest: Fraction) -> Fraction:
    """This size, where it is a whole number of parts, or else the only such number in a range."""
    if (size * parts).denominator == 1:
        return size
    first, last = ceil(least * parts), floor(greatest * parts)
    if first != last:
        many = "no whole number" if last < first else "several whole numbers"
        raise Error(Status.OUT_OF_RANGE, f"sg: {text} stands for {many} of parts of 1/{parts}")
    return Fraction(first, parts)


def exact(value: Coordinate) -> Fraction:
    """The number of a coordinate. Refused: a text that is none, and a float, which no file and no table means."""
    if isinstance(value, str):
        read = _NUMBER.fullmatch(value)
        if not read or read[4]:
            raise _no_coordinate(value)
        return Fraction(value.strip())
    if isinstance(value, Integral):
        return Fraction(int(value))
    if isinstance(value, Rational):
        return Fraction(value)
    raise TypeError(f"{value!r} is no exact coordinate: tell a whole number, a Fraction or a text; sg.coordinate reads files' texts")


def exact_in_range(value: Coordinate, place: Optional[int] = None) -> Fraction:
    """The same, where the numerator is at most MAX_NUMERATOR in size and the denominator at most MAX_DENOMINATOR."""
    found = exact(value)
    if abs(found.numerator) > MAX_NUMERATOR or found.denominator > MAX_DENOMINATOR:
        raise out_of_range(f"coordinate {value}", place)
    return found


def _no_coordinate(text: str) -> Error:
    return Error(Status.OUT_OF_RANGE, f"sg: {text!r} is no coordinate")
