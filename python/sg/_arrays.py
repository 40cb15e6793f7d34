"""Arrays of indices, points and values: from buffers without a copy where their numbers are those of the library, else from
rows."""

from __future__ import annotations

import ctypes
import sys
from array import array
from operator import index as whole
from typing import Any, Iterable, Iterator, Optional, Tuple

from .coordinates import exact_in_range
from .errors import out_of_range

_C_TYPES = {"i": ctypes.c_int32, "q": ctypes.c_int64}


class Numbers:
    """Whole numbers, so many in each row, one after another in memory: `c` for a call of the library, `view` for Python. Where
    `is_numpy`, numpy's array was given, and its arrays are given back."""

    def __init__(self, code: str, width: int, memory: Any, is_numpy: bool = False) -> None:
        view = memoryview(memory)
        # memoryview makes rows from bytes alone, and of nothing it makes none.
        flat = view.cast("B") if view.nbytes else memoryview(b"")
        self.count = len(flat) // (array(code).itemsize * width)
        self.is_numpy = is_numpy
        self.view = flat.cast(code, (self.count, width)) if self.count and 1 < width else flat.cast(code)
        kind = _C_TYPES[code] * (self.count * width or 1)
        self.c = kind() if self.count == 0 else kind.from_buffer_copy(flat) if flat.readonly else kind.from_buffer(flat)

    def like_given(self, view: memoryview) -> Any:
        """An array of answers: numpy's, over the same memory, where numpy's was given."""
        return sys.modules["numpy"].asarray(view) if self.is_numpy else view


def _is_numpy(given: Any) -> bool:
    numpy = sys.modules.get("numpy")
    return numpy is not None and isinstance(given, numpy.ndarray)


def _buffer(given: Any, code: str) -> Optional[memoryview]:
    """The memory of an array. Of numpy's array, whose whole numbers are of another kind but in range, it is that of a copy."""
    if isinstance(given, (bytes, bytearray)):
        raise TypeError("bytes are no numbers: tell an array or a list")
    if _is_numpy(given) and given.dtype.kind in "iu":
        end = 1 << 8 * array(code).itemsize - 1
        if given.size == 0 or -end <= int(given.min()) and int(given.max()) < end:
            given = sys.modules["numpy"].ascontiguousarray(given, dtype=f"i{array(code).itemsize}")
    try:
        return memoryview(given)
    except TypeError:
        return None


def _without_copy(view: memoryview, code: str, shape: Tuple[int, ...]) -> bool:
    """Whether the memory of a buffer is that of these numbers, in rows of this shape."""
    is_whole = view.format.lstrip("@") in ("i", "l", "q") and view.itemsize == array(code).itemsize
    return is_whole and view.c_contiguous and view.shape[1:] == shape


def _in_range(code: str, numbers: Iterable[int], width: int, what: str) -> array:
    """The numbers, none of which is cut off."""
    kept = array(code)
    try:
        kept.extend(numbers)
    except OverflowError:
        # The number that did not fit is the next one.
        raise out_of_range(what, len(kept) // width) from None
    return kept


def _three(row: Any) -> Tuple[Any, Any, Any]:
    first, second, third = row
    return first, second, third


def _rows(given: Any) -> Iterable[Any]:
    return given.tolist() if hasattr(given, "tolist") else given


def indices(given: Any) -> Numbers:
    """Indices of reflections: rows of three whole numbers; or a buffer of them with shape (n, 3), or of the numbers one after
    another. One of int32 that may be written to is not copied."""
    view = _buffer(given, "i")
    if view is not None and view.ndim == 1:
        if len(view) % 3 != 0:
            raise ValueError("an index has three numbers")
        numbers = view if _without_copy(view, "i", ()) else _in_range("i", map(whole, view.tolist()), 3, "index")
        return Numbers("i", 3, numbers, _is_numpy(given))
    if view is not None and _without_copy(view, "i", (3,)):
        return Numbers("i", 3, view, _is_numpy(given))
    return Numbers("i", 3, _in_range("i", (whole(n) for row in _rows(given) for n in _three(row)), 3, "index"), _is_numpy(given))


def values(given: Any) -> Numbers:
    """Values of reflections or of a map: whole numbers, or a buffer of them with any shape."""
    view = _buffer(given, "i")
    if view is not None and _without_copy(view, "i", view.shape[1:]):
        return Numbers("i", 1, view, _is_numpy(given))
    numbers = given if view is None else _flat(_rows(given), view.ndim)
    return Numbers("i", 1, _in_range("i", map(whole, numbers), 1, "value"), _is_numpy(given))


def _flat(nested: Any, depth: int) -> Iterator[Any]:
    if depth <= 1:
        yield from nested
    else:
        for part in nested:
            yield from _flat(part, depth - 1)


def points(given: Any) -> Numbers:
    """Points: rows of three coordinates; or a buffer of int64 of shape (n, 3, 2) with the numerator and the denominator of each,
    which is not copied where it may be written to."""
    view = _buffer(given, "q")
    if view is not None and _without_copy(view, "q", (3, 2)):
        return Numbers("q", 6, view, _is_numpy(given))
    parts = array("q")
    for place, row in enumerate(_rows(given)):
        for value in _three(row):
            parts.extend(exact_in_range(value, place).as_integer_ratio())
    return Numbers("q", 6, parts, _is_numpy(given))


def answers(kind: Any, count: int) -> Tuple[Any, memoryview]:
    """Memory for so many answers of the library: for its call, and for Python, as bytes."""
    memory = bytearray(ctypes.sizeof(kind) * count)
    return (kind * count).from_buffer(memory) if count else (kind * 1)(), memoryview(memory)
