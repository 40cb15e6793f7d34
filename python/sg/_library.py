"""The library libsg.so by ctypes, as include/sg.h declares it, and the answers of its commands."""

from __future__ import annotations

import ctypes
import functools
import os
from ctypes import POINTER, c_bool, c_char_p, c_int32, c_int64, c_size_t, c_uint8, c_uint16, c_uint32, c_void_p
from pathlib import Path
from typing import Iterable, Union

from .errors import Error, Status

Text = Union[str, bytes]

MAX_INPUT = 1 << 20
_FAULT_ROOM = 160


class Lengths(ctypes.Structure):
    _fields_ = [("text", c_size_t), ("fault", c_size_t)]


class Handle(ctypes.Structure):
    _fields_ = [("held", c_void_p)]


class OperatorParts(ctypes.Structure):
    _fields_ = [("w", c_int32 * 9), ("t", c_int32 * 3)]


class TypeParts(ctypes.Structure):
    _fields_ = [
        ("intrinsic", c_int32 * 3),
        ("denominator", c_int32),
        ("axis", c_int32 * 3),
        ("order", c_uint16),
        ("proper", c_bool),
    ]


class ReflectionMarks(ctypes.Structure):
    _fields_ = [("class_size", c_uint16), ("fixers", c_uint16), ("mark", c_uint8), ("phase", c_uint8)]


class MergedClass(ctypes.Structure):
    _fields_ = [("sum", c_int64), ("key", c_int32 * 3), ("count", c_uint32), ("absent", c_bool), ("observed", c_bool)]


class SiteCounts(ctypes.Structure):
    _fields_ = [("order", c_uint16), ("multiplicity", c_uint16)]


class RowParts(ctypes.Structure):
    _fields_ = [("m", c_int32 * 9), ("t", c_int32 * 3), ("multiplicity", c_uint16)]


# An index is three of c_int32, and a point is three numerators each with its denominator.
Indices = POINTER(c_int32)
Values = POINTER(c_int32)
Points = POINTER(c_int64)
Sums = POINTER(c_int64)


@functools.lru_cache(maxsize=None)
def library() -> ctypes.CDLL:
    """The library that the environment variable SG_LIBRARY names, else that in the next folder `lib` up from here, else that which
    the system finds."""
    above = (folder / "lib" / "libsg.so" for folder in Path(__file__).resolve().parents)
    loaded = ctypes.CDLL(os.environ.get("SG_LIBRARY") or next((str(path) for path in above if path.exists()), "libsg.so"))
    group, place, text = POINTER(Handle), POINTER(c_size_t), (c_char_p, c_size_t)
    for name, result, arguments in (
        ("sg_answer", c_uint8, (*text, *text, c_void_p, c_size_t, c_void_p, c_size_t, POINTER(Lengths))),
        ("sg_group_close", c_uint8, (*text, group, POINTER(c_uint32))),
        ("sg_group_free", None, (group,)),
        ("sg_group_order", c_uint16, (group,)),
        ("sg_group_operators", c_uint8, (group, POINTER(OperatorParts), c_size_t)),
        ("sg_group_types", c_uint8, (group, POINTER(TypeParts), c_size_t)),
        ("sg_reflection", c_uint8, (group, c_int32, c_int32, c_int32, c_bool, POINTER(ReflectionMarks))),
        ("sg_reflections", c_uint8, (group, c_bool, Indices, c_size_t, POINTER(ReflectionMarks), c_size_t, place)),
        ("sg_class_keys", c_uint8, (group, c_bool, Indices, c_size_t, Indices, c_size_t, place)),
        ("sg_merge", c_uint8, (group, c_bool, Indices, c_size_t, Values, c_size_t, POINTER(MergedClass), c_size_t, place, place)),
        ("sg_site", c_uint8, (group, Points, POINTER(SiteCounts))),
        ("sg_sites", c_uint8, (group, Points, c_size_t, POINTER(SiteCounts), c_size_t, place)),
        ("sg_rows_count", c_uint8, (group, place)),
        ("sg_rows", c_uint8, (group, POINTER(RowParts), c_size_t)),
        ("sg_fit", c_uint8, (group, Points, c_size_t, place, c_size_t, place)),
        ("sg_symmetrize", c_uint8, (group, *3 * (c_uint16,), Values, c_size_t, Sums, c_size_t, Sums)),
    ):
        function = getattr(loaded, name)
        function.restype = result
        function.argtypes = arguments
    return loaded


def bytes_of(text: Text) -> bytes:
    return text.encode() if isinstance(text, str) else bytes(text)


def answer(words: Union[str, Iterable[str]], input: Text = b"") -> str:
    """What the program sg prints for these words, a list or a text with blanks between them, over this input, one triplet a line.
    Raises an Error where it prints none."""
    asked = words.split() if isinstance(words, str) else list(words)
    if any("\n" in word for word in asked):
        raise Error(Status.OUT_OF_RANGE, "sg: words are not a command in range")
    line = "\n".join(asked).encode("utf-8", "surrogateescape")
    data = bytes_of(input)
    lengths = Lengths()
    room = 1 << 16
    fault = ctypes.create_string_buffer(_FAULT_ROOM)
    while True:
        text = ctypes.create_string_buffer(room)
        status = library().sg_answer(line, len(line), data, len(data), text, room, fault, _FAULT_ROOM, ctypes.byref(lengths))
        if status == Status.NOT_TEXT:
            raise Error(status, "sg: words are no text")
        if status != Status.OK:
            raise Error(status, fault.raw[: lengths.fault].decode().rstrip("\n"))
        if lengths.text <= room:
            return text.raw[: lengths.text].decode()
        room = lengths.text
