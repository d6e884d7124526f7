"""Fezandimo, the reader of fare sheets: the functions of its shared library, for Python 3.11.

The shared library is made from the static one; its path stands in FEZANDIMO_LIB or is given to Reader.
"""

import ctypes
import os
from ctypes import POINTER, c_size_t, c_uint8, c_uint32, c_uint64
from typing import NamedTuple

# The least elements of the work slices, by their number.
_SHEET = ((c_uint32, 15360),) * 4 + ((c_uint32, 2048), (c_uint8, 61444))
_PLANE = ((c_uint32, 4160), (c_uint32, 2048), (c_uint32, 4160), (c_uint32, 12480))

# The lists of a lent plane: rows, kinds, regions, offsets, sizes, bytes.
_LISTS = (c_uint32, c_uint8, c_uint32, c_uint32, c_uint32, c_uint8)

# The bytes of the first output slice; a longer one is lent where the record needs it.
_ROOM = 4096
_OUTPUT_SLICE_SHORT = 27

_WORDS = ("bytes", "policy", "orientation", "inputs", "outputs", "annotations", "rules")


class Refusal(Exception):
    """Why a sheet, a lent plane or a text is refused: its number and what that tells."""

    def __init__(self, n, a, b):
        super().__init__(f"refused {n} {a} {b}")
        self.n, self.a, self.b = n, a, b


class _Answer(ctypes.Structure):
    _fields_ = [("n", c_uint64), ("a", c_uint64), ("b", c_uint64)]


class _SplitAnswer(ctypes.Structure):
    _fields_ = [("n", c_uint64), ("a", c_uint64), ("b", c_uint64), ("rewritten", c_uint64)]
    _fields_ += [("length", c_size_t), ("start", c_size_t), ("end", c_size_t)]


class LentPlane(NamedTuple):
    """The lists of a lent plane, as in fezandimo.h."""

    rows: list[int]
    kinds: list[int]
    regions: list[int]
    offsets: list[int]
    sizes: list[int]
    bytes: bytes


class Record(bytes):
    """The bytes of a table record."""

    def word(self, index):
        return int.from_bytes(self[4 * index : 4 * index + 4], "little")

    def slot(self, index):
        """The offset, the length and the text of a slot; None where it is absent."""
        first = self.word(7) // 4 + 2 * index
        offset, length = self.word(first), self.word(first + 1)
        return (offset, length, bytes(self[offset : offset + length])) if offset else None

    def lines(self):
        """The lines that document 01's program prints."""
        for index, name in enumerate(_WORDS):
            yield f"{name} {self.word(index)}"
        for index in range(self.word(8)):
            slot = self.slot(index)
            yield f"slot {index} " + (f"{slot[0]} {slot[1]} {slot[2].decode()}" if slot else "absent")


def _slice(kind, elements):
    """A slice with these elements; never of length 0, as its pointer may not be null."""
    return (kind * max(1, len(elements)))(*elements)


def _function(library, name, kinds, answer):
    function = getattr(library, name)
    function.restype = answer
    function.argtypes = [part for kind in kinds for part in (POINTER(kind), c_size_t)]
    return function


class Reader:
    """The three entries with their work slices; one for any number of calls, by one thread at a time."""

    def __init__(self, path=None):
        library = ctypes.CDLL(path or os.environ["FEZANDIMO_LIB"])
        self._sheet_works = [(kind * count)() for kind, count in _SHEET]
        self._plane_works = [(kind * count)() for kind, count in _PLANE]
        sheet = [c_uint8, *(kind for kind, _ in _SHEET), c_uint8]
        plane = [*_LISTS, *(kind for kind, _ in _PLANE), c_uint8]
        self._read_sheet = _function(library, "fezandimo_read_sheet", sheet, _Answer)
        self._read_lent_plane = _function(library, "fezandimo_read_lent_plane", plane, _Answer)
        self._split = _function(library, "fezandimo_split_values", [c_uint8, c_uint8], _SplitAnswer)

    def read_sheet(self, sheet):
        """The record of a sheet, given as bytes in UTF-8; raises Refusal."""
        lent = [(_slice(c_uint8, sheet), len(sheet))]
        return self._record(self._read_sheet, lent, self._sheet_works)

    def read_lent_plane(self, plane):
        """The record of a LentPlane; raises Refusal."""
        lent = [(_slice(kind, part), len(part)) for kind, part in zip(_LISTS, plane)]
        return self._record(self._read_lent_plane, lent, self._plane_works)

    def split_values(self, text):
        """The allowed values and the default of an output clause's text; None for the default where there is none."""
        scratch = (c_uint8 * max(1, len(text)))()
        told = self._split(_slice(c_uint8, text), len(text), scratch, len(text))
        if told.n:
            raise Refusal(told.n, told.a, told.b)
        if not told.rewritten:
            return text, None
        return bytes(scratch[: told.length]), text[told.start : told.end]

    def _record(self, function, lent, works):
        """Calls, and once more with an output slice of the bytes that 27 tells."""
        slices = [part for pair in lent for part in pair]
        slices += [part for work in works for part in (work, len(work))]
        room = _ROOM
        while True:
            out = (c_uint8 * room)()
            told = function(*slices, out, room)
            if told.n == 0:
                return Record(bytes(out)[: told.a])
            if told.n != _OUTPUT_SLICE_SHORT:
                raise Refusal(told.n, told.a, told.b)
            room = told.a
