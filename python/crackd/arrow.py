"""Reads columns of numbers and dates from Arrow's C stream interface, which needs no library.

https://arrow.apache.org/docs/format/CStreamInterface.html defines the structures, and CDataInterface.html the formats.
"""

from __future__ import annotations

import contextlib
import ctypes
from ctypes import POINTER, byref, c_char_p, c_int, c_int64, c_void_p
from typing import Any, Iterator, Optional, Sequence, Union

from .arrays import np, whole
from .gaps import Gap
from .zones import Zoned, zone_name

# the formats of columns that can be keys or payloads, with the numpy types of their items
NUMBERS = {"c": "i1", "C": "u1", "s": "i2", "S": "u2", "i": "i4", "I": "u4", "l": "i8", "L": "u8", "e": "f2"}
NUMBERS |= {"f": "f4", "g": "f8"}
DATES = {"tdD": ("i4", "D"), "tdm": ("i8", "ms")}
DATES |= {f"ts{letter}": ("i8", unit) for letter, unit in (("s", "s"), ("m", "ms"), ("u", "us"), ("n", "ns"))}
STRUCT = "+s"


class Schema(ctypes.Structure):
    """ArrowSchema: the type of a column."""


Schema._fields_ = [
    ("format", c_char_p),
    ("name", c_char_p),
    ("metadata", c_void_p),
    ("flags", c_int64),
    ("n_children", c_int64),
    ("children", POINTER(POINTER(Schema))),
    ("dictionary", POINTER(Schema)),
    ("release", ctypes.CFUNCTYPE(None, POINTER(Schema))),
    ("private_data", c_void_p),
]


class Array(ctypes.Structure):
    """ArrowArray: the items of a column."""


Array._fields_ = [
    ("length", c_int64),
    ("null_count", c_int64),
    ("offset", c_int64),
    ("n_buffers", c_int64),
    ("n_children", c_int64),
    ("buffers", POINTER(c_void_p)),
    ("children", POINTER(POINTER(Array))),
    ("dictionary", POINTER(Array)),
    ("release", ctypes.CFUNCTYPE(None, POINTER(Array))),
    ("private_data", c_void_p),
]


class Stream(ctypes.Structure):
    """ArrowArrayStream: batches of rows."""


Stream._fields_ = [
    ("get_schema", ctypes.CFUNCTYPE(c_int, POINTER(Stream), POINTER(Schema))),
    ("get_next", ctypes.CFUNCTYPE(c_int, POINTER(Stream), POINTER(Array))),
    ("get_last_error", ctypes.CFUNCTYPE(c_void_p, POINTER(Stream))),
    ("release", ctypes.CFUNCTYPE(None, POINTER(Stream))),
    ("private_data", c_void_p),
]


@contextlib.contextmanager
def released(it: Any) -> Iterator[Any]:
    """A context in which a structure may be used. At its end the structure is released, unless it is empty."""
    try:
        yield it
    finally:
        if it.release:
            it.release(byref(it))


def stream_of(capsule: Any) -> Stream:
    """The stream in a capsule. The capsule owns the stream until it is released."""
    pointer_of = ctypes.pythonapi.PyCapsule_GetPointer
    pointer_of.argtypes, pointer_of.restype = [ctypes.py_object, c_char_p], c_void_p
    return Stream.from_address(pointer_of(capsule, b"arrow_array_stream"))


def filled(stream: Stream, call: Any, it: Any) -> Any:
    """Has a function of the stream fill a structure. Raises OSError if its status isn't 0."""
    code = call(byref(stream), byref(it))
    if code:
        at = stream.get_last_error(byref(stream)) if stream.get_last_error else None
        said = ctypes.string_at(at).decode("utf-8", "replace") if at else "no reason"
        raise OSError(code, f"the Arrow stream ended: {said}")
    return it


def columns_of_stream(data: Any, wanted: Sequence[Union[str, int]], has_gaps: bool = False) -> list[Any]:
    """Reads columns, by name or number, as numpy arrays. Raises `Gap` with the place of the first missing item.

    If `has_gaps` says that items may be missing, the arrays are masked arrays.
    """
    # the capsule must live as long as the stream
    capsule = data.__arrow_c_stream__()
    with released(stream_of(capsule)) as stream:
        with released(filled(stream, stream.get_schema, Schema())) as schema:
            columns = [Column(schema, it, has_gaps) for it in wanted]
        parts: list[Sequence[Any]] = [[it.empty() for it in columns]]
        before = 0
        while True:
            with released(filled(stream, stream.get_next, Array())) as batch:
                if not batch.release:
                    return [column.whole(each) for column, each in zip(columns, zip(*parts))]
                parts.append([it.items(batch, before) for it in columns])
                before += batch.length


class Column:
    """A column of a stream: the place of its items in a batch, and their type. With `has_gaps` items may be missing."""

    def __init__(self, schema: Schema, wanted: Union[str, int], has_gaps: bool = False):
        self.has_gaps = has_gaps
        self.is_of_struct = text_of(schema.format) == STRUCT
        schemas = [it.contents for it in schema.children[: schema.n_children]] if self.is_of_struct else [schema]
        names = [text_of(it.name) for it in schemas]
        self.place = place_of(names, wanted)
        own = schemas[self.place]
        # a column with a dictionary has places of items in it, and the dictionary has their type
        self.coded = NUMBERS.get(text_of(own.format)) if own.dictionary else None
        form = text_of((own.dictionary.contents if self.coded else own).format)
        self.name = names[self.place] or self.place
        self.dtype, self.unit, self.zone = NUMBERS.get(form), None, None
        if self.dtype is None:
            self.dtype, self.unit = DATES.get(form.partition(":")[0], (None, None))
            self.zone = zone_name(form.partition(":")[2] or None) if self.dtype is not None else None
        # (places are integers)
        if self.dtype is None or own.dictionary and np.dtype(self.coded).kind not in "iu":
            raise TypeError(f"column {self.name!r} has the Arrow type {form!r}, which is no number and no date")

    def whole(self, parts: Sequence[Any]) -> Any:
        """The items of all batches."""
        items = (np.ma if self.has_gaps else np).concatenate(parts)
        return items if self.zone is None else Zoned(items, self.zone)

    def empty(self) -> Any:
        """An array of this type without items."""
        return self.typed(np.empty(0, self.dtype))

    def typed(self, items: Any) -> Any:
        """Items as numbers, or as dates in their unit."""
        return items if self.unit is None else items.astype("i8").view(f"datetime64[{self.unit}]")

    def items(self, batch: Array, before: int) -> Any:
        """A copy of the column's items in a batch. `before` is the number of rows before the batch."""
        own = batch.children[self.place].contents if self.is_of_struct else batch
        if self.is_of_struct and not self.has_gaps:
            self.check_whole(batch, 0, batch.length, before)
        offset = own.offset + (batch.offset if self.is_of_struct else 0)
        if not self.has_gaps:
            self.check_whole(own, offset - own.offset, batch.length, before)
        if not batch.length:
            return self.empty()
        if self.coded:
            return self.looked_up(batch, own, offset, before)
        items = self.typed(numbers_at(own, offset, batch.length, self.dtype))
        return np.ma.masked_array(items, self.all_gaps(batch, own, offset)) if self.has_gaps else items

    def looked_up(self, batch: Array, own: Array, offset: int, before: int) -> Any:
        """The items of a batch whose places in a dictionary the column has."""
        words = own.dictionary.contents
        places = numbers_at(own, offset, batch.length, self.coded).astype(np.int64)
        items = self.typed(numbers_at(words, words.offset, words.length, self.dtype))
        gaps = self.gaps(words, 0, words.length)
        if not self.has_gaps:
            if gaps[places].any():
                raise Gap(f"column {self.name!r} has a gap at row {before + int(np.argmax(gaps[places]))}")
            return items[places]
        # a missing place may be any number
        is_gap = self.all_gaps(batch, own, offset)
        items, gaps = np.append(items, items.dtype.type(0)), np.append(gaps, True)
        places = np.where(is_gap, len(items) - 1, places)
        return np.ma.masked_array(items[places], is_gap | gaps[places])

    def all_gaps(self, batch: Array, own: Array, offset: int) -> Any:
        """Which of the column's items in a batch are missing, or are in a row that is missing."""
        gaps = self.gaps(own, offset - own.offset, batch.length)
        return gaps | self.gaps(batch, 0, batch.length) if self.is_of_struct else gaps

    def check_whole(self, own: Array, more: int, length: int, before: int) -> None:
        """Raises `Gap` if one of the `length` items from the array's offset plus `more` on is missing."""
        gaps = self.gaps(own, more, length)
        if gaps.any():
            raise Gap(f"column {self.name!r} has a gap at row {before + int(np.argmax(gaps))}")

    def gaps(self, own: Array, more: int, length: int) -> Any:
        """Which of the `length` items from the array's offset plus `more` on are missing, as an array of bool."""
        valid = own.buffers[0] if own.n_buffers else None
        if own.null_count == 0 or not valid or not length:
            return np.zeros(length, np.bool_)
        first = own.offset + more
        bits = np.frombuffer(ctypes.string_at(valid, (first + length + 7) // 8), np.uint8)
        return np.unpackbits(bits, bitorder="little")[first : first + length] == 0


def numbers_at(own: Array, offset: int, length: int, dtype: Any) -> Any:
    """A copy of the numbers of an array from an offset on."""
    size = np.dtype(dtype).itemsize
    return np.frombuffer(ctypes.string_at(own.buffers[1] + offset * size, length * size) if length else b"", dtype)


def text_of(text: Optional[bytes]) -> str:
    """A text of the C interface, which may be a null pointer."""
    return (text or b"").decode("utf-8")


def place_of(names: list[str], wanted: Union[str, int]) -> int:
    """The place of the column with this name or number."""
    if isinstance(wanted, str):
        if names.count(wanted) != 1:
            raise KeyError(f"there are {names.count(wanted)} columns {wanted!r}; the names are {', '.join(names)}")
        return names.index(wanted)
    place = whole(wanted, "a column")
    if not 0 <= place < len(names):
        raise KeyError(f"there is no column {place}; there are {len(names)}")
    return place
