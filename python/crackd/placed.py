"""Objects into which the library writes the numbers of the rows that it inserts.

A method that inserts rows makes such an object before it calls the library. So it has the numbers of all inserted rows
whatever ends the call and wherever that happens: a signal handler may raise an error between almost any two steps.
"""

from __future__ import annotations

import functools
import inspect
from ctypes import byref, c_int64, c_uint8, c_uint32, c_uint64
from typing import Any, Callable, Concatenate, Optional, ParamSpec, Sequence, TypeVar

from .arrays import empty, from_ints, np, plain
from .routing import SHARD_SHIFT, Spare, blocks_of, error_of
from .rows import SHIFT
from .typed import RowNumbers

# no partition has this number: it means that the library hasn't written one
NOWHERE = 0xFFFF_FFFF
# how many row numbers are moved to another place at a time, which takes little memory
ROWS_AT_ONCE = 4096

Words = ParamSpec("Words")
Answer = TypeVar("Answer")


class Placed:
    """The rows that one call of the library inserts: their partitions and serials, and their number."""

    def __init__(self, size: int, arrays: Optional[tuple[Any, Any, Any]] = None):
        """Makes room for `size` rows, or uses the first items of `arrays`."""
        if arrays is None:
            # the row numbers get theirs now, since after a refusal there may be no memory
            self.parts, self.serials, self._rows = empty("I", size), empty("Q", size), empty("Q", size)
        else:
            self.parts, self.serials, self._rows = (it[:size] for it in arrays)
        self.done, self._is_put = c_uint64(), False

    def rows(self) -> RowNumbers:
        """The numbers of the rows inserted so far."""
        done = self.done.value
        found: RowNumbers = self._rows[:done] if self._is_put else joined(self.parts, self.serials, self._rows, done)
        return found

    def put(self, begin: int, places: Any, rows: RowNumbers) -> None:
        """Stores the numbers of rows that another call inserted, at their places among the rows from `begin` on."""
        self._rows[begin:][places], self._is_put = rows, True


class PlacedOne:
    """The row that one call of the library inserts."""

    def __init__(self, shard: int):
        self.shard, self.part, self.serial = shard, c_uint32(NOWHERE), c_uint64()

    def at(self) -> tuple[Any, Any]:
        """Pointers to what the library writes."""
        return byref(self.part), byref(self.serial)

    @property
    def is_done(self) -> bool:
        """Whether the row is inserted."""
        return self.part.value != NOWHERE

    @property
    def row(self) -> int:
        """The row's number."""
        return self.shard << SHARD_SHIFT | self.part.value << SHIFT | self.serial.value


class PlacedInTurn:
    """Rows that are inserted one after another into these shards."""

    def __init__(self, shards: Sequence[int]):
        self.each = [PlacedOne(it) for it in shards]

    def rows(self) -> RowNumbers:
        """The numbers of the rows inserted so far."""
        found: RowNumbers = from_ints("Q", [it.row for it in self.each if it.is_done], "row numbers")
        return found


class PlacedInShards:
    """Rows for several shards, each of which inserts its rows by one call of the library.

    Its arrays are made before that, since after a refusal there may be no memory. `numbers` has the number of each
    inserted row at its place among the given rows.
    """

    def __init__(self, shards: Any):
        self.shards, self.blocks = shards, list(blocks_of(shards))
        self.each = {it.shard: Placed(len(it.places)) for it in self.blocks}
        self.numbers, self._is_done = np.empty(len(shards), np.uint64), np.zeros(len(shards), bool)
        self._spare = Spare()

    def put(self, shard: int, places: Any, rows: RowNumbers) -> None:
        """Stores the numbers, within a shard, of the rows that it has inserted, at their places."""
        rows |= np.uint64(shard << SHARD_SHIFT)
        self.numbers[places], self._is_done[places] = rows, True

    def _put_all(self) -> None:
        """Stores the numbers of all inserted rows."""
        self._spare.give()
        for shard, places in self.blocks:
            rows = self.each[shard].rows()
            self.put(shard, places[: len(rows)], rows)

    def rows(self) -> RowNumbers:
        """The numbers of the rows inserted so far, in the order of the given rows. They take the place of `numbers`."""
        self._put_all()
        count = 0
        for at in range(0, len(self.shards), ROWS_AT_ONCE):
            rows = self.numbers[at : at + ROWS_AT_ONCE][self._is_done[at : at + ROWS_AT_ONCE]]
            self.numbers[count : count + len(rows)] = rows
            count += len(rows)
        found: RowNumbers = self.numbers[:count]
        return found

    def error(self, errors: dict[int, Any]) -> Any:
        """The error of the whole call, chosen from those of the shards."""
        self._put_all()
        return error_of(errors, self.shards, self._is_done)


class Taken:
    """The row that a call of the library deletes, if it exists."""

    def __init__(self) -> None:
        self.gone, self._key, self._payload = c_uint8(), c_uint64(), c_int64()

    def at(self) -> tuple[Any, Any, Any]:
        """Pointers to what the library writes."""
        return byref(self.gone), byref(self._key), byref(self._payload)

    @property
    def row(self) -> Optional[tuple[int, int]]:
        """The row's key and payload, or None if no row was deleted."""
        return (self._key.value, self._payload.value) if self.gone.value else None


def joined(parts: Any, serials: Any, rows: Any, count: int) -> Any:
    """Computes `count` row numbers from partitions and serials, in the array `rows`. Needs hardly any more memory."""
    if np is not None:
        found = rows[:count]
        found[:] = parts[:count]
        found <<= np.uint64(SHIFT)
        found |= serials[:count]
        return found
    for at in range(count):
        rows[at] = parts[at] << SHIFT | serials[at]
    del rows[count:]
    return rows


def rows_of(placed: Sequence[Any]) -> RowNumbers:
    """The numbers of the rows that several calls inserted."""
    found: Any = [it.rows() for it in placed]
    rows: RowNumbers = found[0] if len(found) == 1 else joined_rows(found)
    return rows


def joined_rows(found: Sequence[Any]) -> Any:
    """Concatenates arrays of row numbers."""
    if np is not None:
        return np.concatenate([np.empty(0, np.uint64), *found])
    return from_ints("Q", [it for each in found for it in plain(each)], "row numbers")


def telling(method: Callable[Concatenate[Any, list[Any], Words], Answer]) -> Callable[Concatenate[Any, Words], Answer]:
    """Decorates a method that inserts rows: an error that ends it gets the numbers of the inserted rows as `answers`.

    The decorated method has a list as a further first parameter. Before it inserts rows, it adds to the list an object
    of this module, which will know their numbers.
    """

    @functools.wraps(method)
    def call(self: Any, /, *words: Words.args, **options: Words.kwargs) -> Answer:
        placed: list[Any] = []
        told: Any = None
        try:
            try:
                return method(self, placed, *words, **options)
            except BaseException as error:
                error.answers = rows_of(placed)  # type: ignore[attr-defined]
                told = error
                raise
        except BaseException as error:
            # a signal may have come while the first error was handled
            if error is not told:
                error.answers = rows_of(placed)  # type: ignore[attr-defined]
            # without this the error's traceback would refer to the error itself
            told = None
            raise

    found = inspect.signature(method)
    parameters = [it for at, it in enumerate(found.parameters.values()) if at != 1]
    call.__signature__ = found.replace(parameters=parameters)  # type: ignore[attr-defined]
    return call
