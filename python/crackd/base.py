"""The methods that all tables share. Inside, keys are numbers that have the order of the keys."""

from __future__ import annotations

import abc
from typing import Any, Optional, Sequence

from .arrays import flags, ints, items_of
from .described import html_of, text_of
from .errors import OutOfMemory, nothing_done
from .layout import Layout
from .primitives import Steps
from .questions import Questions
from .rows import SERIAL, SHIFT, Row, Rows, row_of, row_text
from .typed import Counts, Flags, OnePayload, Progress, RowNumbers, Self

__all__ = ["SERIAL", "SHIFT", "AnyTable", "Row", "Rows", "parts_for", "parts_to_load", "row_of", "row_text"]

ROWS_A_PART = 4096
# a server that is started for the rows of a file has a partition for each so many
ROWS_A_LOADED_PART = 65_536
MOST_PARTS = 64
POLICIES = ("complete", "gradual", "ripple", "auto")
POLICY = "auto"


def parts_for(rows: int) -> int:
    """The default number of partitions for this many rows."""
    return min(MOST_PARTS, max(rows // ROWS_A_PART, 1))


def parts_to_load(rows: int) -> int:
    """The number of partitions of a server that is started for the rows of a file."""
    return min(MOST_PARTS, max(-(-rows // ROWS_A_LOADED_PART), 1))


class AnyTable(Questions):
    """A table of rows, each with a key and a payload: in this process, on a server, or on a cluster.

    Ranges are half open, as in Python: `low` is inside, `high` isn't, and None means no end. A low end above its high
    end raises ValueError. Each row has a number, which it keeps until it is deleted and which is never reused. Any
    thread may call any method; a shard of a table answers one call at a time. Close a table, or use it in a `with`
    statement.

    Attributes
    ----------
    skipped : int
        How many rows with a gap were left out by the call that made the table from rows, or by the last `load_csv`
        into it. Other tables don't have this attribute.
    """

    skipped: int

    def insert(self, key: Any, payload: Any) -> int:
        """Inserts a row. Returns its number."""
        return self._insert(self._keys.one(key), self._payloads.one(payload))

    def insert_many(self, keys: Any, payloads: Any) -> RowNumbers:
        """Inserts a row for each key and payload.

        Parameters
        ----------
        keys, payloads : array_like
            Of equal length.

        Returns
        -------
        array of uint64
            The numbers of the rows, in the same order.

        Notes
        -----
        If a row is refused, the rows before it are inserted: `done` of the error says how many, and `answers` has their
        numbers. Over TCP and in other shards later rows may be inserted as well: `later` says how many, and `answers`
        includes them. Any other error that ends the call, such as KeyboardInterrupt, has as `answers` the numbers of
        the rows that are known to be inserted.
        """
        return self._insert_many(*self._row_words(keys, payloads))

    def _row_words(self, keys: Any, payloads: Any) -> tuple[Any, Any]:
        """The keys as numbers, and the payloads as an array. Raises ValueError if they differ in length."""
        with nothing_done():
            keys, payloads = items_of(keys, "keys"), items_of(payloads, "payloads")
        if len(keys) != len(payloads):
            raise ValueError(f"{len(keys)} keys and {len(payloads)} payloads")
        with nothing_done():
            return self._keys.many(keys), self._payloads.many(payloads)

    def delete(self, row: int) -> bool:
        """Deletes a row. Returns whether it existed."""
        return self._delete(row_of(row))

    def delete_many(self, rows: Any) -> Flags:
        """Deletes rows. Returns an array of bool: whether each row existed."""
        with nothing_done():
            numbers = ints("Q", rows, "row numbers")
        return self._drive(self._flags_steps(lambda: self._delete_many(numbers)))

    def _flags_steps(self, call: Any) -> Steps[Flags]:
        found: Flags = flags((yield call()))
        return found

    def update(self, row: int, key: Any, payload: Any) -> bool:
        """Gives a row a new key and payload. Returns whether the row exists.

        Raises `WrongPartition` if the key belongs to another partition; `move` takes a row there.
        """
        return self._update(row_of(row), self._keys.one(key), self._payloads.one(payload))

    def update_many(self, rows: Any, keys: Any, payloads: Any) -> Flags:
        """Updates rows in order. Returns an array of bool: whether each row exists.

        If an update is refused, those before it are done: `done` of the error says how many.
        """
        with nothing_done():
            rows, keys = items_of(rows, "row numbers"), items_of(keys, "keys")
            payloads = items_of(payloads, "payloads")
        if not len(rows) == len(keys) == len(payloads):
            raise ValueError(f"{len(rows)} row numbers, {len(keys)} keys and {len(payloads)} payloads")
        with nothing_done():
            words = ints("Q", rows, "row numbers"), self._keys.many(keys), self._payloads.many(payloads)
        return self._drive(self._flags_steps(lambda: self._update_many(*words)))

    def count(self, low: Any = None, high: Any = None) -> int:
        """Returns the number of rows with keys in the range."""
        first, end = self._keys.ends(low, high)
        return self._count(first, end - 1) if first < end else self._nothing(0)

    def count_many(self, lows: Optional[Sequence[Any]], highs: Optional[Sequence[Any]]) -> Counts:
        """Returns the counts of many ranges, as an array of int64.

        None in a list means that this range has no such end, and None in place of a list that no range has.
        """
        return self._count_many(*self._keys.ends_many(lows, highs))

    def sum(self, low: Any = None, high: Any = None, *, raw: bool = False) -> OnePayload:
        """Returns the exact sum of the payloads of the rows with keys in the range.

        If payloads have decimal places this is a `decimal.Decimal`, or with `raw` the integer that stands for it.
        """
        first, end = self._keys.ends(low, high)
        found = self._sum(first, end - 1) if first < end else self._nothing(0)
        return found if raw or not self._payloads.decimals else self._then(found, self._payloads.back_one)

    def sum_many(
        self, lows: Optional[Sequence[Any]], highs: Optional[Sequence[Any]], *, raw: bool = False
    ) -> list[OnePayload]:
        """Returns the sums of many ranges, as a list of what `sum` returns, since a sum may need more than 64 bits."""
        found = self._sum_many(*self._keys.ends_many(lows, highs))
        return found if raw or not self._payloads.decimals else self._then(found, self._payloads.back_each)

    def select(self, low: Any = None, high: Any = None, *, raw: bool = False) -> Rows:
        """Returns the rows with keys in the range.

        Parameters
        ----------
        low, high : optional
        raw : bool, optional
            Whether to return keys and payloads as the table stores them: integers in place of decimals, which are
            otherwise the nearest floats.

        Returns
        -------
        Rows
            Arrays of row numbers, keys and payloads: `rows, keys, payloads = table.select(..)`.
        """
        return self._drive(self._select_steps(low, high, raw))

    def _select_steps(self, low: Any, high: Any, raw: bool) -> Steps[Rows]:
        first, end = self._keys.ends(low, high)
        found = self._select(first, end - 1) if first < end else self._nothing(self._no_rows())
        return self._rows_of((yield found), raw)

    def settle(self) -> None:
        """Merges all pending rows, for example after a load, so that later queries needn't."""
        return self._settle()

    def checkpoint(self) -> int:
        """Empties the histories. Returns how many commands were accepted since they were last emptied.

        Rows and their numbers stay.
        """
        return self._checkpoint()

    def layout(self) -> Layout:
        """Returns the layout of each partition. Print it, or show it in a notebook."""
        return self._drive(self._layout_steps())

    def _layout_steps(self) -> Steps[Layout]:
        return Layout(tuple((yield self._layouts())))

    @abc.abstractmethod
    def close(self) -> None:
        """Frees all that the table holds in this process. A second call does nothing."""

    def _rows(self) -> int:
        return self.layout().rows

    def __repr__(self) -> str:
        return text_of(self)

    def _repr_html_(self) -> str:
        """What a notebook shows."""
        return html_of(self)

    def __reduce_ex__(self, _: Any) -> Any:
        raise TypeError("a table can't be copied or pickled; `rebalanced` makes another with the same rows")

    def __len__(self) -> int:
        try:
            return self.count()
        except OutOfMemory:
            return self._rows()

    def __bool__(self) -> bool:
        return True

    def __enter__(self) -> Self:
        return self

    def __exit__(self, *_: Any) -> None:
        self.close()
