"""The further methods of tables: means, histograms, single rows, moves, chunks and copies."""

from __future__ import annotations

import bisect
import contextlib
from typing import Any, Iterator, Optional, Sequence

from .arrays import SIGN, TOP, from_ints, items_of, np
from .decimals import INTEGERS, PayloadType
from .errors import Error, Refused, refused
from .frames import columns_of
from .primitives import Primitives, Steps
from .progress import insert_steps
from .rows import CHUNK, SHIFT, Rebalanced, Row, Rows, checked_size, row_of
from .saved import Writing, writing
from .typed import Counts, Mean, Progress, RowNumbers, Sums


class Questions(Primitives):
    """Methods of all tables that are made of counts, sums, selects, inserts and deletes."""

    def mean(self, low: Any = None, high: Any = None, *, raw: bool = False) -> Optional[Mean]:
        """Returns the exact mean of the payloads of the rows with keys in the range.

        Returns
        -------
        fractions.Fraction, decimal.Decimal or None
            The sum divided by the count; `float` rounds it. None if there is no row, as in SQL. If payloads have
            decimal places it is a decimal, exactly, or rounded to 40 digits if no decimal is exact; with `raw` it is
            the exact mean of the integers that stand for them.

        Notes
        -----
        On a server or a cluster the sum and the count are two calls. Changes by other clients between them may be in
        only one of the two.
        """
        return self._drive(self._mean_steps(low, high, INTEGERS if raw else self._payloads))

    def _mean_steps(self, low: Any, high: Any, payloads: PayloadType) -> Steps[Optional[Mean]]:
        first, end = self._keys.ends(low, high)
        if first >= end:
            yield self._nothing(None)
            return None
        total, count = yield from self._alone_steps(self._sum_and_count_steps(first, end - 1))
        return payloads.mean(total, count) if count else None

    def _sum_and_count_steps(self, first: int, last: int) -> Steps[tuple[int, int]]:
        total = yield self._sum(first, last)
        return total, (yield self._count(first, last))

    def count_by(self, edges: Sequence[Any]) -> Counts:
        """Returns a histogram: the number of rows with keys from each edge up to but not including the next.

        Parameters
        ----------
        edges : array_like
            In ascending order; neighbours may be equal. The first and the last may be None, which means no end.

        Returns
        -------
        array of int64
            One count fewer than edges. Unlike in `numpy.histogram`, the last range excludes its high end.
        """
        return self._count_many(*self._keys.ends_many(*neighbours(edges)))

    def sum_by(self, edges: Sequence[Any], *, raw: bool = False) -> Sums:
        """Returns the exact sums of the payloads in the ranges of `count_by`.

        Returns
        -------
        array of int64, of float64, or of objects
            If payloads have decimal places these are the floats nearest to the sums, or with `raw` the integers that
            stand for them. If an integer needs more than 64 bits, the items are Python ints.
        """
        return self._drive(self._sum_by_steps(edges, INTEGERS if raw else self._payloads))

    def _sum_by_steps(self, edges: Sequence[Any], payloads: PayloadType) -> Steps[Sums]:
        found = yield self._sum_many(*self._keys.ends_many(*neighbours(edges)))
        sums: Sums = sums_array(found, payloads)
        return sums

    def delete_range(self, low: Any = None, high: Any = None) -> int:
        """Deletes the rows with keys in the range. Returns how many were deleted.

        Rows that other clients of a server or a cluster insert meanwhile stay. If a deletion is refused, those before
        it are done: `done` of the error says how many.
        """
        return self._drive(self._delete_range_steps(low, high))

    def _delete_range_steps(self, low: Any, high: Any) -> Steps[int]:
        first, end = self._keys.ends(low, high)
        if first >= end:
            yield self._nothing(0)
            return 0
        gone = yield from self._alone_steps(self._deleted_steps(first, end - 1))
        return int(gone.sum()) if np is not None else sum(gone)

    def _deleted_steps(self, first: int, last: int) -> Steps[Any]:
        rows = (yield self._select(first, last))[0]
        return (yield self._delete_many(rows))

    def get(self, row: int, *, raw: bool = False) -> Optional[Row]:
        """Returns the key and payload of a row, or None if it doesn't exist. Reads all rows of its partition.

        Raises
        ------
        NoSuchPartition
            If the table has no such partition, so that no row can have this number.
        """
        return self._drive(self._get_steps(row, raw))

    def _get_steps(self, row: int, raw: bool) -> Steps[Optional[Row]]:
        number = row_of(row)
        ends = yield from self._ends_steps()
        if number >> SHIFT not in ends:
            raise refused(5)
        first, end = ends[number >> SHIFT]
        rows, keys, payloads = yield self._select(first, end - 1)
        # the rows of a partition are ordered by their numbers
        at = place_of(number, rows)
        if at == len(rows) or int(rows[at]) != number:
            return None
        return self._row_of(int(keys[at]), int(payloads[at]), raw)

    def _ends_steps(self) -> Steps[dict[int, tuple[int, int]]]:
        """The ends of each partition's keys, by its number."""
        if self._ends is None:
            self._ends = {it.partition: it.ends for it in (yield self._layouts())}
        else:
            yield self._nothing(None)
        return self._ends

    def move(self, row: int, key: Any) -> Optional[int]:
        """Gives a row a new key, in any partition: deletes the row, and inserts its payload with the new key.

        Returns
        -------
        int or None
            The row's new number, or None if the row doesn't exist.

        Notes
        -----
        If the insertion is refused, the row is inserted again with its old key. `answers` of the error then has the
        row's number, which is a new one, or is empty if that insertion was refused too. In both cases `row` of the
        error has the old key and the payload. A table in this process does the same if a signal ends the call before
        the row has its new key. If a connection is lost between the two steps, the row may be gone, or may have its
        new key.
        """
        return self._drive(self._move_steps(row, key))

    def _move_steps(self, row: int, key: Any) -> Steps[Optional[int]]:
        number, new = row_of(row), self._keys.one(key)
        taken = yield self._take(number)
        if taken is None:
            return None
        try:
            return int((yield self._insert_one(new, taken[1]))[0])
        except BaseException as error:
            yield from self._put_back_steps(error, taken)
            raise

    def _insert_one(self, key: int, payload: int) -> Any:
        """Inserts a row by `_insert_many`, since `answers` of its errors shows whether the row was inserted."""
        return self._insert_many(from_ints("Q", [key], "keys"), from_ints("q", [payload], "payloads"))

    def _put_back_steps(self, error: Any, taken: tuple[int, int]) -> Steps[None]:
        """Inserts a deleted row again with its old key, if `error` shows that it wasn't inserted with its new one."""
        error.row = self._row_of(*taken)
        placed = getattr(error, "answers", None)
        # after a lost connection or a cancelled task it isn't known whether the row was inserted
        if placed is None or len(placed) or not isinstance(error, Refused):
            return
        with contextlib.suppress(Error):
            error.answers = yield self._insert_one(*taken)

    def select_chunks(
        self, low: Any = None, high: Any = None, size: int = CHUNK, *, raw: bool = False
    ) -> Iterator[Rows]:
        """Yields the rows of `select` in the same order, at most `size` at a time.

        A partition is read only when its first chunk is needed. So only one partition's rows are in memory at a time,
        and the chunks may or may not contain changes that are made during the iteration.
        """
        first, end = self._keys.ends(low, high)
        checked_size(size)
        if first >= end:
            return iter(self._nothing(()))
        return self._chunks(self._drive(self._parts_steps(first, end)), size, raw)

    def _parts_steps(self, first: int, end: int) -> Steps[list[tuple[int, int]]]:
        """For each partition that meets a range, its first and last key in the range."""
        ends = yield from self._ends_steps()
        meets = [(max(low, first), min(high, end) - 1) for _, (low, high) in sorted(ends.items())]
        return [it for it in meets if it[0] <= it[1]]

    def _chunks(self, parts: list[tuple[int, int]], size: int, raw: bool) -> Iterator[Rows]:
        for first, last in parts:
            yield from self._rows_of(self._select(first, last), raw).chunks(size)

    def insert_frame(
        self, frame: Any, key: Any = None, payload: Any = None, *, progress: Progress = None
    ) -> RowNumbers:
        """Inserts the rows of a pandas DataFrame or Series, or of Arrow data such as a polars DataFrame.

        Parameters
        ----------
        frame : object
            A DataFrame, a Series, or an object with the method `__arrow_c_stream__`.
        key, payload : label, optional
            The columns: for pandas by name, for Arrow by name or number. Without `key` the keys are the pandas index,
            or the first Arrow column. Without `payload` the payloads are the values of a Series, or else 0, 1, 2 ..
        progress : bool or callable, optional
            True reports progress on standard error. A function is called with the number of rows inserted so far and
            the number of all rows.

        Returns
        -------
        array of uint64
            The numbers of the rows, in the order of the frame.

        Raises
        ------
        ValueError
            If a value is missing. The message names the first one. Nothing is inserted.
        """
        return self.insert_rows(*columns_of(frame, key, payload), progress=progress)

    def insert_rows(self, keys: Any, payloads: Any, *, progress: Progress = None) -> RowNumbers:
        """Does what `insert_many` does, and reports progress: see `insert_frame`."""
        return self._drive(insert_steps(self, keys, payloads, progress))

    def rebalanced(self, into: Any = None, **options: Any) -> Rebalanced:
        """Copies the rows to a new table whose splits divide the present keys evenly.

        Parameters
        ----------
        into : table, optional
            The table to copy to, for example on a new server. The default is a new table: on the cluster if this table
            is there, else in this process.
        **options
            Parameters of the new table. Its default policy is this table's.

        Returns
        -------
        Rebalanced
            The new table, and the old and new numbers of the rows. This table stays open and unchanged.
        """
        not_into_itself(self, into)
        if into is not None and options:
            raise TypeError(f"options are for a new table: {', '.join(options)}")
        types = {"key_type": self._keys, "payload_decimals": self._payloads.decimals}
        return self._drive(self._rebalanced_steps(into, {**types, "policy": self.policy, **options}))

    def _rebalanced_steps(self, into: Any, options: dict[str, Any]) -> Steps[Rebalanced]:
        old, keys, payloads = yield from self._alone_steps(self._all_steps())
        keys, payloads = self._keys.exact(keys), self._payloads.exact(payloads)
        found = self._anew(keys, len(keys), options) if into is None else into
        if into is None:
            found._told = self._told
        try:
            new = yield found.insert_many(keys, payloads)
            yield found.settle()
        except BaseException:
            if into is None:
                found.close()
            raise
        return Rebalanced(found, old, new)

    def _all_steps(self) -> Steps[tuple[Any, Any, Any]]:
        rows: tuple[Any, Any, Any] = yield self._select(0, TOP - 1)
        return rows

    def _anew(self, keys: Any, rows: int, options: dict[str, Any]) -> Any:
        """Creates an empty table for about `rows` rows with keys like these."""
        from .table import Table

        return Table(keys, rows, **options)

    def save(self, path: Any) -> int:
        """Writes the rows to a file that `numpy.load` and `Table.load` read.

        The file holds an array with the fields `key` and `payload`, without row numbers, and a checksum. This needs
        numpy.

        Returns
        -------
        int
            The number of rows written.

        Notes
        -----
        A regular file is replaced only after everything is on disk, and keeps its mode and, if this process may set it,
        its owner. Of several saves to one file at a time the last one stands. Through a symlink the file that it names
        is replaced. A pipe or a device is written to.
        """
        return self._drive(self._save_steps(path))

    def _save_steps(self, path: Any) -> Steps[int]:
        with writing(path, self._keys, self._said) as file:
            yield from self._alone_steps(self._written_steps(file))
        return file.rows

    def _written_steps(self, file: Writing) -> Steps[None]:
        for part in (yield from self._parts_steps(0, TOP)):
            file.add(*(yield self._select(*part))[1:])


def not_into_itself(table: Any, into: Any) -> None:
    """Raises ValueError if rows would be copied to the table that they are in, which would have each of them twice."""
    if into is table:
        raise ValueError("a table can't be rebalanced into itself; without `into` there is a new one")


def neighbours(edges: Any) -> tuple[Any, Any]:
    """The low and the high ends of the ranges between neighbouring edges."""
    given = items_of(edges, "edges")
    if len(given) < 2:
        raise ValueError(f"ranges need at least two edges, not {len(given)}")
    if isinstance(given, (list, tuple)) and any(it is None for it in given[1:-1]):
        raise TypeError("only the first and the last edge may be None")
    return given[:-1], given[1:]


def sums_array(sums: list[int], payloads: PayloadType = INTEGERS) -> Any:
    """Sums as an array of int64 if they fit, else of objects. Decimals become floats. Without numpy it is a list."""
    if np is None:
        return payloads.back_each(sums)
    if payloads.decimals:
        # Python divides integers exactly and rounds once
        return np.array([it / 10**payloads.decimals for it in sums], np.float64)
    fits = all(-SIGN <= it < SIGN for it in sums)
    return np.array(sums, dtype=np.int64 if fits else object)


def place_of(number: int, rows: Any) -> int:
    """The place of the first of these ascending row numbers that isn't below `number`."""
    if np is not None:
        return int(np.searchsorted(rows, np.uint64(number)))
    return bisect.bisect_left(rows, number)

