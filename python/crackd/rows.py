"""The types in which calls return rows, and conversions of payloads and row numbers."""

from __future__ import annotations

from typing import TYPE_CHECKING, Any, Iterator, NamedTuple

from .arrays import TOP, from_ints, ints, np, shown, whole
from .typed import KeyArray, OneKey, OnePayload, Payloads, RowNumbers
from .zones import Zoned, clock_of

if TYPE_CHECKING:
    import pandas

    from .base import AnyTable

# a row number is a partition and, in the lower `SHIFT` bits, a serial
SHIFT = 48
SERIAL = (1 << SHIFT) - 1
# the default number of rows of a chunk
CHUNK = 65_536


class Row(NamedTuple):
    """The key and payload of a row, as `get` returns them.

    Examples
    --------
    >>> with crackd.Table() as table:
    ...     key, payload = table.get(table.insert(5, 70))
    ...     print(key, payload)
    5 70
    """

    key: OneKey
    payload: OnePayload


class Rows(NamedTuple):
    """Rows as `select` returns them: three arrays of equal length, ordered by row number.

    Examples
    --------
    >>> with crackd.Table() as table:
    ...     numbers = table.insert_many([9, 5], [1, 70])
    ...     rows = table.select(0, 10)
    ...     print(rows.keys.tolist(), rows.payloads.tolist())
    [9, 5] [1, 70]
    """

    rows: RowNumbers
    keys: KeyArray
    payloads: Payloads

    def chunks(self, size: int = CHUNK) -> Iterator[Rows]:
        """Yields the rows in order, at most `size` at a time. The arrays are views of these arrays."""
        for at in range(0, len(self.rows), checked_size(size)):
            yield Rows(self.rows[at : at + size], self.keys[at : at + size], self.payloads[at : at + size])

    def to_pandas(self) -> pandas.DataFrame:
        """Returns a DataFrame with the columns `key` and `payload`. Its index, `row`, has the row numbers.

        Raises
        ------
        ValueError
            If pandas can't represent a date exactly.
        """
        import pandas

        index = pandas.Index(self.rows, name="row", dtype="uint64")
        return pandas.DataFrame({"key": dates_of_pandas(self.keys), "payload": self.payloads}, index=index)


class ZonedRows(Rows):
    """Rows of a table with a time zone: `keys` has what its clocks show, and `to_pandas` has the zone."""

    _moments: Zoned

    @classmethod
    def of(cls, rows: Any, keys: Any, payloads: Any, moments: Zoned) -> ZonedRows:
        """Rows whose keys are these moments."""
        found = cls(rows, keys, payloads)
        found._moments = moments
        return found

    def chunks(self, size: int = CHUNK) -> Iterator[Rows]:
        """Yields the rows in order, at most `size` at a time. The arrays are views of these arrays."""
        for at, part in zip(range(0, len(self.rows), checked_size(size)), super().chunks(size)):
            yield ZonedRows.of(*part, self._moments[at : at + size])

    def to_pandas(self) -> pandas.DataFrame:
        """Returns the frame of `Rows.to_pandas`, whose keys are times with the zone."""
        frame = Rows(self.rows, self._moments.dates, self.payloads).to_pandas()
        zone = clock_of(self._moments.zone).of_pandas
        frame["key"] = frame["key"].dt.tz_localize("UTC").dt.tz_convert(zone)
        return frame


class Rebalanced(NamedTuple):
    """The new table that `rebalanced` returns, the old row numbers in ascending order, and the new ones beside them.

    Examples
    --------
    >>> with crackd.Table() as before:
    ...     numbers = before.insert_many([9, 5, 7], [1, 70, 3])
    ...     gone = before.delete(numbers[0])
    ...     table, old, new = before.rebalanced()
    ...     print(table.count(), old.tolist(), new.tolist())
    2 [1, 2] [0, 1]
    """

    table: AnyTable
    old: RowNumbers
    new: RowNumbers

    def new_of(self, rows: Any) -> RowNumbers:
        """The new numbers of the rows with these old numbers. Raises KeyError if no row had one of them."""
        found = ints("Q", rows, "row numbers")
        numbers: RowNumbers
        if np is None:
            new = dict(zip(self.old, self.new))
            numbers = from_ints("Q", [new[it] for it in found], "row numbers")
            return numbers
        places = np.searchsorted(self.old, found)
        is_there = places < len(self.old)
        is_there[is_there] = self.old[places[is_there]] == found[is_there]
        if not is_there.all():
            raise KeyError(f"no row had the number {found[np.argmin(is_there)]}")
        numbers = self.new[places]
        return numbers


def row_text(row: int) -> str:
    """A row number as a server writes it: the partition, a dot, and the serial in that partition."""
    return f"{int(row) >> SHIFT}.{int(row) & SERIAL}"


def row_of(row: Any) -> int:
    """A single row number as an int."""
    number = row if type(row) is int else whole(row, "a row number")
    if not 0 <= number < TOP:
        raise OverflowError(f"the row number {shown(row)} doesn't fit into an unsigned integer of 64 bits")
    return number


def checked_size(size: int) -> int:
    """The number of rows of a chunk. Raises ValueError if it is below 1."""
    if whole(size, "a chunk's size") < 1:
        raise ValueError(f"a chunk has at least 1 row, not {size}")
    return size


def dates_of_pandas(keys: Any) -> Any:
    """Keys as pandas represents them. Raises ValueError if a date isn't exact in the units that pandas has."""
    if keys.dtype.kind != "M":
        return keys
    import pandas

    try:
        found = pandas.Series(keys)
    except (TypeError, ValueError, AssertionError) as error:
        # pandas 1.5 raises AssertionError for a unit of several nanoseconds
        raise ValueError(f"pandas has no dates of {keys.dtype} that are exact here") from error
    back = found.to_numpy()
    # numpy compares dates of different units exactly, except that a date far from 1970 may overflow and change its sign
    if not (back.astype(keys.dtype) == keys).all() or (np.sign(back.view("i8")) != np.sign(keys.view("i8"))).any():
        raise ValueError(f"pandas has no dates of {keys.dtype} that are exact here")
    # `DataFrame` would align a Series with its index by label
    return found.array
