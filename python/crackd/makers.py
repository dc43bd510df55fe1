"""Class methods that make a table in this process from frames, Arrow data and files."""

from __future__ import annotations

import abc
from typing import Any, Callable, Iterator, Optional, TypeVar, overload

from .arrays import items_of
from .asked import text_of_found
from .base import AnyTable
from .decimals import keys_with_decimals, payloads_with_decimals
from .frames import columns_of_arrow, columns_of_pandas
from .gaps import Gap, is_skipping, whole_rows
from .saved import read_saved
from .typed import Progress, Self

Other = TypeVar("Other", bound=AnyTable)


class TableHere(AnyTable):
    """A table in this process."""

    _is_here = True
    shards: int
    partitions: int

    @classmethod
    @abc.abstractmethod
    def from_arrays(cls, keys: Any, payloads: Any = None, **options: Any) -> Self:
        """Creates a table of these rows."""

    @classmethod
    def from_pandas(
        cls,
        frame: Any,
        key: Any = None,
        payload: Any = None,
        *,
        key_decimals: Optional[int] = None,
        payload_decimals: Optional[int] = None,
        missing: str = "error",
        **options: Any,
    ) -> Self:
        """Creates a table of the rows of a DataFrame or Series and merges them all.

        Parameters
        ----------
        frame : pandas.DataFrame or pandas.Series
        key, payload : label, optional
            The columns. Without `key` the keys are the index. Without `payload` the payloads are the values of a
            Series, or else 0, 1, 2 .., the positions that `frame.iloc` takes.
        key_decimals, payload_decimals : int, optional
            The numbers of decimal places: see `Table`. By default these are the most that occur in a column of floats
            or decimals, if that are at most 9. Keys without such places stay floats, and payloads are refused.
        missing : str, optional
            "skip" leaves out rows whose key or payload is missing, and `skipped` of the table says how many. "error"
            raises an error.
        **options
            Parameters of `Table`, and `progress` of `from_arrays`.

        Returns
        -------
        Table
            Its `row_numbers` are the numbers of the rows, in the order of the frame. Rows that are left out have none.

        Raises
        ------
        ValueError
            If a value is missing, or isn't a decimal with these places. The message names the first one.

        Notes
        -----
        Nullable integer columns are accepted. Dates with a time zone make a table of that zone.
        """
        words = (frame, key, payload)
        return cls._from_columns(columns_of_pandas, words, key_decimals, payload_decimals, missing, options)

    @classmethod
    def _from_columns(
        cls,
        read: Callable[..., Any],
        words: tuple[Any, ...],
        key_decimals: Optional[int],
        payload_decimals: Optional[int],
        missing: str,
        options: Any,
    ) -> Self:
        """Creates a table of columns, which a function reads, and finds the decimal places that aren't given."""
        skipped = 0
        try:
            keys, payloads = read(*words, has_gaps=is_skipping(missing))
        except Gap as gap:
            raise gap.hinted() from None
        if is_skipping(missing):
            keys, payloads, skipped = whole_rows(keys, payloads)
            keys, payloads = items_of(keys, "keys"), items_of(payloads, "payloads")
        if key_decimals is None and options.get("key_type") is None:
            keys = keys_with_decimals(keys)
        if payload_decimals is None:
            payloads = payloads_with_decimals(payloads)
        options |= {"key_decimals": key_decimals, "payload_decimals": payload_decimals}
        table = cls.from_arrays(keys, payloads, **options)
        table.skipped = skipped
        return table

    @classmethod
    def from_arrow(
        cls,
        data: Any,
        key: Any = 0,
        payload: Any = None,
        *,
        key_decimals: Optional[int] = None,
        payload_decimals: Optional[int] = None,
        missing: str = "error",
        **options: Any,
    ) -> Self:
        """Creates a table of the rows of Arrow data and merges them all.

        Parameters
        ----------
        data : object
            An object with the method `__arrow_c_stream__`, such as a pyarrow Table or a polars DataFrame.
        key, payload : str or int, optional
            The columns, by name or number. Without `payload` the payloads are 0, 1, 2 ..
        key_decimals, payload_decimals : int, optional
            Those of `from_pandas`.
        missing : str, optional
            That of `from_pandas`.
        **options
            Parameters of `Table`, and `progress` of `from_arrays`.

        Returns
        -------
        Table
            Its `row_numbers` are the numbers of the rows, in the order of the data.
        """
        words = (data, key, payload)
        return cls._from_columns(columns_of_arrow, words, key_decimals, payload_decimals, missing, options)

    @overload
    @classmethod
    def load(cls, path: Any, *, into: Other, progress: Progress = None) -> Other: ...

    @overload
    @classmethod
    def load(cls, path: Any, *, progress: Progress = None, **options: Any) -> Self: ...

    @classmethod
    def load(cls, path: Any, *, into: Any = None, progress: Progress = None, **options: Any) -> Any:
        """Loads the rows of a file that `save` wrote into a new table, or into the table `into`, and merges them.

        Rows get new numbers. Raises `BadSave` if the file isn't one that `save` writes, or has changed since then.
        Options are those of `Table`, and only for a new table.
        """
        kind, payloads, rows, told = read_saved(path)
        keys, values = kind.of_raw(rows["key"]), payloads.exact(rows["payload"])
        if into is None:
            options = {"key_type": kind, "payload_decimals": payloads.decimals, **options}
            table = cls.from_arrays(keys, values, **options, progress=progress)
            table._told = told
            return table
        if options:
            raise TypeError(f"options are for a new table: {', '.join(options)}")
        into.insert_rows(keys, values, progress=progress)
        into.settle()
        return into

    @property
    def found(self) -> Optional[dict[str, Any]]:
        """How `load_csv` read the file that the table was made of: arguments that read another file in the same way.

        It is None for a table that wasn't made of a CSV file. `save` keeps it.
        """
        found = self._told.get("found")
        return None if found is None else dict(found)

    @abc.abstractmethod
    def _memory(self) -> int:
        """About how many bytes of memory the rows take."""

    def _facts(self) -> Iterator[tuple[str, str]]:
        if self.found is not None:
            yield "of", text_of_found(self.found)
        if self.shards > 1:
            yield "shards", str(self.shards)
        yield "partitions", str(self.partitions)
        yield "policy", self.policy
