"""The operations that each kind of table implements, over keys as 64-bit numbers. Public methods are built on them."""

from __future__ import annotations

import abc
from typing import Any, Callable, Generator, Iterable, Mapping, Optional, TypeVar

from .arrays import ints
from .decimals import INTEGERS, PayloadType
from .forks import NoLock, leave_in_children
from .keys import Keys
from .layout import PartLayout
from .rows import Row, Rows, ZonedRows
from .saved import types_of
from .typed import Counts, RowNumbers

Answer = TypeVar("Answer")
# a method that makes several calls, or converts an answer, is written as a generator: it yields what a primitive
# returns and receives the answer, so that the same code serves synchronous and asynchronous tables
Steps = Generator[Any, Any, Answer]


class Primitives(abc.ABC):
    """The operations of a table. Their ranges are closed: from a first to a last key."""

    _keys: Keys
    _payloads: PayloadType = INTEGERS
    _lock: Any
    # whether the rows are in this process, so that counting them asks no other process
    _is_here = False
    # the ends of each partition's keys, by partition number, once they are known; they never change
    _ends: Optional[dict[int, tuple[int, int]]] = None
    # what a save says about the rows beside the rows and their types, by the names of `saved.FIELDS`
    _told: Mapping[str, Any] = {}

    def __new__(cls, *_: Any, **__: Any) -> Any:
        table = super().__new__(cls)
        leave_in_children(table)
        return table

    @property
    def _said(self) -> dict[str, Any]:
        """What a save says about the rows beside the rows themselves."""
        return {**types_of(self._keys, self._payloads), **self._told}

    @property
    def key_type(self) -> str:
        """The type of the keys, such as "int64" or "datetime64[us]"."""
        return self._keys.name

    @property
    def key_decimals(self) -> int:
        """The number of decimal places of the keys. Without any the keys are of `key_type` itself."""
        return self._keys.decimals

    @property
    def payload_decimals(self) -> int:
        """The number of decimal places of the payloads. Without any the payloads are integers."""
        return self._payloads.decimals

    @property
    def zone(self) -> Optional[str]:
        """The time zone of the keys, such as "Europe/Berlin", or None. Naive times are of this zone."""
        return self._keys.zone

    @property
    @abc.abstractmethod
    def policy(self) -> str:
        """How queries merge pending rows."""

    def _drive(self, steps: Steps[Answer]) -> Answer:
        """Runs the steps of a method and returns its result."""
        given: Any = None
        try:
            while True:
                try:
                    given = steps.send(given)
                except StopIteration as done:
                    answer: Answer = done.value
                    return answer
        except BaseException:
            # a signal may have come between two steps; closing them releases the locks that they hold
            steps.close()
            raise

    def _alone_steps(self, steps: Steps[Answer]) -> Steps[Answer]:
        """The same steps; a table in this process excludes other threads until the last one ends."""
        return steps

    def _leave(self) -> None:
        """Gives up the table in a forked child: each call that takes its lock raises `Forked`."""
        self._lock = NoLock()

    def _then(self, answer: Any, call: Callable[[Any], Answer]) -> Answer:
        """Calls a function with what a primitive returned."""
        return call(answer)

    def _row_of(self, key: int, payload: int, raw: bool = False) -> Row:
        """A single row as callers get it. `raw` leaves out what integers stand for."""
        if raw:
            return Row(self._keys.raw.back_one(key), payload)
        return Row(self._keys.back_one(key), self._payloads.back_one(payload))

    def _rows_of(self, found: tuple[Any, Any, Any], raw: bool = False) -> Rows:
        """Rows as callers get them, as `_select` returned them."""
        rows, keys, payloads = found
        if raw:
            return Rows(rows, self._keys.raw.back(keys), payloads)
        found_keys, found_payloads = self._keys.back(keys), self._payloads.back(payloads)
        if self._keys.zone is None:
            return Rows(rows, found_keys, found_payloads)
        return ZonedRows.of(rows, found_keys, found_payloads, self._keys.exact(keys))

    def _nothing(self, answer: Answer) -> Answer:
        """Returns the answer for an empty range. Raises an error if the table is closed."""
        self._check_open()
        return answer

    @staticmethod
    def _no_rows() -> tuple[Any, Any, Any]:
        return ints("Q", [], ""), ints("Q", [], ""), ints("q", [], "")

    def _delete(self, row: int) -> bool:
        return bool(self._delete_many(ints("Q", [row], "row numbers"))[0])

    def _update(self, row: int, key: int, payload: int) -> bool:
        words = ints("Q", [row], "row numbers"), ints("Q", [key], "keys"), ints("q", [payload], "payloads")
        return bool(self._update_many(*words)[0])

    @abc.abstractmethod
    def select(self, low: Any = None, high: Any = None) -> Rows:
        """Returns the rows with keys in the range."""

    @abc.abstractmethod
    def _facts(self) -> Iterable[tuple[str, str]]:
        """The facts that `repr` shows besides rows and keys, as pairs of a name and a text."""

    @abc.abstractmethod
    def _rows(self) -> int:
        """The number of rows. Merges nothing, and so needs little memory."""

    @abc.abstractmethod
    def _check_open(self) -> None: ...

    @abc.abstractmethod
    def _insert(self, key: int, payload: int) -> int: ...

    @abc.abstractmethod
    def _insert_many(self, keys: Any, payloads: Any) -> RowNumbers: ...

    @abc.abstractmethod
    def _take(self, row: int) -> Optional[tuple[int, int]]:
        """Deletes a row. Returns its key and payload, if it existed."""

    @abc.abstractmethod
    def _delete_many(self, rows: Any) -> Any: ...

    @abc.abstractmethod
    def _update_many(self, rows: Any, keys: Any, payloads: Any) -> Any: ...

    @abc.abstractmethod
    def _count(self, first: int, last: int) -> int: ...

    @abc.abstractmethod
    def _count_many(self, firsts: Any, lasts: Any) -> Counts: ...

    @abc.abstractmethod
    def _sum(self, first: int, last: int) -> int: ...

    @abc.abstractmethod
    def _sum_many(self, firsts: Any, lasts: Any) -> list[int]: ...

    @abc.abstractmethod
    def _select(self, first: int, last: int) -> tuple[Any, Any, Any]: ...

    @abc.abstractmethod
    def _settle(self) -> None: ...

    @abc.abstractmethod
    def _checkpoint(self) -> int: ...

    @abc.abstractmethod
    def _layouts(self) -> Iterable[PartLayout]: ...
