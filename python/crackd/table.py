"""A table in this process."""

from __future__ import annotations

from bisect import bisect_right
from functools import partial
from typing import Any, Callable, Optional, Sequence

from .arrays import Given, items_of, np, sized, whole, whole_or_none
from .base import MOST_PARTS, POLICIES, POLICY, SHIFT
from .decimals import PayloadType, Scaled, decimals_of
from .errors import Error, Refused, nothing_done, refused
from .gaps import taking_gaps
from .keys import keys_for
from .library import library
from .local import MOST_CELLS, LocalShard
from .makers import TableHere
from .placed import Placed, PlacedInShards, PlacedInTurn, Taken, rows_of, telling
from .pool import processors, run_in_turn, run_side_by_side
from .primitives import Answer, Steps
from .progress import pieces_of, reporter
from .routing import IN_SHARD, MOST_SHARDS, SHARD_SHIFT, Cut, Sharded, checked_splits, put_rows, shard_of
from .rows import row_of
from .server import splits_of
from .typed import Progress, RowNumbers, Self

# by default a table has one shard per `ROWS_A_SHARD` rows, at most `MOST_BY_DEFAULT` and at most one per processor
ROWS_A_SHARD = 50_000
MOST_BY_DEFAULT = 16
# about how many keys of an array are used as a sample
SAMPLED = 10_000
# shards answer in parallel if a call has at least this many items, or if the shards of a call named in `LONG_BY_ROWS`
# have at least `MANY_ROWS` rows
LONG = {"place_many": 2000, "load_many": 2000, "delete_many": 2000, "update_many": 2000, "count_many": 200}
LONG["sum_many"] = 200
LONG_BY_ROWS = ("select", "settle", "checkpoint", "layouts")
MANY_ROWS = 20_000
# up to this many items are handled one by one, which is cheaper than grouping them by shard
FEW_ITEMS = 32
# methods that a table with one shard takes over from that shard
ALONE = ["insert", "delete", "update", "count", "sum", "select", "settle", "checkpoint", "rows", "check_open"]
ALONE += ["delete_many", "update_many", "count_many", "sum_many"]


class Table(TableHere, Sharded):
    """A table in this process.

    Calls that may take long release the interpreter's lock, so that other threads keep running.

    Attributes
    ----------
    shards : int
        The number of shards. Each holds a range of the keys and answers one call at a time. Calls for many items, and
        others that take long, run on several shards in parallel.
    partitions : int
        The number of partitions of all shards.
    row_numbers : array of uint64
        The numbers of the rows that the table was made from (arrays, a frame or a file), in the order given. An empty
        table that was made by `Table(..)` doesn't have this attribute.

    Examples
    --------
    >>> with crackd.Table() as table:
    ...     row = table.insert(5, 70)
    ...     print(table.count(0, 10), table.sum(), table.delete(row), table.count())
    1 70 True 0
    """

    row_numbers: RowNumbers

    def __init__(
        self,
        sample: Any = (),
        rows: Optional[int] = None,
        *,
        key_type: Any = None,
        key_decimals: Optional[int] = None,
        payload_decimals: Optional[int] = None,
        zone: Any = None,
        shards: Optional[int] = None,
        partitions: Optional[int] = None,
        splits: Optional[Sequence[Any]] = None,
        policy: str = POLICY,
        history: Optional[int] = None,
        cells: int = MOST_CELLS,
    ):
        """Creates an empty table.

        Parameters
        ----------
        sample : array_like, optional
            Keys distributed like those that the table will hold. Its quantiles divide the keys into partitions.
        rows : int, optional
            About how many rows the table will hold. The default is the length of `sample`.
        key_type : str or type, optional
            The type of the keys: "int64", "uint64", "float64", "datetime64[s]" .. The default is the type of `sample`,
            or "int64" without a sample.
        key_decimals, payload_decimals : int, optional
            The numbers of decimal places of keys and payloads, 0 to 9. With `payload_decimals=2` the payload 12.34 is
            stored as the integer 1234, exactly. Payloads may then be integers, decimals, fractions or floats. A float
            is rounded, half to even, if it is within one part in 10**9 of such a decimal, and else refused.
        zone : str or tzinfo, optional
            The time zone of keys that are dates, such as "Europe/Berlin". Texts and times without a zone are of this
            zone, and so are results; keys are stored in UTC. The default is the zone of `sample`.
        shards : int, optional
            The number of shards, 1 to 1024. The default is one for each 50,000 rows, at most one for each processor and
            at most 16; without numpy it is 1. There are never more shards than partitions.
        partitions : int, optional
            The number of partitions: 1 to 64, or up to 64 times `shards` if that is given. The default is one for each
            4,096 rows and at most 64 in each shard. Without a sample or splits there is one partition.
        splits : array_like, optional
            The keys at which new partitions begin, in ascending order. Replaces the quantiles of `sample`.
        policy : str, optional
            How queries merge pending rows: "auto", "complete", "gradual" or "ripple".
        history : int, optional
            The number of commands after which a partition's history is emptied, 1 to 1,000,000. By default a history
            has no limit; the table stores none.
        cells : int, optional
            The greatest number of rows in a partition.
        """
        if policy not in POLICIES:
            raise ValueError(f"policy must be one of {', '.join(POLICIES)}, not {policy}")
        library()
        sample, splits = sized(sample), None if splits is None else sized(splits)
        self._keys, sample = keys_for(sample, key_type, key_decimals, zone)
        self._payloads, self._policy = PayloadType(payload_decimals), policy
        has_ends = len(sample) > 0 or splits is not None
        count = self._shards_for(len(sample) if rows is None else rows, shards, has_ends or partitions == 1)
        cuts = splits_of(self._keys, sample, rows, partitions, splits, shards, count)
        options = {"policy": policy, "history": whole_or_none(history, "history"), "cells": whole(cells, "cells")}
        self._open(cuts, min(count, len(cuts) + 1), options)

    @staticmethod
    def _shards_for(rows: int, shards: Optional[int], is_divided: bool) -> int:
        """The number of shards of a table for `rows` rows, if there are at least as many partitions."""
        if shards is None:
            return 1 if np is None else max(1, min(rows // ROWS_A_SHARD, processors(), MOST_BY_DEFAULT))
        if not 1 <= whole(shards, "shards") <= MOST_SHARDS:
            raise ValueError(f"shards must be 1 to {MOST_SHARDS}, not {shards}")
        if shards > 1 and np is None:
            raise ValueError("several shards need numpy")
        if shards > 1 and not is_divided:
            raise ValueError(f"{shards} shards need a sample of the keys, or splits")
        return shards

    def _open(self, cuts: list[int], shards: int, options: dict[str, Any]) -> None:
        """Opens the shards, and divides the partitions between the splits `cuts` among them about evenly."""
        if shards > 1:
            checked_splits(np.array(cuts, np.uint64), MOST_PARTS * MOST_SHARDS)
        self.shards, self.partitions = shards, len(cuts) + 1
        # the first partition of each shard, and the end of the last
        begins = [self.partitions * it // shards for it in range(shards + 1)]
        self._starts = [cuts[it - 1] for it in begins[1:-1]]
        self._shards: list[LocalShard] = []
        try:
            for begin, end in zip(begins, begins[1:]):
                self._shards.append(LocalShard(cuts[begin : end - 1], **options))
        except BaseException:
            self.close()
            raise
        if shards == 1:
            # calls go straight to the only shard
            vars(self).update((f"_{name}", getattr(self._shards[0], name)) for name in ALONE)
        else:
            self._shard_cuts = np.array(self._starts, np.uint64)
            self._parts = np.array([*(it.partitions for it in self._shards), 0], np.uint64)

    @classmethod
    @taking_gaps
    def from_arrays(
        cls,
        keys: Any,
        payloads: Any = None,
        *,
        key_decimals: Optional[int] = None,
        payload_decimals: Optional[int] = None,
        progress: Progress = None,
        **options: Any,
    ) -> Self:
        """Creates a table of these rows and merges them all.

        Parameters
        ----------
        keys : array_like
        payloads : array_like, optional
            The default is 0, 1, 2 ..
        key_decimals, payload_decimals : int, optional
            Those of `Table`. Floats and decimals need them.
        missing : str, optional
            "skip" leaves out rows whose key or payload is missing: masked, None, NaN, NaT or NA. `skipped` of the table
            says how many. "error" raises an error.
        progress : bool or callable, optional
            True reports progress on standard error. A function is called with the number of rows inserted so far and
            the number of all rows.
        **options
            Parameters of `Table`.

        Returns
        -------
        Table
            Its `row_numbers` are the numbers of the rows, in the order of the arrays.
        """
        keys = items_of(keys, "keys") if key_decimals is None else decimals_of(keys, key_decimals, "keys")
        if payloads is not None:
            payloads = items_of(payloads, "payloads")
            if payload_decimals is not None:
                payloads = decimals_of(payloads, payload_decimals, "payloads")
            elif isinstance(payloads, Scaled):
                payload_decimals = payloads.decimals
        # `Table` maps each key of a sample to a number, so it gets only some keys of a long array
        is_long = np is not None and isinstance(keys, (np.ndarray, Given))
        sample = keys[:: max(1, len(keys) // SAMPLED)] if is_long else keys
        options |= {"key_decimals": key_decimals, "payload_decimals": payload_decimals}
        table = cls(sample, len(keys), **options)
        if payloads is None:
            payloads = range(len(keys)) if np is None else np.arange(len(keys))
        try:
            table.row_numbers = table._load_rows(keys, payloads, progress)
            table.settle()
        except BaseException:
            table.close()
            raise
        return table

    @property
    def policy(self) -> str:
        """How queries merge pending rows."""
        return self._policy

    # Inserting rows. `insert_many`, `insert_rows` and `move` have the docstrings of `Sharded`, given after the class.

    @telling
    def insert_many(self, placed: list[Any], keys: Any, payloads: Any) -> RowNumbers:
        return self._place(placed, *self._row_words(keys, payloads))

    @telling
    def _insert_many(self, placed: list[Any], keys: Any, payloads: Any) -> RowNumbers:
        return self._place(placed, keys, payloads)

    @telling
    def insert_rows(self, placed: list[Any], keys: Any, payloads: Any, *, progress: Progress = None) -> RowNumbers:
        return self._place_rows(placed, keys, payloads, progress, "place_many")

    @telling
    def _load_rows(self, placed: list[Any], keys: Any, payloads: Any, progress: Progress) -> RowNumbers:
        """Inserts rows into a new table. The caller closes the table if this raises an error."""
        return self._place_rows(placed, keys, payloads, progress, "load_many")

    def _place_rows(self, placed: list[Any], keys: Any, payloads: Any, progress: Progress, how: str) -> RowNumbers:
        report, (numbers, payloads) = reporter(progress), self._row_words(keys, payloads)
        if report is None:
            return self._place(placed, numbers, payloads, how)
        for at, end in pieces_of(len(numbers)):
            try:
                self._place(placed, numbers[at:end], payloads[at:end], how)
            except Refused as error:
                raise refused(error.code, at + error.done, error.later) from None
            report(end, len(numbers))
        return rows_of(placed)

    def _place(self, placed: list[Any], keys: Any, payloads: Any, how: str = "place_many") -> RowNumbers:
        """Inserts rows by the method `how` of the shards. Returns their numbers.

        Before any row is inserted, an object that will know the numbers of the inserted rows is added to `placed`.
        """
        if self.shards == 1:
            with nothing_done():
                placed.append(Placed(len(keys)))
            alone: RowNumbers = getattr(self._shards[0], how)(keys, payloads, placed[-1])
            return alone
        if len(keys) <= FEW_ITEMS:
            return self._place_in_turn(placed, keys, payloads)
        with nothing_done():
            found = PlacedInShards(shard_of(self._shard_cuts, keys))
        placed.append(found)
        cuts = {}
        for it, places in found.blocks:
            cuts[it] = Cut((keys, payloads), places, (found.each[it],), partial(found.put, it, places))
        _, errors = self._ask(cuts, how)
        if errors:
            raise found.error(errors)
        numbers: RowNumbers = found.numbers
        return numbers

    def _place_in_turn(self, placed: list[Any], keys: Any, payloads: Any) -> RowNumbers:
        keys, payloads = keys.tolist(), payloads.tolist()
        found = PlacedInTurn([bisect_right(self._starts, it) for it in keys])
        placed.append(found)
        if not keys:
            self._check_open()
        for at, it in enumerate(found.each):
            try:
                self._shards[it.shard].place(keys[at], payloads[at], it)
            except Refused as error:
                raise refused(error.code, at) from None
        return found.rows()

    # Moving rows

    @telling
    def move(self, placed: list[Any], row: int, key: Any) -> Optional[int]:
        number, new, taken = row_of(row), self._keys.one(key), Taken()
        shards = sorted((min(number >> SHARD_SHIFT, self.shards - 1), bisect_right(self._starts, new)))
        told: Any = None
        with self._shards[shards[0]].alone(), self._shards[shards[1]].alone():
            try:
                try:
                    self._with_row(number).take_into(number & IN_SHARD, taken)
                    return None if taken.row is None else self._place_one(placed, new, taken.row[1])
                except BaseException as error:
                    self._put_back(placed, taken, error)
                    told = error
                    raise
            except BaseException as error:
                # a signal may have interrupted `_put_back`
                if error is not told:
                    self._put_back(placed, taken, error)
                # without this the error's traceback would refer to the error itself
                told = None
                raise

    def _place_one(self, placed: list[Any], key: int, payload: int) -> int:
        found = PlacedInTurn([bisect_right(self._starts, key)])
        placed.append(found)
        it = found.each[0]
        self._shards[it.shard].place(key, payload, it)
        return it.row

    def _put_back(self, placed: list[Any], taken: Taken, error: Any) -> None:
        """Inserts the deleted row `taken` again, unless it has its new key already, and sets `row` of the error."""
        if taken.row is None:
            return
        key, payload = taken.row
        error.row = self._row_of(key, payload)
        if not len(rows_of(placed)):
            try:
                self._place_one(placed, key, payload)
            except Error:
                pass

    # Asking shards

    def _alone_steps(self, steps: Steps[Answer]) -> Steps[Answer]:
        # while the steps run, the shards answer only this thread
        return holding([it.alone() for it in self._shards], steps)

    def _check_open(self) -> None:
        self._shards[0].check_open()

    def _memory(self) -> int:
        return sum(it.memory() for it in self._shards)

    def _gather(self, cuts: dict[int, Cut], name: str, answers: dict[int, Any], errors: dict[int, Error]) -> None:
        if not cuts:
            self._check_open()
        jobs = {it: partial(_answer, self._shards[it], name, cut) for it, cut in cuts.items()}
        # a signal handler may have interrupted a call of this thread, which holds the shard's lock; no other thread can
        # then ask that shard
        is_short = len(jobs) < 2 or not self._is_long(name, cuts) or any(self._shards[it].is_asking for it in cuts)
        (run_in_turn if is_short else run_side_by_side)(jobs, answers, errors)

    def _is_long(self, name: str, cuts: dict[int, Cut]) -> bool:
        """Whether a call takes long enough to be worth several threads."""
        if name == "select" and len(cuts) == 2:
            # the range need not cover either shard, so it may have few rows
            return sum(self._shards[it].count(*cut.columns) for it, cut in cuts.items()) >= MANY_ROWS
        if name in LONG_BY_ROWS:
            return sum(self._shards[it].held for it in cuts) >= MANY_ROWS
        return sum(cut.items for cut in cuts.values()) >= LONG[name] if name in LONG else False

    def _ends_of(self, shard: int) -> tuple[int, int]:
        # these are ints of Python, and need no numpy
        ends = [0, *self._starts, 1 << 64]
        return ends[shard], ends[shard + 1]

    def _met(self, first: int, last: int) -> range:
        return range(bisect_right(self._starts, first), bisect_right(self._starts, last) + 1)

    def _with_row(self, row: int) -> LocalShard:
        """The shard that a row number belongs to."""
        if row >> SHARD_SHIFT < self.shards:
            return self._shards[row >> SHARD_SHIFT]
        self._check_open()
        raise refused(5)

    # What a table of several shards does

    def _insert(self, key: int, payload: int) -> int:
        shard = bisect_right(self._starts, key)
        return self._shards[shard].insert(key, payload) | shard << SHARD_SHIFT

    def _delete(self, row: int) -> bool:
        return self._with_row(row).delete(row & IN_SHARD)

    def _update(self, row: int, key: int, payload: int) -> bool:
        shard = self._with_row(row)
        if bisect_right(self._starts, key) == row >> SHARD_SHIFT:
            return shard.update(row & IN_SHARD, key, payload)
        shard.check_open()
        raise refused(4 if (row & IN_SHARD) >> SHIFT < shard.partitions else 5)

    def _count(self, first: int, last: int) -> int:
        low, high = bisect_right(self._starts, first), bisect_right(self._starts, last)
        if low == high:
            return self._shards[low].count(first, last)
        return sum(self._shards[it].count(*ends) for it, *ends in self._asked(first, last))

    def _sum(self, first: int, last: int) -> int:
        low, high = bisect_right(self._starts, first), bisect_right(self._starts, last)
        if low == high:
            return self._shards[low].sum(first, last)
        return sum(self._shards[it].sum(*ends) for it, *ends in self._asked(first, last))

    def _delete_many(self, rows: Any) -> Any:
        few = len(rows) <= FEW_ITEMS
        return np.array(self._each([], self._delete, rows), np.uint8) if few else super()._delete_many(rows)

    def _update_many(self, rows: Any, keys: Any, payloads: Any) -> Any:
        if len(rows) > FEW_ITEMS:
            return super()._update_many(rows, keys, payloads)
        return np.array(self._each([], self._update, rows, keys, payloads), np.uint8)

    def _count_many(self, firsts: Any, lasts: Any) -> Any:
        few = len(firsts) <= FEW_ITEMS
        counts = self._each([], self._count, firsts, lasts) if few else super()._count_many(firsts, lasts)
        return np.asarray(counts, np.int64)

    def _sum_many(self, firsts: Any, lasts: Any) -> list[int]:
        few = len(firsts) <= FEW_ITEMS
        return self._each([], self._sum, firsts, lasts) if few else super()._sum_many(firsts, lasts)

    def _each(self, answers: list[Any], call: Callable[..., Any], *columns: Any) -> list[Any]:
        """Makes a call for each item of these arrays, and adds the answers to a list. Returns the list.

        `done` of a refusal is the number of answers before it.
        """
        if not len(columns[0]):
            self._check_open()
        for words in zip(*(it.tolist() for it in columns)):
            try:
                answers.append(call(*words))
            except Refused as error:
                raise refused(error.code, len(answers)) from None
        return answers

    def close(self) -> None:
        """Frees all memory of the table. A second call does nothing."""
        for it in self._shards:
            it.close()


for _name in ("insert_many", "insert_rows", "move"):
    getattr(Table, _name).__doc__ = getattr(Sharded, _name).__doc__


# what everybody types first
from_arrays, from_pandas, from_arrow = Table.from_arrays, Table.from_pandas, Table.from_arrow


def holding(locks: Sequence[Any], steps: Steps[Answer]) -> Steps[Answer]:
    """Runs steps while these locks are held. The locks are reentrant."""
    if not locks:
        return (yield from steps)
    # a `with` statement releases a lock that is written in C whenever a signal comes; a context manager that is written
    # in Python might be interrupted before it releases the lock
    one, two, three, four = [*locks[:4], *[locks[0]] * 3][:4]
    with one, two, three, four:
        return (yield from holding(locks[4:], steps))


def _answer(shard: LocalShard, name: str, cut: Cut) -> Any:
    with nothing_done():
        words = cut.words()
    answer = getattr(shard, name)(*words)
    if cut.heed is not None:
        cut.heed(answer)
    return answer
