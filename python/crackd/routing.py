"""Finds the shards of keys and rows, and combines the answers of several shards.

This needs numpy, except for a table with one shard.
"""

from __future__ import annotations

import abc
import dataclasses
from typing import Any, Callable, Iterator, NamedTuple, Optional, Sequence

from .arrays import TOP, np
from .base import MOST_PARTS, SHIFT, AnyTable
from .errors import BadSplits, Error, Refused, ShardLost, nothing_done, refused
from .layout import PartLayout

# a row number is a shard, a partition of that shard in the 6 bits below, and a serial in the lower 48 bits
SHARD_SHIFT = SHIFT + 6
MOST_SHARDS = 1 << (16 - 6)
IN_SHARD = (1 << SHARD_SHIFT) - 1
# With fewer than `FEW_SHARDS` splits, comparing each key with each split is faster than a binary search. If the keys
# fit into a processor's cache, that holds for fewer than `FEW_PARTS` splits. With up to `FEW_SHARDS` shards, rows are
# looked up shard by shard.
FEW_SHARDS, FEW_PARTS = 16, 64
# A `PartFinder` has a table of up to `1 << INTERVAL_BITS` intervals. With fewer than `FEW_SPLITS` splits, or for fewer
# than `FEW_KEYS` keys, the table isn't worth its cost.
INTERVAL_BITS, FEW_SPLITS, FEW_KEYS = 14, 16, 10_000
# the bytes of memory that an error may need; Python itself takes a megabyte at a time
SPARE = 1 << 21


class Block(NamedTuple):
    """The rows of one shard: their places among all given rows, in ascending order."""

    shard: int
    places: Any


class Cut(NamedTuple):
    """The arguments of a call to a shard: `columns`, or else their items at `places` and the `further` arguments.

    In this process the thread that gets the answer also calls `heed` with it, if that is given.
    """

    columns: tuple[Any, ...]
    places: Any = None
    further: tuple[Any, ...] = ()
    heed: Optional[Callable[[Any], object]] = None

    @property
    def items(self) -> int:
        """The number of items of a call for many."""
        return len(self.columns[0] if self.places is None else self.places)

    def words(self) -> tuple[Any, ...]:
        """The arguments of the call for this shard's items."""
        return self.columns if self.places is None else (*(it[self.places] for it in self.columns), *self.further)


def shard_of(cuts: Any, keys: Any, few: int = FEW_SHARDS) -> Any:
    """The shard, or the partition, of each key. With fewer than `few` splits it compares each key with each split."""
    if len(cuts) >= few:
        return np.searchsorted(cuts, keys, side="right")
    found = np.zeros(len(keys), np.uint8)
    for cut in cuts:
        found += keys >= cut
    return found


class PartFinder:
    """Finds the partitions of many keys, for at most 255 splits in ascending order.

    It divides the keys between the first split and the last into equal intervals. For each it stores how many splits
    are below the interval and which split comes next, so it compares each key with one split. If two splits are in one
    interval, it compares each key with each split.
    """

    def __init__(self, cuts: Any, keys: int):
        self._cuts, self._has_table = cuts, len(cuts) >= FEW_SPLITS and keys >= FEW_KEYS
        if not self._has_table:
            return
        self._low = cuts[0]
        self._shift = np.uint64(max(int(cuts[-1] - cuts[0]).bit_length() - INTERVAL_BITS, 0))
        splits = np.bincount(((cuts - self._low) >> self._shift).astype(np.int64))
        self._last = np.uint64(len(splits) - 1)
        below = np.cumsum(splits) - splits
        self._below, self._next = below.astype(np.uint8), cuts[below]
        self._has_table = int(splits.max()) == 1

    def find(self, keys: Any) -> Any:
        """The partition of each key, in an array of uint8."""
        if not self._has_table:
            return shard_of(self._cuts, keys, FEW_PARTS).astype(np.uint8)
        # keys below the first split are in its interval too, and keys above the last one in the last interval
        at = np.maximum(keys, self._low)
        at -= self._low
        at >>= self._shift
        np.minimum(at, self._last, out=at)
        at = at.view(np.int64)
        found = self._below.take(at)
        found += keys >= self._next.take(at)
        return found


def blocks_of(shards: Any) -> Iterator[Block]:
    """Yields the rows of each shard that has some. `shards` has the shard of each row."""
    most = int(shards.max()) + 1 if len(shards) else 0
    if most <= FEW_SHARDS:
        found = (Block(shard, np.flatnonzero(shards == shard)) for shard in range(most))
        yield from (it for it in found if len(it.places))
        return
    # numpy sorts numbers of 16 bits by radix, in linear time
    order = np.argsort(shards.astype(np.uint16), kind="stable")
    counts = np.bincount(shards)
    ends = np.cumsum(counts)
    for shard in np.flatnonzero(counts).tolist():
        yield Block(shard, order[ends[shard] - counts[shard] : ends[shard]])


class Sharded(AnyTable):
    """A table whose rows are divided among `shards` shards, each of which has a range of the keys.

    A call over several shards doesn't read them at the same moment.
    """

    shards: int
    # the first key of each shard except the first one
    _shard_cuts: Any
    # the number of partitions of each shard, and then 0, which stands for shards that don't exist
    _parts: Any

    @abc.abstractmethod
    def _gather(self, cuts: dict[int, Cut], name: str, answers: dict[int, Any], errors: dict[int, Error]) -> None:
        """Calls the method `name` of shards. Adds their answers and errors as they come, and returns once all have."""

    def _ask(self, cuts: dict[int, Cut], name: str) -> tuple[dict[int, Any], dict[int, Error]]:
        """Calls the method `name` of shards. Returns their answers, and the errors of shards without an answer."""
        answers: dict[int, Any] = {}
        errors: dict[int, Error] = {}
        self._gather(cuts, name, answers, errors)
        return answers, errors

    def _all(self, cuts: dict[int, Cut], name: str) -> dict[int, Any]:
        """The answers of shards, in their order. Raises an error if one has no answer, that of a lost shard first."""
        answers, errors = self._ask(cuts, name)
        raise_first(errors)
        return dict(sorted(answers.items()))

    def _every(self, *words: Any) -> dict[int, Cut]:
        return {it: Cut(words) for it in range(self.shards)}

    def _ends_of(self, shard: int) -> tuple[int, int]:
        """The half-open range of a shard's keys, as numbers: the first, and one past the last."""
        low = int(self._shard_cuts[shard - 1]) if shard else 0
        return low, int(self._shard_cuts[shard]) if shard < self.shards - 1 else TOP

    def _met(self, first: int, last: int) -> range:
        """The shards whose keys meet a range."""
        ends = np.searchsorted(self._shard_cuts, np.array([first, last], np.uint64), side="right").tolist()
        return range(ends[0], ends[1] + 1)

    def _asked(self, first: int, last: int) -> list[tuple[int, int, int]]:
        """The shards whose keys meet a range, each with the range to ask it for.

        An end that is in another shard is left out, so that the shard's column isn't cracked there.
        """
        met = self._met(first, last)
        return [(it, first if it == met[0] else 0, last if it == met[-1] else TOP - 1) for it in met]

    # What a table does

    def _insert_many(self, keys: Any, payloads: Any) -> Any:
        shards = shard_of(self._shard_cuts, keys)
        blocks = list(blocks_of(shards))
        answers: dict[int, Any] = {}
        errors: dict[int, Error] = {}
        try:
            self._gather({it: Cut((keys, payloads), places) for it, places in blocks}, "insert_many", answers, errors)
            if not errors:
                return placed_rows(blocks, answers, len(keys))
        except BaseException as error:
            # a signal handler may raise anything
            rows, is_done = known_rows(blocks, answers, errors, len(keys))
            error.answers = rows[is_done]  # type: ignore[attr-defined]
            raise
        rows, is_done = known_rows(blocks, answers, errors, len(keys))
        raise error_of(errors, shards, is_done, rows[is_done])

    def _faults(self, rows: Any, keys: Any = None) -> Any:
        """For each row 5 if its partition doesn't exist, 4 if its new key belongs to another shard, or else 0."""
        shards = rows >> np.uint64(SHARD_SHIFT)
        parts = rows >> np.uint64(SHIFT) & np.uint64(MOST_PARTS - 1)
        is_nowhere = parts >= self._parts[np.minimum(shards, np.uint64(self.shards)).astype(np.int64)]
        is_elsewhere = False if keys is None else shard_of(self._shard_cuts, keys) != shards
        return np.where(is_nowhere, 5, np.where(is_elsewhere, 4, 0))

    def _flags(self, name: str, rows: Any, *columns: Any) -> Any:
        """The flag of each row of a call for many. Rows after the first that `_faults` refuses aren't sent."""
        with nothing_done():
            faults = self._faults(rows, *columns[:1])
        end = int(np.argmax(faults != 0)) if faults.any() else len(rows)
        found = self._flags_of(name, rows[:end], *(it[:end] for it in columns))
        if end < len(rows):
            raise refused(int(faults[end]), end)
        return found

    def _flags_of(self, name: str, rows: Any, *columns: Any) -> Any:
        with nothing_done():
            shards = (rows >> np.uint64(SHARD_SHIFT)).astype(np.int64)
            words = rows & np.uint64(IN_SHARD), *columns
            blocks = list(blocks_of(shards))
            found, is_done = np.zeros(len(rows), np.uint8), np.zeros(len(rows), bool)
            spare = Spare()
        answers, errors = self._ask({shard: Cut(words, places) for shard, places in blocks}, name)
        spare.give()
        for shard, places in blocks:
            error = errors.get(shard)
            if shard in answers:
                found[places], is_done[places] = answers[shard], True
            elif isinstance(error, Refused):
                is_done[places[: error.done]] = True
        if errors:
            raise error_of(errors, shards, is_done)
        return found

    def _take(self, row: int) -> Optional[tuple[int, int]]:
        code = int(self._faults(np.array([row], np.uint64))[0])
        if code:
            raise refused(code)
        shard = row >> SHARD_SHIFT
        taken: Optional[tuple[int, int]] = self._all({shard: Cut((row & IN_SHARD,))}, "take")[shard]
        return taken

    def _delete_many(self, rows: Any) -> Any:
        return self._flags("delete_many", rows)

    def _update_many(self, rows: Any, keys: Any, payloads: Any) -> Any:
        return self._flags("update_many", rows, keys, payloads)

    def _count(self, first: int, last: int) -> int:
        cuts = {shard: Cut(tuple(ends)) for shard, *ends in self._asked(first, last)}
        return sum(self._all(cuts, "count").values())

    def _sum(self, first: int, last: int) -> int:
        cuts = {shard: Cut(tuple(ends)) for shard, *ends in self._asked(first, last)}
        return sum(self._all(cuts, "sum").values())

    def _ranges(self, firsts: Any, lasts: Any) -> Iterator[tuple[int, Any, Cut]]:
        """Yields each shard that some ranges meet, the places of these ranges, and the arguments to ask it with."""
        begins, ends = shard_of(self._shard_cuts, firsts), shard_of(self._shard_cuts, lasts)
        is_whole = firsts <= lasts
        for shard in range(self.shards):
            places = np.flatnonzero(is_whole & (begins <= shard) & (shard <= ends))
            if len(places):
                starts = np.where(begins[places] < shard, np.uint64(0), firsts[places])
                stops = np.where(ends[places] > shard, np.uint64(TOP - 1), lasts[places])
                yield shard, places, Cut((starts, stops))

    def _ask_ranges(self, name: str, firsts: Any, lasts: Any) -> Iterator[tuple[Any, Any]]:
        """Asks each shard about the ranges that meet it. Yields their places, and the shard's answers."""
        found = list(self._ranges(firsts, lasts))
        places = {shard: at for shard, at, _ in found}
        answers, errors = self._ask({shard: cut for shard, _, cut in found}, name)
        for shard, error in errors.items():
            if isinstance(error, Refused):
                errors[shard] = refused(error.code, int(places[shard][error.done]))
        raise_first(errors)
        for shard, each in answers.items():
            yield places[shard], each

    def _count_many(self, firsts: Any, lasts: Any) -> Any:
        counts = np.zeros(len(firsts), np.int64)
        for places, each in self._ask_ranges("count_many", firsts, lasts):
            counts[places] += each
        return counts

    def _sum_many(self, firsts: Any, lasts: Any) -> list[int]:
        sums = [0] * len(firsts)
        for places, each in self._ask_ranges("sum_many", firsts, lasts):
            for at, more in zip(places.tolist(), each):
                sums[at] += more
        return sums

    def _select(self, first: int, last: int) -> tuple[Any, Any, Any]:
        cuts = {shard: Cut(tuple(ends)) for shard, *ends in self._asked(first, last)}
        answers = self._all(cuts, "select")
        rows = [it[0] | np.uint64(shard << SHARD_SHIFT) for shard, it in answers.items()]
        keys, payloads = ([it[at] for it in answers.values()] for at in (1, 2))
        return np.concatenate(rows), np.concatenate(keys), np.concatenate(payloads)

    def _settle(self) -> None:
        self._all(self._every(), "settle")

    def _checkpoint(self) -> int:
        return sum(self._all(self._every(), "checkpoint").values())

    def _rows(self) -> int:
        return sum(self._all(self._every(), "rows").values())

    def _layouts(self) -> Iterator[PartLayout]:
        for shard, parts in self._all(self._every(), "layouts").items():
            for part in parts:
                yield self._placed(shard, part)

    def _placed(self, shard: int, part: PartLayout) -> PartLayout:
        """A shard's partition as one of the whole table: with its number there, and cut to the keys of the shard."""
        low, high = self._ends_of(shard)
        pieces = [it for it in part.pieces if low < it.high and it.low < high]
        pieces[0] = dataclasses.replace(pieces[0], low=max(low, pieces[0].low))
        pieces[-1] = dataclasses.replace(pieces[-1], high=min(high, pieces[-1].high))
        number = shard * MOST_PARTS + part.partition
        return dataclasses.replace(part, partition=number, keys=self._keys, pieces=tuple(pieces))


def checked_splits(cuts: Any, most: int = MOST_SHARDS) -> Any:
    """Returns splits, if they are in ascending order, above 0, and make at most `most` parts. Else raises an error."""
    if len(cuts) >= most:
        raise ValueError(f"there can be {most - 1} splits, not {len(cuts)}")
    if np.any(cuts[1:] <= cuts[:-1]) or np.any(cuts == 0):
        raise BadSplits(11)
    return cuts


def placed_rows(blocks: Sequence[Block], answers: dict[int, Any], count: int) -> Any:
    """The numbers of the rows that shards inserted, in the order in which the rows were given."""
    rows = np.empty(count, np.uint64)
    for shard, places in blocks:
        put_rows(rows, shard, places, answers[shard])
    return rows


def put_rows(rows: Any, shard: int, places: Any, placed: Any) -> None:
    """Writes the numbers of the rows that a shard inserted to their places in `rows`."""
    rows[places] = placed | np.uint64(shard << SHARD_SHIFT)


def known_rows(
    blocks: Sequence[Block], answers: dict[int, Any], errors: dict[int, Error], count: int
) -> tuple[Any, Any]:
    """The numbers of the rows that are known to be inserted, at their places, and which places have one."""
    rows, is_done = np.zeros(count, np.uint64), np.zeros(count, bool)
    for shard, places in blocks:
        placed = answers.get(shard, getattr(errors.get(shard), "answers", None))
        if placed is not None:
            some = places[: len(placed)]
            rows[some], is_done[some] = placed | np.uint64(shard << SHARD_SHIFT), True
    return rows, is_done


def error_of(errors: dict[int, Any], shards: Any, is_done: Any, answers: Any = None) -> Any:
    """The error of a call for many items.

    It is that of the first lost shard, or else one that isn't this package's (a signal handler may raise any), or else
    that of the first item that wasn't done. A refusal says how many items were done before that item, and how many
    after it in other shards.
    """
    lost = [errors[it] for it in sorted(errors) if isinstance(errors[it], ShardLost)]
    if lost:
        return lost[0].copied(answers)
    errors = {it: of_memory(error) for it, error in errors.items()}
    first = int(np.argmin(is_done))
    error: Any = next((it for it in errors.values() if not isinstance(it, Error)), errors.get(int(shards[first])))
    if isinstance(error, Refused):
        error = refused(error.code, first, int(np.count_nonzero(is_done[first:])))
    error.answers = answers
    return error


def of_memory(error: Any) -> Any:
    """An error, or `OutOfMemory` for a MemoryError of Python or numpy."""
    return refused(8) if isinstance(error, MemoryError) and not isinstance(error, Error) else error


class Spare:
    """Memory that is taken before a call changes anything, and given back if it fails: its error needs some."""

    def __init__(self) -> None:
        self._held: Optional[bytearray] = bytearray(SPARE)

    def give(self) -> None:
        """Gives the memory back."""
        self._held = None


def raise_first(errors: dict[int, Any]) -> None:
    """Raises the error of the first lost shard, or else that of the first item that wasn't done, if there is one."""
    if errors:
        order = {it: (not isinstance(error, ShardLost), getattr(error, "done", 0), it) for it, error in errors.items()}
        error = errors[min(errors, key=lambda it: order[it])]
        raise error.copied() if isinstance(error, ShardLost) else error
