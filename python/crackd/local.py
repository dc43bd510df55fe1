"""A shard: the rows of a range of keys, in this process."""

from __future__ import annotations

import array
import threading
import time
from bisect import bisect_right
from ctypes import byref, c_int64, c_uint8, c_uint32, c_uint64
from typing import Any, Optional, Sequence

from .arrays import TOP, address, empty, from_ints, np, plain
from .base import POLICIES, POLICY, SERIAL, SHIFT
from .errors import Closed, Error, Refused, nothing_done, refused
from .forks import NoLock, leave_in_children
from .layout import PartLayout, Piece
from .library import TOTALS, Handle, Totals, library
from .placed import NOWHERE, Placed, PlacedOne, Taken, joined
from .routing import PartFinder
from .typed import RowNumbers

MOST_CELLS = 16_777_215
MOST_LIFE = 1 << 40
# A single call holds the interpreter's lock unless it may take more nanoseconds than this. Releasing the lock and
# getting it back takes longer than to answer most calls.
SHORT = 1_000_000
# At most how many nanoseconds a query takes for each row of the column, which it may crack, for each piece, for each
# pending row, and for each piece past which a pending row is moved. They are measured, and rounded up.
OF_A_ROW, OF_A_PIECE, OF_A_PENDING, OF_A_MOVE = 25, 200, 400, 50
# Layouts aren't looked at again before so many calls and changed rows, or one for each two pieces if these are more.
# Then the looks cost less than the calls.
LOOK = 50
# before a single call waits for the shard's lock, it checks `LOOKS` times whether another thread's call has ended, and
# sleeps for `PAUSE` seconds before each check
LOOKS, PAUSE = 100, 50e-6
# how many rows of a load are sorted by partition at a time, which bounds the memory that this needs
ROWS_AT_ONCE = 100_000
# the bytes of memory that the library takes for a partition with rows, for a cell and for a piece. They are measured,
# since the library reports only the numbers of cells and pieces.
BYTES_OF_A_PART, BYTES_OF_A_CELL, BYTES_OF_A_PIECE = 320_000, 93, 64
CLOSED = 101
ARRAYS = (array.array,) if np is None else (array.array, np.ndarray)


def history_limit(history: Optional[int]) -> int:
    """The limit of a history as the library takes it, 0 for none. A wrong one becomes one that the library refuses."""
    if history is None:
        return 0
    return history if 0 < history < TOP else TOP - 1


class LocalShard:
    """The rows of a range of keys, in a handle of the library. It answers one call at a time.

    Keys are 64-bit numbers, ranges are closed, and row numbers don't contain the shard's number. The methods are the
    primitives of `AnyTable`, without the underscore.
    """

    def __init__(
        self,
        cuts: Sequence[int] = (),
        *,
        policy: str = POLICY,
        history: Optional[int] = None,
        cells: int = MOST_CELLS,
    ):
        self._handle = Handle()
        self._library, self._ref = library(), byref(self._handle)
        self._lock: Any = threading.RLock()
        leave_in_children(self)
        self._policy, self.cuts, self.partitions = POLICIES.index(policy), list(cuts), len(cuts) + 1
        limits = [history_limit(history), cells if 0 <= cells < TOP else 0, MOST_LIFE]
        self._check(self._run(self._library.open, from_ints("Q", cuts, "splits"), *limits))
        # about how many rows the shard has
        self.held = 0
        # all calls are short for `_left` more calls and changed rows
        self._left = 0
        self._note_bounds(0, 1, 0, self.partitions)
        # where the library writes the rows that single deletes remove
        self._removed: Any = byref(c_uint64()), byref(c_int64())
        # an object that identifies the single call that holds the shard's lock or waits for it, or None
        self._asking: Any = None

    @property
    def is_asking(self) -> bool:
        """Whether this thread is already in a call of the shard, which a signal handler has interrupted."""
        return bool(self._lock._is_owned())

    def _is_short(self, first: int, last: int) -> bool:
        """Whether a query of a range of keys may hold the interpreter's lock."""
        parts = bisect_right(self.cuts, last) - bisect_right(self.cuts, first) + 1
        if self._most_time(parts, self._begun - self._left, self._changes) <= SHORT:
            return True
        return self._look() and self._most_time(parts, 0, 0) <= SHORT

    def _is_short_change(self) -> bool:
        """Whether a change of one row may hold the lock. It takes long only if the partition's cells are copied."""
        if OF_A_ROW * (self._column + self._changes) <= SHORT:
            return True
        return self._look() and OF_A_ROW * self._column <= SHORT

    def _look(self) -> bool:
        """Notes the numbers of the layouts, unless that was done a short while ago. Returns whether it has."""
        if self._begun - self._left < self._until_look:
            return False
        try:
            found = self._totals()
        except Error:
            # the call that follows raises the error
            return False
        pieces, pending = [it.pieces for it in found], sum(it.pending_in + it.pending_out for it in found)
        self._note_bounds(max(it.column for it in found), max(pieces), pending, sum(pieces))
        return True

    def _note_bounds(self, column: int, pieces: int, pending: int, all_pieces: int) -> None:
        """Notes what the partitions have now: at most so many rows and pieces in each, and pending rows in all."""
        self._column, self._pieces, self._pending, self._changes = column, pieces, pending, 0
        self._until_look = max(LOOK, self.partitions + all_pieces // 2)
        left = self._until_look
        while left and self._most_time(self.partitions, left, left) > SHORT:
            left //= 2
        # `_begun - _left` is the number of calls and changed rows since now, of which `_changes` are the latter
        self._begun = self._left = left

    def _most_time(self, parts: int, calls: int, changes: int) -> int:
        """At most how many nanoseconds a query takes that meets so many partitions, after these calls and changes."""
        # a change adds at most a row to a column, and two pending rows; a query cuts two pieces, and none without rows
        column = self._column + changes
        pieces = min(self._pieces + 2 * calls, column + 1)
        pending = self._pending + 2 * changes
        return parts * (OF_A_ROW * column + OF_A_PIECE * pieces) + pending * (OF_A_PENDING + OF_A_MOVE * pieces)

    def _changed(self, count: int) -> None:
        """Notes how many rows were changed."""
        self._left -= count
        self._changes += count

    def _give_way(self) -> None:
        """Waits for the end of another thread's single call, if that ends soon.

        The interpreter often suspends a thread in the middle of such a call. If other threads then waited for the
        shard's lock, each later call would wake one of them and wait for it.
        """
        if self.is_asking:
            return
        seen = self._asking
        for _ in range(LOOKS):
            time.sleep(PAUSE)
            if self._asking is None:
                return
        # a signal handler may have ended that call before it could reset `_asking`
        if self._asking is seen:
            self._asking = None

    def _run(self, call: Any, *words: Any) -> int:
        """Calls a function of the library. Returns its status.

        The arguments are numbers, pointers, and arrays, which are kept alive until the function returns.
        """
        flat: list[Any] = []
        for it in words:
            flat.extend(address(it) if isinstance(it, ARRAYS) else (it,))
        with self._lock:
            code: int = call(self._ref, *flat)
            return code

    def _check(self, code: int, done: int = 0) -> None:
        if code:
            raise Closed("the table is closed") if code == CLOSED else refused(code, done)

    def check_open(self) -> None:
        """Raises `Closed` if the table is closed."""
        with self._lock:
            if not self._handle.is_open:
                raise Closed("the table is closed")

    def _leave(self) -> None:
        """Gives up the table in a forked child: each call raises `Forked`."""
        self._lock, self._asking = NoLock(), None
        # the child doesn't free the table, since another thread of the parent may have been changing it at the fork
        self._handle = Handle()
        self._ref = byref(self._handle)

    # A signal handler may run, and raise anything, as soon as the library has returned, at the latest before the next
    # call here. So the methods below update their counts in a `finally` block, from what the library has written.

    def insert(self, key: int, payload: int) -> int:
        """Inserts a row. Returns its number in the shard. Raises `Refused` if the library refuses it."""
        part, serial = c_uint32(NOWHERE), c_uint64()
        if self._asking is not None:
            self._give_way()
        try:
            self._asking = part
            with self._lock:
                is_short = self._left > 0 or self._is_short_change()
                call = self._library.insert if is_short else self._library.long_insert
                code = call(self._ref, key, payload, byref(part), byref(serial))
        finally:
            self.held += part.value != NOWHERE
            self._left -= 1
            self._changes += 1
            if self._asking is part:
                self._asking = None
        if code:
            self._check(code)
        return part.value << SHIFT | serial.value

    def place(self, key: int, payload: int, placed: PlacedOne) -> None:
        """Inserts a row. The library writes its number into `placed`."""
        if self._asking is not None:
            self._give_way()
        try:
            self._asking = placed
            with self._lock:
                is_short = self._left > 0 or self._is_short_change()
                call = self._library.insert if is_short else self._library.long_insert
                code = call(self._ref, key, payload, *placed.at())
        finally:
            self.held += placed.part.value != NOWHERE
            self._left -= 1
            self._changes += 1
            if self._asking is placed:
                self._asking = None
        if code:
            self._check(code)

    def delete(self, row: int) -> bool:
        """Deletes a row. Returns whether it existed."""
        gone = c_uint8()
        if self._asking is not None:
            self._give_way()
        try:
            self._asking = gone
            with self._lock:
                is_short = self._left > 0 or self._is_short_change()
                call = self._library.delete if is_short else self._library.long_delete
                code = call(self._ref, row >> SHIFT, row & SERIAL, byref(gone), *self._removed)
        finally:
            self.held -= gone.value
            self._left -= 1
            self._changes += 1
            if self._asking is gone:
                self._asking = None
        if code:
            self._check(code)
        return gone.value == 1

    def take(self, row: int) -> Optional[tuple[int, int]]:
        """Deletes a row. Returns its key and payload, or None if it didn't exist."""
        taken = Taken()
        self.take_into(row, taken)
        return taken.row

    def take_into(self, row: int, taken: Taken) -> None:
        """Deletes a row. The library writes its key and payload into `taken`."""
        if self._asking is not None:
            self._give_way()
        try:
            self._asking = taken
            with self._lock:
                is_short = self._left > 0 or self._is_short_change()
                call = self._library.delete if is_short else self._library.long_delete
                code = call(self._ref, row >> SHIFT, row & SERIAL, *taken.at())
        finally:
            self.held -= taken.gone.value
            self._left -= 1
            self._changes += 1
            if self._asking is taken:
                self._asking = None
        if code:
            self._check(code)

    def alone(self) -> Any:
        """A context that keeps other threads from the shard."""
        return self._lock

    def update(self, row: int, key: int, payload: int) -> bool:
        """Replaces the key and the payload of a row. Returns whether the row exists."""
        found = c_uint8()
        if self._asking is not None:
            self._give_way()
        try:
            self._asking = found
            with self._lock:
                is_short = self._left > 0 or self._is_short_change()
                call = self._library.update if is_short else self._library.long_update
                code = call(self._ref, row >> SHIFT, row & SERIAL, key, payload, byref(found))
        finally:
            self._left -= 1
            self._changes += 1
            if self._asking is found:
                self._asking = None
        if code:
            self._check(code)
        return found.value == 1

    def insert_many(self, keys: Any, payloads: Any) -> Any:
        """Inserts rows. Returns their numbers. An error has as `answers` those of the rows inserted before it."""
        with nothing_done():
            placed = Placed(len(keys))
        try:
            return self.place_many(keys, payloads, placed)
        except Error as error:
            error.answers = placed.rows()
            raise

    def place_many(self, keys: Any, payloads: Any, placed: Placed) -> RowNumbers:
        """Inserts rows. Returns their numbers."""
        words = keys, payloads, placed.parts, placed.serials, byref(placed.done)
        with self._lock:
            try:
                code = self._run(self._library.insert_many, *words)
            finally:
                self.held += placed.done.value
                self._changed(placed.done.value)
        self._check(code, placed.done.value)
        return placed.rows()

    def load_many(self, keys: Any, payloads: Any, placed: Placed) -> RowNumbers:
        """Does what `place_many` does, but faster: the library gets the rows of a partition one after another.

        Rows after a refused one may be inserted too, so the caller must close the table if this raises an error.
        """
        if self.partitions == 1 or np is None:
            return self.place_many(keys, payloads, placed)
        load = Load(self, len(keys))
        for at in range(0, len(keys), ROWS_AT_ONCE):
            load.insert(keys[at : at + ROWS_AT_ONCE], payloads[at : at + ROWS_AT_ONCE], placed)
        return placed.rows()

    def delete_many(self, rows: Any) -> Any:
        """Deletes rows in order. Returns 1 for each that existed and 0 for each that didn't."""
        with nothing_done():
            (parts, serials), found, done = _parted(rows), empty("B", len(rows)), c_uint64()
        with self._lock:
            try:
                code = self._run(self._library.delete_many, parts, serials, found, byref(done))
                gone = found[: done.value]
                # (this needs no memory)
                self.held -= sum(gone) if np is None else int(np.count_nonzero(gone))
            except BaseException:
                if self._handle.is_open:
                    self.held = self.rows()
                raise
            finally:
                self._changed(done.value)
        self._check(code, done.value)
        return found

    def update_many(self, rows: Any, keys: Any, payloads: Any) -> Any:
        """Replaces keys and payloads of rows, in order. Returns 1 for each row that exists, 0 for each other."""
        with nothing_done():
            (parts, serials), found, done = _parted(rows), empty("B", len(rows)), c_uint64()
        with self._lock:
            try:
                code = self._run(self._library.update_many, parts, serials, keys, payloads, found, byref(done))
            finally:
                self._changed(done.value)
        self._check(code, done.value)
        return found

    def count(self, first: int, last: int) -> int:
        """Counts the rows whose keys have numbers from `first` to `last`, both included."""
        count = c_uint64()
        if self._asking is not None:
            self._give_way()
        try:
            self._asking = count
            with self._lock:
                is_short = self._left > 0 or self._is_short(first, last)
                call = self._library.count if is_short else self._library.long_count
                code = call(self._ref, self._policy, first, last, byref(count))
        finally:
            self._left -= 1
            if self._asking is count:
                self._asking = None
        if code:
            self._check(code)
        return count.value

    def sum(self, first: int, last: int) -> int:
        """Sums the payloads of the rows whose keys have numbers from `first` to `last`, both included."""
        low, high = c_uint64(), c_int64()
        if self._asking is not None:
            self._give_way()
        try:
            self._asking = low
            with self._lock:
                is_short = self._left > 0 or self._is_short(first, last)
                call = self._library.sum if is_short else self._library.long_sum
                code = call(self._ref, self._policy, first, last, byref(low), byref(high))
        finally:
            self._left -= 1
            if self._asking is low:
                self._asking = None
        if code:
            self._check(code)
        return low.value + (high.value << 64)

    def count_many(self, firsts: Any, lasts: Any) -> Any:
        """Counts the rows of each range, as `count` does."""
        counts = self._ask_many(self._library.count_many, firsts, lasts, "Q")[0]
        return counts.view(np.int64) if np is not None else counts

    def sum_many(self, firsts: Any, lasts: Any) -> list[int]:
        """Sums the payloads of each range, as `sum` does."""
        lows, highs = self._ask_many(self._library.sum_many, firsts, lasts, "Qq")
        return [low + (high << 64) for low, high in zip(plain(lows), plain(highs))]

    def _ask_many(self, call: Any, firsts: Any, lasts: Any, codes: str) -> list[Any]:
        """What a call answers for many ranges, as an array for each type code. The answer for an empty range is 0."""
        whole, size, done = _not_empty(firsts, lasts), len(firsts), c_uint64()
        if whole is not None:
            firsts, lasts = _picked("Q", firsts, whole), _picked("Q", lasts, whole)
        answers = [empty(code, len(firsts)) for code in codes]
        self._left -= len(firsts)
        code = self._run(call, self._policy, firsts, lasts, *answers, byref(done))
        if whole is not None and done.value < len(whole):
            # empty ranges before the refused one count as done
            done.value = int(whole[done.value])
        self._check(code, done.value)
        return answers if whole is None else [_spread(code, it, whole, size) for code, it in zip(codes, answers)]

    def select(self, first: int, last: int) -> tuple[Any, Any, Any]:
        """Lists the rows whose keys are `first` to `last`, both included: row numbers, numbers of keys, payloads."""
        found = c_uint64()
        with self._lock:
            room = self.count(first, last)
            while True:
                lists = empty("I", room), empty("Q", room), empty("Q", room), empty("q", room)
                self._check(self._run(self._library.select, self._policy, first, last, *lists, byref(found)))
                # if not, a signal handler has changed the table after the count
                if found.value == room:
                    break
                room = found.value
        return joined(lists[0], lists[1], empty("Q", room), room), lists[2], lists[3]

    def settle(self) -> None:
        """Merges all pending rows."""
        count = c_uint64()
        with self._lock:
            self._check(self._library.long_count(self._ref, POLICIES.index("complete"), 0, TOP - 1, byref(count)))
            # no row is pending now, so more calls may be short
            self._until_look = 0

    def checkpoint(self) -> int:
        """Makes a checkpoint of each partition. Returns how many commands they accepted since their last ones."""
        folded, each = 0, c_uint64()
        with self._lock:
            for part in range(self.partitions):
                self._check(self._library.checkpoint(self._ref, part, byref(each)))
                folded += each.value
        return folded

    def rows(self) -> int:
        """The number of rows."""
        return sum(it.rows for it in self._totals())

    def memory(self) -> int:
        """About how many bytes the library takes for the rows, estimated from the layouts."""
        parts = [it for it in self._totals() if it.cells]
        return sum(BYTES_OF_A_PART + it.cells * BYTES_OF_A_CELL + it.pieces * BYTES_OF_A_PIECE for it in parts)

    def _totals(self) -> list[Totals]:
        """The layout of each partition, without its pieces."""
        found = [Totals() for _ in range(self.partitions)]
        with self._lock:
            for part, it in enumerate(found):
                self._check(self._run(self._library.layout, part, byref(it), empty("Q", 0), empty("Q", 0)))
        return found

    def layouts(self) -> list[PartLayout]:
        """The layout of each partition, in order."""
        with self._lock:
            return [self._layout(part) for part in range(self.partitions)]

    def _layout(self, part: int) -> PartLayout:
        totals, room = Totals(), 0
        while True:
            lows, sizes = empty("Q", room), empty("Q", room)
            self._check(self._run(self._library.layout, part, byref(totals), lows, sizes))
            if totals.pieces == room:
                break
            room = totals.pieces
        begins = plain(lows)
        ends = [*begins[1:], *self.cuts[part : part + 1]] if part < len(self.cuts) else [*begins[1:], TOP]
        pieces = tuple(map(Piece, begins, ends, plain(sizes)))
        return PartLayout(part, **{name: getattr(totals, name) for name in TOTALS[:6]}, pieces=pieces)

    def close(self) -> None:
        """Frees all memory of the shard. A second call does nothing."""
        with self._lock:
            if self._handle.is_open:
                self._library.close(self._ref)

    def __del__(self) -> None:
        if getattr(self, "_handle", None) is not None and self._handle.is_open:
            self._library.close(self._ref)


class Load:
    """Inserts the rows of a load into a shard, a block of them at a time, and in a block partition by partition.

    All blocks use the same arrays, since the system takes longer to supply new memory than these lines take to use it.
    """

    def __init__(self, shard: LocalShard, rows: int):
        size = min(rows, ROWS_AT_ONCE)
        self._shard, self._finder = shard, PartFinder(np.array(shard.cuts, np.uint64), rows)
        self._keys, self._payloads = empty("Q", size), empty("q", size)
        self._placed = empty("I", size), empty("Q", size), empty("Q", size)

    def insert(self, keys: Any, payloads: Any, placed: Placed) -> None:
        """Inserts the next rows, whose numbers go to `placed`."""
        parts = self._finder.find(keys)
        order = np.argsort(parts, kind="stable")
        # (numpy uses `out` directly only in some modes)
        keys = keys.take(order, out=self._keys[: len(order)], mode="clip")
        payloads = payloads.take(order, out=self._payloads[: len(order)], mode="clip")
        at, before, refusals = 0, placed.done.value, dict[int, int]()
        while at < len(order):
            each = Placed(len(order) - at, self._placed)
            try:
                rows = self._shard.place_many(keys[at:], payloads[at:], each)
            except Refused as error:
                refusals[int(order[at + error.done])] = error.code
                rows = each.rows()
            placed.put(before, order[at : at + len(rows)], rows)
            at += len(rows)
            # skips the rest of the refused row's partition; another partition may have a refused row that comes earlier
            at += int(np.count_nonzero(parts[order[at:]] == parts[order[at]])) if at < len(order) else 0
        first = min(refusals, default=len(order))
        placed.done.value = before + first
        if refusals:
            raise refused(refusals[first], placed.done.value)


def _parted(rows: Any) -> tuple[Any, Any]:
    """The partitions and the serials of row numbers."""
    if np is not None:
        return (rows >> np.uint64(SHIFT)).astype(np.uint32), rows & np.uint64(SERIAL)
    return from_ints("I", [it >> SHIFT for it in rows], "partitions"), from_ints(
        "Q", [it & SERIAL for it in rows], "serials"
    )


def _not_empty(firsts: Any, lasts: Any) -> Any:
    """The places of the ranges that aren't empty, or None if none is empty."""
    if np is not None:
        is_whole = firsts <= lasts
        return None if is_whole.all() else np.flatnonzero(is_whole)
    found = [at for at, (first, last) in enumerate(zip(firsts, lasts)) if first <= last]
    return None if len(found) == len(firsts) else found


def _picked(code: str, numbers: Any, places: Any) -> Any:
    return numbers[places] if np is not None else from_ints(code, [numbers[at] for at in places], "keys")


def _spread(code: str, answers: Any, places: Any, size: int) -> Any:
    """An array of this size with the answers at their places and 0 elsewhere."""
    if np is not None:
        found = np.zeros(size, dtype=answers.dtype)
        found[places] = answers
        return found
    found = from_ints(code, [0] * size, "")
    for at, it in zip(places, answers):
        found[at] = it
    return found
