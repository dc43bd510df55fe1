"""Which single calls hold the interpreter's lock, by the time that they may take, and what threads gain by it."""

import _ctypes
import contextlib
import random
import resource
import threading
import unittest
from unittest import mock

from test_calls import others_run_during, standing_in
from ways import InProcess, InShards, crackd, wants_library, wants_shards

from crackd import library, local

ROWS, LOOK, LONG = 1000, 10, "long_"
# the functions of single calls, which hold the lock, and those that release it
NAMES = [*library.SINGLE, *(LONG + it for it in library.SINGLE)]


@contextlib.contextmanager
def noting(note):
    """Has a function called with the name and the words of each single call of the library, before it."""
    calls = {it: (lambda real, *words, it=it: (note(it, words), real(*words))[1]) for it in NAMES}
    with standing_in(**calls):
        yield


@contextlib.contextmanager
def few(rows=ROWS, look=LOOK):
    """Lets a short call read so many rows and pending rows, whatever the pieces are, and looks for them so often."""
    free = dict.fromkeys(("OF_A_PIECE", "OF_A_MOVE"), 0)
    with mock.patch.multiple(local, SHORT=rows, LOOK=look, OF_A_ROW=1, OF_A_PENDING=1, **free):
        yield


def time_of(shard, first, last):
    """At most how many nanoseconds a query takes by what the partitions have that it meets."""
    ends = [0, *shard.cuts, 2**64]
    found = [it for it, low, high in zip(shard._totals(), ends, ends[1:]) if first < high and low <= last]
    pending = [it.pending_in + it.pending_out for it in found]
    return sum(25 * it.column + 200 * it.pieces + of * (400 + 50 * it.pieces) for it, of in zip(found, pending))


def rows_met(table, first, last):
    """How many rows the partitions have that a range meets, and how many are pending in all."""
    (shard,) = table._shards
    ends = [0, *shard.cuts, 2**64]
    found = shard._totals()
    met = sum(it.column for it, low, high in zip(found, ends, ends[1:]) if first < high and low <= last)
    return met + sum(it.pending_in + it.pending_out for it in found)


@wants_library
class Which(InProcess, unittest.TestCase):
    """Which calls hold the lock."""

    def test_functions_of_the_library(self):
        for name in library.FORMS:
            holds = bool(getattr(library.library(), name)._flags_ & _ctypes.FUNCFLAG_PYTHONAPI)
            self.assertEqual(holds, name in library.SINGLE, name)

    def test_each_call_of_a_small_table(self):
        names = []
        with self.table(splits=[10]) as table, noting(lambda name, _: names.append(name)):
            row = table.insert(5, 7)
            table.update(row, 6, 8), table.count(), table.sum(0, 5), table.move(table.move(row, 3), 12)
            self.assertTrue(table.delete(int(table.select().rows[0])))
        # a select counts first
        wanted = ["insert", "update", "count", "sum", *["delete", "insert"] * 2, "count", "delete"]
        self.assertEqual(names, wanted)

    def test_ranges_of_few_and_of_many_partitions(self):
        # four partitions of 300 rows, of which a call may meet three
        names = []
        with few(930), crackd.Table(splits=[300, 600, 900], shards=1, key_type="uint64") as table:
            rows = table.insert_many(range(1200), range(1200))
            table.settle()
            with noting(lambda name, _: names.append(name)):
                for low, high, is_short in [
                    (0, 900, True),
                    (0, 901, False),
                    (299, 901, False),
                    (300, 1200, True),
                    (899, 901, True),
                    (0, 1200, False),
                    (1199, None, True),
                    (None, None, False),
                    (None, 900, True),
                ]:
                    names.clear()
                    inside = range(1200)[low:high]
                    self.assertEqual((table.count(low, high), table.sum(low, high)), (len(inside), sum(inside)))
                    self.assertEqual(names, ["count", "sum"] if is_short else ["long_count", "long_sum"], (low, high))
                names.clear()
                table.update(rows[0], 1, 1), table.delete(rows[1]), table.insert(5, 5)
                self.assertEqual(names, ["update", "delete", "insert"])

    def test_partitions_that_have_too_many_rows(self):
        names = []
        with few(), self.table() as table:
            rows = table.insert_many(range(1200), [1] * 1200)
            table.settle()
            with noting(lambda name, _: names.append(name)):
                table.update(rows[0], 1, 1), table.delete(rows[1]), table.insert(5, 5)
                self.assertEqual((table.count(), table.sum()), (1200, 1204))
                table.move(rows[2], 9)
            wanted = ["update", "delete", "insert", "count", "sum", "delete", "insert"]
            self.assertEqual(names, [LONG + it for it in wanted])
            names.clear()
            self.assertTrue(all(table.delete_many(rows[100:])))
            table.settle()
            with noting(lambda name, _: names.append(name)):
                self.assertEqual((table.count(), table.sum()), (100, 104))
            self.assertEqual(names, ["count", "sum"])

    def test_pending_rows(self):
        names = []
        with few(), self.table(policy="gradual") as table:
            table.insert_many(range(400), [1] * 400)
            table.settle()
            rows = table.insert_many(range(1000, 1400), [1] * 400)
            with noting(lambda name, _: names.append(name)):
                self.assertEqual(table.count(), 800)
                # each updated row is a pending deletion and a pending insertion
                table.update_many(rows, range(1000, 1400), [2] * 400)
                self.assertEqual(table.sum(), 1200)
                table.settle()
                self.assertEqual(table.sum(), 1200)
            self.assertEqual(names, ["count", "long_sum", "long_count", "sum"])

    def test_what_a_query_may_take(self):
        """Rows, pieces and pending rows count, each by itself and together."""
        for rows, pieces, pending, is_short in [
            (30_000, 0, 0, True),
            (45_000, 0, 0, False),
            (20_000, 2000, 0, True),
            (20_000, 3200, 0, False),
            (1000, 0, 1500, True),
            (1000, 0, 2600, False),
            (20_000, 500, 10, True),
            (20_000, 500, 40, False),
            (2000, 1000, 5, True),
            (2000, 1000, 30, False),
        ]:
            with self.subTest(rows=rows, pieces=pieces, pending=pending), self.table() as table:
                table.insert_many(range(rows), [1] * rows)
                table.settle()
                step = rows // (pieces // 2) if pieces else rows
                table.count_many(range(0, rows, step), range(1, rows + 1, step))
                table.insert_many(range(pending), [1] * pending)
                (part,) = table._shards[0]._totals()
                self.assertEqual((part.column, part.pending_in), (rows, pending))
                self.assertTrue(pieces <= part.pieces <= pieces * 1.05 + 4, part.pieces)
                names = []
                with noting(lambda name, _: names.append(name)):
                    self.assertEqual(table.count(5, 6), 1 + (pending > 5))
                self.assertEqual(names, ["count" if is_short else "long_count"])

    def test_what_is_counted_between_two_looks(self):
        """Calls for many, and single ones, add pieces and pending rows to what the last look has found."""
        many = range(0, 19_000, 6)
        changes = [
            (lambda table, rows: table.count_many(many, [it + 1 for it in many]), False),
            (lambda table, rows: table.sum_many(many, [it + 1 for it in many]), False),
            (lambda table, rows: [table.count(it, it + 1) for it in range(0, 9000, 3)], False),
            (lambda table, rows: [table.sum(it, it + 1) for it in range(0, 9000, 3)], False),
            (lambda table, rows: table.insert_many(range(2000), range(2000)), False),
            (lambda table, rows: table.delete_many(rows[:2000]), False),
            (lambda table, rows: table.update_many(rows[:2000], range(2000), range(2000)), False),
            (lambda table, rows: [table.insert(it, 1) for it in range(1000)], False),
            (lambda table, rows: [table.delete(it) for it in rows[:1000]], False),
            (lambda table, rows: [table.update(it, 1, 1) for it in rows[:1000]], False),
            (lambda table, rows: [table.move(it, 1) for it in rows[:500]], False),
            (lambda table, rows: [table.count(5, 6), table.insert(5, 6), table.delete(rows[0])], True),
        ]
        for at, (change, is_short) in enumerate(changes):
            with self.subTest(at), mock.patch.object(local, "LOOK", 10**9), self.table() as table:
                rows = table.insert_many(range(19_000), [1] * 19_000).tolist()
                table.settle()
                names = []
                with noting(lambda name, _: names.append(name)):
                    # after this nothing is looked at any more
                    table.count(5, 6)
                    self.assertEqual(names, ["count"])
                    change(table, rows)
                    names.clear()
                    table.count(5, 6)
                self.assertEqual(names, ["count" if is_short else "long_count"])

    def test_random_calls_take_no_longer(self):
        """A query that holds the lock takes at most a millisecond by what the partitions have before it."""
        for seed in range(3):
            told, drawn = {True: 0, False: 0}, random.Random(seed)
            with crackd.Table(splits=range(2000, 10_000, 2000), shards=1, key_type="uint64") as table:
                (shard,), rows = table._shards, []

                def note(name, words):
                    if name.endswith(("count", "sum")):
                        told[name in library.SINGLE] += 1
                        if name in library.SINGLE:
                            self.assertLessEqual(time_of(shard, *words[2:4]), 1_000_000)

                def key():
                    return drawn.randrange(10_000)

                def some(size):
                    return table.insert_many([key() for _ in range(size)], range(size))

                def ranges(size):
                    lows = [key() for _ in range(size)]
                    table.count_many(lows, [it + 1 for it in lows])

                for _ in range(400):
                    low = key()
                    calls = [lambda: table.count(low, low + 10), lambda: table.sum(low, low + 3000)] * 3
                    calls += [lambda: rows.append(table.insert(low, 1)), lambda: rows and table.delete(rows.pop())] * 2
                    calls += [lambda: rows and table.update(rows[0], low // 2000 * 2000, 1)]
                    calls.append(lambda: rows.extend(map(int, some(drawn.randrange(1, 200)))))
                    calls.append(lambda: ranges(drawn.randrange(1, 100)))
                    calls.append(lambda: drawn.random() < 0.2 and table.settle())
                    with noting(note), contextlib.suppress(crackd.WrongPartition):
                        drawn.choice(calls)()
            self.assertGreater(min(told.values()), 20)

    def test_random_calls_read_no_more_rows(self):
        for seed in range(3):
            told = {True: 0, False: 0}
            drawn = random.Random(seed)
            with few(300), crackd.Table(splits=range(100, 1000, 100), shards=1, key_type="uint64") as table:
                rows = []

                def note(name, words):
                    is_query = name.endswith(("count", "sum"))
                    first, last = words[2:4] if is_query else (0, 0)
                    told[name in library.SINGLE] += 1
                    if is_query and name in library.SINGLE:
                        self.assertLessEqual(rows_met(table, first, last), 300)

                def pick():
                    return rows.pop(drawn.randrange(len(rows)))

                for _ in range(600):
                    key, size = drawn.randrange(1000), drawn.randrange(1, 30)
                    calls = [lambda: table.count(key, key + 10 * size), lambda: table.sum(key, 10_000)] * 3
                    calls.append(lambda: rows.append(table.insert(key, 1)))
                    calls.append(lambda: rows.extend(map(int, table.insert_many([key] * size, [1] * size))))
                    if len(rows) > 40:
                        calls.append(lambda: table.delete(pick()))
                        calls += [lambda: table.delete_many([pick() for _ in range(40)])] * 2
                    calls.append(lambda: drawn.random() < 0.3 and table.settle())
                    with noting(note):
                        drawn.choice(calls)()
                self.assertEqual(table.count(), len(rows))
            self.assertGreater(min(told.values()), 20)

    def test_a_look_that_is_refused(self):
        names = []
        with few(20, look=2), self.table() as table:
            # only a look shows that none of these rows is pending
            table.delete_many(table.insert_many(range(40), [1] * 40))
            for code, wanted in [(8, "long_count"), (0, "count")]:
                names.clear()
                refused = {"layout": lambda real, *words, code=code: code or real(*words)}
                with noting(lambda name, _: names.append(name)), standing_in(**refused):
                    self.assertEqual(table.count(), 0)
                self.assertEqual(names, [wanted])
            table.insert_many(range(40), [1] * 40)
            table.close()
            self.assertRaises(crackd.Closed, table.count)
            self.assertRaises(crackd.Closed, table.insert, 1, 1)

    def test_other_threads_run_during_a_long_call(self):
        with self.table() as table:

            def call():
                table.insert_many(range(400_000), [1] * 400_000)
                self.assertEqual(table.sum(), len(table))

            self.assertTrue(others_run_during("long_sum", call))


class Threads:
    """Threads whose single calls are short."""

    THREADS, CALLS = 4, 2500

    def test_the_lock_changes_hands_rarely(self):
        with self.table(range(4000)) as table:

            def work(at):
                for it in range(self.CALLS):
                    row = table.insert(at * 1000 + it % 1000, 1)
                    table.count(at * 1000, at * 1000 + 5), table.sum(at * 1000, at * 1000 + 5)
                    table.delete(row)

            threads = [threading.Thread(target=work, args=(it,)) for it in range(self.THREADS)]
            before = resource.getrusage(resource.RUSAGE_SELF).ru_nvcsw
            for it in threads:
                it.start()
            for it in threads:
                it.join()
            switches = resource.getrusage(resource.RUSAGE_SELF).ru_nvcsw - before
            # threads would switch at each call if it released the interpreter's lock, or if they waited for the shard's
            self.assertLess(switches, self.THREADS * self.CALLS)
            self.assertEqual(table.count(), 0)

    def test_a_call_waits_a_little_for_another_one(self):
        with self.table(range(4000)) as table:
            shard, other = table._shards[0], object()
            naps = []

            def end(seconds):
                naps.append(seconds)
                shard._asking = None if len(naps) == 3 else other

            calls = [
                lambda: table.insert(5, 7),
                lambda: table.count(0, 10),
                lambda: table.sum(0, 10),
                lambda: table.update(row, 6, 8),
                lambda: table.delete(row),
            ]
            row, wanted = table.insert(1, 1), [None, 2, 8, True, True]
            for call, answer in zip(calls, wanted):
                naps.clear()
                shard._asking = other
                with mock.patch.object(local.time, "sleep", end):
                    found = call()
                self.assertEqual(naps, [local.PAUSE] * 3)
                self.assertIsNone(shard._asking)
                if answer is not None:
                    self.assertEqual(found, answer)
            self.assertEqual((table.count(), table.sum()), (1, 7))

    def test_a_call_that_never_says_that_it_ended(self):
        with self.table(range(4000)) as table, mock.patch.object(local, "LOOKS", 5):
            shard, naps = table._shards[0], []
            shard._asking = object()
            with mock.patch.object(local.time, "sleep", naps.append):
                row = table.insert(5, 7)
                self.assertEqual(len(naps), 5)
                # later calls don't wait
                self.assertEqual((table.count(0, 10), table.sum(0, 10)), (1, 7))
                self.assertTrue(table.delete(row))
            self.assertEqual(len(naps), 5)

    def test_a_refused_call_says_that_it_ended(self):
        with self.table(range(4000)) as table:
            row = table.insert(5, 7)
            shard = table._shards[0]
            refused = dict.fromkeys(library.SINGLE, lambda real, *words: 8)
            with standing_in(**refused):
                for call in [
                    lambda: table.insert(5, 7),
                    lambda: table.count(0, 10),
                    lambda: table.sum(0, 10),
                    lambda: table.update(row, 6, 8),
                    lambda: table.delete(row),
                    lambda: table.move(row, 9),
                ]:
                    self.assertRaises(crackd.OutOfMemory, call)
                    self.assertIsNone(shard._asking)
            self.assertEqual((table.count(), table.sum()), (1, 7))


@wants_library
class InProcessThreads(Threads, InProcess, unittest.TestCase):
    """In one shard."""


@wants_shards
class InShardsThreads(Threads, InShards, unittest.TestCase):
    """In several shards."""


if __name__ == "__main__":
    unittest.main()
