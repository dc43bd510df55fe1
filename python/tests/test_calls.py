"""The calls that a table makes of the library, watched by stand-ins for its functions: one call at a time, `done` as
the library reports it, and what happens between two calls."""

import collections
import contextlib
import ctypes
import itertools
import os
import sys
import threading
import time
import unittest
from unittest import mock

from ways import InProcess, InShards, crackd, np, wants_library, wants_numpy, wants_shards

from crackd import library

THREADS, CALLS, SECONDS_OF_A_CALL = 12, 4, 0.001
MANY = ("insert_many", "delete_many", "update_many", "count_many", "sum_many")


def numbers(it):
    return [int(each) for each in it]


@contextlib.contextmanager
def standing_in(**calls):
    """Puts these in place of functions of the library; each gets the function that it stands for, and its words."""
    loaded = library.library()
    with contextlib.ExitStack() as stack:
        for name, call in calls.items():
            real = getattr(loaded, name)
            standing = (lambda call, real: lambda *words: call(real, *words))(call, real)
            stack.enter_context(mock.patch.object(loaded, name, standing))
        yield loaded


def others_run_during(name, call):
    """Whether another thread runs during a function of the library, which `call` calls.

    Calls it up to 20 times, since the system may not wake a thread while the function runs once.
    """
    steps, meanwhile, is_over = [0], [], threading.Event()

    def run():
        while not is_over.is_set():
            steps[0] += 1
            time.sleep(1e-6)

    def noting(real, *words):
        before = steps[0]
        code = real(*words)
        meanwhile.append(steps[0] - before)
        return code

    thread, interval = threading.Thread(target=run), sys.getswitchinterval()
    # the interpreter itself lets no thread run between the lines of `noting`
    sys.setswitchinterval(3600)
    thread.start()
    try:
        with standing_in(**{name: noting}):
            for _ in range(20):
                call()
                if any(meanwhile):
                    return True
        return False
    finally:
        is_over.set()
        thread.join()
        sys.setswitchinterval(interval)


class Watch:
    """Counts the calls of the library, and how many run at once on a handle."""

    def __init__(self):
        self.lock, self.running, self.most, self.names = threading.Lock(), collections.Counter(), 0, []

    def watched(self, name):
        def call(real, *words):
            handle = ctypes.addressof(words[0]._obj)
            with self.lock:
                self.running[handle] += 1
                self.most = max(self.most, self.running[handle])
                self.names.append(name)
            time.sleep(SECONDS_OF_A_CALL)
            try:
                return real(*words)
            finally:
                with self.lock:
                    self.running[handle] -= 1

        return call

    def standing_in(self):
        return standing_in(**{name: self.watched(name) for name in library.FORMS})


def at_once(calls):
    """Runs these in a thread each, which begin together. Returns what they raised."""
    barrier, faults = threading.Barrier(len(calls)), []

    def work(call):
        barrier.wait()
        try:
            call()
        except Exception as error:
            faults.append(error)

    threads = [threading.Thread(target=work, args=(it,)) for it in calls]
    for it in threads:
        it.start()
    for it in threads:
        it.join()
    return faults


@wants_library
class OneAtATime(InProcess, unittest.TestCase):
    """The calls of the library on a table of one shard don't overlap."""

    def calls_of(self, table, row):
        """A call of each method, of which none can fail."""
        return {
            "insert": lambda: table.insert(1, 1),
            "insert_many": lambda: table.insert_many([1, 2], [1, 2]),
            "delete": lambda: table.delete(12345),
            "delete_many": lambda: table.delete_many([12345]),
            "update": lambda: table.update(row, 1, 1),
            "update_many": lambda: table.update_many([row], [1], [1]),
            "count": lambda: table.count(0, 5),
            "count_many": lambda: table.count_many([0], [5]),
            "sum": lambda: table.sum(0, 5),
            "sum_many": lambda: table.sum_many([0], [5]),
            "select": lambda: table.select(),
            "settle": lambda: table.settle(),
            "checkpoint": lambda: table.checkpoint(),
            "layout": lambda: table.layout(),
            "len": lambda: len(table),
            "repr": lambda: repr(table),
            "get": lambda: table.get(row),
            "move": lambda: table.move(row, 1),
            "mean": lambda: table.mean(),
            "delete_range": lambda: table.delete_range(3, 9),
            "insert_rows": lambda: table.insert_rows([1], [2], progress=lambda *_: None),
        }

    def test_each_method_beside_each(self):
        watch = Watch()
        with watch.standing_in(), self.table() as table:
            row = table.insert(1, 1)
            calls = list(self.calls_of(table, row).values())
            self.assertEqual(at_once(calls * 2), [])
            self.assertEqual(watch.most, 1)

    def test_each_method_beside_itself(self):
        for name in self.calls_of(None, 0):
            watch = Watch()
            with self.subTest(name), watch.standing_in(), self.table() as table:
                row = table.insert(1, 1)
                self.assertEqual(at_once([self.calls_of(table, row)[name]] * CALLS), [])
                self.assertEqual(watch.most, 1)

    def test_a_table_is_closed_once_and_after_what_runs(self):
        for name in self.calls_of(None, 0):
            watch = Watch()
            with self.subTest(name), watch.standing_in(), self.table() as table:
                row = table.insert(1, 1)
                call = self.calls_of(table, row)[name]
                faults = at_once([call, call, *[table.close] * CALLS])
                self.assertEqual({type(it) for it in faults} - {crackd.Closed}, set())
                self.assertEqual((watch.most, watch.names.count("close")), (1, table.shards))


@wants_shards
class OneAtATimeInShards(InShards, OneAtATime):
    """The calls of the library on a shard don't overlap either."""


@wants_shards
class OneAtATimeFewItems(OneAtATimeInShards):
    """Nor do they item by item."""

    AT_ONCE = False


@wants_library
class Reported(InProcess, unittest.TestCase):
    """What the library reports of a call that it refuses."""

    CODES = [
        (4, crackd.WrongPartition),
        (5, crackd.NoSuchPartition),
        (6, crackd.HistoryFull),
        (8, crackd.OutOfMemory),
        (9, crackd.Full),
        (10, crackd.LifeOver),
        (101, crackd.Closed),
    ]

    def refusing(self, code, done):
        def call(real, *words):
            words[-1]._obj.value = done
            return code

        return standing_in(**{name: call for name in MANY})

    def calls_of(self, table, rows):
        return {
            "insert_many": lambda: table.insert_many([1, 2, 3], [1, 2, 3]),
            "delete_many": lambda: table.delete_many(rows),
            "update_many": lambda: table.update_many(rows, [1, 2, 3], [1, 2, 3]),
            "count_many": lambda: table.count_many([1, 2, 3], [5, 6, 7]),
            "sum_many": lambda: table.sum_many([1, 2, 3], [5, 6, 7]),
        }

    def test_how_many_were_done(self):
        with self.table() as table:
            rows = table.insert_many([1, 2, 3], [1, 2, 3])
            for name, call in self.calls_of(table, rows).items():
                for (code, kind), done in [(it, done) for it in self.CODES[:-1] for done in range(3)]:
                    with self.subTest(name, code=code, done=done), self.refusing(code, done):
                        with self.assertRaises(kind) as caught:
                            call()
                        error = caught.exception
                        self.assertEqual((error.code, error.done, error.later), (code, done, 0))
                        placed = done if name == "insert_many" else None
                        self.assertEqual(placed, None if error.answers is None else len(error.answers))

    def test_a_closed_table(self):
        with self.table() as table:
            rows = table.insert_many([1, 2, 3], [1, 2, 3])
            for name, call in self.calls_of(table, rows).items():
                with self.subTest(name), self.refusing(101, 0):
                    self.assertRaises(crackd.Closed, call)

    def test_empty_ranges_count_as_done(self):
        with self.table() as table:
            for call in (table.count_many, table.sum_many):
                for lows, done, wanted in [([5, 1, 1], 0, 1), ([5, 1, 1], 1, 2), ([1, 5, 1], 1, 2), ([1, 1, 5], 1, 1)]:
                    with self.subTest(call, lows=lows, done=done), self.refusing(8, done):
                        with self.assertRaises(crackd.OutOfMemory) as caught:
                            call(lows, [5, 5, 5])
                        self.assertEqual(caught.exception.done, wanted)

    def test_the_length_of_a_table_that_is_refused_memory(self):
        with self.table(splits=[10, 20, 30]) as table:
            rows = table.insert_many(range(40), range(40))
            table.settle()
            table.insert_many([1, 11, 35], [1, 1, 1])
            table.delete_many(rows[5:25])
            for code, wanted in [(8, 23), (10, crackd.LifeOver), (101, crackd.Closed)]:
                with self.subTest(code), standing_in(count=lambda real, *words, code=code: code):
                    if isinstance(wanted, int):
                        self.assertEqual(len(table), wanted)
                    else:
                        self.assertRaises(wanted, len, table)

    def test_a_table_of_arrays_that_fails_is_closed(self):
        for name, code in [("insert_many", 9), ("insert_many", 8), ("long_count", 8)]:
            watch = Watch()
            with self.subTest(name), watch.standing_in(), standing_in(**{name: lambda real, *words: code}):
                try:
                    crackd.Table.from_arrays([1, 2, 3])
                except crackd.Refused as error:
                    # the error's traceback still refers to the table, so it was closed and not only collected
                    self.assertEqual((error.code, watch.names.count("open"), watch.names.count("close")), (code, 1, 1))
                else:
                    self.fail("nothing was refused")

    def test_a_partition_answers_more_commands_than_it_has_cells(self):
        many = 2**20 + 2**16
        with self.table(cells=2**20) as table:
            table.insert_many([1, 2, 3], [10, 20, 30])
            counts = table.count_many([1] * many, [3] * many)
            self.assertEqual((len(counts), sum(counts)), (many, 2 * many))
            self.assertEqual((table.count(), table.sum()), (3, 60))


@wants_library
class Between(InProcess, unittest.TestCase):
    """What happens between two calls of the library, as when the handler of a signal asks the table."""

    def test_a_select_has_the_rows_that_are_there_when_it_is_asked(self):
        for before, removed, more in [(0, 0, 3), (5, 0, 4), (5, 3, 0), (5, 5, 0), (5, 2, 9)]:
            with self.subTest(before=before, removed=removed, more=more), self.table() as table:
                rows = numbers(table.insert_many(range(before), range(before)))
                left = {row: (at, at) for at, row in enumerate(rows)}
                is_first = [True]

                def count(real, *words):
                    code = real(*words)
                    if is_first.pop() if is_first else False:
                        for row in rows[:removed]:
                            changing.delete_many(words[0], *self.lists([row >> 48], [row]), byref(ctypes.c_uint64()))
                            del left[row]
                        for at in range(more):
                            part, serial = ctypes.c_uint32(), ctypes.c_uint64()
                            changing.insert(words[0], 100 + at + 2**63, at, byref(part), byref(serial))
                            left[part.value << 48 | serial.value] = 100 + at, at
                    return code

                byref = ctypes.byref
                with standing_in(count=count) as changing:
                    got = table.select()
                found = dict(zip(numbers(got.rows), zip(numbers(got.keys), numbers(got.payloads))))
                self.assertEqual(found, left)

    @staticmethod
    def lists(parts, serials):
        """Row numbers as the library wants them, with room for a flag each."""
        arrays = (ctypes.c_uint32 * 1)(*parts), (ctypes.c_uint64 * 1)(*serials), (ctypes.c_uint8 * 1)()
        return [word for it in arrays for word in (ctypes.addressof(it), 1)]


@wants_library
class Children(InProcess, unittest.TestCase):
    """What a forked child does with its parent's table when it lets go of it: nothing."""

    def test_it_frees_nothing(self):
        with self.table() as table:
            table.insert(1, 5)
            child = os.fork()
            if not child:
                status = 1
                try:
                    with standing_in(close=lambda real, *words: os._exit(7)):
                        for it in table._shards:
                            it.__del__()
                    status = 0
                finally:
                    os._exit(status)
            self.assertEqual(os.waitstatus_to_exitcode(os.waitpid(child, 0)[1]), 0)
            self.assertEqual((table.count(), table.sum()), (1, 5))


@wants_library
class Held(InProcess, unittest.TestCase):
    """About how many rows a table has, as its shards count them beside the library; and loops of selects, which make no
    checkpoints."""

    @staticmethod
    def held(table):
        return sum(it.held for it in table._shards)

    def test_a_loop_of_selects(self):
        with self.table() as table:
            table.insert_many(range(1000), range(1000))
            table.settle()
            table.checkpoint()
            for _ in range(300):
                self.assertEqual(len(table.select().rows), 1000)
            # a select counts first, which is a command too
            self.assertEqual(table.checkpoint(), 600)

    def test_rows_that_come_and_go_one_by_one(self):
        for way, remains in [("one", 1000), ("many", 1000), ("none", 4000)]:
            with self.subTest(way), self.table() as table:
                rows = [table.insert(it, 1) for it in range(4000)]
                if way == "one":
                    self.assertTrue(all([table.delete(it) for it in rows[1000:]]))
                    self.assertFalse(any([table.delete(it) for it in rows[1000:]]))
                elif way == "many":
                    self.assertTrue(all(table.delete_many(rows[1000:])))
                    self.assertFalse(any(table.delete_many(rows[1000:])))
                self.assertEqual((len(table), self.held(table)), (remains, remains))

    def test_each_way_to_insert_and_to_delete_counts(self):
        for shards in (1,) if np is None else (1, 2):
            for insert, delete in itertools.product(self.INSERTS, self.DELETES):
                with self.subTest(shards=shards, insert=insert, delete=delete):
                    with crackd.Table(splits=[1000], shards=shards, rows=1000) as table:
                        rows = numbers(self.INSERTS[insert](table))
                        self.assertEqual(self.held(table), 400)
                        self.DELETES[delete](table, rows[100:])
                        self.assertEqual(self.held(table), 100)

    @staticmethod
    def few(table):
        """Inserts 400 rows, 20 at a time."""
        return [row for at in range(0, 400, 20) for row in table.insert_many(range(at, at + 20), [1] * 20)]

    @staticmethod
    def moved(table):
        """Inserts 400 rows whose keys come from another partition."""
        rows = table.insert_many(range(1000, 1400), [1] * 400)
        return [table.move(row, key) for key, row in enumerate(numbers(rows))]

    INSERTS = {
        "one": lambda table: [table.insert(key, 1) for key in range(400)],
        "few": few,
        "many": lambda table: table.insert_many(range(400), [1] * 400),
        "reported": lambda table: table.insert_rows(range(400), [1] * 400, progress=lambda *_: None),
        "moved": moved,
    }
    DELETES = {
        "one": lambda table, rows: [table.delete(it) for it in rows + rows],
        "few": lambda table, rows: [table.delete_many(rows[at : at + 20]) for at in range(0, len(rows), 20)],
        "many": lambda table, rows: table.delete_many(rows + rows),
        "range": lambda table, rows: table.delete_range(100, 400),
    }

    def test_a_deletion_that_is_refused_counts_as_far_as_it_came(self):
        def refusing(real, *words):
            # deletes nothing, reports 300 rows as done, and also sets the flags of later rows, which don't count
            ctypes.memset(words[-3], 1, words[-2])
            words[-1]._obj.value = 300
            return 8

        with crackd.Table() as table:
            rows = table.insert_many(range(400), [1] * 400)
            with standing_in(delete_many=refusing):
                self.assertRaises(crackd.OutOfMemory, table.delete_many, [*rows, *rows, *rows])
            # 300 rows count as deleted, as if 100 were left
            self.assertEqual(self.held(table), 100)

    def test_memory_of_a_loop_of_selects(self):
        def resident():
            with open("/proc/self/statm", encoding="ascii") as file:
                return int(file.read().split()[1]) * os.sysconf("SC_PAGE_SIZE")

        # the last 1,000 selects list 5 million rows
        with self.table() as table:
            table.insert_many(range(5000), range(5000))
            for number in range(1200):
                self.assertEqual(len(table.select().rows), 5000)
                if number == 200:
                    before = resident()
            self.assertLess(resident() - before, 20_000_000)


@wants_library
@wants_numpy
class Copies(InProcess, unittest.TestCase):
    """Nothing that is given to the library is an array of the caller, who may change it meanwhile."""

    def given_of(self, table, calls):
        """The addresses that the library was given."""
        found = []

        def noting(real, *words):
            found.extend(it for it in words if isinstance(it, int))
            return real(*words)

        with standing_in(**{name: noting for name in MANY}):
            calls(table)
        return found

    def test_arrays_of_each_type(self):
        for dtype in ("uint64", "int64", "float64", "datetime64[s]", "datetime64[ns]"):
            keys = np.arange(10, 15).astype("int64").astype(dtype)
            rows, payloads = np.arange(10, 15, dtype="uint64"), np.arange(20, 25, dtype="int64")

            def calls(table):
                table.insert_many(keys, payloads)
                table.update_many(rows, keys, payloads)
                table.delete_many(rows)
                table.count_many(keys, keys + (keys[1:2] - keys[:1])), table.count_many(keys, None)
                table.sum_many(keys, keys), table.sum_many(None, keys)

            with self.subTest(dtype), self.table(key_type=dtype) as table:
                given = self.given_of(table, calls)
                self.assertGreater(len(given), 20)
                for it in (keys, rows, payloads):
                    self.assertNotIn(it.ctypes.data, given)


if __name__ == "__main__":
    unittest.main()
