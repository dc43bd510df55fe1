"""Means, histograms, single rows, moves, chunks and copies: in the process, over TCP, by asyncio and on a cluster."""

import contextlib
import fractions
import os
import pathlib
import random
import tempfile
import threading
import unittest
from unittest import mock

from clusters import cluster, local, wants_cluster
from kinds import GREATEST, KINDS, LEAST, value
from test_kinds import Model, numbers, selected
from ways import (
    InProcess,
    InShards,
    OverAsyncio,
    OverTcp,
    crackd,
    np,
    wants_library,
    wants_numpy,
    wants_program,
    wants_shards,
)

from crackd import library, questions

FEW = ("list of int", "decimals", "times in Berlin", "int8", "uint64", "float64", "datetime64[M]")
FEW += ("datetime64[s]", "datetime64[ns]")
WORKERS = 2


class Questions:
    """The cases, however a table is reached."""

    kinds = KINDS

    @contextlib.contextmanager
    def filled(self, kind, **options):
        """A table with a row for each key, and its model."""
        with self.subTest(kind.name), self.table(key_type=kind.key_type, **kind.options, **options) as table:
            model = Model()
            model.put(table.insert_many(kind.given(kind.keys), kind.payloads), kind.keys, kind.payloads)
            yield table, model

    def divided(self, kind):
        """A table with two splits, which are keys."""
        return self.filled(kind, splits=kind.given(kind.keys[1:4:2]))

    def test_means(self):
        for kind in self.kinds:
            with self.filled(kind) as (table, model):
                some = kind.keys[:: max(1, len(kind.keys) // 4)]
                for low, high in [(None, None), *zip(some, some[1:]), *((it, None) for it in some), (some[0], some[0])]:
                    count, total = model.count(low, high), model.sum(low, high)
                    wanted = fractions.Fraction(total, count) if count else None
                    found = table.mean(low, high)
                    self.assertEqual(found, wanted, (low, high))
                    self.assertIn(type(found), (fractions.Fraction, type(None)))

    def test_histograms(self):
        for kind in self.kinds:
            with self.filled(kind) as (table, model):
                ends = sorted(kind.ends, key=value)[:: max(1, len(kind.ends) // 30)]
                for edges in (list(kind.keys), kind.given(kind.keys), [None, *kind.keys, None], ends):
                    pairs = list(zip(list(edges), list(edges)[1:]))
                    counts, sums = table.count_by(edges), table.sum_by(edges)
                    self.assertEqual(numbers(counts), [model.count(*it) for it in pairs])
                    self.assertEqual([int(it) for it in sums], [model.sum(*it) for it in pairs])

    def test_sums_of_a_histogram_are_exact_beyond_64_bits(self):
        with self.table() as table:
            table.insert_many([1, 2, 2, 3, 3], [GREATEST, GREATEST, 1, LEAST, -1])
            self.assertEqual([int(it) for it in table.sum_by([1, 2, 3, 4])], [GREATEST, 2**63, LEAST - 1])
            if np is not None:
                self.assertEqual(table.sum_by([1, 2]).dtype, np.dtype("int64"))
                self.assertEqual(table.sum_by([1, 2, 3]).dtype, np.dtype(object))
                for sums, kind in [([LEAST, GREATEST], "int64"), ([LEAST - 1], object), ([GREATEST + 1], object)]:
                    found = questions.sums_array(sums)
                    self.assertEqual((found.tolist(), found.dtype), (sums, np.dtype(kind)))
                self.assertEqual(table.count_by([1, 2]).dtype, np.dtype("int64"))

    def test_edges_that_are_no_ranges(self):
        with self.table() as table:
            table.insert_many([1, 2, 3], [1, 2, 4])
            for call in (table.count_by, table.sum_by):
                for edges in ([], [1], None):
                    self.assertRaises((ValueError, TypeError), call, edges)
                for edges in ([1, None, 3], (1, None, 3), (None, None, 3), [1, None, None]):
                    self.assertRaisesRegex(TypeError, "only the first and the last edge", call, edges)
                self.assertRaisesRegex(ValueError, "range 1: the low end 5 is above the high end 3", call, [1, 5, 3, 9])
                self.assertEqual(numbers(call([2, 2, 2])), [0, 0])
                self.assertEqual(len(call([None, None])), 1)

    def test_a_range_is_deleted(self):
        for kind in self.kinds:
            for at in (0, 1, len(kind.keys) - 1):
                with self.divided(kind) as (table, model):
                    low, high = kind.keys[at], kind.keys[at + 3] if at + 3 < len(kind.keys) else None
                    gone = model.inside(low, high)
                    self.assertEqual(table.delete_range(low, low), 0)
                    self.assertEqual(table.delete_range(low, high), len(gone))
                    self.assertEqual(table.delete_range(low, high), 0)
                    left = {row: it for row, it in model.rows.items() if row not in gone}
                    self.assertEqual(selected(kind, table), left)
                    self.assertEqual(table.delete_range(), len(left))
                    self.assertEqual(len(table), 0)

    def test_each_row_is_got(self):
        for kind in self.kinds:
            with self.divided(kind) as (table, model):
                for row, wanted in model.rows.items():
                    found = table.get(row)
                    self.assertEqual((value(found.key), found.payload), wanted)
                    self.assertEqual(found, table.get(np.uint64(row)) if np is not None else found)
                first = min(model.rows)
                self.assertTrue(table.delete(first))
                self.assertIsNone(table.get(first))
                self.assertIsNone(table.get(first + 1000))

    def test_a_row_is_got_as_it_is_now(self):
        with self.table(splits=[100]) as table:
            row, other = table.insert_many([1, 150], [10, LEAST])
            table.update(row, 5, GREATEST)
            self.assertEqual((table.get(row), table.get(other)), ((5, GREATEST), (150, LEAST)))

    def test_rows_that_no_partition_has(self):
        with self.table(splits=[100]) as table:
            for call in (table.get, lambda row: table.move(row, 5)):
                self.assertRaises(crackd.NoSuchPartition, call, 9 << 48)
                self.assertRaises(crackd.NoSuchPartition, call, 2**64 - 1)
                self.assertRaises(OverflowError, call, 2**64)
                self.assertRaises(OverflowError, call, -1)
                self.assertRaises(TypeError, call, 1.0)
                self.assertRaises(TypeError, call, True)
            self.assertIsNone(table.move(1000, 5))
            self.assertEqual(len(table), 0)

    def test_a_row_is_moved_to_each_key(self):
        for kind in self.kinds:
            with self.divided(kind) as (table, model):
                row = min(model.rows)
                payload = model.rows[row][1]
                for key in kind.keys:
                    new = table.move(row, key)
                    self.assertNotIn(new, model.rows)
                    self.assertIsNone(table.move(row, key))
                    del model.rows[row]
                    model.rows[new] = (value(key), payload)
                    row = new
                self.assertEqual(selected(kind, table), model.rows)
                for key, error in kind.wrong[:: max(1, len(kind.wrong) // 5)]:
                    self.assertRaises(error, table.move, row, key)
                self.assertEqual(selected(kind, table), model.rows)

    def test_a_row_whose_move_is_refused_is_put_back(self):
        with self.table(splits=[100], cells=2) as table:
            rows = numbers(table.insert_many([1, 2, 150, 151], [10, 20, 30, 40]))
            with self.assertRaises(crackd.Full) as caught:
                table.move(rows[0], 152)
            error = caught.exception
            self.assertEqual((error.code, error.done, error.row), (9, 0, (1, 10)))
            (back,) = numbers(error.answers)
            self.assertNotIn(back, rows)
            self.assertEqual(table.get(back), (1, 10))
            self.assertEqual((len(table), table.sum()), (4, 100))

    def test_chunks(self):
        for kind in self.kinds:
            with self.divided(kind) as (table, model):
                for low, high in [(None, None), (kind.keys[1], None), (None, kind.keys[-1]), (kind.keys[0],) * 2]:
                    for size in (1, 2, 1000):
                        chunks, whole = list(table.select_chunks(low, high, size)), table.select(low, high)
                        self.assertTrue(all(1 <= len(it.rows) <= size for it in chunks))
                        found = [numbers(row for it in chunks for row in it.rows)]
                        found += [[value(key) for it in chunks for key in it.keys]]
                        found += [numbers(payload for it in chunks for payload in it.payloads)]
                        wanted = [numbers(whole.rows), list(map(value, whole.keys)), numbers(whole.payloads)]
                        self.assertEqual(found, wanted)
                        cut = [len(it.rows) for it in whole.chunks(size)]
                        self.assertEqual(sum(cut), len(whole.rows))
                for size, error in ((0, ValueError), (-1, ValueError), (1.0, TypeError), (True, TypeError)):
                    self.assertRaises(error, lambda size=size: list(table.select_chunks(None, None, size)))

    def test_a_closed_table(self):
        with self.table() as table:
            row = table.insert(1, 1)
            table.close()
            calls = [table.mean, lambda: table.mean(1, 1), lambda: table.count_by([1, 2]), lambda: table.sum_by([1, 2])]
            calls += [table.delete_range, lambda: table.delete_range(1, 1), lambda: table.get(row), table.rebalanced]
            calls += [lambda: table.move(row, 2), lambda: list(table.select_chunks())]
            calls += [lambda: list(table.select_chunks(1, 1)), lambda: table.insert_rows([1], [1])]
            for call in calls:
                self.assertRaises(crackd.Closed, call)
            with tempfile.TemporaryDirectory() as room:
                path = pathlib.Path(room) / "rows.npy"
                if np is not None:
                    self.assertRaises(crackd.Closed, table.save, path)
                self.assertFalse([it for it in pathlib.Path(room).rglob("*") if it.is_file()])

    def test_rebalanced(self):
        for kind in self.kinds:
            with self.filled(kind) as (table, model):
                found = table.rebalanced(splits=kind.given(kind.keys[2:3]))
                with found.table as other:
                    found_type = other.key_type, other.key_decimals, other.zone
                    self.assertEqual(found_type, (kind.key_type, kind.decimals, kind.zone))
                    self.assertEqual(sum(it.pending_in for it in other.layout().parts), 0)
                    after = selected(kind, other)
                    self.assertEqual(numbers(found.old), sorted(model.rows))
                    pairs = zip(numbers(found.old), numbers(found.new))
                    self.assertEqual({old: after[new] for old, new in pairs}, model.rows)
                    some = sorted(model.rows)[::-2]
                    self.assertEqual([after[it] for it in numbers(found.new_of(some))], [model.rows[it] for it in some])
                    self.assertRaises(KeyError, found.new_of, [max(model.rows) + 1])
                    self.assertRaises(KeyError, found.new_of, [*some, 2**64 - 1])
                self.assertEqual(selected(kind, table), model.rows)

    def test_rebalanced_into_another_table(self):
        with self.table(splits=[100]) as table, crackd.Table(splits=[2], policy="complete") as other:
            rows = table.insert_many([1, 2, 150], [10, 20, 30])
            found = table.rebalanced(other)
            self.assertIs(found.table, other)
            self.assertEqual([other.get(it) for it in found.new_of(rows)], [(1, 10), (2, 20), (150, 30)])
            self.assertRaises(TypeError, table.rebalanced, other, splits=[1])

    def test_a_refused_copy_leaves_both_tables_open(self):
        with self.table(splits=[100]) as table, crackd.Table(cells=2) as other:
            table.insert_many([1, 2, 3], [10, 20, 30])
            self.assertRaises(crackd.Full, table.rebalanced, other)
            self.assertEqual((other.sum(), table.sum(), len(table)), (30, 60, 3))

    def test_progress(self):
        with self.table(splits=[5]) as table, mock.patch("crackd.progress.STEP", 3):
            told = []
            rows = table.insert_rows(range(10), range(10), progress=lambda *it: told.append(it))
            self.assertEqual(told, [(3, 10), (6, 10), (9, 10), (10, 10)])
            self.assertEqual([table.get(it) for it in numbers(rows)], [(it, it) for it in range(10)])
            self.assertEqual(len(table.insert_rows([1], [1], progress=False)), 1)
            self.assertEqual(len(table.insert_rows([], [], progress=lambda *_: None)), 0)
            self.assertRaises(ValueError, table.insert_rows, [1], [1, 2], progress=print)
            self.assertRaises(TypeError, table.insert_rows, [1], [1], progress=5)

    def test_a_refusal_amid_a_load_with_progress(self):
        with self.table(splits=[100], cells=4) as table, mock.patch("crackd.progress.STEP", 3):
            with self.assertRaises(crackd.Full) as caught:
                table.insert_rows([1, 200, 2, 3, 4, 5, 6, 7], range(8), progress=lambda *_: None)
            error = caught.exception
            self.assertEqual((error.code, error.done, len(error.answers)), (9, 5, 5 + error.later))
            wanted = [(1, 0), (200, 1), (2, 2), (3, 3), (4, 4)]
            self.assertEqual([table.get(it) for it in numbers(error.answers)][:5], wanted)
        # over TCP, and in another shard, a row after the refused one is inserted
        with self.table(splits=[100], cells=4) as table, mock.patch("crackd.progress.STEP", 3):
            with self.assertRaises(crackd.Full) as caught:
                table.insert_rows([1, 2, 3, 4, 5, 200, 6], range(7), progress=lambda *_: None)
            error = caught.exception
            self.assertEqual((error.done, error.later, len(error.answers)), (4, table.count(100), table.count()))


@wants_numpy
class Files:
    """Rows that are saved and loaded."""

    kinds = KINDS

    def setUp(self):
        room = tempfile.TemporaryDirectory()
        self.addCleanup(room.cleanup)
        self.path = pathlib.Path(room.name) / "rows.npy"

    def test_saves(self):
        for kind in self.kinds:
            options = {"key_type": kind.key_type, "splits": kind.given(kind.keys[1:4:2]), **kind.options}
            with self.subTest(kind.name), self.table(**options) as table:
                table.insert_many(kind.given(kind.keys), kind.payloads)
                self.assertEqual(table.save(self.path), len(kind.keys))
                saved = np.load(self.path)
                self.assertEqual((saved.dtype.names, str(saved.dtype["key"])), (("key", "payload"), kind.key_type))
                wanted = sorted(zip(map(value, kind.keys), kind.payloads))
                self.assertEqual(sorted(zip(map(kind.exact, saved["key"]), saved["payload"].tolist())), wanted)
                with crackd.Table.load(self.path) as loaded:
                    found = sorted(selected(kind, loaded).values())
                    self.assertEqual((found, loaded.key_type), (wanted, kind.key_type))
                    self.assertEqual((loaded.key_decimals, loaded.zone), (kind.decimals, kind.zone))
                    self.assertEqual(len(loaded.row_numbers), len(wanted))
                    self.assertEqual(sum(it.pending_in for it in loaded.layout().parts), 0)

    def test_all_is_written_before_it_is_synced(self):
        synced, replaced, replace = [], [], os.replace

        def sync(descriptor):
            name = os.readlink(f"/proc/self/fd/{descriptor}")
            synced.append(None if os.path.isdir(name) else pathlib.Path(name).read_bytes())

        def renamed(*names):
            replaced.append(len(synced))
            replace(*names)

        with self.table() as table, mock.patch.multiple(os, fsync=sync, replace=renamed):
            table.insert_many([1, 2, 3], [4, 5, 6])
            table.save(self.path)
        # the file, then its name, then the folder
        self.assertEqual((synced, replaced), ([self.path.read_bytes(), None], [1]))

    def test_no_rows(self):
        with self.table() as table:
            self.assertEqual(table.save(self.path), 0)
            with crackd.Table.load(self.path) as loaded:
                self.assertEqual((len(loaded), loaded.key_type), (0, "int64"))

    def test_a_load_into_a_table(self):
        with crackd.Table.from_arrays([1, 2, 3], [10, 20, 40]) as saved, self.table() as table:
            saved.save(self.path)
            self.assertIs(crackd.Table.load(self.path, into=table), table)
            self.assertEqual(sum(it.pending_in for it in table.layout().parts), 0)
            self.assertEqual((table.count(), table.sum(2)), (3, 60))
            self.assertRaises(TypeError, crackd.Table.load, self.path, into=table, partitions=2)

    def test_a_save_that_fails_leaves_the_one_before(self):
        with self.table() as table:
            table.insert(1, 5)
            table.save(self.path)
            before = self.path.read_bytes()
            with mock.patch("os.fsync", side_effect=OSError("full")):
                self.assertRaises(OSError, table.save, self.path)
            self.assertEqual((self.path.read_bytes(), len(list(self.path.parent.iterdir()))), (before, 1))


class Together:
    """Threads that ask a table of this process, where some calls are more than one of the library."""

    ROWS, MOVES, KEYS = 40, 150, 60

    def test_a_moved_row_is_never_missing(self):
        with self.table(splits=[20, 40]) as table:
            rows = numbers(table.insert_many(range(self.ROWS), [it**3 for it in range(self.ROWS)]))
            wanted = fractions.Fraction(sum(it**3 for it in range(self.ROWS)), self.ROWS)
            found, is_over = [], threading.Event()

            def move(own, drawn):
                for _ in range(self.MOVES):
                    at = drawn.randrange(len(own))
                    own[at] = table.move(own[at], drawn.randrange(self.KEYS))

            def ask():
                while not is_over.is_set():
                    found.append(table.mean())

            movers = [threading.Thread(target=move, args=(rows[it::3], random.Random(it))) for it in range(3)]
            askers = [threading.Thread(target=ask) for _ in range(2)]
            for it in (*movers, *askers):
                it.start()
            for it in movers:
                it.join()
            is_over.set()
            for it in askers:
                it.join()
            self.assertEqual((set(found) | {table.mean()}, len(table)), ({wanted}, self.ROWS))

    def test_a_range_is_read_and_deleted_at_one_moment(self):
        updates = []

        def selected_then(*words):
            found = select(*words)
            # the update waits until the rows are deleted; otherwise it would keep its row from being deleted
            thread.start()
            thread.join(0.3)
            return found

        with self.table(splits=[20, 40]) as table:
            row, select = int(table.insert_many([5, 6, 25], [1, 2, 3])[0]), table._select
            thread = threading.Thread(target=lambda: updates.append(table.update(row, 19, 1)))
            with mock.patch.object(table, "_select", selected_then):
                self.assertEqual(table.delete_range(0, 10), 2)
            thread.join()
            self.assertEqual((updates, table.count()), ([False], 1))

    def test_a_range_that_is_deleted_amid_inserts_leaves_what_came_later(self):
        with self.table(splits=[20, 40]) as table:
            gone, placed = [], []

            def insert(drawn):
                for _ in range(self.MOVES):
                    keys = [drawn.randrange(self.KEYS) for _ in range(5)]
                    placed.extend(numbers(table.insert_many(keys, keys)))

            threads = [threading.Thread(target=insert, args=(random.Random(it),)) for it in range(3)]
            for it in threads:
                it.start()
            while any(it.is_alive() for it in threads):
                gone.append(table.delete_range(10, 50))
            self.assertEqual((len(placed), sum(gone) + len(table)), (3 * 5 * self.MOVES, 3 * 5 * self.MOVES))


@wants_library
class InProcessTogether(Together, InProcess, unittest.TestCase):
    """In one shard."""


@wants_shards
class InShardsTogether(Together, InShards, unittest.TestCase):
    """In several shards."""


@wants_library
class InProcessQuestions(Questions, InProcess, unittest.TestCase):
    """In the process."""

    def moved(self, *faults):
        """The error of a move whose insertions end with these refusals or errors, and then the table's rows."""
        with self.table() as table:
            row, loaded, left = table.insert(1, 10), library.library(), list(faults)
            real = loaded.insert

            def insert(*words):
                fault = left.pop(0)
                if isinstance(fault, int):
                    return fault or real(*words)
                if fault.args == ("placed",):
                    real(*words)
                raise fault

            with mock.patch.object(loaded, "insert", insert):
                with self.assertRaises((crackd.Refused, KeyboardInterrupt)) as caught:
                    table.move(row, 2)
            self.assertEqual((left, caught.exception.row), ([], (1, 10)))
            self.assertEqual(len(table), len(caught.exception.answers))
            return type(caught.exception), [table.get(it) for it in numbers(caught.exception.answers)]

    def test_a_row_that_cannot_be_put_back_is_in_the_error(self):
        self.assertEqual(self.moved(8, 8), (crackd.OutOfMemory, []))
        self.assertEqual(self.moved(9, 0), (crackd.Full, [(1, 10)]))

    def test_an_interrupted_move(self):
        before, after = KeyboardInterrupt(), KeyboardInterrupt("placed")
        self.assertEqual(self.moved(before, 0), (KeyboardInterrupt, [(1, 10)]))
        self.assertEqual(self.moved(after), (KeyboardInterrupt, [(2, 10)]))
        self.assertEqual(self.moved(9, before, 0), (KeyboardInterrupt, [(1, 10)]))
        self.assertEqual(self.moved(9, after), (KeyboardInterrupt, [(1, 10)]))


@wants_library
class InProcessFiles(Files, InProcess, unittest.TestCase):
    """In the process."""

    def test_options_of_a_load(self):
        with crackd.Table.from_arrays([1, 2, 300], [7, 8, 9]) as table:
            table.save(self.path)
        options = {"key_type": "float64", "partitions": 2, "policy": "gradual"}
        with crackd.Table.load(self.path, **options) as table:
            self.assertEqual((table.key_type, table.partitions, table.policy), ("float64", 2, "gradual"))
            self.assertEqual((table.sum(1.5, 2.5), table.get(int(table.row_numbers[2]))), (8, (300.0, 9)))

    def test_what_is_no_save(self):
        self.assertRaises(FileNotFoundError, crackd.Table.load, self.path)
        types = [[("key", it), ("payload", "int64")] for it in ("int32", "U3", "timedelta64[s]", "bool")]
        types += [[("payload", "int64"), ("key", "int64")], [("key", "int64")]]
        types += [[("key", "int64"), ("payload", "uint64")]]
        wrong = [np.arange(3), np.zeros((2, 2), [("key", "int64"), ("payload", "int64")])]
        wrong += [np.zeros(3, it) for it in types]
        for it in wrong:
            np.save(self.path, it)
            self.assertRaises(crackd.BadSave, crackd.Table.load, self.path)
        self.path.write_bytes(b"")
        self.assertRaises(crackd.BadSave, crackd.Table.load, self.path)
        with crackd.Table.from_arrays([1, 2, 3]) as table:
            table.save(self.path)
        self.path.write_bytes(self.path.read_bytes()[:-1])
        self.assertRaises(crackd.BadSave, crackd.Table.load, self.path)
        np.save(self.path, np.zeros(2, [("key", "float64"), ("payload", "int64")]))
        with crackd.Table.load(self.path) as table:
            self.assertEqual((len(table), table.key_type), (2, "float64"))


@wants_shards
class InShardsQuestions(Questions, InShards, unittest.TestCase):
    """In several shards of the process."""

    def test_a_move_that_is_interrupted_once_its_row_is_placed(self):
        with self.table(splits=[10, 20]) as table:
            row, shard = table.insert(1, 10), table._shards[2]
            real = shard._library.insert

            def interrupted(*words):
                real(*words)
                raise KeyboardInterrupt

            with mock.patch.object(shard._library, "insert", interrupted):
                with self.assertRaises(KeyboardInterrupt) as caught:
                    table.move(row, 25)
            (new,) = numbers(caught.exception.answers)
            self.assertEqual((table.get(new), len(table)), ((25, 10), 1))


@wants_shards
class InShardsFiles(Files, InShards, unittest.TestCase):
    """In several shards of the process."""


@wants_library
@wants_program
class OverTcpQuestions(Questions, OverTcp, unittest.TestCase):
    """Over TCP."""

    kinds = [it for it in KINDS if it.name in FEW]


@wants_library
@wants_program
class OverTcpFiles(Files, OverTcp, unittest.TestCase):
    """Over TCP."""

    kinds = OverTcpQuestions.kinds


@wants_library
@wants_program
class OverAsyncioQuestions(Questions, OverAsyncio, unittest.TestCase):
    """Over TCP, by asyncio."""

    kinds = OverTcpQuestions.kinds


@wants_library
@wants_program
class OverAsyncioFiles(Files, OverAsyncio, unittest.TestCase):
    """Over TCP, by asyncio."""

    kinds = OverTcpQuestions.kinds
    # `load` can't await the methods of this table
    test_a_load_into_a_table = None


@wants_library
@wants_cluster
@wants_numpy
class OnAClusterQuestions(Questions, unittest.TestCase):
    """On a cluster."""

    kinds = [it for it in KINDS if it.name in FEW[::2]]

    @classmethod
    def setUpClass(cls):
        cls.stack = contextlib.ExitStack()
        cls.client = cls.stack.enter_context(local(WORKERS))

    @classmethod
    def tearDownClass(cls):
        cls.stack.close()

    @contextlib.contextmanager
    def table(self, sample=(), rows=0, **options):
        with cluster.Table(self.client, sample, rows, **options) as table:
            yield table


if __name__ == "__main__":
    unittest.main()
