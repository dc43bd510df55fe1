"""Calls of several steps, closed tables, and loads that are reported, whatever the number of shards."""

import contextlib
import fractions
import functools
import io
import os
import pathlib
import tempfile
import threading
import unittest
from unittest import mock

from ways import crackd, np, wants_shards

from crackd import library, local, progress

SHARDS = (1, 2, 3, 5, 17)


def numbers(it):
    return [int(each) for each in it]


def of_shards(shards, **options):
    """A table with ten keys for each shard."""
    return crackd.Table(splits=range(10, 10 * shards, 10), shards=shards, key_type="int64", **options)


@wants_shards
class Held(unittest.TestCase):
    """Calls that keep other threads from all shards from their first step to their last."""

    STEPS = ("count", "sum", "select", "delete_many", "delete")

    def test_calls_of_several_steps(self):
        for shards in SHARDS:
            held, room = [], tempfile.TemporaryDirectory()
            self.addCleanup(room.cleanup)

            def noting(real):
                def call(shard, *words):
                    # recorded before the call itself takes its shard's lock
                    held.append([it.is_asking for it in table._shards] if table is not None else None)
                    return real(shard, *words)

                return call

            table, path = None, pathlib.Path(room.name) / "rows.npy"
            steps = {name: noting(getattr(local.LocalShard, name)) for name in self.STEPS}
            with mock.patch.multiple(local.LocalShard, **steps), of_shards(shards) as table:
                keys = list(range(10 * shards))
                table.insert_many(keys, keys)
                mean = fractions.Fraction(sum(keys), len(keys))
                for call, wanted in [
                    (table.mean, mean),
                    (lambda: table.mean(0, 10 * shards), mean),
                    (lambda: table.save(path), len(keys)),
                    (lambda: sum(map(len, table.rebalanced(crackd.Table(key_type="int64"))[1:])), 2 * len(keys)),
                    (lambda: table.delete_range(1, None), len(keys) - 1),
                ]:
                    held.clear()
                    self.assertEqual(call(), wanted)
                    # another table that is filled meanwhile isn't locked
                    own = [it for it in held if it is not None and any(it)]
                    self.assertGreaterEqual(len(own), 1 if shards == 1 else 2)
                    self.assertEqual([it for it in own if not all(it)], [])
                self.assertFalse(any(it.is_asking for it in table._shards))


@wants_shards
class Moments(unittest.TestCase):
    """What is said of several partitions of a shard is of one moment."""

    def test_no_other_thread_comes_between_two_partitions(self):
        for name in ("layout", "_rows", "__repr__", "checkpoint"):
            with self.subTest(name), crackd.Table(splits=[10, 20, 30]) as table:
                row, (shard,), threads, waits = table.insert(25, 7), table._shards, [], []
                called = getattr(table, name)

                def coming(real, *words):
                    found = real(*words)
                    if not threads:
                        # the move waits until the call ends; otherwise the row would be missing
                        threads.append(threading.Thread(target=table.move, args=(row, 5)))
                        threads[0].start()
                        threads[0].join(0.1)
                    waits.append(threads[0].is_alive())
                    return found

                # `_check` gets each partition's status before the next partition is asked
                with mock.patch.object(shard, "_check", functools.partial(coming, shard._check)):
                    found = called()
                threads[0].join()
                # a layout asks each partition twice; `repr` looks at the memory later, at another moment
                looks = 8 if name == "layout" else 4
                self.assertEqual(waits[:looks], [True] * looks)
                rows = found.rows if name == "layout" else found
                self.assertIn("1 row" if name != "checkpoint" else "1", f"{rows} row")
                self.assertEqual([it.rows for it in table.layout().parts], [1, 0, 0, 0])


class Libraries(unittest.TestCase):
    """Which file is the library."""

    def test_the_proved_one_is_first_and_a_named_one_before_it(self):
        with tempfile.TemporaryDirectory() as room, mock.patch.object(library, "HERE", pathlib.Path(room)):
            with mock.patch.dict(os.environ):
                os.environ.pop("CRACKD_LIBRARY", None)
                self.assertIsNone(library.find_library())
                for name in ("libcrackd-unproved.so", "libcrackd.so"):
                    path = pathlib.Path(room) / name
                    path.touch()
                    self.assertEqual(library.find_library(), str(path))
                os.environ["CRACKD_LIBRARY"] = "/another.so"
                self.assertEqual(library.find_library(), "/another.so")
                (pathlib.Path(room) / "libcrackd.so").unlink()
                os.environ["CRACKD_LIBRARY"] = ""
                self.assertEqual(library.find_library(), f"{room}/libcrackd-unproved.so")

    def test_one_that_is_missing_or_is_none(self):
        with tempfile.TemporaryDirectory() as room, mock.patch.object(library, "_loaded", None):
            with mock.patch.object(library, "find_library", lambda: None):
                self.assertRaisesRegex(ImportError, "isn't built: run `make lib-unproved`", library.library)
            path = pathlib.Path(room) / "libcrackd.so"
            for content in (None, b"", b"no library"):
                if content is not None:
                    path.write_bytes(content)
                with mock.patch.object(library, "find_library", lambda: str(path)):
                    self.assertRaisesRegex(ImportError, f"{path} can't be loaded", library.library)
            self.assertIsNone(library._loaded)


@wants_shards
class Closed(unittest.TestCase):
    """Each method of a closed table, also if it has nothing to do."""

    def calls(self, table, row):
        for count in (0, 1, 40):
            rows, keys = [row] * count, [1] * count
            yield "insert_many", lambda keys=keys: table.insert_many(keys, keys)
            yield "insert_rows", lambda keys=keys: table.insert_rows(keys, keys)
            yield "delete_many", lambda rows=rows: table.delete_many(rows)
            yield "update_many", lambda rows=rows, keys=keys: table.update_many(rows, keys, keys)
            for high in (1, 2, 1000):
                highs = [high] * count
                yield "count_many", lambda keys=keys, highs=highs: table.count_many(keys, highs)
                yield "sum_many", lambda keys=keys, highs=highs: table.sum_many(keys, highs)
        for low, high in [(None, None), (1, 1), (1, 2), (5, 1000)]:
            for name in ("count", "sum", "select", "mean", "delete_range", "select_chunks"):
                yield name, lambda name=name, low=low, high=high: list(map(str, [getattr(table, name)(low, high)]))
            yield "chunks", lambda low=low, high=high: list(table.select_chunks(low, high))
        for number in (row, 99 << 54, 1 << 48):
            yield "delete", lambda number=number: table.delete(number)
            yield "move", lambda number=number: table.move(number, 5)
            yield "get", lambda number=number: table.get(number)
            for key in (1, 9, 999):
                yield "update", lambda number=number, key=key: table.update(number, key, 1)
        for name in ("settle", "checkpoint", "layout", "rebalanced", "__len__"):
            yield name, getattr(table, name)
        yield "insert", lambda: table.insert(1, 1)
        yield "count_by", lambda: table.count_by([1, 1])
        yield "sum_by", lambda: table.sum_by([1, 5, 1000])

    def test_each_method(self):
        for shards in SHARDS:
            table = of_shards(shards)
            row = table.insert(1, 1)
            table.get(row)
            for it in (table.close, table.close):
                it()
            for name, call in self.calls(table, row):
                with self.subTest(name, shards=shards):
                    self.assertRaises(crackd.Closed, call)
            self.assertIn("closed", repr(table))
            self.assertTrue(table)

    def test_each_shard_is_closed(self):
        for shards in SHARDS:
            with of_shards(shards) as table:
                table.insert_many(range(10 * shards), range(10 * shards))
            for at in range(shards):
                with self.subTest(shard=at, shards=shards):
                    self.assertRaises(crackd.Closed, table.count, 10 * at, 10 * at + 1)
                    self.assertRaises(crackd.Closed, table._shards[at].check_open)


@wants_shards
class Reported(unittest.TestCase):
    """How far a load is."""

    def told(self, rows, step, way):
        told = []

        def report(*words):
            told.append(words)

        with mock.patch.object(progress, "STEP", step):
            if way == "new":
                with crackd.Table.from_arrays(range(rows), partitions=1, progress=report) as table:
                    self.assertEqual(numbers(table.row_numbers), numbers(table.select().rows))
                    self.assertEqual(table.sum(), sum(range(rows)))
            else:
                with of_shards(3) as table:
                    found = table.insert_rows(range(rows), range(rows), progress=report)
                    self.assertEqual([table.get(it).payload for it in found], list(range(rows)))
        return told

    def test_each_step_once(self):
        for way in ("new", "old"):
            for step in (1, 2, 3, 4):
                for rows in range(3 * step + 2):
                    steps = [min(at + step, rows) for at in range(0, rows, step)]
                    with self.subTest(way, step=step, rows=rows):
                        self.assertEqual(self.told(rows, step, way), [(it, rows) for it in steps])

    def test_a_report_that_fails_ends_the_load(self):
        for shards in SHARDS:
            for at in (1, 2, 3):

                def report(done, _, last=4 * at):
                    if done == last:
                        raise KeyError(done)

                keys = [it % (10 * shards) for it in range(20)]
                with mock.patch.object(progress, "STEP", 4), of_shards(shards) as table:
                    before = table.insert(0, 99)
                    with self.assertRaises(KeyError) as caught:
                        table.insert_rows(keys, range(20), progress=report)
                    found = [table.get(it) for it in numbers(caught.exception.answers)]
                    self.assertEqual(found, list(zip(keys, range(4 * at))))
                    self.assertEqual((len(table), table.get(before)), (4 * at + 1, (0, 99)))
                with mock.patch.object(progress, "STEP", 4), self.assertRaises(KeyError) as caught:
                    crackd.Table.from_arrays(keys, range(20), progress=report)
                self.assertEqual(len(caught.exception.answers), 4 * at)


class Bars(unittest.TestCase):
    """A bar on standard error: after a second, then five times a second, and at the end."""

    def told(self, times, rows=1000):
        written = io.StringIO()
        with mock.patch("crackd.progress.time.monotonic", side_effect=[100.0, *(100 + it for it in times)]):
            with contextlib.redirect_stderr(written):
                bar = progress.reporter(True)
                for at in range(len(times)):
                    bar(rows * (at + 1) // len(times), rows)
        return [int(it.split(" of ")[0].replace(",", "")) for it in written.getvalue().split("\rcrackd: ")[1:]]

    def test_when(self):
        for times, wanted in [
            ([0.999], []),
            ([1.0], [1000]),
            ([0.9, 1.0, 1.1, 1.19, 1.25, 1.4, 1.5, 1.6, 9, 9.1], [200, 500, 700, 900, 1000]),
            ([0.9, 1.0, 1.1, 1.19, 1.25, 1.4, 1.5, 1.6, 9, 9.3], [200, 500, 700, 900, 1000]),
            ([0.1, 0.2, 0.3, 1.5], [1000]),
            ([2, 4, 6, 8], [250, 500, 750, 1000]),
        ]:
            self.assertEqual(self.told(times), wanted, times)
        self.assertEqual(self.told([1.5], 0), [0])


@wants_shards
class Samples(unittest.TestCase):
    """What a table is divided by."""

    @mock.patch.object(crackd.table, "SAMPLED", 100)
    def test_arrays_in_each_order_are_divided_evenly(self):
        rising = np.arange(2400)
        for keys in (rising, rising[::-1], np.repeat(rising[::4], 4), np.tile(rising[::4], 4)):
            for given in (keys, keys.astype(float), keys.tolist()):
                with crackd.Table.from_arrays(given, shards=4, partitions=8) as table:
                    sizes = [it.rows for it in table.layout().parts]
                    self.assertEqual((len(sizes), sum(sizes)), (8, 2400))
                    self.assertTrue(all(250 < it < 400 for it in sizes), sizes)

    @mock.patch.object(crackd.table, "SAMPLED", 100)
    def test_what_is_wrong_is_found_also_beside_the_sample(self):
        keys = np.ma.masked_array(np.arange(300), np.zeros(300, bool))
        keys[205] = keys[208] = np.ma.masked
        self.assertRaisesRegex(ValueError, "item 205 of the array is masked", crackd.Table.from_arrays, keys)
        payloads = np.arange(300)
        self.assertRaisesRegex(ValueError, "item 205 of the array is masked", crackd.Table.from_arrays, payloads, keys)
        for at in (0, 1, 205, 299):
            keys = np.arange(300).astype(object)
            keys[at] = at + 0.5
            for given in (keys, keys.tolist()):
                with crackd.Table.from_arrays(given) as table:
                    found = table.key_type, table.count(at + 0.5, at + 0.6), len(table)
                    self.assertEqual(found, ("float64", 1, 300))
            keys[at] = None
            self.assertRaises(TypeError, crackd.Table.from_arrays, keys)
        keys = np.arange(300.0)
        keys[205] = np.nan
        self.assertRaisesRegex(ValueError, "NaN can't be a key", crackd.Table.from_arrays, keys)

    def test_keys_that_come_one_by_one(self):
        for keys in ((it for it in range(100)), {it: 0 for it in range(100)}, set(range(100)), map(int, range(100))):
            with crackd.Table.from_arrays(keys, partitions=4) as table:
                self.assertEqual([it.rows for it in table.layout().parts], [25] * 4)
                self.assertEqual([table.get(it) for it in table.row_numbers], [(it, it) for it in range(100)])

    def test_copies_have_what_the_table_had(self):
        for policy in ("complete", "gradual", "ripple", "auto"):
            for key_type in ("uint64", "float64", "datetime64[s]"):
                with crackd.Table(policy=policy, key_type=key_type) as table:
                    table.insert_many(np.arange(9).astype(key_type), range(9))
                    for options in ({}, {"partitions": 3}, {"shards": 2, "partitions": 2}):
                        with table.rebalanced(**options).table as other:
                            self.assertEqual((other.policy, other.key_type), (policy, key_type))
                            wanted = options.get("partitions", 1), options.get("shards", 1)
                            self.assertEqual((other.partitions, other.shards), wanted)
                    with table.rebalanced(policy="ripple").table as other:
                        self.assertEqual((other.policy, len(other)), ("ripple", 9))


@wants_shards
class Defaults(unittest.TestCase):
    """What a table has if nothing is said."""

    def test_histories_have_no_limit(self):
        rows = 1_000_001
        for options, left in [({}, rows), ({"history": None}, rows), ({"history": rows - 1}, 1)]:
            with self.subTest(options), crackd.Table(**options) as table:
                table.insert_many(np.arange(rows), np.arange(rows))
                self.assertEqual((table.checkpoint(), table.checkpoint(), table.count()), (left, 0, rows))
        with crackd.Table(history=100) as table:
            table.insert_many(range(250), range(250))
            self.assertEqual(table.checkpoint(), 50)

    def test_options(self):
        with crackd.Table() as table:
            self.assertEqual((table.key_type, table.policy, table.shards, table.partitions), ("int64", "auto", 1, 1))
            self.assertEqual((len(table), table.layout().parts[0].cells), (0, 0))
        for sample, rows, wanted in [(range(8191), None, 1), (range(8192), None, 2), (range(100), 12_288, 3)]:
            with crackd.Table(sample, rows) as table:
                self.assertEqual((table.partitions, len(table)), (wanted, 0))

    def test_options_that_are_wrong(self):
        for policy in ("", "Auto", "best", None, 5, "auto "):
            with self.assertRaisesRegex(ValueError, "one of complete, gradual, ripple, auto, not "):
                crackd.Table(policy=policy)
        for value in (True, 1.5, "2", b"2", [2]):
            self.assertRaisesRegex(TypeError, "shards must be an integer", crackd.Table, range(9), shards=value)
            self.assertRaisesRegex(TypeError, "history must be an integer", crackd.Table, history=value)
            self.assertRaisesRegex(TypeError, "cells must be an integer", crackd.Table, cells=value)
        for value in (0, -1, 1025, 2**64):
            self.assertRaisesRegex(ValueError, "shards must be 1 to 1024, not", crackd.Table, range(9), shards=value)
        for options in ({}, {"partitions": 2}, {"rows": 10**6}, {"sample": []}):
            self.assertRaises(ValueError, crackd.Table, shards=2, **options)
        for value in (0, -1, 2**64, 2**64 + 1, -(2**64), 10**400):
            self.assertRaises(crackd.BadLimit, crackd.Table, history=value)
            self.assertRaises(crackd.BadLimit, crackd.Table, cells=value)
            self.assertRaises(crackd.BadLimit, crackd.Table, splits=[5], shards=2, cells=value)
        with crackd.Table(history=np.int8(9), cells=np.uint16(7), splits=[5], shards=np.int64(2)) as table:
            self.assertEqual((table.shards, len(table.insert_many(range(7), range(7)))), (2, 7))
            self.assertRaises(crackd.Full, table.insert_many, [9] * 6, [1] * 6)
            self.assertEqual(len(table), 12)

    def test_chunks_are_refused_at_once(self):
        with of_shards(3) as table:
            table.insert_many(range(30), range(30))
            for low, high in [(None, None), (5, 5), (5, 25)]:
                for size, error in [(0, ValueError), (-1, ValueError), (1.0, TypeError), (True, TypeError)]:
                    self.assertRaises(error, table.select_chunks, low, high, size)
                    self.assertRaises(error, lambda size=size: list(table.select(low, high).chunks(size)))
            self.assertRaises(ValueError, table.select_chunks, 9, 5)
            for rows in (table.select(), table.select(0, 7), table.select(3, 4)):
                for size in range(1, 35):
                    chunks = list(rows.chunks(size))
                    steps = range(0, len(rows.rows), size)
                    for one, many in zip(zip(*chunks), rows):
                        self.assertEqual([it.tolist() for it in one], [many[at : at + size].tolist() for at in steps])
                        # the chunks are views
                        self.assertTrue(all(np.shares_memory(it, many) for it in one))


@wants_shards
class Empty(unittest.TestCase):
    """Lists of no items, of each type."""

    def test_no_rows(self):
        made = [range(0), range(5, 5), [], (), {}, np.array([]), np.zeros(0, "u8"), np.zeros(0, object)]
        made += [np.zeros(9, "i8")[4:4], np.zeros(0, "f4"), np.ma.masked_array([], [])]
        for shards in (1, 3):
            for key_type in ("int64", "uint64", "float64", "datetime64[s]"):
                splits = np.array([5, 9]).astype(key_type)
                with crackd.Table(splits=splits, shards=shards, key_type=key_type) as table:
                    for it in made:
                        with self.subTest(it, key_type=key_type, shards=shards):
                            found = [table.insert_many(it, it), table.delete_many(it), table.update_many(it, it, it)]
                            found += [table.count_many(it, None), table.count_many(it, it), table.insert_rows(it, it)]
                            dtypes = ["uint64", "bool", "bool", "int64", "int64", "uint64"]
                            self.assertEqual([(len(it), str(it.dtype)) for it in found], [(0, it) for it in dtypes])
                            self.assertEqual((table.sum_many(it, it), table.sum_many(None, it)), ([], []))
                            self.assertEqual(len(table.insert_rows(it, it, progress=lambda *_: None)), 0)
                    for rows in (table.select(), table.select(splits[0], splits[0]), *table.select_chunks()):
                        self.assertEqual([str(it.dtype) for it in rows], ["uint64", key_type, "int64"])
                    self.assertEqual((table.mean(), table.delete_range(), len(table), table.sum()), (None, 0, 0, 0))
                    self.assertEqual(table.sum_by(splits).dtype, np.dtype("int64"))
                with crackd.Table(key_type=key_type) as table, table.rebalanced().table as other:
                    found = table.rebalanced(other)
                    self.assertEqual((len(found.old), len(found.new), len(found.new_of([]))), (0, 0, 0))
                    self.assertRaises(KeyError, found.new_of, [0])
                for it in made:
                    with crackd.Table.from_arrays(it, key_type=key_type) as table:
                        found = len(table), table.shards, table.partitions, table.row_numbers.tolist()
                        self.assertEqual(found, (0, 1, 1, []))


@wants_shards
class Copies(unittest.TestCase):
    """Copies that are refused."""

    def test_the_new_table_is_closed(self):
        made = []
        with crackd.Table.from_arrays([1, 2, 3]) as table:
            real = table._anew
            with mock.patch.object(table, "_anew", lambda *words: made.append(real(*words)) or made[-1]):
                self.assertRaises(crackd.Full, table.rebalanced, cells=1)
            self.assertRaises(crackd.Closed, made[0].count)
            self.assertEqual((len(made), len(table)), (1, 3))


@wants_shards
class Loads(unittest.TestCase):
    """Files of rows."""

    def test_options_of_a_load(self):
        with tempfile.TemporaryDirectory() as room, crackd.Table.from_arrays([1, 2, 3], [10, 20, 30]) as table:
            path, told = pathlib.Path(room) / "rows.npy", []
            self.assertEqual(table.save(path), 3)
            with crackd.Table.load(path, key_type="uint64", policy="ripple", splits=[2]) as other:
                self.assertEqual((other.key_type, other.policy, other.partitions), ("uint64", "ripple", 2))
                self.assertEqual([other.get(it) for it in other.row_numbers], [(1, 10), (2, 20), (3, 30)])
            for policy in ("gradual", "ripple"):
                with crackd.Table(policy=policy) as other:
                    self.assertIs(crackd.Table.load(path, into=other, progress=lambda *it: told.append(it)), other)
                    part = other.layout().parts[0]
                    self.assertEqual((part.column, part.pending_in, told), (3, 0, [(3, 3)]))
                    told.clear()


if __name__ == "__main__":
    unittest.main()
