"""Each method with each type of keys at its limits: in the process, over TCP and on a cluster, with exact results."""

import contextlib
import fractions
import itertools
import math
import pathlib
import tempfile
import unittest
from unittest import mock

from clusters import cluster, local, wants_cluster
from kinds import GREATEST, KINDS, LEAST, value
from test_shards import Steps
from ways import InProcess, InShards, OverTcp, crackd, np, wants_library, wants_numpy, wants_program, wants_shards

WORKERS = 2
ON_CLUSTERS = ("list of int", "int8", "uint64", "float64", "datetime64[M]", "datetime64[s]", "datetime64[ns]")
ON_CLUSTERS += ("decimals", "times in Berlin")


def numbers(it):
    return [int(each) for each in it]


def is_inside(it, low, high):
    return (low is None or value(low) <= it) and (high is None or it < value(high))


class Model:
    """Rows by their numbers, with the exact values of their keys."""

    def __init__(self):
        self.rows = {}

    def put(self, rows, keys, payloads):
        self.rows.update(zip(numbers(rows), zip(map(value, keys), payloads)))

    def inside(self, low, high):
        """The rows of a range."""
        return {row: it for row, it in self.rows.items() if is_inside(it[0], low, high)}

    def count(self, low, high):
        return len(self.inside(low, high))

    def sum(self, low, high):
        return sum(it[1] for it in self.inside(low, high).values())


def selected(kind, table, *ends):
    """The rows of a select, as a model has them."""
    got = table.select(*ends, raw=True)
    return dict(zip(numbers(got.rows), zip(map(kind.exact, got.keys), numbers(got.payloads))))


class OfKinds:
    """The cases of each kind of keys, however a table is reached."""

    kinds = KINDS

    @contextlib.contextmanager
    def filled(self, kind, **options):
        """A table with a row for each key, and its model."""
        with self.subTest(kind.name), self.table(key_type=kind.key_type, **kind.options, **options) as table:
            model = Model()
            model.put(table.insert_many(kind.given(kind.keys), kind.payloads), kind.keys, kind.payloads)
            yield table, model

    def ranges(self, kind):
        """Ranges between neighbours of all ends, from one to each, and to and from none."""
        ends = sorted(kind.ends, key=value)
        near = list(zip(ends, ends[1:])) + list(zip(ends, ends))
        return [*near, *((it, None) for it in ends), *((None, it) for it in ends), (None, None), (ends[0], ends[-1])]

    def test_counts_and_sums_of_each_range(self):
        for kind in self.kinds:
            with self.filled(kind) as (table, model):
                for low, high in self.ranges(kind):
                    found = table.count(low, high), table.sum(low, high)
                    self.assertEqual(found, (model.count(low, high), model.sum(low, high)), (low, high))

    def test_many_ranges_in_a_call(self):
        for kind in self.kinds:
            with self.filled(kind) as (table, model):
                pairs = self.ranges(kind)
                counts, sums = ([call(*it) for it in pairs] for call in (model.count, model.sum))
                self.assertEqual(numbers(table.count_many(*zip(*pairs))), counts)
                self.assertEqual(table.sum_many(*zip(*pairs)), sums)

    def test_lists_and_arrays_of_ends(self):
        for kind in self.kinds:
            with self.filled(kind) as (table, model):
                keys = kind.given(kind.keys)
                for ends in (keys, kind.keys, list(kind.ends), *kind.arrays, *map(list, kind.arrays)):
                    self.one_sided(table, model, ends)
                for ends in (keys, *kind.arrays):
                    pairs = list(zip(ends, ends[1:]))
                    found = numbers(table.count_many(ends[:-1], ends[1:])), table.sum_many(ends[:-1], ends[1:])
                    self.assertEqual(found, tuple([call(*it) for it in pairs] for call in (model.count, model.sum)))

    def one_sided(self, table, model, ends):
        """Ranges with these ends, of which the other is none."""
        after, before = [(it, None) for it in ends], [(None, it) for it in ends]
        for lows, highs, pairs in [(ends, None, after), (None, ends, before)]:
            found = numbers(table.count_many(lows, highs)), table.sum_many(lows, highs)
            self.assertEqual(found, tuple([call(*it) for it in pairs] for call in (model.count, model.sum)), ends)

    def test_selects(self):
        for kind in self.kinds:
            with self.filled(kind) as (table, model):
                least = kind.keys[0]
                for found in (table.select(), table.select(least, least), table.select(None, least)):
                    wanted = "float64" if kind.decimals else kind.key_type
                    self.assertEqual(str(getattr(found.keys, "dtype", wanted)), wanted)
                ends = [*kind.keys, *kind.ends[:: max(1, len(kind.ends) // 20)], None]
                for low, high in [*((it, None) for it in ends), *((None, it) for it in ends)]:
                    self.assertEqual(selected(kind, table, low, high), model.inside(low, high), (low, high))

    def expect(self, table, model, kind):
        """The table has the rows of the model."""
        self.assertEqual((len(table), table.sum()), (len(model.rows), model.sum(None, None)))
        self.assertEqual(selected(kind, table), model.rows)
        lows, highs = [None, *kind.keys], [*kind.keys, None]
        wanted = [[call(*it) for it in zip(lows, highs)] for call in (model.count, model.sum)]
        self.assertEqual([numbers(table.count_many(lows, highs)), table.sum_many(lows, highs)], wanted)

    def test_changes(self):
        for kind in self.kinds:
            # one partition, since rows get keys from everywhere
            with self.filled(kind, partitions=1) as (table, model):
                for key, payload in zip(kind.keys, kind.payloads):
                    model.put([table.insert(key, payload)], [key], [payload])
                self.expect(table, model, kind)
                rows = sorted(model.rows)
                half, turned = len(rows) // 2, kind.keys[::-1]
                self.assertEqual(
                    list(table.update_many(rows[:half], kind.given(turned), kind.payloads)), [True] * half
                )
                model.put(rows, turned, kind.payloads)
                for row, key, payload in zip(rows[half:], turned, kind.payloads[::-1]):
                    self.assertIs(table.update(row, key, payload), True)
                    model.put([row], [key], [payload])
                self.expect(table, model, kind)
                self.deletes(table, model, kind)

    def deletes(self, table, model, kind):
        """Rows are deleted, one and many, of which some are gone; what is left is merged, and histories are emptied."""
        rows = sorted(model.rows)
        for row in rows[:3]:
            self.assertEqual((table.delete(row), table.delete(row)), (True, False))
            self.assertIs(table.update(row, kind.keys[0], 1), False)
            del model.rows[row]
        self.expect(table, model, kind)
        self.assertEqual(list(table.delete_many(rows[2:6] + rows[5:6])), [False, True, True, True, False])
        self.assertEqual(list(table.update_many(rows[5:7], kind.given(kind.keys[:2]), [1, 2])), [False, True])
        for row in rows[3:6]:
            del model.rows[row]
        model.put(rows[6:7], kind.keys[1:2], [2])
        table.settle()
        self.assertEqual(table.layout().rows, len(model.rows))
        self.assertGreater(table.checkpoint(), 0)
        self.assertEqual(table.checkpoint(), 0)
        self.expect(table, model, kind)

    def test_both_zeros_are_a_key(self):
        zeros = [0.0, -0.0, 0, fractions.Fraction(0)]
        arrays = [] if np is None else [np.array([0.0, -0.0], it) for it in ("f2", "f4", "f8")]
        with self.table(key_type="float64") as table:
            for it in zeros:
                table.insert(it, 1)
            for it in (zeros, *arrays):
                table.insert_many(it, [1] * len(it))
            rows = table.count()
            for it in zeros:
                self.assertEqual((table.count(it), table.count(None, it), table.sum(it, 5e-324)), (rows, 0, rows))
            for it in (zeros, *arrays):
                self.assertEqual(numbers(table.count_many(it, None)), [rows] * len(it))
                self.assertEqual(numbers(table.count_many(it, it)), [0] * len(it))
            self.assertEqual({math.copysign(1, it) for it in table.select().keys}, {1.0})

    def test_checkpoints_of_all_partitions(self):
        with self.table(splits=[10, 20, 30], key_type="int64") as table:
            for keys in (range(40), range(40), [35], [5, 15, 25]):
                rows = numbers(table.insert_many(keys, keys))
                self.assertEqual((table.checkpoint(), table.checkpoint()), (len(keys), 0))
            self.assertEqual(list(table.delete_many(rows)), [True] * 3)
            self.assertEqual((table.checkpoint(), table.checkpoint()), (3, 0))
            self.assertEqual((table.count(), table.sum()), (81, 2 * sum(range(40)) + 35))

    def test_keys_of_other_types(self):
        for kind in self.kinds:
            with self.filled(kind) as (table, model):
                for array in kind.arrays:
                    if array.dtype.kind in "iuM" or kind.key_type == "float64":
                        keys = array[[kind.has(it) for it in array]]
                        payloads = [(-7) ** it for it in range(len(keys))]
                        for given in (keys, list(keys), keys[::-1][::-1]):
                            model.put(table.insert_many(given, payloads), keys, payloads)
                        for key in keys:
                            model.put([table.insert(key, 3)], [key], [3])
                        self.assertEqual(table.sum_many(keys, None), [model.sum(it, None) for it in keys])
                self.expect(table, model, kind)

    def test_keys_divide_a_table(self):
        for kind in self.kinds:
            at = len(kind.keys) // 2
            splits, sizes = kind.given(kind.keys[at : at + 2]), [at, 1, len(kind.keys) - at - 1]
            with self.subTest(kind.name), self.table(splits=splits, key_type=kind.key_type, **kind.options) as table:
                model = Model()
                rows = table.insert_many(kind.given(kind.keys), kind.payloads)
                model.put(rows, kind.keys, kind.payloads)
                self.expect(table, model, kind)
                self.assertEqual([it.rows for it in table.layout().parts], sizes)
                self.far_updates(table, kind, rows, at)
                model.put(rows[at : at + 1], kind.keys[at : at + 1], [7])
                self.expect(table, model, kind)
                for row, key in zip(numbers(rows), kind.keys):
                    found = table.update(row, key, 5), table.delete(row), table.delete(row), table.update(row, key, 5)
                    self.assertEqual(found, (True, True, False, False))
                self.assertEqual((table.count(), table.sum()), (0, 0))

    def far_updates(self, table, kind, rows, at):
        """Updates to a key of another partition, of rows beside a split."""
        for row, key in [(rows[at], kind.keys[at - 1]), (rows[at], kind.keys[at + 1]), (rows[0], kind.keys[at])]:
            with self.assertRaises(crackd.WrongPartition) as caught:
                table.update_many([rows[at], row], kind.given([kind.keys[at], key]), [7, 8])
            self.assertEqual((caught.exception.code, caught.exception.done), (4, 1))
            self.assertRaises(crackd.WrongPartition, table.update, row, key, 8)

    def turned(self, kind):
        """Ranges whose low end is above the high end, by much and by little, also where both are no keys."""
        ends = sorted(kind.ends, key=value)
        near = [(high, low) for low, high in zip(ends, ends[1:]) if value(low) < value(high)]
        return [*near, (ends[-1], ends[0]), (kind.keys[-1], kind.keys[0])]

    def test_low_ends_above_high_ends(self):
        for kind in self.kinds:
            with self.filled(kind) as (table, model):
                some = [(None, None), (kind.keys[0], kind.keys[0]), (kind.keys[0], kind.keys[-1])]
                for at, (low, high) in enumerate(self.turned(kind)):
                    for call in (table.count, table.sum, table.select):
                        self.assertRaises(ValueError, call, low, high)
                    pairs = [*some[: at % 4], (low, high), *some[at % 4 :], (low, high)]
                    for call in (table.count_many, table.sum_many):
                        with self.assertRaises(ValueError) as caught:
                            call(*zip(*pairs))
                        self.assertIn(f"range {min(at % 4, len(some))}:", str(caught.exception))
                self.turned_arrays(table, kind)
                self.expect(table, model, kind)

    def turned_arrays(self, table, kind):
        """Arrays of ends, of which the second range is turned around."""
        keys = kind.given(kind.keys)
        for call in (table.count_many, table.sum_many):
            with self.assertRaises(ValueError) as caught:
                call(keys[[0, 2, 2]] if kind.dtype else [keys[it] for it in (0, 2, 2)], keys[:3])
            self.assertIn("range 1:", str(caught.exception))

    def test_what_is_no_key(self):
        for kind in self.kinds:
            with self.filled(kind) as (table, model):
                first, row = kind.keys[0], min(model.rows)
                for key, error in kind.wrong:
                    with self.subTest(kind.name, key=key):
                        self.assertRaises(error, table.insert, key, 1)
                        self.assertRaises(error, table.insert_many, [key], [1])
                        self.assertRaises(error, table.insert_many, [first, key], [1, 1])
                        self.assertRaises(error, table.update, row, key, 1)
                        self.assertRaises(error, table.update_many, [row, row], [key, first], [1, 1])
                        if np is not None and not isinstance(key, list):
                            self.assertRaises(error, table.insert_many, np.array([key, key]), [1, 1])
                            self.assertRaises(error, table.update_many, [row], np.array([key]), [1])
                self.expect(table, model, kind)

    def test_what_is_no_row_number(self):
        wrong = [(it, OverflowError) for it in (-1, -(2**63), 2**64, 2**64 + 1, 10**400)]
        wrong += [(it, TypeError) for it in (None, "0", b"0", 0.0, True, False, [0])]
        if np is not None:
            wrong += [(np.int64(-1), OverflowError), (np.bool_(0), TypeError), (np.float64(0), TypeError)]
        with self.table(key_type="int64", partitions=1) as table:
            row = int(table.insert_many([7], [70])[0])
            for it, error in wrong:
                with self.subTest(row=it):
                    self.assertRaises(error, table.delete, it)
                    self.assertRaises(error, table.update, it, 7, 1)
                    self.assertRaises(error, table.delete_many, [row, it])
                    self.assertRaises(error, table.update_many, [row, it], [7, 7], [1, 1])
            for it in (2**64 - 1, 2**63, 9 << 48):
                self.assertRaises(crackd.NoSuchPartition, table.delete, it)
                self.assertRaises(crackd.NoSuchPartition, table.update_many, [it], [7], [1])
            for it in (row + 1, 2**48 - 1):
                self.assertEqual((table.delete(it), list(table.update_many([it], [7], [1]))), (False, [False]))
            self.assertEqual((table.count(), table.sum()), (1, 70))

    def test_what_is_no_payload(self):
        wrong = [(it, OverflowError) for it in (LEAST - 1, GREATEST + 1, 10**400, -(10**400))]
        wrong += [(it, TypeError) for it in (None, "0", b"0", 0.0, math.nan, True, False, [0])]
        with self.table(key_type="int64") as table:
            row = int(table.insert_many([7], [70])[0])
            for it, error in wrong:
                with self.subTest(payload=it):
                    self.assertRaises(error, table.insert, 7, it)
                    self.assertRaises(error, table.insert_many, [7, 7], [1, it])
                    self.assertRaises(error, table.update, row, 7, it)
                    self.assertRaises(error, table.update_many, [row, row], [7, 7], [1, it])
            self.assertEqual((table.count(), table.sum()), (1, 70))
            for it in (LEAST, LEAST + 1, GREATEST - 1, GREATEST):
                self.assertEqual((table.update(row, 7, it), table.sum()), (True, it))
                self.assertEqual((list(table.update_many([row], [7], [it])), table.sum()), ([True], it))

    def test_lists_of_different_lengths(self):
        with self.table(key_type="int64") as table:
            row = int(table.insert_many([7], [70])[0])
            sizes = [it for it in itertools.product(range(3), repeat=3) if len(set(it)) > 1]
            for rows, keys, payloads in sizes:
                with self.subTest(rows=rows, keys=keys, payloads=payloads):
                    if keys != payloads:
                        self.assertRaises(ValueError, table.insert_many, [7] * keys, [1] * payloads)
                        self.assertRaises(ValueError, table.count_many, [7] * keys, [7] * payloads)
                        self.assertRaises(ValueError, table.sum_many, [7] * keys, [7] * payloads)
                    self.assertRaises(ValueError, table.update_many, [row] * rows, [7] * keys, [1] * payloads)
            self.assertEqual((table.count(), table.sum()), (1, 70))

    def test_what_is_no_list(self):
        wrong = [bytes(8), bytearray(8), memoryview(bytes(8)), "12345678", b"", "", 5, None]
        for kind in self.kinds:
            with self.filled(kind) as (table, model):
                keys, row = kind.keys, min(model.rows)
                for it in wrong:
                    with self.subTest(kind.name, given=it):
                        keys, payloads = list(kind.keys[:1]) * 8, [1] * 8
                        size = len(it) if hasattr(it, "__len__") else 8
                        self.assertRaises(TypeError, table.insert_many, it, payloads[:size])
                        self.assertRaises(TypeError, table.insert_many, keys[:size], it)
                        self.assertRaises(TypeError, table.delete_many, it)
                        self.assertRaises(TypeError, table.update_many, it, keys[:size], payloads[:size])
                        self.assertRaises(TypeError, table.update_many, [row] * size, it, payloads[:size])
                        self.assertRaises(TypeError, table.update_many, [row] * size, keys[:size], it)
                        if it is not None:
                            self.assertRaises(TypeError, table.count_many, it, None)
                            self.assertRaises(TypeError, table.sum_many, keys[:size], it)
                self.expect(table, model, kind)

    def test_what_is_no_end(self):
        for kind in self.kinds:
            with self.filled(kind) as (table, model):
                first = kind.keys[0]
                for end, error in kind.wrong_ends:
                    with self.subTest(kind.name, end=end):
                        for call in (table.count, table.sum, table.select):
                            self.assertRaises(error, call, end)
                            self.assertRaises(error, call, None, end)
                        for call in (table.count_many, table.sum_many):
                            self.assertRaises(error, call, [end], None)
                            self.assertRaises(error, call, [None, first], [first, end])
                self.expect(table, model, kind)


@wants_shards
class InShardsKinds(OfKinds, InShards, unittest.TestCase):
    """In the process, in several shards."""


@wants_library
class InProcessKinds(OfKinds, InProcess, unittest.TestCase):
    """In the process."""

    def test_tables_of_arrays(self):
        for kind in self.kinds:
            for options in ({}, {"partitions": 3}, {"splits": kind.given(kind.keys[2:3])}):
                keys = kind.given(kind.keys)
                with self.subTest(kind.name), crackd.Table.from_arrays(
                    keys, kind.payloads, **kind.options, **options
                ) as table:
                    model = Model()
                    model.put(table.row_numbers, kind.keys, kind.payloads)
                    self.expect(table, model, kind)
                    self.assertEqual(sum(it.pending_in for it in table.layout().parts), 0)


@wants_program
class OverTcpKinds(OfKinds, OverTcp, unittest.TestCase):
    """Over TCP."""


@wants_library
@wants_cluster
@wants_numpy
class ClusterKinds(OfKinds, unittest.TestCase):
    """On a cluster. Each call costs some milliseconds, so ranges are asked by many, and of fewer kinds."""

    kinds = [it for it in KINDS if it.name in ON_CLUSTERS]
    test_counts_and_sums_of_each_range = test_what_is_no_key = test_what_is_no_end = None

    @classmethod
    def setUpClass(cls):
        cls.stack = contextlib.ExitStack()
        cls.client = cls.stack.enter_context(local(WORKERS))

    @classmethod
    def tearDownClass(cls):
        cls.stack.close()

    @contextlib.contextmanager
    def table(self, sample=(), rows=0, partitions=None, **options):
        with cluster.Table(self.client, sample, rows, shards=partitions, **options) as table:
            yield table

    def test_saves(self):
        for kind in self.kinds:
            with tempfile.TemporaryDirectory() as room, self.subTest(kind.name):
                folder, steps = pathlib.Path(room) / "saved", Steps()
                splits, wanted = kind.given(kind.keys[1:4:2]), sorted(zip(map(value, kind.keys), kind.payloads))
                with self.table(splits=splits, key_type=kind.key_type, **kind.options) as table:
                    table.insert_many(kind.given(kind.keys), kind.payloads)
                    with steps.written():
                        manifest = table.save(folder)
                found = manifest["counts"], sum(manifest["sums"])
                self.assertEqual(found, ([1, 2, len(wanted) - 3], sum(kind.payloads)))
                part, named, last = steps.steps
                self.assertEqual((part[0], named, last), ("sync", ("replace", "manifest.json"), ("sync", "saved")))
                self.assertTrue(part[1].startswith("manifest.json."))
                with mock.patch.object(cluster, "ROWS_A_TASK", 2):
                    for shards in (1, 2):
                        with cluster.Table.restore(self.client, folder, shards=shards) as table:
                            found = selected(kind, table)
                            self.assertEqual((table.shards, sorted(found.values())), (shards, wanted))
                            found = table.key_type, table.key_decimals, table.zone
                            self.assertEqual(found, (kind.key_type, kind.decimals, kind.zone))
                            self.assertEqual(str(table.select(raw=True).keys.dtype), kind.key_type)

    def test_partitions_that_a_shard_does_not_have(self):
        with self.table(splits=[100], key_type="int64") as table:
            rows = numbers(table.insert_many([1, 2, 200, 201], [1, 2, 4, 8]))
            for wrong in (rows[0] + (1 << 48), rows[2] + (1 << 48), 2 << 54, 1023 << 54, rows[0] + (63 << 48)):
                for call, *columns in [(table.delete_many,), (table.update_many, [1, 1, 200, 2], [9] * 4)]:
                    given = [rows[0] + 99, wrong, rows[2], rows[1]]
                    with self.assertRaises(crackd.NoSuchPartition) as caught:
                        call(given, *columns)
                    self.assertEqual((caught.exception.done, caught.exception.later), (1, 0))
            self.assertEqual((table.count(), table.sum()), (4, 15))


if __name__ == "__main__":
    unittest.main()
