"""Arrays of each shape, and tables with each number of shards, compared with plain lists."""

import array
import contextlib
import itertools
import random
import unittest

from ways import InProcess, InShards, OverTcp, crackd, np, wants_library, wants_numpy, wants_program, wants_shards

from crackd import routing


def numbers(it):
    return [int(each) for each in it]


def shapes(values, dtype):
    """The same integers in arrays that lie in memory in different ways, and in other sequences."""
    plain = np.array(values, dtype)
    wide, two = np.zeros(3 * len(plain) + 1, dtype), np.zeros((len(plain), 2), dtype)
    wide[1::3], two[:, 1] = plain, plain
    frozen, odd = plain.copy(), np.zeros(len(plain) * plain.itemsize + 1, np.uint8)
    frozen.flags.writeable = False
    odd[1:] = plain.view(np.uint8)
    made = np.zeros(len(plain), [("a", "u1"), ("b", dtype)])
    made["b"] = plain
    return {
        "whole": plain,
        "each third": wide[1::3],
        "turned": plain[::-1].copy()[::-1],
        "a column": two[:, 1],
        "read only": frozen,
        "other bytes": plain.astype(plain.dtype.newbyteorder()),
        "odd address": odd[1:].view(dtype),
        "a field": made["b"],
        "masked, without gaps": np.ma.masked_array(wide[1::3], np.zeros(len(plain), bool)),
        "objects": np.array(list(values), object),
        "numbers of numpy": list(plain),
        "a tuple": tuple(values),
        "an array of Python": array.array(plain.dtype.char, list(values)),
        "a memoryview": memoryview(plain),
    }


@wants_numpy
class Shapes:
    """Each argument of each call for many, in each shape."""

    KEYS, PAYLOADS = [40, 7, 150, 250, 7, 199, 0], [1, -(2**63), 5, 2**63 - 1, -2, 3, 4]

    def test_keys_and_payloads(self):
        for (name, keys), unsigned in itertools.product(shapes(self.KEYS, "int64").items(), (False, True)):
            keys = shapes(self.KEYS, "uint64")[name] if unsigned else keys
            payloads = shapes(self.PAYLOADS, "int64")[name]
            with self.subTest(name, unsigned=unsigned), self.table(splits=[100, 200], key_type="int64") as table:
                model = dict(zip(self.KEYS, self.PAYLOADS)) | {7: sum(self.PAYLOADS[1:5:3])}
                for given in [(keys, self.PAYLOADS), (self.KEYS, payloads), (keys, payloads)]:
                    rows = table.insert_many(*given)
                    self.assertEqual(table.sum_many(list(model), [it + 1 for it in model]), list(model.values()))
                    self.assertTrue(all(table.update_many(rows, given[0], [9] * 7)))
                    self.assertTrue(all(table.update_many(rows, self.KEYS, given[1])))
                    self.assertEqual(self.listed(table), dict(zip(numbers(rows), zip(self.KEYS, self.PAYLOADS))))
                    self.assertEqual(table.delete_range(), 7)

    def listed(self, table):
        """All rows by their numbers."""
        rows, keys, payloads = (it.tolist() for it in table.select())
        return dict(zip(rows, zip(keys, payloads)))

    def test_row_numbers(self):
        for name in shapes([0], "uint64"):
            with self.subTest(name), self.table(splits=[100, 200], key_type="int64") as table:
                rows = numbers(table.insert_many(self.KEYS, [1] * 7))
                given = shapes(rows[1::2], "uint64")[name]
                self.assertEqual(list(table.update_many(given, self.KEYS[1::2], [5, 6, 7])), [True] * 3)
                self.assertEqual([table.get(it).payload for it in rows], [1, 5, 1, 6, 1, 7, 1])
                found = table.rebalanced(crackd.Table(key_type="int64"))
                with found.table as other:
                    self.assertEqual([other.get(it).payload for it in found.new_of(given)], [5, 6, 7])
                self.assertEqual(list(table.delete_many(given)), [True] * 3)
                self.assertEqual([table.get(it) is None for it in rows], [False, True] * 3 + [False])

    def test_ends_and_edges(self):
        with self.table(splits=[100, 200], key_type="int64") as table:
            table.insert_many(self.KEYS, self.PAYLOADS)
            edges = [0, 7, 8, 40, 150, 199, 251]
            pairs = list(zip(edges, edges[1:]))
            wanted = [[pay for key, pay in zip(self.KEYS, self.PAYLOADS) if low <= key < high] for low, high in pairs]
            counts, sums = list(map(len, wanted)), list(map(sum, wanted))
            for dtype in ("int64", "uint64"):
                lows, highs = shapes(edges[:-1], dtype), shapes(edges[1:], dtype)
                for name, it in shapes(edges, dtype).items():
                    with self.subTest(name, dtype=dtype):
                        self.assertEqual((numbers(table.count_by(it)), numbers(table.sum_by(it))), (counts, sums))
                        for ends in [(lows[name], edges[1:]), (edges[:-1], highs[name]), (lows[name], highs[name])]:
                            found = numbers(table.count_many(*ends)), table.sum_many(*ends)
                            self.assertEqual(found, (counts, sums))

    def test_floats_and_dates(self):
        for key_type in ("float64", "datetime64[s]", "datetime64[25s]"):
            keys = np.arange(-3, 4).astype(key_type)
            wide = np.zeros(14, key_type)
            wide[::2] = keys
            frozen = keys.copy()
            frozen.flags.writeable = False
            other = keys.astype(keys.dtype.newbyteorder())
            for given in (wide[::2], keys[::-1].copy()[::-1], frozen, other, list(keys), np.array(list(keys), object)):
                with self.subTest(key_type), self.table(splits=keys[2:5:2], key_type=key_type) as table:
                    rows = table.insert_many(given, range(7))
                    self.assertEqual([table.get(it) for it in rows], [(it, at) for at, it in enumerate(keys)])
                    self.assertEqual(numbers(table.count_many(given, None)), [7, 6, 5, 4, 3, 2, 1])
                    self.assertEqual(table.sum_many(None, given), [0, 0, 1, 3, 6, 10, 15])
                    self.assertEqual(numbers(table.count_by(given)), [1] * 6)
                    self.assertTrue(all(table.update_many(rows, given, [1] * 7)))
                    self.assertEqual(numbers(table.sum_by(given)), [1] * 6)
                with crackd.Table.from_arrays(given, np.arange(14)[::2], partitions=2) as table:
                    found = [table.get(it) for it in table.row_numbers]
                    self.assertEqual((found, table.key_type), ([(it, 2 * at) for at, it in enumerate(keys)], key_type))

    def test_what_is_given_stays_as_it_was(self):
        with self.table(splits=[100, 200], key_type="int64") as table:
            for dtype in ("int64", "uint64"):
                keys, payloads = np.array(self.KEYS, dtype), np.array([1, 2, 3, 4, 5, 6, 7], dtype)
                rows = table.insert_many(keys, payloads)
                kept, ends = rows.copy(), np.sort(keys)
                table.update_many(rows, keys, payloads), table.count_many(keys, keys + keys.dtype.type(1))
                table.sum_many(None, keys), table.count_by(ends), table.delete_many(rows)
                self.assertEqual((keys.tolist(), payloads.tolist()), (self.KEYS, [1, 2, 3, 4, 5, 6, 7]))
                self.assertEqual((rows.tolist(), ends.tolist()), (kept.tolist(), sorted(self.KEYS)))

    def test_what_is_returned_is_the_callers(self):
        with self.table(splits=[100, 200], key_type="int64") as table:
            rows = table.insert_many(self.KEYS, self.PAYLOADS)
            for call in (table.select, lambda: table.select(0, 100), lambda: table.select(7, 7)):
                wanted = [it.tolist() for it in call()]
                for it in call():
                    it[:] = 99
                self.assertEqual([it.tolist() for it in call()], wanted)
            more = table.insert_many([5, 105, 205], [1, 1, 1])
            kept = numbers(rows)
            more[:] = 0
            for found in (table.count_many([0, 0], [50, 300]), table.delete_many([5 << 40]), table.count_by([0, 9])):
                found[:] = 0
            self.assertEqual((numbers(rows), numbers(table.count_many([0, 0], [50, 300]))), (kept, [5, 10]))


@wants_library
class InProcessShapes(Shapes, InProcess, unittest.TestCase):
    """In this process."""


@wants_shards
class InShardsShapes(Shapes, InShards, unittest.TestCase):
    """In several shards, side by side."""


@wants_shards
class FewItemsShapes(Shapes, InShards, unittest.TestCase):
    """In several shards, item by item."""

    AT_ONCE = False


@wants_library
@wants_program
class OverTcpShapes(Shapes, OverTcp, unittest.TestCase):
    """Over TCP."""


@wants_shards
class ManyShards(unittest.TestCase):
    """Tables with more and more shards, against plain lists."""

    COUNTS, opened = (2, 15, 16, 17, 18, 40), crackd.Table

    def filled(self, shards, rows=500):
        """A table of this many shards with ten keys each, and its rows as numbers, keys and payloads."""
        drawn = random.Random(shards)
        keys = [drawn.randrange(-5, 10 * shards + 5) for _ in range(rows - shards)] + list(range(0, 10 * shards, 10))
        payloads = [drawn.randrange(-(2**63), 2**63) for _ in keys]
        table = self.opened(splits=range(10, 10 * shards, 10), shards=shards, key_type="int64")
        return table, list(zip(numbers(table.insert_many(keys, payloads)), keys, payloads)), drawn

    def ranges(self, shards, drawn, count):
        """Ranges of one shard, of neighbours and of many, empty ones, and those without ends."""
        bounds = range(0, 10 * shards + 1)
        pairs = [tuple(sorted(drawn.choices(bounds, k=2))) for _ in range(count - 8)]
        pairs += [(None, None), (10, 20), (9, 21), (10, 10), (None, 10), (10 * shards - 10, None), (0, 10 * shards)]
        return [*pairs, (5, 6)]

    def test_queries(self):
        for shards in self.COUNTS:
            table, rows, drawn = self.filled(shards)
            with self.subTest(shards=shards), table:
                for count in (10, 300):
                    pairs = self.ranges(shards, drawn, count)
                    inside = [
                        [it for it in rows if (low is None or low <= it[1]) and (high is None or it[1] < high)]
                        for low, high in pairs
                    ]
                    counts, sums = list(map(len, inside)), [sum(it[2] for it in found) for found in inside]
                    self.assertEqual(numbers(table.count_many(*zip(*pairs))), counts)
                    self.assertEqual(table.sum_many(*zip(*pairs)), sums)
                    if count == 10:
                        self.each(table, pairs, inside, counts, sums)

    def each(self, table, pairs, inside, counts, sums):
        self.assertEqual([table.count(*it) for it in pairs], counts)
        self.assertEqual([table.sum(*it) for it in pairs], sums)
        for pair, wanted in zip(pairs, inside):
            found = table.select(*pair)
            self.assertEqual(list(zip(*(it.tolist() for it in found))), sorted(wanted))
            chunks = [it.tolist() for chunk in table.select_chunks(*pair, size=7) for it in chunk.rows]
            self.assertEqual(chunks, sorted(it[0] for it in wanted))

    def test_single_rows(self):
        for shards in self.COUNTS:
            table, rows, drawn = self.filled(shards, 120)
            with self.subTest(shards=shards), table:
                left = {row: (key, pay) for row, key, pay in rows}
                for row, key, _ in rows[-shards:]:
                    self.assertEqual((row >> routing.SHARD_SHIFT, table.get(row)), (key // 10, left[row]))
                    self.assertTrue(table.update(row, key + 3, key))
                    left[row] = key + 3, key
                for row in drawn.sample(sorted(left), 20):
                    key = drawn.randrange(10 * shards)
                    new = table.move(row, key)
                    self.assertEqual(new >> routing.SHARD_SHIFT, key // 10)
                    left[new] = key, left.pop(row)[1]
                for row in drawn.sample(sorted(left), 20):
                    self.assertEqual((table.delete(row), table.delete(row)), (True, False))
                    del left[row]
                found = table.select()
                rows, keys, payloads = (it.tolist() for it in found)
                self.assertEqual(dict(zip(rows, zip(keys, payloads))), left)
                self.assertEqual([it.rows for it in table.layout().parts], [
                    sum(row >> routing.SHARD_SHIFT == it for row in left) for it in range(shards)
                ])
                calls = table.get, table.delete, lambda row: table.move(row, 5), lambda row: table.update(row, 5, 5)
                for call in calls:
                    for row in (shards << routing.SHARD_SHIFT, 1 << 48, (shards - 1) << routing.SHARD_SHIFT | 1 << 48):
                        self.assertRaises(crackd.NoSuchPartition, call, row)

    def test_as_many_shards_as_there_may_be(self):
        with contextlib.closing(crackd.Table(splits=range(1, 1024), shards=1024, key_type="int64")) as table:
            self.assertEqual((table.shards, table.partitions), (1024, 1024))
            row, other, third = (table.insert(it, it) for it in (1023, 0, 512))
            self.assertEqual([it >> routing.SHARD_SHIFT for it in (row, other, third)], [1023, 0, 512])
            self.assertEqual(table.select().rows.tolist(), [other, third, row])
            self.assertEqual(list(table.update_many([row, other] * 20, [1023, 0] * 20, range(40))), [True] * 40)
            self.assertEqual((table.get(row), table.get(other), table.sum(512)), ((1023, 38), (0, 39), 550))
            self.assertEqual(list(table.delete_many([row, third, row])), [True, True, False])
            self.assertEqual((len(table), table.delete(other)), (1, True))
            self.assertRaises(crackd.NoSuchPartition, table.delete, 1 << 48)
        for shards in (0, -1, 1025):
            self.assertRaises(ValueError, crackd.Table, splits=range(1, 2000), shards=shards)

    def test_many_rows_of_many_shards(self):
        """Rows of shards whose numbers differ by 256 and more, in one call: each goes to the shard of its key."""
        for shards in (257, 1024):
            with contextlib.closing(crackd.Table(splits=range(1, shards), shards=shards, key_type="int64")) as table:
                keys = [it * 389 % shards for it in range(2 * shards)]
                rows = numbers(table.insert_many(keys, range(2 * shards)))
                self.assertEqual([it >> routing.SHARD_SHIFT for it in rows], keys)
                self.assertEqual(numbers(table.count_many(range(shards), range(1, shards + 1))), [2] * shards)
                payloads = [[at for at, it in enumerate(keys) if it == key] for key in range(shards)]
                self.assertEqual(table.sum_many(range(shards), range(1, shards + 1)), [sum(it) for it in payloads])
                self.assertEqual(numbers(table.select().payloads), [each for it in payloads for each in it])
                self.assertEqual(numbers(table.update_many(rows, keys, [-it for it in keys])), [1] * len(rows))
                self.assertEqual(table.sum(), -sum(keys))
                # the rows with odd keys
                gone = [row for row, key in zip(rows, keys) if key % 2]
                self.assertEqual(numbers(table.delete_many(gone)), [1] * len(gone))
                self.assertEqual(numbers(table.count_by(range(shards + 1))), [2 - it % 2 * 2 for it in range(shards)])

    def test_partitions_that_are_not_the_same_in_each_shard(self):
        for partitions, shards in [(7, 3), (8, 3), (5, 4), (64, 63), (65, 2), (130, 3)]:
            with self.subTest(partitions=partitions, shards=shards):
                splits = range(1, partitions)
                with self.opened(splits=splits, shards=shards, key_type="int64") as table:
                    each = [len(it.cuts) + 1 for it in table._shards]
                    self.assertEqual((sum(each), max(each) - min(each) <= 1), (partitions, True))
                    rows = numbers(table.insert_many(range(partitions), range(partitions)))
                    # the shard of each key, and its partition in that shard
                    wanted = [(it, part) for it, size in enumerate(each) for part in range(size)]
                    self.assertEqual([(it >> 54, it >> 48 & 63) for it in rows], wanted)
                    self.assertEqual([it.rows for it in table.layout().parts], [1] * partitions)
                    for row, key in zip(rows, range(partitions)):
                        self.assertEqual(table.get(row), (key, key))
                    for shard, size in enumerate(each):
                        if size < 64:
                            nowhere = shard << 54 | size << 48
                            self.assertRaises(crackd.NoSuchPartition, table.delete, nowhere)
                            self.assertRaises(crackd.NoSuchPartition, table.delete_many, [nowhere] * 40)


if __name__ == "__main__":
    unittest.main()
