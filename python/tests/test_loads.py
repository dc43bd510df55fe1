"""Tables made of arrays have what `insert_many` gives for the same rows, whichever rows are refused."""

import ctypes
import itertools
import random
import unittest
from unittest import mock

from test_calls import standing_in
from test_table import numbers
from ways import InShards, crackd, np, wants_shards

from crackd import local, placed, progress

KEYS = 1000


def layouts(table):
    """How each partition's rows are laid out."""
    return [(it.rows, it.column, it.pending_in, it.cells, it.free, it.pieces) for it in table.layout().parts]


@wants_shards
class Loads(InShards, unittest.TestCase):
    """Of one shard and of several, which also answer side by side for few rows."""

    def setUp(self):
        self.drawn = random.Random(7)
        at_once = mock.patch.multiple(crackd.table, LONG=self.ALWAYS, MANY_ROWS=0, FEW_ITEMS=-1)
        tables = mock.patch.object(crackd.routing, "FEW_KEYS", 20)
        for it in (at_once, tables):
            it.start()
            self.addCleanup(it.stop)

    def tables(self):
        """Options of tables with one partition, with a few, with some that get no row, and with many."""
        splits = [[], [500], [10, 500, 990], [-1, 300, 301, KEYS + 5], list(range(1, 63))]
        for shards, cuts in itertools.product((1, 3), splits):
            if len(cuts) >= shards - 1:
                yield {"shards": shards, "splits": cuts, "key_type": "int64"}

    def rows(self, count):
        return np.array([self.drawn.randrange(KEYS) for _ in range(count)]), np.arange(count) - 3

    def test_rows_are_those_of_insert_many(self):
        for options, count in itertools.product(self.tables(), (0, 1, 2, 70, 700)):
            keys, payloads = self.rows(count)
            with self.subTest(count=count, **options), crackd.Table(**options) as table:
                wanted = table.insert_many(keys, payloads)
                table.settle()
                for how in ({}, {"progress": lambda done, rows: None}):
                    with mock.patch.object(progress, "STEP", 100), mock.patch.object(local, "ROWS_AT_ONCE", 30):
                        found = crackd.Table.from_arrays(keys, payloads, **options, **how)
                    with found:
                        self.assertEqual(numbers(found.row_numbers), numbers(wanted))
                        self.assertEqual(layouts(found), layouts(table))
                        for got, it in zip(found.select(), table.select()):
                            self.assertEqual(numbers(got), numbers(it))

    def test_refusals_are_those_of_insert_many(self):
        kinds = set()
        for options, cells in itertools.product(self.tables(), (1, 5, 30, 200)):
            keys, payloads = self.rows(400)
            with self.subTest(cells=cells, **options):
                with crackd.Table(**options, cells=cells) as table:
                    wanted = self.told(table.insert_many, keys, payloads)
                for rows in (7, 150, 1000):
                    with mock.patch.object(local, "ROWS_AT_ONCE", rows):
                        found = self.told(crackd.Table.from_arrays, keys, payloads, **options, cells=cells)
                    self.assertEqual(found, wanted)
                with crackd.Table(**options, cells=cells) as table, mock.patch.object(progress, "STEP", 70):
                    how = {"progress": lambda done, rows: None}
                    wanted = self.told(table.insert_rows, keys, payloads, **how)
                    found = self.told(crackd.Table.from_arrays, keys, payloads, **options, cells=cells, **how)
                self.assertEqual(found, wanted)
                kinds.add(wanted and (wanted[0], wanted[2] > 0))
        # nothing is refused; rows are refused, and no later rows are done; rows are refused, and later rows are done
        self.assertEqual(kinds, {None, (9, False), (9, True)})

    def told(self, call, *words, **options):
        """What an error says, if there is one."""
        try:
            made = call(*words, **options)
        except crackd.Refused as error:
            return error.code, error.done, error.later, numbers(error.answers)
        if isinstance(made, crackd.Table):
            made.close()
        return None

    def test_of_several_refusals_the_earliest_row_s_is_raised(self):
        codes = [9, 8]

        class Refusing:
            cuts = [10]

            def place_many(self, keys, payloads, placed):
                raise crackd.errors.refused(codes.pop(0), 0)

        # the second row is refused first, since its partition is the first
        keys = np.array([20, 5], np.uint64)
        with self.assertRaises(crackd.Refused) as caught:
            local.Load(Refusing(), 2).insert(keys, keys.view(np.int64), placed.Placed(2))
        self.assertEqual((caught.exception.code, caught.exception.done, codes), (8, 0, []))

    def test_the_library_gets_one_partition_after_the_other(self):
        calls = []

        def call(real, *words):
            shard, given = words[0]._obj.at, (words[1], words[2])
            calls.append((shard, np.ctypeslib.as_array((ctypes.c_uint64 * given[1]).from_address(given[0])).copy()))
            return real(*words)

        for shards in (1, 3):
            calls.clear()
            keys, payloads = self.rows(500)
            options = {"splits": [200, 400, 600, 800], "shards": shards}
            with standing_in(insert_many=call):
                crackd.Table.from_arrays(keys, payloads, **options).close()
            self.assertEqual((len(calls), len({shard for shard, _ in calls})), (shards, shards))
            for _, given in calls:
                parts = (given - np.uint64(2**63)) // np.uint64(200)
                self.assertTrue((np.diff(parts.astype(np.int64)) >= 0).all())


if __name__ == "__main__":
    unittest.main()
