"""More rows, and more commands, than a partition once had by default, in one partition."""

import unittest

from ways import crackd, np, wants_library, wants_numpy, wants_program

ROWS = 3_000_000
# one more than the greatest limit of a history
COMMANDS = 1_000_001


@wants_library
@wants_numpy
class ManyRows(unittest.TestCase):
    def test_a_partition_of_rising_keys_goes_on(self):
        keys = np.arange(ROWS, dtype=np.int64) * 10
        with crackd.Table.from_arrays(keys, keys, partitions=1, shards=1) as table:
            self.assertEqual((table.partitions, table.count(), len(table)), (1, ROWS, ROWS))
            low, high = 10_000_005, 10_000_095
            self.assertEqual((table.count(low, high), table.sum(low, high)), (9, 90_000_450))
            self.assertEqual(table.sum(), 10 * (ROWS * (ROWS - 1) // 2))
            row = table.insert(int(keys[-1]) + 10, 7)
            self.assertTrue(table.delete(row))
            self.assertTrue(table.delete(int(table.row_numbers[-1])))
            self.assertEqual((table.count(), table.count(keys[-1], None)), (ROWS - 1, 0))

    def test_the_greatest_limit_of_cells(self):
        with crackd.Table(cells=16_777_215) as table:
            self.assertEqual(table.count(), 0)
        self.assertRaises(crackd.Refused, crackd.Table, cells=16_777_216)

    @wants_program
    def test_a_history_of_a_server_has_no_limit_by_default(self):
        with crackd.serve(workers=1) as served, served.connect() as table:
            table.insert_many(np.arange(COMMANDS), np.arange(COMMANDS))
            self.assertEqual((table.checkpoint(), table.count()), (COMMANDS, COMMANDS))


if __name__ == "__main__":
    unittest.main()
