"""The same cases without numpy, in a separate interpreter that doesn't find it."""

import array
import datetime
import os
import re
import subprocess
import sys
import tempfile
import unittest

from ways import InProcess, OverTcp, crackd, has_program, np, wants_library

SECONDS = 600
# the cases that don't need numpy and take little time
CASES = ["test_keys.InProcessArguments", "test_keys.Kinds", "test_keys.Options", "test_ends.InProcessNumbers"]
CASES += ["test_kinds.InProcessKinds", "test_table.InProcessCases", "test_calls.Between", "test_layouts"]
CASES += ["test_questions.InProcessQuestions", "test_questions.InProcessFiles", "test_decimals.InProcessDecimals"]
CASES += ["test_decimals.Arrays"]
CASES += ["test_files.Files", "test_files.LoadsInProcess", "test_lines.Lines", "test_lines.Fields"]
CASES += ["test_lines.IntoATableHere", "test_errors.Kinds", "test_errors.InProcessRaised", "test_without_numpy.Here"]
OF_A_SERVER = ["test_keys.OverTcpArguments", "test_questions.OverTcpQuestions", "test_blocks.Refusals"]
OF_A_SERVER += ["test_blocks.Answers", "test_files.LoadsOverTcp", "test_without_numpy.OnAServer"]
OF_A_SERVER += ["test_decimals.OverTcpDecimals"]
HIDDEN = "import sys, unittest; sys.modules.update(dict.fromkeys(('numpy', 'pandas'))); unittest.main(None)"


@unittest.skipIf(np is None, "numpy isn't installed, so all tests run without it")
@wants_library
class Cases(unittest.TestCase):
    def run_without(self, cases, least):
        """Runs these cases. None may fail, and at least so many must run."""
        here = os.path.dirname(os.path.abspath(__file__))
        ran = subprocess.run(
            [sys.executable, "-c", HIDDEN, *cases], cwd=here, capture_output=True, text=True, timeout=SECONDS
        )
        count, skipped = (re.search(form, ran.stderr) for form in (r"Ran (\d+) tests", r"skipped=(\d+)"))
        self.assertEqual(ran.returncode, 0, ran.stderr[-5000:])
        self.assertGreaterEqual(int(count[1]) - (int(skipped[1]) if skipped else 0), least)

    def test_in_this_process(self):
        self.run_without(CASES, 100)

    @unittest.skipUnless(has_program(), "the program crackd isn't built")
    def test_over_tcp(self):
        self.run_without(OF_A_SERVER, 30)


class Returned:
    """The types of what is returned: arrays of the module `array`, and lists."""

    TYPES = {"uint64": "Q", "int64": "q", "float64": "d"}

    def arrays(self, *found):
        """The types and the items of arrays."""
        self.assertEqual({type(it) for it in found}, {array.array})
        return [(it.typecode, it.tolist()) for it in found]

    def test_arrays(self):
        for key_type, code in self.TYPES.items():
            with self.subTest(key_type), self.table(key_type=key_type) as table:
                rows = table.insert_many([3, 1, 2], [30, -10, 20])
                self.assertEqual(self.arrays(rows), [("Q", [0, 1, 2])])
                keys = [3, 1, 2]
                self.assertEqual(self.arrays(*table.select()), [("Q", [0, 1, 2]), (code, keys), ("q", [30, -10, 20])])
                self.assertEqual(self.arrays(*table.select(9)), [("Q", []), (code, []), ("q", [])])
                self.assertEqual(list(table.count_many([1, 2, 3], [3, 2, None])), [2, 0, 1])
                self.assertEqual(table.sum_many([3, 1, None], [3, 3, None]), [0, 10, 40])
                self.assertEqual(table.sum_by([1, 2, 3, None]), [-10, 20, 30])
                self.assertEqual(list(table.count_by([None, 2, 2, 9])), [1, 0, 2])
                self.assertEqual([list(it.rows) for it in table.select_chunks(size=2)], [[0, 1], [2]])
                self.assertEqual(table.delete_many([rows[0], 5]), [True, False])
                self.assertEqual(table.update_many([rows[0], rows[1]], [1, 1], [5, 6]), [False, True])
                self.assertEqual((table.delete_range(2), table.sum(), len(table)), (1, 6, 1))
                self.assertEqual(self.arrays(table.insert_many([], [])), [("Q", [])])

    def test_rows_of_several_partitions(self):
        with self.table(splits=[10, 20]) as table:
            rows = table.insert_many([25, 5, 15, 6, 26], [1, 2, 4, 8, 16])
            self.assertEqual(list(rows), [2 << 48, 0, 1 << 48, 1, 2 << 48 | 1])
            self.assertEqual(list(table.select().rows), sorted(rows))
            self.assertEqual(list(table.select().keys), [5, 6, 15, 25, 26])
            self.assertEqual([table.get(it) for it in rows], [(25, 1), (5, 2), (15, 4), (6, 8), (26, 16)])
            self.assertIsNone(table.get(2 << 48 | 2))
            self.assertEqual(table.delete_many([rows[4], rows[2], rows[2]]), [True, True, False])
            self.assertEqual((table.sum(), list(table.select().rows)), (11, [0, 1, 2 << 48]))
            self.assertTrue(table.update(rows[3], 7, 100))
            with self.assertRaises(crackd.WrongPartition) as caught:
                table.update_many([rows[1], rows[3], rows[0]], [5, 15, 25], [3, 3, 3])
            # over TCP the row after it is updated as well
            self.assertEqual((caught.exception.done, table.sum()), (1, 104 + 2 * caught.exception.later))
            self.assertEqual(table.move(rows[0], 19), 1 << 48 | 1)


@unittest.skipUnless(np is None, "numpy is installed")
class Here(Returned, InProcess, unittest.TestCase):
    """In this process."""

    def test_what_needs_numpy_says_so(self):
        with self.assertRaisesRegex(TypeError, "^keys of datetime64.s. are not supported without numpy$"):
            crackd.Table(key_type="datetime64[s]")
        with self.assertRaisesRegex(TypeError, "^keys of text are not supported$"):
            crackd.Table(key_type="text")
        self.assertRaisesRegex(TypeError, "date", crackd.Table, [datetime.date(2020, 1, 1)])
        self.assertRaisesRegex(ValueError, "need numpy", crackd.Table, [1, 2, 3], shards=2)
        with self.table() as table, tempfile.TemporaryDirectory() as room:
            self.assertRaisesRegex(ImportError, "numpy", table.save, f"{room}/rows.npy")
            self.assertRaisesRegex(ImportError, "numpy", crackd.Table.load, f"{room}/rows.npy")
            self.assertEqual(os.listdir(room), [])
        self.assertRaises(TypeError, crackd.Table.from_pandas, object())
        self.assertRaisesRegex(ImportError, "numpy", crackd.Table.from_arrow, object())

    def test_tables_of_arrays(self):
        given = [([5, 1, 3], 1), ((5, 1, 3), 1), (range(5, -1, -2), 2), (array.array("b", [5, 1, 3]), 1)]
        for keys, below in [*given, (iter([5, 1, 3]), 1)]:
            with crackd.Table.from_arrays(keys) as table:
                self.assertEqual((table.shards, list(table.row_numbers)), (1, [0, 1, 2]))
                self.assertEqual((table.sum(5), table.sum(), table.sum(None, 3)), (0, 3, below))

    def test_the_limits_of_each_type(self):
        for key_type, least, greatest in [("int64", -(2**63), 2**63 - 1), ("uint64", 0, 2**64 - 1)]:
            with self.table(key_type=key_type) as table:
                table.insert_many([least, greatest], [-(2**63), 2**63 - 1])
                self.assertEqual(list(table.select().keys), [least, greatest])
                self.assertEqual(table.sum_many([None, least, greatest], [greatest, None, None])[:2], [-(2**63), -1])
                for wrong in (least - 1, greatest + 1):
                    with self.assertRaisesRegex(OverflowError, "64 bits"):
                        table.insert_many([wrong], [1])
                for wrong in (-(2**63) - 1, 2**63):
                    self.assertRaisesRegex(OverflowError, "signed integers", table.insert_many, [1], [wrong])
                for wrong in (-1, 2**64):
                    self.assertRaisesRegex(OverflowError, "unsigned integers", table.delete_many, [wrong])

    def test_copies(self):
        with self.table() as table:
            rows = table.insert_many([1, 2, 3], [1, 2, 4])
            table.delete(rows[0])
            copied = table.rebalanced()
            with copied.table as other:
                self.assertEqual((list(copied.old), other.sum()), ([1, 2], 6))
                self.assertEqual([other.get(it) for it in copied.new_of([2, 1, 2])], [(3, 4), (2, 2), (3, 4)])
                self.assertRaises(KeyError, copied.new_of, [0])


@unittest.skipUnless(np is None, "numpy is installed")
class OnAServer(Returned, OverTcp, unittest.TestCase):
    """Over TCP."""


if __name__ == "__main__":
    unittest.main()
