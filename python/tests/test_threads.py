"""Tables that threads share, and what a table does besides its calls."""

import copy
import gc
import os
import pickle
import threading
import time
import unittest

from test_calls import others_run_during
from ways import InProcess, InShards, OverTcp, crackd, wants_library, wants_program, wants_shards

THREADS, STEPS = 8, 100


class Sharing:
    """A table that several threads use at once, however it is reached."""

    def test_threads_share_a_table(self):
        with self.table([0, 2**62], rows=10**6) as table:
            faults = []

            def work(at):
                try:
                    for it in range(STEPS):
                        row = table.insert(at * 1000 + it, 1)
                        if it % 10 == 0:
                            table.insert_many([at * 1000 + it] * 3, [1, 1, 1])
                            faults.append("count") if table.count(at * 1000, at * 1000 + 1000) != it + 1 + 3 * (
                                it // 10 + 1
                            ) - it // 10 else None
                            table.delete(row)
                except Exception as error:
                    faults.append(error)

            threads = [threading.Thread(target=work, args=(at,)) for at in range(THREADS)]
            for it in threads:
                it.start()
            for it in threads:
                it.join()
            self.assertEqual(faults, [])
            self.assertEqual((table.count(), table.sum()), (THREADS * STEPS * 12 // 10, THREADS * STEPS * 12 // 10))

    def test_a_table_is_closed_while_others_ask(self):
        with self.table() as table:
            table.insert_many(range(100), range(100))
            ends = []

            def work():
                try:
                    while True:
                        ends.append(table.sum() == 4950)
                except crackd.Error as error:
                    ends.append(type(error))

            threads = [threading.Thread(target=work) for _ in range(4)]
            for it in threads:
                it.start()
            time.sleep(0.05)
            table.close()
            for it in threads:
                it.join()
            self.assertEqual((ends.count(crackd.Closed), ends.count(False)), (4, 0))

    def test_a_table_is_not_copied(self):
        with self.table() as table:
            for call in (copy.copy, copy.deepcopy, pickle.dumps):
                with self.subTest(call):
                    self.assertRaises((TypeError, ValueError), call, table)


@wants_program
class SharingOverTcp(Sharing, OverTcp, unittest.TestCase):
    """Over TCP."""


@wants_shards
class SharingInShards(Sharing, InShards, unittest.TestCase):
    """In the process, in several shards."""


@wants_library
class SharingInProcess(Sharing, InProcess, unittest.TestCase):
    """In the process."""

    def test_other_threads_run_meanwhile(self):
        keys = [it * 7919 % 100_000 for it in range(100_000)]
        with crackd.Table() as table:
            self.assertTrue(others_run_during("insert_many", lambda: table.insert_many(keys, keys)))
            self.assertTrue(others_run_during("delete_many", lambda: table.delete_many(table.insert_many(keys, keys))))
            self.assertTrue(others_run_during("select", table.select))

    def test_single_updates_and_deletes_take_about_as_long_as_inserts(self):
        def seconds(call, words):
            begun = time.perf_counter()
            for each in words:
                call(*each)
            return time.perf_counter() - begun

        def times():
            with crackd.Table() as table:
                rows = [(table.insert(key, 1),) for key in keys]
                inserts = seconds(table.insert, [(key, 1) for key in keys])
                updates = seconds(table.update, [(row, key, 2) for key, (row,) in zip(keys, rows)])
                return updates / inserts, seconds(table.delete, rows) / inserts

        keys = range(5000)
        # on a quiet machine each takes 0.7 to 1.1 times as long
        least = [min(it) for it in zip(*[times() for _ in range(7)])]
        self.assertLess(max(least), 2)

    def test_rows_that_come_and_go_fill_no_partition(self):
        count = 600_000
        with crackd.Table.from_arrays(range(count), partitions=1) as table:
            self.assertTrue(all(table.update_many(table.row_numbers, range(count), range(1, count + 1))))
            self.assertEqual((table.count(), table.sum()), (count, count * (count + 1) // 2))
            self.assertTrue(all(table.delete_many(table.row_numbers)))
            table.insert_many(range(count), range(count))
            self.assertEqual((table.count(), table.sum(0, 3)), (count, 3))

    def test_memory_is_given_back(self):
        def resident():
            with open("/proc/self/statm", encoding="ascii") as file:
                return int(file.read().split()[1]) * os.sysconf("SC_PAGE_SIZE")

        keys = range(50_000)
        for number in range(12):
            table = crackd.Table.from_arrays(keys)
            if number % 2:
                table.close()
            del table
            gc.collect()
            if number == 3:
                before = resident()
        self.assertLess(resident() - before, 20_000_000)

    def test_a_table_that_failed_to_open_is_let_go(self):
        for _ in range(3):
            self.assertRaises(crackd.BadLimit, crackd.Table, history=0)
            self.assertRaises(TypeError, crackd.Table, [object()])
            self.assertRaises(crackd.Full, crackd.Table.from_arrays, [1, 2, 3], cells=2)
        gc.collect()

    def test_rows_without_payloads(self):
        with crackd.Table.from_arrays(iter([5, 6, 7])) as table:
            self.assertEqual((table.sum(6), len(table.row_numbers)), (3, 3))
            self.assertEqual(sum(it.pending_in for it in table.layout().parts), 0)

    def test_partitions_by_the_number_of_rows(self):
        for rows, parts in [(0, 1), (4096, 1), (8192, 2), (10**6, 64), (None, 24)]:
            with crackd.Table(range(100_000), rows, shards=1) as table:
                self.assertEqual(table.partitions, parts)
        with crackd.Table([7] * 100, partitions=8) as table:
            self.assertEqual(table.partitions, 2)

    def test_the_version(self):
        self.assertRegex(crackd.version(), r"^crackd \d+\.\d+")


if __name__ == "__main__":
    unittest.main()
