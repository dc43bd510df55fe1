"""The answers of a table, in the process and over TCP by the same cases, compared with plain lists."""

import itertools
import random
import unittest

from ways import (
    InProcess,
    InShards,
    OverAsyncio,
    OverTcp,
    crackd,
    np,
    wants_library,
    wants_numpy,
    wants_program,
    wants_shards,
)

GREATEST = 2**63 - 1
UNSIGNED = 2**64 - 1


def numbers(it):
    return [int(each) for each in it]


class PlainTable:
    """Rows by their numbers, as a list has them."""

    def __init__(self):
        self.rows = {}

    def inside(self, low, high):
        return {
            row: it for row, it in self.rows.items() if (low is None or low <= it[0]) and (high is None or it[0] < high)
        }

    def count(self, low, high):
        return len(self.inside(low, high))

    def sum(self, low, high):
        return sum(it[1] for it in self.inside(low, high).values())


class Cases:
    """The cases of a table, however it is reached."""

    def test_counts_sums_and_selects(self):
        with self.table([5]) as table:
            rows = table.insert_many([5, -3, 9, 5], [10, 20, 30, -40])
            self.assertEqual((table.count(), table.count(5, 6), table.sum(), table.sum(None, 5)), (4, 2, 20, 20))
            got = table.select(0, 9)
            self.assertEqual((numbers(got.keys), numbers(got.payloads)), ([5, 5], [10, -40]))
            self.assertEqual(numbers(got.rows), [int(rows[0]), int(rows[3])])
            self.assertEqual((len(table), bool(table)), (4, True))

    def test_no_rows(self):
        with self.table() as table:
            self.assertEqual(
                (table.count(), table.sum(), len(table.select().rows), len(table), bool(table)), (0, 0, 0, 0, True)
            )
            self.assertEqual(
                (len(table.insert_many([], [])), len(table.delete_many([])), len(table.update_many([], [], []))),
                (0, 0, 0),
            )
            self.assertEqual((len(table.count_many([], [])), table.sum_many([], None)), (0, []))
            table.settle()
            self.assertEqual(table.layout().rows, 0)

    def test_empty_ranges_have_no_rows(self):
        with self.table() as table:
            table.insert_many([1, 2, 3], [1, 2, 3])
            self.assertEqual(
                (table.count(2, 2), table.count(9, 9), table.sum(3, 3), len(table.select(3, 3).rows)), (0, 0, 0, 0)
            )
            self.assertEqual(numbers(table.count_many([2, 3, 1], [2, 3, 3])), [0, 0, 2])
            self.assertEqual(table.sum_many([2, 3, 1, 9], [2, 3, 3, 9]), [0, 0, 3, 0])

    def test_ranges_without_ends(self):
        with self.table() as table:
            table.insert_many([1, 2, 3], [10, 20, 40])
            self.assertEqual(numbers(table.count_many([None, 2, 3], [2, None, None])), [1, 2, 1])
            self.assertEqual(numbers(table.count_many(None, [1, 2, 3])), [0, 1, 2])
            self.assertEqual(table.sum_many([1, 2, 3], None), [70, 60, 40])
            self.assertRaises(TypeError, table.count_many, None, None)
            self.assertRaises(ValueError, table.count_many, [1, 2], [3])

    def test_ends_that_are_no_keys(self):
        with self.table() as table:
            table.insert_many([-(2**63), 0, 7, GREATEST], [1, 2, 4, 8])
            self.assertEqual(
                (table.sum(-(10**30), 10**30), table.sum(0.5, 7.5), table.sum(7.5), table.sum(None, 7.5)),
                (15, 4, 8, 7),
            )
            self.assertEqual(
                (
                    table.sum(float("-inf"), 0),
                    table.sum(8, float("inf")),
                    table.sum(2**63, 2**64),
                    table.sum(8, 2**63),
                ),
                (1, 8, 0, 8),
            )
            self.assertRaises(ValueError, table.count, float("nan"))
            self.assertRaises(TypeError, table.count, "5")
            self.assertRaises(TypeError, table.count, 1, [2])

    def test_deletes_and_updates(self):
        with self.table(partitions=1) as table:
            rows = table.insert_many([1, 2, 3], [7, 8, 9])
            self.assertEqual(list(table.delete_many([rows[0], rows[0]])), [True, False])
            self.assertEqual(list(table.update_many([rows[1], rows[0]], [20, 1], [80, 1])), [True, False])
            self.assertEqual((table.count(), table.sum(20, 21)), (2, 80))
            self.assertEqual(
                (table.update(int(rows[2]), 4, -4), table.delete(int(rows[2])), table.delete(int(rows[2]))),
                (True, True, False),
            )
            self.assertEqual((table.count(), table.delete(12345), table.update(12345, 1, 1)), (1, False, False))

    def test_single_deletes_and_updates(self):
        with self.table(splits=[100]) as table:
            rows = [table.insert(key, payload) for key, payload in ((1, 10), (150, 20), (2, 40))]
            self.assertEqual((table.update(rows[0], 5, -7), table.sum(5, 6), table.count(1, 2)), (True, -7, 0))
            self.assertEqual((table.update(rows[1], 200, GREATEST), table.sum(200)), (True, GREATEST))
            self.assertEqual((table.delete(rows[0]), table.delete(rows[0]), table.count()), (True, False, 2))
            self.assertIs(table.update(rows[0], 5, 1), False)
            for call, kind, code in (
                (lambda: table.update(rows[2], 100, 1), crackd.WrongPartition, 4),
                (lambda: table.update(9 << 48, 1, 1), crackd.NoSuchPartition, 5),
                (lambda: table.delete(9 << 48), crackd.NoSuchPartition, 5),
            ):
                with self.assertRaises(kind) as caught:
                    call()
                self.assertEqual((caught.exception.code, caught.exception.done), (code, 0))
            self.assertEqual((table.count(), table.sum(None, 3)), (2, 40))

    def test_wrong_rows_of_single_deletes_and_updates(self):
        with self.table() as table:
            row = table.insert(1, 10)
            for wrong, kind in (
                (-1, OverflowError),
                (UNSIGNED + 1, OverflowError),
                (0.0, TypeError),
                ("0", TypeError),
                (False, TypeError),
            ):
                with self.subTest(wrong):
                    self.assertRaises(kind, table.delete, wrong)
                    self.assertRaises(kind, table.update, wrong, 1, 1)
            self.assertRaises(OverflowError, table.update, row, 2**63, 1)
            self.assertRaises(OverflowError, table.update, row, 1, 2**63)
            self.assertRaises(TypeError, table.update, row, 1, 1.5)
            self.assertEqual((table.count(), table.sum(1, 2)), (1, 10))

    def test_sums_beyond_64_bits_are_exact(self):
        for payload in (GREATEST, -(2**63)):
            with self.table() as table:
                table.insert_many([1, 2, 3], [payload] * 3)
                self.assertEqual(
                    (table.sum(), table.sum_many([1, 2, 9], [4, 3, 10])), (3 * payload, [3 * payload, payload, 0])
                )

    def test_keys_without_a_sign(self):
        with self.table(key_type="uint64") as table:
            table.insert_many([0, 2**63, UNSIGNED], [1, 2, 4])
            self.assertEqual(
                (table.sum(2**63, UNSIGNED), table.sum(UNSIGNED), table.sum(None, 1), table.sum(-5, 2**64)),
                (2, 4, 1, 7),
            )
            self.assertEqual(numbers(table.select().keys), [0, 2**63, UNSIGNED])
            self.assertRaises(OverflowError, table.insert, -1, 0)
            self.assertRaises(OverflowError, table.insert, 2**64, 0)
            self.assertRaises(OverflowError, table.insert_many, [1, -1], [0, 0])

    def test_keys_with_a_sign(self):
        with self.table(key_type="int64") as table:
            table.insert_many([-(2**63), -1, 0, GREATEST], [1, 2, 4, 8])
            self.assertEqual((table.sum(-1, 1), table.sum(None, -1), table.sum(GREATEST)), (6, 1, 8))
            self.assertEqual(numbers(table.select().keys), [-(2**63), -1, 0, GREATEST])
            self.assertRaises(OverflowError, table.insert, 2**63, 0)

    def test_floats_keep_their_order(self):
        keys = [-float("inf"), -2.5, -0.0, 0.0, 5e-324, 1e-300, 2.5, float("inf")]
        with self.table(keys) as table:
            table.insert_many(keys, [1] * len(keys))
            self.assertEqual(
                (table.count(0.0, 1.0), table.count(-3.0, 0.0), table.count(), table.count(2.5, None)), (4, 1, 8, 2)
            )
            self.assertEqual(
                (table.count(0, 1), table.count(None, -(10**308)), table.count(-(10**308), 10**308)), (4, 1, 6)
            )
            self.assertEqual([float(it) for it in table.select(-3.0, 1.0).keys], [-2.5, 0.0, 0.0, 5e-324, 1e-300])
            self.assertEqual(numbers(table.count_many([0.0, -3], [1, 0.0])), [4, 1])
            self.assertRaises(ValueError, table.insert, float("nan"), 1)
            self.assertRaises(ValueError, table.insert_many, [1.0, float("nan")], [1, 1])
            self.assertRaises(OverflowError, table.insert, 2**53 + 1, 1)
            self.assertRaises(TypeError, table.insert, "1", 1)
            self.assertEqual(table.count(), 8)

    def test_wrong_kinds_of_keys_and_payloads(self):
        with self.table() as table:
            for keys, payloads in [
                ([1.5], [1]),
                (["1"], [1]),
                ([None], [1]),
                ([1], [1.5]),
                ([1], ["1"]),
                ([1], [None]),
                ([[1]], [1]),
            ]:
                self.assertRaises(TypeError, table.insert_many, keys, payloads)
            for keys, payloads in [
                ([2**63], [1]),
                ([-(2**63) - 1], [1]),
                ([1], [2**63]),
                ([1], [-(2**63) - 1]),
            ]:
                self.assertRaises(OverflowError, table.insert_many, keys, payloads)
            self.assertRaises(TypeError, table.insert, 1, 1.5)
            self.assertRaises(OverflowError, table.insert, 1, 2**63)
            self.assertRaises(OverflowError, table.delete_many, [-1])
            self.assertRaises(TypeError, table.delete_many, [0.0])
            self.assertEqual(table.count(), 0)

    def test_lists_of_different_lengths(self):
        with self.table() as table:
            row = table.insert(1, 1)
            self.assertRaises(ValueError, table.insert_many, [1, 2], [1])
            self.assertRaises(ValueError, table.insert_many, [1], [1, 2])
            self.assertRaises(ValueError, table.update_many, [row], [1, 2], [1])
            self.assertRaises(ValueError, table.update_many, [row], [1], [])
            self.assertEqual((table.count(), table.sum()), (1, 1))

    def test_a_row_keeps_to_its_partition(self):
        with self.table(splits=[100]) as table:
            self.assertEqual(table.partitions, 2)
            rows = table.insert_many([1, 2, 200], [1, 2, 4])
            with self.assertRaises(crackd.WrongPartition) as caught:
                table.update_many([rows[0], rows[1]], [3, 100], [8, 8])
            self.assertEqual((caught.exception.code, caught.exception.done), (4, 1))
            self.assertEqual((table.sum(), table.count(3, 4)), (14, 1))
            with self.assertRaises(crackd.NoSuchPartition) as caught:
                table.delete_many([rows[0], 9 << 48])
            self.assertEqual((caught.exception.code, caught.exception.done), (5, 1))

    def test_a_full_partition_tells_how_far_it_came(self):
        with self.table(cells=3, partitions=1) as table:
            with self.assertRaises(crackd.Full) as caught:
                table.insert_many([1, 2, 3, 4, 5], [1, 2, 4, 8, 16])
            self.assertEqual((caught.exception.code, caught.exception.done, len(caught.exception.answers)), (9, 3, 3))
            self.assertEqual((table.count(), table.sum()), (3, 7))
            self.assertEqual(list(table.delete_many(caught.exception.answers)), [True] * 3)

    def test_a_partition_is_full_only_with_as_many_rows_as_cells(self):
        with self.table(cells=1000, partitions=1) as table:
            rows = table.insert_many(range(600), [1] * 600)
            for payload in (2, 3, 4):
                table.settle()
                self.assertTrue(all(table.update_many(rows, range(600), [payload] * 600)))
            self.assertEqual((table.count(), table.sum()), (600, 2400))
            table.settle()
            self.assertTrue(all(table.delete_many(rows)))
            rows = table.insert_many(range(1000), range(1000))
            table.settle()
            self.assertRaises(crackd.Full, table.insert, 5, 5)
            self.assertTrue(all([table.delete(row) for row in rows[:20]]))
            more = [table.insert(key, 1) for key in range(20)]
            self.assertEqual((len(set(more)), table.count(), table.sum(0, 20)), (20, 1000, 20))
            self.assertRaises(crackd.Full, table.insert_many, [5], [5])

    def test_bad_openings(self):
        for options, kind in [
            ({"history": 0}, crackd.BadLimit),
            ({"cells": 2**24}, crackd.BadLimit),
            ({"splits": [5, 5]}, crackd.BadSplits),
        ]:
            with self.subTest(options), self.assertRaises(kind), self.table(**options):
                pass
        for options in ({"policy": "none"}, {"partitions": 65}, {"partitions": 0}, {"splits": [2**63]}):
            with self.subTest(options), self.assertRaises((ValueError, OverflowError)), self.table(**options):
                pass
        with self.assertRaises(crackd.BadSplits), self.table(splits=range(64)):
            pass
        for keys in ("text", "complex128", complex):
            with self.subTest(keys), self.assertRaises(TypeError), self.table(key_type=keys):
                pass

    def test_histories_are_folded_by_themselves(self):
        with self.table([0, 500], partitions=2, history=10) as table:
            rows = table.insert_many(range(1000), range(1000))
            self.assertEqual((table.count(), table.sum()), (1000, 499500))
            self.assertEqual(numbers(table.count_many(range(0, 1000, 10), range(10, 1010, 10))), [10] * 100)
            self.assertTrue(all(table.delete_many(rows[:500])))
            self.assertTrue(all(table.update_many(rows[500:], [*range(500, 1000)], [1] * 500)))
            for _ in range(30):
                self.assertEqual((table.count(), table.sum(), len(table.select().rows)), (500, 500, 500))
            table.settle()
            table.checkpoint()
            self.assertEqual(table.checkpoint(), 0)

    def test_policies_answer_the_same(self):
        for policy in crackd.base.POLICIES:
            with self.subTest(policy), self.table(policy=policy) as table:
                rows = table.insert_many(range(100), [1] * 100)
                self.assertEqual(table.sum(10, 20), 10)
                table.delete_many(rows[12:15])
                table.insert_many([15, 16], [100, 100])
                self.assertEqual((table.sum(10, 20), table.count(), table.sum(0, 100)), (207, 99, 297))

    def test_each_query_merges_by_the_policy(self):
        """Queries of the keys 10 to 19, first among 100 pending rows, and later with 2 more, of which one is inside."""
        queries = {
            "count": lambda table: table.count(10, 20),
            "sum": lambda table: table.sum(10, 20),
            "select": lambda table: table.select(10, 20),
            "count_many": lambda table: table.count_many([10], [20]),
            "sum_many": lambda table: table.sum_many([10], [20]),
        }
        # (rows in the column, pending insertions) after the first query, and after the later one
        wanted = {
            "complete": [(100, 0), (102, 0)],
            "gradual": [(10, 90), (101, 1)],
            "ripple": [(10, 90), (100, 2)],
            "auto": [(100, 0), (100, 2)],
        }
        for policy, (name, query) in itertools.product(wanted, queries.items()):
            with self.subTest(policy=policy, query=name), self.table(policy=policy, partitions=1) as table:
                table.insert_many(range(100), [1] * 100)
                query(table)
                first = table.layout().parts[0]
                table.count()
                table.insert_many([15, 50], [1, 1])
                query(table)
                got = [(it.column, it.pending_in) for it in (first, table.layout().parts[0])]
                self.assertEqual(got, wanted[policy])

    def test_the_first_query_after_a_load_merges_all_rows(self):
        with self.table(partitions=1) as table:
            table.insert_many(range(100), [1] * 100)
            table.count(10, 20)
            part = table.layout().parts[0]
            self.assertEqual((part.column, part.pending_in), (100, 0))

    def test_partitions_need_keys_that_divide_them(self):
        for options in ({"partitions": 3}, {"sample": [], "partitions": 2}, {"splits": [5], "partitions": 3}):
            with self.subTest(options), self.assertRaisesRegex(ValueError, "splits"), self.table(**options):
                pass
        for options, parts in (({"partitions": 1}, 1), ({"splits": [5], "partitions": 2}, 2), ({"splits": []}, 1)):
            with self.subTest(options), self.table(**options) as table:
                self.assertEqual(table.partitions, parts)

    def test_layouts_add_up(self):
        with self.table(range(1000), partitions=3) as table:
            rows = table.insert_many(range(1000), range(1000))
            table.settle()
            table.count(100, 200), table.count(400, 800)
            table.delete_many(rows[:3])
            layout = table.layout()
            self.assertEqual((layout.rows, len(layout.parts), table.partitions), (997, 3, 3))
            self.assertEqual([it.partition for it in layout.parts], [0, 1, 2])
            self.assertEqual(
                sum(piece.rows for it in layout.parts for piece in it.pieces), sum(it.column for it in layout.parts)
            )
            self.assertGreater(sum(len(it.pieces) for it in layout.parts), 3)
            ends = [it.ends for it in layout.parts]
            self.assertEqual((ends[0][0], ends[-1][1], ends[0][1], ends[1][1]), (0, 2**64, ends[1][0], ends[2][0]))
            for part in layout.parts:
                self.assertEqual([it.high for it in part.pieces[:-1]], [it.low for it in part.pieces[1:]])
            self.assertIn("partition 2: keys", str(layout))
            self.assertIn("to 99 ", str(layout))
            self.assertEqual(layout.svg().count("<g><title>partition "), 3)
            self.assertTrue(layout.svg().startswith("<svg ") and layout.svg().endswith("</svg>\n"))

    def test_a_closed_table_says_so(self):
        with self.table() as table:
            row = table.insert(1, 1)
            table.close()
            table.close()
            calls = [
                (table.count,),
                (table.sum,),
                (table.select,),
                (table.insert, 1, 1),
                (table.insert_many, [1], [1]),
                (table.delete_many, [row]),
            ]
            calls += [
                (table.update_many, [row], [1], [1]),
                (table.count_many, [1], [2]),
                (table.sum_many, [1], [2]),
                (table.settle,),
            ]
            calls += [
                (table.checkpoint,),
                (table.layout,),
                (table.count, 2, 2),
                (table.select, 2, 2),
                (table.sum, 2, 2),
                (len, table),
            ]
            for call, *words in calls:
                with self.subTest(call=call):
                    self.assertRaises(crackd.Closed, call, *words)

    def test_random_steps_agree_with_a_list(self):
        rng = random.Random(4)
        for history in (50, 60_000):
            with self.subTest(history), self.table([0, 250, 500, 750, 999], partitions=4, history=history) as table:
                self.assertGreater(table.partitions, 2)
                self.random_steps(table, rng)

    def random_steps(self, table, rng):
        model = PlainTable()
        for _ in range(600):
            draw, low = rng.random(), rng.randrange(-20, 1020)
            high = low + rng.randrange(0, 300)
            if draw < 0.4:
                keys, payloads = zip(
                    *[(rng.randrange(-10, 1010), rng.randrange(-100, 100)) for _ in range(rng.randrange(1, 8))]
                )
                model.rows.update(zip(numbers(table.insert_many(keys, payloads)), zip(keys, payloads)))
            elif draw < 0.5 and model.rows:
                rows = rng.sample(sorted(model.rows), min(3, len(model.rows)))
                self.assertEqual(list(table.delete_many(rows + rows[:1])), [True] * len(rows) + [False])
                for row in rows:
                    del model.rows[row]
            elif draw < 0.6 and model.rows:
                row = rng.choice(sorted(model.rows))
                model.rows[row] = (model.rows[row][0], rng.randrange(-100, 100))
                self.assertTrue(table.update(row, *model.rows[row]))
            elif draw < 0.8:
                self.assertEqual(
                    (table.count(low, high), table.sum(low, high)), (model.count(low, high), model.sum(low, high))
                )
            elif draw < 0.9:
                lows, highs = [low, None, high, 3], [high, high, high, 4]
                self.assertEqual(numbers(table.count_many(lows, highs)), [model.count(*it) for it in zip(lows, highs)])
                self.assertEqual(table.sum_many(lows, highs), [model.sum(*it) for it in zip(lows, highs)])
            else:
                got = table.select(low, high)
                self.assertEqual(
                    dict(zip(numbers(got.rows), zip(numbers(got.keys), numbers(got.payloads)))), model.inside(low, high)
                )

    @wants_numpy
    def test_arrays_of_numpy(self):
        rng = np.random.default_rng(3)
        keys, payloads = rng.integers(-(2**62), 2**62, 5_000), rng.integers(-1000, 1000, 5_000)
        with self.table(keys, partitions=5) as table:
            self.assertEqual(table.partitions, 5)
            rows = table.insert_many(keys, payloads)
            self.assertEqual((rows.dtype, len(np.unique(rows))), (np.uint64, 5_000))
            lows = rng.integers(-(2**62), 2**62, 50)
            highs = lows + 2**58
            masks = [(keys >= low) & (keys < high) for low, high in zip(lows, highs)]
            self.assertEqual(table.count_many(lows, highs).tolist(), [int(it.sum()) for it in masks])
            self.assertEqual(table.sum_many(lows, highs), [int(payloads[it].sum()) for it in masks])
            got = table.select(lows[0], highs[0])
            self.assertEqual((got.keys.dtype, got.payloads.dtype), (np.int64, np.int64))
            order, wanted = np.argsort(got.rows), np.argsort(rows[masks[0]])
            self.assertEqual(got.keys[order].tolist(), keys[masks[0]][wanted].tolist())
            self.assertEqual(got.payloads[order].tolist(), payloads[masks[0]][wanted].tolist())
            for none in (table.select(5, 5), table.select(2**62, 2**62 + 1)):
                self.assertEqual([(it.dtype, len(it)) for it in none], [(np.uint64, 0), (np.int64, 0), (np.int64, 0)])
            self.assertEqual(table.delete_many(rows[masks[0]]).dtype, bool)
            self.assertEqual(table.count(), int((~masks[0]).sum()))

    @wants_numpy
    def test_kinds_of_arrays(self):
        for dtype in ("u1", "i2", "<u4", ">i4", ">u8", "<i8", "f4", ">f8", "f2"):
            with self.subTest(dtype):
                keys = np.array([3, 1, 2, 1], dtype=dtype)
                with self.table(keys) as table:
                    table.insert_many(keys[::2], np.array([1, 2], dtype="i1"))
                    table.insert_many(np.asfortranarray(keys)[1::2], np.array([4, 8], dtype=">u2"))
                    self.assertEqual((table.sum(1, 2), table.sum(keys[2], keys[0]), table.count()), (12, 2, 4))
                    self.assertEqual(numbers(table.count_many(keys, keys + 1)), [1, 2, 1, 2])
        for keys in (
            np.zeros(2, bool),
            np.zeros(2, complex),
            np.array(["a", "b"]),
            np.array([1, None]),
            np.zeros(2, np.longdouble),
            np.zeros(2, "m8[s]"),
        ):
            with self.subTest(keys.dtype), self.assertRaises(TypeError), self.table(keys):
                pass
        with self.assertRaises(TypeError), self.table(np.zeros(1, "M8")):
            pass

    @wants_numpy
    def test_wrong_arrays(self):
        with self.table() as table:
            one = np.ones(1, np.int64)
            for keys, payloads, kind in [
                (np.ones((1, 1), np.int64), one, ValueError),
                (np.array(1), one, TypeError),
                (one, np.ones((1, 2), np.int64), ValueError),
                (np.ones(1), one, TypeError),
                (one, np.ones(1), TypeError),
                (one, np.array(["a"]), TypeError),
                (np.array([2**63], np.uint64), one, OverflowError),
                (one, np.array([2**64 - 1], np.uint64), OverflowError),
                (np.array(["2020-01-01"], "M8[D]"), one, TypeError),
                (np.ma.masked_array([1], mask=[True]), one, ValueError),
                (np.array([None]), one, TypeError),
            ]:
                with self.subTest(keys=keys, payloads=payloads):
                    self.assertRaises(kind, table.insert_many, keys, payloads)
            self.assertRaises(OverflowError, table.delete_many, np.array([-1]))
            self.assertRaises(TypeError, table.delete_many, np.array([1.0]))
            self.assertEqual(table.count(), 0)

    @wants_numpy
    def test_ends_of_numpy_that_no_float_has(self):
        with self.table(key_type="int64") as table:
            table.insert_many([2**62, 2**62 + 1, GREATEST], [1, 2, 4])
            self.assertEqual(
                (
                    table.sum(np.int64(2**62 + 1)),
                    table.sum(None, np.int64(2**62 + 1)),
                    table.sum(np.int64(GREATEST)),
                ),
                (6, 1, 4),
            )
            self.assertEqual(table.sum_many([np.int64(2**62 + 1), None], [None, np.uint64(2**63)]), [6, 7])
        with self.table(key_type="uint64") as table:
            table.insert_many([2**63, 2**63 + 1, UNSIGNED], [1, 2, 4])
            self.assertEqual(
                (
                    table.sum(np.uint64(2**63 + 1)),
                    table.sum(np.uint64(UNSIGNED)),
                    table.count(np.int64(-1), np.uint64(2**63 + 1)),
                ),
                (6, 4, 1),
            )
        with self.table(key_type="float64") as table:
            table.insert_many([2.0**53, 2.0**53 + 2], [1, 2])
            self.assertEqual(
                (table.sum(np.int64(2**53 + 1)), table.sum(None, np.int64(2**53 + 1)), table.sum(np.float32(1))),
                (2, 1, 3),
            )

    @wants_numpy
    def test_one_array_for_all(self):
        with self.table(key_type="uint64") as table:
            both = np.arange(10, dtype=np.uint64)
            rows = table.insert_many(both, both.view(np.int64))
            self.assertEqual(table.update_many(rows, both, both.view(np.int64)[::-1]).tolist(), [True] * 10)
            self.assertEqual((table.sum(0, 1), table.sum(9), table.count_many(both, both).tolist()), (9, 0, [0] * 10))
            self.assertEqual(both.tolist(), list(range(10)))

    @wants_numpy
    def test_dates(self):
        days = np.array("2020-01-01", dtype="datetime64[D]") + np.arange(1000)
        with self.table(days.astype("datetime64[s]")) as table:
            table.insert_many(days, np.arange(1000))
            self.assertEqual(table.count(np.datetime64("2020-02-01"), np.datetime64("2020-03-01")), 29)
            self.assertEqual(
                table.count(np.datetime64("2020-01-01T00:00:00.5"), np.datetime64("2020-01-03T00:00:00.001")), 2
            )
            got = table.select(np.datetime64("1990-01-01"), np.datetime64("2020-01-03"))
            self.assertEqual(got.keys.dtype, np.dtype("datetime64[s]"))
            self.assertEqual(list(got.keys.astype("datetime64[D]").astype(str)), ["2020-01-01", "2020-01-02"])
            self.assertEqual(table.count_many(days[:3], days[1:4]).tolist(), [1, 1, 1])
            self.assertRaises(ValueError, table.insert, np.datetime64("NaT"), 1)
            self.assertRaises(ValueError, table.count, np.datetime64("NaT"))
            self.assertRaises(ValueError, table.insert, np.datetime64("2020-01-01T00:00:00.5"), 1)
            self.assertRaises(TypeError, table.insert_many, [5], [1])
            self.assertIn("2020", str(table.layout()))


@wants_shards
class InShardsCases(Cases, InShards, unittest.TestCase):
    """In the process, in several shards."""

    def test_bad_openings(self):
        wrong = [({"history": 0}, crackd.BadLimit), ({"cells": 2**24}, crackd.BadLimit)]
        wrong += [({"splits": it}, crackd.BadSplits) for it in ([5, 5], [-(2**63)], [1, 3, 2], range(3 * 64))]
        wrong += [({"sample": [5, 6], "partitions": it}, ValueError) for it in (0, 3 * 64 + 1)]
        wrong += [({"sample": [5, 6], "shards": it}, ValueError) for it in (0, -1, 1025)]
        wrong += [({"shards": it}, TypeError) for it in (1.0, "2", True)]
        wrong += [({"policy": "none"}, ValueError), ({"splits": [2**63]}, OverflowError)]
        for options, kind in wrong:
            with self.subTest(options), self.assertRaises(kind), self.table(**options):
                pass
        with self.assertRaisesRegex(ValueError, "3 shards need a sample of the keys, or splits"):
            crackd.Table(shards=3)

    def test_layouts_add_up(self):
        with self.table(range(1000), partitions=7) as table:
            rows = table.insert_many(range(1000), range(1000))
            table.count(100, 200), table.settle(), table.delete_many(rows[:3])
            layout = table.layout()
            self.assertEqual((layout.rows, table.partitions, table.shards), (997, 7, 3))
            self.assertEqual([it.partition for it in layout.parts], [0, 1, 64, 65, 128, 129, 130])
            ends = [it.ends for it in layout.parts]
            self.assertEqual((ends[0][0], ends[-1][1]), (0, 2**64))
            self.assertEqual([it[1] for it in ends[:-1]], [it[0] for it in ends[1:]])


@wants_shards
class FewItemsCases(InShardsCases):
    """In several shards that do a few items one by one."""

    AT_ONCE = False


@wants_library
class InProcessCases(Cases, InProcess, unittest.TestCase):
    """In the process."""


@wants_library
class BoundCases(InProcess, unittest.TestCase):
    """The pieces of tables after many ranges and updates."""

    def pieces(self, policy):
        """How many pieces a table of 5,000 rows has after 300 counts, and then 200 sums with updates before each."""
        drawn, plain = random.Random(3), PlainTable()
        with self.table(policy=policy, partitions=1) as table:
            keys = drawn.sample(range(100_000), 5000)
            rows = numbers(table.insert_many(keys, [it % 7 for it in keys]))
            plain.rows = {row: (key, key % 7) for row, key in zip(rows, keys)}
            for low in drawn.sample(range(99_000), 300):
                self.assertEqual(table.count(low, low + 500), plain.count(low, low + 500))
            for low in drawn.sample(range(50_000), 200):
                gone = drawn.sample(sorted(plain.rows), 10)
                table.delete_many(gone)
                rows = numbers(table.insert_many([low + it for it in range(10)], range(10)))
                plain.rows = {row: it for row, it in plain.rows.items() if row not in gone}
                plain.rows.update((row, (low + it, it)) for it, row in enumerate(rows))
                self.assertEqual(table.sum(low, low + 50_000), plain.sum(low, low + 50_000))
            return len(table.layout().parts[0].pieces)

    def test_auto_alone_forgets_bounds(self):
        self.assertLess(self.pieces("auto"), 300)
        for policy in ("complete", "gradual", "ripple"):
            self.assertGreater(self.pieces(policy), 900)


@wants_program
class OverTcpCases(Cases, OverTcp, unittest.TestCase):
    """Over TCP."""


@wants_program
class OverAsyncioCases(Cases, OverAsyncio, unittest.TestCase):
    """Over TCP, by asyncio."""


if __name__ == "__main__":
    unittest.main()
