"""How a table combines the answers of many shards if it asks them about everything, as a table on a cluster does."""

import itertools
import random
import unittest
from unittest import mock

import test_shapes
from test_table import numbers
from ways import crackd, np, wants_shards

from crackd import progress, routing
from crackd.keys import Keys
from crackd.local import LocalShard


class Routed(routing.Sharded if np is not None else object):
    """A table of shards in this process that answer in the order in which they are asked, or in any other."""

    policy, row_numbers = "auto", None

    def __init__(self, splits=(), shards=1, key_type="int64", **options):
        self._keys, self.drawn, self.asked = Keys.named(key_type), random.Random(shards), []
        cuts = self._keys.many(list(splits)).tolist()
        self.shards = shards
        begins = [(len(cuts) + 1) * it // shards for it in range(shards + 1)]
        self._shards = [LocalShard(cuts[low : high - 1], **options) for low, high in zip(begins, begins[1:])]
        self._shard_cuts = np.array([cuts[it - 1] for it in begins[1:-1]], np.uint64)
        self._parts = np.array([*(it.partitions for it in self._shards), 0], np.uint64)

    def _facts(self):
        return ()

    def _check_open(self):
        self._shards[0].check_open()

    def _insert(self, key, payload):
        return int(self._insert_many(np.array([key], np.uint64), np.array([payload], np.int64))[0])

    def _gather(self, cuts, name, answers, errors):
        self._check_open()
        for shard in self.drawn.sample(sorted(cuts), len(cuts)):
            self.asked.append((shard, name))
            try:
                answers[shard] = getattr(self._shards[shard], name)(*cuts[shard].words())
            except crackd.Error as error:
                errors[shard] = error

    def close(self):
        for it in self._shards:
            it.close()


@wants_shards
class ManyRouted(test_shapes.ManyShards):
    """The cases of tables with more and more shards."""

    COUNTS, opened = (2, 17, 33), Routed

    def test_as_many_shards_as_there_may_be(self):
        """(Only a table of this process limits them.)"""


@wants_shards
class Refused(unittest.TestCase):
    """Shards that refuse some items: what was done before, and later, in all of them."""

    def opened(self, shards, cells):
        return Routed(range(10, 10 * shards, 10), shards, cells=cells)

    def full(self, keys, cells):
        """Which of the keys find room."""
        rows, has_room = {}, []
        for key in keys:
            # a shard stops at its first refusal
            rows.setdefault(key // 10, 0)
            has_room.append(rows[key // 10] < cells)
            rows[key // 10] += 1
        return has_room

    def test_inserts(self):
        for shards, cells in itertools.product((2, 16, 17, 40), (1, 3, 10)):
            drawn = random.Random(shards * cells)
            keys = [drawn.randrange(10 * shards) for _ in range(cells * shards + 1)]
            with self.subTest(shards=shards, cells=cells), self.opened(shards, cells) as table:
                is_done = self.full(keys, cells)
                with self.assertRaises(crackd.Full) as caught:
                    table.insert_many(keys, range(len(keys)))
                error, first = caught.exception, is_done.index(False)
                self.assertEqual((error.code, error.done, error.later), (9, first, sum(is_done) - first))
                placed = [at for at, it in enumerate(is_done) if it]
                self.assertEqual([table.get(it) for it in error.answers[:20]], [(keys[it], it) for it in placed[:20]])
                self.assertEqual((len(error.answers), table.sum(), len(table)), (len(placed), sum(placed), len(placed)))

    def test_deletes_and_updates(self):
        for shards in (2, 16, 17, 40):
            keys = list(range(10 * shards))
            random.Random(shards).shuffle(keys)
            with self.subTest(shards=shards), self.opened(shards, 100) as table:
                rows = numbers(table.insert_many(keys, [0] * len(keys)))
                for at in (0, 1, len(keys) // 2, len(keys) - 1):
                    for wrong, code in [(shards << 54, 5), (rows[at] | 1 << 48, 5), (rows[at], 4)]:
                        given = [*rows[:at], wrong, *rows[at + 1 :]]
                        new = [*keys[:at], keys[at] if code == 5 else (keys[at] + 10) % (10 * shards), *keys[at + 1 :]]
                        with self.assertRaises(crackd.Refused) as caught:
                            table.update_many(given, new, [1] * len(keys))
                        error = caught.exception
                        self.assertEqual((error.code, error.done, error.later, table.sum()), (code, at, 0, at))
                        self.assertTrue(all(table.update_many(rows, keys, [0] * len(keys))))
                given = [*rows[:15], shards << 54, *rows[15:]]
                with self.assertRaises(crackd.NoSuchPartition) as caught:
                    table.delete_many(given)
                self.assertEqual((caught.exception.done, len(table)), (15, len(keys) - 15))

    def test_inserts_that_are_reported(self):
        for shards, cells, step in itertools.product((2, 17), (2, 5), (1, 7, 1000)):
            keys = [random.Random(at).randrange(10 * shards) for at in range(cells * shards + 1)]
            with self.subTest(shards=shards, cells=cells, step=step), self.opened(shards, cells) as table:
                told, rows, is_done = [], {}, []
                for at in range(0, len(keys), step):
                    # each shard stops at its first refusal in these rows, and no later rows are sent
                    for key in keys[at : at + step]:
                        rows[key // 10] = rows.get(key // 10, 0) + 1
                        is_done.append(rows[key // 10] <= cells)
                    if not all(is_done):
                        break
                with mock.patch.object(progress, "STEP", step), self.assertRaises(crackd.Full) as caught:
                    table.insert_rows(keys, range(len(keys)), progress=lambda *it: told.append(it))
                error, first = caught.exception, is_done.index(False)
                self.assertEqual((error.done, error.later), (first, sum(is_done) - first))
                self.assertTrue(first == 0 or f"(after {first} that were done" in str(error))
                placed = [at for at, it in enumerate(is_done) if it]
                self.assertEqual([table.get(it) for it in error.answers], [(keys[it], it) for it in placed])
                self.assertEqual(told, [(at, len(keys)) for at in range(step, first + 1, step)])

    def test_moves(self):
        for shards in (3, 17):
            with self.subTest(shards=shards), self.opened(shards, 2) as table:
                row, *_ = numbers(table.insert_many([5, 6, 21, 22], [50, 60, 70, 80]))
                with self.assertRaises(crackd.Full) as caught:
                    table.move(row, 25)
                error = caught.exception
                self.assertEqual((error.code, error.done, error.row, len(error.answers)), (9, 0, (5, 50), 1))
                self.assertEqual((table.get(row), table.get(error.answers[0]), len(table)), (None, (5, 50), 4))
                # now neither shard accepts the row
                row, insert = int(error.answers[0]), LocalShard.insert_many
                with mock.patch.object(LocalShard, "insert_many", side_effect=crackd.OutOfMemory(8)):
                    with self.assertRaises(crackd.OutOfMemory) as caught:
                        table.move(row, 15)
                error = caught.exception
                self.assertEqual((error.row, len(error.answers), len(table)), ((5, 50), 0, 3))
                # the error of a signal handler, before and after the row is inserted
                row = table.insert(5, 50)

                def stopped(*words):
                    insert(*words)
                    raise KeyError

                for call in (stopped, mock.Mock(side_effect=KeyError)):
                    with mock.patch.object(LocalShard, "insert_many", call):
                        with self.assertRaises(KeyError) as caught:
                            table.move(row, 15)
                    self.assertEqual(caught.exception.row, (5, 50))
                    self.assertIsNone(table.get(row))
                    row = table.insert(5, 50)
                self.assertEqual((table.count(15), table.count(0, 10)), (3, 2))

    def test_only_shards_that_have_something_are_asked(self):
        with self.opened(20, 100) as table:
            rows = table.insert_many([195, 5, 100, 101], [1, 2, 4, 8])
            self.assertEqual(sorted(table.asked), [(it, "insert_many") for it in (0, 10, 19)])
            for call, wanted in [
                (lambda: table.count(95, 100), [9]),
                (lambda: table.sum(95, 101), [9, 10]),
                (lambda: table.select(100, 110), [10]),
                (lambda: table.count_many([0, 190], [10, 191]), [0, 19]),
                (lambda: table.sum_many([15, 30], [31, 30]), [1, 2, 3]),
                (lambda: table.delete_many([rows[0], rows[1]]), [0, 19]),
                (lambda: table.update_many(rows[2:], [105, 106], [1, 1]), [10]),
                (lambda: table.move(rows[2], 55), [5, 10]),
                (lambda: table.settle(), range(20)),
                (lambda: table.checkpoint(), range(20)),
            ]:
                table.asked.clear()
                call()
                self.assertEqual(sorted(shard for shard, _ in table.asked), list(wanted))
            self.assertEqual((table.get(rows[3]), table.count(55, 56), len(table)), ((106, 1), 1, 2))


@wants_shards
class Lost(unittest.TestCase):
    """Shards of which some are lost: their errors come first, and the others' rows are known."""

    def opened(self, shards, lost):
        table = Routed(range(10, 10 * shards, 10), shards)
        self.rows = table.insert_many(range(10 * shards), range(10 * shards))
        for it in lost:
            table._shards[it] = mock.Mock(spec=LocalShard)
            for name in ("insert_many", "delete_many", "update_many", "count", "sum", "select", "take", "settle"):
                error = crackd.errors.ShardLost(it, 10 * it, 10 * it + 10, "keys", "it is gone")
                getattr(table._shards[it], name).side_effect = error
            for name in ("count_many", "sum_many", "checkpoint", "rows", "layouts"):
                getattr(table._shards[it], name).side_effect = error
        return table

    def test_each_call(self):
        for shards, lost in [(3, [1]), (17, [16, 5]), (40, [20, 39, 30])]:
            table, keys = self.opened(shards, lost), list(range(10 * shards))
            for call in [
                lambda: table.insert_many(keys, keys),
                lambda: table.update_many(self.rows, keys, keys),
                lambda: table.delete_many(self.rows),
                lambda: table.count_many(keys, None),
                lambda: table.sum_many(None, keys),
                table.count,
                table.sum,
                table.select,
                table.settle,
                table.checkpoint,
                table.layout,
                lambda: table.move(self.rows[10 * min(lost)], 1),
                lambda: table.insert(10 * min(lost) + 3, 1),
            ]:
                found = []
                for _ in range(2):
                    with self.assertRaises(crackd.errors.ShardLost) as caught:
                        call()
                    found.append(caught.exception)
                self.assertEqual([it.shard for it in found], [min(lost)] * 2)
                # each call has an error of its own
                self.assertIsNot(*found)
            table.close()

    def test_rows_of_the_others(self):
        for shards, lost in [(3, [1]), (17, [16, 5])]:
            with self.opened(shards, lost) as table:
                keys = [it for it in range(10 * shards) if it % 3]
                with self.assertRaises(crackd.errors.ShardLost) as caught:
                    table.insert_many(keys, [it * 7 for it in keys])
                placed = [it for it in keys if it // 10 not in lost]
                shard, row = placed[-1] // 10, caught.exception.answers
                self.assertEqual(len(row), len(placed))
                for key, it in zip(placed, numbers(row)):
                    self.assertEqual(it >> routing.SHARD_SHIFT, key // 10)
                found = table._shards[shard].select(0, 2**64 - 1)
                self.assertIn(placed[-1] * 7, found[2].tolist())
                self.assertEqual(table.count(0, 10), 16)


if __name__ == "__main__":
    unittest.main()
