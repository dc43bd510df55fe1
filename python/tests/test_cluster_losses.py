"""Tables on a Dask cluster whose workers are killed, or are refused memory."""

import contextlib
import os
import pathlib
import random
import signal
import struct
import tempfile
import threading
import unittest
from unittest import mock

import clusters
from clusters import cluster, kill, local, on, pid_of, wait_for_workers, wants_cluster, worker_of
from test_table import PlainTable, numbers
from ways import crackd, np, refusing, wants_gcc, wants_library

WORKERS, CALLS, ONE_IN = 3, 1000, 25


@wants_library
@wants_cluster
class Losses(unittest.TestCase):
    """A worker that is killed. Its nanny starts another in its place."""

    @classmethod
    def setUpClass(cls):
        cls.stack = contextlib.ExitStack()
        cls.client = cls.stack.enter_context(local(WORKERS))

    @classmethod
    def tearDownClass(cls):
        cls.stack.close()

    def setUp(self):
        room = tempfile.TemporaryDirectory()
        self.addCleanup(room.cleanup)
        self.folder = room.name
        wait_for_workers(self.client, WORKERS)

    def expect_lost(self, shard, call, *words):
        with self.assertRaises(cluster.ShardLost) as caught:
            call(*words)
        self.assertEqual(caught.exception.shard, shard)
        return caught.exception

    def killed_soon(self, worker, seconds):
        """Kills a worker while the caller goes on. Returns a function that waits until that is done."""
        timer = threading.Timer(seconds, os.kill, (pid_of(self.client, worker), signal.SIGKILL))
        timer.start()
        return timer

    def test_a_lost_shard_is_named_and_the_others_go_on(self):
        table = cluster.Table(self.client, splits=[100, 200])
        rows = table.insert_many(range(0, 300, 3), [1] * 100)
        table.save(self.folder)
        table.insert(1, 1000)
        kill(self.client, worker_of(table, 1))
        error = self.expect_lost(1, table.count)
        self.assertEqual((error.low, error.high), (100, 200))
        self.assertIn("shard 1 (keys 100 to 199) is lost: ", str(error))
        self.others_go_on(table)
        self.each_call_that_meets_it_fails(table, rows)
        table.close()
        with cluster.Table.restore(self.client, self.folder) as restored:
            self.assertEqual((restored.count(), restored.sum(), restored.sum(100, 200)), (100, 100, 33))

    def others_go_on(self, table):
        self.assertEqual((table.count(0, 100), table.sum(200, 300)), (35, 33))
        self.assertEqual(table.count_many([0, 200], [100, 300]).tolist(), [35, 33])
        self.assertEqual((len(table.select(150, 150).rows), table.count(300, 300)), (0, 0))

    def each_call_that_meets_it_fails(self, table, rows):
        gone = rows[40:41]
        calls = [
            (table.sum, 150, 160),
            (table.select, 50, 250),
            (table.count_many, [0, 150], [1, 160]),
            (table.insert, 150, 1),
        ]
        calls += [
            (table.sum_many, [150], None),
            (table.delete_many, gone),
            (table.update_many, gone, [120], [1]),
            (len, table),
        ]
        calls += [(it,) for it in (table.settle, table.layout, table.checkpoint)] + [(table.save, self.folder)]
        for call, *words in calls:
            with self.subTest(call=call):
                self.expect_lost(1, call, *words)
        before = sorted(os.listdir(self.folder))
        error = self.expect_lost(1, table.insert_many, [10, 150, 250], [5, 6, 7])
        self.assertEqual((len(error.answers), table.sum(10, 11), table.sum(250, 251)), (2, 5, 7))
        self.assertEqual(list(table.delete_many(error.answers)), [True, True])
        self.assertEqual((len(before), sorted(os.listdir(self.folder))), (4, before))

    def test_what_it_says_of_its_keys(self):
        for key_type, splits, wanted in [
            ("int64", [-5, 5], ["keys below -5", "keys -5 to 4", "keys from 5"]),
            ("float64", [0.5, 2], ["keys below 0.5", "keys 0.5 up to 2.0", "keys from 2.0"]),
            ("uint64", [], ["all keys"]),
        ]:
            with cluster.Table(self.client, splits=splits, key_type=key_type) as table:
                self.assertEqual([table._lose(it, "").keys for it in range(table.shards)], wanted)

    def test_killed_amid_inserts(self):
        table = cluster.Table(self.client, splits=[0])
        keys, ones = np.arange(-2000, 2000), np.ones(4000, np.int64)
        table.insert_many(keys, ones)
        table.save(self.folder)
        timer = self.killed_soon(worker_of(table, 1), 0.3)
        placed = self.insert_until_lost(table, keys, ones)
        timer.join()
        self.assertGreater(placed, 1)
        self.assertEqual((table.count(None, 0), table.sum(None, 0)), (2000 * placed,) * 2)
        self.expect_lost(1, table.count)
        table.close()
        with cluster.Table.restore(self.client, self.folder) as restored:
            self.assertEqual((restored.count(), restored.sum(None, 0), restored.sum(0)), (4000, 2000, 2000))

    def insert_until_lost(self, table, keys, payloads):
        """How often the rows of shard 0 were placed, according to the calls, and how many rows there were before."""
        placed = 1
        while True:
            try:
                table.insert_many(keys, payloads)
                placed += 1
            except cluster.ShardLost as error:
                self.assertEqual((error.shard, set(numbers(error.answers >> np.uint64(54)))), (1, {0}))
                return placed + (len(error.answers) == 2000)

    def test_killed_amid_counts(self):
        table = cluster.Table(self.client, splits=[0])
        keys, lows = np.arange(-100_000, 100_000), np.arange(-1000, 1000)
        table.insert_many(keys, np.ones(len(keys), np.int64))
        table.save(self.folder)
        timer = self.killed_soon(worker_of(table, 1), 0.3)
        with self.assertRaises(cluster.ShardLost) as caught:
            while True:
                self.assertEqual(table.count_many(lows, lows + 10).tolist(), [10] * 2000)
                self.assertEqual(table.sum(), 200_000)
        timer.join()
        self.assertEqual((caught.exception.shard, table.count(None, 0)), (1, 100_000))
        table.close()
        with cluster.Table.restore(self.client, self.folder) as restored:
            self.assertEqual(restored.count_many(lows, lows + 10).tolist(), [10] * 2000)

    def load(self, has_shard):
        """Loads a table, and kills the worker of shard 1 during the load, or one without a shard: all rows are placed
        once, or the shard is lost."""
        import dask.array

        rows, load = dask.array.from_array(np.arange(600_000), chunks=10_000), cluster.Table._loaded

        def loaded(table, *words):
            victims = (
                {worker_of(table, 1)}
                if has_shard
                else set(self.client.nthreads()) - {worker_of(table, it) for it in (0, 1)}
            )
            self.timer = self.killed_soon(*victims, 0.2)
            return load(table, *words)

        with mock.patch.object(cluster.Table, "_loaded", loaded):
            with cluster.Table.from_dask(self.client, rows, shards=2) as table:
                self.timer.join()
                self.assertEqual((table.count(), table.sum(0, 1000)), (600_000, 499_500))

    def test_killed_amid_a_load(self):
        self.load(False)
        self.expect_lost(1, self.load, True)


@wants_library
@wants_cluster
@wants_gcc
class WithoutMemory(unittest.TestCase):
    """Memory is refused to one shard of two."""

    def test_random_calls_of_which_some_are_refused(self):
        with tempfile.TemporaryDirectory() as room, local(
            2, **refusing(room, REFUSE_ONE_IN=str(ONE_IN), REFUSE_SEED="3")
        ) as client:
            with cluster.Table(client, splits=[500], history=40) as table:
                on(client, worker_of(table, 1), clusters.refuse_memory)
                steps = RefusedSteps(self, table, random.Random(6))
                for _ in range(CALLS):
                    steps.step()
                self.assertGreater(steps.refused, 20)
                refused = struct.unpack("<QQ", pathlib.Path(room, "told").read_bytes())[1]
                self.assertGreaterEqual(refused, steps.refused)


class RefusedSteps:
    """Random calls of a table, whose shard 1 is refused memory now and then, and of a plain list. Keys from 500 are
    that shard's."""

    def __init__(self, test, table, rng):
        self.test, self.table, self.rng, self.model, self.refused = test, table, rng, PlainTable(), 0

    def step(self):
        """A call. A refused one has changed nothing but what it reports."""
        try:
            self.rng.choice(
                [self.insert, self.insert, self.delete, self.update, self.count, self.sum, self.many, self.select]
            )()
        except crackd.OutOfMemory as error:
            self.test.assertEqual((error.code, error.later), (8, 0))
            self.test.assertLess(error.done, 3)
            self.refused += 1

    def range(self):
        low = self.rng.randrange(1000)
        return low, low + self.rng.randrange(400)

    def done_of(self, shards, error):
        """Whether each row of a refused call is done: all of shard 0, and of shard 1 those before the refused one."""
        self.refused += 1
        left = error.done + error.later - shards.count(0)
        is_done = []
        for it in shards:
            is_done.append(it == 0 or left > 0)
            left -= it
        self.test.assertEqual((is_done.index(False), sum(is_done)), (error.done, error.done + error.later))
        return is_done

    def insert(self):
        rows = [
            (self.rng.randrange(1000), self.rng.randrange(-(2**63), 2**63)) for _ in range(self.rng.randrange(1, 8))
        ]
        try:
            placed = self.table.insert_many(*zip(*rows))
        except crackd.OutOfMemory as error:
            is_done = self.done_of([int(key >= 500) for key, _ in rows], error)
            rows, placed = [row for row, it in zip(rows, is_done) if it], error.answers
        self.test.assertEqual(len(placed), len(rows))
        self.model.rows.update(zip(numbers(placed), rows))

    def some(self):
        return self.rng.sample(sorted(self.model.rows), min(len(self.model.rows), self.rng.randrange(1, 5)))

    def changed(self, call, rows, *columns):
        """The rows of a call for many that it has changed."""
        try:
            self.test.assertEqual(list(call(rows, *columns)), [True] * len(rows))
        except crackd.OutOfMemory as error:
            rows = [row for row, it in zip(rows, self.done_of([it >> 54 for it in rows], error)) if it]
        return rows

    def delete(self):
        for row in self.changed(self.table.delete_many, self.some()):
            del self.model.rows[row]

    def update(self):
        rows = self.some()
        changed = {row: (self.model.rows[row][0], self.rng.randrange(100)) for row in rows}
        if rows:
            done = self.changed(self.table.update_many, rows, *zip(*changed.values()))
            self.model.rows.update((row, changed[row]) for row in done)

    def count(self):
        ends = self.range()
        self.test.assertEqual(self.table.count(*ends), self.model.count(*ends))

    def sum(self):
        ends = self.range()
        self.test.assertEqual(self.table.sum(*ends), self.model.sum(*ends))

    def many(self):
        pairs = [self.range() for _ in range(3)]
        self.test.assertEqual(self.table.sum_many(*zip(*pairs)), [self.model.sum(*it) for it in pairs])
        self.test.assertEqual(numbers(self.table.count_many(*zip(*pairs))), [self.model.count(*it) for it in pairs])

    def select(self):
        ends = self.range()
        got = self.table.select(*ends)
        self.test.assertEqual(
            dict(zip(numbers(got.rows), zip(numbers(got.keys), numbers(got.payloads)))), self.model.inside(*ends)
        )


if __name__ == "__main__":
    unittest.main()
