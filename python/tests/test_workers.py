"""The code that runs on a cluster's workers, without a cluster: columns, samples, files, and arrays as they arrive."""

import copy
import os
import pathlib
import pickle
import tempfile
import unittest
from unittest import mock

from clusters import wants_cluster
from ways import crackd, np, wants_library, wants_shards

from crackd import pool
from crackd.keys import Keys

SAMPLED = 10_000


class Worker:
    """Stands in for Dask on a worker: shards by the keys of their actors."""

    def __init__(self, shards):
        self.shards, self.asked = shards, []

    def actor(self, _, address, key, worker):
        worker.asked.append(key)
        return self.shards[key]

    def standing_in(self):
        return mock.patch.multiple(crackd.shard, get_worker=lambda: self, Actor=self.actor)


class Answered:
    """A shard whose answers are there at once, or errors."""

    def __init__(self, shard):
        self.shard = shard

    def ask(self, name, words):
        future = mock.Mock()
        future.done.return_value = True
        try:
            future.result.return_value = self.shard.ask(name, words)
        except crackd.Error as error:
            future.result.side_effect = error
        return future


@wants_library
@wants_cluster
class Blocks(unittest.TestCase):
    """Blocks of rows that a task loads into three shards, of the keys below 10, below 20, and from 20."""

    def setUp(self):
        self.kind, self.cuts = Keys("u"), np.array([10, 20], np.uint64)
        self.shards = [crackd.shard.Shard(self.kind, [], {}) for _ in range(3)]
        self.worker = Worker({f"key {at}": Answered(it) for at, it in enumerate(self.shards)})
        self.places = [crackd.shard.Place("address", f"key {at}", it.token) for at, it in enumerate(self.shards)]
        room = tempfile.TemporaryDirectory()
        self.addCleanup(room.cleanup)
        self.path = os.path.join(room.name, "rows.npy")

    def rows(self):
        """The rows of each shard, in the order of their numbers."""
        return [list(zip(*(column.tolist() for column in it.rows.select(0, 2**64 - 1)[1:]))) for it in self.shards]

    def test_each_row_goes_to_its_shard_once(self):
        keys, payloads = np.array([20, 5, 10, 19, 9, 25, 5], np.uint64), np.arange(7)
        for number, asked in [(0, 3), (0, 3), (0, 3)]:
            with self.worker.standing_in():
                self.assertEqual(crackd.shard.load_rows(number, keys, payloads, self.places, self.cuts), 7)
            self.assertEqual(sorted(self.worker.asked), ["key 0", "key 1", "key 2"])
            self.worker.asked.clear()
            wanted = [[(5, 1), (9, 4), (5, 6)], [(10, 2), (19, 3)], [(20, 0), (25, 5)]]
            self.assertEqual(self.rows(), wanted)
        with self.worker.standing_in():
            self.assertEqual(crackd.shard.load_rows(1, keys[:1], payloads[:1], self.places, self.cuts), 1)
        self.assertEqual((self.worker.asked, len(self.rows()[2])), (["key 2"], 3))

    def test_a_shard_that_was_started_again_takes_nothing(self):
        places = [it._replace(token="another") if it.key == "key 1" else it for it in self.places]
        with self.worker.standing_in(), self.assertRaises(crackd.shard.ShardFailed):
            crackd.shard.load_rows(0, np.array([5, 15], np.uint64), np.arange(2), places, self.cuts)
        self.assertEqual(self.rows()[1], [])

    def test_a_load_that_fails_is_done_again(self):
        words = self.shards[0].token, 0, np.array([5, 6], np.uint64), np.array([1, 2])
        with mock.patch.object(self.shards[0].rows, "insert_many", side_effect=crackd.OutOfMemory(8)):
            self.assertRaises(crackd.OutOfMemory, self.shards[0].ask, "load", words)
        for _ in range(2):
            self.shards[0].ask("load", words)
        self.assertEqual(self.rows()[0], [(5, 1), (6, 2)])

    def test_a_shard_that_cannot_be_reached(self):
        for fault, said in [(ConnectionError("it is gone"), "it is gone"), (OSError(), "OSError")]:
            shard = mock.Mock()
            shard.ask.return_value.done.return_value = True
            shard.ask.return_value.result.side_effect = fault
            self.worker.shards["key 1"] = shard
            with self.worker.standing_in(), self.assertRaises(crackd.shard.LoadFailed) as caught:
                crackd.shard.load_rows(0, np.array([5, 15], np.uint64), np.arange(2), self.places, self.cuts)
            found = pickle.loads(pickle.dumps(caught.exception))
            for error in (caught.exception, found):
                self.assertEqual((error.shard, error.why), (1, said))
                self.assertEqual(str(error), f"shard 1 can't be reached: {said}")

    def test_blocks_of_collections(self):
        import pandas

        frame = pandas.DataFrame({"a": [25, 5, 15], "b": [7, 8, 9]}, index=[2, 2, 2])
        table = np.array([[7, 25], [8, 5], [9, 15]])
        for number, (block, key, payload, wanted) in enumerate([
            (frame, "a", "b", [7, 8, 9]),
            (table, 1, 0, [7, 8, 9]),
            (frame, "a", None, [100, 101, 102]),
            (table, 1, None, [100, 101, 102]),
            (frame["a"], None, None, [100, 101, 102]),
            (table[:, 1], None, None, [100, 101, 102]),
        ]):
            with self.worker.standing_in():
                words = (self.kind, crackd.decimals.INTEGERS), self.places, self.cuts
                found = crackd.shard.load_block(number, block, key, payload, 100, 3, *words)
                self.assertEqual((found, [it[-1][0] for it in self.rows()]), (3, [5, 15, 25]))
                self.assertEqual([it[-1][1] for it in self.rows()], [wanted[1], wanted[2], wanted[0]])
                for count in (2, 4):
                    with self.assertRaisesRegex(crackd.shard.ShardFailed, f"had {count} rows .* has 3 now"):
                        crackd.shard.load_block(9, block, key, payload, 100, count, *words)
            count, sample = crackd.shard.sample_of_block(block, key, self.kind)
            self.assertEqual((count, sample.tolist()), (3, [25, 5, 15]))
        self.assertEqual(sum(map(len, self.rows())), 18)

    def test_files(self):
        rows = np.zeros(7, crackd.saved.row_dtype(self.kind))
        rows["key"], rows["payload"] = [25, 5, 15, 6, 16, 26, 7], range(7)
        np.save(self.path, rows)
        self.assertEqual(crackd.shard.rows_of_file(self.path, 7, self.kind).tolist(), rows.tolist())
        count, sample = crackd.shard.sample_of_file(self.path, 7, self.kind)
        self.assertEqual((count, sample.tolist()), (7, rows["key"].tolist()))
        with self.worker.standing_in():
            for number, (begin, end) in enumerate([(1, 4), (4, 7), (0, 1)]):
                words = self.path, 7, begin, end, self.kind, self.places, self.cuts
                self.assertEqual(crackd.shard.load_file(number, *words), end - begin)
        self.assertEqual(self.rows(), [[(5, 1), (6, 3), (7, 6)], [(15, 2), (16, 4)], [(26, 5), (25, 0)]])
        for count, kind in [(6, "uint64"), (8, "uint64"), (7, "int64"), (7, "float64"), (7, "datetime64[s]")]:
            with self.assertRaisesRegex(crackd.BadSave, f"hasn't {count} rows with keys of"):
                crackd.shard.rows_of_file(self.path, count, Keys.named(kind))
        whole = pathlib.Path(self.path).read_bytes()
        for part in (b"", whole[:5], whole[:100], whole[:-1], b"x" * 200):
            pathlib.Path(self.path).write_bytes(part)
            self.assertRaises(crackd.BadSave, crackd.shard.rows_of_file, self.path, 7, self.kind)
        self.assertRaises(crackd.BadSave, crackd.shard.rows_of_file, self.path + "x", 7, self.kind)

    def test_samples(self):
        for size in (0, 1, 9, SAMPLED, 2 * SAMPLED - 1, 2 * SAMPLED, 25 * SAMPLED + 7):
            count, found = crackd.shard.sample_of(np.arange(size))
            step = max(1, size // SAMPLED)
            self.assertEqual((count, found.tolist()), (size, list(range(0, size, step))))


@wants_cluster
class Waiting(unittest.TestCase):
    """An answer is waited for as long as its shard is there."""

    def future(self, *results):
        """An answer that is done once only one of these is left, of which errors are raised."""
        results, future = list(results), mock.Mock()

        def result(timeout=None):
            self.assertTrue(timeout is not None or len(results) == 1)
            found = results.pop(0) if len(results) > 1 else results[0]
            if isinstance(found, BaseException):
                raise found
            return found

        future.done, future.result = lambda: len(results) == 1, result
        return future

    def test_until_it_comes(self):
        late, gone = TimeoutError(), lambda: False
        self.assertEqual(crackd.shard.waited(self.future(7), gone), 7)
        self.assertEqual(crackd.shard.waited(self.future(late, late, late, 7), lambda: True), 7)
        # the answer came before its shard was gone
        self.assertEqual(crackd.shard.waited(self.future(late, 7), gone), 7)
        self.assertRaises(KeyError, crackd.shard.waited, self.future(KeyError(5)), gone)
        self.assertRaises(KeyError, crackd.shard.waited, self.future(late, KeyError(5)), gone)

    def test_until_its_shard_is_gone(self):
        late, there = TimeoutError(), [True, True, False]
        with self.assertRaisesRegex(ConnectionError, "its worker is gone"):
            crackd.shard.waited(self.future(*[late] * 9, 7), lambda: there.pop(0))
        self.assertEqual(there, [])

    def test_where_an_actor_is(self):
        client = mock.Mock()
        client.has_what = lambda workers: {it: ("key 1", "key 2") for it in workers if it == "one"}
        for address, key, wanted in [("one", "key 1", True), ("one", "key 3", False), ("two", "key 1", False)]:
            self.assertEqual(crackd.shard.has_actor(client, address, key), wanted)
            with mock.patch.object(crackd.shard, "get_client", lambda: client):
                self.assertEqual(crackd.shard.is_there(crackd.shard.Place(address, key, "token")), wanted)


@wants_library
@wants_cluster
class Arrays(unittest.TestCase):
    """Arrays as they come over a network, at any address, or as a view."""

    def laid_out(self, values, dtype):
        plain = np.array(values, dtype)
        odd, frozen = np.zeros(plain.nbytes + 1, np.uint8), np.frombuffer(plain.tobytes(), dtype)
        odd[1:] = plain.view(np.uint8)
        wide = np.zeros(2 * len(plain), dtype)
        wide[::2] = plain
        return plain, odd[1:].view(dtype), frozen, wide[::2], plain[::-1].copy()[::-1]

    def test_each_call_for_many(self):
        given = [self.laid_out([25, 5, 15], np.uint64), self.laid_out([1, 2, 3], np.int64)]
        for keys, payloads in zip(*given):
            shard = crackd.shard.Shard(Keys("u"), [10, 20], {})

            def ask(name, *words):
                token, found = shard.ask(name, words)
                self.assertEqual(token, shard.token)
                return found

            rows = ask("insert_many", keys, payloads)
            self.assertEqual(rows.tolist(), [2 << 48, 0, 1 << 48])
            for each in self.laid_out(rows.tolist(), np.uint64):
                self.assertEqual(ask("update_many", each, keys, payloads).tolist(), [1, 1, 1])
            self.assertEqual(ask("count_many", keys, keys).tolist(), [1, 1, 1])
            self.assertEqual(ask("sum_many", keys, keys), [1, 2, 3])
            ask("load", shard.token, 0, keys, payloads)
            self.assertEqual((ask("count", 0, 99), ask("sum", 0, 99), ask("begin")), (6, 12, 3))
            for each, gone in zip(self.laid_out(rows.tolist(), np.uint64), [1, 0, 0, 0, 0]):
                self.assertEqual(ask("delete_many", each).tolist(), [gone] * 3)

    def test_what_is_refused_amid(self):
        shard = crackd.shard.Shard(Keys("u"), [], {"cells": 2})
        for error in (self.refused(shard), copy.copy(self.refused(shard))):
            self.assertEqual((error.code, error.done), (9, 2 if len(error.answers) else 0))
        found = pickle.loads(pickle.dumps(self.refused(shard)))
        self.assertEqual((found.done, len(found.answers)), (0, 0))

    def refused(self, shard):
        with self.assertRaises(crackd.Full) as caught:
            shard.ask("insert_many", (np.arange(3, dtype=np.uint64), np.arange(3)))
        self.assertEqual(len(caught.exception.answers), caught.exception.done)
        return caught.exception


class Processors(unittest.TestCase):
    """How many processors there are."""

    def test_those_that_the_process_may_use(self):
        for some in ({0}, {1, 5}, {0, 1, 2, 7}):
            with mock.patch.object(os, "sched_getaffinity", lambda _, some=some: some, create=True):
                self.assertEqual(pool.processors(), len(some))
        with mock.patch.object(pool, "os", mock.Mock(spec=["cpu_count"])):
            for count, wanted in [(3, 3), (None, 1)]:
                pool.os.cpu_count.return_value = count
                self.assertEqual(pool.processors(), wanted)


@wants_shards
class Described(unittest.TestCase):
    """What a table of several shards says of itself."""

    def test_shards_and_memory(self):
        # about a third of a megabyte for each partition that has rows
        for shards, partitions, size in [(1, 1, 0.3), (2, 2, 0.6), (3, 6, 1.9)]:
            splits = range(10, 10 * partitions, 10)
            with crackd.Table(splits=splits, shards=shards, key_type="int64") as table:
                said = f"{partitions} partition{'s' if partitions > 1 else ''}, policy auto, memory about "
                said = said if shards == 1 else f"{shards} shards, {said}"
                self.assertEqual(repr(table), f"<crackd.Table: 0 rows, int64 keys, {said}0.0 MB>")
                table.insert_many(range(10 * partitions), range(10 * partitions))
                self.assertEqual(repr(table), f"<crackd.Table: {10 * partitions} rows, int64 keys, {said}{size} MB>")


if __name__ == "__main__":
    unittest.main()
