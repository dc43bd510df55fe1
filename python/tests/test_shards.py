"""A shard, and how a cluster's table combines the answers of several shards, without a cluster."""

import json
import os
import pathlib
import random
import tempfile
import threading
import unittest
from bisect import bisect_right
from unittest import mock

from clusters import cluster, wants_cluster
from kinds import KINDS, value
from ways import crackd, np, wants_library

if cluster is not None:
    from crackd import folders

LOST, LAST = "its worker is gone", 2**64 - 1


def numbers(it):
    return [int(each) for each in it]


class Steps:
    """Writes down what is made sure of on a disk, by file names, and what gets its name there."""

    def __init__(self):
        self.steps, self.sync, self.replace = [], os.fsync, os.replace

    def synced(self, descriptor):
        self.steps.append(("sync", pathlib.Path(os.readlink(f"/proc/self/fd/{descriptor}")).name))
        self.sync(descriptor)

    def replaced(self, old, new):
        self.steps.append(("replace", pathlib.Path(new).name))
        self.replace(old, new)

    def written(self):
        return mock.patch.multiple(os, fsync=self.synced, replace=self.replaced)


@wants_library
@wants_cluster
class Saves(unittest.TestCase):
    """What a shard writes."""

    def setUp(self):
        room = tempfile.TemporaryDirectory()
        self.addCleanup(room.cleanup)
        self.folder = pathlib.Path(room.name)

    def shard(self, kind, keys, payloads, cuts=()):
        shard = crackd.shard.Shard(kind, list(cuts), {})
        shard.rows.insert_many(kind.many(keys), np.array(payloads, np.int64))
        return shard

    def test_a_file_is_on_the_disk_before_it_has_its_name(self):
        shard, steps = self.shard(crackd.keys.Keys("i"), [1, 2], [3, 4]), Steps()
        with steps.written():
            self.assertEqual(shard.ask("save", (f"{self.folder}/rows.npy",)), (shard.token, (2, 7)))
        (part, name), *then = steps.steps
        self.assertRegex((part, name)[1], r"^rows\.npy\.[0-9a-f]{16}\.part$")
        self.assertEqual((part, then), ("sync", [("replace", "rows.npy"), ("sync", self.folder.name)]))
        self.assertEqual(os.listdir(self.folder), ["rows.npy"])

    def test_a_file_that_cannot_be_written_is_not_left(self):
        shard = self.shard(crackd.keys.Keys("i"), [1, 2], [3, 4])
        for name in ("fsync", "replace"):
            with self.subTest(name), mock.patch.object(os, name, side_effect=OSError(28, "No space left")):
                with self.assertRaises(crackd.shard.ShardFailed) as caught:
                    shard.ask("save", (f"{self.folder}/rows.npy",))
                self.assertIn("No space left", str(caught.exception))
                self.assertEqual(os.listdir(self.folder), [])

    def test_rows_of_each_kind(self):
        for kind in KINDS:
            keys = crackd.keys.Keys.named(kind.key_type).with_decimals(kind.decimals).with_zone(kind.zone)
            cuts = numbers(keys.many(kind.given(kind.keys[1:3])))
            shard = self.shard(keys, kind.given(kind.keys), kind.payloads, cuts)
            with self.subTest(kind.name):
                path = str(self.folder / "rows.npy")
                self.assertEqual(shard.save(path), (len(kind.keys), sum(kind.payloads)))
                rows = np.load(path)
                self.assertEqual((rows.dtype["key"], rows.dtype["payload"]), (np.dtype(kind.key_type), np.int64))
                found = list(zip(map(kind.exact, rows["key"]), rows["payload"].tolist()))
                self.assertEqual(sorted(found), sorted(zip(map(value, kind.keys), kind.payloads)))

    def test_a_manifest_is_on_the_disk_before_it_has_its_name(self):
        steps, path = Steps(), self.folder / "manifest.json"
        with steps.written():
            manifest = folders.write_manifest(self.folder, {"keys": "int64"})
        self.assertEqual(steps.steps[1:], [("replace", "manifest.json"), ("sync", self.folder.name)])
        self.assertRegex(steps.steps[0][1], r"^manifest\.json\.[0-9a-f]{16}\.part$")
        self.assertEqual(json.loads(path.read_text()), manifest)
        self.assertEqual((manifest["form"], manifest["keys"], os.listdir(self.folder)), (3, "int64", ["manifest.json"]))

    def test_a_block_is_loaded_once_and_by_its_own_shard(self):
        shard = self.shard(crackd.keys.Keys("u"), [], [])
        words = np.array([5, 6], np.uint64), np.array([7, 8])
        for number, token, wanted in [(0, shard.token, 2), (0, shard.token, 2), (1, shard.token, 4), (2, "other", 4)]:
            if token == shard.token:
                self.assertEqual(shard.ask("load", (token, number, *words)), (token, None))
            else:
                self.assertRaises(crackd.shard.ShardFailed, shard.ask, "load", (token, number, *words))
            self.assertEqual(shard.ask("count", (0, 2**64 - 1)), (shard.token, wanted))

    def test_what_a_shard_refuses(self):
        shard = crackd.shard.Shard(crackd.keys.Keys("u"), [100], {"cells": 2})
        with self.assertRaises(crackd.Full) as caught:
            shard.ask("insert_many", (np.array([1, 2, 3], np.uint64), np.array([1, 2, 3])))
        self.assertEqual((caught.exception.code, caught.exception.done), (9, 2))
        with self.assertRaises(crackd.shard.ShardFailed) as caught:
            shard.ask("count", ("x", 1))
        self.assertIn("ArgumentError", str(caught.exception))
        self.assertEqual(shard.ask("begin", ()), (shard.token, 2))
        shard.ask("close", ())
        self.assertRaises(crackd.Closed, shard.ask, "count", (1, 2))


@wants_cluster
class FirstErrors(unittest.TestCase):
    """Which of the errors of several shards a call raises."""

    def lost(self, shard):
        return cluster.ShardLost(shard, None, 5, "keys below 5", LOST)

    def first(self, errors):
        with self.assertRaises(crackd.Error) as caught:
            crackd.routing.raise_first(errors)
        return caught.exception

    def test_a_lost_shard_is_first(self):
        full, other = crackd.Full(9, 0), crackd.OutOfMemory(8, 2)
        for errors in ({0: full, 1: self.lost(1)}, {0: self.lost(0), 1: full}, {0: full, 1: self.lost(1), 2: other}):
            found = self.first(errors)
            self.assertIsInstance(found, cluster.ShardLost)
            self.assertEqual((found.low, found.high, found.why), (None, 5, LOST))
            # each call raises an error of its own
            self.assertNotIn(found, list(errors.values()))
        found = self.first({3: self.lost(3), 1: self.lost(1), 2: self.lost(2), 0: full})
        self.assertEqual(found.shard, 1)

    def test_else_the_error_of_the_first_item(self):
        errors = {0: crackd.Full(9, 7), 1: crackd.OutOfMemory(8, 3), 2: crackd.LifeOver(10, 3)}
        self.assertIs(self.first(errors), errors[1])
        errors[2] = crackd.LifeOver(10, 0)
        self.assertIs(self.first(errors), errors[2])
        crackd.routing.raise_first({})

    def test_a_call_for_many(self):
        shards, is_done = np.array([0, 1, 0, 2, 1, 0]), np.array([True, True, False, True, False, True])
        errors = {0: crackd.Full(9, 1), 1: crackd.OutOfMemory(8, 1)}
        found = crackd.routing.error_of(errors, shards, is_done, "rows")
        self.assertIsInstance(found, crackd.Full)
        self.assertEqual((found.code, found.done, found.later, found.answers), (9, 2, 2, "rows"))
        found = crackd.routing.error_of({**errors, 2: self.lost(2), 1: self.lost(1)}, shards, is_done, "rows")
        self.assertEqual((type(found), found.shard, found.answers), (cluster.ShardLost, 1, "rows"))
        # an interrupted call may have done all rows
        stop = KeyError("a handler's")
        for done in (is_done, np.ones(6, bool)):
            found = crackd.routing.error_of({**errors, 2: stop}, shards, done, "rows")
            self.assertEqual((found is stop, found.answers), (True, "rows"))
        # a MemoryError that isn't the library's, in a shard that has done nothing
        found = crackd.routing.error_of({0: MemoryError("numpy's")}, shards, is_done, "rows")
        done = int(np.argmin(is_done))
        self.assertIs(type(found), crackd.OutOfMemory)
        self.assertEqual((found.done, found.later), (done, int(np.count_nonzero(is_done[done:]))))
        self.assertEqual(found.answers, "rows")
        failed = crackd.shard.ShardFailed("a full disk")
        found = crackd.routing.error_of({0: failed}, shards, is_done, "rows")
        self.assertEqual((found is failed, found.answers), (True, "rows"))


@wants_cluster
class LostShards(unittest.TestCase):
    """Shards that a table has lost."""

    def test_they_are_not_asked_again(self):
        table, asked = cluster.Table.__new__(cluster.Table), []
        lost = cluster.ShardLost(1, 5, None, "keys from 5", LOST)
        table._lock, table._futures, table._tokens = threading.RLock(), [object()], ["first", "second"]
        table._lost, table._actors, table._client = {1: lost}, ["an actor", "another"], mock.Mock(status="running")
        table._start = lambda shard, actor, *_: asked.append((shard, actor)) or shard
        table._result = lambda shard, *_: (table._tokens[shard], 7)
        cuts = {0: crackd.routing.Cut(()), 1: crackd.routing.Cut(())}
        self.assertEqual(table._ask(cuts, "begin"), ({0: 7}, {1: lost}))
        self.assertEqual(asked, [(0, "an actor")])
        with self.assertRaises(cluster.ShardLost) as caught:
            table._all(cuts, "begin")
        self.assertEqual((caught.exception.shard, caught.exception is lost), (1, False))


@wants_cluster
class Ranges(unittest.TestCase):
    """Many ranges over several shards, whose answers are given here."""

    FIRSTS, LASTS = np and np.array([0, 1, 5, 12, 25], np.uint64), np and np.array([9, 0, 15, 29, 26], np.uint64)

    def table(self, answers, errors):
        """A table of the shards 0 to 9, 10 to 19, and from 20, which give these answers and errors."""
        table = cluster.Table.__new__(cluster.Table)
        table._shard_cuts, table.shards, table.asked = np.array([10, 20], np.uint64), 3, {}

        def ask(cuts, name):
            table.asked = {shard: [it.tolist() for it in cut.words()] for shard, cut in cuts.items()}
            return answers, errors

        table._ask = ask
        return table

    def test_each_shard_is_asked_what_it_may_have(self):
        answers = {0: [1, 2], 1: [10, 20], 2: [100, 200]}
        for call in ("_count_many", "_sum_many"):
            table = self.table({it: np.array(found) for it, found in answers.items()}, {})
            found = getattr(table, call)(self.FIRSTS, self.LASTS)
            self.assertEqual(numbers(found), [1, 0, 12, 120, 200])
            # if an end of the range is in another shard, a shard is asked for all its keys on that side
            wanted = {0: [[0, 5], [9, LAST]], 1: [[0, 12], [15, LAST]], 2: [[0, 25], [29, 26]]}
            self.assertEqual(table.asked, wanted)

    def test_the_first_range_that_was_refused(self):
        for errors, done in [({1: 0}, 2), ({1: 1}, 3), ({2: 1}, 4), ({2: 1, 1: 1}, 3), ({0: 1, 2: 0}, 2)]:
            raised = {shard: crackd.OutOfMemory(8, at) for shard, at in errors.items()}
            for call in ("_count_many", "_sum_many"):
                with self.subTest(errors, call=call), self.assertRaises(crackd.OutOfMemory) as caught:
                    getattr(self.table({}, dict(raised)), call)(self.FIRSTS, self.LASTS)
                self.assertEqual((caught.exception.code, caught.exception.done), (8, done))


@wants_cluster
class Parts(unittest.TestCase):
    """How rows and keys are divided."""

    def test_the_shard_of_each_key(self):
        cuts = np.array([1, 5, 2**63, 2**64 - 1], np.uint64)
        keys = np.array([0, 1, 4, 5, 6, 2**63 - 1, 2**63, 2**64 - 2, 2**64 - 1], np.uint64)
        self.assertEqual(crackd.routing.shard_of(cuts, keys).tolist(), [0, 1, 1, 2, 2, 2, 3, 3, 4])
        self.assertEqual(crackd.routing.shard_of(cuts[:0], keys).tolist(), [0] * 9)
        many = np.arange(1, 40, dtype=np.uint64)
        self.assertEqual(crackd.routing.shard_of(many, keys[:6]).tolist(), [0, 1, 4, 5, 6, 39])
        for count in (14, 15, 16, 17, 62, 63, 64, 65, 300):
            cuts, keys = np.arange(10, 10 * count + 1, 10, np.uint64), np.arange(10 * count + 20, dtype=np.uint64)
            for few in ((), (crackd.routing.FEW_PARTS,)):
                self.assertEqual(crackd.routing.shard_of(cuts, keys, *few).tolist(), [
                    min(it // 10, count) for it in keys.tolist()
                ])

    def test_the_partition_of_each_key(self):
        drawn, top = random.Random(1), 2**64 - 1
        even, near, far = range(1, 640, 10), [5, 6, 7, 8, 2**63], [it**10 for it in range(1, 64)]
        for cuts in ([1], [top], [1, top], even, range(2**50, 2**50 + 255), near, [*near, top], far):
            keys = {it + by for it in (0, *cuts, top) for by in (-1, 0, 1) if 0 <= it + by <= top}
            keys.update(drawn.randrange(2**it) for it in range(1, 65) for _ in range(9))
            keys = drawn.sample(sorted(keys), len(keys))
            for few in (1, 1000):
                with mock.patch.multiple(crackd.routing, FEW_SPLITS=few, FEW_KEYS=few):
                    finder = crackd.routing.PartFinder(np.array(cuts, np.uint64), len(keys))
                self.assertEqual(finder._has_table, few == 1 and cuts not in (near, [*near, top], far))
                found = finder.find(np.array(keys, np.uint64))
                self.assertEqual((found.dtype, found.tolist()), (np.uint8, [bisect_right(cuts, it) for it in keys]))

    def test_blocks_keep_the_order_of_rows(self):
        # shard numbers that differ by 256, or whose order changes if they are cut to 8 bits
        far = [[256, 1, 257, 0, 512, 255, 256, 1], [it * 389 % 1024 for it in range(3000)]]
        near = [[it * 7919 % 3 for it in range(5000)], *([it * 7 % most for it in range(99)] for most in (16, 17))]
        for shards in ([], [3], [0, 0, 0], [5, 0, 5, 1, 0, 5], [1023, 0, 1023], *near, *far):
            found = {it.shard: it.places.tolist() for it in crackd.routing.blocks_of(np.array(shards, np.int64))}
            wanted = {it: [at for at, shard in enumerate(shards) if shard == it] for it in sorted(set(shards))}
            self.assertEqual((found, list(found)), (wanted, list(wanted)))

    def test_splits(self):
        for cuts in ([], [1], [1, 2, 3], range(1, 1024)):
            self.assertEqual(crackd.routing.checked_splits(np.array(cuts, np.uint64)).tolist(), list(cuts))
        for cuts in ([0], [0, 1], [2, 2], [1, 3, 2]):
            self.assertRaises(crackd.BadSplits, crackd.routing.checked_splits, np.array(cuts, np.uint64))
        self.assertRaises(ValueError, crackd.routing.checked_splits, np.arange(1, 1025, dtype=np.uint64))

    def test_sums_are_exact(self):
        for payloads in ([], [2**63 - 1] * 9, [-(2**63)] * 9, [-1] * 5, [-(2**63), 2**63 - 1, 2**32, -(2**32), 2**31]):
            self.assertEqual(crackd.shard.exact_sum(np.array(payloads, np.int64)), sum(payloads))

    def test_what_is_no_manifest(self):
        with tempfile.TemporaryDirectory() as room:
            path = pathlib.Path(room) / "manifest.json"
            whole = '{"form": 2, "keys": "int64", "splits": [5], "files": ["a", "b"], "counts": [1, 2], "sums": [3, 4]}'
            path.write_text(whole)
            self.assertEqual(folders.read_manifest(path)["counts"], [1, 2])
            for old, new in [
                ("[5]", "[0]"),
                ("[5]", "[5.0]"),
                ("[5]", "[-5]"),
                ("[5]", f"[{2**64}]"),
                ("[1, 2]", "[1, true]"),
                ("[1, 2]", "[1, -2]"),
                ("[3, 4]", '["3", 4]'),
                ("[3, 4]", "[3, NaN]"),
                ('"b"', '"../b"'),
                ('"b"', "2"),
                ('"form": 2', '"form": 2, "zone": "UTC"'),
                ('"form": 2', '"form": 2, "crc32": 5'),
                (whole, "\u00e9"),
                (whole, "[" * 100_000),
                ('"form": 2', '"form": 3'),
                ('"form": 2, ', ""),
                ("[5]", "[]"),
                ("[5]", "[5, 6]"),
                ('["a", "b"]', '["a"]'),
                ("[1, 2]", "[1, 2, 3]"),
                ("[3, 4]", "[3]"),
                ("[3, 4]", "3"),
                ("int64", "text"),
                ("int64", "datetime64"),
                ("{", ""),
                (whole, "[]"),
                (whole, ""),
            ]:
                path.write_text(whole.replace(old, new, 1))
                with self.subTest(old=old, new=new):
                    self.assertRaisesRegex(cluster.BadSave, "manifest.json", folders.read_manifest, path)


if __name__ == "__main__":
    unittest.main()
