"""Tables on a Dask cluster on this machine: the cases of a table, what is sent to which shard, and what is saved and
restored."""

import contextlib
import json
import os
import pathlib
import random
import subprocess
import sys
import tempfile
import unittest
from unittest import mock

import clusters
from clusters import cluster, local, on, wants_cluster, wants_pandas, worker_of
from test_table import Cases, PlainTable, numbers
from ways import crackd, np, wants_library

PAGE = pathlib.Path(crackd.__file__).resolve().parents[2] / "docs" / "CLUSTER.md"
WORKERS, CALLS = 3, 2500
LEAST, GREATEST = -(2**63), 2**63 - 1
MODULE = {}


def begin():
    """Starts the cluster of a module or class of tests."""
    if cluster is not None and crackd.library.find_library() is not None:
        MODULE["stack"] = contextlib.ExitStack()
        MODULE["client"] = MODULE["stack"].enter_context(local(WORKERS))


def end():
    if MODULE:
        MODULE["stack"].close()


setUpModule, tearDownModule = begin, end


class OnWorkers:
    """Tables on the workers of the module's cluster."""

    @contextlib.contextmanager
    def table(self, sample=(), rows=None, partitions=None, **options):
        with cluster.Table(MODULE["client"], sample, rows, shards=partitions, **options) as table:
            yield table


@wants_library
@wants_cluster
class OnACluster(OnWorkers, Cases, unittest.TestCase):
    """The cases of a table."""

    def test_bad_openings(self):
        wrong = [
            ({"history": 0}, crackd.BadLimit),
            ({"cells": 2**24}, crackd.BadLimit),
            ({"splits": [5, 5]}, crackd.BadSplits),
        ]
        wrong += [({"policy": "none"}, ValueError), ({"partitions": 0}, ValueError), ({"partitions": 2000}, ValueError)]
        wrong += [
            ({"splits": range(1024)}, ValueError),
            ({"splits": [LEAST]}, crackd.BadSplits),
            ({"splits": [2**63]}, OverflowError),
        ]
        wrong += [({"key_type": it}, TypeError) for it in ("text", "complex128", complex)] + [({"limit": 5}, TypeError)]
        for options, kind in wrong:
            with self.subTest(options), self.assertRaises(kind), self.table(**options):
                pass

    def test_rows_are_by_default_as_many_as_the_sample(self):
        for rows, parts in [(None, 3 * 4), (3 * 8192, 3 * 2)]:
            with self.table(range(3 * 4 * 4096), rows) as table:
                self.assertEqual((table.shards, table.partitions), (WORKERS, parts))

    def test_layouts_add_up(self):
        with self.table(range(1000), partitions=3) as table:
            rows = table.insert_many(range(1000), range(1000))
            table.count(100, 200), table.settle(), table.delete_many(rows[:3])
            layout = table.layout()
            self.assertEqual((layout.rows, [it.partition for it in layout.parts], table.shards), (997, [0, 64, 128], 3))
            ends = [it.ends for it in layout.parts]
            self.assertEqual((ends[0][0], ends[-1][1], ends[0][1], ends[1][1]), (0, 2**64, ends[1][0], ends[2][0]))

    def test_splits_within_a_shard_are_above_its_first_key(self):
        keys = np.repeat([1, 5, 7, 9], [3000, 9000, 9000, 3000])
        with self.table(keys, partitions=2) as table:
            layout = table.layout()
            self.assertEqual((table.shards, len(layout.parts)), (2, table.partitions))
            self.assertTrue(all(low < high for low, high in (it.ends for it in layout.parts)))
            rows = table.insert_many(keys, np.arange(len(keys)))
            self.assertEqual(table.layout().rows, len(np.unique(rows)))
            self.assertEqual(table.count_by([1, 5, 7, 9, None]).tolist(), [3000, 9000, 9000, 3000])

    def test_policies_answer_the_same(self):
        for policy in crackd.base.POLICIES:
            with self.table(range(100), policy=policy) as table:
                rows = table.insert_many(range(100), [1] * 100)
                table.delete_many(rows[60:70])
                self.assertEqual((table.sum(10, 90), table.count(60, 71), table.shards), (70, 1, WORKERS))

    def test_random_steps_agree_with_a_list(self):
        rng = random.Random(5)
        with self.table(range(1000), 40_000, history=100) as table:
            self.assertGreater(table.partitions, 2 * table.shards)
            self.assertEqual(table.partitions, len(table.layout().parts))
            steps = RandomSteps(self, table, rng)
            for _ in range(CALLS):
                steps.step()


class RandomSteps:
    """Random calls of a table and of a plain list."""

    def __init__(self, test, table, rng):
        self.test, self.table, self.rng, self.model, self.gone = test, table, rng, PlainTable(), []
        changes = [
            self.insert_many,
            self.insert,
            self.delete_many,
            self.delete,
            self.update_many,
            self.update,
            self.far_update,
        ]
        questions = [self.count, self.sum, self.many, self.select]
        self.calls = changes * 2 + questions * 3 + [self.others]

    def step(self):
        self.rng.choice(self.calls)()

    def key(self):
        return self.rng.randrange(-10, 1010)

    def payload(self):
        return self.rng.randrange(LEAST, GREATEST + 1)

    def range(self):
        low = self.rng.randrange(-20, 1020)
        return low, low + max(0, self.rng.randrange(-5, 600))

    def rows(self, most):
        """Some of the rows, in no order."""
        return self.rng.sample(sorted(self.model.rows), min(most, len(self.model.rows)))

    def insert_many(self):
        keys, payloads = zip(*[(self.key(), self.payload()) for _ in range(self.rng.randrange(1, 12))])
        self.model.rows.update(zip(numbers(self.table.insert_many(keys, payloads)), zip(keys, payloads)))

    def insert(self):
        row = self.key(), self.payload()
        self.model.rows[self.table.insert(*row)] = row

    def delete_many(self):
        rows = self.rows(3)
        given = rows + rows[:1] + self.gone[-2:]
        self.test.assertEqual(
            list(self.table.delete_many(given)), [True] * len(rows) + [False] * (len(given) - len(rows))
        )
        self.gone += rows
        for row in rows:
            del self.model.rows[row]

    def delete(self):
        for row in self.rows(1):
            self.test.assertEqual((self.table.delete(row), self.table.delete(row)), (True, False))
            self.gone.append(row)
            del self.model.rows[row]

    def near(self, row):
        """A key and a payload that a row may get: a key next to its own, if that is in the same partition."""
        key = self.model.rows[row][0]
        return (self.rng.choice([key, key]), self.payload())

    def update_many(self):
        rows = self.rows(4)
        given = rows + self.gone[-1:]
        changed = [self.near(row) for row in rows] + [(self.model_key(row), 0) for row in given[len(rows) :]]
        if given:
            found = list(self.table.update_many(given, *zip(*changed)))
            self.test.assertEqual(found, [True] * len(rows) + [False] * (len(given) - len(rows)))
            self.model.rows.update(zip(rows, changed))

    def model_key(self, row):
        """A key of a row's partition."""
        part = next(it for it in self.table.layout().parts if it.partition == row >> 48)
        return part.keys.back_one(part.ends[0])

    def update(self):
        for row in self.rows(1):
            self.model.rows[row] = self.near(row)
            self.test.assertIs(self.table.update(row, *self.model.rows[row]), True)

    def far_update(self):
        """The rows before one that would change its shard get new payloads."""
        rows = self.rows(5)
        changed = {row: self.near(row) for row in rows[:-1]}
        if rows:
            far = 2000 if self.model.rows[rows[-1]][0] < 500 else -2000
            with self.test.assertRaises(crackd.WrongPartition) as caught:
                self.table.update_many(rows, *zip(*changed.values(), (far, 1)))
            self.test.assertEqual((caught.exception.done, caught.exception.later), (len(changed), 0))
            self.model.rows.update(changed)

    def count(self):
        ends = self.range()
        self.test.assertEqual(self.table.count(*ends), self.model.count(*ends))

    def sum(self):
        ends = self.range()
        self.test.assertEqual(self.table.sum(*ends), self.model.sum(*ends))

    def many(self):
        pairs = [self.range() for _ in range(3)] + [(None, 500), (500, None)]
        self.test.assertEqual(numbers(self.table.count_many(*zip(*pairs))), [self.model.count(*it) for it in pairs])
        self.test.assertEqual(self.table.sum_many(*zip(*pairs)), [self.model.sum(*it) for it in pairs])

    def select(self):
        ends = self.range()
        got = self.table.select(*ends)
        found = dict(zip(numbers(got.rows), zip(numbers(got.keys), numbers(got.payloads))))
        self.test.assertEqual(found, self.model.inside(*ends))

    def others(self):
        self.rng.choice([self.table.settle, self.table.checkpoint])()
        self.test.assertEqual((self.table.layout().rows, len(self.table)), (len(self.model.rows),) * 2)


class Recorder:
    """An actor that writes down what it is asked, and when its answers are waited for."""

    def __init__(self, actor, shard, log):
        self.actor, self.shard, self.log = actor, shard, log
        self._address, self.key = actor._address, actor.key

    def ask(self, name, words):
        self.log.append((name, self.shard, len(words[0]) if words and np.ndim(words[0]) else 1))
        self.waited = self.actor.ask(name, words)
        return self

    def done(self):
        self.log.append("wait")
        return self.waited.done()

    def result(self, timeout=None):
        return self.waited.result(timeout)


@wants_library
@wants_cluster
class Messages(OnWorkers, unittest.TestCase):
    """Which shards are asked, and how often."""

    @contextlib.contextmanager
    def recorded(self):
        with self.table(splits=[100, 200]) as table:
            log = []
            table._actors = [Recorder(it, shard, log) for shard, it in enumerate(table._actors)]
            yield table, log

    def expect(self, log, wanted):
        """All shards are asked, each once, before the first answer is waited for."""
        self.assertEqual(log[: len(wanted)], wanted)
        self.assertEqual(set(log[len(wanted) :]), {"wait"} if wanted else set())
        log.clear()

    def test_rows_are_sent_once_to_their_shards(self):
        with self.recorded() as (table, log):
            rows = table.insert_many([250, 1, 150, 2, 260, 3], range(6))
            self.expect(log, [("insert_many", 0, 3), ("insert_many", 1, 1), ("insert_many", 2, 2)])
            self.assertEqual([int(it) >> 54 for it in rows], [2, 0, 1, 0, 2, 0])
            table.update_many(rows[[0, 1, 3]], [255, 1, 2], [7, 7, 7])
            self.expect(log, [("update_many", 0, 2), ("update_many", 2, 1)])
            table.delete_many(rows[[4, 0]])
            self.expect(log, [("delete_many", 2, 2)])
            self.assertEqual((table.count(), table.sum()), (4, 21))

    def test_only_shards_that_a_range_meets_are_asked(self):
        with self.recorded() as (table, log):
            for ends, shards in [
                ((None, 100), [0]),
                ((99, 101), [0, 1]),
                ((100, 200), [1]),
                ((200, None), [2]),
                ((5, 5), []),
            ]:
                for call, name in [(table.count, "count"), (table.sum, "sum"), (table.select, "select")]:
                    call(*ends)
                    self.expect(log, [(name, it, 1) for it in shards])
            table.count_many([0, 50, 120, 7], [100, 150, 130, 7])
            self.expect(log, [("count_many", 0, 2), ("count_many", 1, 2)])
            table.sum_many([200, None], [300, None])
            self.expect(log, [("sum_many", 0, 1), ("sum_many", 1, 1), ("sum_many", 2, 2)])
            table.settle()
            self.expect(log, [("settle", it, 1) for it in range(3)])


@wants_library
@wants_cluster
class Refusals(OnWorkers, unittest.TestCase):
    """What one shard refuses."""

    def expect(self, kind, wanted, call, *words):
        with self.assertRaises(kind) as caught:
            call(*words)
        error = caught.exception
        self.assertEqual((error.code, error.done, error.later), wanted)
        return error

    def test_a_shard_that_is_full(self):
        with self.table(splits=[100], cells=2) as table:
            error = self.expect(crackd.Full, (9, 3, 1), table.insert_many, [1, 200, 2, 3, 201], [1, 2, 4, 8, 16])
            self.assertEqual((len(error.answers), table.count(), table.sum()), (4, 4, 23))
            self.assertEqual(list(table.delete_many(error.answers)), [True] * 4)

    def test_an_interrupted_move_puts_nothing_back_that_may_be_placed(self):
        for kind in (KeyboardInterrupt, crackd.OutOfMemory):
            with self.subTest(kind), self.table(splits=[100]) as table:
                row, answer, asked = table.insert(5, 50), table._result, []

                def interrupted(*words):
                    asked.append(answer(*words))
                    if len(asked) == 2:
                        raise crackd.OutOfMemory(8) if kind is crackd.OutOfMemory else KeyboardInterrupt
                    return asked[-1]

                with mock.patch.object(table, "_result", interrupted), self.assertRaises(kind) as caught:
                    table.move(row, 150)
                # the row has its new key; a refusal, which denies this, has it also inserted again with its old key
                self.assertEqual(table.count(), 1 if kind is KeyboardInterrupt else 2)
                self.assertEqual((caught.exception.row, table.count(150)), ((5, 50), 1))

    def test_an_interrupted_insert_of_many_gives_back_the_rows_of_its_answers(self):
        with self.table(splits=[100, 200]) as table:
            result, asked = table._result, []

            def interrupted(shard, *words):
                asked.append(shard)
                if shard == 2:
                    raise KeyboardInterrupt
                return result(shard, *words)

            with mock.patch.object(table, "_result", interrupted), self.assertRaises(KeyboardInterrupt) as caught:
                table.insert_many([250, 1, 150, 2], [1, 2, 4, 8])
            rows = caught.exception.answers
            self.assertEqual((asked, list(table.delete_many(rows)), table.sum(None, 200)), ([0, 1, 2], [True] * 3, 0))

    def test_the_first_refused_row_says_why(self):
        with self.table(splits=[100], cells=2) as table:
            rows = table.insert_many([1, 150], [1, 2])
            far, nowhere = int(rows[1]) | 1 << 60, int(rows[0]) | 5 << 48
            for row in (far, nowhere):
                self.expect(crackd.NoSuchPartition, (5, 1, 0), table.delete_many, [int(rows[0]) + 1, row, rows[1]])
                self.expect(
                    crackd.NoSuchPartition,
                    (5, 1, 0),
                    table.update_many,
                    [rows[0], row, rows[1]],
                    [1, 150, 1],
                    [1, 2, 3],
                )
            self.expect(
                crackd.WrongPartition, (4, 1, 0), table.update_many, [rows[1], rows[0], far], [150, 100, 1], [3, 4, 5]
            )
            self.expect(crackd.WrongPartition, (4, 0, 0), table.update_many, [int(rows[0]) + 9], [100], [4])
            self.assertEqual((table.count(), table.sum()), (2, 4))

    def test_partitions_of_a_shard_refuse_as_those_of_a_table(self):
        with self.table(range(1000), 40_000) as table:
            self.assertGreater(table.partitions, WORKERS)
            rows = table.insert_many([0, 300], [1, 2])
            self.assertEqual(int(rows[0]) >> 54, int(rows[1]) >> 54)
            self.expect(crackd.WrongPartition, (4, 1, 0), table.update_many, rows[::-1], [300, 300], [7, 7])
            self.assertEqual((table.sum(), table.count(300, 301)), (8, 1))

    def test_shards_of_very_different_sizes(self):
        keys = np.concatenate([np.zeros(200_000, np.int64), np.array([5, 9])])
        np.random.default_rng(2).shuffle(keys)
        with self.table([0, 5, 9], partitions=3) as table:
            rows = table.insert_many(keys, np.ones(len(keys), np.int64))
            self.assertEqual(
                (table.shards, table.count(), table.sum(0, 6), len(np.unique(rows))), (3, 200_002, 200_001, 200_002)
            )
            self.assertEqual(table.count_many([0, 5, 9], [1, 6, 10]).tolist(), [200_000, 1, 1])
            got = table.select()
            self.assertEqual((np.sort(got.rows) == np.sort(rows)).all(), True)
            self.assertEqual(int(table.delete_many(rows).sum()), 200_002)
        with self.table() as table:
            self.assertEqual((table.shards, table.partitions, table.insert(5, 7), table.sum()), (1, 1, 0, 7))


@wants_library
@wants_cluster
class Saves(OnWorkers, unittest.TestCase):
    """What is saved and restored."""

    def setUp(self):
        room = tempfile.TemporaryDirectory()
        self.addCleanup(room.cleanup)
        self.folder = pathlib.Path(room.name) / "saved"

    def saved(self, keys=range(300), splits=(100, 200), **options):
        """The manifest of a save of these keys; payloads are 1, 2, 3 .."""
        with self.table(splits=splits, **options) as table:
            table.insert_many(keys, np.arange(1, len(keys) + 1))
            return table.save(self.folder)

    def restore(self, **options):
        return cluster.Table.restore(MODULE["client"], self.folder, **options)

    def test_on_another_number_of_shards(self):
        rng = np.random.default_rng(8)
        keys, payloads = rng.integers(LEAST, 2**63, 20_000), rng.integers(LEAST, 2**63, 20_000)
        with self.table(keys, 500_000) as table:
            table.insert_many(keys, payloads)
            wanted = table.sum_many([None, 0], [0, None])
            table.save(self.folder)
            manifest = table.save(self.folder)
        self.assertEqual(sorted(os.listdir(self.folder)), sorted(["manifest.json", *manifest["files"]]))
        for shards in (None, 1, 5):
            with self.restore(shards=shards, policy="gradual") as table:
                found = table.shards, table.count(), table.sum_many([None, 0], [0, None])
                self.assertEqual(found, (shards or WORKERS, 20_000, wanted))
                got = table.select()
                order, first = np.lexsort((got.payloads, got.keys)), np.lexsort((payloads, keys))
                self.assertTrue(
                    (got.keys[order] == keys[first]).all() and (got.payloads[order] == payloads[first]).all()
                )
                self.assertEqual(sum(it.pending_in for it in table.layout().parts), 0)

    def test_what_a_killed_save_left_goes_and_other_files_stay(self):
        first = self.saved()
        left = [f"shard-0000-{'a1' * 6}.npy", f"shard-0001-{'a1' * 6}.npy.part", f"shard-0002-{'a1' * 6}.npy.part"]
        others = ["rows.npy", "shard.npy.txt", "notes"]
        for name in (*left, *others):
            (self.folder / name).write_bytes(b"left")
        manifest = self.saved()
        self.assertNotEqual(manifest["files"], first["files"])
        self.assertEqual(sorted(os.listdir(self.folder)), sorted(["manifest.json", *manifest["files"], *others]))

    def test_on_another_cluster(self):
        self.saved()
        with local(2) as client, cluster.Table.restore(client, self.folder) as table:
            self.assertEqual((table.shards, table.count(), table.sum(0, 10)), (2, 300, 55))

    def test_the_files_are_arrays_and_the_manifest_says_what_they_have(self):
        manifest = self.saved(range(-150, 150), [-50, 50])
        self.assertEqual(manifest, json.loads((self.folder / "manifest.json").read_text()))
        self.assertEqual((manifest["keys"], manifest["splits"]), ("int64", [2**63 - 50, 2**63 + 50]))
        self.assertEqual((manifest["counts"], manifest["sums"]), ([100] * 3, [5050, 15050, 25050]))
        shards = [np.load(self.folder / it) for it in manifest["files"]]
        self.assertEqual(
            [sorted(it["key"].tolist()) for it in shards], [[*range(it, it + 100)] for it in (-150, -50, 50)]
        )
        self.assertEqual([int(it["payload"].sum()) for it in shards], manifest["sums"])

    def test_kinds_of_keys(self):
        days = np.array("2020-01-01", dtype="datetime64[D]") + np.arange(300)
        for keys in (days, np.arange(300) / 4 - 20, np.arange(300, dtype=np.uint64) + np.uint64(2**63)):
            with self.subTest(keys.dtype):
                self.saved(keys, keys[[100, 200]], key_type=keys.dtype)
                with self.restore() as table:
                    got = table.select(keys[50], keys[53])
                    self.assertEqual((got.keys.dtype, sorted(got.payloads.tolist())), (keys.dtype, [51, 52, 53]))
                    self.assertEqual(sorted(got.keys.tolist()), keys[50:53].tolist())

    def test_no_rows(self):
        with self.table(key_type="float64") as table:
            self.assertEqual(table.save(self.folder)["counts"], [0])
        with self.restore() as table:
            self.assertEqual((table.count(), table.insert(0.5, 7), table.sum(0.5)), (0, 0, 7))

    def expect_bad(self, *words):
        with self.assertRaises(cluster.BadSave) as caught:
            self.restore()
        for word in words:
            self.assertIn(word, str(caught.exception))

    def saved_earlier(self):
        """The manifest of a save of the earlier form, which has no checksums."""
        manifest = {**self.saved(), "form": 2}
        del manifest["crc32"]
        for name in manifest["files"]:
            np.save(self.folder / name, np.load(self.folder / name))
        (self.folder / "manifest.json").write_text(json.dumps(manifest, indent=1) + "\n")
        return manifest

    def test_a_save_of_the_earlier_form(self):
        before = self.saved_earlier()
        with self.restore(shards=2) as table:
            self.assertEqual((table.count(), table.sum(0, 10)), (300, 55))
            manifest = table.save(self.folder)
        self.assertEqual((before["form"], manifest["form"]), (2, 3))
        self.assertEqual(sorted(os.listdir(self.folder)), sorted(["manifest.json", *manifest["files"]]))

    def test_what_was_changed(self):
        """Each change is found by a checksum, also one that leaves counts and sums as they are."""
        manifest = self.saved()
        path, first = self.folder / "manifest.json", self.folder / manifest["files"][0]
        whole, content = path.read_text(), first.read_bytes()
        for old, new in [("100,\n", "101,\n"), ("5050,\n", "5051,\n"), ("6008\n", "6009\n"), ("int64", "uint64")]:
            path.write_text(whole.replace(old, new, 1))
            self.assertNotEqual(path.read_text(), whole)
            self.expect_bad("manifest.json is no manifest of form 3, or has changed")
        path.write_text(whole)
        rows = np.frombuffer(content[256:-1], crackd.saved.row_dtype(crackd.keys.Keys("i")), 100).copy()
        rows["payload"][:2] += [1, -1]
        first.write_bytes(content[:256] + rows.tobytes() + content[256 + rows.nbytes :])
        self.expect_bad(first.name, "its rows have changed since they were saved")
        first.write_bytes(content[:-1])
        self.expect_bad(first.name, "can't be read: its last bytes are missing")
        first.write_bytes(content)
        with self.restore() as table:
            self.assertEqual(table.sum(), 45150)

    def test_what_is_no_longer_as_it_was_saved(self):
        manifest = self.saved_earlier()
        path, first = self.folder / "manifest.json", self.folder / manifest["files"][0]
        whole, content = path.read_text(), first.read_bytes()
        for text in (
            "",
            "[]",
            "{",
            whole.replace('"form": 2', '"form": 1'),
            whole.replace('"sums"', '"sum"'),
            whole.replace("int64", "text"),
        ):
            path.write_text(text)
            self.expect_bad("manifest.json is no manifest")
        for name, text in [
            ("counts", whole.replace("100,\n", "101,\n", 1)),
            ("sums", whole.replace("5050,\n", "5051,\n", 1)),
        ]:
            self.assertNotEqual(text, whole)
            path.write_text(text)
            self.expect_bad("101" if name == "counts" else "the sums of the saved shards are")
        path.write_text(whole)
        first.write_bytes(content[:-1])
        self.expect_bad(first.name, "can't be read")
        first.write_bytes(content[:-8] + bytes(8))
        self.expect_bad("the sums of the saved shards are")
        first.unlink()
        self.expect_bad(first.name, "can't be read")
        path.unlink()
        self.assertRaises(FileNotFoundError, self.restore)

    def test_rows_of_another_shard_are_found_out(self):
        manifest = self.saved_earlier()
        paths = [self.folder / it for it in manifest["files"][:2]]
        contents = [np.load(it) for it in paths]
        for content in contents:
            content["key"] = (content["key"] + 100) % 200
        for path, content in zip(paths, contents):
            np.save(path, content)
        self.expect_bad("the sums of the saved shards are")

    def test_a_save_that_fails_leaves_the_one_before(self):
        client, before = MODULE["client"], self.saved()
        with self.table(splits=[100, 200]) as table:
            table.insert_many(range(300), [7] * 300)
            on(client, worker_of(table, 1), clusters.limit_files, 500)
            try:
                with self.assertRaises(cluster.ShardFailed) as caught:
                    table.save(self.folder)
            finally:
                on(client, worker_of(table, 1), clusters.limit_files, -1)
            self.assertIn("File too large", str(caught.exception))
            self.assertEqual(sorted(os.listdir(self.folder)), sorted(["manifest.json", *before["files"]]))
            with self.restore() as restored:
                self.assertEqual(restored.sum(), 45150)
            self.assertEqual((table.count(), table.save(self.folder)["sums"]), (300, [700] * 3))

    def test_samples_of_blocks_count_by_their_rows(self):
        keys = np.arange(10_000)
        for rows, wanted in [
            ([10_000, 10_000], [10_000] * 2),
            ([1_000_000, 10_000], [10_000, 100]),
            ([10**9, 10], [10_000, 1]),
        ]:
            samples = [(each, keys[:each]) for each in rows]
            self.assertEqual([len(it) for it in cluster.evened(samples)], wanted)
        self.assertEqual([len(it) for it in cluster.evened([(0, keys[:0]), (5, keys[:5])])], [5])
        self.assertEqual(list(cluster.evened([])), [])

    def test_sums_of_payloads_are_exact(self):
        for payloads in ([GREATEST] * 5, [LEAST] * 5, [LEAST, GREATEST, -1, 0, 1, 2**32, -(2**32)]):
            self.assertEqual(crackd.shard.exact_sum(np.array(payloads, np.int64)), sum(payloads))
        self.assertEqual(crackd.shard.exact_sum(np.empty(0, np.int64)), 0)


@wants_library
@wants_cluster
@wants_pandas
class OfDask(OnWorkers, unittest.TestCase):
    """Rows that a cluster already has."""

    def frame(self, columns, blocks):
        import dask.dataframe
        import pandas

        return dask.dataframe.from_pandas(pandas.DataFrame(columns), npartitions=blocks)

    def test_dataframes(self):
        keys, payloads = np.arange(5000) * 7919 % 5000, np.arange(5000)
        frame = self.frame({"what": payloads, "when": keys / 2, "other": "x"}, 4)
        with cluster.Table.from_dask(MODULE["client"], frame, "when", "what") as table:
            self.assertEqual((table.count(0, 10), table.sum(0, 10)), (20, int(payloads[keys < 20].sum())))
            self.assertEqual((table.shards, table.select(0, 1).keys.dtype), (WORKERS, np.float64))
            self.assertEqual(sum(it.pending_in for it in table.layout().parts), 0)
        with cluster.Table.from_dask(MODULE["client"], frame["what"], shards=2, policy="complete") as table:
            self.assertEqual((table.shards, table.count(), table.sum(0, 10)), (2, 5000, 45))
        days = np.array("2020-01-01", dtype="datetime64[ns]") + np.arange(5000).astype("timedelta64[D]")
        with cluster.Table.from_dask(MODULE["client"], self.frame({"day": days}, 3), "day") as table:
            self.assertEqual(table.sum(np.datetime64("2020-01-02"), np.datetime64("2020-01-05")), 6)

    def test_the_line_of_the_page(self):
        line = PAGE.read_text(encoding="utf-8").split("```python\n")[2].split("```")[0]
        frame = self.frame({"time": np.arange(1000), "price": np.arange(1000) % 7}, 2)
        names = {"cluster": cluster, "client": MODULE["client"], "frame": frame}
        exec(line, names)
        with names["table"] as table:
            self.assertEqual((table.count(), table.sum(0, 70)), (1000, 210))

    def test_arrays(self):
        import dask.array

        keys, payloads = np.arange(5000) * 7919 % 5000, np.arange(5000)
        array = dask.array.from_array(np.stack([keys, payloads], axis=1), chunks=(1000, 1))
        with cluster.Table.from_dask(MODULE["client"], array, 0, 1) as table:
            self.assertEqual((table.count(0, 10), table.sum(0, 10)), (10, int(payloads[keys < 10].sum())))
        with cluster.Table.from_dask(MODULE["client"], dask.array.from_array(keys, chunks=700)) as table:
            self.assertEqual((table.count(), table.sum(0, 10)), (5000, int(payloads[keys < 10].sum())))

    def test_wrong_columns(self):
        frame = self.frame({"key": [1.5, float("nan")], "text": ["a", "b"], "whole": [1, 2]}, 1)
        for key, payload, kind in [
            ("whole", "key", TypeError),
            ("whole", "text", TypeError),
            ("text", "whole", TypeError),
            ("key", "whole", ValueError),
            ("none", "whole", KeyError),
        ]:
            with self.subTest(key=key, payload=payload):
                self.assertRaises(kind, cluster.Table.from_dask, MODULE["client"], frame, key, payload)
        self.assertRaises(crackd.Full, cluster.Table.from_dask, MODULE["client"], frame, "whole", cells=1, shards=1)

    def test_rows_that_are_not_placed_are_missed(self):
        frame, real = self.frame({"key": np.arange(100), "payload": np.ones(100, np.int64)}, 4), cluster.load_block

        def all_but_the_last(number, *words):
            return 25 if number == 3 else real(number, *words)

        for lost, placed in [(lambda *_: 25, 0), (all_but_the_last, 75)]:
            with mock.patch.object(cluster, "load_block", lost):
                said = f"100 rows were sent, and {placed} were placed"
                with self.assertRaisesRegex(cluster.ShardFailed, said):
                    cluster.Table.from_dask(MODULE["client"], frame, "key", "payload")

    def test_no_block_comes_to_the_client(self):
        from distributed.protocol import serialize

        frame, client = (
            self.frame({"key": np.arange(400_000), "payload": np.ones(400_000, np.int64)}, 8),
            MODULE["client"],
        )
        held = client.persist(frame)
        real, gathered = client.gather, []

        def gather(futures):
            found = real(futures)
            gathered.extend(found)
            return found

        with mock.patch.object(client, "gather", gather):
            with cluster.Table.from_dask(client, held, "key", "payload") as table:
                self.assertEqual((table.count(), table.sum(10, 20)), (400_000, 10))
        self.assertEqual(len(gathered), 16)
        self.assertLess(max(len(part) for it in gathered for part in serialize(it)[1]), 200_000)

    def test_a_block_that_is_loaded_again_is_loaded_once(self):
        shard = crackd.shard.Shard(crackd.keys.Keys("i"), [], {})
        words = shard.token, 3, np.arange(5, dtype=np.uint64), np.ones(5, np.int64)
        for _ in range(3):
            self.assertEqual(shard.ask("load", words), (shard.token, None))
        shard.ask("load", (shard.token, 4, *words[2:]))
        self.assertEqual(shard.rows.rows(), 10)
        self.assertRaises(cluster.ShardFailed, shard.ask, "load", ("another", *words[1:]))


class Imports(unittest.TestCase):
    """What is reported if something is missing."""

    def test_without_numpy_or_dask(self):
        for name in ("numpy", "distributed"):
            code = (
                f"import sys; sys.path.insert(0, {str(PAGE.parents[1] / 'python')!r}); sys.modules[{name!r}] = None\n"
            )
            code += "try: import crackd.cluster\nexcept ImportError as error: print(error)"
            ran = subprocess.run([sys.executable, "-c", code], capture_output=True, text=True, check=True)
            self.assertEqual(
                ran.stdout, "crackd.cluster needs numpy and dask.distributed: pip install numpy distributed\n"
            )


@wants_library
@wants_cluster
class Page(unittest.TestCase):
    """The session of the page."""

    def test_it_prints_what_stands_there(self):
        text = PAGE.read_text(encoding="utf-8")
        program = text.split("```python\n")[1].split("```")[0]
        wanted = text.split("```text\n")[1].split("```")[0]
        with tempfile.TemporaryDirectory() as folder:
            path = pathlib.Path(folder) / "session.py"
            path.write_text(program, encoding="utf-8")
            environment = {**os.environ, "PYTHONPATH": str(PAGE.parents[1] / "python")}
            how = {"cwd": folder, "env": environment, "capture_output": True, "text": True, "timeout": 600}
            ran = subprocess.run([sys.executable, "-W", "ignore", str(path)], check=False, **how)
        self.assertEqual((ran.returncode, ran.stdout), (0, wanted), ran.stderr)


if __name__ == "__main__":
    unittest.main()
