"""Calls that mean nothing, each with an error of its own, and a server that its only table keeps."""

import asyncio
import contextlib
import copy
import gc
import os
import pathlib
import pickle
import tempfile
import unittest

from clusters import cluster, local, wants_cluster
from ways import (
    InProcess,
    InShards,
    OverAsyncio,
    OverTcp,
    crackd,
    wants_library,
    wants_numpy,
    wants_program,
    wants_shards,
)


class Misuse:
    """Cases of a table, however it is reached."""

    def test_a_table_is_not_rebalanced_into_itself(self):
        with self.table() as table:
            rows = table.insert_many([1, 2], [3, 4])
            itself = getattr(table, "_table", table)
            self.assertRaisesRegex(ValueError, "can't be rebalanced into itself", table.rebalanced, itself)
            self.assertRaisesRegex(ValueError, "can't be rebalanced into itself", table.rebalanced, into=itself)
            self.assertEqual((table.count(), table.sum(), list(table.delete_many(rows))), (2, 7, [True] * 2))

    def test_a_table_is_not_copied(self):
        with self.table() as table:
            table.insert(1, 2)
            itself = getattr(table, "_table", table)
            for call in (copy.copy, copy.deepcopy, pickle.dumps):
                self.assertRaisesRegex(TypeError, "can't be copied or pickled; `rebalanced` makes", call, itself)
            gc.collect()
            self.assertEqual(table.sum(), 2)

    @wants_numpy
    def test_paths(self):
        with tempfile.TemporaryDirectory() as room, self.table() as table:
            for wrong in ("", b""):
                self.assertRaisesRegex(ValueError, "a path to save to can't be empty", table.save, wrong)
            path = f"{room}/no/rows.npy"
            with self.assertRaises(FileNotFoundError) as caught:
                table.save(path)
            self.assertEqual(caught.exception.filename, path)
            self.assertRaises(IsADirectoryError, table.save, room)
            self.assertEqual(os.listdir(room), [])


@wants_library
class MisuseInProcess(Misuse, InProcess, unittest.TestCase):
    """In the process."""


@wants_shards
class MisuseInShards(Misuse, InShards, unittest.TestCase):
    """In several shards."""


@wants_program
class MisuseOverTcp(Misuse, OverTcp, unittest.TestCase):
    """Over TCP."""

    def test_a_server_is_not_copied(self):
        with crackd.serve(workers=1) as server:
            for call in (copy.copy, copy.deepcopy, pickle.dumps):
                self.assertRaisesRegex(TypeError, "a server can't be copied or pickled", call, server)
            gc.collect()
            with server.connect() as table:
                self.assertEqual(table.count(), 0)

    def test_a_table_keeps_its_server(self):
        table = crackd.serve(workers=1).connect()
        gc.collect()
        table.insert(5, 7)
        self.assertEqual(table.sum(), 7)
        process = table._server._process
        second = table._server.connect()
        table.close()
        del table
        gc.collect()
        self.assertEqual((second.sum(), process.poll()), (7, None))
        second.close()
        del second
        gc.collect()
        self.assertIsNotNone(process.poll())

    def test_a_connection_that_has_ended(self):
        with crackd.serve(workers=1) as server:
            table = server.connect()
            table.close()
            for call in (table.count, table.layout, lambda: table.save("rows.npy"), table.rebalanced):
                self.assertRaisesRegex(crackd.Closed, "the connection is closed; connect again", call)


@wants_program
class MisuseOverAsyncio(Misuse, OverAsyncio, unittest.TestCase):
    """Over asyncio."""

    def test_its_table_inside(self):
        async def run():
            with crackd.serve(workers=1) as server:
                async with await crackd.connect_async(port=server.port) as table:
                    await table.insert(1, 2)
                    with self.assertRaisesRegex(ValueError, "into itself"):
                        await table.rebalanced(table)
                    return await table.count()

        self.assertEqual(asyncio.run(run()), 1)


@wants_library
@wants_cluster
class MisuseOnACluster(unittest.TestCase):
    """On a cluster."""

    @classmethod
    def setUpClass(cls):
        cls.stack = contextlib.ExitStack()
        cls.client = cls.stack.enter_context(local(2))

    @classmethod
    def tearDownClass(cls):
        cls.stack.close()

    def test_options_of_other_tables(self):
        import dask.array

        made = dask.array.arange(10, chunks=5)
        with cluster.Table(self.client) as table, tempfile.TemporaryDirectory() as room:
            table.save(room)
            for call in (
                lambda **options: cluster.Table(self.client, range(10), **options),
                lambda **options: cluster.Table.restore(self.client, room, **options),
                lambda **options: cluster.Table.from_dask(self.client, made, **options),
                table.rebalanced,
            ):
                self.assertRaisesRegex(TypeError, "a cluster's table takes shards=N; the", call, partitions=3)
                self.assertRaisesRegex(TypeError, "a cluster's table has no options? limit", call, limit=3)

    def test_clients_that_are_closed(self):
        other = cluster.Client(self.client.scheduler.address)
        table = cluster.Table(other)
        row = table.insert(1, 2)
        other.close()
        with tempfile.TemporaryDirectory() as room:
            for call in (
                table.count,
                table.settle,
                table.layout,
                lambda: table.insert(1, 2),
                lambda: table.delete_many([row]),
                lambda: table.save(room),
            ):
                self.assertRaisesRegex(crackd.Closed, "the cluster is closed, and the table with it", call)
            self.assertEqual(os.listdir(room), [])
            for call in (lambda: cluster.Table(other), lambda: cluster.Table.restore(other, room)):
                self.assertRaisesRegex(crackd.Closed, "the client of the cluster is closed", call)
            table.close()
            self.assertRaisesRegex(crackd.Closed, "the table is closed", table.count)
            self.assertIn("closed", repr(table))
        for wrong in (None, "tcp://127.0.0.1:1", [1, 2]):
            self.assertRaisesRegex(TypeError, "must be a distributed.Client, not of type", cluster.Table, wrong)

    def test_folders_that_are_missing(self):
        with tempfile.TemporaryDirectory() as room:
            for folder, name, said in [
                ("no", "no", "there is no such folder"),
                ("", "manifest.json", "the folder of a save has this file, and it isn't there"),
            ]:
                with self.assertRaisesRegex(FileNotFoundError, said) as caught:
                    cluster.Table.restore(self.client, f"{room}/{folder}")
                self.assertEqual(pathlib.Path(caught.exception.filename), pathlib.Path(room).resolve() / name)

    def test_a_table_is_neither_copied_nor_rebalanced_into_itself(self):
        with cluster.Table(self.client) as table:
            table.insert(1, 2)
            self.assertRaisesRegex(ValueError, "into itself", table.rebalanced, table)
            for call in (copy.copy, copy.deepcopy, pickle.dumps):
                self.assertRaisesRegex(TypeError, "can't be copied or pickled", call, table)
            self.assertEqual(table.sum(), 2)


if __name__ == "__main__":
    unittest.main()
