"""Servers that are children of this process, and connections."""

import concurrent.futures
import contextlib
import os
import pickle
import subprocess
import sys
import unittest
from unittest import mock

from test_table import Cases
from ways import crackd, standing_in, wants_program

from crackd import client, server

CLIENTS, CALLS, HISTORY = 4, 300, 100


def answered(replies):
    """The port of a server that answers these bytes, whatever it is sent, and then closes the connection."""

    def play(connection):
        connection.sendall(replies)
        connection.recv(4096)

    return standing_in(play)


class Connections(unittest.TestCase):
    """What a connection does if the server misbehaves."""

    def test_no_server(self):
        with self.assertRaises(crackd.Disconnected) as caught:
            crackd.connect("127.0.0.1", server.free_port())
        self.assertIn("Connection refused", str(caught.exception))
        self.assertIsInstance(caught.exception, ConnectionError)

    def test_a_server_that_goes(self):
        with answered(b"") as port:
            table = crackd.connect(port=port)
            self.assertRaises(crackd.Disconnected, table.insert_many, [1, 2], [1, 2])
            self.assertRaises(crackd.Closed, table.count)
            table.close()

    def test_a_server_that_goes_in_a_reply(self):
        with answered(b"row 0.0\nrow 0") as port:
            table = crackd.connect(port=port)
            self.assertRaises(crackd.Disconnected, table.insert_many, [1, 2], [1, 2])

    def test_a_select_that_is_interrupted_ends_the_connection(self):
        with answered(b"rows 2\n0.0 1 5\n0.1 1 7\n") as port:
            table, block, lines = crackd.connect(port=port), client.Channel.block, []

            def interrupted(channel, count):
                lines.append(count)
                if len(lines) == 2:
                    raise KeyboardInterrupt
                return block(channel, count)

            with mock.patch.object(client.Channel, "block", interrupted):
                self.assertRaises(KeyboardInterrupt, table.select)
            self.assertEqual(lines, [1, 2])
            self.assertRaises(crackd.Closed, table.count)

    def test_a_checkpoint_that_is_refused(self):
        # the refused statement is sent again right after the checkpoints
        refused = b"refused 8\n" + b"refused 5\n" * 63 + b"refused 6 2\n"
        with answered(b"row 0.0\nrefused 6 2\nrow 1.0\n" + refused) as port:
            table = crackd.connect(port=port)
            with self.assertRaises(crackd.OutOfMemory) as caught:
                table.insert_many([1, 2, 3], [1, 2, 4])
            error = caught.exception
            self.assertEqual((error.code, error.done, error.later, list(error.answers)), (8, 1, 1, [0, 1 << 48]))
        for replies, call in ((b"refused 6 2\n" + refused, "select"), (refused, "checkpoint")):
            with answered(replies) as port:
                self.assertRaises(crackd.OutOfMemory, getattr(crackd.connect(port=port), call))

    def test_the_length_without_memory_for_a_query(self):
        totals = b"layout %d rows %d column 0 out 0 in 3 cells 3 free 0 pieces 1\npiece 0 9 0\n"

        def play(connection):
            connection.sendall(b"refused 8\n" + totals % (0, 3) + totals % (1, 4) + b"refused 5\nbye\n")
            while connection.recv(4096):
                pass

        with standing_in(play) as port, crackd.connect(port=port) as table:
            self.assertEqual(len(table), 7)

    def test_no_program(self):
        with self.assertRaises(crackd.NoServer) as caught:
            crackd.serve(program="missing/crackd")
        self.assertIn("No such file", str(caught.exception))
        self.assertRaises(crackd.NoServer, crackd.serve, program="/dev/null")
        self.assertRaises(crackd.NoServer, crackd.serve, program=sys.executable)

    def test_errors_are_pickled(self):
        error = crackd.Full(9, 3, 1)
        error.answers = [1, 2]
        back = pickle.loads(pickle.dumps(error))
        self.assertEqual(
            (type(back), back.code, back.done, back.later, back.answers, str(back)),
            (crackd.Full, 9, 3, 1, [1, 2], str(error)),
        )

    def test_wrong_words(self):
        self.assertRaises(ValueError, crackd.connect, policy="none")
        self.assertRaises(TypeError, crackd.connect, key_type="text")
        self.assertRaises(ValueError, crackd.serve, policy="none")


@wants_program
class Servers(unittest.TestCase):
    """Servers that this process starts."""

    def test_clients_share_a_table(self):
        with crackd.serve(workers=2) as served, served.connect() as one, served.connect(policy="complete") as two:
            rows = one.insert_many([1, -2], [10, 20])
            self.assertEqual((two.count(), two.sum(None, 0)), (2, 20))
            self.assertEqual(list(two.delete_many(rows)), [True, True])
            self.assertEqual(one.count(), 0)

    def test_keys_are_those_of_the_sample(self):
        with crackd.serve([0.5, 1.5], partitions=2) as served, served.connect() as table, served.connect(
            key_type="uint64"
        ) as plain:
            table.insert_many([-1.0, 1.5], [1, 2])
            self.assertEqual((table.sum(0.0), table.partitions, plain.count(2**63)), (2, 2, 1))

    def test_partitions_by_the_length_of_the_sample(self):
        for rows, parts in [(None, 5), (8192, 2)]:
            with crackd.serve(range(20_480), rows) as served, served.connect() as table:
                self.assertEqual(table.partitions, parts)

    def test_clients_are_never_refused_for_a_full_history(self):
        def work(number):
            with served.connect() as table:
                for _ in range(CALLS):
                    table.insert_many([number] * 50, [1] * 50)
                return table.count(number, number + 1)

        with crackd.serve(workers=CLIENTS, history=HISTORY) as served:
            with concurrent.futures.ThreadPoolExecutor(CLIENTS) as pool:
                self.assertEqual(list(pool.map(work, range(CLIENTS))), [50 * CALLS] * CLIENTS)

    def test_it_ends_with_the_block(self):
        with crackd.serve() as served:
            table = served.connect()
            table.insert(1, 1)
            process = served._process
            self.assertIsNone(process.poll())
        self.assertIsNotNone(process.poll())
        self.assertRaises(crackd.Disconnected, table.count)
        self.assertRaises(crackd.Disconnected, served.connect)
        served.close()

    def test_it_ends_with_an_error(self):
        with contextlib.suppress(KeyError), crackd.serve() as served:
            process = served._process
            raise KeyError
        self.assertIsNotNone(process.poll())

    def test_what_is_refused_and_what_comes_after_it(self):
        with crackd.serve(splits=[100], cells=2) as served, served.connect() as table:
            with self.assertRaises(crackd.Full) as caught:
                table.insert_many([1, 2, 3, 200], [1, 2, 4, 8])
            error = caught.exception
            self.assertEqual((error.done, error.later, len(error.answers)), (2, 1, 3))
            self.assertEqual(list(table.delete_many(error.answers)), [True] * 3)
            self.assertIn("after 2 that were done, and 1 later", str(error))

    def test_many_rows(self):
        count = 250_000
        with crackd.serve(range(count), partitions=4) as served, served.connect() as table:
            rows = table.insert_many(range(count), range(-5, count - 5))
            table.settle()
            self.assertEqual((len(rows), len(set(rows)), table.count(), table.sum(0, 10)), (count, count, count, -5))
            got = table.select(count // 4, count)
            self.assertEqual(sorted(int(it) for it in got.payloads)[:2], [count // 4 - 5, count // 4 - 4])
            self.assertEqual(len(got.rows), count - count // 4)
            self.assertTrue(all(table.delete_many(rows)))


@wants_program
class WithoutCheckpoints(unittest.TestCase):
    """Servers that make no checkpoint by themselves: the client asks for one."""

    @contextlib.contextmanager
    def table(self, sample, partitions, history):
        splits = [str(2**63 + sample[1])] if partitions == 2 else []
        words = ["--workers", "1", "--until-eof", "--quiet", "--limit", str(history), *splits]
        keys = crackd.keys.Keys("i")
        with server.Server([server.find_program(), *words], keys, "auto") as served, served.connect() as table:
            yield table

    test_histories_are_emptied = Cases.test_histories_are_folded_by_themselves


if __name__ == "__main__":
    unittest.main()
