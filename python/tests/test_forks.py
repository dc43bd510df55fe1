"""What a forked child process may do with its parent's tables and servers."""

import contextlib
import errno
import os
import signal
import threading
import unittest
from unittest import mock

from clusters import cluster, local, wants_cluster
from ways import InProcess, InShards, OverTcp, crackd, wants_library, wants_program, wants_shards

SECONDS = 20


def outcome(call, *words):
    """The name of the error that a call raises, or what it returns, as text."""
    try:
        return str(call(*words))
    except Exception as error:
        return type(error).__name__


def owners_of(table):
    """What frees the memory of a table, or closes its connection, when it is dropped."""
    return getattr(table, "_shards", [table])


def lock_of(table):
    """The lock that a call holds, of a table or of its last shard."""
    return owners_of(table)[-1]._lock


def in_child(work):
    """The lines that a function returns in a forked child, which is ended if it hangs."""
    source, target = os.pipe()
    child = os.fork()
    if child == 0:
        signal.alarm(SECONDS)
        lines = ["the child failed"]
        with contextlib.suppress(BaseException):
            lines = work()
        os.write(target, "\n".join(lines).encode())
        os._exit(0)
    os.close(target)
    with open(source, encoding="utf-8") as file:
        lines = file.read().splitlines()
    os.waitpid(child, 0)
    return lines


def calls_of(table, row):
    """Each call of a table, with its arguments."""
    ones = [1]
    return [
        (table.insert, 1, 1),
        (table.insert_many, ones, ones),
        (table.delete, row),
        (table.delete_many, [row]),
        (table.update, row, 1, 1),
        (table.update_many, [row], ones, ones),
        (table.count,),
        (table.count, 1, 1),
        (table.count_many, ones, [2]),
        (table.sum,),
        (table.sum_many, ones, [2]),
        (table.select,),
        (table.settle,),
        (table.checkpoint,),
        (table.layout,),
        (len, table),
        (table.close,),
        (table.close,),
    ]


class Forking:
    """Forks while there is a table, however it is reached."""

    def test_each_call_in_a_child_is_refused(self):
        with self.table() as table:
            row = table.insert(5, 7)
            calls = calls_of(table, row)
            self.assertEqual(in_child(lambda: [outcome(*it) for it in calls]), ["Forked"] * len(calls))
            self.assertEqual((table.count(), table.sum(), table.delete(row)), (1, 7, True))

    def test_a_child_waits_for_no_thread_of_its_parent(self):
        with self.table() as table:
            table.insert(5, 7)
            is_held, is_over = threading.Event(), threading.Event()

            def hold():
                with lock_of(table):
                    is_held.set()
                    is_over.wait()

            thread = threading.Thread(target=hold)
            thread.start()
            is_held.wait()
            try:
                self.assertEqual(in_child(lambda: [outcome(table.count), outcome(table.close)]), ["Forked"] * 2)
            finally:
                is_over.set()
                thread.join()
            self.assertEqual(table.sum(), 7)

    def test_a_table_that_a_child_drops_stays(self):
        with self.table() as table:
            table.insert_many(range(1000), range(1000))
            owners = owners_of(table)
            self.assertEqual(in_child(lambda: [outcome(it.__del__) for it in owners]), ["None"] * len(owners))
            self.assertEqual((table.count(), table.sum()), (1000, 499500))


@wants_shards
class ForkingInShards(Forking, InShards, unittest.TestCase):
    """In the process, in several shards."""


@wants_library
class ForkingInProcess(Forking, InProcess, unittest.TestCase):
    """In the process."""

    def test_a_child_frees_no_memory_of_its_parent(self):
        def work():
            closed = []
            with mock.patch.object(crackd.library.library(), "close", closed.append):
                for it in owners_of(table):
                    it.__del__()
            return [str(len(closed))]

        with self.table() as table:
            self.assertEqual(in_child(work), ["0"])

    def test_a_child_opens_a_table_of_its_own(self):
        def work():
            with crackd.Table() as other:
                other.insert(1, 3)
                return [str(other.sum())]

        with self.table() as table:
            table.insert(5, 7)
            self.assertEqual((in_child(work), table.sum()), (["3"], 7))


@wants_program
class ForkingOverTcp(Forking, OverTcp, unittest.TestCase):
    """Over TCP."""

    def test_a_child_connects_anew_and_cannot_end_the_server(self):
        def work():
            with server.connect() as other:
                other.insert(6, 8)
                return [str(other.sum()), outcome(server.close)]

        with crackd.serve(workers=2) as server, server.connect() as table:
            table.insert(5, 7)
            self.assertEqual((in_child(work), table.sum()), (["15", "Forked"], 15))

    def test_a_child_does_not_hold_the_connection_of_its_parent(self):
        def work():
            try:
                return [str(os.fstat(connection))]
            except OSError as error:
                return [errno.errorcode[error.errno]]

        with self.table() as table:
            connection = table._channel.socket.fileno()
            self.assertEqual(in_child(work), ["EBADF"])
            # the parent's descriptor is open, and its connection works
            os.fstat(connection)
            self.assertEqual(table.count(), 0)


@wants_library
@wants_cluster
class ForkingOnACluster(unittest.TestCase):
    """On a cluster."""

    def test_each_call_in_a_child_is_refused(self):
        with local(1) as client, cluster.Table(client) as table:
            row = table.insert(5, 7)
            calls = calls_of(table, row)
            self.assertEqual(in_child(lambda: [outcome(*it) for it in calls]), ["Forked"] * len(calls))
            self.assertEqual(table.sum(), 7)


if __name__ == "__main__":
    unittest.main()
