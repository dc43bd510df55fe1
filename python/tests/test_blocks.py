"""Calls over TCP for more items than are sent at once, and the answers of a server of the tests."""

import contextlib
import itertools
import socket
import threading
import unittest
from unittest import mock

from ways import OverTcp, crackd, wants_program

from crackd import server, wire

AT_ONCE = 3
# the greatest number of seconds that either side waits for the other
SECONDS = 30


def numbers(it):
    return [int(each) for each in it]


@contextlib.contextmanager
def answering(reply):
    """The port of a server that answers each line by what this function makes of it; None closes the connection."""
    with socket.socket() as listening:
        listening.bind(("127.0.0.1", 0))
        listening.listen()

        def answer():
            with listening.accept()[0] as connection, connection.makefile("rb") as lines:
                connection.settimeout(SECONDS)
                for line in lines:
                    said = reply(line)
                    if said is None:
                        return
                    connection.sendall(said)

        thread = threading.Thread(target=answer)
        thread.start()
        yield listening.getsockname()[1]
        thread.join()


class Blocks(OverTcp):
    """Calls of several blocks, of which a later one has refused items."""

    def setUp(self):
        patch = mock.patch.object(wire, "STATEMENTS_AT_ONCE", AT_ONCE)
        patch.start()
        self.addCleanup(patch.stop)

    def expect(self, kind, wanted, call, *words):
        with self.assertRaises(kind) as caught:
            call(*words)
        error = caught.exception
        self.assertEqual((error.code, error.done, error.later), wanted)
        return error


@wants_program
class Refusals(Blocks, unittest.TestCase):
    """What is done, what is done later, and the numbers of the rows that are placed."""

    def test_rows_that_find_no_room(self):
        # keys, of which at most four from 200 on find room; `done` and `later` of the error; how many rows are inserted
        cases = [
            ([1, 2, 200, 3, 4, 201, 5, 202, 6, 203], (6, 1), 7),
            ([1, 2, 3, 4, 5, 200, 201], (4, 1), 5),
            ([1, 2, 3, 4, 200, 201, 5, 6, 7, 202], (6, 0), 6),
            ([1, 2, 3, 4, 200, 201, 202, 5, 6, 203], (7, 0), 7),
            ([200, 201, 202, 203, 204, 1, 2, 3], (4, 1), 5),
        ]
        for keys, (done, later), placed in cases:
            with self.subTest(keys), self.table(splits=[100], cells=4) as table:
                error = self.expect(crackd.Full, (9, done, later), table.insert_many, keys, range(len(keys)))
                got = table.select()
                rows = dict(zip(numbers(got.rows), zip(numbers(got.keys), numbers(got.payloads))))
                self.assertEqual((len(error.answers), len(rows)), (placed, placed))
                in_order = [rows[int(it)] for it in error.answers]
                self.assertEqual(in_order[:done], list(zip(keys, range(done))))
                self.assertEqual([it[1] for it in in_order], sorted(it[1] for it in in_order))

    def test_rows_that_no_partition_has(self):
        with self.table(splits=[100]) as table:
            rows = numbers(table.insert_many([*range(10), *range(200, 210)], [1] * 20))
            for before, after in [(0, 0), (1, 1), (2, 0), (3, 2), (4, 4), (5, 2)]:
                given = [*rows[:before], 9 << 48, *rows[before : before + after]]
                later = min(after, AT_ONCE - 1 - before % AT_ONCE)
                self.expect(crackd.NoSuchPartition, (5, before, later), table.delete_many, given)
                gone = given[:before] + given[before + 1 : before + 1 + later]
                self.assertEqual(list(table.delete_many(gone)), [False] * len(gone))
                rows = [it for it in rows if it not in gone]
                self.assertEqual(table.count(), len(rows))

    def test_rows_that_would_leave_their_partition(self):
        for before, after in [(0, 0), (1, 1), (2, 0), (3, 2), (4, 4), (8, 1)]:
            with self.subTest(before=before, after=after), self.table(splits=[100]) as table:
                rows = numbers(table.insert_many(range(before + 1 + after), [1] * (before + 1 + after)))
                keys = [*range(before), 150, *range(after)]
                later = min(after, AT_ONCE - 1 - before % AT_ONCE)
                wanted = 4, before, later
                self.expect(crackd.WrongPartition, wanted, table.update_many, rows, keys, [10] * len(keys))
                self.assertEqual(table.sum(), 10 * (before + later) + (1 + after - later))


@wants_program
class Answers(Blocks, unittest.TestCase):
    """The answers of several blocks, in order."""

    def test_each_call_for_many(self):
        for count in (1, AT_ONCE - 1, AT_ONCE, AT_ONCE + 1, 2 * AT_ONCE, 10):
            with self.subTest(count), self.table(splits=[5]) as table:
                keys, payloads = range(count), [(-3) ** it for it in range(count)]
                rows = numbers(table.insert_many(keys, payloads))
                self.assertEqual(len(set(rows)), count)
                self.assertEqual(numbers(table.count_many(keys, None)), [count - it for it in keys])
                self.assertEqual(table.sum_many(keys, range(1, count + 1)), payloads)
                got = table.select()
                self.assertEqual(dict(zip(numbers(got.rows), numbers(got.payloads))), dict(zip(rows, payloads)))
                given = [rows[0], rows[0] + 1000, *rows[1:]]
                is_there = [True, False] + [True] * (count - 1)
                found = table.update_many(given, [0, 0, *keys[1:]], range(count + 1))
                self.assertEqual(list(found), is_there)
                self.assertEqual(table.sum_many(keys, range(1, count + 1)), [0, *range(2, count + 1)])
                self.assertEqual(list(table.delete_many(given)), is_there)
                self.assertEqual(table.count(), 0)

    def test_a_table_settles_by_its_own_policy_afterwards(self):
        # (rows in the column, pending insertions) after 2 later inserts and a query of 10 keys, which meets one of them
        wanted = {"complete": (102, 0), "gradual": (101, 1), "ripple": (100, 2)}
        for policy, columns in wanted.items():
            with self.subTest(policy), self.table(policy=policy) as table:
                table.insert_many(range(100), [1] * 100)
                table.settle()
                part = table.layout().parts[0]
                self.assertEqual((part.column, part.pending_in), (100, 0))
                table.insert_many([15, 50], [1, 1])
                table.count(10, 20)
                part = table.layout().parts[0]
                self.assertEqual((part.column, part.pending_in), columns)


@wants_program
class FullHistories(Blocks, unittest.TestCase):
    """A server that makes no checkpoints by itself, with histories of a few commands."""

    @contextlib.contextmanager
    def table(self, limit, policy="auto"):
        words = [server.find_program(), "--workers", "1", "--limit", str(limit), "--until-eof", "--quiet"]
        with server.Server([*words, str(2**63 + 50)], crackd.keys.Keys("i"), policy) as served:
            with served.connect(timeout=SECONDS) as table:
                yield table

    def test_each_call(self):
        for limit, at_once in itertools.product((1, 2, 7), (3, 100)):
            with self.subTest(limit=limit, at_once=at_once), mock.patch.object(wire, "STATEMENTS_AT_ONCE", at_once):
                with self.table(limit) as table:
                    self.each_call(table)

    def each_call(self, table):
        keys = range(40, 60)
        rows = numbers(table.insert_many(keys, keys))
        self.assertEqual(len(set(rows)), 20)
        for _ in range(3):
            self.assertEqual((table.count(), table.sum(), len(table.select().rows)), (20, sum(keys), 20))
        self.assertEqual(numbers(table.count_many(keys, None)), list(range(20, 0, -1)))
        self.assertEqual(table.sum_many(keys, range(41, 61)), list(keys))
        self.assertEqual(list(table.update_many(rows, keys, [1] * 20)), [True] * 20)
        self.assertEqual(list(table.delete_many([*rows[::2], rows[0]])), [True] * 10 + [False])
        for key in (40, 59):
            row = table.insert(key, 5)
            self.assertEqual((table.update(row, key, 6), table.delete(row), table.delete(row)), (True, True, False))
        table.settle()
        self.assertEqual((table.sum(), table.layout().rows), (10, 10))
        self.assertGreater(table.checkpoint(), 0)
        self.assertEqual(table.checkpoint(), 0)


class Scripted(unittest.TestCase):
    """A server that answers as it never would, or goes."""

    @contextlib.contextmanager
    def connected(self, replies):
        """A table on a server that answers statements by their first word, in turn."""

        def reply(line):
            said = {"ping": b"pong\n", **replies}[line.split()[0].decode()]
            return said.pop(0) if isinstance(said, list) else said

        with answering(reply) as port, crackd.connect(port=port, timeout=SECONDS) as table:
            yield table

    def test_a_checkpoint_that_is_refused(self):
        for code, kind in [(8, crackd.OutOfMemory), (10, crackd.LifeOver)]:
            said = [b"folded 3\n", b"refused %d\n" % code, *[b"refused 5\n"] * 62]
            with self.subTest(code), self.connected(
                {"policy": b"policy auto\n", "checkpoint": said, "quit": b"bye\n"}
            ) as table:
                with self.assertRaises(kind) as caught:
                    table.checkpoint()
                self.assertEqual(caught.exception.code, code)

    CALLS = {
        "insert": lambda table: table.insert(1, 2),
        "delete": lambda table: table.delete(1),
        "update": lambda table: table.update(1, 2, 3),
        "count": lambda table: table.count(1, 2),
        "sum": lambda table: table.sum(1, 2),
        "select": lambda table: table.select(1, 2),
    }

    def test_checkpoints_that_make_no_room(self):
        for name, call in self.CALLS.items():
            for said, kind in [(b"folded 0\n", crackd.HistoryFull), (b"refused 8\n", crackd.OutOfMemory)]:
                full = {"policy": b"policy auto\n", "checkpoint": said, name: b"refused 6 0\n", "quit": b"bye\n"}
                with self.subTest(name, said=said), self.connected(full) as table:
                    self.assertRaises(kind, call, table)
                    self.assertRaises(kind, call, table)

    def test_checkpoints_add_up(self):
        said = [b"folded 3\n", b"folded 4\n", *[b"refused 5\n"] * 62]
        with self.connected({"policy": b"policy auto\n", "checkpoint": said, "quit": b"bye\n"}) as table:
            self.assertEqual(table.checkpoint(), 7)

    def test_a_server_that_is_gone_when_a_table_is_closed(self):
        with self.connected({"policy": b"policy auto\n", "quit": None}) as table:
            table.close()
            self.assertRaises(crackd.Closed, table.count)
            table.close()

    def test_a_refused_policy(self):
        for code, kind in [(8, crackd.OutOfMemory), (1, crackd.Refused), (20, crackd.Refused)]:
            with self.subTest(code), answering(lambda line, code=code: b"refused %d\n" % code) as port:
                with self.assertRaises(kind):
                    crackd.connect(port=port)

    def test_each_refusal_of_a_server(self):
        kinds = {4: crackd.WrongPartition, 5: crackd.NoSuchPartition, 8: crackd.OutOfMemory, 9: crackd.Full}
        kinds |= {10: crackd.LifeOver, 1: crackd.Refused, 2: crackd.Refused, 7: crackd.Refused}
        for code, kind in kinds.items():
            refusals = {name: b"refused %d\n" % code for name in self.CALLS}
            said = {"policy": b"policy auto\n", "quit": b"bye\n", **refusals}
            for name, call in self.CALLS.items():
                with self.subTest(name, code=code), self.connected(said) as table:
                    with self.assertRaises(kind) as caught:
                        call(table)
                    error = caught.exception
                    self.assertEqual((type(error), error.code, error.done, error.later), (kind, code, 0, 0))


if __name__ == "__main__":
    unittest.main()
