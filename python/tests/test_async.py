"""Tasks that share a connection: what they send, what they get, and what happens if a task is cancelled."""

import asyncio
import contextlib
import random
import socket
import unittest

from ways import crackd, wants_program

from crackd import aio, wire

SECONDS = 30


def numbers(it):
    return [int(each) for each in it]


class Scripted:
    """A server of the tests, in the same loop. `heard` has the lines that it got; the first two are a connection's."""

    FIRST = {b"ping\n": b"pong\n", b"policy auto\n": b"policy auto\n"}

    def __init__(self, reply):
        self.reply, self.heard, self.writers = reply, [], []

    async def serve(self, reader, writer):
        self.writers.append(writer)
        while line := await reader.readline():
            self.heard.append(line)
            said = self.reply(line, self)
            if said is None:
                writer.close()
                return
            writer.write(said)

    @classmethod
    @contextlib.asynccontextmanager
    async def connected(cls, reply, **options):
        """A table on a server that answers each line by what this function makes of it; None closes the connection."""
        scripted = cls(lambda line, it: cls.FIRST.get(line) or reply(line, it))
        async with await asyncio.start_server(scripted.serve, "127.0.0.1", 0) as served:
            port = served.sockets[0].getsockname()[1]
            table = await crackd.connect_async(port=port, **options)
            try:
                yield table, scripted
            finally:
                for writer in scripted.writers:
                    writer.close()


class Tasks(unittest.IsolatedAsyncioTestCase):
    """What goes over a connection."""

    async def test_calls_do_not_wait_for_replies(self):
        async with Scripted.connected(lambda line, it: b"") as (table, scripted):
            waiting = [asyncio.ensure_future(it) for it in (table.count(1, 2), table.sum(3, 4), table.select(5, 6))]
            while len(scripted.heard) < 5:
                await asyncio.sleep(0)
            self.assertEqual(scripted.heard[2:], [b"count 1 2\n", b"sum 3 4\n", b"select 5 6\n"])
            self.assertFalse(any(it.done() for it in waiting))
            for piece in (b"count 7\nsu", b"m -5\nrow", b"s 2\n0.1 5 8\n0.", b"2 5 -9\n"):
                scripted.writers[0].write(piece)
                await asyncio.sleep(0.01)
            count, total, rows = await asyncio.gather(*waiting)
            self.assertEqual((count, total, numbers(rows.rows), numbers(rows.payloads)), (7, -5, [1, 2], [8, -9]))

    async def test_a_cancelled_task_leaves_the_connection(self):
        async with Scripted.connected(lambda line, it: b"") as (table, scripted):
            waiting = [asyncio.ensure_future(it) for it in (table.select(1, 2), table.count(3, 4), table.count(5, 6))]
            while len(scripted.heard) < 5:
                await asyncio.sleep(0)
            for at in (0, 1):
                waiting[at].cancel()
            scripted.writers[0].write(b"rows 2\n0.1 5 8\n")
            await asyncio.sleep(0.01)
            self.assertFalse(waiting[2].done())
            scripted.writers[0].write(b"0.2 5 8\ncount 3\ncount 8\n")
            self.assertEqual(await waiting[2], 8)
            found = await asyncio.gather(*waiting, return_exceptions=True)
            self.assertEqual([type(it) for it in found[:2]], [asyncio.CancelledError] * 2)

    async def test_a_server_that_goes_tells_all_who_wait(self):
        async with Scripted.connected(lambda line, it: b"") as (table, scripted):
            calls = [table.insert_many([1, 2, 3], [1, 2, 3]), table.count(), table.insert_many([4], [4])]
            waiting = [asyncio.ensure_future(it) for it in calls]
            while len(scripted.heard) < 7:
                await asyncio.sleep(0)
            scripted.writers[0].write(b"row 0.5\nrow 1.7\nrow 0.")
            await asyncio.sleep(0.01)
            scripted.writers[0].close()
            found = await asyncio.gather(*waiting, return_exceptions=True)
            self.assertEqual([type(it) for it in found], [crackd.Disconnected] * 3)
            self.assertEqual([numbers(found[0].answers), numbers(found[2].answers)], [[5, 1 << 48 | 7], []])
            with self.assertRaises(crackd.Closed):
                await table.count()
            await table.close()

    async def test_a_move_amid_which_the_server_goes(self):
        """What was deleted isn't put back, since it may have been placed."""
        said = {b"delete": b"gone 5 7\n", b"insert": None}
        async with Scripted.connected(lambda line, it: said[line.split()[0]]) as (table, scripted):
            with self.assertRaises(crackd.Disconnected) as caught:
                await table.move(3, 9)
            self.assertEqual((caught.exception.row, list(caught.exception.answers)), ((5, 7), []))
            self.assertEqual(scripted.heard[2:], [b"delete 0.3\n", b"insert 9 7\n"])

    async def test_a_server_that_is_silent(self):
        def reply(line, it):
            return b"count 1\n" if b" 1 " in line else b""

        async with Scripted.connected(reply, timeout=1) as (table, _):
            self.assertEqual((await table.count(1, 2), table.timeout), (1, 1))
            found = await asyncio.gather(table.count(3, 4), table.sum(5, 6), return_exceptions=True)
            self.assertEqual([type(it) for it in found], [crackd.TimedOut] * 2)
            self.assertRegex(str(found[0]), "silent for 1 seconds")
            with self.assertRaises(crackd.Closed):
                await table.count(1, 2)

    async def test_a_server_that_is_slow_but_not_silent(self):
        # each pause is far below the timeout, even on a busy machine; together they are above it
        async with Scripted.connected(lambda line, it: b"", timeout=2) as (table, scripted):
            waiting = asyncio.ensure_future(table.insert_many(range(8), range(8)))
            for serial in range(8):
                await asyncio.sleep(0.3)
                scripted.writers[0].write(b"row 0.%d\n" % serial)
            self.assertEqual(numbers(await waiting), list(range(8)))
            table.timeout = 0.05
            with self.assertRaises(crackd.TimedOut):
                await table.count()
            with self.assertRaises(ValueError):
                table.timeout = 0

    async def test_a_timeout_that_is_set_while_a_call_waits(self):
        for before, after in [(None, 0.05), (60, 0.05), (0.3, None), (0.3, 60)]:
            async with Scripted.connected(lambda line, it: b"", timeout=before) as (table, scripted):
                waiting = asyncio.ensure_future(table.count(1, 2))
                # the first two lines are the connection's own
                while len(scripted.heard) < 3:
                    await asyncio.sleep(0)
                table.timeout = after
                self.assertEqual(table.timeout, after)
                if after == 0.05:
                    with self.assertRaises(crackd.TimedOut):
                        await asyncio.wait_for(waiting, 30)
                    continue
                # until after the moment at which the call would have timed out
                await asyncio.wait([waiting], timeout=0.5)
                self.assertFalse(waiting.done())
                scripted.writers[0].write(b"count 7\n")
                self.assertEqual(await waiting, 7)

    async def test_a_full_history_is_emptied_with_nothing_in_between(self):
        """Statements that are refused for a full history are sent again in one piece with the checkpoints."""
        full = [b"refused 6 0\n", b"row 0.1\n"]

        def reply(line, it):
            if line.startswith(b"checkpoint"):
                return b"folded 3\n" if line == b"checkpoint 0\n" else b"refused 5\n"
            return full.pop(0) if line.startswith(b"insert") else b"count 4\n"

        async with Scripted.connected(reply) as (table, scripted):
            found = await asyncio.gather(table.insert(1, 1), *(table.count(it, it + 1) for it in range(50)))
            self.assertEqual(found, [1] + [4] * 50)
            at = scripted.heard.index(b"checkpoint 0\n")
            wanted = [*wire.CHECKPOINTS.splitlines(keepends=True), b"insert 1 1\n"]
            self.assertEqual(scripted.heard[at : at + 65], wanted)

    async def test_no_server(self):
        with socket.socket() as free:
            free.bind(("127.0.0.1", 0))
            with self.assertRaises(crackd.Disconnected):
                await crackd.connect_async(port=free.getsockname()[1])
        for options in ({"policy": "none"}, {"timeout": 0}, {"timeout": -1}):
            with self.assertRaises(ValueError):
                await crackd.connect_async(**options)
        with self.assertRaises(TypeError):
            await crackd.connect_async(key_type="text")

    async def test_a_server_that_answers_no_connection(self):
        with socket.socket() as listening:
            listening.bind(("127.0.0.1", 0))
            listening.listen()
            with self.assertRaises(crackd.TimedOut):
                await crackd.connect_async(port=listening.getsockname()[1], timeout=0.2)

    async def test_a_refused_policy(self):
        async def refuse(reader, writer):
            for said in (b"pong\n", b"refused 8\n"):
                await reader.readline()
                writer.write(said)
            await reader.readline()
            writer.close()

        async with await asyncio.start_server(refuse, "127.0.0.1", 0) as served:
            with self.assertRaises(crackd.OutOfMemory):
                await crackd.connect_async(port=served.sockets[0].getsockname()[1])


@wants_program
class Shared(unittest.IsolatedAsyncioTestCase):
    """Many tasks at one table of a server."""

    @contextlib.asynccontextmanager
    async def table(self, **options):
        with crackd.serve(workers=1, **options) as served:
            words = {"key_type": served._keys, "policy": served._policy, "timeout": SECONDS}
            async with await crackd.connect_async(port=served.port, **words) as table:
                yield table

    async def test_each_task_gets_its_own_replies(self):
        """Tasks that change and query keys of their own find what a list has."""
        async with self.table(splits=[1000 * it for it in range(1, 10)]) as table:

            async def work(at):
                drawn, rows, low = random.Random(at), {}, at * 100
                for _ in range(30):
                    keys = [drawn.randrange(low, low + 100) for _ in range(drawn.randrange(1, 5))]
                    payloads = [drawn.randrange(-(2**63), 2**63) for _ in keys]
                    for row, *it in zip(numbers(await table.insert_many(keys, payloads)), keys, payloads):
                        rows[row] = tuple(it)
                    gone = drawn.choice(sorted(rows))
                    self.assertEqual(tuple(await table.get(gone)), rows[gone])
                    self.assertTrue(await table.delete(gone))
                    del rows[gone]
                    await asyncio.sleep(0)
                    total = sum(it[1] for it in rows.values())
                    self.assertEqual(await table.sum(low, low + 100), total)
                    self.assertEqual(await table.count(low, low + 100), len(rows))
                got = await table.select(low, low + 100)
                self.assertEqual(dict(zip(numbers(got.rows), zip(numbers(got.keys), numbers(got.payloads)))), rows)
                return len(rows)

            rows = sum(await asyncio.gather(*map(work, range(20))))
            self.assertEqual(await table.count(), rows)

    async def test_tasks_that_are_cancelled_at_random(self):
        async with self.table() as table:
            await table.insert_many(range(100), range(100))
            drawn = random.Random(5)
            for _ in range(100):
                waiting = [asyncio.ensure_future(it) for it in (table.select(), table.count(0, 5), table.sum(0, 3))]
                await asyncio.sleep(drawn.random() / 500)
                drawn.choice(waiting).cancel()
                found = await asyncio.gather(*waiting, return_exceptions=True)
                for it, wanted in zip(found, (None, 5, 3)):
                    if not isinstance(it, asyncio.CancelledError) and wanted is not None:
                        self.assertEqual(it, wanted)
            self.assertEqual((await table.count(), await table.sum()), (100, 4950))

    async def test_a_cancelled_move_loses_no_row(self):
        async with self.table(splits=[100]) as table:
            drawn, rows = random.Random(6), {}
            for key in range(60):
                rows[await table.insert(key, key)] = key
            for row in rows:
                moving = asyncio.ensure_future(table.move(row, 1000))
                for _ in range(drawn.randrange(6)):
                    await asyncio.sleep(0)
                await asyncio.sleep(drawn.random() / 1000)
                moving.cancel()
                await asyncio.gather(moving, return_exceptions=True)
            while table._moving:
                await asyncio.sleep(0.001)
            self.assertEqual((await table.count(), await table.sum()), (60, sum(range(60))))
            self.assertGreater(await table.count(1000, 1001), 30)

    async def test_histories_that_fill_under_many_tasks(self):
        """Without checkpoints of the server's own, each task makes room for its statements."""
        words = [crackd.server.find_program(), "--workers", "1", "--limit", "2", "--until-eof", "--quiet"]
        with crackd.server.Server(words, crackd.keys.Keys("u"), "auto") as served:
            async with await crackd.connect_async(port=served.port, timeout=SECONDS) as table:
                rows = await asyncio.gather(*(table.insert(it, it) for it in range(50)))
                self.assertEqual(len(set(rows)), 50)
                found = await asyncio.gather(*(table.sum(it, it + 1) for it in range(50)), table.count())
                self.assertEqual(found, [*range(50), 50])

    async def test_blocks_and_chunks(self):
        async with self.table(splits=[10, 20]) as table:
            await table.insert_rows(range(30), range(30), progress=lambda *_: None)
            chunks = [numbers(it.keys) async for it in table.select_chunks(5, 25, 4)]
            wanted = [range(5, 9), [9], range(10, 14), range(14, 18), [18, 19], range(20, 24), [24]]
            self.assertEqual(chunks, list(map(list, wanted)))
            with self.assertRaises(ValueError):
                async for _ in table.select_chunks(2, 1):
                    pass

    async def test_a_forked_child_asks_nothing(self):
        async with self.table() as table:
            await table.insert(1, 5)
            shared = table._table
            try:
                # as a forked child does
                shared._leave()
                for call in (table.count, table.ping, lambda: table.insert(1, 1), table.close, lambda: table.sum(1, 1)):
                    with self.assertRaises(crackd.Forked):
                        await call()
                self.assertIn("of the parent process", repr(table))
            finally:
                shared.line._fault = None
            self.assertEqual(await table.sum(), 5)

    async def test_it_is_closed_with_the_block(self):
        async with self.table() as table:
            waiting = asyncio.ensure_future(table.insert(5, 7))
            await asyncio.sleep(0)
            await table.close()
            self.assertEqual(await waiting, 0)
            await table.close()
            with self.assertRaises(crackd.Closed):
                await table.ping()
        self.assertIsInstance(table._table.line, aio.Line)


if __name__ == "__main__":
    unittest.main()
