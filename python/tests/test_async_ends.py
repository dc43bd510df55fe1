"""Connections of asyncio that are idle, are closed, or end amid replies, over a server of the tests."""

import asyncio
import contextlib
import errno
import unittest
from unittest import mock

from test_async import Scripted, numbers
from ways import crackd

from crackd import aio

SECONDS = 30


async def heard_by(scripted, count):
    """Waits until a server got so many lines."""
    while len(scripted.heard) < count:
        await asyncio.sleep(0)


class Ends(unittest.IsolatedAsyncioTestCase):
    """Connections that end."""

    async def expect_closed(self, table):
        for call in (table.count, table.ping, table.settle, table.checkpoint, table.layout, table.select):
            with self.assertRaisesRegex(crackd.Closed, "connect again"):
                await call()
        for words in ((5, 5), (1, 9)):
            with self.assertRaises(crackd.Closed):
                await table.count(*words)
            with self.assertRaises(crackd.Closed):
                async for _ in table.select_chunks(*words):
                    self.fail("a chunk of a closed table")
        await asyncio.wait_for(table.close(), SECONDS)
        await asyncio.wait_for(table.close(), SECONDS)

    async def test_replies_that_are_cut_at_each_byte(self):
        """Whoever has its replies gets them; inserts that wait have the rows of the lines that came."""
        said = b"count 7\nrow 0.5\nrow 1.77\nrow 0.6\nrows 1\n0.1 2 -3\n"
        ends = [8, 33, len(said)]
        for cut in range(len(said) + 1):
            with self.subTest(cut):
                async with Scripted.connected(lambda line, it: b"") as (table, scripted):
                    calls = [table.count(), table.insert_many([1, 2, 3], [4, 5, 6]), table.select()]
                    waiting = [asyncio.ensure_future(it) for it in calls]
                    await heard_by(scripted, 7)
                    scripted.writers[0].write(said[:cut])
                    scripted.writers[0].close()
                    found = await asyncio.wait_for(asyncio.gather(*waiting, return_exceptions=True), SECONDS)
                    gone = [isinstance(it, crackd.Disconnected) for it in found]
                    self.assertEqual((cut, gone), (cut, [cut < end for end in ends]))
                    rows = found[1].answers if gone[1] else found[1]
                    placed = [5, 1 << 48 | 77, 6][: max(0, said[:cut].count(b"\n") - 1)]
                    self.assertEqual((cut, numbers(rows)), (cut, placed))
                    if not gone[2]:
                        self.assertEqual([numbers(found[2].keys), numbers(found[2].payloads)], [[2], [-3]])
                    self.assertTrue(gone[0] or found[0] == 7)
                    await self.expect_closed(table)

    async def test_a_connection_that_is_reset(self):
        async with Scripted.connected(lambda line, it: b"") as (table, scripted):
            waiting = [asyncio.ensure_future(it) for it in (table.count(), table.sum())]
            await heard_by(scripted, 4)
            table._table.line._reader.set_exception(ConnectionResetError(errno.ECONNRESET, "reset"))
            found = await asyncio.wait_for(asyncio.gather(*waiting, return_exceptions=True), SECONDS)
            self.assertEqual([type(it) for it in found], [crackd.Disconnected] * 2)
            self.assertIsNot(found[0], found[1])
            await self.expect_closed(table)

    async def test_what_came_is_of_the_first_who_waits(self):
        async with Scripted.connected(lambda line, it: b"") as (table, scripted):
            calls = [table.insert_many([1, 2], [1, 2]), table.insert_many([3, 4], [3, 4]), table.insert_many([5], [5])]
            waiting = [asyncio.ensure_future(it) for it in calls]
            await heard_by(scripted, 7)
            scripted.writers[0].write(b"row 0.1\nrow 0.2\nrow 0.3\n")
            scripted.writers[0].close()
            found = await asyncio.gather(*waiting, return_exceptions=True)
            self.assertEqual(numbers(found[0]), [1, 2])
            self.assertEqual([numbers(it.answers) for it in found[1:]], [[3], []])

    async def test_a_task_that_was_cancelled_before_the_end(self):
        async with Scripted.connected(lambda line, it: b"") as (table, scripted):
            waiting = [asyncio.ensure_future(it) for it in (table.count(), table.sum(), table.count(1, 2))]
            await heard_by(scripted, 5)
            waiting[0].cancel()
            waiting[2].cancel()
            await asyncio.sleep(0)
            scripted.writers[0].close()
            found = await asyncio.wait_for(asyncio.gather(*waiting, return_exceptions=True), SECONDS)
            kinds = [asyncio.CancelledError, crackd.Disconnected, asyncio.CancelledError]
            self.assertEqual([type(it) for it in found], kinds)
            await self.expect_closed(table)


class Closing(unittest.IsolatedAsyncioTestCase):
    """How a session ends."""

    async def test_it_takes_leave_after_what_was_asked_before(self):
        ends = []

        async def serve(reader, writer):
            while line := await reader.readline():
                ends.append(line)
                await asyncio.sleep(0.01)
                writer.write({**Scripted.FIRST, b"quit\n": b"bye\n"}.get(line, b"count 7\n"))
            ends.append(b"")
            writer.close()

        async with await asyncio.start_server(serve, "127.0.0.1", 0) as served:
            table = await crackd.connect_async(port=served.sockets[0].getsockname()[1])
            waiting = [asyncio.ensure_future(table.count(it, it + 1)) for it in range(3)]
            await asyncio.sleep(0)
            await asyncio.wait_for(table.close(), SECONDS)
            self.assertEqual(await asyncio.gather(*waiting), [7, 7, 7])
            with self.assertRaises(crackd.Closed):
                await table.count()
            await table.close()
            while ends[-1:] != [b""]:
                await asyncio.sleep(0.001)
            asked = [b"count %d %d\n" % (it, it + 1) for it in range(3)]
            self.assertEqual(ends, [*Scripted.FIRST, *asked, b"quit\n", b""])

    async def test_a_server_that_goes_meanwhile(self):
        async with Scripted.connected(lambda line, it: None) as (table, scripted):
            await asyncio.wait_for(table.close(), SECONDS)
            self.assertEqual(scripted.heard[2:], [b"quit\n"])
            with self.assertRaises(crackd.Closed):
                await table.count()

    async def test_it_is_closed_for_the_server_once_the_server_went_or_was_silent(self):
        """The transport is closed, so that no descriptor stays open."""
        for is_silent in (False, True):
            async with Scripted.connected(lambda line, it: b"" if is_silent else None, timeout=0.1) as (table, _):
                with self.assertRaises(crackd.TimedOut if is_silent else crackd.Disconnected):
                    await table.count()
                self.assertTrue(table._table.line._writer.is_closing())

    async def test_a_refused_policy_ends_the_connection(self):
        heard, ended = [], asyncio.Event()

        async def refuse(reader, writer):
            for reply in (b"pong\n", b"refused 8\n", b"bye\n"):
                heard.append(await reader.readline())
                writer.write(reply)
            heard.append(await reader.readline())
            ended.set()
            writer.close()

        async with await asyncio.start_server(refuse, "127.0.0.1", 0) as served:
            with self.assertRaises(crackd.OutOfMemory):
                await crackd.connect_async(port=served.sockets[0].getsockname()[1])
            await asyncio.wait_for(ended.wait(), SECONDS)
        # a connection begins with a ping, and nothing follows its end
        self.assertEqual(heard, [b"ping\n", b"policy auto\n", b"quit\n", b""])


class Waits(unittest.IsolatedAsyncioTestCase):
    """How long a server may be silent."""

    async def test_nobody_waits_for_an_idle_server(self):
        async with Scripted.connected(lambda line, it: b"count 7\n", timeout=0.3) as (table, _):
            for _ in range(2):
                await asyncio.sleep(0.4)
                self.assertEqual(await table.count(), 7)
            # changed while the connection is idle
            table.timeout = 0.2
            await asyncio.sleep(0.3)
            self.assertEqual((await table.count(), table.timeout), (7, 0.2))

    async def test_silence_counts_from_the_statement_and_from_each_byte(self):
        async with Scripted.connected(lambda line, it: b"", timeout=0.5) as (table, scripted):
            await asyncio.sleep(0.4)
            waiting, loop = asyncio.ensure_future(table.count()), asyncio.get_running_loop()
            await heard_by(scripted, 3)
            for byte in b"count 7":
                await asyncio.sleep(0.1)
                scripted.writers[0].write(bytes([byte]))
            began = loop.time()
            with self.assertRaisesRegex(crackd.TimedOut, "silent for 0.5 seconds; the connection is closed"):
                await waiting
            self.assertGreaterEqual(loop.time() - began, 0.4)

    async def test_no_server_in_words(self):
        for fault, kind, said in [
            (ConnectionRefusedError(111, "Connection refused"), crackd.Disconnected, ": Connection refused"),
            (OSError("Multiple exceptions"), crackd.Disconnected, ": Multiple exceptions"),
            (TimeoutError(110, "Connection timed out"), crackd.TimedOut, ": Connection timed out"),
            (asyncio.TimeoutError(), crackd.TimedOut, ": "),
        ]:
            with mock.patch.object(aio.asyncio, "open_connection", mock.AsyncMock(side_effect=fault)):
                with self.assertRaises(crackd.Disconnected) as caught:
                    await crackd.connect_async("there", 4321)
            self.assertIs(type(caught.exception), kind)
            self.assertEqual(str(caught.exception), f"no server at there, port 4321{said}")


class Turns(unittest.IsolatedAsyncioTestCase):
    """What the tasks of a turn of the loop say."""

    async def test_each_statement_is_sent_once(self):
        for count in (1, 2, 3, 7):
            async with Scripted.connected(lambda line, it: b"count %d\n" % int(line.split()[1])) as (table, scripted):
                for _ in range(3):
                    del scripted.heard[:]
                    found = await asyncio.gather(*(table.count(it, it + 1) for it in range(count)))
                    self.assertEqual(found, [*range(count)])
                    self.assertEqual(scripted.heard, [b"count %d %d\n" % (it, it + 1) for it in range(count)])

    async def test_much_at_once(self):
        # more than a connection takes at once
        count = 20_000
        got = bytearray()

        async def serve(reader, writer):
            for reply in Scripted.FIRST.values():
                await reader.readline()
                writer.write(reply)
            while got.count(b"\n") < count:
                got.extend(await reader.read(1 << 20))
            writer.write(b"".join(b"row 0.%d\n" % it for it in range(count)))
            await reader.read()
            writer.close()

        async with await asyncio.start_server(serve, "127.0.0.1", 0) as served:
            table = await crackd.connect_async(port=served.sockets[0].getsockname()[1])
            rows = await table.insert_many(range(count), [-(10**18)] * count)
            self.assertEqual(numbers(rows), [*range(count)])
            self.assertEqual(bytes(got), b"".join(b"insert %d %d\n" % (it, -(10**18)) for it in range(count)))
            table._table.line._writer.close()

    async def test_sizes_of_chunks(self):
        async with Scripted.connected(lambda line, it: b"") as (table, scripted):
            for size in (0, -1):
                for words in ((1, 9), (5, 5)):
                    with self.assertRaises(ValueError):
                        async for _ in table.select_chunks(*words, size=size):
                            pass
            self.assertEqual(scripted.heard[2:], [])
            self.assertEqual([it async for it in table.select_chunks(5, 5)], [])

    async def test_a_move_goes_on_without_its_task(self):
        """A task that is cancelled after the deletion was sent: the row is inserted nevertheless."""
        async with Scripted.connected(lambda line, it: b"") as (table, scripted):
            moving = asyncio.ensure_future(table.move(3, 9))
            await heard_by(scripted, 3)
            moving.cancel()
            with self.assertRaises(asyncio.CancelledError):
                await moving
            scripted.writers[0].write(b"gone 5 7\n")
            await asyncio.wait_for(heard_by(scripted, 4), SECONDS)
            self.assertEqual(scripted.heard[2:], [b"delete 0.3\n", b"insert 9 7\n"])
            scripted.writers[0].write(b"row 0.4\n")
            with contextlib.suppress(asyncio.TimeoutError):
                await asyncio.wait_for(asyncio.gather(*table._moving), SECONDS)
            self.assertEqual(len(table._moving), 0)


if __name__ == "__main__":
    unittest.main()
