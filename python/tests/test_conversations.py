"""What a client sends and how it reads the replies: full histories, refusals, and connections that end."""

import contextlib
import itertools
import select
import socket
import threading
import time
import unittest
from unittest import mock

from ways import crackd, standing_in

from crackd import channel, wire
from crackd.channel import Channel
from crackd.keys import Keys

TOP = 2**64
# the greatest number of seconds that either side waits for the other
SECONDS = 30


def numbers(it):
    return [int(each) for each in it]


class Partition:
    """Stands in for a server with one partition, whose history holds this many entries. It has all that was said."""

    def __init__(self, room, fault=None):
        self.room, self.fault, self.entries, self.rows, self.said = room, fault, 0, {}, []
        self.next = 0

    def answer(self, line):
        name, *words = line.split()
        if name == "checkpoint":
            if words != ["0"]:
                return "refused 5"
            if self.fault:
                return f"refused {self.fault}"
            found, self.entries = self.entries, 0
            return f"folded {found}"
        if name == "policy":
            return f"policy {words[0]}"
        if self.entries == self.room:
            return f"refused 6 {self.room}"
        self.entries += 1
        return getattr(self, name)(*(int(it) for it in words if "." not in it), *self.named(words))

    @staticmethod
    def named(words):
        return [int(it.partition(".")[2]) for it in words if "." in it]

    def insert(self, key, payload):
        self.rows[self.next] = key, payload
        self.next += 1
        return f"row 0.{self.next - 1}"

    def delete(self, serial):
        found = self.rows.pop(serial, None)
        return "none" if found is None else "gone {} {}".format(*found)

    def update(self, key, payload, serial):
        if serial not in self.rows:
            return "none"
        self.rows[serial] = key, payload
        return "changed"

    def within(self, low, high):
        return {at: row for at, row in self.rows.items() if low <= row[0] < high}

    def count(self, low, high):
        return f"count {len(self.within(low, high))}"

    def sum(self, low, high):
        return f"sum {sum(it for _, it in self.within(low, high).values())}"

    def select(self, low, high):
        found = self.within(low, high)
        return "\n".join([f"rows {len(found)}", *("0.{} {} {}".format(at, *it) for at, it in found.items())])

    def talk(self, steps):
        """What a conversation returns."""
        try:
            text, lines = next(steps)
            while True:
                asked = text.decode("ascii").splitlines()
                if len(asked) != lines:
                    raise AssertionError((asked, lines))
                self.said.append(asked)
                said = "".join(self.answer(it) + "\n" for it in asked).encode("ascii")
                text, lines = steps.send(said)
        except StopIteration as done:
            return done.value


class FullHistories(unittest.TestCase):
    """Calls that fill histories, with any room and in blocks of any length."""

    def test_each_call(self):
        for room, at_once, count in itertools.product((1, 2, 3, 100), (1, 2, 3, 100), range(6)):
            with self.subTest(room=room, at_once=at_once, count=count):
                with mock.patch.object(wire, "STATEMENTS_AT_ONCE", at_once):
                    self.expect(Partition(room), count)

    def expect(self, part, count):
        keys, payloads = [10 * it for it in range(count)], [7 - it for it in range(count)]
        self.assertEqual(numbers(part.talk(wire.insert_many(keys, payloads))), list(range(count)))
        self.assertEqual(list(part.rows.values()), list(zip(keys, payloads)))
        lows, highs = [0] * count, [10 * it for it in range(count)]
        self.assertEqual(numbers(part.talk(wire.count_many(lows, highs))), [it + 1 for it in range(count)])
        sums = list(itertools.accumulate(payloads))
        self.assertEqual(part.talk(wire.sum_many(lows, highs)), sums)
        self.assertEqual(part.talk(wire.count(0, TOP - 1)), count)
        self.assertEqual(part.talk(wire.sum_of(0, TOP - 1)), sum(payloads))
        rows, found, those = part.talk(wire.select(0, TOP - 1))
        self.assertEqual([numbers(it) for it in (rows, found, those)], [list(range(count)), keys, payloads])
        serials = list(range(count + 1))
        changed = part.talk(wire.update_many(serials, [5] * len(serials), serials))
        self.assertEqual([bool(it) for it in changed], [True] * count + [False])
        self.assertEqual(part.talk(wire.take(0)), (5, 0) if count else None)
        gone = part.talk(wire.delete_many(serials))
        self.assertEqual([bool(it) for it in gone], [0 < it < count for it in serials])
        self.assertIs(part.talk(wire.delete(0)), False)
        self.assertEqual((part.talk(wire.insert(TOP - 1, -1)), part.talk(wire.update(count, 3, 4))), (count, True))
        self.assertEqual(part.rows, {count: (3, 4)})

    def test_what_is_refused_isnt_sent_twice_if_a_checkpoint_fails(self):
        """What had room is done, and what had none has the refusal of the checkpoint."""
        for code, room, count in itertools.product((8, 10), range(4), range(6)):
            part = Partition(room, code)
            with self.subTest(code, room=room, count=count):
                if count <= room:
                    self.assertEqual(numbers(part.talk(wire.insert_many(range(count), range(count)))), [*range(count)])
                    continue
                with self.assertRaises(crackd.Refused) as caught:
                    part.talk(wire.insert_many(range(count), range(count)))
                error = caught.exception
                self.assertEqual((error.code, error.done, error.later), (code, room, 0))
                self.assertEqual((numbers(error.answers), len(part.rows)), ([*range(room)], room))
                self.assertEqual(len(part.said), 2)

    def test_the_first_refusal_of_checkpoints_counts(self):
        for codes, wanted in [((8, 10), 8), ((10, 8), 10), ((5, 8), 8), ((5, 5), 0)]:
            entries, code = wire.folded([b"folded 4", *(b"refused %d" % it for it in codes), b"folded 3"])
            self.assertEqual((entries, code), (7, wanted))
        self.assertEqual(wire.folded([]), (0, 0))

    def test_a_refusal_that_is_no_full_history_stays(self):
        """After checkpoints, of which one is refused, a statement may still be answered."""
        steps = wire.select(3, 4)
        self.assertEqual(next(steps), (b"select 3 5\n", 1))
        text, lines = steps.send(b"refused 6 9\n")
        self.assertEqual((text, lines), (wire.CHECKPOINTS + b"select 3 5\n", 65))
        with self.assertRaises(StopIteration) as caught:
            steps.send(b"folded 9\nrefused 8\n" + b"refused 5\n" * 62 + b"rows 1\n0.4 3 -7\n")
        self.assertEqual([numbers(it) for it in caught.exception.value], [[4], [3], [-7]])

    def test_a_checkpoint_that_is_refused_beside_one_that_makes_room(self):
        """What found room is done, and what found none has the refusal, without another try."""
        for answers in itertools.product((b"row 0.%d\n", b"refused 6 9\n"), repeat=3):
            steps = wire.insert_many([1, 2, 3], [4, 5, 6])
            self.assertEqual(next(steps)[1], 3)
            self.assertEqual(steps.send(b"refused 6 9\n" * 3)[1], 67)
            said = [it % at if b"%" in it else it for at, it in enumerate(answers)]
            done = [at for at, it in enumerate(said) if it.startswith(b"row")]
            with self.assertRaises(crackd.OutOfMemory if len(done) < 3 else StopIteration) as caught:
                steps.send(b"folded 9\nrefused 8\n" + b"refused 5\n" * 62 + b"".join(said))
            error = caught.exception
            self.assertEqual(numbers(error.value if len(done) == 3 else error.answers), done)
            if len(done) < 3:
                first = next(at for at in range(3) if at not in done)
                self.assertEqual((error.done, error.later), (first, len(done) - first))


class Statements(unittest.TestCase):
    """What is sent, and the refusal of each kind of reply."""

    def test_settling(self):
        for policy in crackd.base.POLICIES:
            steps = wire.settle(policy)
            self.assertEqual(next(steps), (b"policy complete\ncount 0 %d\npolicy %b\n" % (TOP, policy.encode()), 3))
            with self.assertRaises(StopIteration):
                steps.send(b"policy complete\ncount 5\npolicy %b\n" % policy.encode())

    def test_refusals(self):
        keys = Keys.named("uint64")
        for code in (1, 2, 7, 8, 10, 99):
            for steps in (wire.ping(), wire.begin("auto"), wire.layouts(keys), wire.checkpoint(), wire.settle("auto")):
                _, lines = next(steps)
                with self.assertRaises(crackd.Refused) as caught:
                    steps.send(b"refused %d\n" % code * lines)
                self.assertEqual((caught.exception.code, caught.exception.done), (code, 0))

    def test_layouts_end_where_there_is_no_partition(self):
        said = b"layout %d rows 0 column 0 out 0 in 0 cells 5 free 5 pieces 1\npiece 0 10 0\n"
        for count in (1, 2, 64):
            steps = wire.layouts(Keys.named("uint64"))
            asked = [next(steps)]
            try:
                for part in range(64):
                    asked.append(steps.send(said % part if part < count else b"refused 5\n"))
            except StopIteration as done:
                self.assertEqual([it.partition for it in done.value], [*range(count)])
            self.assertEqual(asked, [(b"layout %d\n" % it, 1) for it in range(min(count + 1, 64))])

    def test_lines_that_are_announced(self):
        for said, more in {
            b"rows 0\n": 0, b"rows 12\n": 12, b"count 12\n": 0, b"row 0.12\n": 0, b"refused 6 12\n": 0,
            b"gone 3 12\n": 0, b"folded 3\nrows 2\n": 2, b"rows 7\ncount 3\n": 0, b"layout 0 rows 3 pieces 4\n": 4,
        }.items():
            self.assertEqual((said, wire.listed(said)), (said, more))

    def test_refusals_amid_items(self):
        """How many items are done before and after the first that is refused."""
        for flags in itertools.product((False, True), repeat=4):
            said = b"".join(b"refused 9\n" if it else b"row 0.1\n" for it in flags)
            for before in (0, 5):
                if not any(flags):
                    self.assertIsNone(wire.check(said, before))
                    continue
                first = flags.index(True)
                with self.assertRaises(crackd.Full) as caught:
                    wire.check(said, before)
                found = caught.exception
                self.assertEqual((found.done, found.later), (before + first, flags[first:].count(False)))


class Ends(unittest.TestCase):
    """A connection that ends within a reply, at each byte, or is silent from there on."""

    @contextlib.contextmanager
    def connected(self, said, is_silent, **options):
        """A table on a stand-in that says this to its second statement, and is then silent, or goes."""
        done = threading.Event()

        def play(connection):
            connection.recv(1 << 16)
            connection.sendall(said)
            if is_silent:
                done.wait(SECONDS)

        with standing_in(play) as port:
            table = crackd.connect(port=port, **options)
            try:
                yield table
            finally:
                done.set()

    def expect_closed(self, table):
        for call in (table.count, table.ping, lambda: table.insert(1, 1), lambda: table.select(1, 5)):
            with self.assertRaisesRegex(crackd.Closed, "connect again"):
                call()
        table.close()
        table.close()

    def test_inserts(self):
        said = b"row 0.5\nrow 1.77\nrow 0.6\n"
        placed = [5, 1 << 48 | 77, 6]
        for cut in range(len(said)):
            with self.subTest(cut), self.connected(said[:cut], False) as table:
                with self.assertRaises(crackd.Disconnected) as caught:
                    table.insert_many([1, 2, 3], [4, 5, 6])
                self.assertNotIsInstance(caught.exception, crackd.TimedOut)
                self.assertEqual(numbers(caught.exception.answers), placed[: said[:cut].count(b"\n")])
                self.expect_closed(table)

    def test_rows(self):
        said = b"rows 2\n0.1 5 8\n1.2 6 -9\n"
        for cut in range(len(said)):
            with self.subTest(cut), self.connected(said[:cut], False) as table:
                self.assertRaises(crackd.Disconnected, table.select)
                self.expect_closed(table)
        with self.connected(said, False) as table:
            found = table.select()
            got = [numbers(it) for it in (found.rows, found.keys, found.payloads)]
            self.assertEqual(got, [[1, 1 << 48 | 2], [5, 6], [8, -9]])

    def test_silence(self):
        said = b"rows 2\n0.1 5 8\n1.2 6 -9\n"
        for cut in (0, 3, 7, 8, 15, len(said) - 1):
            with self.subTest(cut), self.connected(said[:cut], True, timeout=0.1) as table:
                began = time.monotonic()
                with self.assertRaisesRegex(crackd.TimedOut, "silent for 0.1 seconds"):
                    table.select()
                self.assertTrue(0.1 <= time.monotonic() - began < SECONDS)
                self.expect_closed(table)
        with self.connected(b"row 0.5\nrow 0.6\nro", True, timeout=0.1) as table:
            with self.assertRaises(crackd.TimedOut) as caught:
                table.insert_many([1, 2, 3], [4, 5, 6])
            self.assertEqual(numbers(caught.exception.answers), [5, 6])

    def test_a_refusal_leaves_the_connection(self):
        said = [b"refused 2\n", b"count 4\n"]

        def play(connection):
            for it in said:
                connection.recv(1 << 16)
                connection.sendall(it)
            connection.recv(1 << 16)

        with standing_in(play) as port, crackd.connect(port=port) as table:
            self.assertRaises(crackd.Refused, table.count)
            self.assertEqual(table.count(), 4)


class Closing(unittest.TestCase):
    """How a session ends."""

    def test_it_takes_leave(self):
        heard = []

        def play(connection):
            heard.append(connection.recv(4096))
            connection.sendall(b"bye\n")
            heard.append(connection.recv(4096))

        with standing_in(play) as port:
            table = crackd.connect(port=port)
            table.close()
            table.close()
            self.assertRaises(crackd.Closed, table.count)
        self.assertEqual(heard, [b"quit\n", b""])

    def test_a_server_that_goes_without_a_word(self):
        for said in (b"", b"by"):
            with standing_in(lambda connection, said=said: (connection.recv(4096), connection.sendall(said))) as port:
                table = crackd.connect(port=port)
                table.close()
                self.assertRaises(crackd.Closed, table.count)

    def test_it_waits_for_the_call_of_another_thread(self):
        goes_on, heard, closed = threading.Event(), [], threading.Event()

        def play(connection):
            heard.append(connection.recv(4096))
            goes_on.wait(SECONDS)
            connection.sendall(b"count 7\n")
            heard.append(connection.recv(4096))
            connection.sendall(b"bye\n")

        def close():
            table.close()
            closed.set()

        with standing_in(play) as port:
            table, found = crackd.connect(port=port), []
            asking = threading.Thread(target=lambda: found.append(table.count()))
            asking.start()
            while not heard:
                time.sleep(0.001)
            closing = threading.Thread(target=close)
            closing.start()
            self.assertFalse(closed.wait(0.1))
            goes_on.set()
            for it in (asking, closing):
                it.join(SECONDS)
            self.assertTrue(closed.is_set())
        self.assertEqual((found, heard), ([7], [b"count 0 %d\n" % TOP, b"quit\n"]))


class Opening(unittest.TestCase):
    """Why there is no connection, in words."""

    def test_reasons(self):
        for fault, kind, said in [
            (socket.timeout("timed out"), crackd.TimedOut, "timed out"),
            (TimeoutError(110, "Connection timed out"), crackd.TimedOut, "Connection timed out"),
            (ConnectionRefusedError(111, "Connection refused"), crackd.Disconnected, "Connection refused"),
            (socket.gaierror(-2, "Name or service not known"), crackd.Disconnected, "Name or service not known"),
            (OSError("something else"), crackd.Disconnected, "something else"),
        ]:
            with mock.patch.object(channel.socket, "create_connection", side_effect=fault):
                with self.assertRaises(crackd.Disconnected) as caught:
                    crackd.connect("there", 4321)
            self.assertEqual((type(caught.exception), str(caught.exception)), (kind, (
                f"no server at there, port 4321: {said}"
            )))

    def test_a_refused_policy_closes_the_connection(self):
        heard = []

        def play(connection):
            heard.append(connection.recv(4096))

        with socket.socket() as listening:
            listening.bind(("127.0.0.1", 0))
            listening.listen()

            def answer():
                with listening.accept()[0] as connection:
                    connection.settimeout(SECONDS)
                    connection.recv(4096)
                    connection.sendall(b"refused 8\n")
                    play(connection)

            thread = threading.Thread(target=answer)
            thread.start()
            self.assertRaises(crackd.OutOfMemory, crackd.connect, port=listening.getsockname()[1])
            thread.join()
        self.assertIn(heard, ([b""], [b"quit\n"]))


class Moments(unittest.TestCase):
    """What a channel does while it waits, and lines of any bytes."""

    @contextlib.contextmanager
    def channel(self, said=b"", **options):
        with socket.socket() as listening:
            listening.bind(("127.0.0.1", 0))
            listening.listen()
            with contextlib.closing(Channel("127.0.0.1", listening.getsockname()[1], **options)) as it:
                with listening.accept()[0] as other:
                    other.sendall(said)
                    yield it, other

    def test_it_calls_while_nothing_comes(self):
        calls = []

        def wait():
            calls.append(len(calls))
            if len(calls) == 3:
                other.sendall(b"a\n")

        with mock.patch.object(channel, "SECONDS_OF_A_STEP", 0.01):
            with self.channel(on_wait=wait) as (it, other):
                self.assertEqual((it.line(), calls), ("a", [0, 1, 2]))
                other.sendall(b"b\nc\n")
                select.select([it.socket], [], [], SECONDS)
                self.assertEqual((it.lines(2), calls), (["b", "c"], [0, 1, 2]))

    def test_an_error_of_the_call_takes_no_line(self):
        with mock.patch.object(channel, "SECONDS_OF_A_STEP", 0.01):
            with self.channel(b"a\nb", on_wait=mock.Mock(side_effect=KeyboardInterrupt)) as (it, _):
                self.assertRaises(KeyboardInterrupt, it.block, 2)
                self.assertEqual(it.block_given(), b"a\n")

    def test_lines_end_at_line_feeds_alone(self):
        text = b"a\rb\n\x0bc\x0c\n\x1cd\x85\n\r\n\n"
        with self.channel(text) as (it, _):
            self.assertEqual(it.lines(5), ["a\rb", "\x0bc\x0c", "\x1cd\\x85", "\r", ""])
        with self.channel(text) as (it, _):
            found = [it.line() for _ in range(5)]
            self.assertEqual(found, ["a\rb", "\x0bc\x0c", "\x1cd\\x85", "\r", ""])

    def test_it_is_closed_for_the_other_side(self):
        with self.channel() as (it, other):
            other.settimeout(SECONDS)
            it.close()
            self.assertEqual(other.recv(1), b"")


if __name__ == "__main__":
    unittest.main()
