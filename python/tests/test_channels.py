"""Connections: lines that arrive in pieces, and texts that are too long to be sent at once."""

import contextlib
import itertools
import random
import socket
import threading
import time
import unittest
from unittest import mock

from ways import crackd

from crackd import channel
from crackd.channel import Channel

LARGE = 3_000_000
# the greatest number of seconds that either side waits for the other
SECONDS = 30


@contextlib.contextmanager
def served(serve):
    """A channel to a server of the tests, which does this with its connection."""
    with socket.socket() as listening:
        listening.bind(("127.0.0.1", 0))
        listening.listen()

        def answer():
            with listening.accept()[0] as connection, contextlib.suppress(TimeoutError):
                connection.settimeout(SECONDS)
                serve(connection)

        thread = threading.Thread(target=answer)
        thread.start()
        with contextlib.closing(Channel("127.0.0.1", listening.getsockname()[1], timeout=SECONDS)) as channel:
            yield channel
        thread.join()


class Lines(unittest.TestCase):
    """What has come, and what hasn't been asked for."""

    TEXT = b"one\n\nthree 3\nfour\n" + b"x" * 100 + b"\nsix\n"

    def sending(self, sizes):
        """Sends the text in pieces of these sizes, in turn."""

        def serve(connection):
            rest, turns = self.TEXT, itertools.cycle(sizes)
            while rest:
                size = next(turns)
                connection.sendall(rest[:size])
                rest = rest[size:]
                time.sleep(0.001)

        return serve

    def test_lines_in_pieces(self):
        lines = self.TEXT.splitlines(keepends=True)
        in_calls = [(6,), (1, 5), (2, 2, 2), (1,) * 6, (4, 0, 2)]
        for sizes, counts in itertools.product([(1000,), (7, 1), (4, 9), (3,)], in_calls):
            with self.subTest(sizes=sizes, counts=counts), served(self.sending(sizes)) as channel:
                at = 0
                for count in counts:
                    self.assertEqual(channel.block(count), b"".join(lines[at : at + count]))
                    at += count
                self.assertRaises(crackd.Disconnected, channel.block, 1)

    def test_a_line_and_lines_as_text(self):
        with served(self.sending((5,))) as channel:
            self.assertEqual((channel.line(), channel.lines(2)), ("one", ["", "three 3"]))
            self.assertEqual((channel.lines(0), channel.line(), len(channel.line())), ([], "four", 100))
        with served(lambda connection: connection.sendall(b"\xff\xe4\n")) as channel:
            self.assertEqual(channel.line(), "\\xff\\xe4")

    def test_lines_that_are_there(self):
        def serve(connection):
            connection.sendall(b"1\n2\n3\nrest")
            connection.recv(10)
            connection.sendall(b" of it\n")

        with served(serve) as channel:
            self.assertEqual(channel.line(), "1")
            self.assertEqual((channel.lines_given(), channel.lines_given()), (["2", "3"], []))
            channel.send(b"go\n")
            self.assertEqual(channel.line(), "rest of it")


class Taken(unittest.TestCase):
    """Lines that arrive in pieces, and are taken some at a time."""

    def test_any_pieces_and_any_numbers_of_lines(self):
        drawn = random.Random(11)
        for few, _ in itertools.product((0, 1, 3, 100), range(150)):
            text = b"".join(b"x" * drawn.randrange(4) + b"\n" for _ in range(drawn.randrange(30))) + b"end"
            lines, given, found, at = channel.Lines(), [], [], 0
            with mock.patch.object(channel, "FEW_LINES", few):
                while at < len(text):
                    piece = text[at : at + drawn.randrange(1, 12)]
                    lines.add(piece)
                    given.append(piece)
                    at += len(piece)
                    self.assertEqual(lines.feeds, b"".join(given).count(b"\n") - b"".join(found).count(b"\n"))
                    for _ in range(drawn.randrange(3)):
                        count = drawn.randrange(lines.feeds + 1)
                        found.append(lines.taken(count))
                        self.assertEqual(found[-1].count(b"\n"), count)
                found.append(lines.taken(lines.feeds))
            self.assertEqual((b"".join(found), lines.feeds), (text[:-3], 0))
            lines.add(b"\n")
            self.assertEqual(lines.taken(1), b"end\n")


class Sends(unittest.TestCase):
    """Statements that don't fit into what a socket holds."""

    def test_all_is_sent_in_order(self):
        texts = [b"%07d\n" % at * (LARGE // 8) for at in range(3)]
        found = []

        def serve(connection):
            time.sleep(0.1)
            rest = sum(map(len, texts))
            while rest:
                found.append(connection.recv(min(rest, 2**20)))
                rest -= len(found[-1])
            connection.sendall(b"thanks\n")

        with served(serve) as channel:
            for it in texts:
                channel.send(it)
            self.assertEqual(channel.line(), "thanks")
            self.assertEqual(len(channel.unsent), 0)
        self.assertEqual(b"".join(found), b"".join(texts))

    def test_a_server_that_answers_while_it_is_sent_to(self):
        def serve(connection):
            rest = LARGE
            while rest:
                given = connection.recv(min(rest, 2**16))
                connection.sendall(given)
                rest -= len(given)

        with served(serve) as channel:
            text = b"1234567\n" * (LARGE // 8)
            channel.send(text)
            self.assertEqual(channel.block(LARGE // 8), text)

    def test_a_server_that_goes(self):
        def serve(connection):
            connection.sendall(b"bye\n")

        with served(serve) as channel:
            self.assertEqual(channel.line(), "bye")
            with self.assertRaises(crackd.Disconnected):
                for _ in range(100):
                    channel.send(b"x" * LARGE)
                    channel.step()


if __name__ == "__main__":
    unittest.main()
