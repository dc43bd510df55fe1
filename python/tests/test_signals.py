"""Signals that come during a call: what their handlers may ask, and what a control-C leaves."""

import contextlib
import os
import signal
import threading
import unittest
from unittest import mock

from ways import InProcess, crackd, standing_in, wants_library, wants_program

from crackd import client, library, wire

# how long a test may hang
SECONDS = 120


def setUpModule():
    """A control-C is a KeyboardInterrupt, also where the tests are a job in the background, which ignores it."""
    before = signal.signal(signal.SIGINT, signal.default_int_handler)
    unittest.addModuleCleanup(signal.signal, signal.SIGINT, before)


def numbers(it):
    return [int(each) for each in it]


@contextlib.contextmanager
def handling(number, handler):
    """Has a function called for each signal of this number. A hanging test is ended."""
    before, _ = signal.signal(number, handler), signal.alarm(SECONDS)
    try:
        yield
    finally:
        signal.alarm(0)
        signal.signal(number, before)


class Signalling:
    """A library's function that a signal interrupts, which is noticed once the function has returned."""

    def __init__(self, call, number):
        self.call, self.number = call, number

    def __call__(self, *words):
        code = self.call(*words)
        signal.raise_signal(self.number)
        return code


@wants_library
class InTheProcess(InProcess, unittest.TestCase):
    """Tables in the process."""

    @contextlib.contextmanager
    def signalled(self, table, name, number):
        """Lets a signal interrupt a function of the library."""
        with mock.patch.object(library.library(), name, Signalling(getattr(library.library(), name), number)):
            yield

    def test_a_handler_is_answered(self):
        told = []
        with self.table() as table, handling(signal.SIGUSR1, lambda *_: told.append((len(table), table.sum()))):
            with self.signalled(table, "insert_many", signal.SIGUSR1):
                table.insert_many([1, 2, 3], [10, 20, 30])
            self.assertEqual((told, table.sum()), ([(3, 60)], 60))

    def test_a_select_lists_what_a_handler_adds(self):
        with self.table() as table, handling(signal.SIGUSR1, lambda *_: table.insert_many([2, 9], [20, 90])):
            table.insert(1, 10)
            with self.signalled(table, "count", signal.SIGUSR1):
                got = table.select(0, 5)
            self.assertEqual((numbers(got.keys), numbers(got.payloads)), ([1, 2], [10, 20]))

    def test_an_interrupted_insert_of_many_gives_back_its_rows(self):
        for cells, placed in ((100, 3), (2, 2)):
            with self.subTest(cells), self.table(cells=cells) as table:
                with self.signalled(table, "insert_many", signal.SIGINT):
                    with self.assertRaises(KeyboardInterrupt) as caught:
                        table.insert_many([5, 6, 7], [1, 2, 4])
                self.assertEqual(len(caught.exception.answers), placed)
                self.assertEqual(list(table.delete_many(caught.exception.answers)), [True] * placed)
                self.assertEqual(table.count(), 0)


class OverTcp(unittest.TestCase):
    """Connections."""

    def test_a_handler_that_asks_is_refused(self):
        told, is_told = [], threading.Event()

        def ask(*_):
            for call in (table.count, table.close, table.layout):
                with self.assertRaises(crackd.Busy):
                    call()
                told.append(call)
            is_told.set()

        def play(connection):
            connection.recv(4096)
            os.kill(os.getpid(), signal.SIGUSR1)
            is_told.wait(SECONDS)
            connection.sendall(b"count 7\n")
            connection.recv(4096)
            connection.sendall(b"sum -5\n")

        with handling(signal.SIGUSR1, ask), standing_in(play) as port:
            table = crackd.connect(port=port)
            self.assertEqual((table.count(), table.sum(), len(told)), (7, -5, 3))
            table.close()

    def test_an_interrupted_insert_of_many_gives_back_the_rows_of_its_replies(self):
        def play(connection):
            connection.recv(4096)
            connection.sendall(b"row 0.4\nrow 0.5\n")
            connection.recv(4096)
            connection.sendall(b"row 1.9\nrow 0.")
            is_waiting.wait(SECONDS)
            os.kill(os.getpid(), signal.SIGINT)
            connection.recv(4096)

        is_waiting, wait = threading.Event(), client.Channel.step

        def step(channel):
            if channel._given.feeds == 1:
                is_waiting.set()
            wait(channel)

        with standing_in(play) as port, mock.patch.object(wire, "STATEMENTS_AT_ONCE", 2):
            table = crackd.connect(port=port)
            with mock.patch.object(client.Channel, "step", step), self.assertRaises(KeyboardInterrupt) as caught:
                table.insert_many([1, 2, 3, 4], [1, 1, 1, 1])
            self.assertEqual(numbers(caught.exception.answers), [4, 5, 1 << 48 | 9])
            self.assertRaises(crackd.Closed, table.count)

    @wants_program
    def test_a_call_that_is_interrupted_before_it_is_sent_leaves_the_connection(self):
        def interrupt(*_):
            raise KeyboardInterrupt

        with crackd.serve() as server, server.connect() as table:
            table.insert(1, 5)
            with mock.patch.object(wire, "joined_text", interrupt):
                self.assertRaises(KeyboardInterrupt, table.count)
            self.assertEqual(table.sum(), 5)


if __name__ == "__main__":
    unittest.main()
