"""Servers that are silent, and connections that end then."""

import math
import os
import signal
import socket
import time
import unittest

from ways import crackd, standing_in, wants_program

# in seconds: a timeout that a test waits for, a shorter pause, and the longest that a wait may take
SOON, PAUSE, MOST = 2, 0.3, 120


class Silence(unittest.TestCase):
    """Stand-ins for servers that are silent."""

    def expect_timeout(self, call, *words, **options):
        """Expects an error soon that says what to do."""
        began = time.monotonic()
        with self.assertRaises(crackd.TimedOut) as caught:
            call(*words, **options)
        self.assertTrue(SOON <= time.monotonic() - began < MOST)
        self.assertIsInstance(caught.exception, (TimeoutError, crackd.Disconnected))
        return str(caught.exception)

    def test_a_server_that_answers_no_connection(self):
        with socket.socket() as listening:
            listening.bind(("127.0.0.1", 0))
            listening.listen()
            said = self.expect_timeout(crackd.connect, port=listening.getsockname()[1], timeout=SOON)
        self.assertIn(f"silent for {SOON} seconds", said)

    def test_a_server_that_accepts_no_connection(self):
        with socket.socket() as listening, socket.socket() as one, socket.socket() as other:
            listening.bind(("127.0.0.1", 0))
            listening.listen(0)
            # these fill the queue of connections that wait to be accepted
            for it in (one, other):
                it.setblocking(False)
                it.connect_ex(listening.getsockname())
            said = self.expect_timeout(crackd.connect, port=listening.getsockname()[1], timeout=SOON)
        self.assertIn("no server at 127.0.0.1", said)

    def test_a_call_that_is_not_answered(self):
        with standing_in(lambda connection: (connection.recv(4096), connection.recv(4096))) as port:
            table = crackd.connect(port=port, timeout=SOON)
            self.assertIn("the connection is closed, connect again", self.expect_timeout(table.count))
            self.assertRaises(crackd.Closed, table.count)
            table.close()

    def test_a_timeout_that_is_set_later(self):
        with standing_in(lambda connection: (connection.recv(4096), connection.recv(4096))) as port:
            table = crackd.connect(port=port)
            self.assertIsNone(table.timeout)
            for wrong in (0, -1, math.nan):
                with self.assertRaises(ValueError):
                    table.timeout = wrong
            table.timeout = SOON
            self.assertEqual(table.timeout, SOON)
            self.expect_timeout(table.insert_many, [1], [1])

    def test_a_server_that_is_slow_but_not_silent(self):
        def play(connection):
            connection.recv(4096)
            for it in b"count 7\n":
                time.sleep(PAUSE)
                connection.sendall(bytes([it]))
            connection.recv(4096)

        with standing_in(play) as port:
            table = crackd.connect(port=port, timeout=SOON)
            # no call waits for the server meanwhile
            time.sleep(SOON + PAUSE)
            self.assertEqual(table.count(), 7)
            table.close()

    def test_wrong_timeouts(self):
        for wrong in (0, -1, math.nan):
            self.assertRaises(ValueError, crackd.connect, timeout=wrong)


@wants_program
class Servers(unittest.TestCase):
    """Real servers."""

    def test_a_server_that_is_stopped(self):
        with crackd.serve(workers=2) as server:
            table = server.connect(timeout=SOON)
            table.insert(1, 5)
            os.kill(server._process.pid, signal.SIGSTOP)
            os.waitpid(server._process.pid, os.WUNTRACED)
            self.assertRaises(crackd.TimedOut, table.count)
            os.kill(server._process.pid, signal.SIGCONT)
            self.assertRaises(crackd.Closed, table.count)
            with server.connect(timeout=MOST) as table:
                self.assertEqual(table.sum(), 5)

    def test_a_server_is_asked_for_a_sign_of_life(self):
        with crackd.serve(policy="complete") as server:
            table = server.connect()
            self.assertIsNone(table.ping())
            table.insert_many([1, 50], [1, 2])
            self.assertIsNone(table.ping())
            # `ping` doesn't change the session's policy
            self.assertEqual((table.count(0, 9), table.layout().parts[0].pending_in), (1, 0))
        with self.assertRaisesRegex(crackd.Disconnected, "connect again"):
            table.ping()
        self.assertRaisesRegex(crackd.Closed, "connect again", table.ping)


if __name__ == "__main__":
    unittest.main()
