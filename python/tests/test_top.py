"""The numbers of a server, on a screen and for Prometheus."""

import contextlib
import io
import threading
import unittest
import urllib.error
import urllib.request
from unittest import mock

from ways import crackd, standing_in, wants_program

from crackd import top

NAMES = [*top.COLUMNS, "clients", "sessions", "statements_per_second", "longest_microseconds", "uptime_seconds"]


def told(*numbers):
    """A server's reply to `stats`, of these numbers."""
    lines = [f"{name} {number}\n" for name, number in zip(NAMES, numbers)]
    return f"stats {len(lines)}\n{''.join(lines)}".encode()


def numbers(when, *parts, server=()):
    """What a server told at a moment, if its partitions have these numbers of rows and accepted commands."""
    one = lambda rows, accepted: {**dict.fromkeys(top.COLUMNS, 0), "rows": rows, "commands_accepted": accepted}
    whole = one(sum(it[0] for it in parts), sum(it[1] for it in parts)) | dict(zip(NAMES[8:], server))
    return top.Numbers(when, whole, [one(*it) for it in parts])


class Screens(unittest.TestCase):
    """What a screen shows."""

    def lines(self, now, before=None):
        return top.screen("here:1", now, before).splitlines()

    def test_a_line_for_each_partition_and_one_for_all(self):
        shown = self.lines(numbers(0.0, (3, 7), (20, 30)))
        self.assertEqual(shown[0], "crackd here:1")
        self.assertEqual(shown[2].split(), list(top.TITLES))
        wanted = ["0 3 0 0 0 0 0 7 0 -", "1 20 0 0 0 0 0 30 0 -", "all 23 0 0 0 0 0 37 0 -"]
        self.assertEqual([" ".join(it.split()) for it in shown[3:]], wanted)
        self.assertEqual(len(set(map(len, shown[2:]))), 1)

    def test_the_only_partition_has_no_line_for_all(self):
        self.assertEqual(len(self.lines(numbers(0.0, (3, 7)))), 4)

    def test_rates_are_between_two_moments(self):
        shown = self.lines(numbers(12.0, (3, 107), (20, 30)), numbers(10.0, (1, 7), (20, 30)))
        self.assertEqual([it.split()[-1] for it in shown[3:]], ["50", "0", "50"])

    def test_the_line_of_a_server(self):
        shown = self.lines(numbers(0.0, (3, 7), server=(4, 9, 120, 310, 93784)))
        self.assertEqual(
            shown[0], "crackd here:1  up 1 d 2:03:04  clients 4  sessions 9  statements/s 120  longest 310 us"
        )


class Metrics(unittest.TestCase):
    """What Prometheus is told."""

    def test_each_number_of_each_partition_has_a_line(self):
        said = top.metrics(numbers(0.0, (3, 7), (20, 30), server=(4, 9, 120, 310, 61))).splitlines()
        self.assertIn('crackd_rows{partition="1"} 20', said)
        self.assertIn('crackd_commands_accepted_total{partition="0"} 7', said)
        self.assertIn("# TYPE crackd_commands_accepted_total counter", said)
        self.assertIn("# TYPE crackd_rows gauge", said)
        for it in ("up 1", "clients 4", "sessions_total 9", "statements_per_second 120", "uptime_seconds 61"):
            self.assertIn(f"crackd_{it}", said)
        self.assertEqual(len([it for it in said if it[0] != "#"]), 1 + 8 * 2 + 5)

    def test_a_server_that_does_not_answer(self):
        self.assertEqual(top.metrics(None).splitlines()[-1], "crackd_up 0")


class Replies(unittest.TestCase):
    """What the package makes of a server's reply."""

    def test_the_numbers_by_their_names(self):
        asked = []

        def play(connection):
            asked.append(connection.recv(4096))
            connection.sendall(told(*range(13)))
            asked.append(connection.recv(4096))
            connection.sendall(told(*range(1, 9)))
            connection.recv(4096)
            connection.sendall(b"bye\n")

        with standing_in(play) as port, crackd.connect(port=port) as table:
            self.assertEqual(table.stats(), dict(zip(NAMES, range(13))))
            self.assertEqual(table.stats(3), dict(zip(NAMES, range(1, 9))))
        self.assertEqual(asked, [b"stats\n", b"stats 3\n"])

    def test_a_partition_is_an_integer(self):
        with standing_in(lambda connection: connection.recv(4096) and connection.sendall(b"bye\n")) as port:
            with crackd.connect(port=port) as table:
                self.assertRaisesRegex(TypeError, "a partition must be an integer", table.stats, "0")


@wants_program
class Servers(unittest.TestCase):
    """With a server."""

    def test_a_table_tells_its_numbers(self):
        with crackd.serve([1, 2, 3, 4], splits=[3], workers=1) as server, server.connect() as table:
            first = table.insert(1, 10)
            table.insert_many([2, 5], [1, 1])
            table.delete(first)
            whole, below, above = table.stats(), table.stats(0), table.stats(1)
            self.assertEqual((whole["rows"], below["rows"], above["rows"]), (2, 1, 1))
            self.assertEqual((below["commands_accepted"], above["commands_accepted"]), (3, 1))
            self.assertRaises(crackd.NoSuchPartition, table.stats, 2)
            self.assertEqual(list(below), NAMES[:8])
            self.assertEqual({name: whole[name] for name in NAMES[:8]}, {it: below[it] + above[it] for it in NAMES[:8]})
            table.count()
            self.assertEqual(table.stats()["pending_insertions"], 0)
            self.assertEqual(table.checkpoint(), 6)
            self.assertEqual(table.stats()["commands_since_checkpoint"], 0)
            self.assertEqual(table.stats()["commands_accepted"], 6)

    def test_a_screen_once(self):
        with crackd.serve([1, 2, 3, 4], splits=[3], workers=1) as server, server.connect() as table:
            table.insert_many([1, 5], [1, 1])
            printed = io.StringIO()
            with contextlib.redirect_stdout(printed):
                self.assertEqual(top.main(["--port", str(server.port), "--once"]), 0)
            shown = printed.getvalue().splitlines()
            self.assertTrue(shown[0].startswith(f"crackd 127.0.0.1:{server.port}"))
            self.assertEqual([it.split()[:2] for it in shown[3:]], [["0", "1"], ["1", "1"], ["all", "2"]])

    def test_no_server(self):
        complaint = io.StringIO()
        with contextlib.redirect_stderr(complaint):
            self.assertEqual(top.main(["--port", str(crackd.server.free_port()), "--once"]), 1)
        self.assertIn("no server at", complaint.getvalue())

    def test_screens_follow_until_control_c(self):
        waits = mock.Mock(side_effect=[None, KeyboardInterrupt])
        with crackd.serve(workers=1) as server, mock.patch.object(top.time, "sleep", waits):
            printed = io.StringIO()
            with contextlib.redirect_stdout(printed):
                self.assertEqual(top.main(["--port", str(server.port)]), 0)
        self.assertEqual(printed.getvalue().count("partition"), 2)

    def test_prometheus_is_answered_also_once_the_server_is_gone(self):
        with contextlib.ExitStack() as stack:
            server = stack.enter_context(crackd.serve(workers=1))
            watched = top.Watched("127.0.0.1", server.port)
            listening = stack.enter_context(top.http.server.HTTPServer(("127.0.0.1", 0), top.handler_of(watched)))
            thread = threading.Thread(target=listening.serve_forever)
            thread.start()
            stack.callback(thread.join)
            stack.callback(listening.shutdown)
            url = f"http://127.0.0.1:{listening.server_address[1]}"
            with urllib.request.urlopen(f"{url}/metrics") as reply:
                self.assertEqual(reply.headers["Content-Type"], "text/plain; version=0.0.4; charset=utf-8")
                self.assertIn(b'crackd_rows{partition="0"} 0\n', reply.read())
            with self.assertRaises(urllib.error.HTTPError) as caught:
                urllib.request.urlopen(f"{url}/")
            self.assertEqual(caught.exception.code, 404)
            caught.exception.close()
            server.close()
            with urllib.request.urlopen(f"{url}/metrics") as reply:
                self.assertTrue(reply.read().endswith(b"crackd_up 0\n"))

    def test_a_server_that_was_started_again_is_asked_at_once(self):
        with contextlib.ExitStack() as stack:
            server = stack.enter_context(crackd.serve(workers=1))
            watched = top.Watched("127.0.0.1", server.port)
            self.assertEqual(watched.numbers().whole["rows"], 0)
            with mock.patch.object(crackd.server, "free_port", lambda: server.port):
                server.close()
                self.assertIsNone(watched.numbers())
                again = stack.enter_context(crackd.serve(workers=1))
                stack.enter_context(again.connect()).insert(5, 7)
                self.assertEqual(watched.numbers().whole["rows"], 1)
                again.close()
                # nobody has asked while no server was there
                last = stack.enter_context(crackd.serve(workers=1))
                stack.enter_context(last.connect()).insert_many([5, 6], [7, 8])
                self.assertEqual(watched.numbers().whole["rows"], 2)


if __name__ == "__main__":
    unittest.main()
