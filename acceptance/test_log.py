"""A server's log whose reader stops reading, and what it says of a client's last line without its line feed.

The expected results are from docs/SPECIFICATION.md. The log goes to a pipe that takes 4096 bytes, which the test reads
only when it says so.
"""

import fcntl
import re
import subprocess
import time
import typing
import unittest

import fixtures
from fixtures import SECONDS, Client, Server, expect

# how many clients are cut off, each with a line of the log; a pipe of `PIPE` bytes takes fewer
CUT_OFF, PIPE = 150, 4096
# the least and the greatest time in which a server ends whose output nobody reads, in seconds: it waits 5 for a line
LEAST_END, MOST_END = 4, 30
DROPPED = re.compile(r"(?m)^\S+Z crackd: log lines that were dropped: (\d+): the reader had stopped$")
UNFINISHED = "; a line without a line feed was not carried out"
ALL = "count 0 18446744073709551616"


class Unread:
    """A server with a log, and output if `joined`, that nobody reads, and its port. It is killed if it still runs."""

    def __init__(self, program: str, joined: bool = False) -> None:
        self.port = fixtures.free_port()
        command = [program, "serve", "--port", str(self.port), "--workers", "2", "--until-eof"]
        how: dict[str, typing.Any] = {"stdin": subprocess.PIPE, "stdout": subprocess.PIPE, "bufsize": 0}
        self.process = subprocess.Popen(command, stderr=subprocess.STDOUT if joined else subprocess.PIPE, **how)
        self.log = self.process.stdout if joined else self.process.stderr
        fcntl.fcntl(self.log, fcntl.F_SETPIPE_SZ, PIPE)
        listening = b"listening %d\n" % self.port
        # the line may be written in pieces
        expect("the first line", listening, b"".join(self.process.stdout.read(1) for _ in listening))

    def __enter__(self) -> "Unread":
        return self

    def __exit__(self, *_: object) -> None:
        self.process.kill()
        self.process.wait()
        for pipe in {self.process.stdin, self.process.stdout, self.log}:
            pipe.close()

    def fill(self) -> None:
        """Has clients come that reset their connections, so that the log has a line for each of them."""
        with Client(self.port) as other:
            for _ in range(CUT_OFF):
                with Client(self.port) as it:
                    it.ask("ping", "pong")
                    it.reset()
            until = time.monotonic() + SECONDS
            while "clients 1" not in other.answer("stats"):
                if time.monotonic() > until:
                    raise fixtures.Wrong("clients that have gone are still counted")
            other.end()

    def read(self) -> str:
        """What the log has until it says how many lines were dropped."""
        text = ""
        while not DROPPED.search(text):
            text += self.log.read(65536).decode()
        return text

    def end(self, status: int) -> float:
        """Ends the server's input, and awaits its end. Returns how many seconds that took."""
        began = time.monotonic()
        self.process.stdin.close()
        expect("status", status, self.process.wait(SECONDS))
        return time.monotonic() - began


class Logs(fixtures.Case):
    """Servers whose log isn't read, and lines about clients that leave in the middle of a line."""

    def test_a_reader_that_stops_delays_no_client(self) -> None:
        """Lines for which the reader leaves no room are dropped, and each is counted once it reads again."""
        with Unread(self.program) as it:
            it.fill()
            with Client(it.port, seconds=SECONDS) as one:
                one.ask("insert 1 1", "row 0.0")
                one.ask(ALL, "count 1")
                text = it.read()
                # the log is written again from here on
                with Client(it.port) as other:
                    other.ask("ping", "pong")
                    other.reset()
                line = it.log.read(65536).decode()
                self.assertRegex(line, r"\A\S+Z crackd: client \S+: session cut off: refused 17: [^\n]+\n\Z")
                one.end()
            written = text.count("session cut off")
            self.assertLess(written, PIPE // 60)
            expect("lines", CUT_OFF, written + sum(int(found) for found in DROPPED.findall(text)))
            self.assertLess(it.end(0), LEAST_END)
            ended = f"crackd: ended: sessions {CUT_OFF + 3}, cut off {CUT_OFF + 1}\n"
            expect("the last line", ended, fixtures.untimed(it.log.read().decode()))
            expect("totals", b"accepted 2 inserted 1 deleted 0 held 1\n", it.process.stdout.read())

    def test_a_reader_that_never_reads(self) -> None:
        """A server ends in time, with its totals, although nobody reads its log."""
        with Unread(self.program) as it:
            it.fill()
            took = it.end(0)
            self.assertTrue(LEAST_END < took < MOST_END, took)
            expect("totals", b"accepted 0 inserted 0 deleted 0 held 0\n", it.process.stdout.read())

    def test_a_reader_of_all_that_never_reads(self) -> None:
        """A server whose output and log have one reader, which doesn't read, serves on, and ends in time with 18."""
        with Unread(self.program, joined=True) as it:
            it.fill()
            with Client(it.port, seconds=SECONDS) as one:
                one.ask("insert 1 1", "row 0.0")
                one.end()
            took = it.end(1)
            self.assertTrue(LEAST_END < took < MOST_END, took)
            self.assertNotIn("accepted", it.log.read().decode())

    def test_an_unfinished_line_of_a_reset_connection(self) -> None:
        """A line that breaks off because the connection is reset isn't carried out, and the log says so."""
        with Server(self.program, 1, "--until-eof") as it:
            with Client(it.port) as other:
                other.ask("insert 1 1", "row 0.0")
                with Client(it.port) as one:
                    one.ask("ping", "pong")
                    one.send("delete 0.0")
                    one.reset()
                with Client(it.port) as blank:
                    blank.ask("ping", "pong")
                    blank.send("  \r")
                    blank.reset()
                it.wait_for_line(blank.address)
                other.ask(ALL, "count 1")
                other.end()
            it.close()
            cut_off = "crackd: client {}: session cut off: refused 17: the connection was closed or failed at a read{}"
            lines = (cut_off.format(one.address, UNFINISHED), cut_off.format(blank.address, ""))
            it.wait((2, 1, 0, 1), *it.notes(3, *lines))

    def test_an_unfinished_line_of_a_silent_client(self) -> None:
        """With --idle a line that was begun isn't carried out, and the log says so."""
        with Server(self.program, 1, "--until-eof", "--idle", "1") as it:
            with Client(it.port) as one:
                one.send("insert 1 1\ninsert 2 2")
                expect("the first reply", ["row 0.0"], one.reply())
                one.is_at_end()
            it.close()
            silent = f"crackd: client {one.address}: session cut off: refused 17: the client sent nothing for too long"
            it.wait((1, 1, 0, 1), *it.notes(1, silent + UNFINISHED))

    @unittest.skipUnless(fixtures.library("unsent.c"), "no C compiler")
    def test_a_refusal_that_cannot_be_sent(self) -> None:
        """Where the refusal of an unfinished line can't be sent, the log says that it wasn't carried out."""
        failing = {"LD_PRELOAD": fixtures.library("unsent.c"), "UNSENT": "2"}
        with Server(self.program, 1, "--until-eof", environment=failing) as it:
            with Client(it.port) as unlucky:
                unlucky.ask("insert 1 1", "row 0.0")
                unlucky.send("insert 2 2")
                unlucky.sends_no_more()
                unlucky.is_at_end()
            it.close()
            words = "session cut off: refused 18: the connection was closed or failed at a write"
            it.wait((1, 1, 0, 1), *it.notes(1, f"crackd: client {unlucky.address}: {words}{UNFINISHED}"))
