"""Servers with many clients, and servers that stop when their input ends, or disconnect a silent client.

The expected results are from docs/SPECIFICATION.md. The answers to clients one after another are in
cases/clients.cases and cases/ends.cases, and batches at their bounds in pages/bounds.txt.
"""

import contextlib
import datetime
import os
import pathlib
import re
import resource
import select
import signal
import socket
import subprocess
import time
import typing
import unittest
from unittest import mock

import fixtures
from fixtures import Client, Server, all_at_once, expect, serving, side_by_side
from plain_session import MOST

# how many bytes fit into the buffers of a connection to the server
ARRIVED = 3_000
ALL = f"count 0 {MOST}"
# how many clients there are at once, a thousand in all (`HOSTILE` of five kinds each); and the rows of an honest one
HONEST, SILENT, DEAF, HOSTILE, ROWS = 300, 180, 20, 100, 5
# how many honest clients come while no descriptor is free; and the processor seconds that a server may use then
LATE, AT_REST = 50, 0.2
# how many descriptors a server has, and how many clients it has at once
DESCRIPTORS, CLIENTS = 32, 100
# how many threads share clients that come at once, and how many of these are one thread's share
THREADS, CROWD = 4, 100
NO_ACCEPT = re.compile(r"crackd: accepts that failed: (\d+): descriptors may have run out")
TOO_MANY = re.compile(r"crackd: (?:client|(\d+) clients, the last) 127\.0\.0\.1:\d+: refused 20 2: .+")
# the names of the numbers of a table or a partition, and those that a server adds
NUMBERS = ["rows", "pending_insertions", "pending_deletions", "pieces", "cells", "free_cells"]
NUMBERS += ["commands_accepted", "commands_since_checkpoint"]
OF_A_SERVER = ["clients", "sessions", "statements_per_second", "longest_microseconds", "uptime_seconds"]
CAUSES = {
    "write failed": "refused 18: the connection was closed or failed at a write",
    "silent": "refused 17: the client sent nothing for too long",
    "deaf": "refused 18: the client took no replies for too long",
    "stopped": "refused 18: the server stopped before the client took its replies",
}


def numbers(lines: list[str]) -> dict[str, int]:
    """The numbers of a reply to `stats`, by their names."""
    expect("the first line of numbers", f"stats {len(lines) - 1}", lines[0])
    return {name: int(number) for name, number in (line.split(" ") for line in lines[1:])}


def watched(process: int) -> list[list[str]]:
    """The sources of each epoll instance of a process, as Linux lists them."""
    listed = [it.read_text(encoding="ascii") for it in pathlib.Path(f"/proc/{process}/fdinfo").iterdir()]
    sources = ([line for line in it.splitlines() if line.startswith("tfd:")] for it in listed)
    return [it for it in sources if it]


def cut_off(client: Client, cause: str) -> str:
    """The line of the log about a client that was cut off."""
    return f"crackd: client {client.address}: session cut off: {CAUSES[cause]}"


def inserts(many: int) -> str:
    """The statements of this many inserts, with a key each."""
    return "".join(f"insert {number} 1\n" for number in range(many))


def is_served(port: int) -> bool:
    """Whether a connection is answered: it asks something that changes no total. Otherwise it is refused or closed."""
    try:
        with Client(port, seconds=30) as it:
            it.send("layout 0\nquit\n")
            return it.lines.read().startswith("layout")
    except OSError:
        return False


def fill(client: Client, text: str) -> None:
    """Sends a text again and again until nothing more is taken for a second."""
    client.socket.settimeout(1)
    with contextlib.suppress(TimeoutError):
        while True:
            client.send(text)


def push(client: Client, text: str) -> None:
    """Sends as much of a text as the connection takes at once."""
    client.socket.setblocking(False)
    with contextlib.suppress(BlockingIOError):
        client.send(text)
    client.socket.setblocking(True)


def work(client: Client, low: int, is_late: bool) -> list[int]:
    """Inserts rows with keys from here on, asks for them, and deletes one. Returns their serials. A late client first
    takes the reply that it awaits."""
    expect("the first reply", ["refused 5"] * is_late, client.reply() if is_late else [])
    keys, serials = range(low, low + ROWS), []
    for number, key in enumerate(keys, 1):
        [reply] = client.answer(f"insert {key} -{key}")
        serials.append(int(reply.removeprefix("row 0.")))
        client.ask(f"count {low} {low + ROWS}", f"count {number}")
    client.ask(f"sum {low} {low + ROWS}", f"sum -{sum(keys)}")
    rows = [f"0.{serial} {key} -{key}" for serial, key in zip(serials, keys)]
    client.ask(f"select {low} {low + ROWS}", f"rows {ROWS}", *rows)
    client.ask(f"delete 0.{serials[0]}", f"gone {low} -{low}")
    client.ask(f"count {low} {low + ROWS}", f"count {ROWS - 1}")
    client.end()
    return serials


# what an honest client's work adds to the totals: commands, rows inserted, deleted and held
WORKED = (2 * ROWS + 4, ROWS, 1, ROWS - 1)


def processor_seconds(process: int) -> float:
    """How many seconds of processors a process has taken."""
    words = pathlib.Path(f"/proc/{process}/stat").read_text(encoding="ascii").rpartition(")")[2].split()
    return (int(words[11]) + int(words[12])) / os.sysconf("SC_CLK_TCK")


class Crowd:
    """A thousand clients of a server, most of them bad ones, which are all connected at once."""

    def __init__(self, port: int, stack: contextlib.ExitStack) -> None:
        self.port, self.stack, self.late = port, stack, []
        self.slow, self.flooding, self.resetting, self.half_closed, self.http = (self.come(HOSTILE) for _ in range(5))
        self.deaf, self.silent, self.honest = self.come(DEAF, 4096), self.come(SILENT), self.come(HONEST)

    def come(self, many: int, room: int | None = None) -> list[Client]:
        return [self.stack.enter_context(Client(self.port, room)) for _ in range(many)]

    def come_in_vain(self, server: int) -> None:
        """Leaves the server, a process, no descriptor for more clients, has some come, and sees that it rests."""
        expect("whether all are connected", True, is_served(self.port))
        _, most = resource.prlimit(server, resource.RLIMIT_NOFILE)
        last = max(map(int, os.listdir(f"/proc/{server}/fd")))
        resource.prlimit(server, resource.RLIMIT_NOFILE, (last + 1, most))
        self.late, before, replies = self.come(LATE), processor_seconds(server), select.poll()
        for it in self.late:
            it.send("layout 1\n")
            replies.register(it.socket, select.POLLIN)
        expect("replies within a second", [], replies.poll(1000))
        expect("whether the server rests", True, processor_seconds(server) - before < AT_REST)

    def misbehave(self) -> None:
        """Requests much and reads nothing, floods, sends requests of HTTP, and resets. None of it changes a total."""
        for it in self.deaf:
            push(it, "layout 0\n" * 300)
        for it in self.flooding:
            push(it, "x" * 1_000_000)
        for it in self.http:
            it.send("POST / HTTP/1.1\r\nHost: localhost\r\n\r\ninsert 1 1\n")
        for it in self.resetting:
            it.send("nonsense\n" * 1_000)
            it.reset()
            it.__exit__()

    def send_slowly(self) -> None:
        """Sends a statement of each slow client, a byte of each at a time, and reads the replies."""
        for byte in "count 1 1\n":
            for it in self.slow:
                it.send(byte)
        for it in self.slow:
            expect("a slow client's count", ["count 0"], it.reply())

    def end_halves(self) -> None:
        """Sends statements, the last one without its end, and no more, and reads all replies."""
        for it in self.half_closed:
            it.send("count 1 1\n" * 1_000 + "count 1 1")
            it.sends_no_more()
        for it in self.half_closed:
            expect("a half-closed client's counts", "count 0\n" * 1_000 + "refused 1\n", it.lines.read())

    def be_honest(self) -> list[int]:
        """Has the honest clients work, many at a time, the late ones last. Returns the serials of all their rows."""
        groups = [list(enumerate(self.honest + self.late, 1))[first::20] for first in range(20)]

        def work_all(group: list[tuple[int, Client]]) -> list[int]:
            return [serial for number, it in group for serial in work(it, 100 * number, it in self.late)]

        done = all_at_once(work_all, groups)
        return [serial for serials in done for serial in serials]

    def totals(self) -> typing.Iterator[int]:
        """The totals that the replies come to."""
        reads = len(self.slow) + 1_000 * len(self.half_closed)
        return (of * len(self.honest + self.late) + more for of, more in zip(WORKED, (reads, 0, 0, 0)))


class Supervised:
    """A server whose standard input and output are a socket, `lines`, over which it has two sessions."""

    def __init__(self, program: str, *words: str) -> None:
        self.port = fixtures.free_port()
        self.socket, theirs = socket.socketpair()
        self.socket.settimeout(fixtures.SECONDS)
        command = [program, "serve", "--port", str(self.port), "--supervised", "--quiet", *words]
        with theirs:
            self.process = subprocess.Popen(command, stdin=theirs, stdout=theirs, stderr=subprocess.PIPE, text=True)
        self.lines = self.socket.makefile("rw", encoding="ascii")

    def __enter__(self) -> typing.Any:
        return self

    def __exit__(self, *_: object) -> None:
        self.process.kill()
        self.process.communicate()
        self.lines.close()
        self.socket.close()

    def exchange(self, statement: str, *wanted: str) -> None:
        """Writes a line, and expects these lines next."""
        self.lines.write(f"{statement}\n")
        self.lines.flush()
        expect(f"after {statement!r}", list(wanted), [self.lines.readline().rstrip("\n") for _ in wanted])

    def wait(self, output: str, complaint: str = "", status: int = 0) -> None:
        """Ends the input. The rest of the output, standard error and the status must be these."""
        self.socket.shutdown(socket.SHUT_WR)
        expect("the output", output, self.lines.read())
        complained = self.process.communicate(timeout=fixtures.SECONDS)[1]
        expect("standard error", complaint, complained[: len(complaint) or None])
        expect("status", status, self.process.returncode)


class Servers(fixtures.Case):
    """Servers with many clients, and servers with --until-eof and --idle."""

    def test_one_reads_no_reply(self) -> None:
        """A client that sends until nothing more is taken, and reads no reply, holds up no other."""
        with serving(self.program, (2, 1, 0, 1), 1, 2) as port, Client(port) as stuck:
            # none of these lines is kept in a history, however many are read
            fill(stuck, "nonsense\n" * 10000)
            with Client(port) as it:
                it.ask("insert 1 10", "row 0.0")
                it.ask(ALL, "count 1")
                it.end()
            stuck.__exit__()

    def test_descriptors_that_run_out(self) -> None:
        """A server whose accepts fail for lack of a descriptor goes on, and serves again once there is one. Each
        failure counts as a session; few are tried in a second."""
        with Server(self.program, 2, "--sessions", "1000", "--quiet") as server:
            number = server.process.pid
            with Client(server.port) as held:
                held.ask("insert 1 1", "row 0.0")
                few, most = resource.prlimit(number, resource.RLIMIT_NOFILE)
                # open descriptors stay open, and no other one can be opened
                resource.prlimit(number, resource.RLIMIT_NOFILE, (3, most))
                with Client(server.port) as it:
                    it.send(f"{ALL}\n")
                    held.ask(ALL, "count 1")
                    time.sleep(1)
                    held.ask(ALL, "count 1")
                    resource.prlimit(number, resource.RLIMIT_NOFILE, (few, most))
                    expect("the first reply", ["count 1"], it.reply())
                    it.end()
                held.end()

    def test_few_descriptors(self) -> None:
        """Where there are fewer descriptors than clients, each is served once others have left."""

        def visit(key: int) -> None:
            with Client(server.port) as it:
                self.assertRegex(it.answer(f"insert {key} 1")[0], r"\Arow 0\.\d+\Z")
                it.ask(f"count {key} {key + 1}", "count 1")
                it.end()

        with Server(self.program, 2, "--until-eof", "--quiet") as server:
            resource.prlimit(server.process.pid, resource.RLIMIT_NOFILE, (DESCRIPTORS, DESCRIPTORS))
            all_at_once(visit, range(CLIENTS))
            server.close()
            server.wait((2 * CLIENTS, CLIENTS, 0, CLIENTS))

    def see_a_thousand_clients(self, prepare: typing.Callable[[Server, Crowd], None]) -> list[str]:
        """Beside silent, deaf, slow, flooding, resetting and half-closed clients and those of HTTP each honest one gets
        the right replies, and the totals are what the replies say. Returns the lines of the log."""
        few, most = resource.getrlimit(resource.RLIMIT_NOFILE)
        resource.setrlimit(resource.RLIMIT_NOFILE, (most, most))
        self.addCleanup(resource.setrlimit, resource.RLIMIT_NOFILE, (few, most))
        with Server(self.program, 4, "--until-eof", "--drain", "1", "--policy", "auto") as server:
            with contextlib.ExitStack() as stack:
                crowd = Crowd(server.port, stack)
                prepare(server, crowd)
                acts = [crowd.be_honest, crowd.send_slowly, crowd.end_halves, crowd.misbehave]
                serials, *_ = all_at_once(lambda act: act(), acts)
                expect("serials", list(range(ROWS * len(crowd.honest + crowd.late))), sorted(serials))
                for it in crowd.http:
                    expect("a reply to HTTP", "refused 1\n", it.lines.read())
                for it in crowd.silent:
                    it.ask("layout 1", "refused 5")
                server.close()
                status, wrote, log = server.ended()
        totals = "accepted {} inserted {} deleted {} held {}\n".format(*crowd.totals())
        expect("status and totals", (0, totals), (status, wrote))
        return log.splitlines()

    def test_a_thousand_clients(self) -> None:
        log = self.see_a_thousand_clients(lambda server, crowd: None)
        expect("lines about failed accepts", [], [it for it in log if NO_ACCEPT.fullmatch(it)])

    def test_no_descriptor_beside_a_thousand_clients(self) -> None:
        """The same where no descriptor is free for more clients: those that are connected don't notice it, the server
        rests, its log tells it once a second, and those that came then are served once others have left."""
        began = time.monotonic()
        log = self.see_a_thousand_clients(lambda server, crowd: crowd.come_in_vain(server.process.pid))
        found = [it for it in log if NO_ACCEPT.fullmatch(it)]
        self.assertTrue(found)
        self.assertLessEqual(len(found), time.monotonic() - began + 2)

    def test_connections_are_spread_over_the_threads(self) -> None:
        """Clients that come at once are divided among the threads, by the sources that each thread waits for."""
        with Server(self.program, THREADS, "--until-eof", "--quiet") as server, contextlib.ExitStack() as stack:
            clients = [stack.enter_context(Client(server.port)) for _ in range(THREADS * CROWD)]
            for it in clients:
                it.ask("ping", "pong")
            # a thread also waits for the listener and for its waker
            each = [len(it) - 2 for it in watched(server.process.pid)]
            expect("threads, and connections", (THREADS, len(clients)), (len(each), sum(each)))
            self.assertLessEqual(max(each), CROWD * 3 / 2, each)
            server.close()

    def test_too_many_clients(self) -> None:
        """One client more than there may be is refused, and one has a place once another has left. The log has each
        refused client, in few lines."""
        began, refused = time.monotonic(), 50
        with Server(self.program, 2, "--until-eof", "--clients", "2") as server:
            with Client(server.port) as one, Client(server.port) as other:
                one.ask("insert 1 1", "row 0.0")
                other.ask("insert 2 1", "row 0.1")
                for _ in range(refused):
                    with Client(server.port) as it:
                        expect("what one too many gets", "refused 20 2\n", it.lines.read())
                one.end()
                other.ask(ALL, "count 2")
                while not is_served(server.port):
                    refused += 1
                other.end()
            server.close()
            status, wrote, log = server.ended()
        expect("status and totals", (0, "accepted 3 inserted 2 deleted 0 held 2\n"), (status, wrote))
        found = [it for it in map(TOO_MANY.fullmatch, log.splitlines()) if it]
        expect("refused clients", refused, sum(int(it[1] or 1) for it in found))
        self.assertLessEqual(len(found), time.monotonic() - began + 2)

    def test_numbers_of_a_server(self) -> None:
        """A server tells its numbers after those of its table, and leaves them out where a partition is asked for."""
        with serving(self.program, (104, 103, 0, 103), 2, 3, "50") as port:
            with Client(port) as it, Client(port) as other:
                other.ask("insert 60 1", "row 1.0")
                it.send(inserts(100))
                placed = [f"row 0.{it}" for it in range(50)] + [f"row 1.{it}" for it in range(1, 51)]
                expect("inserts", placed, [it.reply()[0] for _ in range(100)])
                it.ask("insert 1 1", "row 0.50")
                until = time.monotonic() + 60
                while numbers(it.answer("stats"))["statements_per_second"] == 0:
                    self.assertLess(time.monotonic(), until, "statements aren't counted")
                    time.sleep(0.1)
                told = numbers(it.answer("stats"))
                expect("names", [*NUMBERS, *OF_A_SERVER], list(told))
                expect("rows, clients and sessions", (102, 2, 2), (told["rows"], told["clients"], told["sessions"]))
                self.assertTrue(0 < told["longest_microseconds"] < 60_000_000, told)
                self.assertTrue(told["uptime_seconds"] <= 60, told)
                part = numbers(it.answer("stats 1"))
                expect("names for a partition", NUMBERS, list(part))
                expect("its rows and commands", (51, 51), (part["rows"], part["commands_accepted"]))
                other.end()
                with Client(port) as third:
                    third.ask("insert 2 1", "row 0.51")
                    told = numbers(third.answer("stats"))
                    expect("clients and sessions", (2, 3), (told["clients"], told["sessions"]))
                    third.ask("count 0 1", "count 1")
                    third.end()
                it.end()

    def test_lines_have_times(self) -> None:
        """Each line of a server's log begins with the time in UTC, by RFC 3339."""
        now = lambda: datetime.datetime.now(datetime.timezone.utc).replace(microsecond=0)
        before = now()
        with Server(self.program, 1, "--sessions", "1") as it:
            with Client(it.port) as one:
                one.end()
            it.wait((0, 0, 0, 0), *it.notes(1))
            it.log.seek(0)
            lines = [fixtures.TIMED.fullmatch(line.rstrip("\n")) for line in it.log]
        times = [datetime.datetime.fromisoformat(line[1].replace("Z", "+00:00")) for line in lines]
        expect("lines", 2, len(times))
        self.assertEqual(sorted([before, *times, now()]), [before, *times, now()])

    def test_an_open_session_ends(self) -> None:
        """A session that is open when the input ends is closed, and no further one is served."""
        with Server(self.program, 2, "--until-eof") as it:
            with Client(it.port) as one:
                one.ask("insert 5 50", "row 0.0")
                it.close()
                one.is_at_end()
                # a client that comes before the server has noticed the end is still served
                others = sum(1 for _ in iter(lambda: is_served(it.port), False))
            it.wait((1, 1, 0, 1), *it.notes(1 + others))

    def test_supervised_first_and_supervised_last(self) -> None:
        """A session before the port is opened, and one after the clients; the next bytes stop the server between."""
        for workers in ("1", "3"):
            with Supervised(self.program, "--until-eof", "--workers", workers, "100") as server:
                server.exchange("insert 5 50", "row 0.0")
                server.exchange("fetch", "refused 1")
                with self.assertRaises(ConnectionRefusedError):
                    Client(server.port)
                server.exchange("quit", "bye", f"listening {server.port}")
                with Client(server.port) as one:
                    one.ask("count 0 10", "count 1")
                    one.ask("insert 150 60", "row 1.0")
                    server.exchange("count 0 10", "drained")
                    one.is_at_end()
                server.exchange("select 0 200", "rows 2", "0.0 5 50", "1.0 150 60")
                server.exchange("delete 0.0", "gone 5 50")
                server.exchange("quit", "bye")
                server.wait("accepted 6 inserted 2 deleted 1 held 1\n")

    def test_supervised_first_and_last_with_counted_sessions(self) -> None:
        with Supervised(self.program, "--sessions", "1") as server:
            server.exchange("quit", "bye", f"listening {server.port}")
            with Client(server.port) as one:
                one.ask("insert 5 50", "row 0.0")
                one.ask("quit", "bye")
            expect("after the session", "drained\n", server.lines.readline())
            server.exchange("count 0 10", "count 1")
            server.wait("accepted 2 inserted 1 deleted 0 held 1\n")

    def test_supervised_first_input_that_ends(self) -> None:
        """Without a supervisor the server ends, once it has been open for a moment."""
        with Supervised(self.program, "--until-eof") as server:
            server.exchange("insert 5 50", "row 0.0")
            server.wait(f"listening {server.port}\ndrained\naccepted 1 inserted 1 deleted 0 held 1\n")
        with socket.create_server(("127.0.0.1", 0)) as taken, mock.patch.object(fixtures, "free_port") as free:
            free.return_value = taken.getsockname()[1]
            with Supervised(self.program, "--until-eof") as server:
                server.wait("", "crackd: refused 17", 1)

    def test_the_end_of_the_input_alone_ends_a_server(self) -> None:
        """What a server with --until-eof reads changes nothing: it accepts connections until the end."""
        with Server(self.program, 1, "--until-eof") as it:
            it.process.stdin.write("quit\n")
            it.process.stdin.flush()
            time.sleep(0.2)
            with Client(it.port) as one:
                one.ask("insert 1 1", "row 0.0")
                one.end()
            it.close()
            it.wait((1, 1, 0, 1), *it.notes(1))

    def test_what_has_arrived_is_answered(self) -> None:
        """A server whose input ends answers all that has arrived, also a line without its end, and its totals agree
        with its replies."""
        with Server(self.program, 2, "--until-eof") as it, Client(it.port) as one, Client(it.port) as other:
            one.ask("layout 1", "refused 5")
            other.ask("layout 1", "refused 5")
            one.send(inserts(ARRIVED))
            other.send(f"count 1 1\ncount {MOST} {MOST}")
            it.close()
            expect("replies", "".join(f"row 0.{number}\n" for number in range(ARRIVED)), one.lines.read())
            expect("the reply to a whole line", "count 0\n", other.lines.read())
            it.wait((ARRIVED + 1, ARRIVED, 0, ARRIVED), *it.notes(2))

    def test_a_load_that_is_cut(self) -> None:
        """A server whose input ends during a load answers the beginning of it, and its totals are what it answered."""
        with Server(self.program, 2, "--until-eof", "--quiet") as it, Client(it.port) as one:

            def load() -> None:
                with contextlib.suppress(OSError):
                    one.send(inserts(1_000_000))

            with side_by_side(load):
                expect("the first reply", ["row 0.0"], one.reply())
                it.close()
                got = ["row 0.0\n"]
                with contextlib.suppress(OSError):
                    got.extend(iter(one.lines.readline, ""))
            status, wrote, _ = it.ended()
            whole = [line for line in got if line.endswith("\n")]
            expect("replies", [f"row 0.{number}\n" for number in range(len(whole))], whole)
            many = int(wrote.split()[1])
            expect("totals", (0, f"accepted {many} inserted {many} deleted 0 held {many}\n"), (status, wrote))
            self.assertLessEqual(len(whole), many)

    def test_a_drain_that_ends(self) -> None:
        """A server that stops waits as long as --drain says for a client that takes no replies, and cuts it off."""
        with Server(self.program, 1, "--until-eof", "--drain", "1") as it:
            with Client(it.port, room=4096) as deaf, Client(it.port) as silent:
                silent.ask("insert 1 1", "row 0.0")
                fill(deaf, "nonsense\n" * 10000)
                began = time.monotonic()
                it.close()
                silent.is_at_end()
                self.assertLess(time.monotonic() - began, 0.9)
                it.wait((1, 1, 0, 1), *it.notes(2, cut_off(deaf, "stopped")))
                self.assertGreater(time.monotonic() - began, 0.9)

    def test_two_that_are_silent_are_let_go(self) -> None:
        """With --idle 1 each of two silent clients is disconnected within two seconds; a line names each of them."""
        with Server(self.program, 2, "--until-eof", "--idle", "1") as it:
            with Client(it.port) as one, Client(it.port) as other:
                one.ask("insert 1 1", "row 0.0")
                other.ask("insert 2 2", "row 0.1")
                time.sleep(1.8)
                # a session that was still open would end normally here
                one.sends_no_more()
                other.sends_no_more()
                one.is_at_end()
                other.is_at_end()
            it.close()
            it.wait((2, 2, 0, 2), *it.notes(2, cut_off(one, "silent"), cut_off(other, "silent")))

    def test_a_server_that_was_stopped_goes_on(self) -> None:
        """With --idle the time in which the process was stopped counts for no client."""
        with Server(self.program, 2, "--until-eof", "--idle", "2") as it:
            with Client(it.port) as silent, Client(it.port, room=4096) as deaf:
                silent.ask("insert 1 1", "row 0.0")
                deaf.send(inserts(2_000) + f"select 0 {MOST}\n" * 300)
                time.sleep(0.5)
                it.process.send_signal(signal.SIGSTOP)
                os.waitid(os.P_PID, it.process.pid, os.WSTOPPED)
                time.sleep(2.5)
                it.process.send_signal(signal.SIGCONT)
                time.sleep(0.3)
                silent.ask(f"count 2000 {MOST}", "count 0")
                silent.end()
                deaf.sends_no_more()
                expect("lines", 2_000 + 300 * 2_002, sum(1 for _ in deaf.lines))
            it.close()
            it.wait((2_302, 2_001, 0, 2_001), *it.notes(2))

    @unittest.skipUnless(fixtures.library("unsent.c"), "no C compiler")
    def test_nothing_is_sent_after_a_fault(self) -> None:
        """Once a reply couldn't be sent the connection is closed: the session ends without trying it again."""
        failing = {"LD_PRELOAD": fixtures.library("unsent.c"), "UNSENT": "2"}
        with Server(self.program, 1, "--until-eof", environment=failing) as it:
            with Client(it.port) as unlucky:
                unlucky.ask("insert 1 1", "row 0.0")
                unlucky.send("insert 2 2\n")
                unlucky.is_at_end()
            with Client(it.port) as next_one:
                next_one.ask(ALL, "count 2")
                next_one.end()
            it.close()
            it.wait((3, 2, 0, 2), *it.notes(2, cut_off(unlucky, "write failed")))

    def test_a_client_that_takes_nothing_is_let_go(self) -> None:
        """With --idle a client that reads no reply is disconnected, once no more replies fit."""
        with Server(self.program, 1, "--until-eof", "--idle", "1") as it:
            with Client(it.port, room=4096) as deaf:
                deaf.send(inserts(2_000))
                expect("replies", 2_000, sum(len(deaf.reply()) for _ in range(2_000)))
                with contextlib.suppress(OSError):
                    deaf.send(f"select 0 {MOST}\n" * 1_000)
                with Client(it.port) as next_one:
                    next_one.ask("insert 1 1", "row 0.2000")
                    next_one.end()
                it.wait_for_line("session cut off")
            it.close()
            status, wrote, complained = it.ended()
            notes = it.notes(2, cut_off(deaf, "deaf"))
            expect("status and standard error", (0, notes), (status, complained.splitlines()))
            self.assertRegex(wrote, r"\Aaccepted \d+ inserted 2001 deleted 0 held 2001\n\Z")
