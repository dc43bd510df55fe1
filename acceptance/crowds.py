"""A server and its clients, a thousand of them, that come, work and leave at random: crowds.py SECONDS [--clients N]
[--rate N] [--seed N] [--top FOLDER]

Each place has its own keys, and a client at a time, which sends a statement once the reply to the one before has come.
It knows its rows, so each reply is compared. Some clients quit, some send no more, some close or reset the connection
before a reply has come. The totals must be what the replies say. Run for an hour it shows whether a server's memory is
flat: it prints this every ten seconds. soak.py runs it for half a minute.
"""

import argparse
import contextlib
import pathlib
import random
import resource
import selectors
import socket
import sys
import time
import typing

import fixtures
from compare import numbers_of
from fixtures import Server, Wrong, bytes_of, expect, length_of
from random_script import kind_of

CLIENTS, RATE, SHORT, EVERY = 1000, 1000, 30, 10
# how long a reply may take, also beside other work
PATIENCE = 600
# how many keys a place has, at how many of them ranges end, and how many rows it has at most
WIDTH, STEPS, ROWS = 1_000_000, 4, 20
STATEMENTS = {"insert": 8, "delete": 6, "update": 3, "count": 4, "sum": 3, "select": 2, "ping": 1, "leave": 1}
WAYS = ["quits", "sends no more", "closes", "resets"]


class Place:
    """The keys of the clients that come one after the other, their rows, and the connection of the present one."""

    def __init__(self, port: int, number: int, numbers: random.Random) -> None:
        self.port, self.low, self.numbers = port, number * WIDTH, numbers
        self.rows: dict[str, tuple[int, int]] = {}
        self.client: fixtures.Client | None = None
        # the statement whose reply hasn't come, and the part of the reply that has
        self.sent, self.came = "", b""
        # sums over the replies: commands, and rows inserted and deleted; and how many reads nobody awaited replies to
        self.accepted, self.inserted, self.deleted, self.untold = 0, 0, 0, 0

    def come(self) -> fixtures.Client:
        self.client = fixtures.Client(self.port, seconds=PATIENCE)
        self.client.socket.setsockopt(socket.IPPROTO_TCP, socket.TCP_NODELAY, 1)
        return self.client

    def act(self) -> bool:
        """Sends a statement, or leaves. Returns whether a reply is awaited."""
        kind = kind_of(self.numbers, STATEMENTS)
        if kind == "leave":
            return self.leave(self.numbers.choice(WAYS))
        if kind == "insert" and len(self.rows) >= ROWS:
            kind = "delete"
        elif kind in ("delete", "update") and not self.rows:
            kind = "insert"
        self.send(self.statement(kind))
        return True

    def statement(self, kind: str) -> str:
        numbers, key = self.numbers, self.low + self.numbers.randrange(WIDTH)
        payload = numbers.randrange(-(2**40), 2**40)
        row = numbers.choice(list(self.rows)) if kind in ("delete", "update") else ""
        low, high = sorted(self.low + numbers.randrange(STEPS + 1) * (WIDTH // STEPS) for _ in range(2))
        ranges = {it: f"{it} {low} {high}" for it in ("count", "sum", "select")}
        others = {"insert": f"insert {key} {payload}", "delete": f"delete {row}", "ping": "ping"}
        return ({"update": f"update {row} {key} {payload}"} | ranges | others)[kind]

    def send(self, statement: str) -> None:
        self.sent, self.came = statement, b""
        self.client.send(f"{statement}\n")

    def leave(self, way: str) -> bool:
        """Ends the session in one of the ways. Returns whether its end is awaited."""
        if way == "quits":
            self.send("quit")
            return True
        if way == "sends no more":
            self.sent, self.came = "", b""
            self.client.sends_no_more()
            return True
        self.untold += 1
        self.send(self.statement("select"))
        if way == "resets":
            self.client.reset()
        self.gone()
        return False

    def gone(self) -> None:
        self.client.__exit__()
        self.client, self.sent = None, ""

    def take(self) -> bool:
        """Reads what has come. Returns whether nothing more is awaited."""
        more = self.client.socket.recv(65536)
        self.came += more
        lines = self.came.decode("ascii").split("\n")
        if self.sent in ("", "quit"):
            if not more:
                expect("the last reply", "bye\n" if self.sent else "", self.came.decode("ascii"))
                self.gone()
            return not more
        if not more:
            raise Wrong(f"{self.sent}: the connection was closed after {self.came!r}")
        if len(lines) == 1 or len(lines) <= length_of(lines[0]):
            return False
        expect("the end of a reply", "", lines[-1])
        self.check(self.sent.split(), lines[:-1])
        self.sent = ""
        return True

    def check(self, words: list[str], lines: list[str]) -> None:
        """Compares a reply with the place's rows, and changes them as the statement says."""
        kind, *given = words
        self.accepted += kind != "ping"
        if kind == "insert":
            if not numbers_of(lines[0], "row 0.#") or lines[0].split()[1] in self.rows:
                raise Wrong(f"{self.sent}: {lines}")
            self.inserted += 1
            self.rows[lines[0].split()[1]] = (int(given[0]), int(given[1]))
            return
        expect(self.sent, self.right(kind, given), lines)
        if kind == "delete":
            self.deleted += 1
            del self.rows[given[0]]
        elif kind == "update":
            self.rows[given[0]] = (int(given[1]), int(given[2]))

    def right(self, kind: str, given: list[str]) -> list[str]:
        """The right reply to a statement that inserts nothing."""
        if kind in ("ping", "update"):
            return ["pong" if kind == "ping" else "changed"]
        if kind == "delete":
            return ["gone {} {}".format(*self.rows[given[0]])]
        low, high = map(int, given)
        found = {row: it for row, it in self.rows.items() if low <= it[0] < high}
        if kind == "select":
            rows = sorted(found, key=lambda row: int(row.split(".")[1]))
            return [f"rows {len(rows)}", *("{} {} {}".format(row, *found[row]) for row in rows)]
        return [f"count {len(found)}" if kind == "count" else f"sum {sum(it[1] for it in found.values())}"]


class Crowd:
    """A server, and the places of its clients, at which something happens this often in a second."""

    def __init__(self, program: str, seed: int, clients: int = CLIENTS, rate: int = RATE) -> None:
        self.program, self.clients, self.rate = program, clients, rate
        self.numbers, self.came = random.Random(seed), 0
        # the server's resident memory in bytes, every ten seconds
        self.bytes: list[int] = []

    def run(self, seconds: float) -> str:
        """Runs it, and checks all replies and the totals. Returns what happened, in words."""
        few, most = resource.getrlimit(resource.RLIMIT_NOFILE)
        resource.setrlimit(resource.RLIMIT_NOFILE, (most, most))
        words = ["--until-eof", "--quiet", "--policy", "auto", "--auto-checkpoint", "--drain", "1"]
        try:
            with Server(self.program, 4, *words) as server, selectors.DefaultSelector() as waiting:
                self.places = [Place(server.port, number, self.numbers) for number in range(self.clients)]
                self.go_on(server, waiting, seconds)
                for it in self.places:
                    if it.client:
                        it.gone()
                server.close()
                status, wrote, complained = server.ended()
        finally:
            resource.setrlimit(resource.RLIMIT_NOFILE, (few, most))
        expect("status and standard error", (0, ""), (status, complained))
        return self.told(self.check_totals(wrote))

    def go_on(self, server: Server, waiting: selectors.BaseSelector, seconds: float) -> None:
        """Has clients come, act and leave until the time is over and all replies have come."""
        began, acted, looked, heard = time.monotonic(), 0, 0, time.monotonic()
        while (passed := time.monotonic() - began) < seconds or waiting.get_map():
            if passed >= EVERY * looked:
                self.look(server, passed)
                looked += 1
            while acted < self.rate * min(passed, seconds) and passed < seconds:
                self.act(waiting)
                acted += 1
            for key, _ in waiting.select(1 / self.rate):
                heard = time.monotonic()
                if key.data.take():
                    waiting.unregister(key.fileobj)
            if waiting.get_map() and time.monotonic() - heard > PATIENCE:
                raise Wrong(f"no reply for {PATIENCE} seconds")

    def act(self, waiting: selectors.BaseSelector) -> None:
        """Has a place's client do something, unless it awaits a reply."""
        place = self.numbers.choice(self.places)
        if not place.client:
            place.come()
            self.came += 1
        elif not place.sent and place.client.socket not in waiting.get_map():
            client = place.client
            if place.act():
                waiting.register(client.socket, selectors.EVENT_READ, place)

    def look(self, server: Server, passed: float) -> None:
        self.bytes.append(bytes_of(server.process.pid, "VmRSS"))
        now = sum(it.client is not None for it in self.places)
        print(f"{passed:.0f} s: {now} clients, {self.came} came, {self.bytes[-1]} bytes", flush=True)

    def check_totals(self, wrote: str) -> int:
        """Compares the totals with the replies. Returns the number of commands."""
        accepted, *others = numbers_of(wrote.removesuffix("\n"), "accepted # inserted # deleted # held #") or [-1]
        total = lambda of: sum(map(of, self.places))
        inserted, deleted = total(lambda it: it.inserted), total(lambda it: it.deleted)
        expect("totals", [inserted, deleted, inserted - deleted], others)
        expect("rows held", inserted - deleted, total(lambda it: len(it.rows)))
        least, untold = total(lambda it: it.accepted), total(lambda it: it.untold)
        if not least <= accepted <= least + untold:
            raise Wrong(f"{accepted} commands were accepted; replies say {least} to {least + untold}")
        return accepted

    def told(self, accepted: int) -> str:
        first, last = self.bytes[len(self.bytes) // 10], self.bytes[-1]
        return f"{self.came} clients came, {accepted} commands; {first} bytes after a tenth of the time, {last} last"


def check(program: str, seed: int) -> None:
    """Half a minute of it."""
    with contextlib.redirect_stdout(None):
        Crowd(program, seed).run(SHORT)


def main() -> None:
    parser = argparse.ArgumentParser(description=__doc__, formatter_class=argparse.RawDescriptionHelpFormatter)
    parser.add_argument("seconds", type=float)
    parser.add_argument("--clients", type=int, default=CLIENTS)
    parser.add_argument("--rate", type=int, default=RATE)
    parser.add_argument("--seed", type=int, default=1)
    parser.add_argument("--top", type=pathlib.Path, metavar="FOLDER")
    it = parser.parse_args()
    print(Crowd(fixtures.built("crackd", it.top), it.seed, it.clients, it.rate).run(it.seconds))


if __name__ == "__main__":
    sys.exit(main())
