"""Refuses memory to a server with several clients, at each call in turn. Only the client whom the call concerns may be
refused or lose its connection, and the totals must agree with the replies.

The clients of one worker take turns: while one works the others are silent, so a call that is refused meanwhile
concerns that client. Two clients keep their connections busy: one sends many requests at once, whose replies don't fit
into one buffer; one doesn't read. Their requests change no row, so it is known what they leave if they are cut off.
"""

import contextlib
import itertools
import time
import typing

import extent
import fixtures
import test_memory
from compare import SHORT, Seen, check_totals, take
from fixtures import FAULTS, SECONDS, Client, Server, expect, refusing
from plain_session import MOST, Session, complaint, read_line

SPLITS, FOR_EVER = [2**62, 2**63], 2**63
ALL, OF_TWO_PARTS = f"select 0 {MOST}", f"select 0 {2**63}"
# the keys of the first rows
KEYS = [5, 2**62 - 5, 2**62 + 5, 2**63 - 5, 2**63 + 5, MOST - 5]
# how many rows are listed, of about 46 characters each; how often by one request after another; how often to the client
# that doesn't read, which is more than its buffers hold; the size of that client's receive buffer; and after how many
# seconds without a call for memory the server is surely waiting for that client
ROWS, LISTINGS, UNREAD, FEW_BYTES, REST = 1000, 3, 100, 4096, 0.02
# how many calls after the first one are refused as well; and in how many checks
WAYS, SHARES = {"alone": 0, "four": 3}, 4
# and how many calls of a share, where not all are tried
FEW = 8
Counted = typing.Callable[[], tuple[int, int]]


class Turns:
    """Clients of a server with one worker that take turns."""

    def __init__(self, port: int, counted: Counted) -> None:
        self.port, self.counted, self.session, self.seen = port, counted, Session(SPLITS), Seen()
        self.clients: dict[str, Client] = {}
        self.refused, self.cut_off = 0, 0

    def fell_short(self) -> bool:
        """Whether calls were refused since this was asked last."""
        before, self.refused = self.refused, self.counted()[1]
        return self.refused > before

    def come(self, name: str, room: int | None = None) -> None:
        """Connects a client. As often as it is closed without a reply, memory was refused."""
        while True:
            self.clients[name] = Client(self.port, room, SECONDS)
            try:
                self.clients[name].ask("ping", "pong")
                expect(f"whether memory was refused while {name} came", False, self.fell_short())
                return
            except FAULTS as error:
                self.lose(name, error)

    def lose(self, name: str, error: Exception) -> None:
        """A client has lost its connection: memory must have been refused."""
        self.clients.pop(name).__exit__()
        self.cut_off += 1
        if not self.fell_short():
            raise error

    def say(self, name: str, *statements: str) -> None:
        """Has a client send statements at once, and takes the replies."""
        said, before, taken = [read_line(it.encode()) for it in statements], self.seen.short, 0
        try:
            self.clients[name].send("".join(f"{it}\n" for it in statements))
            for one in said:
                lines = self.clients[name].reply()
                expect("lines of a reply", len(lines), take(self.session, one, lines, self.seen, True))
                taken += 1
        except (OSError, fixtures.Wrong) as error:
            self.lose(name, error)
            expect(f"a change whose reply {name} didn't get", True, all(it.startswith("select") for it in statements))
            self.seen.counts["most"] += (len(said) - taken) * len(self.session.parts)
            self.come(name)
            return
        short = self.seen.short - before
        expect(f"whether {name} was refused {short} times for lack of memory", True, self.fell_short() or not short)

    def be_deaf(self, name: str, meanwhile: typing.Callable[[], None]) -> None:
        """Has a client request much and read nothing while something happens, and then read all of it."""
        right, parts, before = "".join(f"{it}\n" for it in self.rows_of_two_parts()), 2, self.refused
        self.clients[name].send(f"{OF_TWO_PARTS}\n" * UNREAD)
        calls = -1
        while calls != (calls := self.counted()[0]):
            time.sleep(REST)
        self.fell_short()
        meanwhile()
        got = self.left(name)
        self.fell_short()
        short = got.count(f"{SHORT}\n")
        is_whole = got.replace(f"{SHORT}\n", "") == right * (UNREAD - short)
        is_front = (right * UNREAD).startswith(got)
        is_well = is_whole and short <= self.refused - before or is_front and self.refused > before
        expect(f"whether the deaf client got right replies, {len(got)} characters, {short} refusals", True, is_well)
        self.cut_off += not is_whole
        self.seen.counts.update(least=(UNREAD - short) * parts if is_whole else 0, most=UNREAD * parts)

    def rows_of_two_parts(self) -> list[str]:
        """The lines of the right reply to a request of the rows of the first two partitions."""
        parts = self.session.parts[:2]
        rows = [(f"{part.number}.{serial}", *row) for part in parts for serial, row in sorted(part.rows.items())]
        return [f"rows {len(rows)}", *("{} {} {}".format(*row) for row in rows)]

    def left(self, name: str) -> str:
        """What a client gets until it has no more to get."""
        got = []
        with contextlib.suppress(OSError), self.clients.pop(name) as client:
            client.sends_no_more()
            got.extend(iter(lambda: client.lines.read(2**20), ""))
        return "".join(got)

    def end(self) -> None:
        """Ends the sessions, in one way and another."""
        for name in list(self.clients):
            self.say(name, f"count 0 {MOST}")
            with self.clients.pop(name) as client:
                client.end()


def take_turns(turns: Turns) -> None:
    """What the clients do: some come and work by turns, one comes and goes, one asks much, one doesn't read."""
    for name in ("one", "another", "deaf"):
        turns.come(name, FEW_BYTES if name == "deaf" else None)
    for key in KEYS:
        turns.say("one", f"insert {key} 7")
        turns.say("another", f"count {key - 5} {key + 5}")
    turns.say("one", "delete 0.0", f"update 1.0 {2**62} 8", f"sum 0 {MOST}", "layout 1")
    turns.come("third")
    turns.say("third", *(f"insert {2**62 - row} {row - 2**63}" for row in range(1, ROWS + 1)))
    turns.say("another", *[ALL] * LISTINGS)
    turns.be_deaf("deaf", lambda: turns.say("one", f"insert {2**63} 5", "delete 2.0", f"sum {2**63} {MOST}"))
    turns.clients.pop("third").__exit__()
    turns.come("fourth")
    turns.end()


def run_once(program: str, which: dict[str, int]) -> tuple[int, int, int]:
    """Runs a server and its clients, while these calls are refused. Returns how many calls there were when it
    listened, how many in all, and how many were refused."""
    with refusing(**which) as (environment, counted):
        with Server(program, 1, "--until-eof", "--quiet", *map(str, SPLITS), environment=environment) as server:
            first, turns, is_served = counted()[0], Turns(server.port, counted), True
            try:
                take_turns(turns)
            except ConnectionRefusedError:
                # before a client came, the server may have ended for lack of memory for its thread
                if turns.clients or turns.seen.counts.total():
                    raise
                is_served = False
            server.close()
            status, wrote, complained = server.ended()
        calls, refused = counted()
    if (status, complained) == (1, complaint(SHORT).decode()) and (refused > turns.refused or not is_served):
        expect("what a server wrote that ended with 8", "", wrote)
        return first, calls, refused
    expect("status and standard error, and whether clients came", (0, "", True), (status, complained, is_served))
    check_totals(wrote, turns.seen.counts)
    return first, calls, refused


def sweep(program: str, way: str, first: int) -> None:
    """Refuses calls that come after the server listens: each alone, or four in a row, of one of these shares."""
    most, step = WAYS[way], SHARES * (WAYS[way] + 1)
    before, calls, _ = run_once(program, {"from": FOR_EVER, "to": FOR_EVER})
    numbers = range(before + 1 + first * (most + 1), calls + 1, step)
    for number in extent.some(numbers, FEW, way, first):
        try:
            run_once(program, {"from": number, "to": number + most})
        except FAULTS as error:
            raise fixtures.Wrong(f"{way} {number}: {error}") from error


class Turned(test_memory.Sweeps):
    """Sweeps over a server and its clients. The names of checks have the way and the share."""


for way, share in itertools.product(WAYS, range(SHARES)):
    fixtures.add(Turned, f"{way} {share}", lambda self, *given: sweep(self.program, *given), way, share)
