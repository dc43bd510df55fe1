"""A server with clients of all kinds, most of them hostile; an hour of its work, scaled down; and its memory.

Some clients connect and close, reset the connection, send half a line, one byte a second, random bytes, 64 MB without a
line feed or 200,000 statements at once, say nothing, or request large lists and read none. Each has its own keys; what
it sends and reads is noted in its `own`, and client_rows.py checks that, the rows that are left when all have gone, and
the totals. Honest clients request checkpoints in the middle of their work, except in one case, and if a history is
full; two of three seeds have small limits. The server must end by itself once its sessions are served. A seed always
gives the same clients, but not the order in which a server takes them. If only honest clients share two partitions with
small limits, the limits hold for all of them together, and each entry is checkpointed once.

In the hour there are first clients of all kinds except those that leave many rows. Checkpoints are automatic, so no
statement is refused with 6. Then steady clients connect, which insert, update and delete rows and keep few at a time. A
session that was open from the beginning reads the table at the end, and is closed once the server's input ends.
Standard error shows that each automatic checkpoint removed as many entries as a history may have, and that each entry
was checkpointed once.
"""

import concurrent.futures
import contextlib
import pathlib
import random
import re
import socket
import threading
import time
import typing

import extent
import fixtures
from client_rows import Account, Own, come_to
from compare import check_totals
from fixtures import FAULTS, MOST_WORKERS, SECONDS, Client, Server, Wrong, bytes_of, expect
from plain_session import LEAST_PAYLOAD, MOST, POLICIES, Limits, read_line
from random_script import kind_of, statement

PIPELINED = 200_000
FLOODED, CHUNK = 64 * 2**20, 2**20
# a client that reads nothing: how many rows it lists, how often, its receive buffer in bytes, and how long it waits
LISTED, LISTINGS, FEW_BYTES, PATIENCE = 2000, 150, 4096, 1
# how often a client makes room in a history that others fill again
ROUNDS = 20
# no line of random bytes may begin like this, since it might be a statement
WORDS = re.compile(rb" *(insert|delete|update|count|sum|select|layout|checkpoint|policy|quit)\b")
LIKELY = b"cdeinorstu0123456789-  \r\n\n\0\xff"
# out of a hundred statements of an honest client, how many of each kind
STATEMENTS = {"insert": 40, "delete": 12, "update": 12, "count": 12, "sum": 8, "select": 8, "layout": 3}
STATEMENTS |= {"checkpoint": 2, "policy": 2, "no statement": 2, "bad range": 1}


class Guest:
    """A client of a server, with its own keys."""

    def __init__(self, port: int, own: Own, seed: int, visits: int, seconds: int, others_gone: threading.Event) -> None:
        self.port, self.own, self.visits, self.seconds, self.others_gone = port, own, visits, seconds, others_gone
        self.numbers, self.payload = random.Random(seed), 0

    def row(self) -> tuple[int, int]:
        """A key of its own, and a payload. No two rows have the same payload, so each row shows its owner."""
        self.payload += 1
        return self.numbers.randrange(self.own.low, self.own.high), LEAST_PAYLOAD + self.own.low + self.payload

    def insert(self) -> str:
        return "insert {} {}".format(*self.row())

    def inserts(self, most: int) -> list[str]:
        return [self.insert() for _ in range(self.numbers.randrange(1, most + 1))]

    def all_own(self, kind: str = "count") -> str:
        return f"{kind} {self.own.low} {self.own.high}"

    def read(self, connection: Client, statements: list[str]) -> list[str]:
        """Takes the replies to statements that were sent. Returns those that a full history refused."""
        refused = []
        for it in statements:
            lines = connection.reply()
            self.own.take(it, lines)
            refused += [it] if lines[0].startswith("refused 6 ") else []
        return refused

    def ask_once(self, connection: Client, statements: list[str]) -> list[str]:
        """Sends statements at once, cut anywhere, and takes the replies. Returns those that a full history refused."""
        text = "".join(f"{it}\n" for it in statements)
        cuts = sorted(self.numbers.randrange(len(text) + 1) for _ in range(self.numbers.randrange(4)))
        for low, high in zip([0, *cuts], [*cuts, len(text)]):
            connection.send(text[low:high])
        return self.read(connection, statements)

    def ask(self, connection: Client, *statements: str) -> None:
        """The same, but those that a full history refused are sent again after checkpoints."""
        left = list(statements)
        for _ in range(ROUNDS):
            left = self.ask_once(connection, left)
            parts = {part for it in left for part in self.own.parts_asked(read_line(it.encode()))}
            if not left:
                return
            self.ask_once(connection, [f"checkpoint {part}" for part in sorted(parts)])

    def end(self, connection: Client) -> None:
        """Ends a session by a `quit`, or by sending nothing more."""
        if self.numbers.random() < 0.5:
            self.ask(connection, "quit")
        else:
            connection.sends_no_more()
        connection.is_at_end()

    def leave(self, connection: Client, sending: "Sending", statements: list[str], read: int, how: str) -> None:
        """Reads the first replies to what is being sent, and leaves: it waits for all of them, closes, or resets."""
        self.read(connection, statements[:read])
        if how == "waits":
            sending.join()
            connection.sends_no_more()
            self.read(connection, statements[read:])
            connection.is_at_end()
            return
        sending.join(PATIENCE)
        if how == "resets":
            connection.reset()
        if sending.is_alive():
            connection.socket.shutdown(socket.SHUT_RDWR)
        self.own.unread = sending.taken()[read:]


class Sending(threading.Thread):
    """Sends statements, and the beginning of another, as long as the connection takes them, and counts the bytes."""

    def __init__(self, connection: Client, statements: list[str], last: str = "") -> None:
        super().__init__()
        self.socket, self.text, self.sent = connection.socket, "".join(f"{it}\n" for it in statements) + last, 0
        self.start()

    def run(self) -> None:
        given = memoryview(self.text.encode())
        with contextlib.suppress(OSError):
            while self.sent < len(given):
                self.sent += self.socket.send(given[self.sent : self.sent + 65536])

    def taken(self) -> list[str]:
        """The whole lines that the connection took, once no more is sent; the beginning of another isn't one."""
        self.join()
        return self.text[: self.sent].split("\n")[:-1]


def any_statement(guest: Guest) -> str:
    """A statement of any kind about the client's own rows."""
    numbers, own, kind = guest.numbers, guest.own, kind_of(guest.numbers, STATEMENTS)
    low, high = sorted(numbers.choice([numbers.randrange(own.low, own.high), own.low, own.high]) for _ in range(2))
    part, serial = numbers.choice(own.given or [(own.session.part_of(own.low).number, 10**15)])
    if kind == "no statement":
        return numbers.choice(["nonsense", f"insert {low}", f"count {low} x", "checkpoint", "x" * 201])
    if kind == "checkpoint" and not own.folds:
        kind = "layout"
    elif kind == "checkpoint" and numbers.random() < 0.1:
        part = len(own.session.parts)
    elif kind == "bad range":
        kind, low, high = "count", high + 1, low
    return statement(kind, f"{part}.{serial}", *guest.row(), low, high, numbers.choice(POLICIES))


def honest(guest: Guest) -> None:
    """Sends all kinds of statements about its own rows, in one session or in several, one after the other."""
    for _ in range(guest.visits):
        with Client(guest.port) as it:
            guest.ask(it, guest.all_own("select"))
            for _ in range(guest.numbers.randrange(1, 8)):
                guest.ask(it, *(any_statement(guest) for _ in range(guest.numbers.randrange(1, 12))))
            guest.ask(it, guest.all_own("sum"))
            guest.end(it)


def closes(guest: Guest) -> None:
    """Connects and closes."""
    with Client(guest.port):
        pass


def resets(guest: Guest) -> None:
    """Sends inserts, reads some of the replies, and resets the connection."""
    statements = guest.inserts(200) if guest.numbers.random() < 0.8 else []
    with Client(guest.port) as it:
        read = guest.numbers.randrange(len(statements) + 1)
        guest.leave(it, Sending(it, statements), statements, read, "resets")


def half_a_line(guest: Guest) -> None:
    """Sends the beginning of a line after whole ones, and leaves: it waits for the replies, closes, or resets."""
    statements, last = guest.inserts(20), guest.insert()
    last = last[: guest.numbers.randrange(1, len(last))]
    with Client(guest.port) as it:
        how = guest.numbers.choice(["waits", "closes", "resets"])
        # what it sent of the last line may be a statement, and is no statement without its end
        guest.leave(it, Sending(it, statements, last), [*statements, "nonsense"], 0, how)


def slow(guest: Guest) -> None:
    """Sends its last bytes one a second."""
    statements = [*guest.inserts(20), guest.insert(), guest.all_own(), "quit"]
    text = "".join(f"{it}\n" for it in statements)
    with Client(guest.port) as it:
        it.send(text[: -guest.seconds])
        for byte in text[-guest.seconds :]:
            it.send(byte)
            time.sleep(1)
        guest.read(it, statements)
        it.is_at_end()


def silent(guest: Guest) -> None:
    """Says nothing until all others have gone, and then works as an honest client does."""
    with Client(guest.port) as it:
        guest.others_gone.wait()
        guest.ask(it, *guest.inserts(20))
        guest.ask(it, guest.all_own("select"))
        guest.end(it)


def reads_nothing(guest: Guest) -> None:
    """Requests large lists and reads none, so that its session can't go on; then leaves, or reads all."""
    with Client(guest.port, FEW_BYTES) as it:
        for _ in range(LISTED // 200):
            guest.ask(it, *(guest.insert() for _ in range(200)))
        statements = [one for _ in range(LISTINGS) for one in (guest.insert(), guest.all_own("select"))]
        how = guest.numbers.choice(["closes", "resets", "waits"])
        sending = Sending(it, statements)
        sending.join(PATIENCE)
        guest.leave(it, sending, statements, LISTED if how == "waits" else 0, how)


def random_bytes(guest: Guest) -> None:
    """Sends random bytes in which no line is a statement, or one of HTTP, which would end the session. It reads the
    replies, each a refusal, or resets."""
    numbers = guest.numbers
    size = numbers.randrange(1, 30_000)
    text = numbers.randbytes(size) if numbers.random() < 0.5 else bytes(numbers.choices(LIKELY, k=size))
    some = (line for line in text.split(b"\n") if not WORDS.match(line))
    lines = [line for line in some if read_line(line.removesuffix(b"\r")) != ("http", [])]
    with Client(guest.port) as it:
        it.socket.sendall(b"\n".join(lines))
        if numbers.random() < 0.2:
            it.reset()
            return
        it.sends_no_more()
        cut = [line.removesuffix(b"\r") for line in lines]
        answered = [line for line in cut if line.strip(b" ") or len(line) > 200]
        expect("refusals of random bytes", "refused 1\n" * len(answered), it.lines.read())


def floods(guest: Guest) -> None:
    """Sends 64 MB without a line feed, which are one bad line, or leaves in the middle."""
    numbers = guest.numbers
    chunk = numbers.choice([b"x", b" ", b"insert 1 1 ", b"\0", b"\r"]) * CHUNK
    with Client(guest.port) as it:
        guest.ask(it, *guest.inserts(20))
        for number in range(FLOODED // CHUNK):
            it.socket.sendall(chunk[:CHUNK])
            if number > 8 and numbers.random() < 0.005:
                it.reset()
                return
        it.send("\n")
        expect("64 MB without a line feed", ["refused 1"], it.reply())
        guest.ask(it, guest.all_own("select"))
        guest.end(it)


def pipelines(guest: Guest) -> None:
    """Sends 200,000 statements at once, and reads while it writes; or resets the connection after some of them."""
    statements = [guest.insert() for _ in range(PIPELINED)]
    statements[PIPELINED // 10] = guest.all_own()
    statements[PIPELINED // 5] = guest.all_own("sum")
    statements[-1] = "quit"
    read = PIPELINED if guest.numbers.random() < 0.7 else guest.numbers.randrange(PIPELINED)
    with Client(guest.port) as it:
        how = "waits" if read == PIPELINED else "resets"
        guest.leave(it, Sending(it, statements), statements, read, how)


class Kind(typing.NamedTuple):
    """A kind of clients, its share of a hundred sessions, and the greatest number of those that take long."""

    visit: typing.Callable[[Guest], None]
    share: int
    most: int | None = None


KINDS = [
    Kind(honest, 48),
    Kind(closes, 14),
    Kind(resets, 14),
    Kind(half_a_line, 12),
    Kind(random_bytes, 12),
    Kind(silent, 4, 12),
    Kind(slow, 3, 10),
    Kind(reads_nothing, 2, 12),
    Kind(floods, 1, 4),
    Kind(pipelines, 1, 4),
]
TAKE_LONG = {it.visit for it in KINDS if it.most}
# the clients that may be gone before a worker serves them
ABRUPT = {closes, resets, half_a_line, random_bytes}
SEED, SESSIONS, SLOW_SECONDS = 1, 400, 8
# how many splits there are, and how many connections may wait for a worker
SPLITS, WAITING, BACKLOG = 7, 32, 16
# the limits of a partition, by the seed: histories get full and lives end; no limit is reached; histories get full and
# cells run out
LIMITS = [Limits(500, life=4000), Limits(), Limits(500, 1500)]
# servers with clients of all kinds: without checkpoints; with checkpoints in the middle of the honest ones' work; with
# histories that get full and cells that may run out, or lives that may end; and with silent ones at all workers but one
STORMS = {
    "among all kinds": {"folds": False},
    "among checkpoints": {},
    "under small limits": {"seed": SEED + 1},
    "under short lives": {"seed": SEED + 2},
    "where all but one are silent": {"sessions": 225, "workers": 63, "kinds": [Kind(silent, 50, 31)] * 2},
}
# only honest clients, eight at a time, which share two partitions; and the limits of these
HONEST = {"sessions": 208, "workers": 8, "kinds": [], "splits": 1}
SMALL = {
    "many at a small limit": {"limits": Limits(50)},
    "checkpoints that are due": {"limits": Limits(50, is_automatic=True), "folds": False},
    "a life ends for all": {"limits": Limits(50, life=1000)},
    "cells run out for all": {"limits": Limits(50, 100)},
}
# how many bytes of memory a server may use for each of these, beyond those at its start
BYTES_OF_A_COMMAND, BYTES_OF_A_LISTED_ROW, BYTES_OF_A_SESSION = 330, 60, 100_000
# Blocks of memory from this size on are mapped separately. Otherwise the C library raises this size to that of the
# largest block that was freed, such as an emptied history, and blocks that grow below it leave holes, which the server
# didn't ask for. Without checkpoints nothing is freed.
MAPPED_FROM = {"MALLOC_MMAP_THRESHOLD_": "131072"}
Visit = typing.Callable[[Guest], None]
# the limits of a partition in an hour: cells just enough for its rows
LIMITS_OF_AN_HOUR = Limits(1000, 2000, is_automatic=True)
# how many steady clients there are, how many rows each keeps, how many statements it sends at a time, into how many
# steps it divides its keys, and how many statements there are in all
STEADY, ROWS, AT_ONCE, STEPS = 48, 20, 50, 8
SHORT, WHOLE = extent.fewer(60_000, 20_000), 3_600_000
BEFORE = [it for it in KINDS[1:] if it.visit not in (pipelines, reads_nothing)]
OFTEN = {"insert": 34, "delete": 16, "update": 12, "count": 20, "sum": 10, "select": 7, "any": 1}
CHECKPOINTS = re.compile(r"crackd: (?:checkpoint|(\d+) checkpoints, the last) of partition (\d+): (\d+) entries")
# how many entries automatic checkpoints remove before a line reports them
TOLD = 1000
CUT_OFF = re.compile(r"crackd: client 127\.0\.0\.1:\d+: session cut off: refused (?:17|18): .*")
ENDED = re.compile(r"crackd: ended: sessions (\d+), cut off (\d+)")
# the length of histories, and after how many commands the memory is read: a thirtieth of what bench/ measures
LIMIT, FEW, MANY = 2_184, 100_000, extent.fewer(1_000_000, 400_000)


class Peak(threading.Thread):
    """Reads repeatedly how much memory a process has used at most, until it ends."""

    def __init__(self, process: int) -> None:
        super().__init__(daemon=True)
        self.process, self.often = process, threading.Event()
        self.first = self.bytes = bytes_of(process, "VmRSS")
        self.start()

    def run(self) -> None:
        while it := bytes_of(self.process, "VmHWM"):
            self.bytes = max(self.bytes, it)
            time.sleep(0.002 if self.often.is_set() else 0.05)


def wait_for_a_place(port: int) -> None:
    """Waits until few connections wait: if too many do, one that leaves may be lost, and the server lacks a session."""
    # the port in hexadecimal digits, the state of a listener, and how many connections wait for it
    listener, end = re.compile(rf":{port:04X} \S+ 0A \w+:(\w+)"), time.monotonic() + SECONDS
    while (found := listener.search(pathlib.Path("/proc/net/tcp").read_text())) and int(found[1], 16) > WAITING:
        if time.monotonic() > end:
            raise Wrong("the server accepts no connection")
        time.sleep(0.005)


def planned(numbers: random.Random, sessions: int, workers: int, of: list[Kind]) -> list[tuple[Visit, int]]:
    """The kinds of a run, those that take long first, each with its number of sessions, and honest ones besides."""
    kinds, left = [], sessions
    for kind in of:
        count = max(1, round(sessions * kind.share / 100))
        # each kind holds fewer than half of the workers
        count = min(count, kind.most or count, (workers - 1) // 2 if kind.most else count)
        kinds += [(kind.visit, 1)] * count
        left -= count
    while left > 0:
        visits = min(left, numbers.randrange(1, 4))
        kinds.append((honest, visits))
        left -= visits
    rest = [it for it in kinds if it[0] not in TAKE_LONG]
    numbers.shuffle(rest)
    return [it for it in kinds if it[0] in TAKE_LONG] + rest


def visit(guest: Guest, kind: Visit) -> None:
    """Runs a client. Wrong if something about it is."""
    try:
        if kind in ABRUPT:
            wait_for_a_place(guest.port)
        kind(guest)
    except FAULTS as error:
        raise Wrong(f"{kind.__name__} at the keys from {guest.own.low}: {type(error).__name__}: {error}") from error


def wait_for(visits: typing.Iterable[concurrent.futures.Future]) -> None:
    """Waits for clients. Wrong if something is wrong with one."""
    faults = [str(it.exception()) for it in visits if it.exception()]
    expect("faults of clients", [], faults[:5])


class Storm:
    """A server, and clients that a seed determines; one session per worker is kept for a last reading.

    The slow clients send `seconds` bytes, one a second; `folds` says whether honest ones request checkpoints. `how` may
    have other `kinds` besides honest ones, other `limits` than the seed's, the number of `splits`, and how many
    `further` clients have keys.
    """

    def __init__(
        self, program, seed=SEED, sessions=SESSIONS, workers=MOST_WORKERS, seconds=SLOW_SECONDS, folds=True, **how
    ) -> None:
        self.program, self.workers, self.sessions = program, workers, sessions
        self.seconds, self.folds, self.ends = seconds, folds, ["--sessions", str(sessions)]
        numbers = random.Random(seed)
        self.plan = planned(numbers, sessions - workers, workers, how.get("kinds", KINDS[1:]))
        # how many keys each client has, and where they begin
        owners = len(self.plan) + how.get("further", 0)
        self.width = MOST // owners
        self.lows = [it * self.width for it in numbers.sample(range(owners), owners)]
        places = numbers.sample(range(1, owners), min(how.get("splits", SPLITS), owners - 1))
        # some clients have a split inside their keys
        self.splits = sorted(it * self.width + numbers.choice([0, self.width // 2]) for it in places)
        self.seed = numbers.randrange(MOST)
        self.policy = numbers.choice(POLICIES)
        self.limits = how.get("limits", LIMITS[seed % len(LIMITS)])
        # half of the servers keep receipts
        self.audit = ["--audit"] if seed % 2 else []
        self.clients: list[Own] = []
        # how many entries automatic checkpoints removed
        self.due = 0

    def run(self) -> dict[str, object]:
        """Runs it. Returns its results, as numbers by their names."""
        before = time.monotonic()
        words = [*self.ends, *self.audit, "--policy", self.policy, *self.limits.words(), *map(str, self.splits)]
        words += [] if self.limits.is_automatic else ["--quiet"]
        with Server(self.program, self.workers, *words, environment=MAPPED_FROM if self.folds else {}) as server:
            peak, account = Peak(server.process.pid), Account(self.splits)
            self.visit(server, account, peak)
            status, wrote, complained = server.ended()
            self.check_end(status, complained)
        peak.join()
        return self.hold(account, wrote, peak) | {"seconds": round(time.monotonic() - before, 1)}

    def visit(self, server: Server, account: Account, peak: Peak) -> None:
        """Runs all clients, and reads what is left once they have gone, with as many sessions as are served at once."""
        self.visit_all(server.port)
        # each worker serves one of these, so none is still in an earlier session
        last = [Client(server.port) for _ in range(self.workers)]
        for it in last:
            it.send("nonsense\n")
        for it in last:
            expect("of one worker each", ["refused 1"], it.reply())
        account.look(last[0], self.clients, self.limits)
        peak.often.set()
        for it in last:
            with it:
                it.end()

    def check_end(self, status: int, complained: str) -> None:
        """Checks how the server ended, and that standard error has only the lines that it may have."""
        expect("status", 0, status)
        if not self.limits.is_automatic:
            expect("standard error", "", complained)
            return
        first, *others, last = complained.splitlines() or [""]
        told, history = [CHECKPOINTS.fullmatch(line) for line in others], self.limits.history
        strange = [line for line, it in zip(others, told) if not it and not CUT_OFF.fullmatch(line)]
        if not first.startswith("crackd: listening on ") or not ENDED.fullmatch(last) or strange:
            raise Wrong(f"standard error: {first!r}, {strange[:3]}, {last!r}")
        wrong = [it[0] for it in told if it and (int(it[3]) != history or int(it[2]) > len(self.splits))]
        if wrong:
            raise Wrong(f"a checkpoint that was due folded a history of {history} entries: {wrong[:3]}")
        self.due = history * sum(int(it[1] or 1) for it in told if it)

    def guest(self, port: int, low: int, seed: int, visits: int, others_gone: threading.Event) -> Guest:
        """A client whose keys start here."""
        self.clients.append(Own(self.splits, low, low + self.width, self.limits, self.folds))
        return Guest(port, self.clients[-1], seed, visits, self.seconds, others_gone)

    def visit_all(self, port: int) -> None:
        """Runs all clients, few more at a time than workers; the silent ones speak once the others have gone."""
        others_gone, visits = threading.Event(), []
        with concurrent.futures.ThreadPoolExecutor(self.workers + min(self.workers, BACKLOG)) as pool:
            for number, ((kind, times), low) in enumerate(zip(self.plan, self.lows)):
                guest = self.guest(port, low, self.seed + number, times, others_gone)
                visits.append((kind, pool.submit(visit, guest, kind)))
            concurrent.futures.wait([it for kind, it in visits if kind is not silent])
            others_gone.set()
            wait_for(it for _, it in visits)

    def hold(self, account: Account, wrote: str, peak: Peak) -> dict[str, object]:
        """Compares rows, totals and memory with the answers to the clients."""
        counts = come_to(account, self.clients) + account.counts
        accepted, listed = check_totals(wrote, counts), counts["listed"]
        # each partition's last checkpoint was at the end; the last automatic ones of short histories have no line
        folded = account.folded + self.due + sum(it.folded.total() for it in self.clients)
        history = self.limits.history if self.limits.is_automatic else TOLD
        if accepted - folded not in range(0, TOLD, history):
            raise Wrong(f"{folded} entries were folded by checkpoints, and {accepted} commands accepted")
        took, most = peak.bytes - peak.first, BYTES_OF_A_COMMAND * accepted + BYTES_OF_A_LISTED_ROW * listed
        most += BYTES_OF_A_SESSION * self.sessions
        if took > most:
            raise Wrong(f"memory: at most {most} bytes were wanted, and {took} taken")
        return {"sessions": self.sessions, "accepted": accepted, "listed": listed, "bytes": took, "most": most}


def steady_statement(guest: Guest) -> str:
    """A statement about the client's own rows, always few. Ranges end at few keys, so that pieces stay few."""
    numbers, own, kind = guest.numbers, guest.own, kind_of(guest.numbers, OFTEN)
    if kind == "any":
        return any_statement(guest)
    if not own.rows and kind in ("delete", "update"):
        kind = "insert"
    elif len(own.rows) >= ROWS and kind == "insert":
        kind = "delete"
    row = "{}.{}".format(*numbers.choice(list(own.rows) or [(0, 0)]))
    low, high = sorted(own.low + numbers.randrange(STEPS + 1) * ((own.high - own.low) // STEPS) for _ in range(2))
    return statement(kind, row, *guest.row(), low, high, "")


class Hour(Storm):
    """Such a server, and its clients, which send about this many statements in all."""

    def __init__(self, program: str, seed: int = SEED, statements: int = SHORT) -> None:
        how = {"kinds": BEFORE, "further": STEADY, "limits": LIMITS_OF_AN_HOUR}
        super().__init__(program, seed, SESSIONS + MOST_WORKERS, **how)
        self.ends, self.statements = ["--until-eof"], statements
        self.policy = random.Random(seed).choice(["complete", "auto"])

    def visit(self, server: Server, account: Account, peak: Peak) -> None:
        with Client(server.port) as looking:
            looking.ask("nonsense", "refused 1")
            self.visit_all(server.port)
            self.go_on(server)
            account.look(looking, self.clients, self.limits)
            peak.often.set()
            server.close()
            looking.is_at_end()

    def go_on(self, server: Server) -> None:
        """Runs the steady clients, which are connected all at once."""

        def ask_all(guest: Guest) -> None:
            with connections[guest] as it:
                for _ in range(self.statements // STEADY // AT_ONCE):
                    guest.ask(it, *(steady_statement(guest) for _ in range(AT_ONCE)))
                guest.end(it)

        lows, connections = self.lows[len(self.plan) :], {}
        for number, low in enumerate(lows, 1):
            guest = self.guest(server.port, low, self.seed - number, 1, threading.Event())
            connections[guest] = Client(server.port)
            guest.ask(connections[guest], guest.insert())
        with concurrent.futures.ThreadPoolExecutor(STEADY + BACKLOG) as pool:
            wait_for([pool.submit(visit, it, ask_all) for it in connections])


def check(program: str, seed: int) -> None:
    """A run whose size the seed determines."""
    numbers = random.Random(seed)
    workers = numbers.choice([4, 8, 32, MOST_WORKERS])
    Storm(program, seed, workers + numbers.randrange(250, 500), workers, numbers.randrange(1, 20)).run()


def check_small(program: str, seed: int) -> None:
    """Honest clients under small limits, some of which the seed determines."""
    Storm(program, seed, **HONEST, **list(SMALL.values())[seed % len(SMALL)]).run()


class Clients(fixtures.Case):
    """Servers with 64 workers."""

    is_heavy = True

    def report(self, what: str, figures: dict[str, object]) -> None:
        print(f"{what}: " + ", ".join(f"{name} {it}" for name, it in figures.items()), flush=True)

    def run_storm(self, how: dict[str, object]) -> None:
        self.report("clients", Storm(self.program, **how).run())

    def test_an_hour(self) -> None:
        """A short hour: automatic checkpoints, an input that ends during a load, and totals of what was answered."""
        self.report("hour", Hour(self.program).run())

    def test_memory_after_a_million_commands(self) -> None:
        """After a million commands a server uses at most a twentieth more memory than after a tenth of them."""
        early, late = fixtures.served_bytes(self.program, LIMIT, FEW, MANY - FEW)
        self.report("memory of a server", {f"after {FEW} commands": early, f"after {MANY}": late})
        self.assertLessEqual(late, 1.05 * early)

    def test_what_an_audit_takes(self) -> None:
        """With an audit a command takes an entry and a receipt, 80 and 96 bytes, whatever checkpoints are made."""
        early, late = fixtures.served_bytes(self.program, LIMIT, FEW, FEW, audit=["--audit"])
        self.report("memory of an audit", {f"after {FEW} commands": early, f"after {2 * FEW}": late})
        self.assertGreaterEqual(late - early, 0.98 * (80 + 96) * FEW)
        self.assertLessEqual(late - early, 1.1 * (80 + 96) * FEW)

    def test_what_an_audit_of_a_batch_takes(self) -> None:
        """The same of a batch, beside one without an audit."""
        given, taken = b"0 count 0 9\n" * FEW, []
        for audit in ([], ["--audit"]):
            taken.append(fixtures.greatest_bytes([self.program, "batch", "--workers", "1", *audit], given))
        self.report("memory of a batch", dict(zip(["without an audit", "with one"], taken)))
        self.assertGreaterEqual(taken[1] - taken[0], 0.98 * (80 + 96) * FEW)


STORMS_TRIED = extent.some(STORMS.items(), 2, "storms") + extent.some(SMALL.items(), 2, "small storms")
for name, how in ((name, HONEST | it if name in SMALL else it) for name, it in STORMS_TRIED):
    fixtures.add(Clients, name, Clients.run_storm, how)
