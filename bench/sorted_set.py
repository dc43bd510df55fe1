"""The same rows, counts and deletes over TCP by `crackd serve` and by a Redis sorted set, asked by one client, if
`redis-server` is installed."""

import contextlib
import random
import shutil
import socket
import statistics
import subprocess
import sys
import threading
import time

import sizes
from inputs import random_counts, random_insert_lines
from programs import CRACKD, OUT, fixtures

REDIS = "redis-server"
SECONDS = 600
# how many inserts, and as many deletes, precede a count
BATCH = 10


class Crackd:
    """Requests to a table of one partition, as bytes, and what a reply to a count says."""

    warm_up = [b"policy complete\n", b"count %b\n" % sizes.EVERYTHING.encode(), b"policy ripple\n"]

    @staticmethod
    def insert(_serial, key, payload):
        return b"insert %d %d\n" % (key, payload)

    @staticmethod
    def count(low, high):
        return b"count %d %d\n" % (low, high)

    @staticmethod
    def delete(serial):
        return b"delete 0.%d\n" % serial

    @staticmethod
    def number(reply):
        return int(reply.split()[1])


class Redis:
    """The same to a sorted set: a row's number is a member, and its key the score. Payloads aren't kept."""

    warm_up = []

    @staticmethod
    def request(*words):
        return b"".join([b"*%d\r\n" % len(words), *(b"$%d\r\n%b\r\n" % (len(word), word) for word in words)])

    @classmethod
    def insert(cls, serial, key, _payload):
        return cls.request(b"ZADD", b"rows", b"%d" % key, b"%d" % serial)

    @classmethod
    def count(cls, low, high):
        return cls.request(b"ZCOUNT", b"rows", b"%d" % low, b"(%d" % high)

    @classmethod
    def delete(cls, serial):
        return cls.request(b"ZREM", b"rows", b"%d" % serial)

    @staticmethod
    def number(reply):
        return int(reply.removeprefix(b":"))


class Client:
    """A connection to either server. Both answer each request by one line."""

    def __init__(self, port):
        self.socket = socket.create_connection(("127.0.0.1", port), SECONDS)
        self.socket.setsockopt(socket.IPPROTO_TCP, socket.TCP_NODELAY, 1)

    def read(self, count):
        """The bytes of this many replies."""
        chunks = []
        while count > 0:
            chunks.append(self.socket.recv(2**18) or sys.exit("a server closed the connection"))
            count -= chunks[-1].count(b"\n")
        return b"".join(chunks)

    def pipeline(self, requests):
        """Sends all of them without waiting, and reads meanwhile. Returns the replies, and how long that takes."""
        start, writer = time.perf_counter(), threading.Thread(target=self.socket.sendall, args=[b"".join(requests)])
        writer.start()
        replies = self.read(len(requests))
        writer.join()
        return replies.splitlines(), time.perf_counter() - start

    def take_turns(self, requests):
        """Sends each once the previous reply has come. Returns the replies, and how long that takes."""
        start, replies = time.perf_counter(), []
        for request in requests:
            self.socket.sendall(request)
            replies.append(self.read(1))
        return [it.strip() for it in replies], time.perf_counter() - start


@contextlib.contextmanager
def redis(*options):
    """The port of a Redis server for this run alone, which writes nothing to disk."""
    port = fixtures.free_port()
    words = [REDIS, "--port", str(port), "--bind", "127.0.0.1", "--save", "", "--appendonly", "no", "--dir", OUT]
    words += options
    started = subprocess.Popen(words, stdin=subprocess.DEVNULL, stdout=subprocess.PIPE)
    try:
        # Redis writes much before it accepts connections, and nothing after that until it ends
        ready = any(b"Ready to accept connections" in line for line in started.stdout)
        yield port if ready else sys.exit(f"{REDIS} ended")
    finally:
        started.terminate()
        started.communicate()


@contextlib.contextmanager
def crackd(program, totals):
    """The port of `crackd serve` for one session, which must have these totals."""
    try:
        with fixtures.serving(program, totals, 1, 1) as port:
            yield port
    except fixtures.Wrong as wrong:
        sys.exit(f"crackd serve: {wrong}")


def steps(kind, is_warm):
    """What a server is asked, in turn: a name, the requests, and whether each waits for the previous reply. Without a
    warm-up the counts come last."""
    numbers = random.Random(17)
    rows = [[int(word) for word in line.split()[1:]] for line in random_insert_lines(sizes.PART_ROWS)]
    counts = [kind.count(*(int(word) for word in line.split()[1:])) for line in random_counts(sizes.RANGES)]
    yield "load", [kind.insert(serial, *row) for serial, row in enumerate(rows)], False
    if not is_warm:
        yield "cold", counts, False
        return
    yield "warm-up", kind.warm_up, False
    yield "warm", counts, False
    yield "again", counts * sizes.SET_REPEATS, False
    yield "turns", [counts[at % len(counts)] for at in range(sizes.TURNS)], True
    updates = []
    for at, count in enumerate(counts):
        serials = range(at * BATCH, (at + 1) * BATCH)
        updates += [kind.insert(len(rows) + serial, numbers.randrange(2**32), serial) for serial in serials]
        updates += [kind.delete(serial) for serial in serials]
        updates.append(count)
    yield "updates", updates, False


def counted(kind, name, replies):
    """What the counts of a step say."""
    each = {"load": None, "warm-up": None, "updates": 2 * BATCH + 1}.get(name, 1)
    return [kind.number(it) for it in replies[each - 1 :: each]] if each else []


def asked(kind, port, is_warm):
    """How many seconds each step takes, by its name, and what its counts say."""
    seconds, told, client = {}, {}, Client(port)
    for name, requests, is_each_alone in steps(kind, is_warm):
        ask = client.take_turns if is_each_alone else client.pipeline
        replies, seconds[name] = ask(requests) if requests else ([], 0.0)
        told[name] = counted(kind, name, replies)
    client.socket.close()
    return seconds, told


def totals(is_warm):
    """The totals of `crackd serve` once it was asked all steps."""
    requests = b"".join(it for _, these, _ in steps(Crackd, is_warm) for it in these)
    inserted, deleted, counts = (requests.count(word) for word in (b"insert", b"delete", b"count"))
    return inserted + deleted + counts, inserted, deleted, inserted - deleted


def measured(runs):
    """How many seconds each step takes with each of the two, crackd's first, by its name; nothing if there is no
    Redis."""
    if shutil.which(REDIS) is None:
        print(f"{REDIS} isn't installed: crackd isn't compared with it")
        return {}
    rounds = []
    for _ in range(runs):
        with crackd(CRACKD, totals(False)) as port:
            cold, cold_told = asked(Crackd, port, False)
        with crackd(CRACKD, totals(True)) as port:
            ours, told = asked(Crackd, port, True)
        with redis() as port:
            theirs, their_told = asked(Redis, port, True)
        if told != their_told or cold_told["cold"] != told["warm"]:
            sys.exit("crackd and Redis don't count the same")
        rounds.append({**{name: (ours[name], theirs[name]) for name in ours}, "cold": (cold["cold"], theirs["warm"])})
    return {name: tuple(statistics.median(it[name][which] for it in rounds) for which in (0, 1)) for name in rounds[0]}
