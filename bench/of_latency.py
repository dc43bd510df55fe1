"""Measures how long single requests over TCP wait for their replies: those of one client while others load the server,
and those of many clients, by `crackd serve` and by a Redis sorted set, if `redis-server` is installed; what listings
and the growth of a table add to that; and the memory of idle clients."""

import contextlib
import resource
import shutil
import statistics

import sizes
from programs import CRACKD, PEERS, fixtures, status_of, timed
from sorted_set import REDIS, redis

# the requests, as the peer names them, and in words; Redis has no sum
REQUESTS = {"count": "a count of a new range", "again": "the same again", "insert": "an insert", "delete": "a delete"}
SUM = {"sum": "a sum"}
POINTS = ["p50", "p99", "p99.9", "worst"]
# the number of workers, which serve three clients and more that load the server; splits into 64 partitions of one width
WORKERS = 4
SPLITS = [str(part * 2**26) for part in range(1, 64)]
# the seconds that another client's request may wait for a listing of all rows, and an insert for the table's growth
MOST_STALL, MOST_GROWTH = 0.020, 0.002


@contextlib.contextmanager
def many_descriptors():
    """Lets this process and those that it starts have as many descriptors as they may."""
    few, most = resource.getrlimit(resource.RLIMIT_NOFILE)
    resource.setrlimit(resource.RLIMIT_NOFILE, (most, most))
    yield
    resource.setrlimit(resource.RLIMIT_NOFILE, (few, most))


@contextlib.contextmanager
def crackd(*words, workers=WORKERS):
    """A server without a log, which stops at the end."""
    options = ["--until-eof", "--quiet", "--auto-checkpoint", "--clients", "20000"]
    with fixtures.Server(CRACKD, workers, *options, *words) as server:
        yield server


def asked(server, port, *numbers):
    """What a server's requests took, in nanoseconds by name, and its totals."""
    wrote, took = timed([PEERS, server, *map(str, [port, sizes.PART_ROWS, *numbers])])
    return took, wrote.split()


def of_crackd(*numbers):
    """What requests to `crackd serve` with one partition took."""
    with crackd() as server:
        took, totals = asked("crackd", server.port, *numbers)
        server.close()
        server.wait(totals)
    return took


def of_redis(*numbers):
    with redis("--maxclients", "20000") as port:
        return asked("redis", port, *numbers)[0]


def latencies(runs, *numbers):
    """The median times of both, crackd's first, in nanoseconds by name."""
    both = [[of_crackd(*numbers), of_redis(*numbers)] for _ in range(runs)]
    return [{name: statistics.median(it[name] for it in times) for name in times[0]} for times in zip(*both)]


def tell(table, whose, ours, theirs):
    """Lines of these times, and of crackd's sums beside its counts."""
    for name, what in {**REQUESTS, **SUM}.items():
        for point in POINTS:
            took = ours[f"{name}_{point}"] / 1e9
            if name in SUM:
                table.line(f"{what} {whose}, {point}, beside a new count", took, ours[f"count_{point}"] / 1e9)
            else:
                bound = 1.0 if point == "p99.9" else None
                table.line(f"{what} {whose}, {point}, beside Redis", took, theirs[f"{name}_{point}"] / 1e9, bound)


def measure_latency(table, runs):
    if shutil.which(REDIS) is None:
        print(f"{REDIS} isn't installed: crackd isn't compared with it")
        return
    tell(table, "over TCP beside three busy clients", *latencies(runs, sizes.LATENCY_ROUNDS))


def measure_crowds(table, runs):
    """Clients with one request each in flight, and how many replies they get in a second."""
    if shutil.which(REDIS) is None:
        return
    with many_descriptors():
        for clients in sizes.CROWDS:
            rounds = max(1, sizes.CROWD_ROUNDS // clients)
            ours, theirs = latencies(runs, rounds, clients)
            tell(table, f"by {clients} clients", ours, theirs)
            replies = [clients * rounds * kinds * 1e9 / it["all"] for it, kinds in ((ours, 5), (theirs, 4))]
            table.gain(f"replies a second to {clients} clients, beside Redis", *replies)


def replies_by_turns(*splits):
    """How many replies a second crowds of each size get from one server, each client with one request in flight: for
    each turn a list."""
    with crackd("--policy", "auto", *splits) as server:
        words = ["crowds", server.port, sizes.PART_ROWS, sizes.TURN_ROUNDS, sizes.CROWD_TURNS, *sizes.CROWDS]
        wrote, took = timed([PEERS, *map(str, words)])
        server.close()
        _, totals, _ = server.ended()
    # a range over two partitions is a command to each of them
    fixtures.expect("rows inserted, deleted and held", wrote.split()[1:], totals.split()[3::2])
    kinds = len(REQUESTS) + len(SUM)
    sent = {clients: clients * (sizes.TURN_ROUNDS // clients) * kinds for clients in sizes.CROWDS}
    turns = range(1, sizes.CROWD_TURNS + 1)
    return [[many * 1e9 / took[f"{clients}_{turn}"] for clients, many in sent.items()] for turn in turns]


def measure_crowds_by_turns(table, _runs):
    """How many replies a second many clients get, beside few of the same server. The crowds work by turns, so that all
    meet the same machine."""
    few, *many = sizes.CROWDS
    with many_descriptors():
        for splits in ([], SPLITS):
            parts = f"{len(splits) + 1} part" + "s" * bool(splits)
            least, *others = zip(*replies_by_turns(*splits))
            beside = statistics.median(least)
            for clients, each in zip(many, others):
                gain = statistics.median(after / before for before, after in zip(least, each))
                table.gain(f"replies a second to {clients} clients, {parts}, beside {few}", gain * beside, beside, 1.0)


def idle_bytes(process, port):
    """How many bytes a server has more with clients that are connected and say nothing after a first request."""
    before = status_of(process, "VmRSS")
    with contextlib.ExitStack() as stack:
        clients = [stack.enter_context(fixtures.Client(port)) for _ in range(sizes.IDLE)]
        for it in clients:
            it.send("ping\n")
        for it in clients:
            it.lines.readline()
        return 1024 * (status_of(process, "VmRSS") - before)


def measure_idle(table, _runs):
    with many_descriptors(), crackd() as server:
        took = idle_bytes(server.process.pid, server.port)
    table.count(f"bytes of each of {sizes.IDLE} idle clients", took / sizes.IDLE, 1024)


def stalls(words, *splits):
    """What a peer reports of a server of its own, whose table must have as many rows as the peer says."""
    with crackd("--policy", "auto", *splits) as server:
        wrote, took = timed([PEERS, *map(str, [words[0], server.port, server.process.pid, *words[1:]])])
        server.close()
        _, totals, _ = server.ended()
    fixtures.expect("rows", wrote.split()[-1], totals.split()[-1])
    return took


def tell_stalls(table, what, took, most, is_bounded):
    """Lines of times beside the longest that they may be."""
    for point in POINTS:
        bound = 1.0 if point == "worst" and is_bounded else None
        table.line(f"{what}, {point}, beside {most * 1e3:.0f} ms", took[point] / 1e9, most, bound)


def measure_stalls(table, _runs):
    """The worst request while another client lists all rows again and again, of which one in a hundred has a cell that
    was freed before, and while a table grows; and the processor time of what it may wait for."""
    of = lambda took, name: {point: took[f"{name}_{point}"] for point in POINTS}
    for splits in ([], SPLITS):
        parts = f"{sizes.STALL_ROWS} rows in {len(splits) + 1} part" + "s" * bool(splits)
        took = stalls(["list", sizes.STALL_ROWS, 1, sizes.STALL_ROUNDS], *splits)
        tell_stalls(table, f"processor time to gather {parts}", of(took, "gathering"), MOST_STALL, True)
        for name, what in {"ping": "a ping", "again": "a count", "insert": "an insert"}.items():
            tell_stalls(table, f"{what} beside a listing of {parts}", of(took, name), MOST_STALL, True)
        took = stalls(["grow", sizes.STALL_ROWS], *splits)
        tell_stalls(table, f"processor time of an insert up to {parts}", of(took, "used"), MOST_GROWTH, True)
        tell_stalls(table, f"an insert up to {parts}", of(took, "insert"), MOST_GROWTH, True)
        tell_stalls(table, "a ping beside these", of(took, "ping"), MOST_GROWTH, False)


MEASURES = {
    "latency": [measure_latency],
    "crowds": [measure_crowds_by_turns, measure_crowds, measure_idle],
    "stalls": [measure_stalls],
}
