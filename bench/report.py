"""Writes docs/BENCHMARKS.md with its plots: what queries, loading, merges, workers and memory cost, and where others
are faster."""

import dataclasses
import os
import statistics
import subprocess
import time

from plots import bars, curves, smoothed

try:
    import sqlite3
except ImportError:
    sqlite3 = None

OURS = "crackd under auto"
# what takes the same steps as two programs in plain Rust
GRADUAL = "crackd under gradual"
SAME = "the same in plain Rust"
FAST = "a cracker column for speed alone"

# what the lists of that column have for a pending row: a slot, a float, and the row by its slot
FAST_BYTES = 32

# it takes half a minute a run
UNINDEXED = "SQLite without an index"

# how wide a random range is, and what random keys are below, as in the programs
RANGE = 42949672
NARROW_RANGE = 4294967
KEYS = 2**32


class Numbers:
    """The numbers that determine a run, as in the programs."""

    def __init__(self, state):
        self.state = state

    def word(self):
        self.state = (self.state * 6364136223846793005 + 1442695040888963407) % 2**64
        return self.state >> 32

    def below(self, bound):
        return (self.word() >> 1) % bound

    def low(self):
        return self.word() % (KEYS - RANGE)


def mixed(checksum, value):
    return (checksum ^ value) * 1099511628211 % 2**64


@dataclasses.dataclass
class Contest:
    """What two programs take for the same, in seconds."""

    what: str
    ours: float
    other: str
    theirs: float


@dataclasses.dataclass
class Rivalry:
    """What `crackd`, a cracker column built for speed alone, and a tree take for the same, in seconds. A tree takes no
    steps, and the column has no policy `auto`."""

    what: str
    ours: float
    fast: float | None
    tree: float | None

    def ratio(self):
        return self.ours / self.fast


@dataclasses.dataclass
class Between:
    """What a sum takes, with the deletes and inserts before it if there are any, in seconds, by who answers."""

    what: str
    times: dict


@dataclasses.dataclass
class Rivals:
    """Those of queries with nothing pending, by name; those of merges; and those of steps."""

    queries: dict
    merges: list
    steps: list


@dataclasses.dataclass
class Measured:
    """What is in the report besides the queries: bytes a row by name, the steps of rows by policy in millions, seconds
    by the way of loading, those of counts after a load, statements a second by the way of sharing, seconds of asking
    and of gathering with an audit and without, contests, what is fast in its own way, and what a Redis sorted set
    takes, if there is one."""

    rows: int
    ranges: int
    runs: int
    memory: dict
    moves: dict
    loading: dict
    counts: dict
    workers: dict
    audits: tuple
    contests: list
    rivals: Rivals
    sets: list
    between: list
    ages: list


class Series:
    """The times of one run in nanoseconds: of its loading, of its first count of everything, and of each sum."""

    def __init__(self, load, everything, sums, told):
        self.load, self.everything, self.sums, self.told = load, everything, sums, told


def program_series(words):
    ran = subprocess.run(words, capture_output=True, text=True, check=True)
    reported = [line.split() for line in ran.stderr.splitlines()]
    times = {name: [int(number) for it, number in reported if it == name] for name in ("load", "everything", "sum")}
    return Series(times["load"][0], times["everything"][0], times["sum"], ran.stdout)


def sqlite_series(rows, ranges, is_indexed):
    """The same by SQLite, in memory, either with an index on the keys, which is made before the first count, or without
    one."""
    numbers, database, told = Numbers(11), sqlite3.connect(":memory:"), 0
    database.execute("create table rows (key integer, payload integer)")
    given = [(numbers.word(), row) for row in range(rows)]
    start = time.perf_counter_ns()
    database.executemany("insert into rows values (?, ?)", given)
    load = time.perf_counter_ns() - start
    start = time.perf_counter_ns()
    if is_indexed:
        database.execute("create index by_key on rows (key, payload)")
    [everything] = database.execute("select count(*) from rows where key >= 0 and key < ?", (KEYS,)).fetchone()
    made = time.perf_counter_ns() - start
    sums = []
    for _ in range(ranges):
        low = numbers.low()
        start = time.perf_counter_ns()
        [answer] = database.execute(
            "select sum(payload) from rows where key >= ? and key < ?", (low, low + RANGE)
        ).fetchone()
        sums.append(time.perf_counter_ns() - start)
        told = mixed(told, answer or 0)
    return Series(load, made, sums, f"rows {everything}\neach {told}\n")


def sqlite_rounds(rows, rounds, size, width, is_rising=False):
    """How long SQLite takes for each sum of a range of this width, at random places or in rising order, with as many
    deletes and inserts before it, in memory and by an index that has all that a sum reads, in seconds, and the checksum
    of the sums."""
    numbers, database, told = Numbers(11), sqlite3.connect(":memory:"), 0
    database.execute("create table rows (number integer primary key, key integer, payload integer)")
    database.executemany("insert into rows values (?, ?, ?)", [(row, numbers.word(), row) for row in range(rows)])
    database.execute("create index by_key on rows (key, payload)")
    names, seconds = list(range(rows)), []
    for turn in range(rounds):
        changes = [(numbers.below(rows), numbers.word()) for _ in range(size)]
        low = turn * width if is_rising else numbers.low()
        start = time.perf_counter()
        for at, (place, key) in enumerate(changes, rows + turn * size):
            database.execute("delete from rows where number = ?", (names[place],))
            database.execute("insert into rows values (?, ?, ?)", (at, key, key))
            names[place] = at
        answer = sqlite_sum(database, low, low + width)
        seconds.append(time.perf_counter() - start)
        told = mixed(told, answer)
    return seconds, told


def sqlite_sum(database, low, high):
    """The sum of a range."""
    query = "select sum(payload) from rows where key >= ? and key < ?"
    return database.execute(query, (low, high)).fetchone()[0] or 0


def sqlite_lookups(rows, keys, runs):
    """How long SQLite takes to count the rows of each key, in memory and by an index, in seconds, and the counts."""
    database, times, counts = sqlite3.connect(":memory:"), [], []
    database.execute("create table rows (key integer, payload integer)")
    database.executemany("insert into rows values (?, ?)", rows)
    database.execute("create index by_key on rows (key, payload)")
    for _ in range(runs):
        start = time.perf_counter()
        counts = [database.execute("select count(*) from rows where key = ?", (key,)).fetchone()[0] for key in keys]
        times.append(time.perf_counter() - start)
    return statistics.median(times), counts


def middle_series(measure, runs):
    """The median of several runs, time by time."""
    ran = [measure() for _ in range(runs)]
    sums = [statistics.median(times) for times in zip(*(it.sums for it in ran))]
    load, everything = (statistics.median(getattr(it, name) for it in ran) for name in ("load", "everything"))
    return Series(load, everything, sums, ran[0].told)


def table_of(series):
    """The same as numbers, a line for each."""
    lines = [
        "| What | loading | first count of everything | first sum | median of the last hundred | all sums |",
        "|---|---|---|---|---|---|",
    ]
    for name, it in series.items():
        times = (it.load, it.everything, it.sums[0], statistics.median(it.sums[-100:]), sum(it.sums))
        lines.append(f"| {name} | " + " | ".join(milliseconds(time / 1e6) for time in times) + " |")
    return "\n".join(lines)


def query_series(bench, peers, measured):
    """The queries by each program. All must give the same answers."""
    words = [str(measured.rows), str(measured.ranges)]
    programs = {
        OURS: [bench, "each", "auto"],
        GRADUAL: [bench, "each", "gradual"],
        SAME: [peers, "each", "gradual"],
        FAST: [peers, "each", "fast-gradual"],
        "a sorted array": [peers, "each", "sorted"],
        "a BTreeMap": [peers, "each", "tree"],
        "a scan": [peers, "each", "rows"],
    }
    measures = {name: lambda program=program: program_series([*program, *words]) for name, program in programs.items()}
    if sqlite3:
        measures["SQLite with an index"] = lambda: sqlite_series(measured.rows, measured.ranges, True)
        measures[UNINDEXED] = lambda: sqlite_series(measured.rows, measured.ranges, False)
    series = {
        name: middle_series(measure, 1 if name == UNINDEXED else measured.runs) for name, measure in measures.items()
    }
    if len({it.told for it in series.values()}) > 1:
        raise SystemExit("not all answer the same")
    return series


def query_contests(series):
    """The queries of `crackd` compared with each other program's, and under gradual with those of its steps."""
    marks = {
        "loading, with a first count of everything": lambda it: it.load + it.everything,
        "a first count of everything": lambda it: it.everything,
        "the first sum of a range, after that count": lambda it: it.sums[0],
        "a sum of a range, median of the last hundred": lambda it: statistics.median(it.sums[-100:]),
        "loading and all queries": lambda it: it.load + it.everything + sum(it.sums),
    }
    of = {name: GRADUAL if name in (SAME, FAST) else OURS for name in series if name not in (OURS, GRADUAL)}
    return [
        Contest(f"gradual: {what}" if ours == GRADUAL else what, mark(series[ours]) / 1e9, name, mark(series[name]) / 1e9)
        for what, mark in marks.items()
        for name, ours in of.items()
    ]


def milliseconds(number):
    """Milliseconds with four digits, or whole."""
    return f"{number:,.0f} ms" if number >= 1000 else f"{number:.4g} ms"


def shown(seconds):
    if seconds < 1e-6:
        return f"{seconds * 1e9:.3g} ns"
    return milliseconds(seconds * 1e3) if seconds >= 1e-3 else f"{seconds * 1e6:.3g} µs"


def contest_table(contests, advantage):
    """A line for each contest, the clearest first. `advantage` says how far one of the two is ahead."""
    lines = ["| What | crackd | the other | which that is | times as fast |", "|---|---|---|---|---|"]
    for it in sorted(contests, key=advantage, reverse=True):
        lines.append(f"| {it.what} | {shown(it.ours)} | {shown(it.theirs)} | {it.other} | {advantage(it):,.2f} |")
    return "\n".join(lines)


def rival_table(rivals):
    """A line for each rivalry: what each takes, and how many times as long as the others `crackd` takes."""
    lines = [f"| What | crackd | {FAST} | times as long | a BTreeMap | times as long |", "|---|---|---|---|---|---|"]
    for it in [*rivals.queries.values(), *rivals.merges, *rivals.steps]:
        others = (f"{shown(other)} | {it.ours / other:,.2f}" if other else "| " for other in (it.fast, it.tree))
        lines.append(f"| {it.what} | {shown(it.ours)} | {' | '.join(others)} |")
    return "\n".join(lines)


def between_table(between):
    """A line for each number of changes before a sum."""
    names = [*between[0].times]
    lines = [f"| What | {' | '.join(names)} |", "|---" * (len(names) + 1) + "|"]
    lines += [f"| {it.what} | {' | '.join(shown(it.times[name]) for name in names)} |" for it in between]
    return "\n".join(lines)


def spread(rivalries):
    """The range of how many times as long `crackd` takes."""
    ratios = [it.ratio() for it in rivalries if it.fast]
    return f"{min(ratios):.1f} to {max(ratios):.1f}"


def rival_text(measured):
    """What else `crackd` does, with the figures of the run."""
    rivals = measured.rivals
    load, everything, *queries = rivals.queries.values()
    *merges, passing = rivals.merges
    carry, pull = rivals.steps
    return f"""- **Inserts: {load.ratio():.1f} times as long.** `crackd` gives each row a permanent number, and keeps a map from these numbers to cells; the column has neither. A pending row
  takes {measured.memory["pending"]:.0f} bytes of `crackd`'s memory, and {FAST_BYTES} of the column's lists. The system supplies memory page by page when it is first written.
- **A first count of everything: {1 / everything.ratio():.0f} times as fast.** A column without rows takes over the lists of the pending rows as they are; the other column reads
  and writes each row.
- **Counts and sums with nothing pending: {spread(queries)} times as long.** Both crack by the same loop, which moves 24 bytes a row in `crackd`, and 20 in the column.
  The column stores payloads beside keys, so a sum reads 16 bytes a row; `crackd` stores payloads separately, and reads 8. `crackd` also clips each query to the
  partition's keys.
- **A crack in three.** If both ends of a range are missing and fall into one piece, `crackd` and the column divide the piece by both in one pass. A step writes
  three rows, and a step of a crack in two only two; but this saves the second pass, mostly over a quarter of the piece. An earlier `crackd` cracked at one end
  after the other. Compared with it, the first count over half a million rows took as long, over 10,000 rows 1.5 times as long, and 1,000 counts 1.1 times as
  long.
- **A step of a carry: {carry.ratio():.1f} times as long; of a pull: {pull.ratio():.1f} times.** Each step puts the row in hand at a place and moves a bound. The other column stores bounds
  side by side, and one loop takes all steps. In `crackd` bounds are nodes of a tree, so that many can be added. One recursion visits the nodes in order, with
  the row in hand in memory beside the column.
- **Sums that merge: {spread(merges)} times as long.** They take such steps, and do more work for each row: a delete looks up the row's number, removes it from the
  map, and returns the row; an insertion that is merged is read through its handle.
- **A pass over pending keys that finds none: {passing.ratio():.1f} times as long.** `crackd` compares codes of 2 bytes, 128 at a time, and reads a key only if its code is that
  of an end of the range, or of a key that isn't known yet. The column compares floats of 4 bytes, 16 at a time, and reads a key only if its float lies between
  those of the ends.
- **A BTreeMap** has nothing to merge and nothing to crack: an insert or a delete walks down from its root. A sum walks from node to node, while a column's rows
  are adjacent."""


def loading_table(measured):
    lines = ["| By | time | rows a second |", "|---|---|---|"]
    lines += [
        f"| {name} | {shown(seconds)} | {measured.rows / seconds:,.0f} |" for name, seconds in measured.loading.items()
    ]
    return "\n".join(lines)


def count_table(counts):
    """What counts take after a load, by the statements before them."""
    lines = [
        ("loading by `insert`", counts["load"]),
        ("each count at once, under `ripple`, the policy of the start", counts["cold"]),
        ("`policy complete`, a count of everything, and `policy ripple`", counts["warm-up"]),
        ("each count after that", counts["warm"]),
        ("the same counts again", counts["again"]),
    ]
    return "\n".join(["| What | time |", "|---|---|", *(f"| {what} | {shown(seconds)} |" for what, seconds in lines)])


def set_text(measured):
    """What the same takes over TCP with a Redis sorted set."""
    if not measured.sets:
        return "`redis-server` wasn't installed where this page was written, so nothing was compared."
    lines = ["| What | crackd | Redis | times as fast as Redis |", "|---|---|---|---|"]
    for it in measured.sets:
        theirs = f"{shown(it.theirs)} | {it.theirs / it.ours:,.2f}" if it.theirs else "| "
        lines.append(f"| {it.what} | {shown(it.ours)} | {theirs} |")
    return f"""One client in Python sends the same requests to both, over one connection each, and both reply line by line. Except for the round trips, the client sends
without waiting for replies and reads at the same time. In Redis a row's number is the member of a sorted set, and its key the score (`ZADD`, `ZCOUNT` and
`ZREM`); Redis keeps no payloads here and writes nothing to disk. It sorts each row on insertion and needs no warm-up: its counts take the same time before and
after. There are {measured.ranges} counts, each of a hundredth of the keys.

{chr(10).join(lines)}"""


def worker_table(workers):
    lines = [
        "| Workers | where | crackd, statements a second | gain | plain Rust | gain |",
        "|---|---|---|---|---|---|",
    ]
    for where, rates in workers.items():
        _, alone, same_alone = rates[0]
        lines += [
            f"| {count} | {where} | {it:,.0f} | {it / alone:.2f} | {same:,.0f} | {same / same_alone:.2f} |"
            for count, it, same in rates
        ]
    return "\n".join(lines)


def audits_table(audits):
    asking, gathering = audits
    lines = ["| | with an audit | without |", "|---|---|---|"]
    lines += [f"| {what} | {audited * 1e9:,.0f} ns | {it * 1e9:,.0f} ns |" for what, (audited, it) in asking.items()]
    lines += [
        f"| gathering after {commands:,} commands | {audited * 1e3:,.2f} ms | {it * 1e3:,.3f} ms |"
        for commands, (audited, it) in gathering.items()
    ]
    return "\n".join(lines)


def query_plot(measured, points):
    return curves(f"Time of each of {measured.ranges:,} sums over {measured.rows:,} rows", points)


def between_plot(between):
    """The times between updates, in milliseconds; each number of changes has a scale of its own."""
    groups = {it.what: {name: seconds * 1e3 for name, seconds in it.times.items()} for it in between}
    return bars("Queries between updates, on two scales", groups, "ms", is_one_scale=False)


def loading_plot(times):
    return bars("Loading, with the first count of everything", {"": times}, "ms")


def ways_plot(rates):
    return bars("Loading and listing", {"": {name: it / 1e6 for name, it in rates.items()}}, "million rows a second")


def worker_plot(workers):
    named = lambda count: f"{count} worker{'s' if count > 1 else ''}"
    groups = {where: {named(count): it / 1e3 for count, it, _ in rates} for where, rates in workers.items()}
    return bars("Statements answered, by number of workers", groups, "thousand statements a second")


def write(folder, bench, peers, measured):
    """Measures the queries, and writes the page and its plots."""
    series = query_series(bench, peers, measured)
    plots = {
        "queries": query_plot(measured, {it: smoothed(series[it].sums) for it in series if it not in (GRADUAL, SAME)}),
        "between": between_plot(measured.between),
        "loading": loading_plot({name: (it.load + it.everything) / 1e6 for name, it in series.items()}),
        "ways": ways_plot({name: measured.rows / seconds for name, seconds in measured.loading.items()}),
        "workers": worker_plot(measured.workers),
        "memory": bars("Memory of a row", {"": measured.memory}, "bytes"),
        "moves": bars("Steps of rows under each policy", measured.moves, "million steps"),
    }
    folder.mkdir(parents=True, exist_ok=True)
    for name, plot in plots.items():
        (folder / f"{name}.svg").write_text(plot)
    (folder / "BENCHMARKS.md").write_text(page(series, measured))


def page(series, measured):
    over_tcp = [dataclasses.replace(it, what=f"over TCP: {it.what}") for it in measured.sets if it.theirs]
    by_tree = [Contest(it.what, it.ours, "a BTreeMap", it.tree) for it in measured.rivals.merges if it.tree]
    contests = [*query_contests(series), *measured.contests, *by_tree, *over_tcp]
    return f"""# Benchmarks

`python3 bench/run.py --report` wrote this page on {time.strftime('%-d %B %Y')}, on {os.cpu_count()} processors. Each program loads {measured.rows} rows of random keys below 2^32, counts
everything, and then answers {measured.ranges} sums, each of a hundredth of these keys at a random place. Times are medians of {measured.runs} runs; all programs give the same answers.

## Time of each query

![The time of each query: `crackd` gets faster by itself](queries.svg)

{table_of(series)}

The two cracker columns in plain Rust take the same steps as `crackd` under `gradual`, the policy of the tables without updates on this page.

## Queries between updates

![Queries between updates, by program](between.svg)

The time of a sum of a hundredth of the keys, with the deletes and inserts of random rows before it; `crackd` is under `auto`. The sorted array has prefix sums.
Either it is rebuilt before each sum; or late rows are kept beside it, each sum scans them, and it is rebuilt once there are more than 8192. SQLite is called
from Python, and its index has the key and the payload.

{between_table(measured.between)}

## Age, and the order of queries

First, 20000 rounds of 10 deletes, 10 inserts and the sum of a random thousandth of the keys: the means of the first and of the last tenth. Then sums of
thousandths of a table without updates, one after the other in rising order and at random places. `crackd` is under `auto`; under the other policies a round
takes longer the more bounds there are, and a rising sum the longer the rest is that it cracks again.

{between_table(measured.ages)}

According to `perf`, on code compiled without its proof, a round in the end spends 19 % of its time on the deletes and inserts, 10 % on cracks, and 57 % on
merges: 16 % to merge 28 insertions, 18 of which were evicted before, and 38 % to merge 9 deletions. Moving the column's last row down past hundreds of bounds
takes 13 %: this happens if no pending insertion can fill a deleted row's place. Passes over the 20,000 pending insertions and 9,000 pending deletions take
20 %.

Before `auto` forgot bounds that are too many, three clients that each counted a new thousandth before an insert and a delete divided 500,000 rows into 180,000
pieces in 30,000 rounds. A deleted row whose place no pending insertion fills moves a row of each piece above it. In processor time, by the library compiled
without its proof, the 99.9th percentile of these counts was 3.6 ms and is now 0.26 to 0.4, the 99.99th was 16 to 23 and is now 0.7 to 1.4 (30 November 2026).

Each of 10,000 idle clients of a server takes 591 bytes (30 November 2026). The server's memory stays flat: with 1,000 clients that connect, work and leave at
random, 30,529 in an hour with 781,749 commands, it had 7.31 MB after 40 minutes, and 7.46 MB after 50 and after 60. A listing of a million rows of one
partition, a hundredth of which are in cells that were freed before, holds the lock for 11 ms of processor time, and one of 20 for 25 ms; beside listings the
slowest count waited 14 ms, the slowest insert 24 ms (1 December 2026). The kernel alone takes 14.6 ms to supply the list's 6,000 pages if they are new. A pass
over the cells puts the few rows aside that are out of order: before, it sorted all rows, in 57 ms where it now takes 18 (both compiled without a proof, beside
other work). The text of a listing is written after that, 24 KB in each turn. While a table of one partition grows to a million rows, the slowest insert takes 0.75
ms of the server's processor time, one of 64 partitions 0.38 ms. With a single map of serials the slowest took 21 ms (by the library compiled without its proof, 30
November 2026). By the library the slowest insert is one at which one of the 64 maps doubles, at 590,000 rows: it takes 306 µs or more. Compiled without its proof
it takes 288 µs, of which 72 new pages take 160, the rehash 87 and copies 40; with 128 maps 164 µs, but a load takes up to 9 % longer.

The library loads 500,000 rows by `crackd_insert_many` in 51 ms of processor time, and numpy sorts the same rows, by `argsort` and `take`, in 62 ms. By `perf` a
third of that load is spent in the maps of serials, two fifths in the kernel, which supplies 11,100 pages to the load and 2,900 to numpy, and a fifth on cells and
lists. Of 1,000 sums with 10 deletes and 10 inserts before each, moving rows past bounds takes three quarters under `complete` and `gradual`, two fifths under
`ripple` and `auto`, where cracks take a third; deletes take 6 to 14 %, and inserts 2 % at most (compiled without a proof, with its checks removed).

Over TCP beside a Redis sorted set, one partition and four workers (`bench/run.py --once latency crowds`): one client beside three that send three requests at a
time waits 0.12 to 0.14 ms at the 99th percentile of each request, with Redis 0.10; at the 99.9th 0.28 to 0.36 ms, with Redis 0.15 to 0.16 (1 December 2026).
While the host was slow these were 0.49 to 0.55 and 0.23 to 0.24. Compiled without a proof, the 99.9th is 0.24 to 0.34, with one worker 0.20 to 0.22; it was 0.62 to
0.86 while a pass over the bounds met 512 of them, for which all four clients waited. Of 1,000 clients with one request each in flight it is 72 to 96 ms, with
Redis 66 to 77; of 10,000 clients 386 to 696 ms, with Redis 753 to 1,027 (30 November 2026). A request takes one `recvfrom` and one `sendto`. The rest is the wait for a processor and for the partition's lock: with 1,000 clients `strace`
counts 12,356 calls of `futex` for 22,013 requests. Over 64 partitions 1,000 clients get 100,000 to 109,000 replies a second; they got 59,000 to 75,000 before threads left connections to others.

## Loading, with the first count of everything

![The time to load the rows and count them once, by program](loading.svg)

## Memory a row

A key and a payload take 16 bytes, and a sorted array needs no more. `crackd` also stores the row's cell, its number, and its place in the column or among the
pending rows:

![Bytes per row, by where the row is](memory.svg)

## What each policy moves

Millions of steps in which a row is inserted into the column, deleted from it, evicted, or moved to the next piece. Every run takes the same steps. So does the
column in plain Rust, except under `auto`, which it doesn't have:

![Steps of rows, by policy](moves.svg)

## Where crackd is slower

Each line says how many times as fast the other program is.

{contest_table([it for it in contests if it.ours >= it.theirs], lambda it: it.ours / it.theirs)}

The sorted array is sorted, and SQLite's index is built, before the first count is answered; after that neither cracks anything. A scan reads each row and sorts
nothing; so does SQLite without an index, which ran once. SQLite is called from Python, and its times include that. Counts of
one key are sent to `crackd script`, and include reading lines and writing replies.

## Where it is faster

Each line says how many times as fast `crackd` is.

{contest_table([it for it in contests if it.ours < it.theirs], lambda it: it.theirs / it.ours)}

## Compared with a column and a tree built for speed

The cracker column for speed alone is plain Rust that takes the same steps. It identifies a row by its slot, which a later row may reuse. Pending rows are in
plain vectors, and a bit beside the column says whether a row is doomed. The BTreeMap maps key and number to the payload, and adds up ranges; policies don't
affect it. All get the same inserts, deletes and queries and give the same answers. `crackd` and the column insert, evict, move, pull and delete the same
number of rows. The column has no policy `auto`.

{rival_table(measured.rivals)}

What else `crackd` does, and what it costs:

{rival_text(measured)}

## Loading by statements, by CSV and over TCP

{measured.rows} rows are loaded and then all listed: by a `select`, or by `csv` as records. The client over TCP sends without waiting for replies, and reads at the same
time.

![Rows per second, by way of loading](ways.svg)

{loading_table(measured)}

## Counts after a load

After a load all rows are pending, and the column is empty. Under `ripple` each count merges its rows and evicts those of the count before it, so each scans all
pending rows. One count of everything under `complete` ends this; `auto` starts with one. {measured.ranges} counts of a hundredth of the keys, each at a random place, by
`crackd script`:

{count_table(measured.counts)}

## Beside a Redis sorted set, over TCP

{set_text(measured)}

## Workers

Half of the workers' statements are sums of a hundredth of a partition's keys, a quarter deletes, and a quarter inserts. A gain below 1 means that more workers
answer fewer statements in the same time: workers that share a partition wait for its lock.

![Statements per second, by number of workers](workers.svg)

{worker_table(measured.workers)}

Of 4 clients and of 1,000, with one request each in flight and by turns at one server with four workers, the 1,000 get 1.3 times as many replies in the same time
over 64 partitions, but 0.8 times as many over one, where they wait for its lock (the program compiled without its proof, beside other work, 30 November 2026).
An insert at which a checkpoint is due takes at most 1.1 ms of the server's processor time, with `--limit 65536`.

The workers of a server are gathered by counts, and keep receipts only for an audit.

{audits_table(measured.audits)}
"""
