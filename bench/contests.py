"""Measures what docs/BENCHMARKS.md reports."""

import random
import statistics
import subprocess
import sys

import of_bench
import report
import sizes
import sorted_set
from inputs import random_counts, random_insert_lines, script
from of_crackd import bytes_a_row, csv_and_script
from of_workers import asking_times, gathering_times, worker_times
from programs import BENCH, CRACKD, PEERS, answers, compare, middle_of, middles, over_tcp, rounds


def loading(runs):
    """How long each way takes to load rows and to list all of them, in seconds."""
    csv, listed = csv_and_script()
    by_csv, by_script = middles([csv, listed], runs)
    totals = (sizes.PART_ROWS + 1, sizes.PART_ROWS, 0, sizes.PART_ROWS)
    by_tcp = statistics.median(over_tcp(CRACKD, "client", listed[1], totals) for _ in range(runs))
    return {"script": by_script, "csv": by_csv, "one client over TCP": by_tcp}


def counts_after_a_load(runs):
    """How long the load takes, the warm-up after it, and each count at once and after the warm-up, in seconds."""
    lines, counts = random_insert_lines(sizes.PART_ROWS), random_counts(sizes.RANGES)
    warm_up = ["policy complete", f"count {sizes.EVERYTHING}", "policy ripple"]
    given = {
        "load": [],
        "cold": counts,
        "warmed": warm_up,
        "warm": [*warm_up, *counts],
        "again": [*warm_up, *counts, *(counts * sizes.REPEATS)],
    }
    pairs = [([CRACKD, "script"], script(f"after-a-load-{name}", [*lines, *more])) for name, more in given.items()]

    def differences(load, cold, warmed, warm, again):
        each = {"cold": cold - load, "warm": warm - warmed, "again": (again - warm) / sizes.REPEATS}
        whole = {"load": load, "warm-up": warmed - load}
        return {**whole, **{name: seconds / sizes.RANGES for name, seconds in each.items()}}

    found = [differences(*times) for times in rounds(pairs, runs)]
    return {name: statistics.median(it[name] for it in found) for name in found[0]}


def worker_rates(runs):
    """For each way of sharing, how many statements a second each number of workers answers, and plain Rust's."""
    told = {}
    for sharing, where in sizes.SHARINGS:
        done = [4 * sizes.WORKER_STEPS * workers for workers in sizes.WORKER_COUNTS]
        times = worker_times(sharing, runs)
        told[where] = [
            (workers, count / ours, count / theirs)
            for workers, count, (ours, theirs) in zip(sizes.WORKER_COUNTS, done, times)
        ]
    return told


def lookup_contest(runs):
    """A count of the rows of one key, compared with SQLite's by an index."""
    lookups, lines = sizes.LOOKUPS, random_insert_lines(sizes.PART_ROWS)
    rows = [tuple(int(number) for number in line.split()[1:]) for line in lines]
    keys = [key for key, _ in random.Random(3).choices(rows, k=lookups)]
    front, counts = [*lines, f"count {sizes.EVERYTHING}"], [f"count {key} {key + 1}" for key in keys]
    crackd, source = [CRACKD, "script"], script("whole", [*front, *counts])
    times = rounds([(crackd, script("front", front)), (crackd, source)], runs)
    ours = statistics.median(whole - before for before, whole in times)
    theirs, wanted = report.sqlite_lookups(rows, keys, runs)
    if answers(crackd, source).split()[-2 * lookups + 1 :: 2] != [str(count).encode() for count in wanted]:
        sys.exit("crackd and SQLite don't count the same")
    return report.Contest(
        f"each of {lookups} counts of one key", ours / lookups, "SQLite with an index", theirs / lookups
    )


def count_contests(runs):
    """Counts of random ranges, compared with a cracker column in plain Rust, and with a pass over the rows for each."""
    rows, inline, ours = of_bench.beside("counts", ["rows", "inline"], [sizes.PART_ROWS, sizes.RANGES], runs)
    counts, what = middle_of(ours, "counts"), f"{sizes.RANGES} counts of random ranges"
    others = (("a cracker column of keys alone, in plain Rust", inline), ("a pass over the rows for each", rows))
    return [report.Contest(what, counts, other, middle_of(theirs, "counts")) for other, theirs in others]


def rivalry(what, name, ours, fast, tree):
    """One figure of each, in seconds."""
    return report.Rivalry(what, *(middle_of(it, name) for it in (ours, fast, tree)))


def query_rivalries(runs):
    """Loading, counts and sums with nothing pending, by the names under which they are reported."""
    told = {}
    for word in ("counts", "sums"):
        tree, fast, ours = of_bench.beside(word, ["tree", of_bench.FAST_KIND], [sizes.PART_ROWS, sizes.RANGES], runs)
        names = {
            "load": f"{sizes.PART_ROWS} inserts",
            "everything": "a first count of everything",
            word: f"{sizes.RANGES} {word} of random ranges",
            "again": "the same sums again",
        }
        told.update({name: rivalry(what, name, ours, fast, tree) for name, what in names.items() if name in ours[0]})
    return told


def merge_rivalries(runs):
    """What merges cost under each policy: with all rows pending, and with deletes and inserts before each sum."""
    words = [("cold", [sizes.RANGES], f"{sizes.RANGES} sums, all rows pending")]
    for batches, size in sizes.BATCHES:
        words.append(("updates", [batches, size], f"{batches} sums, {size} deletes and inserts before each"))
    for word, numbers, what in words:
        for policy, ours, _, fast, tree, _ in of_bench.by_policy(word, [sizes.PART_ROWS, *numbers], runs):
            yield rivalry(f"{policy}: {what}", word, ours, fast, tree)
        ours, tree = of_bench.under_auto(word, [sizes.PART_ROWS, *numbers], ["tree"], runs)
        yield report.Rivalry(f"auto: {what}", middle_of(ours, word), None, middle_of(tree, word))


RIVALS = {"a BTreeMap": "tree", "a sorted array and late rows": "overlay"}
SQLITE = "SQLite, a covering index"


def between_updates(runs):
    """What a sum takes with the changes before it, by `crackd` under `auto` and by others."""
    rivals = {**RIVALS, "a sorted array, built anew": "rebuilt"}
    for batches, size in sizes.BATCHES:
        numbers = [sizes.PART_ROWS, batches, size]
        reported = of_bench.under_auto("updates", numbers, rivals.values(), runs)
        times = {name: middle_of(it, "updates") / batches for name, it in zip(["crackd", *rivals], reported)}
        if report.sqlite3:
            times[SQLITE] = statistics.mean(sqlite_rounds("updates", numbers, report.RANGE))
        yield report.Between(f"a sum after {size} deletes and {size} inserts", times)


def sqlite_rounds(word, numbers, width):
    """What SQLite takes for each round, in seconds, measured once. Its answers must be the tree's."""
    seconds, told = report.sqlite_rounds(*numbers, width, word == "rising")
    words = [word, "tree", *map(str, numbers if numbers[2] else numbers[:2])]
    wrote = subprocess.run([PEERS, *words], capture_output=True, text=True, check=True).stdout
    if wrote.splitlines()[-1] != f"{word} {told}":
        sys.exit(f"{words}: SQLite doesn't answer the same")
    return seconds


def ages(runs):
    """What a round takes at first and in the end, and a sum in rising order and at random."""
    ends, orders = of_bench.ageing(RIVALS.values(), runs), of_bench.orders(RIVALS.values(), runs)
    texts = ("a round at first", "a round in the end", "a sum in rising order", "a sum at a random place")
    times = [dict(zip(["crackd", *RIVALS], it)) for it in (*zip(*ends), *zip(*orders))]
    if report.sqlite3:
        tenth = sizes.AGEING[0] // 10
        rounds = sqlite_rounds("ageing", [sizes.PART_ROWS, *sizes.AGEING], report.NARROW_RANGE)
        numbers = [sizes.PART_ROWS, sizes.RANGES, 0]
        rising = sqlite_rounds("rising", numbers, report.KEYS // sizes.RANGES)
        narrow = sqlite_rounds("narrow", numbers, report.NARROW_RANGE)
        for it, seconds in zip(times, (rounds[:tenth], rounds[-tenth:], rising, narrow)):
            it[SQLITE] = statistics.mean(seconds)
    return [report.Between(text, it) for text, it in zip(texts, times)]


def pass_rivalry(runs):
    words = [str(sizes.PART_ROWS), str(sizes.RANGES)]
    programs = [[PEERS, "pass", "tree"], [PEERS, "pass", "fast-ripple"], [BENCH, "pass", "ripple"]]
    tree, fast, ours = compare([[*program, *words] for program in programs], runs)
    return rivalry(f"{sizes.RANGES} sums of no row, all rows pending", "pass", ours, fast, tree)


def step_rivalries(runs):
    """What one step takes; a tree takes no such steps."""
    for what, word, name in of_bench.STEPS:
        ours, fast = of_bench.step_seconds(word, name, runs)
        yield report.Rivalry(f"a step of {what} over {sizes.STEP_PIECES} pieces", ours, fast, None)


def rivals(runs):
    queries = query_rivalries(runs)
    merges = [*merge_rivalries(runs), pass_rivalry(runs)]
    return report.Rivals(queries, merges, list(step_rivalries(runs)))


def set_contests(runs):
    """The times of requests over TCP to `crackd serve` and to a Redis sorted set; nothing if there is no Redis."""
    names = {
        "load": (f"{sizes.PART_ROWS} inserts", 1),
        "cold": ("each count at once, all rows pending, under `ripple`", sizes.RANGES),
        "warm-up": ("`policy complete`, a count of everything, and `policy ripple`", 1),
        "warm": ("each count after that", sizes.RANGES),
        "again": ("each of the same counts again", sizes.RANGES * sizes.SET_REPEATS),
        "turns": ("a round trip of one of them", sizes.TURNS),
        "updates": (f"{sorted_set.BATCH} inserts, {sorted_set.BATCH} deletes and a count", sizes.RANGES),
    }
    times = sorted_set.measured(runs)
    both = ((what, [it / many for it in times[name]]) for name, (what, many) in names.items() if times)
    return [report.Contest(what, ours, "a Redis sorted set", theirs) for what, (ours, theirs) in both]


def steps(policy, words):
    """How many rows a run of merges inserted, deleted, evicted, moved and pulled, in millions: the same in each run."""
    ran = subprocess.run([BENCH, words[0], policy, *map(str, words[1:])], capture_output=True, text=True, check=True)
    counted = dict(line.split() for line in ran.stderr.splitlines())
    return sum(int(counted[name]) for name in of_bench.WORK) / 1e6


def moves():
    """The steps that rows take under each policy: while all rows are pending, and with deletes and inserts before each
    sum."""
    words = {
        f"{sizes.RANGES} sums, all rows pending": ["cold", sizes.PART_ROWS, sizes.RANGES],
        f"{sizes.RANGES} sums, 10 deletes and inserts before each": ["updates", sizes.PART_ROWS, sizes.RANGES, 10],
    }
    every = [*sizes.POLICIES, "auto"]
    return {what: {name: steps(name, it) for name in every} for what, it in words.items()}


def write_report(folder, runs):
    """Measures what the page reports, and writes it with its plots into the folder."""
    contests = [*count_contests(runs), *([lookup_contest(runs)] if report.sqlite3 else [])]
    workers = (worker_rates(runs), (asking_times(runs), gathering_times(runs)))
    measured = (
        bytes_a_row(CRACKD),
        moves(),
        loading(runs),
        counts_after_a_load(runs),
        *workers,
        contests,
        rivals(runs),
        set_contests(runs),
        list(between_updates(runs)),
        ages(runs),
    )
    report.write(folder, BENCH, PEERS, report.Measured(sizes.PART_ROWS, sizes.RANGES, runs, *measured))
