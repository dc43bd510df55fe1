"""Run by of_python.py, by an interpreter that has numpy: python_rows.py ROWS RANGES RUNS

It compares the same rows in a `crackd.Table`; in numpy arrays that are kept sorted, with prefix sums; in such arrays
that stay unchanged, with late rows beside them; in numpy arrays that are queried by masks; in a pandas frame whose
index has the sorted keys; in a SortedKeyList; and in an SQLite table in memory with an index that covers the queries.
pandas and sortedcontainers are left out if they aren't installed. All are in this process and take turns. It prints, as
JSON, the median seconds of each step by its name, in that order; all must give the same answers.
"""

import json
import operator
import pathlib
import sqlite3
import statistics
import sys
import time

sys.path.insert(0, str(pathlib.Path(__file__).resolve().parent.parent / "python"))

import numpy as np

import crackd

try:
    import pandas as pd
except ImportError:
    pd = None
try:
    from sortedcontainers import SortedKeyList
except ImportError:
    SortedKeyList = None

KEYS, PARTITIONS, BATCH, STEPS, ONE_BY_ONE = 2**32, 64, 10, 100, 1000
WIDTH = KEYS // 100


class Ours:
    """A table in the process."""

    name = "crackd"

    def __init__(self, keys, payloads):
        self.table = crackd.Table.from_arrays(keys, payloads, partitions=PARTITIONS)
        self.numbers = list(self.table.row_numbers)

    def counts(self, lows, highs):
        return self.table.count_many(lows, highs).tolist()

    def sums(self, lows, highs):
        return self.table.sum_many(lows, highs)

    def select(self, low, high):
        return int(self.table.select(low, high).payloads.sum())

    def step(self, keys, payloads, gone, low, high):
        self.table.delete_many([self.numbers[it] for it in gone])
        self.numbers.extend(self.table.insert_many(keys, payloads))
        return self.table.sum(low, high)

    def close(self):
        self.table.close()


class Sorted:
    """Arrays that are kept in the order of their keys, with the sums of their prefixes; a deleted row is found by its
    key and its number."""

    name = "numpy, sorted"

    def __init__(self, keys, payloads):
        self.arrived = list(keys)
        order = np.argsort(keys, kind="stable")
        self.keys, self.payloads, self.numbers = keys[order], payloads[order], order
        self.sum_prefixes()

    def sum_prefixes(self):
        self.prefixes = np.concatenate(([0], np.cumsum(self.payloads)))

    def counts(self, lows, highs):
        return (np.searchsorted(self.keys, highs) - np.searchsorted(self.keys, lows)).tolist()

    def sums(self, lows, highs):
        first, end = np.searchsorted(self.keys, lows), np.searchsorted(self.keys, highs)
        return (self.prefixes[end] - self.prefixes[first]).tolist()

    def select(self, low, high):
        first, end = np.searchsorted(self.keys, (low, high))
        return int(self.payloads[first:end].copy().sum())

    def step(self, keys, payloads, gone, low, high):
        places = [self.place(it) for it in gone]
        self.keys, self.payloads, self.numbers = (
            np.delete(it, places) for it in (self.keys, self.payloads, self.numbers)
        )
        numbers = np.arange(len(self.arrived), len(self.arrived) + len(keys))
        self.arrived.extend(keys)
        order = np.argsort(keys)
        at = np.searchsorted(self.keys, keys[order])
        self.keys = np.insert(self.keys, at, keys[order])
        self.payloads = np.insert(self.payloads, at, payloads[order])
        self.numbers = np.insert(self.numbers, at, numbers[order])
        # one sum needs no prefix sums, so they aren't computed again
        first, end = np.searchsorted(self.keys, (low, high))
        return int(self.payloads[first:end].sum())

    def place(self, number):
        first, end = np.searchsorted(self.keys, self.arrived[number]), np.searchsorted(
            self.keys, self.arrived[number], side="right"
        )
        return first + int(np.flatnonzero(self.numbers[first:end] == number)[0])

    def close(self):
        pass


class Overlay(Sorted):
    """Such arrays that stay as they are, and beside them what was inserted and deleted since: each late row has its key
    and what it adds to a sum, which for a deleted row is the opposite of its payload."""

    name = "numpy, an overlay"

    def __init__(self, keys, payloads):
        super().__init__(keys, payloads)
        self.payload_of = list(payloads)
        self.late_keys, self.late_payloads = keys[:0], payloads[:0]

    def step(self, keys, payloads, gone, low, high):
        gone_keys = np.array([self.arrived[it] for it in gone])
        gone_payloads = np.array([self.payload_of[it] for it in gone])
        self.arrived.extend(keys)
        self.payload_of.extend(payloads)
        self.late_keys = np.concatenate((self.late_keys, gone_keys, keys))
        self.late_payloads = np.concatenate((self.late_payloads, -gone_payloads, payloads))
        first, end = np.searchsorted(self.keys, (low, high))
        late = self.late_payloads[(self.late_keys >= low) & (self.late_keys < high)]
        return int(self.prefixes[end] - self.prefixes[first] + late.sum())


class Masks:
    """Arrays in order of arrival; a deleted row is marked."""

    name = "numpy, masks"

    def __init__(self, keys, payloads):
        self.keys, self.payloads, self.is_there = keys.copy(), payloads.copy(), np.ones(len(keys), bool)

    def inside(self, low, high):
        return (self.keys >= low) & (self.keys < high) & self.is_there

    def counts(self, lows, highs):
        return [int(np.count_nonzero(self.inside(low, high))) for low, high in zip(lows, highs)]

    def sums(self, lows, highs):
        return [int(self.payloads[self.inside(low, high)].sum()) for low, high in zip(lows, highs)]

    def select(self, low, high):
        return int(self.payloads[self.inside(low, high)].sum())

    def step(self, keys, payloads, gone, low, high):
        self.is_there[gone] = False
        self.keys, self.payloads = np.append(self.keys, keys), np.append(self.payloads, payloads)
        self.is_there = np.append(self.is_there, np.ones(len(keys), bool))
        return int(self.payloads[self.inside(low, high)].sum())

    def close(self):
        pass


class Frame:
    """A frame of pandas whose index has the keys in order, with row numbers and payloads."""

    name = "pandas, a sorted index"

    def __init__(self, keys, payloads):
        self.count = 0
        self.frame = self.numbered(keys, payloads).sort_index()

    def numbered(self, keys, payloads):
        numbers = np.arange(self.count, self.count + len(keys))
        self.count += len(keys)
        return pd.DataFrame({"number": numbers, "payload": payloads}, index=keys)

    def counts(self, lows, highs):
        index = self.frame.index
        return (index.searchsorted(highs) - index.searchsorted(lows)).tolist()

    def sums(self, lows, highs):
        index, payloads = self.frame.index, self.frame["payload"]
        bounds = zip(index.searchsorted(lows), index.searchsorted(highs))
        return [int(payloads.iloc[first:end].sum()) for first, end in bounds]

    def select(self, low, high):
        first, end = self.frame.index.searchsorted([low, high])
        return int(self.frame.iloc[first:end]["payload"].sum())

    def step(self, keys, payloads, gone, low, high):
        left = self.frame[~self.frame["number"].isin(gone)]
        self.frame = pd.concat([left, self.numbered(keys, payloads)]).sort_index()
        return self.sums([low], [high])[0]

    def close(self):
        pass


class Keyed:
    """A SortedKeyList of keys, row numbers and payloads."""

    name = "a SortedKeyList"

    def __init__(self, keys, payloads):
        self.arrived = []
        self.rows = SortedKeyList(self.numbered(keys, payloads), key=operator.itemgetter(0))

    def numbered(self, keys, payloads):
        first = len(self.arrived)
        self.arrived += zip(keys.tolist(), range(first, first + len(keys)), payloads.tolist())
        return self.arrived[first:]

    def counts(self, lows, highs):
        place = self.rows.bisect_key_left
        return [place(high) - place(low) for low, high in zip(lows.tolist(), highs.tolist())]

    def sums(self, lows, highs):
        within = zip(lows.tolist(), highs.tolist())
        return [sum(row[2] for row in self.rows.irange_key(low, high, (True, False))) for low, high in within]

    def select(self, low, high):
        return sum(row[2] for row in list(self.rows.irange_key(low, high, (True, False))))

    def step(self, keys, payloads, gone, low, high):
        for it in gone:
            self.rows.remove(self.arrived[it])
        self.rows.update(self.numbered(keys, payloads))
        return sum(row[2] for row in self.rows.irange_key(low, high, (True, False)))

    def close(self):
        pass


class Sqlite:
    """A table of SQLite in memory, with an index that has all that counts and sums read."""

    name = "SQLite, a covering index"

    def __init__(self, keys, payloads):
        self.base = sqlite3.connect(":memory:")
        self.base.execute("create table rows (number integer primary key, key integer, payload integer)")
        self.base.execute("create index by_key on rows (key, payload)")
        self.count = 0
        self.insert(keys, payloads)

    def insert(self, keys, payloads):
        numbers = range(self.count, self.count + len(keys))
        self.base.executemany("insert into rows values (?, ?, ?)", zip(numbers, keys.tolist(), payloads.tolist()))
        self.count += len(keys)

    def one(self, what, low, high):
        return (
            self.base.execute(f"select {what} from rows where key >= ? and key < ?", (int(low), int(high))).fetchone()[
                0
            ]
            or 0
        )

    def counts(self, lows, highs):
        return [self.one("count(*)", low, high) for low, high in zip(lows, highs)]

    def sums(self, lows, highs):
        return [self.one("sum(payload)", low, high) for low, high in zip(lows, highs)]

    def select(self, low, high):
        rows = self.base.execute(
            "select number, key, payload from rows where key >= ? and key < ?", (int(low), int(high))
        ).fetchall()
        return sum(row[2] for row in rows)

    def step(self, keys, payloads, gone, low, high):
        self.base.executemany("delete from rows where number = ?", [(int(it),) for it in gone])
        self.insert(keys, payloads)
        return self.one("sum(payload)", low, high)

    def close(self):
        self.base.close()


KINDS = [Ours, Sorted, Overlay, Masks, *[Frame] * bool(pd), *[Keyed] * bool(SortedKeyList), Sqlite]


def timed(call, *words):
    begun = time.perf_counter()
    answer = call(*words)
    return answer, time.perf_counter() - begun


def warm_counts(table, lows, highs):
    """The seconds of a count of a range that was asked before, one by one and all in one call."""
    pairs = list(zip(lows.tolist(), highs.tolist()))
    one_by_one = timed(lambda: [table.count(low, high) for low, high in pairs])[1]
    return one_by_one / len(pairs), timed(table.count_many, lows, highs)[1] / len(pairs)


def run_of(kind, rows, ranges):
    """The seconds of each step, by its name, and all answers."""
    rng = np.random.default_rng(11)
    keys, payloads = rng.integers(0, KEYS, rows), rng.integers(-1000, 1000, rows)
    lows = rng.integers(0, KEYS - WIDTH, ranges)
    others = rng.integers(0, KEYS - WIDTH, ranges)
    seconds, answers = {}, []
    it, seconds["load"] = timed(kind, keys, payloads)
    steps = [
        ("counts", it.counts, lows, lows + WIDTH),
        ("counts again", it.counts, lows, lows + WIDTH),
        ("sums", it.sums, others, others + WIDTH),
    ]
    for name, call, *words in steps:
        answer, seconds[name] = timed(call, *words)
        answers.append(answer)
    selected = [timed(it.select, low, low + WIDTH) for low in lows[:20]]
    seconds["select"] = statistics.median(second for _, second in selected)
    answers.append([answer for answer, _ in selected])
    if kind is Ours:
        seconds["warm count"], seconds["warm count of many"] = warm_counts(it.table, lows, lows + WIDTH)
    taken = []
    for at in range(STEPS):
        new, gone, low = (
            rng.integers(0, KEYS, BATCH),
            np.arange(at * BATCH, (at + 1) * BATCH),
            rng.integers(0, KEYS - WIDTH),
        )
        answer, second = timed(it.step, new, new % 1000, gone, low, low + WIDTH)
        answers.append(answer)
        taken.append(second)
    seconds["step"] = statistics.mean(taken)
    it.close()
    return seconds, answers


def main(rows, ranges, runs):
    rounds = []
    for _ in range(runs):
        ran = [run_of(kind, rows, ranges) for kind in KINDS]
        if any(answers != ran[0][1] for _, answers in ran):
            sys.exit("crackd and the others don't answer the same")
        rounds.append([seconds for seconds, _ in ran])
    medians = {}
    for at, kind in enumerate(KINDS):
        medians[kind.name] = {name: statistics.median(it[at][name] for it in rounds) for name in rounds[0][at]}
    print(json.dumps({"version": crackd.version(), "seconds": medians}))


if __name__ == "__main__":
    main(*map(int, sys.argv[1:]))
