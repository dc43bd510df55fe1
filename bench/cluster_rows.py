"""Measures a table on a Dask cluster, and writes the times into docs/CLUSTER.md: cluster_rows.py [ROWS [RUNS]]

It compares the same rows in a `crackd.cluster.Table` over four worker processes of this machine, in a `crackd.Table` of
one process, and in a dask.dataframe without an index on the same workers. All take turns, and start anew in each run.
It prints the least seconds of each step; all must give the same answers. The page is written only for the number of
rows that it names. It needs numpy, pandas, Dask and libcrackd.so.
"""

import pathlib
import sys
import time

TOP = pathlib.Path(__file__).resolve().parent.parent
sys.path.insert(0, str(TOP / "python"))

import dask
import dask.dataframe as frames
import numpy as np
import pandas as pd
from distributed import Client, LocalCluster

import crackd
from crackd import cluster

PAGE = TOP / "docs" / "CLUSTER.md"
BEGIN, END = "<!-- times: bench/cluster_rows.py -->\n", "<!-- end of times -->\n"
ROWS, RUNS, WORKERS, BLOCKS, KEYS = 8_000_000, 5, 4, 16, 2**32
FEW, MANY, CHANGES = 20, 1000, 1000
WIDTH = KEYS // 100
STEPS = {
    "load": "load from the client",
    "blocks": "load from blocks on the workers",
    "counts": f"{FEW} counts of new ranges of 1 %, in one call",
    "sums": f"{FEW} sums of the same ranges",
    "one": "a sum of another range",
    "many": f"{MANY} sums of new ranges, in one call",
    "changes": f"{CHANGES} updates, deletes and inserts each",
    "after": f"{FEW} sums after them",
}


class OnCluster:
    """A table on the cluster."""

    name = "cluster"

    def __init__(self, client, keys, payloads):
        self.table = cluster.Table(client, keys[:10_000], len(keys))
        self.numbers = self.table.insert_many(keys, payloads)
        self.table.settle()

    def counts(self, lows):
        return self.table.count_many(lows, lows + WIDTH).tolist()

    def sums(self, lows):
        return self.table.sum_many(lows, lows + WIDTH)

    def change(self, keys, payloads, changed, gone, new):
        """Adds 1 to the payloads of some rows, deletes others, and inserts new ones."""
        self.table.update_many(self.numbers[changed], keys[changed], payloads[changed] + 1)
        self.table.delete_many(self.numbers[gone])
        self.table.insert_many(new, np.zeros(len(new), np.int64))

    def close(self):
        self.table.close()


class OneTable(OnCluster):
    """A table of one process."""

    name = "one table"

    def __init__(self, client, keys, payloads):
        self.table = crackd.Table(keys[:10_000], len(keys))
        self.numbers = self.table.insert_many(keys, payloads)
        self.table.settle()


def changed_block(block, changed, gone):
    """A block of a dataframe with changed payloads and without the deleted rows."""
    block = block[~block.number.isin(gone)].copy()
    block.loc[block.number.isin(changed), "payload"] += 1
    return block


class Frame:
    """A dataframe on the cluster, without an index."""

    name = "dask.dataframe"

    def __init__(self, client, keys, payloads):
        whole = pd.DataFrame({"number": np.arange(len(keys)), "key": keys, "payload": payloads})
        self.frame = client.persist(frames.from_pandas(whole, npartitions=BLOCKS).clear_divisions())
        len(self.frame)

    def inside(self, low):
        return (self.frame.key >= int(low)) & (self.frame.key < int(low) + WIDTH)

    def counts(self, lows):
        return [int(it) for it in dask.compute(*(self.inside(low).sum() for low in lows))]

    def sums(self, lows):
        return [int(it) for it in dask.compute(*(self.frame[self.inside(low)].payload.sum() for low in lows))]

    def change(self, keys, payloads, changed, gone, new):
        after = pd.DataFrame(
            {"number": len(keys) + np.arange(len(new)), "key": new, "payload": np.zeros(len(new), np.int64)}
        )
        before = self.frame.map_partitions(changed_block, changed, gone, meta=self.frame._meta)
        self.frame = frames.concat([before, frames.from_pandas(after, npartitions=1).clear_divisions()]).persist()
        len(self.frame)

    def close(self):
        del self.frame


def timed(call, *words):
    begun = time.perf_counter()
    answer = call(*words)
    return answer, time.perf_counter() - begun


def blocks_loaded(client, keys, payloads):
    """The seconds that a load takes of blocks that the workers have."""
    frame = client.persist(frames.from_pandas(pd.DataFrame({"key": keys, "payload": payloads}), npartitions=BLOCKS))
    len(frame)
    table, seconds = timed(cluster.Table.from_dask, client, frame, "key", "payload")
    table.close()
    return seconds


def run_of(kind, client, rows):
    """The seconds of each step, by its name, and all answers."""
    rng = np.random.default_rng(11)
    keys, payloads = rng.integers(0, KEYS, rows), rng.integers(-1000, 1000, rows)
    lows, more, one = (rng.integers(0, KEYS - WIDTH, it) for it in (FEW, MANY, 1))
    seconds = {}
    it, seconds["load"] = timed(kind, client, keys, payloads)
    counts, seconds["counts"] = timed(it.counts, lows)
    sums, seconds["sums"] = timed(it.sums, lows)
    other, seconds["one"] = timed(it.sums, one)
    if kind is not Frame:
        _, seconds["many"] = timed(it.sums, more)
    places = rng.permutation(rows)[: 2 * CHANGES]
    words = places[:CHANGES], places[CHANGES:], rng.integers(0, KEYS, CHANGES)
    _, seconds["changes"] = timed(it.change, keys, payloads, *words)
    after, seconds["after"] = timed(it.sums, lows)
    it.close()
    if kind is OnCluster:
        seconds["blocks"] = blocks_loaded(client, keys, payloads)
    return seconds, [counts, sums, other, after]


def least(client, rows, runs):
    """The least seconds of each step, by kind."""
    found = {}
    for _ in range(runs):
        ran = {kind: run_of(kind, client, rows) for kind in (OnCluster, OneTable, Frame)}
        if any(answers != ran[Frame][1] for _, answers in ran.values()):
            raise SystemExit("not all answer the same")
        for kind, (seconds, _) in ran.items():
            before = found.setdefault(kind.name, seconds)
            found[kind.name] = {name: min(before[name], it) for name, it in seconds.items()}
        print(found, flush=True)
    return found


def shown(seconds):
    if seconds is None:
        return "–"
    return (
        f"{seconds:.1f} s"
        if seconds >= 1
        else f"{seconds * 1e3:.0f} ms"
        if seconds >= 0.01
        else f"{seconds * 1e3:.1f} ms"
    )


def lines_of(found):
    """The table of the page."""
    yield f"| | {' | '.join(found)} |\n|---{'|---' * len(found)}|\n"
    for name, text in STEPS.items():
        yield f"| {text} | {' | '.join(shown(it.get(name)) for it in found.values())} |\n"


def main(rows=ROWS, runs=RUNS):
    with LocalCluster(n_workers=WORKERS, threads_per_worker=1, dashboard_address=None) as workers, Client(
        workers
    ) as client:
        table = "".join(lines_of(least(client, rows, runs)))
    print(table)
    if rows == ROWS:
        before, _, rest = PAGE.read_text(encoding="utf-8").partition(BEGIN)
        PAGE.write_text(before + BEGIN + table + END + rest.partition(END)[2], encoding="utf-8")


if __name__ == "__main__":
    main(*map(int, sys.argv[1:]))
