"""Run by of_python.py, by an interpreter that has numpy: python_shards.py ROWS RANGES CALLS RUNS

It loads ROWS rows into a `crackd.Table` with as many shards as processors, and into one with one shard. It asks each
for the counts and the sums of RANGES new ranges, in one call each. Then as many threads as there are processors make
CALLS calls each (counts, sums, inserts and deletes), and one thread makes as many in all. For comparison numpy sorts
the keys and takes the payloads in their order. It prints, as JSON, the least seconds of each step by its name, and the
bytes of memory per row; all must give the same answers.
"""

import json
import os
import pathlib
import sys
import threading
import time

sys.path.insert(0, str(pathlib.Path(__file__).resolve().parent.parent / "python"))

import numpy as np

import crackd

KEYS = 2**32
WIDTH = KEYS // 100


def resident():
    """How many bytes of memory the process holds."""
    return int(pathlib.Path("/proc/self/statm").read_text().split()[1]) * os.sysconf("SC_PAGE_SIZE")


def timed(call, *words):
    begun = time.perf_counter()
    answer = call(*words)
    return answer, time.perf_counter() - begun


def sorted_by_numpy(keys, payloads):
    order = np.argsort(keys)
    return keys[order], payloads[order]


def mixed_calls(table, seed, calls):
    """Makes single calls of each kind by turns; returns what the counts of all keys below a bound gave."""
    rng = np.random.default_rng(seed)
    lows = rng.integers(0, KEYS - WIDTH, calls).tolist()
    own = []
    for at, low in enumerate(lows):
        match at % 4:
            case 0:
                table.count(low, low + WIDTH)
            case 1:
                own.append(table.insert(low, at))
            case 2:
                table.sum(low, low + WIDTH)
            case _:
                table.delete(own.pop())


def side_by_side(table, threads, calls):
    """As many threads make as many calls each."""
    running = [threading.Thread(target=mixed_calls, args=(table, seed, calls)) for seed in range(threads)]
    for it in running:
        it.start()
    for it in running:
        it.join()


def measured(keys, payloads, lows, calls, threads, is_together_first, **shards):
    """The seconds of each step of one table, by name, its answers, and its memory a row. Later calls find more pieces,
    so those of one thread and of several are first by turns."""
    before = resident()
    table, load = timed(lambda: crackd.Table.from_arrays(keys, payloads, **shards))
    memory = (resident() - before) / len(keys)
    counts, counting = timed(table.count_many, lows, lows + WIDTH)
    sums, summing = timed(table.sum_many, lows + WIDTH // 2, lows + WIDTH // 2 + WIDTH)
    seconds = {"load": load, "many": counting + summing}
    single = {"alone": (mixed_calls, table, 100, calls * threads), "together": (side_by_side, table, threads, calls)}
    for name in sorted(single, reverse=is_together_first):
        seconds[name] = timed(*single[name])[1]
    answers = [counts.tolist(), list(sums), len(table)]
    table.close()
    return seconds, answers, memory


def least(runs):
    return {name: min(run[name] for run in runs) for name in runs[0]}


def main(rows, ranges, calls, runs):
    rng = np.random.default_rng(7)
    keys, payloads = rng.integers(0, KEYS, rows), rng.integers(-1000, 1000, rows)
    lows = rng.integers(0, KEYS - 2 * WIDTH, ranges)
    threads = os.cpu_count() or 1
    several, one, numpy_seconds, memory = [], [], [], []
    for run in range(runs):
        numpy_seconds.append(timed(sorted_by_numpy, keys, payloads)[1])
        found = [measured(keys, payloads, lows, calls, threads, run % 2 == 1, **it) for it in ({}, {"shards": 1})]
        if found[0][1] != found[1][1]:
            sys.exit("one shard and several don't answer the same")
        several.append(found[0][0])
        one.append(found[1][0])
        memory.append(found[0][2])
    print(
        json.dumps(
            {
                "version": crackd.version(),
                "threads": threads,
                "several": least(several),
                "one": least(one),
                "numpy": min(numpy_seconds),
                "memory": max(memory),
            }
        )
    )


if __name__ == "__main__":
    main(*map(int, sys.argv[1:]))
