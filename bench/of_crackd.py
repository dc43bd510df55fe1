"""Measures `crackd`, compared with plain Rust, an echo, or itself at half the size."""

import os
import statistics
import sys
import time

import sizes
from inputs import (
    Batch,
    deletes,
    inserts,
    inserts_and_counts,
    random_insert_lines,
    random_inserts,
    reads,
    records,
    repeated_sums,
    script,
    split_files,
)
from programs import (
    CRACKD,
    PEERS,
    answers,
    echoed,
    fixtures,
    has_valgrind,
    instructions,
    middles,
    over_tcp,
    processor_seconds,
    resident,
    session_seconds,
)

# the least gain of a batch with the most workers over one with one worker, by the least number of processors
BATCH_GAINS = {4: 2.2, 2: 1.4}


def measure_session(table, runs):
    lines = sizes.LINES
    half, whole = inserts(lines), inserts(2 * lines)
    crackd, peer = [CRACKD, "script"], [PEERS, "session"]
    if answers(crackd, whole) != answers(peer, whole):
        sys.exit("crackd and its peer don't answer the same")
    pairs = [(words, source) for source in (half, whole) for words in (crackd, peer)]
    ours_half, theirs_half, ours, theirs = middles(pairs, runs, processor_seconds)
    table.line(f"script of {2 * lines} inserts, beside {lines}", ours, ours_half, 2.2)
    table.line(f"script of {lines} inserts, beside plain Rust", ours_half, theirs_half)
    table.line(f"script of {2 * lines} inserts, beside plain Rust", ours, theirs)


def pipelined(crackd):
    """How long statements take that a client sends over TCP without waiting, in seconds."""
    lines = sizes.LINES
    return over_tcp(crackd, "client", inserts_and_counts(lines), (lines, lines // 2, 0, lines // 2))


def one_by_one(crackd):
    """How long statements over TCP take that each wait for the previous reply, in seconds."""
    turns = sizes.TURNS
    return over_tcp(crackd, "turns", inserts_and_counts(turns), (turns, turns // 2, 0, turns // 2))


def measure_tcp(table, runs):
    lines, turns = sizes.LINES, sizes.TURNS
    crackd, source, nothing = [CRACKD, "script"], inserts_and_counts(lines), script("nothing", [])
    rounds = []
    for _ in range(runs):
        at_once = pipelined(CRACKD)
        alone = session_seconds(crackd, source, time.perf_counter) - session_seconds(crackd, nothing, time.perf_counter)
        rounds.append((at_once, alone, one_by_one(CRACKD), echoed(inserts_and_counts(turns))))
    at_once, alone, each_waits, echo = (statistics.median(times) for times in zip(*rounds))
    table.gain(
        f"statements a millisecond, {lines} over TCP, beside script", lines / at_once / 1000, lines / alone / 1000, 0.7
    )
    table.gain(
        f"round trips a millisecond, {turns}, beside an echo", turns / each_waits / 1000, turns / echo / 1000, 0.8
    )


def is_listed(csv, listing):
    """Whether these records are those of the rows that a select of everything lists, in the same order."""
    rows = listing[listing.index(b"rows ") :].splitlines()[1:]
    return csv == b"".join([b"key,payload\n", *(b",".join(row.split()[1:]) + b"\n" for row in rows)])


def csv_and_script():
    """The arguments and files by which the same rows are loaded and listed: as records, and as statements. Both must
    list the same."""
    given, listed = records(sizes.PART_ROWS)
    csv, same = ([CRACKD, "csv"], given), ([CRACKD, "script"], listed)
    if not is_listed(answers(*csv), answers(*same)):
        sys.exit("csv and script don't write the same rows")
    return csv, same


def measure_csv(table, runs):
    ours, theirs = middles(csv_and_script(), runs, processor_seconds)
    table.line(f"csv of {sizes.PART_ROWS} rows, beside a script of inserts and a select", ours, theirs, 2.0)


def served(batch, workers):
    """What a batch writes for its workers, each of which asks only its own partitions: what a script of its statements
    writes."""
    for worker in range(workers):
        lines = script("served", (line for lines in batch.rounds for line in lines[worker::workers]))
        yield f"worker {worker}\n".encode() + answers([CRACKD, "script", *batch.splits], lines)


def measure_batch(table, runs):
    batch = Batch()
    programs = {workers: batch.words(CRACKD, workers) for workers in sizes.WORKER_COUNTS}
    for workers, words in programs.items():
        if answers(words, batch.source) != b"".join(served(batch, workers)) + batch.totals:
            sys.exit(f"batch --workers {workers} doesn't answer what scripts of the workers' statements do")
    rates = [
        batch.accepted / seconds / 1000
        for seconds in middles([(words, batch.source) for words in programs.values()], runs)
    ]
    processors = len(os.sched_getaffinity(0))
    least = next((gain for count, gain in BATCH_GAINS.items() if processors >= count), None)
    for workers, rate in zip(sizes.WORKER_COUNTS[1:], rates[1:]):
        what = f"statements a millisecond, a batch of {workers} workers on {processors} processors"
        table.gain(what, rate, rates[0], least if workers == sizes.WORKER_COUNTS[-1] else None)


# the lines after the inserts, by where the deleted rows then are
DELETED = {"pending rows": [], "a column of one piece, and a count": [f"count {sizes.EVERYTHING}"]}


def deletes_instructions(crackd, behind):
    """How many instructions deleting half of the rows takes, and deleting all."""
    counts = (0, sizes.DELETES // 2, sizes.DELETES)
    none, half, whole = (instructions([crackd, "script"], deletes(count, behind)) for count in counts)
    return half - none, whole - none


def insert_instructions(crackd, lines):
    """How many instructions an insert takes, from its line to its reply."""
    return instructions([crackd, "script"], random_inserts(lines)) / lines


def sums_instructions(crackd):
    """How many instructions the sums of each hundredth of the keys take, and the same sums again."""
    none, once, twice = (instructions([crackd, "script"], it) for it in repeated_sums())
    return once - none, twice - once


def measure_instructions(table, _runs):
    if not has_valgrind():
        return
    for lines in (sizes.LINES // 2, sizes.PART_ROWS):
        table.count(f"instructions of each of {lines} random inserts", insert_instructions(CRACKD, lines), 800)
    for what, behind in DELETED.items():
        half, whole = deletes_instructions(CRACKD, behind)
        table.numbers(f"instructions of {sizes.DELETES} deletes of {what}, beside half", whole, half, 2.2)
    first, again = sums_instructions(CRACKD)
    table.numbers("instructions of the sums of each hundredth again, beside the first", again, first, 0.2)


def read_instructions(crackd, word):
    """How many instructions a count or a sum between bounds takes, by its word, from its line to its reply."""
    return split_instructions(crackd, [], *reads(word)) / (sizes.LINES // 2)


def split_instructions(crackd, splits, whole, front):
    """How many instructions a file's lines take after those that precede them."""
    words = [crackd, "script", *splits]
    return instructions(words, whole) - instructions(words, front)


def measure_splits(table, _runs):
    if not has_valgrind():
        return
    for what, whole, front in split_files():
        many, none = (split_instructions(CRACKD, splits, whole, front) for splits in (sizes.SPLITS, []))
        table.numbers(f"{what}, {len(sizes.SPLITS)} splits beside none, instructions", many, none, 1.1)


# the lines after the inserts, by where the rows then are, which memory is read, and how many bytes a row may take
HELD = {
    "pending": ([], "VmHWM", 100),
    "in the column": ([f"count {sizes.EVERYTHING}"], "VmRSS", 100),
    "in the column, at the peak of the merge": ([f"count {sizes.EVERYTHING}"], "VmHWM", 160),
    "pending, after a checkpoint": (["checkpoint 0"], "VmRSS", 125),
    "in the column, after a checkpoint": ([f"count {sizes.EVERYTHING}", "checkpoint 0"], "VmRSS", 125),
}


def bytes_a_row(crackd, names=HELD):
    """The memory of each row, by where all rows are."""
    rows, told = random_insert_lines(sizes.PART_ROWS), {}
    for what in names:
        lines, read, _ = HELD[what]
        empty = resident(crackd, script("nothing", []), read)
        told[what] = (resident(crackd, script("rows", [*rows, *lines]), read) - empty) / sizes.PART_ROWS
    return told


def measure_memory(table, _runs):
    for what, each in bytes_a_row(CRACKD).items():
        table.count(f"bytes of each of {sizes.PART_ROWS} rows, {what}", each, HELD[what][-1])


def measure_served(table, _runs):
    early, late = sizes.SERVED
    before, after = fixtures.served_bytes(CRACKD, sizes.SERVED_LIMIT, early, late - early)
    table.numbers(f"bytes of a server after {late} commands, beside after {early}", after, before, 1.05)


MEASURES = {
    "session": [measure_session],
    "tcp": [measure_tcp],
    "csv": [measure_csv],
    "batch": [measure_batch],
    "instructions": [measure_instructions],
    "splits": [measure_splits],
    "memory": [measure_memory],
    "served": [measure_served],
}
