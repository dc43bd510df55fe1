"""Compares the programs with those of an earlier commit, run in turn with the same arguments and the same files. Both
must give the same answers."""

import dataclasses
import pathlib
import statistics
import subprocess
import sys
import time
import typing

import sizes
from inputs import Batch, inserts, random_inserts, records, split_files
from of_bench import STEPS
from of_crackd import (
    DELETED,
    bytes_a_row,
    deletes_instructions,
    insert_instructions,
    one_by_one,
    pipelined,
    read_instructions,
    split_instructions,
)
from programs import OURS, Programs, answers, has_valgrind, processor_seconds, session_seconds, timed
from table import WIDTH

NAMES = ["crackd", "crack_bench"]

# the divisor of figures for each unit; times are measured in nanoseconds
UNITS = {"ms": 1e6, "M": 1e6, "": 1}


@dataclasses.dataclass
class Thing:
    """What is measured in one run."""

    # the reported lines, each with the names of the figures whose sum it is
    lines: list
    # measures programs once; returns what they wrote, if that must be the same, and their figures by name
    measure: typing.Callable
    unit: str = "ms"
    # whether the figures are the same each time
    is_exact: bool = False
    # returns what programs answer, if that is compared only once
    answer: typing.Callable = None
    # arguments with which crack_bench ends soon, if it knows them
    probe: list = None


def of_bench(lines, *words):
    """What `crack_bench` reports for these arguments, the last of which are numbers."""
    words = [str(word) for word in words]
    probe = ["1" if word.isdecimal() else word for word in words]
    return Thing(lines, lambda programs: timed([programs.bench, *words]), probe=probe)


def of_session(what, words_of, source, clock=processor_seconds):
    """How long a program takes to answer a file, with the arguments for it."""

    def measure(programs):
        return None, {"time": session_seconds(words_of(programs), source, clock) * 1e9}

    return Thing([(what, ["time"])], measure, answer=lambda programs: answers(words_of(programs), source))


def of_function(what, unit, figure, is_exact=False):
    """A figure that a function computes from the programs."""
    return Thing([(what, ["figure"])], lambda programs: (None, {"figure": figure(programs)}), unit, is_exact)


def by_script(programs):
    return [programs.crackd, "script"]


def session():
    for lines in (sizes.LINES, 2 * sizes.LINES):
        yield of_session(f"script of {lines} inserts", by_script, inserts(lines))
    yield of_session(f"script of {sizes.PART_ROWS} random inserts", by_script, random_inserts(sizes.PART_ROWS))


def tcp():
    yield of_function(
        f"{sizes.LINES} statements over TCP, sent at once", "ms", lambda programs: pipelined(programs.crackd) * 1e9
    )
    yield of_function(
        f"{sizes.TURNS} statements over TCP, one by one", "ms", lambda programs: one_by_one(programs.crackd) * 1e9
    )


def csv():
    given, listed = records(sizes.PART_ROWS)
    yield of_session(
        f"csv of {sizes.PART_ROWS} rows, with its export", lambda programs: [programs.crackd, "csv"], given
    )
    yield of_session(f"script of {sizes.PART_ROWS} inserts and a select", by_script, listed)


def batch():
    it = Batch()
    for workers in sizes.WORKER_COUNTS:
        what = f"a batch of {it.accepted} statements, workers: {workers}"
        yield of_session(
            what, lambda programs, workers=workers: it.words(programs.crackd, workers), it.source, time.perf_counter
        )


def instructions():
    for lines in (sizes.LINES // 2, sizes.PART_ROWS):
        what = f"instructions of each of {lines} random inserts"
        yield of_function(what, "", lambda programs, lines=lines: insert_instructions(programs.crackd, lines), True)
    for word in ("count", "sum"):
        what = f"instructions of each of {sizes.LINES // 2} {word}s between bounds"
        yield of_function(what, "", lambda programs, word=word: read_instructions(programs.crackd, word), True)
    for where, behind in DELETED.items():
        what = f"instructions of {sizes.DELETES} deletes of {where}"
        yield of_function(
            what, "M", lambda programs, behind=behind: deletes_instructions(programs.crackd, behind)[1], True
        )


def splits():
    for what, whole, front in split_files():
        told = f"{what}, {len(sizes.SPLITS)} splits, instructions"
        files = (whole, front)
        yield of_function(
            told, "M", lambda programs, files=files: split_instructions(programs.crackd, sizes.SPLITS, *files), True
        )


def memory():
    names = ["pending", "in the column"]
    lines = [(f"bytes of each of {sizes.PART_ROWS} rows, {name}", [name]) for name in names]
    yield Thing(lines, lambda programs: (None, bytes_a_row(programs.crackd, names)), "")


def arena():
    yield of_bench([(f"arena, {sizes.STEPS} puts, gets and frees", ["steps"])], "arena", sizes.STEPS, sizes.CELLS)


def column():
    lines = [
        (f"first crack of {sizes.ROWS} rows, keys by the arena", ["first"]),
        ("16 later cracks, over keys that are known", ["later"]),
    ]
    yield of_bench(lines, "column", sizes.ROWS)


def partition():
    loaded = [(f"{sizes.PART_ROWS} inserts in a partition", ["load"]), ("a first count of everything", ["everything"])]
    counts = (f"{sizes.RANGES} counts of random ranges", ["counts"])
    yield of_bench([*loaded, counts], "counts", "gradual", sizes.PART_ROWS, sizes.RANGES)
    sums = [(f"{sizes.RANGES} sums of random ranges", ["sums"]), ("the same sums again", ["again"])]
    yield of_bench(sums, "sums", "gradual", sizes.PART_ROWS, sizes.RANGES)


def cold():
    for policy in sizes.POLICIES:
        lines = [(f"{policy}: {sizes.RANGES} sums, all rows pending", ["cold"])]
        yield of_bench(lines, "cold", policy, sizes.PART_ROWS, sizes.RANGES)
    lines = [(f"{sizes.RANGES} sums of no row, {sizes.PART_ROWS} rows pending", ["pass"])]
    yield of_bench(lines, "pass", "ripple", sizes.PART_ROWS, sizes.RANGES)


def updates():
    for batches, size in sizes.BATCHES:
        for policy in sizes.POLICIES:
            lines = [(f"{policy}: {batches} sums, {size} deletes and inserts before each", ["updates"])]
            yield of_bench(lines, "updates", policy, sizes.PART_ROWS, batches, size)


def steps():
    for what, word, _ in STEPS:
        lines = [(f"{sizes.STEP_ROWS} rows, each by {what} over {sizes.STEP_PIECES} pieces", [word])]
        yield of_bench(lines, word, "complete", sizes.PART_ROWS, sizes.STEP_PIECES, sizes.STEP_ROWS)


def folds():
    lines = [
        (f"a checkpoint of {sizes.PART_ROWS} inserts", ["fold"]),
        (f"the same after {sizes.CHANGES} deletes and inserts", ["mixed_fold"]),
    ]
    yield of_bench(lines, "fold", "gradual", sizes.PART_ROWS, sizes.CHANGES)


def growth():
    rows = sizes.MOST_PART_ROWS
    lines = [(f"{rows} inserts in a partition", ["load"]), ("a first count of everything", ["everything"])]
    yield of_bench(lines, "counts", "gradual", rows, 1)


OF_CRACKD = (session, tcp, csv, batch, instructions, splits, memory)
OF_BENCH = (arena, column, partition, cold, updates, steps, folds, growth)
THINGS = {it.__name__: it for it in (*OF_CRACKD, *OF_BENCH)}

# what valgrind counts
COUNTED = {"instructions", "splits"}


def earlier(folder):
    """The programs of another checkout, which must be built there."""
    programs = Programs(pathlib.Path(folder).resolve())
    missing = [str(programs.path(name)) for name in NAMES if not programs.path(name).is_file()]
    if missing:
        how = "run `python3 tools/prove.py crackd` and `python3 tools/build.py bench` there"
        sys.exit(f"--before {folder}: its programs aren't built ({how}): {', '.join(missing)} missing")
    return programs


def knows(programs, probe):
    return subprocess.run([programs.bench, *probe], capture_output=True, check=False).returncode == 0


def line(what, unit, ours, before):
    shown = (f"{figure / UNITS[unit]:12.2f} {unit:2}" for figure in (ours, before))
    print(f"{what:{WIDTH}} {' '.join(shown)} {ours / before:7.3f}", flush=True)


def differ(thing):
    sys.exit(f"{thing.lines[0][0]}: the earlier program doesn't answer the same")


def compare_thing(thing, before, runs):
    """Measures both in turn, and prints the medians and the ratio of ours to the earlier ones, one line each."""
    if thing.answer and thing.answer(before) != thing.answer(OURS):
        differ(thing)
    rounds = [[thing.measure(programs) for programs in (before, OURS)] for _ in range(1 if thing.is_exact else runs)]
    if len({wrote for both in rounds for wrote, _ in both}) > 1:
        differ(thing)
    for what, names in thing.lines:
        sums = ([sum(figures[name] for name in names) for _, figures in both] for both in rounds)
        was, ours = (statistics.median(figures) for figures in zip(*sums))
        line(what, thing.unit, ours, was)


def compare_words(words, before, runs):
    print(f"{'what':{WIDTH}} {'measured':>15} {'before':>15} {'ratio':>7}")
    for word in words:
        if word in COUNTED and not has_valgrind():
            continue
        for thing in THINGS[word]():
            if thing.probe and not knows(before, thing.probe):
                print(
                    f"{thing.lines[0][0]}: the earlier crack_bench doesn't know `{thing.probe[0]}`, so it is skipped",
                    flush=True,
                )
                continue
            compare_thing(thing, before, runs)
