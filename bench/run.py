#!/usr/bin/env python3
"""Measures the proved programs and others, and compares the ratios with their bounds: run.py [--once] [--small]
[--report] [--before FOLDER] [WHAT ..]

WHAT is session, tcp, latency, crowds, stalls, csv, batch, instructions, splits, memory, served, arena, column,
partition, cold, updates, ageing, policies, steps, folds, growth, workers, asking, gathering, unaudited, python or
shards; without a word, all of them. python and shards are the package's table in the process, if numpy and libcrackd.so
are there; their times also go into docs/PYTHON.md. It needs a quiet machine, rustc, and the programs, which are built:
crackd is proved, if it isn't, and crack_bench compiled. Each number is the median of five runs; with --once of one.
The programs and their peers run in turn, so that all meet the same machine. Instructions are counted by valgrind if it
is installed, and only once, since they are the same each time. It prints a table, and ends with status 1 if a ratio is
above its bound, or a gain below it, or if a program and its peer don't compute the same.

With --before it compares crackd and crack_bench with those of another checkout, FOLDER, whose programs are built: both
in turn, with the same arguments and the same files. It prints the ratio of this checkout's figures to those of FOLDER,
one line each; nothing is bounded. What FOLDER's crack_bench doesn't know is named and skipped, and so is what measures
a server, workers or the package.

With --report it writes docs/BENCHMARKS.md with its plots, and nothing else. It also compares a Redis sorted set, if
`redis-server` is installed.

With --small everything is so small that it only shows whether all runs and gives the same answers, once; a report then
goes to bench/out.
"""

import sys

import before
import contests
import of_bench
import of_crackd
import of_latency
import of_python
import of_workers
import sizes
from programs import OUT, TOP, build
from table import Table

MEASURES = {
    **of_crackd.MEASURES,
    **of_latency.MEASURES,
    **of_bench.MEASURES,
    **of_workers.MEASURES,
    **of_python.MEASURES,
}


def program_of(word):
    """The program that a word runs, if any."""
    if word in of_python.MEASURES:
        return None
    return "crackd" if word in of_crackd.MEASURES or word in of_latency.MEASURES else "crack_bench"


def measure(words, runs):
    """Measures these words. Returns whether all ratios are within their bounds."""
    programs = sorted({program_of(word) for word in words} - {None})
    if programs:
        build(programs)
    table = Table()
    for word in words:
        for it in MEASURES[word]:
            it(table, runs)
    return table.is_well


def measure_before(folder, words, runs):
    """Compares these words with the earlier programs; those that measure a server, workers or the package aren't
    compared."""
    known = [word for word in words if word in before.THINGS]
    earlier = before.earlier(folder)
    build(before.NAMES)
    before.compare_words(known, earlier, runs)
    if known != words:
        left = ", ".join(it for it in words if it not in known)
        print(f"not compared with earlier programs: {left}")


def given(words):
    """The options of a command line, the folder after --before, if any, and what is to be measured."""
    words, folder = list(words), None
    if "--before" in words:
        at = words.index("--before")
        [folder] = words[at + 1 : at + 2] or sys.exit(__doc__)
        del words[at : at + 2]
    options = {word for word in words if word.startswith("--")}
    chosen = [word for word in words if not word.startswith("--")]
    if not options <= {"--once", "--small", "--report"} or any(word not in MEASURES for word in chosen):
        sys.exit(__doc__)
    return options, folder, chosen or list(MEASURES)


def main(words):
    options, folder, wanted = given(words)
    is_small = "--small" in options
    if is_small:
        sizes.shrink()
    runs = 1 if is_small or "--once" in options else 5
    if "--report" in options:
        build(["crackd", "crack_bench"])
        contests.write_report(OUT / "docs" if is_small else TOP / "docs", runs)
    elif folder:
        measure_before(folder, wanted, runs)
    else:
        # at small sizes ratios mean nothing
        return 0 if measure(wanted, runs) or is_small else 1
    return 0


if __name__ == "__main__":
    sys.exit(main(sys.argv[1:]))
