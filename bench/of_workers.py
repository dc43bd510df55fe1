"""Measures workers on threads, compared with plain Rust, bare partitions and each other."""

import sizes
from programs import PEERS, WORKERS, compare, compare_each, has_valgrind, instructions, middle_of


def worker_times(sharing, runs):
    """What each number of workers takes for its steps, and what plain Rust takes."""
    words = [
        [sharing, str(workers), str(sizes.WORKER_ROWS), str(sizes.WORKER_STEPS)] for workers in sizes.WORKER_COUNTS
    ]
    return [[middle_of(it, "work") for it in both] for both in compare_each(WORKERS, words, runs)]


def measure_workers(table, runs):
    for sharing, where in sizes.SHARINGS:
        times = worker_times(sharing, runs)
        for workers, (ours, theirs) in zip(sizes.WORKER_COUNTS, times):
            table.line(f"{workers} workers, {where}, beside plain Rust", ours, theirs)
        for workers, both in zip(sizes.WORKER_COUNTS[1:], times[1:]):
            ours, theirs = (workers * alone / each for alone, each in zip(times[0], both))
            table.gain(f"gain of {workers} workers, {where}", ours, theirs, 0.9 if sharing == "own" else None)


def measure_asking(table, _runs):
    if not has_valgrind():
        return
    rows, most = sizes.WORKER_ROWS, sizes.WORKER_STEPS
    words = [[*WORKERS, name, str(rows), str(steps)] for name in ("ask", "bare") for steps in (most, 0)]
    ask, ask_before, bare, bare_before = (instructions(it) for it in words)
    what = f"instructions of {4 * most} statements, half sums, by a worker"
    table.numbers(f"{what}, beside bare partitions", ask - ask_before, bare - bare_before, 1.25)
    table.numbers(f"instructions of {2 * rows} inserts, the same", ask_before, bare_before, 1.25)


def measure_gathering(table, runs):
    workers, most = sizes.GATHER_WORKERS, sizes.GATHER_ROWS
    words = [str(workers), str(most)]
    ours, folded, theirs = compare(
        [[*WORKERS, "gathered", *words], [*WORKERS, "folded", *words], [PEERS, "copies", *words]], runs
    )
    what = f"gathering {workers} workers with {2 * workers * most} entries"
    table.line(f"{what}, beside copies of both lists", middle_of(ours, "gather"), middle_of(theirs, "copies"), 3.0)
    table.line(
        "the same after a checkpoint of each partition, beside none",
        middle_of(folded, "gather"),
        middle_of(ours, "gather"),
        1.1,
    )
    if has_valgrind():
        both = [[str(workers), str(rows)] for rows in (most // 2, most)]
        half, whole = (
            instructions([*WORKERS, "gathered", *size]) - instructions([*WORKERS, "loaded", *size]) for size in both
        )
        table.numbers(f"{what}, beside half, instructions", whole, half, 2.2)


def asking_times(runs):
    """What an insert and a statement of the steps take a worker with receipts, and one without an audit, in seconds."""
    rows, steps = sizes.WORKER_ROWS, sizes.WORKER_STEPS
    words = ["ask", str(rows), str(steps)]
    both = compare([[*WORKERS, *words], [*WORKERS, "unaudited", *words]], runs)
    parts = {"an insert": ("load", 2 * rows), "a statement, half of them sums": ("work", 4 * steps)}
    return {what: [middle_of(it, name) / count for it in both] for what, (name, count) in parts.items()}


def gathering_times(runs):
    """What gathering takes after this many commands, in seconds: of workers with receipts, whose partitions are then
    dropped, and of those without an audit, before that."""
    workers, times = str(sizes.GATHER_WORKERS), {}
    for rows in sizes.UNAUDITED_ROWS:
        audited, unaudited = compare(
            [[*WORKERS, *kind, "gathered", workers, str(rows)] for kind in ([], ["unaudited"])], runs
        )
        times[2 * sizes.GATHER_WORKERS * rows] = [middle_of(audited, "gather"), middle_of(unaudited, "settle")]
    return times


def measure_unaudited_asking(table, runs):
    for what, (audited, unaudited) in asking_times(runs).items():
        table.step(f"{what}, without an audit, beside a worker with receipts", unaudited, audited, 1.05)


def measure_unaudited_workers(table, runs):
    """How workers without an audit scale, each with its own partitions, compared with those with receipts."""
    words = [["own", str(workers), str(sizes.WORKER_ROWS), str(sizes.WORKER_STEPS)] for workers in sizes.WORKER_COUNTS]
    each = [compare([[*WORKERS, "unaudited", *it], [*WORKERS, *it]], runs) for it in words]
    times = [[middle_of(it, "work") for it in both] for both in each]
    for workers, both in zip(sizes.WORKER_COUNTS[1:], times[1:]):
        ours, theirs = (workers * alone / it for alone, it in zip(times[0], both))
        table.gain(f"gain of {workers} workers without an audit, beside those with receipts", ours, theirs, 0.9)


def measure_unaudited_gathering(table, runs):
    for commands, (_, unaudited) in gathering_times(runs).items():
        table.line(
            f"gathering {sizes.GATHER_WORKERS} unaudited workers after {commands} commands, beside a millisecond",
            unaudited,
            1e-3,
            1.0,
        )


UNAUDITED = [measure_unaudited_asking, measure_unaudited_workers, measure_unaudited_gathering]
MEASURES = {
    "workers": [measure_workers],
    "asking": [measure_asking],
    "gathering": [measure_gathering],
    "unaudited": UNAUDITED,
}
