"""Measures the arena, the column and a partition, compared with plain Rust of the same representation and with other
ways to do the same: cracker columns that keep less, one built for speed alone, a tree, a sorted array, a pass over the
rows."""

import sys

import sizes
from programs import BENCH, PEERS, compare, in_turn, middle_of

# the work of merges, by the names under which it is reported
WORK = ["put_in", "taken_out", "evicted", "moved", "pulled"]

FAST = "a cracker column for speed alone"
# once all rows are in the column, the policy changes nothing
FAST_KIND = "fast-gradual"


def measure_arena(table, runs):
    words = ["arena", str(sizes.STEPS), str(sizes.CELLS)]
    ours, theirs = compare([[BENCH, *words], [PEERS, *words]], runs)
    table.line(f"arena, {sizes.STEPS} puts, gets and frees", middle_of(ours, "steps"), middle_of(theirs, "steps"), 1.5)


def measure_column(table, runs):
    words = ["column", str(sizes.ROWS)]
    ours, theirs = compare([[BENCH, *words], [PEERS, *words]], runs)
    first, later = middle_of(ours, "first"), middle_of(ours, "later")
    table.line(f"first crack of {sizes.ROWS} rows, keys by the arena", first, middle_of(theirs, "first"), 1.5)
    table.line("the same, beside a crack that remembers no key", first, middle_of(theirs, "through"))
    table.line("16 later cracks, over keys that are known", later, middle_of(theirs, "later"), 1.5)


def beside(word, kinds, numbers, runs):
    """Runs a command of `crack_bench` and of plain Rust's kinds of tables. Returns what each reported, ours last."""
    words = [str(number) for number in numbers]
    return compare([[PEERS, word, kind, *words] for kind in kinds] + [[BENCH, word, "gradual", *words]], runs)


def measure_counts(table, runs):
    # kinds that are compared run one after another, and far from the passes over all rows, which disturb what follows
    kinds = ["rows", "inline", "pairs", FAST_KIND, "gradual"]
    rows, inline, pairs, fast, same, ours = beside("counts", kinds, [sizes.PART_ROWS, sizes.RANGES], runs)
    for what, names in (
        (f"{sizes.PART_ROWS} inserts", ["load"]),
        ("a first count of everything", ["everything"]),
        ("both together", ["load", "everything"]),
    ):
        took = middle_of(ours, *names)
        table.line(f"{what}, beside plain Rust", took, middle_of(same, *names), 2.0)
        table.line(f"{what}, beside {FAST}", took, middle_of(fast, *names))
    counts = middle_of(ours, "counts")
    table.line(f"{sizes.RANGES} counts of random ranges, beside plain Rust", counts, middle_of(same, "counts"), 1.5)
    table.line(f"the same, beside {FAST}", counts, middle_of(fast, "counts"))
    table.line("the same, beside a crack of keys and payloads side by side", counts, middle_of(pairs, "counts"), 1.5)
    table.line("the same, beside a cracker column of inline keys", counts, middle_of(inline, "counts"), 3.0)
    table.line("the same, beside a pass over the rows for each", counts, middle_of(rows, "counts"), 0.2)


def measure_sums(table, runs):
    kinds = ["tree", "pairs", FAST_KIND, "gradual"]
    tree, pairs, fast, same, ours = beside("sums", kinds, [sizes.PART_ROWS, sizes.RANGES], runs)
    sums, again = middle_of(ours, "sums"), middle_of(ours, "again")
    table.line(f"{sizes.RANGES} sums of random ranges, beside plain Rust", sums, middle_of(same, "sums"), 1.5)
    table.line(f"the same, beside {FAST}", sums, middle_of(fast, "sums"))
    table.line("the same, beside a crack of keys and payloads side by side", sums, middle_of(pairs, "sums"), 1.8)
    table.line("the same sums again", again, middle_of(pairs, "again"), 4.0)
    table.line(f"the same sums again, beside {FAST}", again, middle_of(fast, "again"))
    table.line("the sums, beside a tree's range sums", sums, middle_of(tree, "sums"), 1.0)


def hold_work(words, ours, fast):
    """Exits if the program and the column built for speed didn't do the same work, step by step."""
    ours, fast = ([it[0][name] for name in WORK] for it in (ours, fast))
    if ours != fast:
        sys.exit(f"{words}: the merges did {ours}, and {FAST} did {fast}")


def by_policy(word, numbers, runs, others=()):
    """Runs a command under each policy. For each it returns its name and what was reported: by ours, by plain Rust with
    the same policy, by the column built for speed, by a tree, and by the others."""
    words = [word, *(str(number) for number in numbers)]
    for policy in sizes.POLICIES:
        kinds = [*others, "tree", f"fast-{policy}", policy]
        *rest, tree, fast, same, ours = compare(
            [[PEERS, word, kind, *words[1:]] for kind in kinds] + [[BENCH, word, policy, *words[1:]]], runs
        )
        hold_work(words, ours, fast)
        yield policy, ours, same, fast, tree, rest


def under_auto(word, numbers, kinds, runs):
    """Runs a command under `auto`, and of plain Rust's kinds of tables. Returns what each reported, ours first."""
    words = [word, *(str(number) for number in numbers)]
    programs = [[PEERS, word, kind, *words[1:]] for kind in kinds]
    *theirs, ours = compare([*programs, [BENCH, word, "auto", *words[1:]]], runs)
    return [ours, *theirs]


def measure_cold(table, runs):
    numbers = [sizes.PART_ROWS, sizes.RANGES]
    for policy, ours, same, fast, tree, [rows] in by_policy("cold", numbers, runs, ["rows"]):
        cold = middle_of(ours, "cold")
        table.line(f"{policy}: {sizes.RANGES} sums, all rows pending, beside plain Rust", cold, middle_of(same, "cold"))
        for other, theirs, bound in (
            (FAST, fast, None),
            ("a tree", tree, None),
            ("a pass for each", rows, 1.0 if policy == "ripple" else None),
        ):
            table.line(f"{policy}: the same, beside {other}", cold, middle_of(theirs, "cold"), bound)
        print(
            "    " + ", ".join(f"{name.replace('_', ' ')} {ours[0][name]}" for name in ("put_in", "evicted", "moved"))
        )
    ours, tree = under_auto("cold", numbers, ["tree"], runs)
    what = f"auto: {sizes.RANGES} sums, all rows pending, beside a tree"
    table.line(what, middle_of(ours, "cold"), middle_of(tree, "cold"))
    through, fast, same, ours = passes(runs)
    alone = middle_of(ours, "pass")
    table.line(
        f"{sizes.RANGES} sums of no row, all rows pending, beside keys by handles",
        alone,
        middle_of(through, "pass"),
        0.3,
    )
    table.line("the same, beside plain Rust", alone, middle_of(same, "pass"))
    table.line(f"the same, beside {FAST}", alone, middle_of(fast, "pass"))


def passes(runs):
    """What sums of no row reported with all rows pending: by handles, by the column built for speed, by plain Rust and
    by ours."""
    words = [str(sizes.PART_ROWS), str(sizes.RANGES)]
    programs = [
        [PEERS, "pass", "through"],
        [PEERS, "pass", "fast-ripple"],
        [PEERS, "pass", "ripple"],
        [BENCH, "pass", "ripple"],
    ]
    return compare([[*program, *words] for program in programs], runs)


def measure_updates(table, runs):
    for batches, size in sizes.BATCHES:
        what = f"{batches} sums, {size} deletes and inserts before each"
        for policy, ours, same, fast, tree, _ in by_policy("updates", [sizes.PART_ROWS, batches, size], runs):
            took = middle_of(ours, "updates")
            table.line(f"{policy}: {what}, beside plain Rust", took, middle_of(same, "updates"), 1.5)
            table.line(f"{policy}: the same, beside {FAST}", took, middle_of(fast, "updates"), 1.5)
            table.line(f"{policy}: the same, beside a tree", took, middle_of(tree, "updates"))
        ours, tree = under_auto("updates", [sizes.PART_ROWS, batches, size], ["tree"], runs)
        table.line(f"auto: {what}, beside a tree", middle_of(ours, "updates"), middle_of(tree, "updates"))
    words = [str(sizes.PART_ROWS), str(sizes.PIECES), str(sizes.PENDING)]
    programs = [[BENCH, "merge", "complete"], [PEERS, "merge", "complete"], [PEERS, "merge", "anew"]]
    ours, same, anew = compare([[*program, *words] for program in programs], runs)
    merge = middle_of(ours, "merge")
    table.line(f"{sizes.PENDING} rows into {sizes.PIECES} pieces, beside plain Rust", merge, middle_of(same, "merge"))
    table.line("the same, beside a search at each step", merge, middle_of(anew, "merge"), 0.2)


def ageing(kinds, runs):
    """What a round of updates with a sum takes in the first and the last tenth of many: of ours, and of plain Rust's
    kinds."""
    reported = under_auto("ageing", [sizes.PART_ROWS, *sizes.AGEING], kinds, runs)
    rounds = sizes.AGEING[0] // 10
    return [[middle_of(it, name) / rounds for name in ("first", "last")] for it in reported]


def orders(kinds, runs):
    """What a sum of a thousandth takes in rising order and at random: of ours, and of plain Rust's kinds."""
    numbers, names = [sizes.PART_ROWS, sizes.RANGES], ("rising", "narrow")
    reported = [under_auto(name, numbers, kinds, runs) for name in names]
    return [[middle_of(it, name) / sizes.RANGES for name, it in zip(names, each)] for each in zip(*reported)]


def measure_ageing(table, runs):
    rounds, size = sizes.AGEING
    (first, last), (tree_first, tree_last) = ageing(["tree"], runs)
    what = f"auto: {size} deletes, {size} inserts and a sum"
    table.line(f"{what}, the last tenth of {rounds} rounds, beside the first", last, first, 1.5)
    table.line(f"{what}, the first tenth, beside a tree", first, tree_first)
    table.line(f"{what}, the last tenth, beside a tree", last, tree_last, 2.5)


def measure_orders(table, runs):
    (rising, narrow), (tree, _) = orders(["tree"], runs)
    what = f"auto: {sizes.RANGES} sums of neighbouring ranges, rising"
    table.line(f"{what}, beside as many at random", rising, narrow, 1.5)
    table.line(f"{what}, beside a tree", rising, tree)


def workloads():
    """The workloads in which policies are compared: what each is, its command, its numbers, and its time's name."""
    rows = sizes.PART_ROWS
    yield f"{sizes.RANGES} sums, all rows pending", "cold", [rows, sizes.RANGES], "cold"
    for batches, size in sizes.BATCHES:
        yield f"{batches} sums, {size} deletes and inserts before each", "updates", [rows, batches, size], "updates"
    batches, size = sizes.BATCHES[0]
    yield f"{batches} rising sums, {size} deletes and inserts before each", "climb", [rows, batches, size], "climb"
    rounds, size = sizes.OLD
    what = f"the last tenth of {rounds} rounds of {size} deletes, {size} inserts and a sum of a thousandth"
    yield what, "ageing", [rows, rounds, size], "last"


def policies(runs):
    """What each workload takes under each policy, in seconds."""
    every = [*sizes.POLICIES, "auto"]
    for what, word, numbers, name in workloads():
        reported = compare([[BENCH, word, policy, *map(str, numbers)] for policy in every], runs)
        yield what, {policy: middle_of(it, name) for policy, it in zip(every, reported)}


def measure_policies(table, runs):
    for what, times in policies(runs):
        best = min(sizes.POLICIES, key=times.get)
        table.line(f"auto: {what}, beside {best}, the best of the others", times["auto"], times[best], 1.1)


# what the steps belong to, the command that takes them, and the name of their number
STEPS = [("a carry", "merge", "moved"), ("a pull", "pulls", "pulled")]


def step_seconds(word, name, runs):
    """What one step takes over many pieces, and what it takes the column built for speed, in seconds."""
    words = [str(sizes.PART_ROWS), str(sizes.STEP_PIECES), str(sizes.STEP_ROWS)]
    ours, fast = compare([[BENCH, word, "complete", *words], [PEERS, word, "fast-complete", *words]], runs)
    hold_work([word, *words], ours, fast)
    return [middle_of(it, word) / ours[0][name] for it in (ours, fast)]


def measure_steps(table, runs):
    for what, word, name in STEPS:
        each, fast = step_seconds(word, name, runs)
        table.step(f"a step of {what} over {sizes.STEP_PIECES} pieces, beside {FAST}", each, fast, 1.3)


def measure_folds(table, runs):
    rows, changes = sizes.PART_ROWS, sizes.CHANGES
    words = [str(rows), str(changes)]
    ours, sorts = compare([[BENCH, "fold", "gradual", *words], [PEERS, "fold", *words]], runs)
    for what, name, bound in (
        (f"a checkpoint of {rows} inserts", "fold", 0.1),
        (f"a checkpoint after {changes} deletes and inserts that mixed these", "mixed_fold", 0.1),
    ):
        fold, copy, sort = middle_of(ours, name), f"{name}_copy", f"{name}_sort"
        table.line(f"{what}, beside a sort", fold, middle_of(sorts, sort), bound)
        table.line("the same, beside a copy that is then sorted", fold, middle_of(sorts, copy, sort))
    for what in ("inserts", "counts"):
        after, before = (middle_of(ours, f"{what}_{when}") for when in ("after", "before"))
        table.line(f"{sizes.NEXT} {what} after a checkpoint, beside as many before it", after, before)


def measure_growth(table, runs):
    for rows in (sizes.PART_ROWS, sizes.MOST_PART_ROWS):
        programs = [
            [program, "counts", "gradual", str(size), "1"] for program in (BENCH, PEERS) for size in (rows // 2, rows)
        ]
        half, whole, same_half, same = (times for _, times in in_turn(programs, runs))
        for what, names in (
            (f"{rows} inserts, beside {rows // 2}", ["load"]),
            ("the same with a first count of everything", ["load", "everything"]),
        ):
            table.line(what, middle_of(whole, *names), middle_of(half, *names), 2.4)
        table.line("the same in plain Rust", middle_of(same, *names), middle_of(same_half, *names))


MEASURES = {
    "arena": [measure_arena],
    "column": [measure_column],
    "partition": [measure_counts, measure_sums],
    "cold": [measure_cold],
    "updates": [measure_updates],
    "ageing": [measure_ageing, measure_orders],
    "policies": [measure_policies],
    "steps": [measure_steps],
    "folds": [measure_folds],
    "growth": [measure_growth],
}
