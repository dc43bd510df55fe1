"""Measures the Python package: a table in the process, compared with arrays of numpy and SQLite in the same process."""

import json
import os
import subprocess
import sys

import sizes
from programs import TOP

sys.path.insert(0, str(TOP / "acceptance"))
import package  # finds an interpreter that has numpy

LIBRARY = TOP / "python" / "crackd" / "libcrackd.so"
PAGE = TOP / "docs" / "PYTHON.md"
BEGIN, END = "<!-- times: bench/run.py python -->\n", "<!-- end of times -->\n"
SHARDS_BEGIN, SHARDS_END = "<!-- shards: bench/run.py shards -->\n", "<!-- end of shards -->\n"
SORTED, MASKS, SQLITE = "numpy, sorted", "numpy, masks", "SQLite, a covering index"
# the text that is reported for each step, by its name
STEPS = {
    "load": "load, in order where there is one",
    "counts": "{ranges} counts of new ranges of 1 %",
    "counts again": "the same again",
    "sums": "{ranges} sums of other ranges",
    "select": "a select of {selected} rows",
    "step": "10 deletes, 10 inserts and a sum",
}
# bounds of ratios: a step, what it is compared with, and the greatest ratio
RATIOS = [("load", SQLITE, 0.35), ("step", SORTED, 0.12), ("counts", MASKS, 0.03)]
# bounds in nanoseconds
MOST = [
    ("warm count", "a count of a range that was asked before, nanoseconds", 6000),
    ("warm count of many", "the same, many in a call", 2500),
    ("select", "a select of {selected} rows, nanoseconds", 450_000),
]


def told(text):
    return text.format(ranges=sizes.RANGES, selected=sizes.PART_ROWS // 100)


def milliseconds(seconds):
    number = seconds * 1e3
    return (
        f"{number:.0f}"
        if number >= 100
        else f"{number:.1f}"
        if number >= 10
        else f"{number:.2f}"
        if number >= 0.1
        else f"{number:.3f}"
    )


def lines_of(seconds):
    """The table of docs/PYTHON.md."""
    yield f"| Milliseconds, {sizes.PART_ROWS} rows | {' | '.join(seconds)} |\n"
    yield "|---" * (len(seconds) + 1) + "|\n"
    for name, text in STEPS.items():
        yield f"| {told(text)} | {' | '.join(milliseconds(it[name]) for it in seconds.values())} |\n"


def write_page(begin, lines, end):
    """Puts a table into docs/PYTHON.md, in place of the one between these lines."""
    before, _, rest = PAGE.read_text(encoding="utf-8").partition(begin)
    after = rest.partition(end)[2]
    PAGE.write_text(before + begin + "".join(lines) + end + after, encoding="utf-8")


def is_missing():
    """Whether the package can't be measured here. Prints why."""
    if not LIBRARY.exists() and "CRACKD_LIBRARY" not in os.environ:
        print("libcrackd.so isn't built (`make lib`): the package isn't measured")
        return True
    if subprocess.run(
        [package.interpreter(), "-c", "import numpy, sqlite3"], capture_output=True, check=False
    ).returncode:
        print("numpy isn't installed: the package isn't measured")
        return True
    return False


def run_script(name, *words):
    """What a script of bench/ that is run by an interpreter with numpy prints, read as JSON."""
    ran = subprocess.run(
        [package.interpreter(), str(TOP / "bench" / name), *(str(it) for it in words)],
        capture_output=True,
        text=True,
        check=False,
    )
    if ran.returncode:
        complaint = ran.stderr.strip().splitlines()[-1:] or ["it failed"]
        sys.exit(f"{name}: {complaint[0]}")
    return json.loads(ran.stdout)


def measure_python(table, runs):
    if is_missing():
        return
    found = run_script("python_rows.py", sizes.PART_ROWS, sizes.RANGES, runs)
    seconds = found["seconds"]
    print(f"the package by {found['version']}")
    ours = seconds["crackd"]
    for name, text in STEPS.items():
        for other, theirs in list(seconds.items())[1:]:
            bound = next((most for step, beside, most in RATIOS if (step, beside) == (name, other)), None)
            table.line(f"{told(text)}, beside {other}", ours[name], theirs[name], bound)
    for name, text, most in MOST:
        table.count(told(text), ours[name] * 1e9, most)
    if sizes.PART_ROWS == 500_000:
        write_page(BEGIN, lines_of(seconds), END)


def lines_of_shards(found):
    """The table of what several shards give."""
    yield "| Milliseconds | several shards | one shard | numpy |\n|---|---|---|---|\n"
    for rows, it in found.items():
        several, one = it["several"], it["one"]
        calls = it["threads"] * sizes.CALLS
        for text, name, beside in (
            (f"`from_arrays` of {rows} rows; an argsort and a take", "load", milliseconds(it["numpy"])),
            (f"{sizes.RANGES} new counts and as many sums, in two calls", "many", ""),
            (f"{calls} single calls by one thread", "alone", ""),
            (f"the same by {it['threads']} threads", "together", ""),
        ):
            yield f"| {text} | {milliseconds(several[name])} | {milliseconds(one[name])} | {beside} |\n"


def measure_shards(table, runs):
    if is_missing():
        return
    found = {
        rows: run_script("python_shards.py", rows, sizes.RANGES, sizes.CALLS, runs) for rows in sizes.SHARDED_ROWS
    }
    for rows, it in found.items():
        several, one = it["several"], it["one"]
        table.line(f"from_arrays of {rows} rows, beside an argsort and a take", several["load"], it["numpy"], 1.0)
        table.line("new counts and sums in two calls, beside one shard", several["many"], one["many"], 0.4)
        table.line("single calls by several threads, beside one", several["together"], several["alone"], 1.0)
        table.count("memory, bytes a row", it["memory"], 160)
    if max(found) >= 500_000:
        write_page(SHARDS_BEGIN, lines_of_shards(found), SHARDS_END)


MEASURES = {"python": [measure_python], "shards": [measure_shards]}
