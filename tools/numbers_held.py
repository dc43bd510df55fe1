"""Checks numbers in documents and help texts that are constants of the code, or figures of docs/BENCHMARKS.md.

A number is identified by the text around it, with {} in its place, or by its cell of a table. It may be rounded to as
many digits as its page needs.
"""

import decimal
import itertools
import re

from crates import TOP, read

CONSTANT = re.compile(r"^(?:(?:pub(?:\(crate\))? )?const )?([A-Z_]+)(?:: \w+)? =\s+(-?[0-9_]+);?$", re.MULTILINE)
NUMBER = r"(-?\d[\d,]*(?:\.\d+)?)"
# the files that state limits
DOCUMENTS = ["*.md", "docs/*.md", "crates/crack_arguments/src/*.rt", "python/crackd/**/*.py"]
# for each limit its crate or file, its constant, and the texts around it, each of which some document must have
LIMITS = [
    ("crack_arena", "CELLS", ["An arena's cells are in pages of {}."]),
    ("crack_arguments", "DEFAULT_CLIENTS", ["N`, {} without it", "Up to {} clients", "`refused 20 {}`",
     "a time, 1 to 1000000 [default: {}]"]),
    ("crack_arguments", "DEFAULT_DRAIN", ["N`, or {} without it", "it waits {} seconds, or", "clients [default: {}]"]),
    ("crack_arguments", "MOST_CLIENTS", ["Clients are 1 to {}, ", "clients` says, {} at most", "at a time, 1 to {} ["]),
    ("crack_commands", "GREATEST_PART", ["P is at most {} and S"]),
    ("crack_commands", "GREATEST_SERIAL", ["and S at most {}, else 1"]),
    ("crack_core", "MOST_SPLITS", ["more than {} splits", "by 0 to {} splits that rise", "2^64 - 1; {} at most"]),
    ("crack_csv", "MOST_RECORDS", ["a record after the {}th that isn't a header", "n is at most {}. On a fault"]),
    ("crack_part", "CELLS_AHEAD", ["If there is one for each {} cells, all", "if it has a row for each {} cells"]),
    ("crack_pending", "FIRST_SPOTS", ["Pending insertions have room for {} rows"]),
    ("crack_plain", "MOST_ACCEPTED", ["is answered until {} were accepted"]),
    ("crack_row", "GREATEST_BOUND", ["Range ends are 0 to {}, which is", "| bound | 0 to {};"]),
    ("crack_row", "GREATEST_CELLS", ["one has at most {} rows", "A partition has at most {} rows, or",
     "- **{} cells** a partition", "`--cells` 1 to {}, ", "at most their limit, which is 1 to {} |",
     "its rows may take (1 to {}),", "Cells of a partition, 1 to {} [", "partition, 1 to 16777215 [default: {}]",
     "rows as cells, at most {}", "cells 1 to {}, lives"]),
    ("crack_row", "GREATEST_KEY", ["Keys are 0 to {}, payloads", "| key | 0 to {} |", "GREATEST_KEY = {}"]),
    ("crack_row", "GREATEST_LIFE", ["**{} commands*", "`--life` 1 to {} |", "life, which is 1 to {}", "lives 1 to {}"]),
    ("crack_row", "GREATEST_LIMIT", ["sets it, for N up to {}. Then", "`--limit` 1 to {}, ",
     "if it has one, which is 1 to {}", "a checkpoint (1 to {}, or 0", "Length of a history, 1 to {} [",
     "histories 1 to {}, cells", "is emptied, 1 to {}. By"]),
    ("crack_row", "GREATEST_PAYLOAD", ["to {} | | sum of payloads"]),
    ("crack_row", "LEAST_PAYLOAD", ["payloads {} to", "| payload | {} to"]),
    ("crack_serials", "FIRST_ROWS", ["Each of the 64 maps of serials has room for {} rows at first"]),
    ("crack_serials", "MAPS", ["serials to handles, in {} maps that grow", "There are {} maps of serials"]),
    ("crack_serials", "NEIGHBOURS", ["which take turns of {} neighbours"]),
    ("crack_service", "MOST_INPUT_BYTES", ["before a worker starts: at most {}"]),
    ("crack_session", "KEPT_BYTES", ["cuts is kept, up to {} bytes"]),
    ("crack_session", "LINE_BYTES", ["| statement line | at most {} bytes |"]),
    ("crack_session", "MOST_READS", ["of a script or a batch | at most {} |", "or after {} reads"]),
    ("crack_session", "OUTPUT_BYTES", ["are put together in output, {} bytes"]),
    ("crack_session", "READ_BYTES", ["A session reads up to {} bytes at a time", "each read asks for {} bytes"]),
    ("crack_store", "FEW", ["where at most {} rows are doomed"]),
    ("crack_store", "SHORT", ["where the piece has at most {} rows"]),
    ("crack_table", "MOST_WORKERS", ["of workers isn't 1 to {}", "as many workers as processors, {} at most",
     "given 1 to {} workers", "on its own thread: 1 to {}", "not 1 to {} workers", "Threads that serve, 1 to {} ["]),
    ("crack_witness", "FIRST_ITEMS", ["the list of an audit for {} entries"]),
    *[("crackd_c", it, [f"| {{}} | `CRACKD_{it}` |"]) for it in ("CLOSED", "ALREADY_OPEN", "LENGTHS_DIFFER")],
    ("crackd_c", "NO_SUCH_POLICY", ["| {} | `CRACKD_NO_SUCH_POLICY` |"]),
    ("python/crackd/base.py", "MOST_PARTS", ["rows and at most {}.", "partitions, at most {}:", "at most {} of them"]),
    ("python/crackd/base.py", "ROWS_A_PART", ["one for each {} rows and at most"]),
    ("python/crackd/table.py", "ROWS_A_SHARD", ["one for each {} rows, at most one for each"]),
    ("python/crackd/table.py", "MOST_BY_DEFAULT", ["processor and {}, and each shard"]),
    ("Makefile", "RUN_SECONDS", ["after {} seconds of compiling"]),
    ("Makefile", "TEST_MINUTES", ["package and of the crates: {} minutes"]),
    ("Makefile", "PROVE_MINUTES", ["of the unproved ones: {} minutes"]),
    ("Makefile", "EDITS_MINUTES", ["which the prover must refuse: {} minutes"]),
]

# the tables of docs/BENCHMARKS.md, by the first cells of their heads
QUERIES = ("What", "loading", "first count of everything")
BETWEEN = ("What", "crackd", "a BTreeMap")
RIVALS = ("What", "crackd", "a cracker column for speed alone")
# the milliseconds of each unit in these tables; and the form of a figure in the tables of other documents
UNITS = {"ns": 1e-6, "µs": 1e-3, "ms": 1, "s": 1e3}
FIGURE = re.compile(rf"{NUMBER}(?: ms)?$")
LATER = {"first sum": ["first sum"], "median of the last hundred of 1,000 sums": ["median of the last hundred"]}
LATER["load and first count of everything"] = ["loading", "first count of everything"]
# tables with milliseconds of docs/BENCHMARKS.md: the document, the first cells of the table's head, the table of
# BENCHMARKS.md, and a function that gives, for a row and a column, the row there and the columns whose sum the cell is
TABLES = [
    ("README.md", ("", "10 deletes and 10 inserts"), BETWEEN, lambda row, column: (f"a sum after {column}", row)),
    ("README.md", ("", "crackd", "a BTreeMap"), QUERIES, lambda row, column: (column, *LATER[row])),
    ("docs/ARCHITECTURE.md", ("Policy", "1000 sums, all rows pending"), RIVALS,
     lambda row, column: (f"{row}: {column}", "crackd")),
]
# the bytes that a row takes, by the bars of docs/memory.svg
GUIDE, BYTES = "docs/GUIDE.md", "A row takes {} bytes while it is pending and {} in the column."
BAR = re.compile(r">([^<>]+)</text>\n<rect[^>]*>\n<text[^>]*>([\d.]+) bytes<")


def written(path):
    """The text of a file on one line."""
    return " ".join(read(path).split())


def constants(source, top):
    """The constants of a crate or of a file that are whole numbers, by name: all values that a name has."""
    found, path = {}, top / source
    for it in [path] if path.is_file() else sorted((top / "crates" / source / "src").rglob("*.rt")):
        for name, number in CONSTANT.findall(read(it)):
            found.setdefault(name, set()).add(int(number.replace("_", "")))
    return found


def found_in(pages, text):
    """Where these pages, by path, have a text, each with its numbers."""
    pattern = re.escape(text).replace(r"\{\}", NUMBER)
    return [(page, it.groups()) for page, said in pages.items() for it in re.finditer(pattern, said)]


def is_said(number, value):
    """Whether a number is a value to as many digits as the number has."""
    return number.replace(",", "") == f"{decimal.Decimal(value):.{len(number.partition('.')[2])}f}"


def limit_faults(limits=LIMITS, top=TOP):
    """The limits that a document states otherwise than the code, and the texts that no document has."""
    pages = {it.relative_to(top): written(it) for pattern in DOCUMENTS for it in sorted(top.glob(pattern))}
    wrong = []
    for source, name, texts in limits:
        found = [(page, text, it) for text in texts for page, (it,) in found_in(pages, text)]
        values = constants(source, top).get(name, set())
        if len(values) != 1:
            wrong.append(f"{source} has {len(values)} values of {name}")
        else:
            wrong += [f"{page} says {text.format(it)!r}" for page, text, it in found if not is_said(it, *values)]
        wrong += [f"no page says {it!r}" for it in texts if it not in [text for _, text, _ in found]]
    return wrong


def table(text, first):
    """The table of a text whose first row begins with these cells: its cells by the first cell of a row and the head of
    a column."""
    lines = text.splitlines()
    rows = [[it.strip() for it in line.strip("|").split("|")] if line.startswith("|") else [] for line in lines]
    start = next(at for at, row in enumerate(rows) if tuple(row[: len(first)]) == tuple(first))
    body = itertools.takewhile(bool, rows[start + 2 :])
    return {row[0]: dict(zip(rows[start][1:], row[1:])) for row in body}


def milliseconds(rows, row, *columns):
    """The sum of cells of a table of times, whose first row is that of `crackd`, under the policy that it says."""
    of = next(iter(rows)) if row == "crackd" else row
    cells = (rows[of][it].split(" ") for it in columns)
    return sum(float(number.replace(",", "")) * UNITS[unit] for number, unit in cells)


def figure_faults():
    """The cells whose figures aren't those of docs/BENCHMARKS.md, and the text that docs/memory.svg contradicts."""
    measured, bars = read(TOP / "docs" / "BENCHMARKS.md"), dict(BAR.findall(read(TOP / "docs" / "memory.svg")))
    said, wrong = [it for _, numbers in found_in({GUIDE: written(TOP / GUIDE)}, BYTES) for it in numbers], []
    if len(said) != 2 or not all(map(is_said, said, (float(bars[it]) for it in ("pending", "in the column")))):
        wrong.append(f"{GUIDE} doesn't say what docs/memory.svg does: {BYTES}")
    for document, head, of_table, place in TABLES:
        rows = table(measured, of_table)
        every = [(row, *it) for row, cells in table(read(TOP / document), head).items() for it in cells.items()]
        for row, column, number in ((*it, FIGURE.match(cell)) for *it, cell in every):
            if number and not is_said(number[1], milliseconds(rows, *place(row, column))):
                wrong.append(f"{document} doesn't say in {row!r} under {column!r} what the benchmark does")
    return wrong
