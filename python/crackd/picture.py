"""Draws a cracker column as the queries of a script crack it: python3 -m crackd picture SCRIPT.

`crackd script` runs the script, with a `layout` statement before and after each count, sum and select; a layout changes
nothing. No time is measured, so a picture is the same on every machine.
"""

from __future__ import annotations

import argparse
import html
import itertools
import subprocess
import sys
from dataclasses import dataclass, replace
from typing import Iterable, Iterator, Optional, Sequence

from .arrays import TOP
from .base import POLICIES
from .drawing import COLOURS, LETTER, LINE, POLICY_COLOURS, WIDTH, document, key, styles, words
from .errors import Error
from .layout import PartLayout, rows_text
from .server import called, find_program

QUERIES = ("count", "sum", "select")
# in pixels: where strips and bars begin, how wide and high they are, and the height of a query, of the head and of the
# foot
LEFT, STRIP_WIDTH, STRIP, ROW, HEAD, FOOT = 8, 300, 12, 38, 48, 52
BAR_LEFT, BAR_WIDTH = LEFT + STRIP_WIDTH + 12, 56
# the number of shades of pieces: the first is for a piece without rows, the last for the largest piece
SHADES = 16
CHART_HEIGHT = 240
RULES = [
    ".page{fill:$page} .text,.title,.mark{fill:$text} .title{font-weight:bold} .faint{fill:$faint} .grid{fill:$grid}",
    ".bar{fill:$blue} path,line{fill:none}",
    *(f".{name}{{stroke:${colour}}}" for name, colour in POLICY_COLOURS.items()),
    *(f".shade{it}{{fill:$shade{it}}}" for it in range(SHADES)),
]


class ScriptError(Error):
    """A script couldn't be drawn."""


@dataclass(frozen=True)
class Query:
    """A query of a script: its text, its range, the first line of its reply, and the layouts before and after it."""

    text: str
    low: int
    high: int
    reply: str
    before: PartLayout
    after: PartLayout

    def new_bounds(self) -> list[int]:
        """The bounds that the query added to the cracker index."""
        old = {it.low for it in self.before.pieces}
        return [it.low for it in self.after.pieces if it.low not in old]

    def merged(self) -> int:
        """The least number of rows that the query merged, by the change in the number of pending rows."""
        return abs(self.before.pending_in - self.after.pending_in) + max(
            0, self.before.pending_out - self.after.pending_out
        )

    def cracked(self) -> int:
        """The number of rows in the pieces that the query cracked."""
        bounds = self.new_bounds()
        return sum(it.rows for it in self.before.pieces if any(it.low < bound < it.high for bound in bounds))

    def work(self) -> int:
        """The number of rows that the query cracked or merged."""
        return self.cracked() + self.merged()


def statements_of_csv(lines: Iterable[str]) -> list[str]:
    """An insert statement for each line `key,payload`."""
    fields = (it.strip().split(",") for it in lines if it.strip())
    return [f"insert {key} {payload}" for key, payload in fields if key != "key"]


def as_program_reads(line: str) -> str:
    """A statement as the program reads it: without a final `;`, and with a number for the word `end` of the shell."""
    words = line.strip().removesuffix(";").split()
    is_query = bool(words) and words[0] in QUERIES
    return " ".join(str(TOP) if is_query and it == "end" else it for it in words)


def with_layouts(statements: Sequence[str], partition: int) -> Iterator[str]:
    """The statements, with a layout before and after each query."""
    for it in statements:
        is_query = it.split(" ")[0] in QUERIES
        yield from [f"layout {partition}", it, f"layout {partition}"] if is_query else [it]


def replies(lines: Iterator[str]) -> Iterator[list[str]]:
    """Yields the lines of each reply.

    The first line of a list of rows, a layout or stats ends with the number of lines that follow it.
    """
    for line in lines:
        more = int(line.split()[-1]) if line.startswith(("rows ", "layout ", "stats ")) else 0
        yield [line, *itertools.islice(lines, more)]


def run(program: str, statements: Sequence[str], partition: int, words: Sequence[str]) -> list[Query]:
    """Runs a script. Returns its queries with the program's replies."""
    asked = [it for it in with_layouts(statements, partition) if it.strip()]
    ran = subprocess.run(
        [program, "script", *words],
        input="".join(f"{it}\n" for it in asked),
        capture_output=True,
        text=True,
        check=False,
    )
    if ran.returncode:
        raise ScriptError(ran.stderr.strip())
    told = list(replies(iter(ran.stdout.splitlines())))
    found = []
    for at, text in enumerate(asked[: len(told)]):
        name, *ends = text.split()
        if told[at][0].startswith("refused "):
            raise ScriptError(f"{text}: {told[at][0]}")
        if name in QUERIES:
            low, high = map(int, ends)
            found.append(
                Query(text, low, high, told[at][0], PartLayout.read(told[at - 1]), PartLayout.read(told[at + 1]))
            )
    return found


def keys_in(statements: Iterable[str]) -> tuple[int, int]:
    """The least key that a script inserts, and one past the greatest."""
    keys = [
        int(words[1 if words[0] == "insert" else 2])
        for words in map(str.split, statements)
        if words and words[0] in ("insert", "update")
    ]
    if not keys:
        raise ScriptError("the script inserts no row")
    return min(keys), max(keys) + 1


def shade(share: float) -> str:
    """The class of a piece. `share` is its number of rows divided by that of the largest piece."""
    return f"shade{round(share**0.5 * (SHADES - 1))}"


def mixed(one: str, other: str, share: float) -> str:
    """The colour between two at this share of the way from the first to the second."""
    pairs = ((int(one[it : it + 2], 16), int(other[it : it + 2], 16)) for it in (1, 3, 5))
    return "#" + "".join(f"{round(first + (last - first) * share):02x}" for first, last in pairs)


def style() -> str:
    """The style of the pictures, with colours for light and for dark pages."""
    (light, dark), (full, bright) = COLOURS["empty"], COLOURS["blue"]
    shares = {f"shade{it}": it / (SHADES - 1) for it in range(SHADES)}
    return styles(RULES, **{name: (mixed(light, full, it), mixed(dark, bright, it)) for name, it in shares.items()})


def box(x: float, y: float, width: float, height: float, kind: str, title: str = "") -> str:
    """A rectangle of an image, with its CSS class, and a title that viewers show under the pointer."""
    said = f"<title>{html.escape(title)}</title>" if title else ""
    where = f'x="{x:.1f}" y="{y:.1f}" width="{max(width, 0):.1f}" height="{height:.1f}"'
    return f'<rect class="{kind}" {where}>{said}</rect>'


def strip(query: Query, top: float, low: int, high: int, rows: int) -> Iterator[str]:
    """Draws the pieces after a query, the query's range, and its new bounds.

    The width of a piece is that of its range of keys. Its colour is stronger the more rows it has.
    """

    def across(key: int) -> float:
        return LEFT + (min(max(key, low), high) - low) / (high - low) * STRIP_WIDTH

    for it in query.after.pieces:
        left, right = across(it.low), across(it.high)
        if right > left:
            gap = 0.8 if right - left > 3 else 0.3
            yield box(
                left,
                top,
                right - left - gap,
                STRIP,
                shade(it.rows / rows),
                f"{it.low} to {it.high - 1}: {rows_text(it.rows)}",
            )
    yield box(across(query.low), top - 4, across(query.high) - across(query.low), 2, "mark")
    for bound in query.new_bounds():
        if low < bound < high:
            yield box(across(bound) - 1, top - 4, 1.4, STRIP + 6, "mark")


def cracking(queries: Sequence[Query], low: int, high: int) -> str:
    """Draws a column as queries crack it: keys across, queries down, and for each the rows it cracked or merged."""
    rows = max([1, *(piece.rows for it in queries for piece in it.after.pieces)])
    most = max([1, *(it.work() for it in queries)])
    parts = [words(LEFT, 40, str(low), kind="faint"), words(LEFT + STRIP_WIDTH, 40, str(high - 1), "end", "faint")]
    parts.append(words(WIDTH - 8, 20, "rows cracked or merged", "end"))
    for at, it in enumerate(queries):
        top = HEAD + at * ROW + 19
        parts.append(words(LEFT, top - 7, it.text.replace(str(TOP), "end")))
        parts += strip(it, top, low, high, rows)
        width = it.work() / most * BAR_WIDTH
        parts += [
            box(BAR_LEFT, top, max(width, 1), STRIP, "bar"),
            words(BAR_LEFT + width + 6, top + 11, f"{it.work():,}"),
        ]
    foot = HEAD + len(queries) * ROW + 18
    parts += [box(LEFT, foot - 11, 16, STRIP, shade(1)), box(LEFT, foot + 15, 16, 2, "mark")]
    parts.append(words(LEFT + 24, foot, "a piece: the stronger, the more rows in no order"))
    parts.append(words(LEFT + 24, foot + 20, "a query's range, and its new bounds"))
    return document("A column as queries crack it", HEAD + len(queries) * ROW + FOOT, style(), parts)


def pending(by_policy: dict[str, list[Query]]) -> str:
    """Draws the number of pending rows after each query, under each policy."""
    counts = {
        name: [it.after.pending_in + it.after.pending_out for it in queries] for name, queries in by_policy.items()
    }
    most = max([1, *(it for line in counts.values() for it in line)])
    last = max([1, *(len(line) - 1 for line in counts.values())])
    left, right, top, bottom = 16 + LETTER * len(f"{most:,}"), WIDTH - 16, 56, CHART_HEIGHT - 24

    def place(at: int, count: int) -> tuple[float, float]:
        return left + at / last * (right - left), bottom - count / most * (bottom - top)

    parts = [words(8, 40, "rows, after each query", kind="faint")]
    for share in (0, 0.5, 1):
        y = bottom - share * (bottom - top)
        parts += [
            box(left, y, right - left, 0.7, "grid"),
            words(left - 8, y + 5, f"{round(share * most):,}", "end", "faint"),
        ]
    parts += [words(left, bottom + 20, "first query", kind="faint"), words(right, bottom + 20, "last", "end", "faint")]
    # later curves are thinner, so that curves that coincide are all visible
    widths = {name: f' stroke-width="{9 - 2 * at}"' for at, name in enumerate(counts)}
    for name, line in counts.items():
        path = "L".join("{:.1f} {:.1f}".format(*place(*it)) for it in enumerate(line))
        parts.append(f'<path class="{name}" d="M{path}"{widths[name]}/>')
    names = [(name, widths[name], f"{name}: {line[-1]:,}") for name, line in counts.items()]
    lines, height = key(names, CHART_HEIGHT + LINE)
    return document("Rows that wait to be merged, by policy", round(height) - 8, style(), [*parts, *lines])


def options_of(arguments: Sequence[str]) -> argparse.Namespace:
    """The options of the command line."""
    about = "Draws a column as the queries of a script crack it, as SVG on standard output."
    parser = argparse.ArgumentParser(prog=f"{called()} picture", description=about)
    parser.add_argument("script", metavar="SCRIPT", nargs="?", help="a file of statements, one a line")
    parser.add_argument("splits", metavar="SPLIT", nargs="*", help="where partitions begin")
    parser.add_argument("--csv", metavar="FILE", help="rows to load first, one key,payload a line")
    parser.add_argument(
        "--policy",
        metavar="NAME",
        choices=POLICIES,
        default="auto",
        help="how rows are merged, unless the script says so [default: auto]",
    )
    parser.add_argument(
        "--policies", action="store_true", help="draw how many rows are pending after each query, under each policy"
    )
    parser.add_argument("--partition", metavar="P", type=int, default=0, help="the partition to draw [default: 0]")
    parser.add_argument(
        "--program",
        metavar="PATH",
        help="the program crackd [default: the one built in this checkout, else that of PATH]",
    )
    options = parser.parse_intermixed_args(arguments)
    if options.script is None:
        parser.error("SCRIPT is missing")
    return options


def drawn(options: argparse.Namespace) -> str:
    """The picture that the options ask for."""
    statements = []
    if options.csv:
        with open(options.csv, encoding="utf-8-sig") as file:
            statements += statements_of_csv(file)
    with open(options.script, encoding="ascii") as file:
        statements += [as_program_reads(it) for it in file if it.strip()]
    program = find_program(options.program)
    if options.policies:
        statements = [it for it in statements if not it.startswith("policy ")]
        by_policy = {
            name: run(program, [f"policy {name}", *statements], options.partition, options.splits) for name in POLICIES
        }
        return pending(by_policy)
    queries = run(program, [f"policy {options.policy}", *statements], options.partition, options.splits)
    if not queries:
        raise ScriptError("the script has no count, sum or select")
    low, high = keys_in(statements)
    ends = queries[0].after.ends
    return cracking([replace(it, high=min(it.high, TOP)) for it in queries], max(low, ends[0]), min(high, ends[1]))


def main(arguments: Optional[Sequence[str]] = None) -> int:
    """Writes a picture to standard output."""
    sys.stdout.write(drawn(options_of(arguments if arguments is not None else sys.argv[1:])))
    return 0
