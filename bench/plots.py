"""Plots as SVG, legible on light pages, on dark ones and on a phone: curves whose axes are logarithmic, and bars."""

import math
import pathlib
import statistics
import sys

sys.path.append(str(pathlib.Path(__file__).resolve().parent.parent / "python"))
from crackd.drawing import LINE, POLICY_COLOURS, WIDTH, document, key, styles, words  # as the package draws

HEIGHT, LEFT, RIGHT, HEAD, BELOW = 320, 70, 24, 62, 44
# how high a bar with its name is, and how wide a letter of its number is at most
BAR, LETTER = 44, 9
# what each colour stands for in all plots, by the beginnings of names; `crackd` is blue where nothing else is said
MEANINGS = {
    "the same in plain Rust": "green",
    "a cracker column for speed alone": "green",
    "a sorted array": "pink",
    "a BTreeMap": "orange",
    "a scan": "grey",
    "SQLite": "red",
    "crackd under gradual": POLICY_COLOURS["gradual"],
    **POLICY_COLOURS,
}
# curves of the same colour as another one, which has this in place
DASHED = ("the same in plain Rust", "SQLite without an index", "a sorted array, built anew")
USED = sorted({"blue", *MEANINGS.values()})
RULES = [
    ".page{fill:$page} .text,.title{fill:$text} .title,.head{font-weight:bold} .head{fill:$text} .grid{stroke:$grid}",
    ".curve,line{fill:none;stroke-width:2.5}",
    *(f"rect.{it}{{fill:${it}}} path.{it},line.{it}{{stroke:${it}}}" for it in USED),
]


def colour_of(name):
    """The colour of what is measured, by the beginning of its name."""
    return next((it for meaning, it in MEANINGS.items() if name.startswith(meaning)), "blue")


def dashes(name):
    return ' stroke-dasharray="6 3"' if name.startswith(DASHED) else ""


def drawn(title, parts, height):
    return document(title, height, styles(RULES), parts)


def curves(title, series):
    """Both axes are logarithmic: the number of a query, and its time in microseconds, as pairs."""
    values = [max(y, 0.01) for points in series.values() for _, y in points]
    low, high = math.floor(math.log10(min(values))), math.ceil(math.log10(max(values)))
    last = math.log10(max(2, *(at for points in series.values() for at, _ in points)))

    def place(x, y):
        across = LEFT + math.log10(x) / last * (WIDTH - LEFT - RIGHT)
        return across, HEAD + (high - math.log10(max(y, 0.01))) / max(1, high - low) * (HEIGHT - HEAD - BELOW)

    parts = [words(WIDTH - RIGHT, HEIGHT - 6, "number of the query", "end"), words(8, 42, "microseconds a query")]
    for power in range(low, high + 1):
        _, y = place(1, 10**power)
        parts.append(f'<path class="grid" d="M{LEFT} {y:.1f}H{WIDTH - RIGHT}"/>')
        parts.append(words(LEFT - 6, y + 5, f"{10**power:,g}", "end"))
    for power in range(int(last) + 1):
        x, _ = place(10**power, 1)
        parts.append(words(x, HEIGHT - BELOW + 18, f"{10**power:,}", "middle"))
    # (the first curve lies on the others)
    for name, points in reversed(series.items()):
        path = "L".join("{:.1f} {:.1f}".format(*place(*it)) for it in points)
        parts.append(f'<path class="curve {colour_of(name)}" d="M{path}"{dashes(name)}/>')
    lines, height = key([(colour_of(it), dashes(it), it) for it in series], HEIGHT + LINE)
    return drawn(title, [*parts, *lines], round(height) - 8)


def smoothed(times):
    """Times in nanoseconds as points of a curve, some of each power of ten: the number of each, from 1 on, and the
    median in microseconds of the times from it on to one in eight more."""
    last = 40 * math.log10(len(times))
    places = sorted({int(10 ** (step / 40)) for step in range(int(last) + 1)})
    return [(at, statistics.median(times[at - 1 : at + at // 8]) / 1000) for at in places]


def bars(title, groups, unit, is_one_scale=True):
    """A bar for each value, in groups by their heads; the longest is that of the greatest value, of all or of its
    group."""
    every = [it for values in groups.values() for it in values.values()]
    room = WIDTH - 24 - LETTER * max(len(f"{it:,.4g} {unit}") for it in every)
    parts, top = [], 34
    for head, values in groups.items():
        if head:
            parts.append(words(8, top + 16, head, kind="head"))
            top += 24
        for name, value in values.items():
            width = value / max(every if is_one_scale else values.values()) * room
            parts += [
                words(8, top + 14, name),
                f'<rect class="{colour_of(name)}" x="8" y="{top + 20}" width="{width:.1f}" height="15"/>',
                words(16 + width, top + 33, f"{value:,.4g} {unit}"),
            ]
            top += BAR
    return drawn(title, parts, top + 4)
