"""The layout of a table's rows, and pictures of it."""

from __future__ import annotations

import html
from dataclasses import dataclass
from typing import Iterator, Sequence

from .arrays import TOP
from .drawing import styles
from .keys import Keys

MOST_BARS = 20
# in characters: the least width of names, the greatest width of bars, and the width of lines; a wider name leaves less
# room for its bar
NAME_WIDTH, BAR_WIDTH, LINE_WIDTH = 24, 40, 80
# sizes of the SVG picture in pixels: its width, the height of a bar, the gap below it, and the room for texts at the
# left, at the top and at the bottom
SVG_WIDTH, SVG_ROW, SVG_GAP, SVG_LEFT, SVG_HEAD, SVG_FOOT = 900, 22, 8, 130, 34, 28
# the colour of each thing drawn, by its class
DRAWN = {"page": "page", "text": "text", "even": "blue", "odd": "pale", "pending": "brown"}
RULES = [f".crackd-{name}{{fill:${colour}}}" for name, colour in DRAWN.items()]
KEY = {"even": "a piece", "odd": "the next piece", "pending": "not merged yet"}
UNSIGNED = Keys("u")


def rows_text(count: int) -> str:
    """A number of rows, in words."""
    return "1 row" if count == 1 else f"{count} rows"


def keys_text(keys: Keys, low: int, high: int) -> str:
    """The keys from the number `low` up to but not including `high`, in words."""
    if keys.kind in "ui":
        return f"{keys.back_one(low)} to {keys.back_one(high - 1)}"
    if low == 0 or high == TOP:
        ends = (
            [f"from {keys.back_one(low)}"] if low else [f"below {keys.back_one(high)}"] if high < TOP else ["all keys"]
        )
        return ends[0]
    return f"{keys.back_one(low)} up to {keys.back_one(high)}"


@dataclass(frozen=True)
class Piece:
    """A piece of a cracker column, or `joined` neighbouring pieces that are drawn as one.

    Its keys are the numbers from `low` up to but not including `high`. `rows` is the number of rows in it.

    Examples
    --------
    >>> with crackd.Table(key_type="uint64") as table:
    ...     numbers = table.insert_many([9, 5], [1, 70])
    ...     count = table.count(0, 8)
    ...     (part,) = table.layout().parts
    ...     print([(piece.low, piece.high, piece.rows) for piece in part.pieces])
    [(0, 8, 1), (8, 18446744073709551616, 1)]
    """

    low: int
    high: int
    rows: int
    joined: int = 1


@dataclass(frozen=True)
class PartLayout:
    """The layout of a partition.

    Attributes
    ----------
    partition : int
        The number of the partition.
    rows : int
        The number of its rows.
    column : int
        The length of its cracker column.
    pending_out : int
        Pending deletions: rows that are deleted, but still in the column.
    pending_in : int
        Pending insertions: rows that are inserted, but not yet merged into the column.
    cells, free : int
        The number of cells, and how many of these are free.
    pieces : tuple of Piece
        The pieces of the column, in the order of their keys.
    keys : Keys
        The type of the keys.

    Examples
    --------
    >>> with crackd.Table() as table:
    ...     row = table.insert(5, 70)
    ...     (part,) = table.layout().parts
    ...     print(part.rows, part.column, part.pending_in)
    1 0 1
    """

    partition: int
    rows: int
    column: int
    pending_out: int
    pending_in: int
    cells: int
    free: int
    pieces: tuple[Piece, ...]
    keys: Keys = UNSIGNED

    @classmethod
    def read(cls, lines: Sequence[str], keys: Keys = UNSIGNED) -> "PartLayout":
        """Reads a layout from the lines of a server's reply."""
        words = lines[0].split(" ")
        told = dict(zip(words[::2], map(int, words[1::2])))
        pieces = tuple(Piece(*map(int, line.split(" ")[1:])) for line in lines[1:])
        return cls(
            told["layout"],
            told["rows"],
            told["column"],
            told["out"],
            told["in"],
            told["cells"],
            told["free"],
            pieces,
            keys,
        )

    @property
    def ends(self) -> tuple[int, int]:
        """The first number of the partition's keys, and the one after the last."""
        return self.pieces[0].low, self.pieces[-1].high

    def bars(self) -> list[Piece]:
        """The pieces as they are drawn: neighbours are joined, so that there are at most `MOST_BARS`."""
        each = -(-len(self.pieces) // MOST_BARS)
        groups = [self.pieces[it : it + each] for it in range(0, len(self.pieces), each)]
        return [Piece(it[0].low, it[-1].high, sum(piece.rows for piece in it), len(it)) for it in groups]

    def drawn(self) -> Iterator[str]:
        """The layout as lines of text: a bar for each piece, and for pending rows and free cells."""
        bars = [
            (keys_text(self.keys, it.low, it.high), it.rows, "#", f" in {it.joined} pieces" if it.joined > 1 else "")
            for it in self.bars()
        ]
        bars += [
            ("pending insertions", self.pending_in, "+", ""),
            ("pending deletions", self.pending_out, "-", ""),
            ("free cells", self.free, ".", ""),
        ]
        most = max(count for _, count, _, _ in bars)
        width = max(NAME_WIDTH, *(len(name) for name, _, _, _ in bars))
        whose = keys_text(self.keys, *self.ends)
        whole = f"{rows_text(self.rows)}; {self.column} in the column, its pieces:"
        yield f"partition {self.partition}: keys {whose}, {whole}"
        for name, count, mark, also in bars:
            yield bar(
                f"  {name:>{width}} {count:>9}{also} ", min(BAR_WIDTH, LINE_WIDTH - width - 13), count, most, mark
            )


def bar(text: str, width: int, count: int, most: int, mark: str) -> str:
    """A line with a bar of `width * count / most` marks, rounded down; at least one mark if the count is above 0."""
    length = max(1, count * width // most) if count else 0
    return f"{text}{mark * length}".rstrip()


@dataclass(frozen=True)
class Layout:
    """The layouts of all partitions.

    Examples
    --------
    >>> with crackd.Table(splits=[100, 200]) as table:
    ...     row = table.insert(5, 70)
    ...     layout = table.layout()
    ...     print(layout.rows, [part.rows for part in layout.parts])
    1 [1, 0, 0]
    """

    parts: tuple[PartLayout, ...]

    @property
    def rows(self) -> int:
        """The number of rows of all partitions."""
        return sum(it.rows for it in self.parts)

    def __str__(self) -> str:
        return self.picture()

    def picture(self) -> str:
        """The layout as text, with bars of characters."""
        return "\n".join(line for it in self.parts for line in it.drawn())

    def svg(self) -> str:
        """The layout as an SVG image, for light and dark pages.

        It has a bar for each partition: its pieces in two alternating colours, and then its pending insertions.
        """
        most = max((it.column + it.pending_in for it in self.parts), default=0) or 1
        scale = (SVG_WIDTH - SVG_LEFT - SVG_GAP) / most
        height = SVG_HEAD + len(self.parts) * (SVG_ROW + SVG_GAP) + SVG_FOOT
        lines = [
            f'<svg xmlns="http://www.w3.org/2000/svg" width="{SVG_WIDTH}" height="{height}" '
            f'viewBox="0 0 {SVG_WIDTH} {height}" font-family="sans-serif" font-size="12" role="img">',
            f"<title>{self.title()}</title>",
            # in a notebook these rules apply to the whole page
            styles(RULES),
            f'<rect class="crackd-page" width="{SVG_WIDTH}" height="{height}"/>',
            _text(SVG_GAP, 20, self.title(), " font-weight=\"bold\""),
        ]
        for at, part in enumerate(self.parts):
            lines += _svg_row(part, SVG_HEAD + at * (SVG_ROW + SVG_GAP), scale)
        return "\n".join([*lines, *_svg_key(height - SVG_FOOT + SVG_GAP), "</svg>\n"])

    def title(self) -> str:
        """The title of the picture, in one line."""
        parts = "1 partition" if len(self.parts) == 1 else f"{len(self.parts):,} partitions"
        pieces = sum(len(it.pieces) for it in self.parts)
        return f"{rows_text(self.rows)} in {parts}, {'1 piece' if pieces == 1 else f'{pieces:,} pieces'}"

    def _repr_svg_(self) -> str:
        """What a notebook shows."""
        return self.svg()


def _text(left: float, base: int, text: str, more: str = "") -> str:
    return f'<text class="crackd-text" x="{left}" y="{base}"{more}>{html.escape(text)}</text>'


def _svg_row(part: PartLayout, top: int, scale: float) -> Iterator[str]:
    whose = f"partition {part.partition}: keys {keys_text(part.keys, *part.ends)}, {rows_text(part.rows)}"
    yield f"<g><title>{html.escape(whose)}</title>"
    yield _text(SVG_GAP, top + 15, f"{part.partition}: {rows_text(part.rows)}") + "</g>"
    place = float(SVG_LEFT)
    for at, piece in enumerate(part.pieces):
        title = f"{keys_text(part.keys, piece.low, piece.high)}: {rows_text(piece.rows)}"
        yield _rectangle(place, top, piece.rows * scale, ("even", "odd")[at % 2], title)
        place += piece.rows * scale
    yield _rectangle(place, top, part.pending_in * scale, "pending", f"not merged yet: {rows_text(part.pending_in)}")


def _svg_key(top: int) -> Iterator[str]:
    """The legend: what each colour stands for."""
    for at, (name, text) in enumerate(KEY.items()):
        left = SVG_LEFT + at * 150
        yield f'<rect class="crackd-{name}" x="{left}" y="{top}" width="12" height="12"/>'
        yield _text(left + 18, top + 11, text)


def _rectangle(left: float, top: int, width: float, name: str, title: str) -> str:
    where = f'x="{left:.2f}" y="{top}" width="{width:.2f}" height="{SVG_ROW}"'
    return f'<rect class="crackd-{name}" {where}><title>{html.escape(title)}</title></rect>'
