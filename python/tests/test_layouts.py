"""Layouts: how they are read from a server's reply, and how they are drawn."""

import re
import unittest
import xml.etree.ElementTree

from ways import crackd, np, wants_numpy

from crackd.arrays import SIGN, TOP
from crackd.keys import Keys
from crackd.layout import Layout, PartLayout, Piece, keys_text

REPLY = [
    "layout 3 rows 11 column 12 out 2 in 1 cells 100 free 87 pieces 3",
    "piece 10 20 0",
    "piece 20 35 4",
    "piece 35 50 8",
]


def part(sizes, keys=Keys("u"), low=0, **counts):
    """A layout with pieces of these sizes, each for ten keys."""
    pieces = tuple(Piece(low + 10 * at, low + 10 * at + 10, rows) for at, rows in enumerate(sizes))
    told = {"partition": 0, "rows": sum(sizes), "column": sum(sizes), "pending_out": 0, "pending_in": 0}
    return PartLayout(**{**told, "cells": 100, "free": 0, "pieces": pieces, "keys": keys, **counts})


class Replies(unittest.TestCase):
    """What is read of a reply."""

    def test_each_number_has_its_name(self):
        found = PartLayout.read(REPLY)
        self.assertEqual(
            (found.partition, found.rows, found.column, found.pending_out, found.pending_in, found.cells, found.free),
            (3, 11, 12, 2, 1, 100, 87),
        )
        self.assertEqual(found.pieces, (Piece(10, 20, 0), Piece(20, 35, 4), Piece(35, 50, 8)))
        self.assertEqual((found.ends, found.keys), ((10, 50), Keys("u")))
        self.assertEqual(PartLayout.read(REPLY, Keys("i")).keys, Keys("i"))

    def test_rows_of_all_partitions(self):
        first, second = PartLayout.read(REPLY), part([3, 4], rows=5)
        self.assertEqual(Layout((first, second)).rows, 16)
        self.assertEqual((Layout(()).rows, str(Layout(()))), (0, ""))


class Texts(unittest.TestCase):
    """Pictures of characters."""

    def test_keys(self):
        unsigned, signed, floats = Keys("u"), Keys("i"), Keys("f")
        self.assertEqual(keys_text(unsigned, 0, TOP), f"0 to {TOP - 1}")
        self.assertEqual(keys_text(unsigned, 5, 6), "5 to 5")
        self.assertEqual(keys_text(signed, 0, TOP), f"{-SIGN} to {SIGN - 1}")
        self.assertEqual(keys_text(signed, SIGN - 1, SIGN + 2), "-1 to 1")
        low, high = floats.one(-0.5), floats.one(2.0)
        self.assertEqual(keys_text(floats, low, high), "-0.5 up to 2.0")
        self.assertEqual(
            [keys_text(floats, *it) for it in [(0, TOP), (0, high), (low, TOP)]], ["all keys", "below 2.0", "from -0.5"]
        )

    @wants_numpy
    def test_dates(self):
        days = Keys.named("datetime64[D]")
        low, high = days.one(np.datetime64("1969-12-31")), days.one(np.datetime64("2020-02-29"))
        self.assertEqual(keys_text(days, low, high), "1969-12-31 up to 2020-02-29")
        self.assertEqual(keys_text(days, 0, high), "below 2020-02-29")

    def test_bars(self):
        lines = list(part([1, 0, 200, 50], pending_in=3, pending_out=0, free=400).drawn())
        self.assertEqual(lines[0], "partition 0: keys 0 to 39, 251 rows; 251 in the column, its pieces:")
        bars = [re.search(r"([#+.-]*)$", it).group(1) for it in lines[1:]]
        self.assertEqual(bars, ["#", "", "#" * 20, "#" * 5, "+", "", "." * 40])
        numbers = [int(re.search(r" (\d+)(?: [#+.-]+)?$", it).group(1)) for it in lines[1:]]
        self.assertEqual(numbers, [1, 0, 200, 50, 3, 0, 400])
        self.assertTrue(lines[1].strip().startswith("0 to 9 ") and lines[4].strip().startswith("30 to 39 "))
        self.assertIn("pending insertions", lines[5])
        self.assertIn("pending deletions", lines[6])

    def test_bars_beside_wide_names_fit_into_a_line(self):
        lines = list(part([1, 5], Keys("i")).drawn())[1:]
        self.assertTrue(lines[0].strip().startswith(f"{-SIGN} to {9 - SIGN} "))
        self.assertEqual((max(map(len, lines)), lines[1].count("#")), (80, 23))
        self.assertEqual(lines[0].count("#"), 4)

    def test_no_rows(self):
        lines = list(part([0]).drawn())
        self.assertEqual([it[-1] for it in lines[1:]], ["0"] * 4)
        self.assertEqual(list(part([1]).drawn())[0].split(", ")[1], "1 row; 1 in the column")

    def test_neighbours_are_joined_until_there_are_twenty(self):
        wanted = {1: [1], 19: [1] * 19, 20: [1] * 20, 21: [2] * 10 + [1], 40: [2] * 20, 41: [3] * 13 + [2]}
        for count, sizes in wanted.items():
            bars = part([1] * count).bars()
            self.assertEqual([(it.rows, it.joined) for it in bars], [(it, it) for it in sizes])
            self.assertEqual((bars[0].low, bars[-1].high), (0, 10 * count))
            self.assertEqual([it.high for it in bars[:-1]], [it.low for it in bars[1:]])
        self.assertIn(" in 2 pieces", list(part([1] * 40).drawn())[1])
        self.assertNotIn("pieces ", "".join(list(part([1] * 20).drawn())[1:]))

    def test_row_numbers(self):
        wanted = {0: "0.0", 1: "0.1", 2**48 - 1: f"0.{2**48 - 1}", 2**48: "1.0", 63 << 48 | 7: "63.7"}
        for row, text in wanted.items():
            self.assertEqual(crackd.row_text(row), text)


class Images(unittest.TestCase):
    """Pictures as SVG."""

    def rectangles(self, layout):
        """Each rectangle of a bar: left, top, width, class and title."""
        form = r'<rect class="crackd-(\w+)" x="([\d.]+)" y="(\d+)" width="([\d.]+)" height="\d+"><title>(.*?)</title>'
        return [(float(x), int(y), float(w), name, title) for name, x, y, w, title in re.findall(form, layout.svg())]

    def test_pieces_stand_beside_each_other_by_their_rows(self):
        layout = Layout((part([10, 30, 0], pending_in=20), part([30], partition=1)))
        first, second, third, pending, other, last = self.rectangles(layout)
        # 60 rows, the most of a partition, take all of the 762 pixels beside the numbers
        self.assertEqual([it[0] for it in (first, second, third, pending)], [130, 257, 638, 638])
        self.assertEqual([it[2] for it in (first, second, third, pending)], [127, 381, 0, 254])
        self.assertEqual((other[0], other[2], last[0], last[2]), (130, 381, 511, 0))
        self.assertEqual({it[1] for it in (first, second, third, pending)}, {34})
        self.assertEqual({it[1] for it in (other, last)}, {64})
        self.assertEqual(first[4], "0 to 9: 10 rows")
        self.assertEqual(pending[4], "not merged yet: 20 rows")
        self.assertEqual([it[3] for it in (first, second, third, pending)], ["even", "odd", "even", "pending"])

    def test_a_notebook_shows_it(self):
        layout = Layout((part([1]), part([2], partition=1)))
        self.assertEqual(layout._repr_svg_(), layout.svg())
        self.assertIn('height="122"', layout.svg())
        self.assertEqual(re.findall(r">(\d+: \d+ rows?)<", layout.svg()), ["0: 1 row", "1: 2 rows"])
        self.assertIn("<svg", Layout(()).svg())

    def test_it_has_a_title_a_background_and_a_key(self):
        for layout, title in [
            (Layout((part([1, 2]), part([2], partition=1))), "5 rows in 2 partitions, 3 pieces"),
            (Layout((part([1]),)), "1 row in 1 partition, 1 piece"),
            (Layout(()), "0 rows in 0 partitions, 0 pieces"),
        ]:
            root = xml.etree.ElementTree.fromstring(layout.svg())
            texts = [it.text for it in root.iter("{http://www.w3.org/2000/svg}text")]
            self.assertEqual((root[0].text, texts[0]), (title, title))
            self.assertEqual(texts[-3:], ["a piece", "the next piece", "not merged yet"])
            page = dict(root.find("{http://www.w3.org/2000/svg}rect").attrib)
            self.assertEqual(page, {"class": "crackd-page", "width": "900", "height": root.attrib["height"]})


if __name__ == "__main__":
    unittest.main()
