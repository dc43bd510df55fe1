"""Pictures: which rows and bounds are counted, the ends of columns, and what scripts may contain."""

import contextlib
import io
import pathlib
import re
import tempfile
import unittest
import xml.etree.ElementTree

from ways import crackd, wants_program

from crackd import picture
from crackd.layout import Layout, PartLayout, Piece

TOP = 2**64
SVG = "{http://www.w3.org/2000/svg}"


def layout(bounds, rows, pending_in=0, pending_out=0):
    """A layout with pieces between these bounds, with so many rows each."""
    pieces = tuple(map(Piece, bounds, bounds[1:], rows))
    return PartLayout(0, sum(rows), sum(rows), pending_out, pending_in, 99, 9, pieces)


def query(before, after, low=0, high=TOP, text="count 0 end"):
    return picture.Query(text, low, high, "count 0", before, after)


class Queries(unittest.TestCase):
    """What a query cracked and merged, by the layouts before and after it."""

    def test_bounds_within_pieces(self):
        """A piece is cracked by a bound within it, and not by one at an end of it."""
        before = layout([0, 10, 20, TOP], [3, 5, 7])
        for bounds, rows, new, cracked in [
            ([0, 10, 20, TOP], [3, 5, 7], [], 0),
            ([0, 1, 10, 20, TOP], [1, 2, 5, 7], [1], 3),
            ([0, 9, 10, 20, TOP], [1, 2, 5, 7], [9], 3),
            ([0, 10, 11, 20, TOP], [3, 1, 4, 7], [11], 5),
            ([0, 10, 19, 20, TOP], [3, 1, 4, 7], [19], 5),
            ([0, 10, 12, 14, 20, TOP], [3, 1, 1, 3, 7], [12, 14], 5),
            ([0, 5, 10, 20, 30, TOP], [1, 2, 5, 3, 4], [5, 30], 10),
            ([0, 5, 10, 15, 20, TOP - 1, TOP], [1, 2, 2, 3, 7, 0], [5, 15, TOP - 1], 15),
        ]:
            found = query(before, layout(bounds, rows))
            self.assertEqual((bounds, found.new_bounds(), found.cracked()), (bounds, new, cracked))
            self.assertEqual((found.merged(), found.work()), (0, cracked))

    def test_rows_that_are_merged(self):
        for before, after, merged in [
            ((0, 0), (0, 0), 0), ((5, 0), (0, 0), 5), ((5, 0), (2, 0), 3), ((0, 4), (0, 1), 3), ((5, 4), (3, 1), 5),
            ((5, 4), (5, 4), 0),
        ]:
            pieces = [0, 10, TOP], [3, 4]
            found = query(layout(*pieces, *before), layout([0, 5, 10, TOP], [1, 2, 4], *after))
            self.assertEqual((before, found.merged(), found.work()), (before, merged, 3 + merged))


class Texts(unittest.TestCase):
    """What is read of scripts and of rows."""

    def test_rows(self):
        for lines, wanted in [
            ([], []),
            (["key,payload\n"], []),
            (["key,payload\n", "1,2\n", "\n", "  \n", "3,-4"], ["insert 1 2", "insert 3 -4"]),
            (["1,2\r\n", " 3,4 \n"], ["insert 1 2", "insert 3 4"]),
        ]:
            self.assertEqual(picture.statements_of_csv(lines), wanted)

    def test_statements(self):
        for line, wanted in {
            "count 0 end;\n": f"count 0 {TOP}",
            " sum  1   end ": f"sum 1 {TOP}",
            "select end end": f"select {TOP} {TOP}",
            "insert 1 1 ;": "insert 1 1", "count 1 2;;": "count 1 2;", "policy end": "policy end", "": "", " \n": "",
        }.items():
            self.assertEqual((line, picture.as_program_reads(line)), (line, wanted))

    def test_keys(self):
        for statements, wanted in [
            (["insert 5 1"], (5, 6)),
            (["insert 5 1", "insert 2 9", "delete 0.0"], (2, 6)),
            (["insert 5 100", "update 0.0 9 1"], (5, 10)),
            (["insert 5 100", "", "update 0.0 3 200"], (3, 6)),
            (["count 1 2", f"insert {TOP - 1} 1"], (TOP - 1, TOP)),
        ]:
            self.assertEqual((statements, picture.keys_in(statements)), (statements, wanted))
        for statements in ([], ["count 1 2"], ["delete 0.0"]):
            self.assertRaises(picture.ScriptError, picture.keys_in, statements)

    def test_replies(self):
        lines = ["row 0.0", "rows 2", "a", "b", "layout 0 rows 1 pieces 1", "c", "rows 0", "count 3"]
        wanted = [["row 0.0"], ["rows 2", "a", "b"], ["layout 0 rows 1 pieces 1", "c"], ["rows 0"], ["count 3"]]
        self.assertEqual(list(picture.replies(iter(lines))), wanted)
        asked = ["insert 1 1", "count 1 2", "sum 1 2", "select 1 2", "delete 0.0"]
        drawn = ["layout 3", None, "layout 3"]
        wanted = [asked[0], *(said or it for it in asked[1:4] for said in drawn), asked[4]]
        self.assertEqual(list(picture.with_layouts(asked, 3)), wanted)


class Strips(unittest.TestCase):
    """Where pieces, ranges and bounds are drawn, by the keys of the picture."""

    def boxes(self, found, low, high):
        """The boxes of a strip, as pairs of their class and their left end and width."""
        lines = "".join(picture.strip(found, 50, low, high, 10))
        boxes = re.findall(r'<rect class="(\w+)" x="([-\d.]+)" y="([-\d.]+)" width="([-\d.]+)"', lines)
        return [(kind, float(x), float(width)) for kind, x, _, width in boxes]

    def test_new_bounds(self):
        """A bound within the keys of the picture is marked, and one at their ends isn't."""
        width = picture.STRIP_WIDTH
        for bound, place in [(100, None), (101, 0.01), (150, 0.5), (199, 0.99), (200, None), (50, None), (250, None)]:
            found = query(layout([0, TOP], [10]), layout([0, bound, TOP], [5, 5]), 120, 180)
            marks = [it for it in self.boxes(found, 100, 200) if it[0] == "mark"]
            self.assertEqual(len(marks), 1 + (place is not None))
            self.assertEqual(marks[0][1:], (round(picture.LEFT + 0.2 * width, 1), round(0.6 * width, 1)))
            if place is not None:
                self.assertAlmostEqual(marks[1][1], picture.LEFT + place * width - 1, delta=0.06)

    def test_pieces(self):
        found = query(layout([0, TOP], [10]), layout([0, 50, 100, 150, 200, TOP], [1, 2, 3, 4, 5]), 0, TOP)
        boxes = self.boxes(found, 100, 200)
        half = picture.STRIP_WIDTH / 2
        shades = [picture.shade(it / 10) for it in (3, 4)]
        self.assertEqual([it[0] for it in boxes], [*shades, "mark", "mark"])
        self.assertEqual([it[1:] for it in boxes[:3]], [
            (picture.LEFT, round(half - 0.8, 1)), (picture.LEFT + half, round(half - 0.8, 1)),
            (picture.LEFT, float(picture.STRIP_WIDTH)),
        ])

    def test_narrow_pieces_have_a_width(self):
        bounds = [*range(0, 4000, 2)]
        found = query(layout([0, TOP], [10]), layout([*bounds, TOP], [0] * len(bounds)), 0, TOP)
        self.assertEqual([it for it in self.boxes(found, 0, 4000) if it[2] < 0], [])

    def test_shades(self):
        shades = [picture.shade(it) for it in (0, 1)]
        self.assertEqual(shades, ["shade0", f"shade{picture.SHADES - 1}"])
        self.assertEqual(picture.shade(0.25), f"shade{round(0.5 * (picture.SHADES - 1))}")


@wants_program
class Scripts(unittest.TestCase):
    """Scripts at their limits. Each picture is an XML document."""

    def drawn(self, text, *words, rows=None):
        with tempfile.TemporaryDirectory() as room, contextlib.redirect_stdout(io.StringIO()) as printed:
            path = pathlib.Path(room) / "script.txt"
            path.write_text(text, encoding="ascii")
            if rows is not None:
                (pathlib.Path(room) / "rows.csv").write_bytes(rows)
                words = (*words, "--csv", f"{room}/rows.csv")
            self.assertEqual(picture.main([str(path), *words]), 0)
        xml.etree.ElementTree.fromstring(printed.getvalue())
        return printed.getvalue()

    def works(self, drawn):
        """The numbers beside the bars."""
        found = re.findall(r'class="text" x="[0-9.]+" y="[0-9.]+" text-anchor="start">(\d+)<', drawn)
        return [int(it) for it in found]

    def test_one_query(self):
        text = "insert 10 1\ninsert 20 2\ninsert 30 3\ncount 15 end\n"
        # all three rows are merged, and an empty column is cracked
        self.assertEqual(self.works(self.drawn(text)), [3])
        self.assertIn("auto: 0</text>", self.drawn(text, "--policies"))

    def test_a_script_that_ends_before_its_last_line(self):
        text = "insert 10 1\ncount 15 end\nquit\ncount 5 end\nsum 0 end\n"
        drawn = self.drawn(text)
        self.assertEqual((drawn.count(">count 15 end<"), drawn.count(">count 5 end<")), (1, 0))

    def test_no_rows_are_left(self):
        drawn = self.drawn("insert 10 1\ndelete 0.0\ncount 5 end\ncount 5 end\n")
        self.assertEqual((drawn.count(">count 5 end<"), self.works(drawn)[-1:]), (2, [0]))

    def test_a_query_of_another_partition(self):
        drawn = self.drawn("insert 10 1\ninsert 150 2\ncount 0 50\n", "100", "--partition", "1", "--policy", "ripple")
        self.assertEqual(self.works(drawn), [0])

    def test_policies_of_the_script(self):
        """A picture of all policies ignores them, and one of a column doesn't."""
        rows = "".join(f"insert {it} 1\n" for it in range(9))
        for policy in crackd.base.POLICIES:
            text = f"policy {policy}\n{rows}count 4 5\n"
            drawn = self.drawn(text, "--policies")
            # docs/GUIDE.md: ripple merges what a range needs, and complete merges everything
            self.assertIn(">complete: 0</text>", drawn)
            self.assertIn(">ripple: 8</text>", drawn)
            self.assertEqual(drawn, self.drawn(text.partition("\n")[2], "--policies"))
        for policy, merged in [("complete", 9), ("ripple", 1)]:
            self.assertEqual(self.works(self.drawn(f"policy {policy}\n{rows}count 4 5\n")), [merged])
            self.assertEqual(self.works(self.drawn(f"{rows}count 4 5\n", "--policy", policy)), [merged])

    def test_rows_of_a_file(self):
        text = "count 15 end\n"
        wanted = self.drawn("insert 10 1\ninsert 20 -2\n" + text)
        marked = b"\xef\xbb\xbfkey,payload\r\n10,1\r\n\r\n20,-2"
        for rows in (b"10,1\n20,-2\n", marked, b"key,payload\n10,1\n\n20,-2\n\n"):
            self.assertEqual(self.drawn(text, rows=rows), wanted)

    def test_keys_of_updates(self):
        drawn = self.drawn("insert 10 1\nupdate 0.0 99 1\ncount 15 end\n")
        self.assertIn(">99</text>", drawn)


class Layouts(unittest.TestCase):
    """Layouts as images, at their limits."""

    def test_no_rows_and_no_partitions(self):
        for parts in ((), (layout([0, TOP], [0]),), (layout([0, 5, TOP], [0, 0]), layout([0, TOP], [0], 3))):
            drawn = Layout(parts).svg()
            xml.etree.ElementTree.fromstring(drawn)
            self.assertNotIn("inf", drawn.replace("info", ""))
            self.assertNotIn("nan", drawn)

    def test_pieces_add_up_to_the_width(self):
        """The longest bar ends at the margin, pending rows included, and each piece begins where the last one ends."""
        for rows, pending_in in [([1], 0), ([3, 4], 0), ([3, 0, 4, 5], 7), ([1] * 7, 1), ([0], 5)]:
            part = layout([*range(len(rows)), TOP], rows, pending_in, 1)
            smaller = layout([0, TOP], [1])
            root = xml.etree.ElementTree.fromstring(Layout((part, smaller)).svg())
            bars = [it for it in root.iter(f"{SVG}rect") if len(it)][: len(rows) + 1]
            lefts, widths = ([float(it.get(name)) for it in bars] for name in ("x", "width"))
            most = max(sum(rows) + pending_in, 1)
            scale = (900 - 130 - 8) / most
            for at, count in enumerate([*rows, pending_in]):
                self.assertAlmostEqual(widths[at], count * scale, delta=0.006)
                self.assertAlmostEqual(lefts[at], 130 + sum([*rows, pending_in][:at]) * scale, delta=0.006)


if __name__ == "__main__":
    unittest.main()
