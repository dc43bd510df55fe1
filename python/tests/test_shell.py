"""How the shell changes a statement before it sends it, treats names of files, and reports what it has loaded."""

import contextlib
import io
import os
import pathlib
import sys
import tempfile
import unittest
from unittest import mock

import ways  # finds the package

from crackd.shell import statements, texts, typing
from crackd.shell.console import with_ends
from crackd.shell.session import Loaded, Records
from crackd.wholefile import whole_text

TOP = b"18446744073709551616"


class Words(unittest.TestCase):
    def test_end_is_past_the_greatest_key_in_ranges_alone(self):
        self.assertEqual(ways.crackd.arrays.TOP, int(TOP))
        for given, wanted in [
            (b"count 0 end", b"count 0 " + TOP),
            (b" sum  5 end ", b" sum  5 " + TOP + b" "),
            (b"select end end", b"select " + TOP + b" " + TOP),
        ]:
            self.assertEqual(with_ends(given), wanted)
        for given in [b"insert end 1", b"end", b"count 0 ends", b"policy end", b""]:
            self.assertEqual(with_ends(given), given)


class Files(unittest.TestCase):
    """Files that are named at the prompt."""

    def setUp(self):
        room = tempfile.TemporaryDirectory()
        self.addCleanup(room.cleanup)
        self.room = pathlib.Path(room.name)

    def test_what_a_link_points_to_is_replaced(self):
        target, link = self.room / "rows.csv", self.room / "link.csv"
        target.write_text("old")
        link.symlink_to(target)
        with whole_text(str(link)) as file:
            file.write("new")
        self.assertEqual((link.is_symlink(), target.read_text()), (True, "new"))
        self.assertEqual(sorted(it.name for it in self.room.iterdir()), ["link.csv", "rows.csv"])

    def test_names_are_completed_as_they_are_written(self):
        for name in ("a1.csv", "a[1].csv", "a*.csv"):
            (self.room / name).touch()
        (self.room / "a[1]").mkdir()
        for word, wanted in [("a[", ["a[1]/", "a[1].csv "]), ("a*", ["a*.csv "]), ("a1", ["a1.csv "]), ("b", [])]:
            begun = f"{self.room}{os.sep}{word}"
            self.assertEqual(typing.completions(f".load {begun}", begun), [f"{self.room}{os.sep}{it}" for it in wanted])


class Statements(unittest.TestCase):
    """What is wrong with a statement that was refused, and the help for one."""

    FAULTS = {
        "count": "count needs LO and HI: count LO HI",
        "count 5": "count needs HI: count LO HI",
        "  count   5  ": "count needs HI: count LO HI",
        "count 5 10 15": "count takes no '15': count LO HI",
        "ping now": "ping takes no 'now': ping",
        "stats 0 1": "stats takes no '1': stats [P]",
        "insert 7": "insert needs V: insert K V",
        "update 0.0 7": "update needs V: update P.S K V",
        "COUNT 0 10": "statements are in lower case: count",
        "Insert 7 70": "statements are in lower case: insert",
        "insert 7.5 70": "7.5 isn't a whole number; K is a key, a whole number from 0 to 18446744073709551615",
        "count 0 .5": ".5 isn't a whole number; HI is the key past its last one; the word end is past all keys",
        "insert -7 70": "'-7' is no key; K is a key, a whole number from 0 to 18446744073709551615",
        "insert +7 70": "+7 has a sign; K is a key, a whole number from 0 to 18446744073709551615",
        "insert 18446744073709551616 1": "'18446744073709551616' is no key; K is a key, a whole number from 0 to "
        "18446744073709551615",
        "insert 1 9223372036854775808": "'9223372036854775808' is no payload; V is a payload, a whole number from "
        "-9223372036854775808 to 9223372036854775807",
        "delete 7": "'7' is no row number; P.S is a row number, as an insert or a select gives it: 0.7",
        "delete 0.1.2": "'0.1.2' is no row number; P.S is a row number, as an insert or a select gives it: 0.7",
        "delete 4294967296.0": "4294967296.0 is greater than any row number",
        "layout x": "'x' is no partition; P is the number of a partition, from 0",
        "policy fast": "'fast' isn't a policy; NAME is one of complete, gradual, ripple, auto",
        "fetch 7": "'fetch' isn't a statement; help lists them",
        "conut 0 5": "'conut' isn't a statement; help lists them; is it count?",
        "count\t0 5": "'count\\t0' isn't a statement; help lists them; is it count?",
        "count 0 " + "1" * 200: "the line has more than 200 bytes",
        "count 0 5": "",
        "insert 18446744073709551615 -9223372036854775808": "",
        "stats": "",
        "": "",
    }

    def test_what_is_wrong(self):
        for line, fault in self.FAULTS.items():
            self.assertEqual((line, statements.fault_in(line)), (line, fault))
        self.assertTrue(statements.fault_in("x" * 200).endswith("isn't a statement; help lists them"))
        self.assertEqual(statements.fault_in("x" * 201), "the line has more than 200 bytes")

    def test_each_statement_has_its_own_help(self):
        self.assertEqual(list(statements.STATEMENTS), [it for it in typing.WORDS if it not in ("exit", "help")])
        for name, known in statements.STATEMENTS.items():
            self.assertTrue(statements.help_of(name).startswith(f"{name}"))
            self.assertIn(known.does, statements.help_of(name))
        self.assertEqual(
            statements.help_of("count"),
            "count LO HI: counts the rows with keys from LO up to but not including HI\n"
            "  LO is the first key of the range\n"
            "  HI is the key past its last one; the word end is past all keys\n"
            "  example: count 5 10",
        )
        self.assertIn("count ", typing.completions("help cou", "cou"))


class Complaints(unittest.TestCase):
    """What is written to standard error."""

    def test_a_complaint_comes_after_what_was_answered_before(self):
        written = io.BytesIO()
        out, errors = io.TextIOWrapper(written), io.TextIOWrapper(written)
        with contextlib.redirect_stdout(out), contextlib.redirect_stderr(errors):
            print("row 0.0")
            texts.complain("it ends")
            sys.stdout.flush()
            self.assertEqual(written.getvalue(), b"row 0.0\nshell: it ends\n")


if __name__ == "__main__":
    unittest.main()
