"""What `load_csv` finds out about a file, what it refuses, and which arguments its refusals name."""

import datetime
import decimal
import gzip
import io
import itertools
import os
import pathlib
import pickle
import random
import tempfile
import unittest
from unittest import mock

from clusters import wants_pandas
from test_lines import WithFiles
from test_pandascsv import ByPandas
from ways import InProcess, InShards, OverTcp, crackd, np, wants_library, wants_numpy, wants_program, wants_shards

from crackd import csvfile, finding, times
from crackd.evidence import Evidence, shape_of
from crackd.fields import Column, decimals_of_numpy, has_leading_zero

EPOCH = datetime.datetime(1970, 1, 1)
D = decimal.Decimal


class WithRefusals(WithFiles):
    """Cases of files that load, or are refused and then load with the arguments that the refusal names."""

    def loaded(self, text, **options):
        """A table of a file with this text."""
        table = crackd.load_csv(self.path(text) if isinstance(text, str) else text, **options)
        self.addCleanup(table.close)
        return table

    def refused(self, text, needs, **options):
        """The error of a file that needs these arguments. It loads with the first value of each."""
        path = self.path(text) if isinstance(text, str) else text
        with self.assertRaises(crackd.CsvError) as caught:
            crackd.load_csv(path, **options).close()
        error = caught.exception
        self.assertEqual(error.needs, needs, str(error))
        for name, values in needs.items():
            self.assertIn(" or ".join(f"{name}={it!r}" for it in values), str(error))
        if needs:
            self.loaded(path, **{**options, **{name: values[0] for name, values in needs.items()}})
        return error

    def numbers(self, text, **options):
        """The keys and payloads as the table stores them, in the order of the file."""
        table = self.loaded(text, **options)
        rows, keys, payloads = table.select(raw=True)
        found = dict(zip(map(int, rows), zip(keys.tolist(), payloads.tolist())))
        return [found[int(it)] for it in table.row_numbers]


@wants_library
@wants_numpy
class Found(WithRefusals, unittest.TestCase):
    """Files that load without an argument."""

    def test_delimiters(self):
        for delimiter in ",;\t|":
            text = f"id{delimiter}n\n1{delimiter}20\n-3{delimiter}40\n"
            self.assertEqual(self.numbers(text), [(1, 20), (-3, 40)])
            self.assertEqual(self.loaded(text).found["delimiter"], delimiter)
        # other delimiters in a text, and in quotes
        self.assertEqual(self.numbers("a;b;c\n1;2;x, y\n3;4;z, w\n"), [(1, 2), (3, 4)])
        self.assertEqual(self.numbers('a,b,c\n1,2,"x;y"\n3,4,"z;w"\n'), [(1, 2), (3, 4)])
        self.assertEqual(self.numbers("a\tb\tc\n1\t2\tx, y\n3\t4\tz|w\n"), [(1, 2), (3, 4)])
        self.assertEqual(self.numbers("k|p\n1|2\n", key="k"), [(1, 2)])

    def test_headers(self):
        for header, rows in itertools.product(("", "time,n\n", '"a","b"\n', ",n\n"), ("1,2\n3,4\n", "2020-01-01,2\n")):
            table = self.loaded(header + rows)
            self.assertEqual((len(table), table.found["header"]), (rows.count("\n"), bool(header)))
        names = {"key": "time", "payload": "n"}
        self.assertEqual(names, {it: self.loaded("time,n\n1,2\n").found[it] for it in names})
        self.assertEqual(self.loaded("1,2\n").found["key"], 0)
        self.assertEqual(self.loaded("n,n\n1,2\n").found["payload"], 1)
        self.assertEqual(self.numbers("a,b\n"), [])
        self.assertEqual(self.numbers(""), [])

    def test_long_lines(self):
        """A header that is longer than a sample."""
        names = [f"a column with a long name, number {it}" for it in range(3000)]
        header = ";".join(names)
        text = header + "\n" + ";".join(["7"] * 3000) + "\n"
        self.assertGreater(len(header), 3 * finding.SAMPLE)
        self.assertEqual(self.numbers(text), [(7, 7)])
        self.assertEqual(self.loaded(text, payload=names[2999]).found["key"], names[0])

    def test_a_good_file_is_not_surveyed(self):
        text = "t,p\n" + "2020-01-01 00:00:00,1.5\n" * 20_000
        with mock.patch.object(finding.Finder, "_surveyed", side_effect=AssertionError):
            self.assertEqual(len(self.loaded(text)), 20_000)

    def test_a_header_for_some_columns_only(self):
        error = self.refused("id,2019\n1,5\n2,6\n", {"header": (True,)})
        self.assertEqual(error.line, 1)
        self.assertEqual(self.numbers("id,2019\n1,5\n2,6\n", header=True), [(1, 5), (2, 6)])

    def test_decimals_have_the_most_places_that_occur(self):
        for most in range(1, 10):
            fields = [f"{at}.{'3' * at}" if at else "7" for at in range(most + 1)]
            for order in (fields, fields[::-1]):
                table = self.loaded("k,p\n" + "".join(f"{it},-{it}\n" for it in order))
                self.assertEqual((table.key_decimals, table.payload_decimals), (most, most))
                self.assertEqual(table.sum(), -sum(map(D, fields)))
        self.assertEqual(self.numbers(".5,1.\n-.25,-0.0\n"), [(50, 10), (-25, 0)])

    def test_floats(self):
        text = "k,p\n1.5e3,1\n-2E-3,2\n7,3\n0.5,4\n"
        table = self.loaded(text)
        self.assertEqual(table.key_type, "float64")
        self.assertEqual(self.numbers(text), [(1500.0, 1), (-0.002, 2), (7.0, 3), (0.5, 4)])
        self.assertEqual(self.loaded("k,p\n0.1234567891,1\n").key_type, "float64")
        self.assertEqual(self.loaded("k,p\n0.123456789,1\n").key_type, "int64")
        self.assertEqual(self.loaded("k,p\ninf,1\n2,3\n").key_type, "float64")
        # payloads with exponents are decimals
        table = self.loaded("k,p\n1,1e3\n2,2.5e-2\n3,-7\n")
        self.assertEqual((table.payload_decimals, table.sum()), (3, D("993.025")))

    def test_integers(self):
        self.assertEqual(self.loaded(f"{2**63 - 1},1\n{-(2**63)},2\n").key_type, "int64")
        self.assertEqual(self.numbers(f"{2**64 - 1},1\n0,2\n"), [(2**64 - 1, 1), (0, 2)])
        self.assertEqual(self.loaded(f"{2**63},1\n0,2\n").key_type, "uint64")
        self.assertEqual(self.numbers("+1,2\n 3 , 4\n"), [(1, 2), (3, 4)])

    def test_dates(self):
        day, second = 86_400_000_000, 1_000_000
        base = (datetime.datetime(2020, 2, 29) - EPOCH) // datetime.timedelta(microseconds=1)
        for date in ("2020-02-29", "2020/02/29", "2020/2/29", "2020-2-29"):
            for clock, more in {
                "": 0,
                "T03": 3 * 3600 * second,
                " 03:04": 11_040 * second,
                "T03:04:05": 11_045 * second,
                " 03:04:05.5": 11_045 * second + 500_000,
                " 3:04:05,250": 11_045 * second + 250_000,
                "T03:04:05.123456": 11_045 * second + 123_456,
            }.items():
                field = f'"{date}{clock}"'
                with self.subTest(field):
                    table = self.loaded(f"when,n\n{field},5\n")
                    self.assertEqual(table.key_type, "datetime64[us]")
                    keys = table.select().keys
                    self.assertEqual(int(keys.astype("int64")[0]), base + more)
        # forms of several widths in a column
        fields = ["2020-02-29", "2020-02-29T00:00:01", "2020-02-29 00:00:01.5", "2020/3/1"]
        found = self.loaded("".join(f"{it},1\n" for it in fields)).select().keys.astype("int64").tolist()
        self.assertEqual(found, [base, base + second, base + 1_500_000, base + day])

    def test_offsets_become_utc(self):
        base = int((datetime.datetime(2020, 1, 1, 12) - EPOCH).total_seconds()) * 10**6
        for field, hours in [("Z", 0), ("+01:00", -1), ("-0230", 2.5), ("+05", -5), (" +01:00", -1)]:
            table = self.loaded(f"when,n\n2020-01-01T12:00:00{field},5\n")
            self.assertEqual(int(table.select().keys.astype("M8[us]").astype("int64")[0]), base + hours * 3600 * 10**6)
        for other in ("2020-01-01 12:00:00", "2020-01-01"):
            error = self.refused(f"when,n\n2020-01-01T12:00:00Z,5\n{other},6\n", {})
            self.assertEqual((error.line, error.column), (3, 1))

    def test_nanoseconds(self):
        table = self.loaded("t,n\n2020-01-01 00:00:00.000000001,5\n2020-01-01 00:00:00,6\n")
        self.assertEqual(table.key_type, "datetime64[ns]")
        self.assertEqual(table.count("2020-01-01T00:00:00.000000001"), 1)

    def test_the_key_is_the_only_column_with_dates(self):
        for text in ("when,n\n2020-01-01,5\n", "n,when\n5,2020-01-01\n"):
            for options in ({}, {"key": "when"}, {"payload": "n"}):
                table = self.loaded(text, **options)
                self.assertEqual((table.found["key"], table.found["payload"], table.sum()), ("when", "n", 5))
        text = "n,when,m\n5,2020-01-01,7\n"
        self.assertEqual(self.loaded(text, payload="m").found["key"], "when")
        self.assertEqual(self.loaded(text, key="m").found["payload"], "when")
        self.assertEqual(self.loaded(text, payload=None).found["key"], "when")
        text = "from,to\n2020-01-01,1970-01-02\n"
        table = self.loaded(text)
        self.assertEqual((table.found["key"], table.sum()), ("from", 86_400_000_000))
        self.assertEqual(self.loaded("a,b\n1,2\n").found["key"], "a")

    def test_what_is_given_is_taken_as_it_is(self):
        self.assertEqual(self.numbers("007,010\n", key_decimals=0, payload_decimals=0), [(7, 10)])
        self.assertEqual(self.loaded("k,p\n1,2\n", key_type="float64").key_type, "float64")
        self.assertEqual(self.loaded("k,p\n1.5,2\n", key_decimals=3).key_decimals, 3)
        self.assertEqual(self.numbers("1.5,2\n2.5,3\n", key_decimals=1, header=True), [(25, 3)])
        error = self.refused("k,p\n1.5,2\n", {}, key_decimals=0)
        self.assertIn("'1.5' isn't an integer", str(error))
        table = self.loaded("k,p\n03/04/2010,1\n", key_format="%m/%d/%Y")
        self.assertEqual(str(table.select().keys[0])[:10], "2010-03-04")

    def test_what_was_found_loads_the_same_file(self):
        for text in [
            "a,b\n1,2\n",
            "1;2.5\n2;3\n",
            "t,n\n2020-01-01 00:00,1e2\n2020-01-02,7\n",
            f"k|p\n{2**64 - 1}|-1.25\n",
            "n,t,n\n5,2020-01-01T00:00:00Z,6\n",
            "k\tp\n1e5\t1\n",
            'k;p\n1,5;"2,25"\n',
        ]:
            options = {"decimal": ","} if '"' in text else {}
            table = self.loaded(text, **options)
            again = self.loaded(text, **table.found)
            self.assertEqual(again.found, table.found)
            for one, other in zip(again.select(raw=True), table.select(raw=True)):
                self.assertEqual(one.tolist(), other.tolist())

    def test_the_text_of_a_table(self):
        for text, said in {
            "when,temp\n2020-01-01,1.5\n": "of key 'when' (year, month, day), payload 'temp' (1 decimal place), "
            "a header, delimiter ','",
            "1;2\n": "of key 0 (integers), payload 1 (integers), no header, delimiter ';'",
            "k|p\n1e5|2.25\n": "of key 'k' (floats), payload 'p' (2 decimal places), a header, delimiter '|'",
        }.items():
            self.assertIn(said, repr(self.loaded(text)))
        said = repr(self.loaded("k;p\n1,5;2\n", decimal=",", payload=None))
        self.assertIn("of key 'k' (1 decimal place), a header, delimiter ';', decimal sign ','", said)
        self.assertNotIn("of key", repr(crackd.Table()))
        self.assertIsNone(crackd.Table().found)

    def test_a_save_keeps_what_was_found(self):
        with tempfile.TemporaryDirectory() as room:
            path = pathlib.Path(room) / "rows.npy"
            texts = ["wänn,temp\n2020-01-01 00:00:00Z,1.5\n", "1;2\n", "k|p\n1e5|2.25\n", f"{'k' * 5000},p\n1,2\n"]
            for text in texts:
                table = self.loaded(text)
                table.insert(table.select().keys[0], 7)
                table.save(path)
                again = crackd.Table.load(path)
                self.addCleanup(again.close)
                self.assertEqual((again.found, again.key_type), (table.found, table.key_type))
                self.assertEqual((again.sum(), again.zone), (table.sum(), table.zone))
                self.assertIn("of key", repr(again))
                again.save(path)
                self.assertEqual(crackd.Table.load(path).found, table.found)
                self.assertEqual(table.rebalanced().table.found, table.found)
            table = self.loaded("1,2\n")
            for wrong in (5, [], "x", {"key": 0}, {}):
                table._told = {"found": wrong}
                table.save(path)
                with self.assertRaises(crackd.BadSave):
                    crackd.Table.load(path)


@wants_library
@wants_numpy
class Refused(WithRefusals, unittest.TestCase):
    """Files that are refused, with all arguments that they need."""

    def test_columns_that_fit(self):
        text = "name,when,price\nx,Jan 1 2000,39.81\ny,Feb 11 2000,24\n"
        needs = {"key": ("when",), "payload": ("price",), "key_format": ("%b %d %Y",)}
        error = self.refused(text, needs)
        self.assertEqual((error.line, error.column), (2, 1))
        said = "column 1 (name): 'x' is neither a number nor a date; the columns that fit are when, price"
        self.assertIn(said, str(error))
        self.refused("x,5,y,6\n", {"key": (1,), "payload": (3,)})
        self.refused("when,name,n\n2020-01-01,x,5\n", {"key": ("when",), "payload": ("n",)})
        self.refused("when,name,n\n2020-01-01,x,5\n", {"key": ("when",), "payload": ("n",)}, payload="name")
        self.refused("a,b,c,d\nx,1,2,2020-01-01\n", {"key": ("d",), "payload": ("b",)})
        self.assertIn("the columns that fit are none", str(self.refused("a,b\nx,y\n", {})))

    def test_dates_in_another_order(self):
        both = ("%d/%m/%Y", "%m/%d/%Y")
        self.refused("when,n\n03/04/2010,1\n05/06/2010,2\n", {"key_format": both})
        self.refused("when,n\n03/04/2010,1\n25/06/2010,2\n", {"key_format": both[:1]})
        self.refused("when,n\n03/04/2010,1\n05/26/2010,2\n", {"key_format": both[1:]})
        for field, form in {
            "25.12.2010": "%d.%m.%Y",
            "25.12.2010 13:14": "%d.%m.%Y %H:%M",
            "12/25/2010 01:14:15 PM": "%m/%d/%Y %I:%M:%S %p",
            "25-Dec-2010": "%d-%b-%Y",
            "25 December 2010": "%d %B %Y",
            '"Dec 25, 2010"': "%b %d, %Y",
            "[25/Dec/2010:10:11:12 +0000]": "[%d/%b/%Y:%H:%M:%S %z]",
            "2010-12": "%Y-%m",
            "2010.12.25": "%Y.%m.%d",
        }.items():
            with self.subTest(field):
                self.refused(f"when,n\n{field},1\n", {"key_format": (form,)})
        self.refused("n,when\n1,25.12.2010\n", {"key_format": ("%d.%m.%Y",)})
        self.refused("n,when\n1,25.12.2010\n", {"payload_format": ("%d.%m.%Y",)}, key="n")

    def test_decimal_signs(self):
        self.refused("k;p\n1;2,5\n", {"decimal": (",",)})
        self.refused("k;p\n1;1.234\n", {"decimal": (".", ",")})
        self.refused("k;p\n1;1.234\n2;1.234,5\n", {"decimal": (",",)})
        self.refused("k;p\n1,5;2,5\n", {"decimal": (",",)})
        self.refused('k,p\n1,"2,5"\n', {"decimal": (",",)})
        self.refused('k,p\n1,"1,234"\n', {"decimal": (".", ",")})
        self.refused('k,p\n1,"1,234,567"\n', {"decimal": (".",)})
        self.refused('k,p\n1,"1,234.50"\n', {"decimal": (".",)})
        self.refused("k\tp\n1\t1 234\n", {"decimal": (".", ",")})
        # one column says it for both
        self.refused("k;p\n1.234;2,5\n", {"decimal": (",",)})
        self.refused("k;p\n1.5;2,5\n", {})
        # a point that can't be anything else
        for text in ("k;p\n1;1.234\n2;0.5\n", "k;p\n1;1.234\n2;0.123\n", "k,p\n1,1.234\n", "k\tp\n1\t1.234\n"):
            self.assertEqual(self.numbers(text)[0], (1, 1234))

    def test_numbers_by_the_decimal_sign(self):
        text = 'k;p\n1.234,5;-1.000\n7;"12,25"\n0,5;3\n'
        self.assertEqual(self.numbers(text, decimal=","), [(12345, -100000), (70, 1225), (5, 300)])
        text = 'k,p\n"1,234.5",1\n7,"12,345"\n'
        self.assertEqual(self.numbers(text, decimal="."), [(12345, 1), (70, 12345)])
        for wrong in ("12,34.5", "1,2345", "0,123", ",123", "1,,234"):
            self.assertEqual(self.refused(f'k,p\n1,"{wrong}"\n', {}, decimal=".").line, 2)
        for wrong in ("", ";", None, 5, ".,"):
            if wrong is not None:
                self.assertRaisesRegex(ValueError, "decimal must be", self.loaded, "1,2\n", decimal=wrong)

    def test_leading_zeros(self):
        self.refused("k,p\n007,1\n", {"key_type": ("int64",)})
        self.refused("k,p\n7,01\n", {"payload_decimals": (0,)})
        self.refused("k,p\n007.5,-01.25\n", {"key_decimals": (1,), "payload_decimals": (2,)})
        error = self.refused("k,p\n1,0\n0,-0\n10,+07\n", {"payload_decimals": (0,)})
        self.assertEqual((error.line, error.column), (4, 2))
        self.assertEqual(self.numbers("k,p\n0,0\n-0,+0\n0.5,0.25\n"), [(0, 0), (0, 0), (5, 25)])
        # in a column that isn't read they don't matter
        self.assertEqual(self.numbers("k,p,zip\n1,2,01234\n"), [(1, 2)])

    def test_gaps(self):
        for gap in ("", " ", "NA", "NaN", "null", "None", "N/A", "nan"):
            error = self.refused(f"k,p\n1,2\n3,{gap}\n", {"missing": ("skip",)})
            self.assertEqual((error.line, error.column), (3, 2))
            text = f"k,p\n1,2\n3,{gap}\n{gap},5\n{gap},{gap}\n6,7\n"
            table = self.loaded(text, missing="skip")
            self.assertEqual((table.skipped, self.numbers(text, missing="skip")), (3, [(1, 2), (6, 7)]))
        self.assertEqual(self.loaded("k,p\n1,2\n", missing="skip").skipped, 0)
        self.assertEqual(self.loaded("k,p\n1,2\n").skipped, 0)
        # without payloads the rows keep their numbers
        self.assertEqual(self.numbers("k,p\n1,x\n,y\n3,z\n", payload=None, missing="skip"), [(1, 0), (3, 2)])
        # a short record is no gap
        self.assertEqual(self.refused("k,p\n1,2\n3\n", {}, missing="skip").line, 3)
        for wrong in ("drop", None, True, 5):
            self.assertRaisesRegex(ValueError, "missing must be", self.loaded, "1,2\n", missing=wrong)

    def test_all_arguments_at_once(self):
        text = "zone;when;fare;tip\nx;25.12.2010 10:11;12,50;\ny;26.12.2010 10:11;;1,5\n"
        needs = {"key": ("when",), "payload": ("fare",), "key_format": ("%d.%m.%Y %H:%M",), "missing": ("skip",)}
        needs["decimal"] = (",",)
        self.refused(text, needs)
        table = self.loaded(text, **{name: it[0] for name, it in needs.items()})
        self.assertEqual((len(table), table.skipped, table.sum()), (1, 1, D("12.50")))

    def test_one_column(self):
        error = self.refused("k\n1\n2\n", {"payload": (None,)})
        self.assertIn("the line has only 1 field", str(error))

    def test_a_payload_that_no_integer_stands_for(self):
        self.refused("k,p\n1,0.12345678901\n", {"payload_decimals": (11,)})
        self.assertEqual(self.refused(f"k,p\n1,{2**63}\n", {}).column, 2)
        self.refused("k,p\n1,inf\n", {})
        self.refused("k,p\n1,1e-30\n", {})

    def test_numbers_and_dates_in_a_column(self):
        self.assertEqual(self.refused("k,p\n2020-01-01,1\n7,2\n", {}).line, 3)
        self.assertEqual(self.refused("k,p\n2020-01-01,1\n25.12.2010,2\n", {}).line, 3)

    def test_delimiters_that_fit_alike(self):
        text = "1\t2\t3|4\n5\t6\t7|8\n"
        with mock.patch.object(finding, "score_of", lambda _: (1, 1)):
            with self.assertRaises(crackd.CsvError) as caught:
                crackd.load_csv(self.path(text))
        self.assertEqual(caught.exception.needs, {"delimiter": ("\t", "|")})

    def test_errors_are_pickled(self):
        error = self.refused("k,p\n1,2\n3,\n", {"missing": ("skip",)})
        again = pickle.loads(pickle.dumps(error))
        for name in ("path", "line", "column", "needs", "args"):
            self.assertEqual(getattr(again, name), getattr(error, name))


@wants_pandas
class RefusedByPandas(ByPandas, Refused):
    """The same, where pandas reads what it can."""


@wants_pandas
class FoundByPandas(ByPandas, Found):
    """The same, where pandas reads what it can."""


@wants_library
@wants_numpy
class TheRest(WithRefusals, unittest.TestCase):
    """Files whose last record isn't as the others: they are read as all of their records say, or refused."""

    ROWS = 3000

    def text(self, last, other="5"):
        return "k,p\n" + "".join(f"{at},{other}\n" for at in range(self.ROWS)) + last

    def test_other_types(self):
        self.assertEqual(self.loaded(self.text("1,2.25\n")).sum(), self.ROWS * 5 + D("2.25"))
        self.assertEqual(self.loaded(self.text("0.5,2\n")).key_decimals, 1)
        self.assertEqual(self.loaded(self.text("1e3,2\n")).key_type, "float64")
        self.assertEqual(self.loaded(self.text(f"{2**63},2\n")).key_type, "uint64")
        self.assertEqual(self.loaded(self.text("1,2e-1\n")).sum(), self.ROWS * 5 + D("0.2"))
        text = self.text("1,2.125\n", "5.5")
        self.assertEqual(self.loaded(text).payload_decimals, 3)
        days = "t,p\n" + "2020-01-01,1\n" * self.ROWS
        self.assertEqual(len(self.loaded(days + "2020/1/2 10:00:00.5,1\n")), self.ROWS + 1)
        self.assertEqual(self.loaded(days + "2020-01-02 10:00:00.5000001,1\n").key_type, "datetime64[ns]")

    def test_refusals(self):
        for last, needs in [
            ("007,1\n", {"key_type": ("int64",)}),
            ("7,-01\n", {"payload_decimals": (0,)}),
            ('7,"1,5"\n', {"decimal": (",",)}),
            ("7,\n", {"missing": ("skip",)}),
            ("7,x\n", {}),
            ("7,2020-01-01\n", {}),
            (f"7,{2**63}\n", {}),
            ("7\n", {}),
        ]:
            with self.subTest(last):
                error = self.refused(self.text(last), needs)
                self.assertEqual(error.line, self.ROWS + 2)

    def test_what_the_last_record_makes_clear(self):
        rows = "k;p\n" + "1;1.234\n" * self.ROWS
        self.refused(rows, {"decimal": (".", ",")})
        self.assertEqual(self.loaded(rows + "1;0.5\n").payload_decimals, 3)
        rows = "k,p\n" + "03/04/2010,1\n" * self.ROWS
        self.refused(rows + "25/04/2010,1\n", {"key_format": ("%d/%m/%Y",)})

    def test_nothing_is_loaded_into_a_table(self):
        with crackd.Table() as table:
            table.insert(1, 2)
            for last in ("7,\n", "x,1\n", "7\n", "1.5,1\n"):
                self.assertRaises(crackd.CsvError, crackd.load_csv, self.path(self.text(last)), into=table)
                self.assertEqual((table.count(), table.sum()), (1, 2))


@wants_pandas
class TheRestByPandas(ByPandas, TheRest):
    """The same, where pandas reads what it can."""


class Wanted(WithFiles):
    """Loads into a table, which says what is wanted."""

    def test_types(self):
        with self.table(key_type="float64") as table:
            crackd.load_csv(self.path("k,p\n1,2\n0.1,3\n"), into=table)
            self.assertEqual((table.count(0.1, 0.2), table.sum()), (1, 5))
        with self.table(key_type="uint64") as table:
            crackd.load_csv(self.path("k,p\n007,2\n"), into=table)
            self.assertRaises(crackd.CsvError, crackd.load_csv, self.path("k,p\n-1,2\n"), into=table)
            self.assertRaises(crackd.CsvError, crackd.load_csv, self.path("k,p\n2020-01-01,2\n"), into=table)
            self.assertEqual((table.count(7, 8), table.count()), (1, 1))
        with self.table(key_type="datetime64[s]") as table:
            crackd.load_csv(self.path("n;t\n5;2020-01-01 00:00\n"), into=table)
            self.assertRaises(crackd.CsvError, crackd.load_csv, self.path("k,p\n7,2\n"), into=table)
            self.assertEqual((table.count("2020-01-01", "2020-01-02"), table.sum()), (1, 5))

    def test_gaps(self):
        with self.table() as table:
            self.assertRaises(crackd.CsvError, crackd.load_csv, self.path("1,2\n3,\n"), into=table)
            crackd.load_csv(self.path("1,2\n3,\n"), into=table, missing="skip")
            self.assertEqual((table.skipped, table.count()), (1, 1))


@wants_shards
class WantedInShards(Wanted, InShards, unittest.TestCase):
    """In the process, in several shards."""


@wants_library
@wants_numpy
class WantedHere(Wanted, InProcess, unittest.TestCase):
    """In the process."""

    def test_decimals(self):
        with crackd.Table(key_decimals=1, payload_decimals=2) as table:
            crackd.load_csv(self.path("k,p\n1,2\n0.5,3.25\n"), into=table)
            self.assertEqual((table.sum(), table.sum(0, 1)), (D("5.25"), D("3.25")))
            with self.assertRaisesRegex(crackd.CsvError, "'3.255' has more than 2 decimal places"):
                crackd.load_csv(self.path("k,p\n1,2\n0.5,3.255\n"), into=table)
            self.assertEqual(table.count(), 2)


@wants_program
@wants_numpy
class WantedOverTcp(Wanted, OverTcp, unittest.TestCase):
    """Over TCP."""


@wants_library
@wants_numpy
class Sources(WithRefusals, unittest.TestCase):
    """Compressed files, open files, and encodings."""

    TEXT = "k;name;p\n1;ä;2\n3;ö;4\n"
    HOW = {"key": "k", "payload": "p"}

    def test_gzip(self):
        path = self.path("").with_suffix(".csv.gz")
        path.write_bytes(gzip.compress(self.TEXT.encode()))
        self.assertEqual(self.numbers(path, **self.HOW), [(1, 2), (3, 4)])
        with open(path, "rb") as file:
            self.assertEqual(self.numbers(file, **self.HOW), [(1, 2), (3, 4)])
        for content in (gzip.compress(self.TEXT.encode())[:-9], gzip.compress(self.TEXT.encode())[:12] + b"xxxxxxxx"):
            path.write_bytes(content)
            with self.assertRaisesRegex(crackd.CsvError, "rows.csv.gz: the gzip file is damaged"):
                crackd.load_csv(path)

    def test_open_files(self):
        for file in (io.StringIO(self.TEXT), io.BytesIO(self.TEXT.encode()), io.StringIO("\ufeff" + self.TEXT)):
            self.assertEqual(self.numbers(file, **self.HOW), [(1, 2), (3, 4)])
        path = self.path(self.TEXT)
        for how in ({"mode": "rb"}, {"mode": "r", "encoding": "utf-8"}):
            with open(path, **how) as file:
                self.assertEqual(self.numbers(file, **self.HOW), [(1, 2), (3, 4)])
        with self.assertRaisesRegex(crackd.CsvError, "<StringIO>, line 2, column 2: 'x' is neither"):
            crackd.load_csv(io.StringIO("1,2\n3,x\n"))
        with open(self.path("1,2\n3,x\n"), "rb") as file:
            with self.assertRaisesRegex(crackd.CsvError, f"{file.name}, line 2, column 2"):
                crackd.load_csv(file)

    def test_other_encodings_are_refused_with_their_line(self):
        for at, encoding, end in itertools.product((1, 2, 5000), ("latin-1", "cp1252"), ("\n", "\r\n", "\r")):
            lines = ["k;name;p"] + ["1;x;2"] * 5000
            lines[at] = "1;ä;2"
            with self.subTest(at=at, end=end):
                error = self.refused(
                    self.path(end.join(lines) + end, encoding), {"encoding": ("latin-1",)}, **self.HOW
                )
                self.assertEqual(error.line, at + 1)
                self.assertIn(f"rows.csv, line {at + 1}: the text isn't UTF-8", str(error))
        path = self.path(self.TEXT, "utf-16")
        self.assertEqual(self.refused(path, {"encoding": ("utf-16",)}, **self.HOW).line, 1)
        # with all other arguments
        needs = {"key": ("k",), "payload": ("p",), "encoding": ("latin-1",)}
        error = self.refused(self.path(self.TEXT, "latin-1"), needs)
        self.assertEqual(error.line, 2)

    def test_paths_of_bytes(self):
        path = os.fsencode(self.path("1,2\n3,x\n"))
        with self.assertRaisesRegex(crackd.CsvError, "rows.csv, line 2, column 2"):
            crackd.load_csv(path)
        self.assertEqual(self.numbers(os.fsencode(self.path("1,2\n"))), [(1, 2)])

    def test_a_missing_file(self):
        self.assertRaises(FileNotFoundError, crackd.load_csv, "missing.csv")


@wants_pandas
class SourcesByPandas(ByPandas, Sources):
    """The same, where pandas reads what it can."""


class Drawn(WithRefusals):
    """Files that are drawn by chance load without an argument, as they were drawn."""

    def test_drawn_files(self):
        drawn = random.Random(11)
        for seed in range(60):
            kinds = [drawn.choice(["integer", "decimal", "time"]) for _ in range(2)]
            if kinds.count("time") == 2:
                kinds[1] = "integer"
            delimiter, has_header = drawn.choice(",;\t|"), drawn.random() < 0.6
            places = [drawn.randrange(1, 10) for _ in range(2)]
            rows = [[self.value(drawn, *it) for it in zip(kinds, places)] for _ in range(drawn.randrange(1, 60))]
            if delimiter == ";" and 3 in places:
                continue
            lines = [["first", "second"]] * has_header + [[text for text, _ in row] for row in rows]
            text = "".join(delimiter.join(it) + drawn.choice(["\n", "\r\n"]) for it in lines)
            with self.subTest(seed=seed, text=text[:300]):
                key = 1 if kinds[1] == "time" else 0
                wanted = [(row[key][1], row[1 - key][1]) for row in rows]
                table = self.loaded(text)
                self.assertEqual(table.found["header"], has_header)
                found = self.numbers(text)
                scales = [10 ** (0 if it == "time" else 9) for it in (kinds[key], kinds[1 - key])]
                decimals = [table.key_decimals, table.payload_decimals]
                got = [
                    tuple(as_number(it, scale, own) for it, scale, own in zip(row, scales, decimals)) for row in found
                ]
                self.assertEqual(got, wanted)

    def value(self, drawn, kind, places):
        """A field, and its number: the microseconds since 1970, or the number times 10**9."""
        if kind == "integer":
            number = drawn.choice([drawn.randrange(-10, 11), drawn.randrange(-(10**9), 10**9)])
            return str(number), number * 10**9
        if kind == "decimal":
            number = drawn.randrange(-(10**12), 10**12)
            text = str(D(number).scaleb(-places))
            return (text if "E" not in text else "0"), (number * 10 ** (9 - places) if "E" not in text else 0)
        number = drawn.randrange(-(10**9), 4 * 10**9) * 10**6
        time = EPOCH + datetime.timedelta(microseconds=number)
        date = time.strftime(f"{time.year:04}" + drawn.choice(["-%m-%d", "/%m/%d"]))
        return date + time.strftime(drawn.choice(["T", " "]) + "%H:%M:%S"), number


def as_number(item, scale, decimals):
    """A stored number in the unit of `value`."""
    if isinstance(item, datetime.datetime):
        return (item - EPOCH) // datetime.timedelta(microseconds=1)
    return int(item * scale // 10**decimals)


@wants_library
@wants_numpy
class DrawnFiles(Drawn, unittest.TestCase):
    """Read record by record."""


@wants_pandas
class DrawnFilesByPandas(ByPandas, Drawn, unittest.TestCase):
    """Read by pandas where it can."""


@wants_numpy
class Reading(unittest.TestCase):
    """Fields that numpy reads at once are read as one by one."""

    def test_times(self):
        fields = ["2020-02-29", "2020/12/31", "0001-01-01", "9999-12-31T23:59:59.999999", "1969-12-31 23:59:59.5"]
        fields += ["2020-01-01T24", "2021-02-29", "2020-13-01", "2020-00-01", "2020-01-00", "0000-01-01", "2020-01/01"]
        fields += ["2020-01-01 00:60", "2020-01-01 00:00:60", "2020-1-1", "2020-01-01x00", "2020-01-01 00:00:00."]
        fields += ["2020-01-01 00:00:00.1234567", "2020-01-01\0", "2020-04-31", "1900-02-29", "2000-02-29"]
        fields += ["٣020-01-01"]
        zones = ["Z", "+01:00", "-12:45", "+24:00", "+01:60", "+0100"]
        for field, unit in itertools.product(fields, ("us", "ns")):
            for zone in ("", *zones):
                self.check(times.times_of, times.time_of, field + zone, unit, bool(zone))
                self.check(times.times_of, times.time_of, field + zone, unit, not zone)

    def check(self, many, one, field, *words):
        try:
            wanted = [one(field, *words)]
        except ValueError:
            wanted = None
        for them in ([field], [field] * 3):
            try:
                found = list(many(them, *words))
            except ValueError:
                continue
            self.assertIsNotNone(wanted, field)
            self.assertEqual(found, wanted * len(them), field)

    def test_days(self):
        days = [datetime.date.fromordinal(it) for it in range(1, 3_652_059, 37)]
        fields = [it.isoformat() for it in days]
        wanted = [(it.toordinal() - EPOCH.toordinal()) * 86_400_000_000 for it in days]
        self.assertEqual(list(times.times_of(fields, "us", False)), wanted)

    def test_decimals(self):
        drawn = random.Random(3)
        fields = ["1.5", "-.5", "+3.", "0", "-0.00", "1.25", "007.5", ".", "-", "", "1.2.3", "1-2", "1e3"]
        fields += [" 1", "1\0", "٣"]
        fields += ["9" * 18, "9" * 19, "9" * 16 + ".99", "9" * 17 + ".99", "-" + "9" * 16 + ".9", "0.1234567890"]
        fields += ["".join(drawn.choice("0123456789.-+") for _ in range(drawn.randrange(1, 8))) for _ in range(500)]
        for field, decimals in itertools.product(fields, (1, 2, 9, 17)):
            column = Column(decimals=decimals)
            try:
                wanted = column.reader()(field)
            except ValueError:
                wanted = None
            for them in ([field], [field, "1"], ["-7.5", field]):
                found = decimals_of_numpy(them, decimals, False)
                if found is not None:
                    self.assertIsNotNone(wanted, field)
                    self.assertEqual(int(found[them.index(field)]), wanted, field)
        self.assertEqual(decimals_of_numpy(["1.5", "-0.25"], 2, True).tolist(), [150, -25])
        for field in ("01.5", "-01.5", "+00", "007", "09.5", "-09"):
            self.assertIsNone(decimals_of_numpy(["1.5", field], 2, True))
            self.assertTrue(has_leading_zero(["0", "0.5", field]))
        self.assertFalse(has_leading_zero(["0", "0.5", "-0", "+0.5", "10", " 0", "1 "]))

    def test_evidence_is_the_same_in_blocks(self):
        drawn = random.Random(5)
        kinds = ["7", "-7", "1.5", "1,5", "1.234", "1,234", "0.123", "1e5", "", "NA", "007", str(2**63), "2020-01-01"]
        kinds += ["03/04/2010", "25/04/2010", "Jan 1 2000", "2020-01-01T00:00:00.1234567Z"]
        for _ in range(300):
            fields = [drawn.choice(kinds) for _ in range(drawn.randrange(1, 6))]
            one, other = Evidence(), Evidence()
            one.add(fields, range(len(fields)))
            for at, it in enumerate(fields):
                other.add([it], [at])
            if "text" in one.first or "text" in other.first:
                self.assertEqual(one.first["text"], other.first["text"])
                continue
            self.assertEqual(one.first, other.first)
            if "number" in one.first and {"time", "date"} & one.first.keys():
                continue
            for name in ("wrong", "zero", "zoned", "fraction", "formats", "least", "greatest", "is_scientific"):
                self.assertEqual(getattr(one, name), getattr(other, name), (name, fields))

    def test_shapes(self):
        for field, kind in {
            "1": "number",
            "-1.5": "number",
            "1,111.1": "number",
            "1 111": "number",
            "": "gap",
            "NA": "gap",
            "x": "text",
            "1111-11-11": "time",
            "11/11/1111": "date",
            "11:11": "text",
            "1.1.1.1": "text",
            "1_1": "text",
            "1-1": "text",
            "11 apples": "text",
        }.items():
            self.assertEqual(shape_of(field).kind, kind, field)


if __name__ == "__main__":
    unittest.main()
