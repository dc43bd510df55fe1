"""CSV files: blank lines, headers, infinities and the limits of numbers, wherever they may be, and what is merged after
a load."""

import itertools
import math
import pathlib
import tempfile
import unittest
from unittest import mock

from kinds import GREATEST, LEAST, UNSIGNED
from ways import InProcess, InShards, OverTcp, crackd, np, wants_library, wants_numpy, wants_program, wants_shards

from crackd import csvfile

HEADER = "key,payload"
LINES = ["1,10", "-2,20", "3,-30"]


def numbers(it):
    return [int(each) for each in it]


class WithFiles:
    """Cases with a file of their own."""

    def path(self, text, encoding="utf-8"):
        room = tempfile.TemporaryDirectory()
        self.addCleanup(room.cleanup)
        path = pathlib.Path(room.name) / "rows.csv"
        path.write_bytes(text.encode(encoding))
        return path

    def rows(self, text, *words, **options):
        """The keys and payloads that are loaded from a file of this text, in the order of payloads."""
        with crackd.load_csv(self.path(text), *words, **options) as table:
            got = table.select(raw=True)
            return sorted(zip(numbers(got.payloads), got.keys))

    def wrong(self, line, column, text, *words, **options):
        """A field of the file can't be read."""
        with self.assertRaises(crackd.CsvError) as caught:
            crackd.load_csv(self.path(text), *words, **options).close()
        error = caught.exception
        self.assertEqual((error.line, error.column), (line, column), str(error))
        self.assertIn(f"rows.csv, line {line}, column {column}", str(error))
        return str(error)


@wants_library
class Lines(WithFiles, unittest.TestCase):
    """What stands in which line."""

    WANTED = [(-30, 3), (10, 1), (20, -2)]

    def test_blank_lines_in_each_place(self):
        for lines in (LINES, [HEADER, *LINES]):
            for at, blank, feed in itertools.product(range(len(lines) + 1), (1, 3), ("\n", "\r\n")):
                text = feed.join([*lines[:at], *[""] * blank, *lines[at:]])
                for end in ("", feed, feed * 3):
                    with self.subTest(text + end):
                        self.assertEqual(self.rows(text + end), self.WANTED)

    def test_blank_lines_count(self):
        for blank, header in itertools.product(range(4), ("", HEADER + "\n")):
            before = "\n" * blank + header
            line = blank + bool(header) + 1
            self.wrong(line, 1, before + "x,1\n")
            self.wrong(line + 3, 2, before + "1,1\n\n\n2,y\n")
            self.wrong(line + 1, 2, before + "1,1\n2\n")

    def test_a_file_without_rows(self):
        for text in ("", "\n", "\n\n\n", HEADER, HEADER + "\n", "\n\n" + HEADER + "\n\n"):
            with self.subTest(text):
                self.assertEqual(self.rows(text), [])
        for text in ("a,b", "\na,b\n\n"):
            self.assertEqual(self.rows(text, "b", "a"), [])
            self.assertEqual(self.rows(text, header=True), [])

    def test_headers(self):
        text = "\n".join(LINES)
        for header in (None, False):
            self.assertEqual(self.rows(text, header=header), self.WANTED)
        self.assertEqual(self.rows(text, header=True), [(-30, 3), (20, -2)])
        for header in (None, True):
            self.assertEqual(self.rows(f"{HEADER}\n{text}", header=header), self.WANTED)
            self.assertEqual(self.rows(f"payload,key\n{text}", "payload", "key", header=header), self.WANTED)
        self.assertIn("'key' is neither a number nor", self.wrong(1, 1, f"{HEADER}\n{text}", header=False))
        for header in ("payload,key", "Key,payload", "key,payload,more", '"",key'):
            self.assertEqual(self.rows(f"{header}\n{text}"), self.WANTED)
        self.wrong(2, 1, f"{HEADER}\n{HEADER}\n{text}")

    def test_names_that_a_header_has(self):
        text = "a,b,a\n1,2,3\n4,5,6\n"
        self.assertEqual(self.rows(text, "a", "b"), [(2, 1), (5, 4)])
        self.assertEqual(self.rows(text, 2, "b"), [(2, 3), (5, 6)])
        self.assertEqual(self.rows(text, "b", None), [(0, 2), (1, 5)])
        self.assertEqual(self.rows(text, 1, 1, header=True), [(2, 2), (5, 5)])
        for words in (("c",), ("a", "c"), ("A",), ("",)):
            self.wrong(1, 1, text, *words)
        for words in ((-1,), (0, -1)):
            with self.assertRaises(ValueError):
                self.rows(text, *words, header=True)
        self.assertIn("(b)", self.wrong(2, 2, "a,b\n1,x\n", "a", "b"))
        self.wrong(2, 4, text, 3, 0, header=True)

    def test_other_delimiters_quotes_and_encodings(self):
        self.assertEqual(self.rows("1;10\n-2;20\n3;-30\n", delimiter=";"), self.WANTED)
        self.assertEqual(self.rows("1\t10\n-2\t20\n3\t-30\n", delimiter="\t"), self.WANTED)
        self.assertEqual(self.rows('"1","10"\n"-2"," 20"\n 3 ,-30\n'), self.WANTED)
        path = self.path("äkey,payload\n5,6\n", "latin-1")
        with crackd.load_csv(path, "äkey", "payload", encoding="latin-1") as table:
            self.assertEqual((table.sum(5, 6), table.count()), (6, 1))
        self.assertEqual(self.rows("\ufeffkey,payload\n1,10\n"), [(10, 1)])


@wants_library
class Blocks(Lines):
    """The same, with few records read at once."""

    AT_ONCE = 1

    def setUp(self):
        patch = mock.patch.object(csvfile, "RECORDS_AT_ONCE", self.AT_ONCE)
        patch.start()
        self.addCleanup(patch.stop)


class BlocksOfTwo(Blocks):
    """Of which a block has the header and one row."""

    AT_ONCE = 2


@wants_library
class Fields(WithFiles, unittest.TestCase):
    """Numbers at their limits, and what is none."""

    def test_integers(self):
        keys = [LEAST, LEAST + 1, -1, 0, 1, GREATEST - 1, GREATEST]
        text = "".join(f"{it},{it}\n" for it in keys)
        self.assertEqual(self.rows(text), [(it, it) for it in keys])
        for it in (LEAST - 1, GREATEST + 1, 10**30, -(10**50), 10**5000):
            self.wrong(1, 1, f"{it},1\n" if abs(it) < 10**60 else "9" * 5000 + ",1\n", key_type="int64")
            self.wrong(2, 2, f"1,1\n1,{it}\n" if abs(it) < 10**60 else "1,1\n1," + "9" * 5000)
        keys = [0, 1, GREATEST, GREATEST + 1, UNSIGNED - 1, UNSIGNED]
        text = "".join(f"{it},{at}\n" for at, it in enumerate(keys))
        self.assertEqual(self.rows(text, key_type="uint64"), list(enumerate(keys)))
        for it in (-1, UNSIGNED + 1):
            self.wrong(1, 1, f"{it},1\n", key_type="uint64")
        for it in ("", " ", "1.0", "1e3", "0x1", "1_0", "+-1", "1 2", "٣", "inf", "nan", "--1", "True"):
            self.wrong(1, 1, f"{it},1\n", key_decimals=0)
            self.wrong(1, 2, f"1,{it}\n", payload_decimals=0)

    def test_floats(self):
        fields = {"inf": math.inf, "-inf": -math.inf, "Infinity": math.inf, "-1e308": -1e308, "5e-324": 5e-324}
        fields |= {"-0.0": 0.0, "2.5": 2.5, "-7": -7.0, ".5": 0.5, "3.": 3.0, "1E3": 1000.0, " 4 ": 4.0, "+1": 1.0}
        text = "".join(f"{it},{at}\n" for at, it in enumerate(fields))
        for key_type in ("float64", float):
            self.assertEqual(self.rows(text, key_type=key_type), list(enumerate(fields.values())))
        with crackd.load_csv(self.path(text), key_type=float) as table:
            found = table.count(math.inf), table.count(None, -1e308), table.count(-math.inf, math.inf)
            self.assertEqual(found, (2, 1, 11))
        for it in ("nan", "-nan", "NaN"):
            self.assertIn(f"'{it}' is a gap", self.wrong(2, 1, f"1,1\n{it},1\n", key_type=float))
        for it in ("", "x", "1,5", "1_000", "٣", "0x1p3", "1.5.", "--1", "1e999", "-1e400"):
            self.wrong(2, 1, f'1,1\n"{it}",1\n', key_type=float)

    def test_decimals(self):
        cents = {"12.34": 1234, "-0.1": -10, ".5": 50, "3.": 300, "7": 700, "-0": 0, "+1.20": 120, "1.230": 123}
        text = "".join(f"{it},{it}\n" for it in cents)
        wanted = sorted((it, it) for it in cents.values())
        self.assertEqual(self.rows(text, key_decimals=2, payload_decimals=2), wanted)
        for field, key in {"-92233720368547758.08": LEAST, "92233720368547758.07": GREATEST}.items():
            self.assertEqual(self.rows(f"{field},1\n", key_decimals=2), [(1, key)])
            self.assertEqual(self.rows(f"1,{field}\n", payload_decimals=2), [(key, 1)])
        for it in ("-92233720368547758.09", "92233720368547758.08", "1.005", "1e2", "", ".", "x", "inf", "1_0.1"):
            self.wrong(1, 1, f"{it},1\n", key_decimals=2)
            self.wrong(1, 2, f"1,{it}\n", payload_decimals=2)
        self.assertEqual(self.rows("0.5,1\n", key_decimals=1, key_type="uint64"), [(1, 5)])
        self.wrong(1, 1, "-0.5,1\n", key_decimals=1, key_type="uint64")

    @wants_numpy
    def test_dates(self):
        fields = {"1969-12-31 23:59:59.999999": -1, "1970-01-01 00:00:00.0": 0, "1970-01-02 00:00:00.5": 86_400_500_000}
        fields |= {"0001-01-01 00:00:00.0": -62_135_596_800_000_000}
        fields |= {"9999-12-31 23:59:59.999999": 253_402_300_799_999_999}
        text = "".join(f"{it},{at}\n" for at, it in enumerate(fields))
        form = "%Y-%m-%d %H:%M:%S.%f"
        wanted = [(at, np.int64(it).view("datetime64[us]")) for at, it in enumerate(fields.values())]
        self.assertEqual(self.rows(text, key_format=form), wanted)
        turned = "".join(f"{at},{it}\n" for at, it in enumerate(fields))
        wanted = sorted((it, at) for at, it in enumerate(fields.values()))
        self.assertEqual(self.rows(turned, payload_format=form), wanted)
        for it in ("1970-02-30 00:00:00.0", "1970-01-01", "", "x", "1970-01-01 24:00:00.0"):
            self.wrong(2, 1, f"1970-01-01 00:00:00.0,1\n{it},1\n", key_format=form)
            self.wrong(2, 2, f"1,1970-01-01 00:00:00.0\n1,{it}\n", payload_format=form)
        zones = {"1970-01-01 00:00 +0000": 0, "1970-01-01 00:00 +0130": -90, "1970-01-01 00:00 -0130": 90}
        text = "".join(f"{it},{at}\n" for at, it in enumerate(zones))
        wanted = [(at, np.int64(it * 60_000_000).view("datetime64[us]")) for at, it in enumerate(zones.values())]
        self.assertEqual(self.rows(text, key_format="%Y-%m-%d %H:%M %z"), wanted)


class Into(WithFiles):
    """Loads into a table, however it is reached."""

    def test_it_is_merged(self):
        for policy in ("ripple", "gradual", "complete", "auto"):
            with self.subTest(policy), self.table(policy=policy, partitions=1) as table:
                text = "".join(f"{it},{it}\n" for it in range(200))
                self.assertIs(crackd.load_csv(self.path(text), into=table), table)
                part = table.layout().parts[0]
                self.assertEqual((part.rows, part.column, part.pending_in), (200, 200, 0))
                self.assertEqual((table.count(), table.sum(10, 20)), (200, 145))

    def test_a_file_that_is_refused_changes_nothing(self):
        with self.table() as table:
            crackd.load_csv(self.path("1,10\n"), into=table)
            for text in ("2,20\n3\n", "2,20\n\n3,x\n", '2,20\n3,"'):
                with self.assertRaises(crackd.CsvError):
                    crackd.load_csv(self.path(text), into=table)
            for options in ({"policy": "ripple"}, {"history": 5}, {"splits": [1]}):
                self.assertRaises(TypeError, crackd.load_csv, self.path("2,20\n"), into=table, **options)
            self.assertRaises(FileNotFoundError, crackd.load_csv, "missing.csv", into=table)
            self.assertEqual((table.count(), table.sum()), (1, 10))

    def test_keys_of_each_type(self):
        for key_type, fields in [("uint64", (0, UNSIGNED)), ("int64", (LEAST, GREATEST)), ("float64", ("-inf", "inf"))]:
            with self.subTest(key_type), self.table(key_type=key_type) as table:
                crackd.load_csv(self.path("".join(f"{it},7\n" for it in fields)), key_type=key_type, into=table)
                self.assertEqual([str(it) for it in table.select().keys], [str(it) for it in fields])


@wants_shards
class IntoATableInShards(Into, InShards, unittest.TestCase):
    """In the process, in several shards."""


@wants_library
class IntoATableHere(Into, InProcess, unittest.TestCase):
    """In the process."""


@wants_program
class IntoAServer(Into, OverTcp, unittest.TestCase):
    """Over TCP."""


if __name__ == "__main__":
    unittest.main()
