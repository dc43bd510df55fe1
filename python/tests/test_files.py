"""Rows of CSV files."""

import csv
import datetime
import io
import math
import os
import pathlib
import subprocess
import sys
import tempfile
import unittest
from unittest import mock

from ways import InProcess, InShards, OverTcp, crackd, np, wants_library, wants_numpy, wants_program, wants_shards

from crackd import csvfile
from crackd.csvfile import Column, CsvFile, read_columns

ISO_FORMATS = ["%Y-%m-%d", "%Y-%m-%d %H", "%Y-%m-%dT%H:%M", "%Y-%m-%d %H:%M:%S", "%Y-%m-%dT%H:%M:%S.%f"]
ISO_FORMATS += ["%Y-%m-%dT%H:%M:%SZ", "%Y-%m-%d %H:%M:%S.%fZ"]
# the end of the refusal of a gap
SKIP = "; it needs missing='skip'"
# the microseconds from 1970 to 2020-01-02 03:04:05
TIME = 1_577_934_245_000_000


class Files(unittest.TestCase):
    """What is read of a file, and what is an error."""

    def read(self, text, key=0, payload=1, key_column=Column(), payload_column=Column(), delimiter=",", header=None):
        with tempfile.TemporaryDirectory() as room:
            path = pathlib.Path(room) / "rows.csv"
            path.write_bytes(text if isinstance(text, bytes) else text.encode("utf-8"))
            keys, payloads = read_columns(
                CsvFile(path, delimiter, header, "utf-8-sig"), key, key_column, payload, payload_column
            )
            return list(keys), list(payloads)

    def wrong(self, wanted, *words, **options):
        with self.assertRaises(crackd.CsvError) as caught:
            self.read(*words, **options)
        self.assertTrue(str(caught.exception).endswith(f"rows.csv, {wanted}"), str(caught.exception))
        return caught.exception

    def test_columns_by_number_and_by_name(self):
        self.assertEqual(self.read("1,10\n2,-20\n"), ([1, 2], [10, -20]))
        self.assertEqual(self.read("key,payload\r\n1,10\r\n\r\n2,-20"), ([1, 2], [10, -20]))
        self.assertEqual(self.read("a;b;c\n1;x;10\n+2; ; -020 \n", "a", "c", delimiter=";"), ([1, 2], [10, -20]))
        self.assertEqual(self.read('\ufeffid,"the key"\n7,"1"\n8,2\n', "the key", None), ([1, 2], [0, 1]))
        self.assertEqual(self.read("x,y\n1,10\n", 1, 0, header=True), ([10], [1]))
        self.assertEqual(self.read("", 0, 1), ([], []))
        self.assertEqual(self.read("a,b\n", "a", "b"), ([], []))

    def test_decimals_dates_and_floats(self):
        cents = Column(decimals=2)
        self.assertEqual(
            self.read("12.34,1.5\n-0.1,7\n.5,0\n3.,-.05\n", key_column=cents, payload_column=cents),
            ([1234, -10, 50, 300], [150, 700, 0, -5]),
        )
        day = Column(format="%d.%m.%Y")
        self.assertEqual(
            self.read("2.1.1970,01.01.1970\n", key_column=day, payload_column=day), ([86_400_000_000], [0])
        )
        zone = Column(format="%Y-%m-%d %H:%M %z")
        self.assertEqual(self.read("1970-01-01 02:00 +0100,1\n", key_column=zone), ([3_600_000_000], [1]))
        self.assertEqual(self.read("1e3,1\n-2.5,2\n", key_column=Column(is_float=True)), ([1000.0, -2.5], [1, 2]))
        self.assertEqual(
            self.read("18446744073709551615,1\n", key_column=Column(least=0, most=2**64 - 1)), ([2**64 - 1], [1])
        )

    def test_fields_that_are_no_numbers_are_named_by_line_and_column(self):
        self.assertEqual(self.wrong("line 2, column 1: 'x' isn't an integer", "1,10\nx,20\n").line, 2)
        self.assertEqual(
            self.wrong("line 3, column 3 (c): '1.5' isn't an integer", "a,b,c\n1,x,10\n2,x,1.5\n", "a", "c").column, 3
        )
        self.wrong("line 1, column 2: the line has only 1 field", "1\n")
        self.wrong(f"line 1, column 1: '' isn't an integer{SKIP}", ",1\n")
        # a record of empty fields isn't blank
        self.wrong(f"line 2, column 1: '' isn't an integer{SKIP}", "1,2\n,\n3,4\n")
        self.wrong(f"line 4, column 1: '' isn't an integer{SKIP}", '1,2\n\n3,4\n"",""\n\n')
        self.wrong("line 1, column 1: there is no column 'z'; the header has a, b", "a,b\n1,2\n", "z")
        self.wrong("line 1, column 1: there is no column 'z'; the header has none", "", "z")
        self.wrong("line 1, column 1: '1_0' isn't an integer", "1_0,1\n")
        self.wrong("line 1, column 1: '٣' isn't an integer", "٣,1\n")
        self.wrong(f"line 1, column 2: '{2**63}' isn't {-(2**63)} to {2**63 - 1}", f"1,{2**63}\n")
        self.wrong(
            f"line 1, column 1: '-1' isn't 0 to {2**64 - 1}", "-1,1\n", key_column=Column(least=0, most=2**64 - 1)
        )
        self.wrong(
            "line 1, column 1: '12.345' has more than 2 decimal places", "12.345,1\n", key_column=Column(decimals=2)
        )
        self.wrong("line 1, column 1: '1e5' isn't a decimal number", "1e5,1\n", key_column=Column(decimals=2))
        self.wrong(
            "line 1, column 1: '2020-02-30' isn't a date of the form '%Y-%m-%d'",
            "2020-02-30,1\n",
            key_column=Column(format="%Y-%m-%d"),
        )
        self.wrong(f"line 1, column 1: NaN can't be a key{SKIP}", "nan,1\n", key_column=Column(is_float=True))
        self.wrong("line 1, column 1: '" + "9" * 40 + "..' isn't " + f"{-(2**63)} to {2**63 - 1}", "9" * 5000 + ",1\n")
        # a field of several lines: the error names the line at which the record ends
        self.wrong("line 3, column 1: 'x\\ny' isn't an integer", '1,1\n"x\ny",1\n')

    def test_floats_are_written_in_plain_digits(self):
        number = Column(is_float=True)
        fields = ["1.5", "-.5", "+3.", "1e3", "2E-3", "inf", "-Infinity", " 7 ", "0", "1e-400"]
        wanted = [1.5, -0.5, 3, 1000, 0.002, math.inf, -math.inf, 7, 0, 0]
        self.assertEqual(self.read("".join(f"{it},1\n" for it in fields), key_column=number)[0], wanted)
        wrong = ["1_000", "1_0.5", "٣", "1.٣", "１", "0x10", "", " ", "1e", "e5", "1.5.2", "--1", "ınf", "1 2"]
        for field in wrong:
            said = f"line 2, column 1: {field!r} isn't a number{SKIP * (not field.strip())}"
            self.wrong(said, f"1,1\n{field},1\n", key_column=number)
        for field in ("1e400", "-1e999", "1" * 35 + "e300"):
            self.wrong(f"line 1, column 1: {field!r} is beyond all floats", f"{field},1\n", key_column=number)
        self.wrong(f"line 1, column 1: NaN can't be a key{SKIP}", "-NaN,1\n", key_column=number)

    def test_integers_are_written_in_plain_digits(self):
        self.assertEqual(self.read("1,+2\n-3,0004\n 5 ,\t6\n-0,+0\n"), ([1, -3, 5, 0], [2, 4, 6, 0]))
        for field in ("1_0", "٣", "１", "0x10", "", " ", "--1", "+-1", "1-", "-", "1 2", "1e3", "1.0", "\u00b2"):
            said = f"line 2, column 2: {field!r} isn't an integer{SKIP * (not field.strip())}"
            self.wrong(said, f"1,1\n2,{field}\n3,1\n")
        for number in (2**63, -(2**63) - 1):
            self.wrong(f"line 2, column 2: '{number}' isn't {-(2**63)} to {2**63 - 1}", f"1,1\n2,{number}\n")
        self.assertEqual(self.read(f"{2**63 - 1},{-(2**63)}\n"), ([2**63 - 1], [-(2**63)]))

    def test_times_of_iso_formats_are_read_as_by_strptime(self):
        begin = datetime.datetime(1970, 1, 1)
        times = [begin + datetime.timedelta(seconds=it, microseconds=it) for it in range(-(10**10), 10**11, 10**9 + 7)]
        times += [datetime.datetime.min, datetime.datetime.max, datetime.datetime(2000, 2, 29, 23, 59, 59)]
        for form in ISO_FORMATS:
            fields = [it.strftime(form.replace("%Y", f"{it.year:04}")) for it in times]
            read = [datetime.datetime.strptime(it, form) for it in fields]
            wanted = [(it - begin) // datetime.timedelta(microseconds=1) for it in read]
            with self.subTest(form), mock.patch.object(csvfile, "RECORDS_AT_ONCE", 7):
                text = "".join(f"{it},{it}\n" for it in fields)
                column = Column(format=form)
                self.assertEqual(self.read(text, key_column=column, payload_column=column), (wanted, wanted))
                if np is not None:
                    self.assertEqual(list(column.read_all(fields)), wanted)

    def test_times_that_only_strptime_reads_or_none(self):
        form = "%Y-%m-%d %H:%M:%S"
        whole, parts = Column(format=form), Column(format=f"{form}.%f")
        fields = ["2020-01-02 03:04:05", "2020-1-2 3:4:5", " 2020-01-02 03:04:05 ", "2020-01-02 03:04:5"]
        self.assertEqual(self.read("".join(f"{it},1\n" for it in fields), key_column=whole)[0], 4 * [TIME])
        fields = ["2020-01-02 03:04:05.0", "2020-01-02 03:04:05.000000", "2020-01-02 03:04:05.000"]
        self.assertEqual(self.read("".join(f"{it},1\n" for it in fields), key_column=parts)[0], 3 * [TIME])
        wrong = ["2021-02-29 00:00:00", "2020-13-01 00:00:00", "2020-00-01 00:00:00", "2020-01-00 00:00:00"]
        wrong += ["2020-01-02 24:00:00", "2020-01-02 03:60:05", "2020-01-02 03:04:60", "0000-01-02 03:04:05"]
        wrong += ["2020-01-02T03:04:05", "2020-01-02 03:04", "2020-01-02", "2020-01-02 03:04:05.5", "NaT", ""]
        wrong += ["2020/01/02 03:04:05", "-020-01-02 03:04:05", "2020-01-02 03:04:05Z", "+020-01-02 03:04:05"]
        for field in wrong:
            text, said = f"2020-01-02 03:04:05,1\n{field},1\n", f"{field!r} isn't a date of the form {form!r}"
            said += SKIP * (not field)
            self.wrong(f"line 2, column 1: {said}", text, key_column=whole)
        for field in ("2020-01-02 03:04:05.", "2020-01-02 03:04:05.0000001", "2020-01-02 03:04:05.+1"):
            said = f"line 1, column 1: {field!r} isn't a date of the form '{form}.%f'"
            self.wrong(said, f"{field},1\n", key_column=parts)

    def test_the_first_wrong_field_is_named_in_each_block(self):
        lines = [f"{it},{it}" for it in range(20)]
        with mock.patch.object(csvfile, "RECORDS_AT_ONCE", 4):
            self.assertEqual(self.read("\n".join(lines)), (list(range(20)), list(range(20))))
            for at in (0, 3, 4, 11, 19):
                broken = [*lines[:at], "", f"x,{at}", *lines[at + 1 :], "1,y"]
                self.wrong(f"line {at + 2}, column 1: 'x' isn't an integer", "\n".join(broken))
                short = [*lines[:at], "7", "x,1", *lines[at:]]
                self.wrong(f"line {at + 1}, column 2: the line has only 1 field", "\n".join(short))
                far = "a" * (csv.field_size_limit() + 1)
                late, early = [*lines[:at], "1,x", f"1,{far}"], [*lines[:at], f"1,{far}", "1,x"]
                self.wrong(f"line {at + 1}, column 2: 'x' isn't an integer", "\n".join(late))
                said = f"field larger than field limit ({csv.field_size_limit()})"
                self.wrong(f"line {at + 1}, column 1: {said}", "\n".join(early))
            self.wrong(f"line 1, column 1: {said}", f"{far}\n", "a", "b")

    def test_wrong_options(self):
        for delimiter in (";;", "", None, 5, "\n", "\r", '"', b","):
            with self.assertRaisesRegex(ValueError, "a delimiter must be one character"):
                self.read("1,2\n", delimiter=delimiter)
        for name in ("key_decimals", "payload_decimals"):
            for value in (-1, 41):
                self.assertRaisesRegex(ValueError, f"{name} must be 0 to", crackd.load_csv, "missing", **{name: value})
            for value in (1.5, "2", True):
                self.assertRaisesRegex(TypeError, f"{name} must be an", crackd.load_csv, "missing", **{name: value})
        for options in ({"key_decimals": 2}, {"key_format": "%Y"}):
            self.assertRaisesRegex(ValueError, "not for floats", crackd.load_csv, "missing", key_type=float, **options)
        for place in (1.5, True, None):
            self.assertRaisesRegex(TypeError, "a column must be an integer", self.read, "1,2\n", place)

    def test_wrong_arguments(self):
        self.assertRaises(ValueError, self.read, "1,2\n", -1)
        self.assertRaisesRegex(ValueError, "columns have names only", self.read, "a,b\n", "a", header=False)
        self.wrong("line 1, column 1: 'key' isn't an integer", "key,payload\n1,2\n", header=False)
        self.assertRaises(FileNotFoundError, crackd.load_csv, "missing.csv")
        self.assertRaises(ValueError, crackd.load_csv, "missing.csv", key_type="text")


class Loads:
    """Loads into a table, however it is reached."""

    def path(self, text):
        room = tempfile.TemporaryDirectory()
        self.addCleanup(room.cleanup)
        path = pathlib.Path(room.name) / "rows.csv"
        path.write_text(text, encoding="utf-8")
        return path

    def test_a_load_into_a_table(self):
        with self.table() as table:
            self.assertIs(crackd.load_csv(self.path("key,payload\n1,10\n2,-30\n-7,5\n"), into=table), table)
            # before any query, since a query may merge rows
            self.assertEqual(sum(it.pending_in for it in table.layout().parts), 0)
            self.assertEqual((table.count(), table.sum(), table.sum(0, 2)), (3, -15, 10))

    def test_a_load_that_is_reported(self):
        told = []
        with self.table() as table, mock.patch("crackd.progress.STEP", 2):
            crackd.load_csv(self.path("1,10\n2,-30\n-7,5\n"), into=table, progress=lambda *it: told.append(it))
            self.assertEqual((told, table.sum()), ([(2, 3), (3, 3)], -15))

    def test_a_bad_file_loads_nothing(self):
        with self.table() as table:
            with self.assertRaises(crackd.CsvError):
                crackd.load_csv(self.path("1,10\n2,20\n3,x\n"), into=table)
            self.assertEqual(table.count(), 0)
            self.assertRaises(TypeError, crackd.load_csv, self.path("1,10\n"), into=table, partitions=2)


@wants_program
class LoadsOverTcp(Loads, OverTcp, unittest.TestCase):
    """Over TCP."""


@wants_shards
class LoadsInShards(Loads, InShards, unittest.TestCase):
    """In the process, in several shards."""


@wants_library
class LoadsInProcess(Loads, InProcess, unittest.TestCase):
    """In the process."""

    def test_a_load_into_a_new_table(self):
        with crackd.load_csv(self.path("a,b\n1.50,2\n-3.25,4\n"), "a", "b", key_decimals=2, partitions=2) as table:
            self.assertEqual((table.count(), table.sum(0), table.sum(None, 0)), (2, 2, 4))
        for keys in ("1.50,2\n-0.25,4\n", "1.5,2\n-0.2,4\n"):
            with self.assertRaisesRegex(crackd.CsvError, "line 2, column 1: '-0"):
                crackd.load_csv(self.path(keys), key_type="uint64", key_decimals=2)
        with crackd.load_csv(self.path(f"{2**64 - 1},1\n0,2\n"), key_type="uint64") as table:
            self.assertEqual((table.sum(1), table.sum(0, 1)), (1, 2))
        with crackd.load_csv(self.path("2.5,1\n-1e9,2\n"), key_type=float) as table:
            self.assertEqual((table.sum(0), table.sum(None, 0)), (1, 2))
        with crackd.load_csv(self.path("")) as table:
            self.assertEqual(table.count(), 0)

    @wants_numpy
    def test_dates_of_a_file(self):
        with crackd.load_csv(
            self.path("when,what\n2020-02-01 12:00,5\n2020-03-01 00:00,7\n"),
            "when",
            "what",
            key_format="%Y-%m-%d %H:%M",
        ) as table:
            self.assertEqual(
                (table.sum(np.datetime64("2020-02-01"), np.datetime64("2020-03-01")), table.count()), (5, 2)
            )
            self.assertEqual(table.select().keys.dtype, np.dtype("datetime64[us]"))
        early = self.path("1969-12-31,5\n")
        with crackd.load_csv(early, key_format="%Y-%m-%d", key_type="uint64") as table:
            self.assertEqual(table.select().keys.tolist(), [datetime.datetime(1969, 12, 31)])


class Splits(unittest.TestCase):
    """`python3 -m crackd splits`."""

    def splits(self, text, *words):
        with tempfile.TemporaryDirectory() as room:
            (pathlib.Path(room) / "rows.csv").write_text(text, encoding="utf-8")
            environment = {**os.environ, "PYTHONPATH": str(pathlib.Path(crackd.__file__).parent.parent)}
            command = [sys.executable, "-m", "crackd", "splits", *words]
            ran = subprocess.run(command, cwd=room, env=environment, capture_output=True, text=True, check=False)
        return ran.returncode, ran.stdout, ran.stderr

    def test_splits(self):
        text = "key,payload\n" + "".join(f"{it},1\n" for it in range(1000))
        self.assertEqual(self.splits(text, "rows.csv", "4"), (0, "250 500 750\n", ""))
        self.assertEqual(self.splits(text, "rows.csv", "1"), (0, "\n", ""))
        self.assertEqual(self.splits("7,1\n7,2\n7,3\n", "rows.csv", "5"), (0, "7\n", ""))
        self.assertEqual(self.splits("0,1\n0,2\n", "rows.csv", "5"), (0, "\n", ""))
        self.assertEqual(self.splits("", "rows.csv", "5"), (0, "\n", ""))
        self.assertEqual(
            self.splits("a;b\nx;1\nx;5\nx;9\n", "rows.csv", "3", "--key", "b", "--delimiter", ";"), (0, "5 9\n", "")
        )
        self.assertEqual(self.splits("x,1\nx,5\nx,9\n", "rows.csv", "3", "--key", "1"), (0, "5 9\n", ""))

    def test_bad_words_and_files(self):
        self.assertEqual(
            self.splits("-1,1\n", "rows.csv", "3")[::2],
            (1, f"crackd: rows.csv, line 1, column 1: '-1' isn't 0 to {2**64 - 1}\n"),
        )
        self.assertEqual(
            self.splits("", "missing.csv", "3")[::2], (1, "crackd: missing.csv: No such file or directory\n")
        )
        wrong = [["rows.csv", "3", "--delimiter", it] for it in (";;", "", '"', "\n")]
        for words in (["rows.csv", "0"], ["rows.csv", "65"], ["rows.csv", "x"], ["rows.csv"], [], *wrong):
            with self.subTest(words):
                self.assertEqual(self.splits("1,1\n", *words)[:2], (2, ""))


if __name__ == "__main__":
    unittest.main()
