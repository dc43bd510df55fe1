"""CSV files that pandas reads: the cases of test_files.py again, and each field as it is read without pandas."""

import array
import contextlib
import itertools
import os
import pathlib
import random
import tempfile
import unittest
from unittest import mock

import test_files
import test_lines
from clusters import wants_pandas
from ways import crackd, np, wants_library

from crackd import csvfile, pandascsv
from crackd.source import Source

FIELDS = ["0", "-0", "+7", " 5", "5 ", "\t5", "5\v", "007", str(2**63 - 1), str(2**63), str(-(2**63))]
FIELDS += [str(-(2**63) - 1), str(2**64 - 1), str(2**64), "9" * 400, "1.0", "1.", ".5", "-.5", "1e3", "1E-3", "1e"]
FIELDS += ["e1", "1e400", "-1e400", "5e-324", "1e-400", "0.1", "1.7976931348623157e308", "2.2250738585072011e-308"]
FIELDS += ["9007199254740993", "inf", "-inf", "Infinity", "nan", "NaN", "", " ", "NA", "null", "None", "#1", "1#"]
FIELDS += ["1_0", "1,0", "1 2", "0x10", "0b1", "True", "true", "--1", "+-1", "+", "-", "٣", "1\0", "\0001", "\0"]
FIELDS += ['"5"', '"5', '5"', '"5"6', '5"6"', '""', '"5\n"', '"5,6"', "1j", "1L", "1f", "1d", "$1", "1%", "(1)", "−1"]
FIELDS += ["\u00a05"]
FIELDS += ["1.00", "-0.01", "+12.34", "12.345", "12.3", " 1.25", "1.25\n", '"1.25"', "-1.5e1", "0.000000000000000001"]
FIELDS += ["9" * 16 + ".99", "-" + "9" * 16 + ".99", "9" * 17 + ".99", "92233720368547758.07", "92233720368547758.08"]
FIELDS += ["1\x1a", "\x1a", "1;2", "'1'"]
DATES = ["2020-01-02", "2020-1-2", "2020-01-02 ", " 2020-01-02", "20200102", "2020-02-30", "0000-01-01", "0001-01-01"]
DATES += ["9999-12-31", "2020-01-02T03", "", "nan", "NaT", "now", '"2020-01-02"', "2020-01-0x", "2020/01/02"]
AROUND = ["1,2\n", "1,2\r\n", "1,2\r", "\n", "\r\n", "", "key,payload\n", "1\n", "1,2,3\n", "x,2\n", "1,y\n", " \n"]
AROUND += [",\n", "#1,2\n", "1.0,2\n"]
# the beginnings of files, with and without headers, and bytes that aren't text
HEADS = ["key,payload\n1,2\n3,4\n", "1,2\n3,4", '"key",payload\r\n1,"2"\r\n', '"k\ney",p\n1,2\n', "\n1,2\n"]
CODES = [b"\xef\xbb\xbf1,2\n", b"1,2\n\xff,4\n", b"1,2,\xff\n3,4,x\n", b"1,2,\xc3\xa9\n3,4,x\n", b"1,2\0\n3\n"]


@contextlib.contextmanager
def by_pandas(is_there=True):
    """Files are read by pandas, however small they are, or never."""
    found = __import__("pandas") if is_there else None
    with mock.patch.object(pandascsv, "pandas_for", lambda _: found):
        yield


class ByPandas:
    """Cases in which pandas reads what it can."""

    def setUp(self):
        super().setUp()
        stack = contextlib.ExitStack()
        stack.enter_context(by_pandas())
        self.addCleanup(stack.close)


@wants_pandas
class FilesByPandas(ByPandas, test_files.Files):
    """The cases of files."""


@wants_library
@wants_pandas
class LinesByPandas(ByPandas, test_lines.Lines):
    """The cases of lines."""


@wants_library
@wants_pandas
class FieldsByPandas(ByPandas, test_lines.Fields):
    """The cases of fields."""


# how many files are drawn: all of them, or a tenth
FILES = 20_000 if os.environ.get("CRACKD_TESTS") == "all" else 2_000
ENDS = ["\n", "\r\n", "\r"]
DRAWN = ["0", "7", "-7", "+7", "12", "007", "-0", "00", "0.5", "1.25", "-3.125", "1e3", "", "", " 5", "NA", '"5"']
DRAWN += ['"5,6"']
DRAWN += ['"\r"', '"5\n6"', "x", str(2**63), "2020-01-02", '""', "1,5", "1.234", "#", "1;2"]


class WithFiles(unittest.TestCase):
    """Cases with a file of their own, which is read with and without pandas."""

    COLUMNS = {
        "strict": csvfile.Column(is_strict=True),
        "strict decimals": csvfile.Column(decimals=2, is_strict=True),
        "a comma": csvfile.Column(decimals=1, sign=",", is_grouped=True),
        "ymd": csvfile.Column(format="ymd"),
        "int64": csvfile.Column(),
        "uint64": csvfile.Column(least=0, most=2**64 - 1),
        "float64": csvfile.Column(is_float=True),
        "date": csvfile.Column(format="%Y-%m-%d"),
        "decimals": csvfile.Column(decimals=2),
        "many decimals": csvfile.Column(decimals=18, least=0, most=2**64 - 1),
    }

    def setUp(self):
        room = tempfile.TemporaryDirectory()
        self.addCleanup(room.cleanup)
        self.path, self.read = pathlib.Path(room.name) / "rows.csv", 0

    def found(self, column, place, delimiter, header, is_there, *how):
        """What is read of the file: lists of numbers, or an error."""
        file = csvfile.CsvFile(self.path, delimiter, header, "utf-8-sig", *how)
        with by_pandas(is_there):
            try:
                them = csvfile.read_columns(file, place, column, 1 - place, csvfile.Column())
            except crackd.CsvError as error:
                return str(error)
        numbers = [repr(np.asarray(it).tolist()).replace("-0.0", "0.0") for it in them]
        return [*numbers, np.asarray(file.gaps).tolist()]

    def expect(self, text, column, place=0, delimiter=",", header=None, *how):
        self.path.write_bytes(text if isinstance(text, bytes) else text.encode("utf-8", "surrogatepass"))
        wanted = self.found(column, place, delimiter, header, False, *how)
        self.assertEqual(self.found(column, place, delimiter, header, True, *how), wanted, text)
        file = csvfile.CsvFile(self.path, delimiter, header, "utf-8-sig", *how)
        with by_pandas(), contextlib.suppress(crackd.CsvError):
            self.read += pandascsv.columns_of_pandas(file, [(place, column), (1 - place, csvfile.Column())]) is not None


@wants_pandas
class Generated(WithFiles):
    """Files that are drawn by chance: line ends, headers, empty fields, gaps, quotes and short records."""

    def test_files(self):
        drawn = random.Random(2026)
        columns = list(self.COLUMNS.values())
        for number in range(FILES):
            delimiter, end = drawn.choice(",,,;\t"), drawn.choice(ENDS)
            good = drawn.random() < 0.6
            lines = [self.line(drawn, delimiter, good) for _ in range(drawn.randrange(5))]
            has_header = drawn.random() < 0.5
            lines = [delimiter.join(drawn.sample(["a", "b", "", "key", '"c"', "7"], 2))] * has_header + lines
            text = end.join(lines) + end * drawn.choice([0, 1, 1, 1, 2])
            if drawn.random() < 0.05:
                text = text.replace(end, drawn.choice(ENDS), 1)
            header = drawn.choice([has_header, has_header, None])
            words = drawn.choice(columns), drawn.randrange(2), delimiter, header, drawn.random() < 0.5
            with self.subTest(number=number, words=words):
                self.expect(text, *words)
        self.assertGreater(self.read, FILES // 20)

    @staticmethod
    def line(drawn, delimiter, good):
        """A record: of integers, or of whatever there may be."""
        if drawn.random() < 0.03:
            return ""
        count = 2 if good else drawn.choice([1, 2, 2, 2, 2, 3])
        fields = [str(drawn.randrange(-20, 21)) if good else drawn.choice(DRAWN) for _ in range(count)]
        if drawn.random() < 0.1:
            fields[drawn.randrange(count)] = ""
        return delimiter.join(fields)

    def test_carriage_returns(self):
        """A file with a header and an empty first field, whose lines end with a carriage return."""
        for end, header, count in itertools.product(ENDS, ("a,b", "a,b,c", ""), (1, 2, 5)):
            for first in ("", "1"):
                text = end.join([header, f"{first},10,100", *["2,20,200"] * count])
                for how in (False, True):
                    self.expect(text, csvfile.Column(), 0, ",", bool(header), how)
                    self.expect(text, csvfile.Column(), 1, ",", bool(header), how)


@wants_pandas
class Zeros(unittest.TestCase):
    """Leading zeros of integers in a text."""

    def test_each_field(self):
        for field, is_zero in {
            "007": True, "-007": True, "+00": True, "0": False, "-0": False, "0.5": False, "10": False, "1007": False,
            "00:15": False, "2020-01-02": False, "2020-01-02 03:04": False, "x01": False, " 07": True, "01 ": True,
            "00.5": False, '"01"': True, "0" * 60 + "1": True, "1 02": False, "0x1": False, "01x": False,
        }.items():
            for delimiter, others, end in itertools.product(",;|\t", (0, 1, 30), ("\n", "\r\n")):
                rows = [delimiter.join(["5", "0", "2020-01-02 00:00:00"])] * others
                for fields in ([field, "5"], ["5", field], ["5", field, "6"]):
                    for text in ([*rows, delimiter.join(fields)], [delimiter.join(fields), *rows]):
                        said = np.frombuffer(("\n\n" + end.join(text) + end).encode(), np.uint8)
                        self.assertEqual(pandascsv.has_leading_zeros(said, delimiter), is_zero, text)

    def test_chunks(self):
        with tempfile.TemporaryDirectory() as room:
            path = pathlib.Path(room) / "rows.csv"
            for text, places in {
                "1,2,01\n3,4,02": [2],
                "1,-2,3\n4,05,6\n7,08,9\n": [1],
                "01,2,-03\n04,-5,+06": [0, 2],
                "-1,,00\r\n0,0,00\r\n": [2],
            }.items():
                path.write_text(text, encoding="ascii")
                for at, size in itertools.product(range(3), (1, 3, 100)):
                    with mock.patch.object(pandascsv, "CHARACTERS_AT_ONCE", size):
                        file = csvfile.CsvFile(path, ",", False, "utf-8")
                        self.assertEqual(pandascsv.look_at(file, [at]), (at in places,), (text, at, size))
            texts = {"1,2\n3,4\n": False, "1,2\n3,04": True, "10,200\n,0\n": False, "01,2": True}
            for text, has_zeros in texts.items():
                path.write_text(text, encoding="ascii")
                for size in range(1, 12):
                    with mock.patch.object(pandascsv, "CHARACTERS_AT_ONCE", size):
                        file = csvfile.CsvFile(path, ",", False, "utf-8")
                        self.assertEqual(pandascsv.look_at(file, [0, 1]), (has_zeros,), text)
                        self.assertEqual(pandascsv.look_at(file, []), (False,))


@wants_pandas
class Alike(WithFiles):
    """Whatever is in a file, it is read as it is without pandas."""

    def test_each_field(self):
        for name, column in self.COLUMNS.items():
            good = "2020-01-01" if name in ("date", "ymd") else "3"
            self.read = 0
            for field, place in itertools.product(DATES if name in ("date", "ymd") else FIELDS, (0, 1)):
                # fewer places for columns whose fields are much like those of others
                is_new = name in ("strict", "strict decimals", "a comma", "ymd")
                for before, after in [(0, 1), (2, 0)] if is_new else itertools.product((0, 2), (0, 1)):
                    lines = [[good, "4"]] * before + [[field, "5"]] + [[good, "6"]] * after
                    with self.subTest(name, field=field, place=place, before=before, after=after):
                        self.expect("".join(",".join(it[:: 1 - 2 * place]) + "\n" for it in lines), column, place)
            self.assertGreater(self.read, 20)

    def test_each_line(self):
        for lines in [*itertools.product(AROUND, repeat=2), *itertools.product(AROUND[::3], repeat=3)]:
            with self.subTest(lines):
                self.expect("".join(lines), csvfile.Column())
        self.assertGreater(self.read, 20)

    def test_headers_delimiters_and_encodings(self):
        for delimiter, header in itertools.product(",;\t| a.é'", (None, True, False)):
            for text in HEADS:
                with self.subTest(delimiter, header=header, text=text):
                    self.expect(text.replace(",", delimiter), csvfile.Column(), 0, delimiter, header)
        self.assertGreater(self.read, 20)
        for text in CODES:
            self.expect(text, csvfile.Column())

    def test_names_of_files_do_not_matter(self):
        for name in ("rows.csv.gz", "rows.zip", "~rows", "file:rows"):
            self.path = self.path.with_name(name)
            self.expect("1,2\n3,4\n", csvfile.Column())
        self.assertEqual(self.read, 4)

    def test_random_files(self):
        drawn = random.Random(7)
        for _ in range(600):
            text = "".join(drawn.choice('01239.-+e" ,,,\n\n\r\0#') for _ in range(drawn.randrange(40)))
            for column in (csvfile.Column(), csvfile.Column(is_float=True)):
                self.expect(text, column, drawn.randrange(2))

    def test_zero_bytes_and_blocks_in_each_place(self):
        rows = "".join(f"{it},{it * 7}.25\n" for it in range(9))
        columns = [(0, csvfile.Column()), (1, csvfile.Column(decimals=2))]
        for size in (1, 4, 1000):
            with mock.patch.multiple(pandascsv, CHARACTERS_AT_ONCE=size, FIELDS_AT_ONCE=size), by_pandas():
                for place in (None, *range(len(rows))):
                    text = rows if place is None else f"{rows[:place]}\0{rows[place:]}"
                    self.path.write_text(text, encoding="ascii")
                    file = csvfile.CsvFile(self.path, ",", False, "utf-8")
                    found = pandascsv.columns_of_pandas(file, columns)
                    if place is None:
                        wanted = [[*range(9)], [it * 700 + 25 for it in range(9)]]
                        self.assertEqual([it.tolist() for it in found], wanted)
                    else:
                        self.assertIsNone(found)

    def test_small_files_do_not_import_pandas(self):
        self.path.write_text("1,2\n", encoding="ascii")
        source = Source(self.path, "utf-8")
        with mock.patch.dict("sys.modules"):
            pandascsv.sys.modules.pop("pandas", None)
            self.assertIsNone(pandascsv.pandas_for(source))
            with mock.patch.object(pandascsv, "LEAST_BYTES", 1), mock.patch("importlib.import_module") as imported:
                self.assertIs(pandascsv.pandas_for(source), imported.return_value)

    def test_the_types_of_what_is_read(self):
        self.path.write_text("2020-01-01,5\n2020-01-02,6\n", encoding="ascii")
        for key_format, key_type in (("%Y-%m-%d", "datetime64[us]"),):
            with by_pandas(), crackd.load_csv(self.path, key_format=key_format) as table:
                self.assertEqual((table.key_type, table.sum("2020-01-02")), (key_type, 6))
        found = csvfile.Column(format="%Y-%m-%d").read_all(["1970-01-02"])
        self.assertEqual(found, array.array("q", [86_400_000_000]))


if __name__ == "__main__":
    unittest.main()
