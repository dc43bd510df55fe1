"""Fields of CSV files at their limits, Arrow streams without optional parts, files that `save` didn't write, and the
texts of errors and of the command."""

import contextlib
import ctypes
import html
import io
import os
import pathlib
import pickle
import tempfile
import unittest
from unittest import mock

import test_frames
from test_lines import WithFiles
from ways import crackd, np, wants_library, wants_numpy

from crackd import __main__ as program
from crackd import arrow, described, errors, frames, pandascsv, saved, server
from crackd.keys import Keys
from crackd.source import Source

# a field that is too long for the module csv
LONG = "9" * 131_073


@wants_library
class Fields(WithFiles, unittest.TestCase):
    """Fields at their limits, as they are read without pandas."""

    def setUp(self):
        patch = mock.patch.object(pandascsv, "pandas_for", lambda _: None)
        patch.start()
        self.addCleanup(patch.stop)

    def test_zeros_before_a_number(self):
        """They don't count, whatever other fields are beside it."""
        for zeros in (0, 1, 30, 38, 39, 40, 41, 100, 4300, 5000):
            for sign in ("", "+", "-"):
                for other in ("3", " 3", "3 "):
                    number = -5 if sign == "-" else 5
                    text = f"{sign}{'0' * zeros}5,1\n{other},2\n"
                    with self.subTest(zeros=zeros, sign=sign, other=other):
                        self.assertEqual(self.rows(text, key_type="int64"), [(1, number), (2, 3)])
        self.assertEqual(self.rows(f"{'0' * 50},1\n 3,2\n", key_decimals=0), [(1, 0), (2, 3)])
        for field in ("9" * 41, "-" + "9" * 41, "0" * 60 + "9" * 41, "1" + "0" * 40, "-1" + "0" * 40):
            said = self.wrong(1, 1, f"{field},1\n", key_type=int)
            self.assertIn("isn't -9223372036854775808 to 9223372036854775807", said)

    def test_digits_after_the_last_place_count(self):
        for decimals in (1, 2, 10):
            for zeros in range(31):
                text = f"1.{'0' * zeros}1,1\n"
                if zeros < decimals:
                    key = 10**decimals + 10 ** (decimals - zeros - 1)
                    self.assertEqual(self.rows(text, key_decimals=decimals), [(1, key)])
                else:
                    self.assertIn(f"more than {decimals} dec", self.wrong(1, 1, text, key_decimals=decimals))

    def test_how_many_decimals(self):
        for decimals in (39, 40):
            text = f".{'0' * 37}7,1\n"
            self.assertEqual(self.rows(text, key_decimals=decimals), [(1, 7 * 10 ** (decimals - 38))])
        # a field has up to 40 characters
        self.assertEqual(self.rows(f".{'0' * 38}7,1\n", key_decimals=40), [(1, 70)])
        self.assertEqual(self.rows(f"{'0' * 35}12.34,1\n", key_decimals=2), [(1, 1234)])
        self.wrong(1, 1, f"{'0' * 36}12.34,1\n", key_decimals=2)
        for name in ("key_decimals", "payload_decimals"):
            for wrong in (-1, 41):
                with self.assertRaisesRegex(ValueError, f"{name} must be 0 to 40, not {wrong}"):
                    self.rows("1,1\n", **{name: wrong})
            for wrong in (1.5, "1", True):
                with self.assertRaises(TypeError):
                    self.rows("1,1\n", **{name: wrong})
        self.assertEqual(self.rows("1,1\n", key_decimals=0, payload_decimals=0), [(1, 1)])
        # 18 digits are read at once, and 19 one by one
        for whole, decimals in [(16, 2), (17, 2), (1, 17), (2, 17), (1, 18)]:
            field = f"{'8' * whole}.{'7' * decimals}"
            self.assertEqual(self.rows(f"-{field},1\n", key_decimals=decimals), [(1, -int(field.replace(".", "")))])

    def test_floats_have_no_decimals_and_no_format(self):
        for options in ({"key_decimals": 1}, {"key_format": "%Y"}, {"key_decimals": 1, "key_format": "%Y"}):
            with self.assertRaisesRegex(ValueError, "key_decimals and key_format are for integers and dates"):
                self.rows("2000,1\n", key_type="float64", **options)
        self.assertEqual(self.rows("1.5,2.5\n", key_type="float64", payload_decimals=1), [(25, 1.5)])
        for wrong in ("int32", "datetime64[us]", bool, str, "float32"):
            with self.assertRaises(ValueError):
                self.rows("1,1\n", key_type=wrong)

    @wants_numpy
    def test_the_year_0_in_each_place(self):
        for place in range(4):
            days = ["2020-01-02"] * 4
            days[place] = "0000-01-01"
            self.wrong(place + 1, 1, "".join(f"{it},1\n" for it in days), key_format="%Y-%m-%d")
            self.wrong(place + 1, 2, "".join(f"1,{it}\n" for it in days), payload_format="%Y-%m-%d")

    def test_line_feeds_within_fields(self):
        """They aren't two numbers."""
        for options in ({"key_decimals": 1}, {}):
            for field in ('"1.5\n2.5"', '"1\n2"', '"1.5\r\n2.5"', '"\n"', '"1\n2\n3"'):
                with self.assertRaises(crackd.CsvError):
                    self.rows(f"{field},1\n", **options)
        self.assertEqual(self.rows('"1\n",2\n"\r\n3",4\n'), [(2, 1), (4, 3)])

    def test_texts(self):
        self.assertIn("the line has only 1 field", self.wrong(1, 2, "1\n"))
        self.assertFalse(self.wrong(1, 2, "1\n").endswith("fields"))
        self.assertIn("the line has only 2 fields", self.wrong(2, 3, "1,2,3\n1,2\n", 0, 2))
        self.assertIn("no column 'b'; the header has none", self.wrong(1, 1, "", "b", "b"))
        self.assertIn("no column 'b'; the header has a, c", self.wrong(1, 1, "a,c\n1,2\n", "b", "a"))
        path = self.path("1,2\n")
        for wrong in ("", ";;", '"', "\r", "\n", True, 5, b","):
            with self.assertRaisesRegex(ValueError, "a delimiter must be one character"):
                crackd.load_csv(path, delimiter=wrong)

    def test_fields_that_the_module_csv_refuses(self):
        for before, lines in [("", 0), ("key,payload\n", 1), ("1,2\n", 1), ("1,2\n3,4\n", 2), ("1,2\n" * 1000, 1000),
                              ("key,payload\n" + "1,2\n" * 1000, 1001), ("1,2\n" * 1500, 1500)]:
            for after in ("", "3,4\n"):
                said = self.wrong(lines + 1, 1, f"{before}{LONG},1\n{after}")
                self.assertIn("field larger than field limit", said)
        for words in (("b",), ("b", "a"), (0, "b")):
            self.assertIn("field larger", self.wrong(1, 1, f"{LONG},b\n1,2\n", *words))
        # an earlier wrong field is reported first
        self.wrong(2, 1, f"1,2\nx,4\n{LONG},1\n")
        self.wrong(2, 2, f"1,2\n3\n{LONG},1\n")


class Worth(WithFiles, unittest.TestCase):
    """From which length on a file is worth the import of pandas."""

    @wants_numpy
    def test_lengths(self):
        path = self.path("1,2\n")
        for least, is_worth in ((3, True), (4, True), (5, False)):
            with mock.patch.dict("sys.modules"), mock.patch.object(pandascsv, "LEAST_BYTES", least):
                pandascsv.sys.modules.pop("pandas", None)
                with mock.patch("importlib.util.find_spec"), mock.patch("importlib.import_module") as imported:
                    found = pandascsv.pandas_for(Source(path, "utf-8"))
                self.assertIs(found, imported.return_value if is_worth else None)
                # if pandas is imported already, any file is worth it
                pandascsv.sys.modules["pandas"] = mock.sentinel.pandas
                self.assertIs(pandascsv.pandas_for(path), mock.sentinel.pandas)
        for fault in (ImportError, ModuleNotFoundError):
            with mock.patch.object(pandascsv, "LEAST_BYTES", 1), mock.patch.dict("sys.modules"):
                pandascsv.sys.modules.pop("pandas", None)
                with mock.patch("importlib.util.find_spec"):
                    with mock.patch("importlib.import_module", side_effect=fault):
                        self.assertIsNone(pandascsv.pandas_for(Source(path, "utf-8")))


@wants_numpy
class Streams(unittest.TestCase):
    """Streams of Arrow that say little."""

    def test_a_stream_that_fails_without_a_reason(self):
        kind = dict(arrow.Stream._fields_)["get_last_error"]
        for said in (kind(), kind(lambda _: None)):
            class Bare(test_frames.Data):
                def __arrow_c_stream__(self, requested_schema=None, said=said):
                    capsule = super().__arrow_c_stream__()
                    next(it for it in reversed(self.kept) if isinstance(it, arrow.Stream)).get_last_error = said
                    return capsule

            for fault in (0, 1):
                data = Bare({"k": ("l", [[1], [2]])}, fault=fault)
                with self.assertRaisesRegex(OSError, "the Arrow stream ended: no reason") as caught:
                    arrow.columns_of_stream(data, [0])
                self.assertEqual((caught.exception.errno, data.alive), (5, 0))

    def test_types_that_are_no_numbers(self):
        plain = [(it, False) for it in (b"u", b"b", b"n", b"tts", b"d:5,2", b"+l", b"", b"ll")]
        for form, dictionary in [*plain, (b"i", True), (b"l", True), (b"tdD", True)]:
            for name in (b"k", b"", None):
                schema = arrow.Schema(format=form, name=name)
                if dictionary:
                    schema.dictionary = ctypes.pointer(arrow.Schema(format=b"u"))
                shown = repr("k" if name == b"k" else 0)
                # that of the values of a dictionary
                shown_form = "u" if dictionary and form != b"tdD" else form.decode()
                wanted = f"column {shown} has the Arrow type '{shown_form}', which is no number"
                with self.assertRaises(TypeError) as caught:
                    arrow.Column(schema, 0)
                self.assertTrue(str(caught.exception).startswith(wanted), caught.exception)

    def test_columns_by_names_that_are_empty_and_by_the_number_0(self):
        data = test_frames.Data({"a": ("l", [[1, 2]]), "": ("l", [[3, 4]])})
        for key, payload, wanted in [
            ("a", "", ([1, 2], [3, 4])),
            ("", "a", ([3, 4], [1, 2])),
            (1, 0, ([3, 4], [1, 2])),
            (0, 1, ([1, 2], [3, 4])),
            (None, None, ([1, 2], [0, 1])),
            (None, 1, ([1, 2], [3, 4])),
            ("", None, ([3, 4], [0, 1])),
            (1, "", ([3, 4], [3, 4])),
        ]:
            found = frames.columns_of(data, key, payload)
            self.assertEqual((key, payload, tuple(map(list, found))), (key, payload, wanted))

    def test_what_is_a_frame(self):
        class Indexed(test_frames.Data):
            def index(self, value):
                raise AssertionError(value)

        found = frames.columns_of(Indexed({"a": ("l", [[1, 2]])}), None, None)
        self.assertEqual([list(it) for it in found], [[1, 2], [0, 1]])
        for wrong in ([1, 2], (1, 2), "text", {"a": [1]}, None, 5):
            with self.assertRaisesRegex(TypeError, f"of type {type(wrong).__name__}: it is no frame"):
                frames.columns_of(wrong, None, None)

    def test_places(self):
        names = ["a", "b", "a", ""]
        for wanted, place in [("b", 1), ("", 3), (0, 0), (3, 3), (np.int64(2), 2)]:
            self.assertEqual(arrow.place_of(names, wanted), place)
        for wanted in ("a", "c", "B", -1, 4, -4):
            self.assertRaises(KeyError, arrow.place_of, names, wanted)
        for wanted in (1.0, None, b"b"):
            self.assertRaises(TypeError, arrow.place_of, names, wanted)
        self.assertRaises(KeyError, arrow.place_of, [], 0)


@wants_numpy
class Saves(unittest.TestCase):
    """Files of rows."""

    def setUp(self):
        room = tempfile.TemporaryDirectory()
        self.addCleanup(room.cleanup)
        self.room = pathlib.Path(room.name)
        self.path = self.room / "rows.npy"

    def test_what_holds_no_rows(self):
        pair = [("key", "int64"), ("payload", "int64")]
        good = np.array([(1, 2), (3, 4)], pair)
        whole = io.BytesIO()
        np.save(whole, good)
        arrays = [
            good.reshape(1, 2), good.reshape(2, 1), good[0], good.astype([("payload", "int64"), ("key", "int64")]),
            np.array([(1, 2)], [("key", "int64"), ("pay", "int64")]),
            np.array([(1, 2)], [("key", "int64"), ("payload", "int32")]),
            np.array([(1, 2)], [("key", "int64"), ("payload", "uint64")]), np.arange(4), np.array([], "int64"),
            np.array([(1, 2, 3)], [*pair, ("more", "int64")]), np.array([(1,)], pair[:1]),
            np.array([("a", 2)], [("key", "U1"), ("payload", "int64")]),
            np.array([(1, 2)], [("key", "int64"), ("payload", ">i8")]),
        ]
        texts = []
        for it in arrays:
            file = io.BytesIO()
            np.save(file, it)
            texts.append(file.getvalue())
        packed = io.BytesIO()
        np.savez(packed, good)
        texts += [b"", b"\x93", b"\x93NUMPY\x01\x00", whole.getvalue()[:60], whole.getvalue()[:-1]]
        texts.append(b"key,payload\n1,2\n")
        for text in [*texts, packed.getvalue()]:
            self.path.write_bytes(text)
            with self.subTest(text[:80]), self.assertRaises(saved.BadSave):
                saved.read_saved(self.path)
        self.path.write_bytes(whole.getvalue())
        kind, _, rows, _ = saved.read_saved(self.path)
        self.assertEqual((kind.name, rows.tolist()), ("int64", [(1, 2), (3, 4)]))
        self.assertRaises(FileNotFoundError, saved.read_saved, self.room / "no")

    def test_blocks(self):
        kind = Keys.named("uint64")
        for blocks in ([], [[]], [[5]], [[5], [], [6, 7]], [[1, 2, 3], [4]]):
            with saved.writing(self.path, kind) as file:
                for it in blocks:
                    file.add(np.array(it, "uint64"), np.array([-key for key in it], "int64"))
                self.assertEqual(file.rows, sum(map(len, blocks)))
            rows = np.load(self.path)
            self.assertEqual(rows.tolist(), [(key, -key) for it in blocks for key in it])

    def test_errors_amid_leave_what_was_there(self):
        kind = Keys.named("int64")
        for fault in (ValueError, OSError, KeyboardInterrupt, GeneratorExit):
            for is_there in (False, True):
                if is_there:
                    self.path.write_bytes(b"old")
                with self.assertRaises(fault), saved.writing(self.path, kind) as file:
                    file.add(np.array([1], "uint64"), [2])
                    raise fault
                self.assertEqual([it.name for it in self.room.iterdir()], ["rows.npy"] * is_there)
                if is_there:
                    self.assertEqual(self.path.read_bytes(), b"old")
                    self.path.unlink()


class Errors(unittest.TestCase):
    """Errors in words, and from process to process."""

    def test_refusals(self):
        full = "refused 9: the partition is full: all of its cells are taken"
        for words, text in [
            ((9,), full),
            ((9, 3), f"{full} (after 3 that were done)"),
            ((9, 0, 2), f"{full} (after 0 that were done, and 2 later)"),
            ((9, 3, 2), f"{full} (after 3 that were done, and 2 later)"),
            ((55,), "refused 55: unknown"),
            ((55, 1), "refused 55: unknown (after 1 that were done)"),
        ]:
            for found in (errors.refused(*words), pickle.loads(pickle.dumps(errors.refused(*words)))):
                self.assertEqual(str(found), text)
                self.assertEqual((found.code, found.done, found.later), (*words, 0, 0)[:3])
        for code in range(120):
            found = errors.refused(code)
            found.answers = [code]
            again = pickle.loads(pickle.dumps(found))
            self.assertEqual((type(again), again.answers, again.code), (type(found), [code], code))
            self.assertIs(type(found), errors.KINDS.get(code, errors.Refused))
            self.assertIsNone(errors.refused(code).answers)

    def test_lost_shards(self):
        found = errors.ShardLost(3, None, 5, "keys below 5", "it went")
        other = found.copied([1, 2])
        again = pickle.loads(pickle.dumps(other))
        for it, answers in ((found, None), (other, [1, 2]), (again, [1, 2])):
            self.assertEqual(str(it), "shard 3 (keys below 5) is lost: it went")
            self.assertEqual((it.shard, it.low, it.high, it.keys, it.why), (3, None, 5, "keys below 5", "it went"))
            self.assertEqual(it.answers, answers)
        self.assertIsNot(found, other)


class Stub:
    """Stands in for a table of a server."""

    key_type, key_decimals, payload_decimals, _is_here = "int64", 0, 0, False
    zone = None

    def __init__(self, fault=None, rows=5, told=("policy", "<a & b>")):
        self.fault, self.rows, self.told = fault, rows, told

    def _check_open(self):
        if self.fault:
            raise self.fault

    def _facts(self):
        yield self.told

    def _rows(self):
        return self.rows

    def _memory(self):
        return 10**7


class Words(unittest.TestCase):
    """Tables in words."""

    def test_states(self):
        name = f"<{Stub.__module__}.Stub: "
        states = [(None, ""), (crackd.Closed("x"), ", closed"), (crackd.Forked("x"), ", of the parent process")]
        for fault, state in states:
            self.assertEqual(described.text_of(Stub(fault)), f"{name}int64 keys, policy <a & b>{state}>")
        here = Stub()
        here._is_here = True
        self.assertEqual(described.text_of(here), f"{name}5 rows, int64 keys, policy <a & b>, memory about 10 MB>")
        for count, text in [(0, "0 rows"), (1, "1 row"), (2, "2 rows"), (12345, "12,345 rows")]:
            here.rows = count
            self.assertIn(f": {text}, int64 keys", described.text_of(here))
        here.fault = crackd.Closed("x")
        self.assertEqual(described.text_of(here), f"{name}int64 keys, policy <a & b>, closed>")

    def test_notebooks(self):
        found = described.html_of(Stub())
        self.assertIn(html.escape("<a & b>"), found)
        self.assertNotIn("<a & b>", found)
        self.assertIn(">rows</td>", found)
        broken = Stub()
        broken._rows = mock.Mock(side_effect=crackd.Disconnected("it <went>"))
        found = described.html_of(broken)
        self.assertIn("it &lt;went&gt;", found)
        self.assertNotIn(">rows</td>", found)

    def test_sizes(self):
        sizes = {0: "0.0", 49_999: "0.0", 500_000: "0.5", 9_900_000: "9.9", 10**7: "10", 1_234_400_000: "1,234"}
        for count, text in sizes.items():
            self.assertEqual(described.size_text(count), f"about {text} MB")


class Divided(unittest.TestCase):
    """Where keys are cut, for each way to say it."""

    def test_cuts(self):
        keys, few = Keys.named("uint64"), range(120)
        for words, wanted in [
            (([], None, None, None), []),
            (([], None, 1, None), []),
            (([], None, None, [5, 9]), [5, 9]),
            (([], None, 3, [5, 9]), [5, 9]),
            ((few, None, 4, None), [30, 60, 90]),
            ((few, None, 1, None), []),
            ((few, None, None, None), []),
            ((few, 3 * 4096, None, None), [40, 80]),
            ((few, 3 * 4096 - 1, None, None), [60]),
            ((few, 6 * 4096, None, None, 2), [20, 40, 60, 80, 100]),
            ((few, 6 * 4096, None, None, None, 3), [20, 40, 60, 80, 100]),
            ((few, 100, None, None, 3), [40, 80]),
            ((few, 100, 2, None, 3), [60]),
        ]:
            self.assertEqual((words, server.splits_of(keys, *words)), (words, wanted))
        for words, said in [
            (([], None, 2, None), "2 partitions need a sample"),
            ((few, None, 0, None), "partitions must be 1 to 64, not 0"),
            ((few, None, 65, None), "partitions must be 1 to 64, not 65"),
            ((few, None, 129, None, 2), "partitions must be 1 to 128, not 129"),
            (([], None, 2, [5, 9]), "2 splits make 3 partitions, not 2"),
            (([], None, 4, [5, 9]), "2 splits make 3 partitions, not 4"),
        ]:
            with self.assertRaisesRegex(ValueError, said):
                server.splits_of(keys, *words)


class Command(unittest.TestCase):
    """`python3 -m crackd`."""

    def run_program(self, *words):
        out, errors_ = io.StringIO(), io.StringIO()
        with contextlib.redirect_stdout(out), contextlib.redirect_stderr(errors_):
            try:
                status = program.main(list(words))
            except SystemExit as end:
                status = end.code
        return status, out.getvalue(), errors_.getvalue()

    def test_versions(self):
        for word in ("--version", "-V"):
            with mock.patch.object(program, "version", lambda: "crackd 0.1.0 (proved elsewhere)"):
                self.assertEqual(self.run_program(word), (0, "crackd 0.1.0 (proved elsewhere)\n", ""))
            with mock.patch.object(program, "version", mock.Mock(side_effect=ImportError)):
                self.assertEqual(self.run_program(word), (0, f"crackd {crackd.__version__}\n", ""))

    def test_files(self):
        with tempfile.TemporaryDirectory() as room:
            path = os.path.join(room, "rows.csv")
            for text, words, wanted in [
                (b"\xef\xbb\xbf1,2\n3,4\n", [], (0, "3\n", "")),
                (b"\xef\xbb\xbfkey,payload\r\n1,2\r\n3,4", [], (0, "3\n", "")),
                (b"\xef\xbb\xbfa,b\n1,2\n3,4\n", ["--key", "a"], (0, "3\n", "")),
                (b"a,1\n1,2\n3,4\n", ["--key", "1"], (0, "2\n", "")),
                (b"a,b\n1,2\n3,4\n", ["--key", "\u00b2"], (1, "", "there is no column '\u00b2'; the header has a, b")),
                (b"a,b\n1,2\n3,4\n", ["--key", "-1"], (1, "", "there is no column '-1'; the header has a, b")),
                (b"1,2\n\xff,4\n", [], (1, "", "rows.csv, line 2: the text isn't UTF-8")),
                (b"key,payload\n", [], (0, "\n", "")),
                (b"7,1\n", [], (0, "7\n", "")),
                (b"7,1\n7,2\n", [], (0, "7\n", "")),
            ]:
                pathlib.Path(path).write_bytes(text)
                status, out, said = self.run_program("splits", path, "2", *words)
                self.assertEqual((text, status, out), (text, *wanted[:2]))
                self.assertIn(wanted[2], said)
                self.assertEqual((said.startswith("crackd: "), said.count("\n")), (bool(status), status))
            self.assertEqual(self.run_program("splits", room, "2"), (1, "", f"crackd: {room}: Is a directory\n"))


if __name__ == "__main__":
    unittest.main()
