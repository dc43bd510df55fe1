"""Tables made of pandas frames and of Arrow data, and rows as frames."""

import contextlib
import ctypes
import importlib.util
import itertools
import unittest
from unittest import mock

from clusters import cluster, local, wants_cluster, wants_pandas
from kinds import GREATEST, LEAST, UNSIGNED
from ways import (
    InProcess,
    InShards,
    OverAsyncio,
    OverTcp,
    crackd,
    np,
    wants_library,
    wants_numpy,
    wants_program,
    wants_shards,
)

from crackd import arrow

pd = __import__("pandas") if importlib.util.find_spec("pandas") else None
WORKERS = 2


def numbers(it):
    return [int(each) for each in it]


def column_kinds():
    """Columns of pandas at their limits, each with the type of keys that it makes and its keys."""
    days = pd.to_datetime(["1677-09-22", "1970-01-01", "2262-04-11"])
    zoned = days[1:2].tz_localize("Europe/Berlin").append(pd.DatetimeIndex(["2020-07-01"], tz="Europe/Berlin"))
    return {
        "int8": (pd.Series([-128, 0, 127], dtype="int8"), "int64", [-128, 0, 127]),
        "int64": (pd.Series([LEAST, -1, GREATEST]), "int64", [LEAST, -1, GREATEST]),
        "uint64": (pd.Series([0, 2**63, UNSIGNED], dtype="uint64"), "uint64", [0, 2**63, UNSIGNED]),
        "Int64": (pd.array(np.array([LEAST, 2**53 + 1]), dtype="Int64"), "int64", [LEAST, 2**53 + 1]),
        "UInt64": (pd.array(np.array([0, UNSIGNED], "uint64"), dtype="UInt64"), "uint64", [0, UNSIGNED]),
        "float": (pd.Series([-np.inf, -0.5, np.inf]), "float64", [-np.inf, -0.5, np.inf]),
        "Float64": (pd.array([0.5, 2.0**63], dtype="Float64"), "float64", [0.5, 2.0**63]),
        "dates": (pd.Series(days), "datetime64[ns]", days.to_numpy().tolist()),
        "zoned": (pd.Series(zoned), "datetime64[ns]", zoned.tz_convert("UTC").tz_localize(None).to_numpy().tolist()),
        "objects": (pd.Series([1, -5, 7], dtype=object), "int64", [1, -5, 7]),
    }


def with_gaps():
    """Columns of pandas whose last but one item is missing."""
    return {
        "Int64": pd.array([1, 2, None, 4], dtype="Int64"),
        "float": pd.Series([1.0, 2.0, np.nan, 4.0]),
        "Float64": pd.array([1.0, 2.0, None, 4.0], dtype="Float64"),
        "dates": pd.Series(pd.to_datetime(["2020-01-01", "2020-01-02", None, "2020-01-04"])),
        "zoned": pd.Series(pd.to_datetime(["2020-01-01", "2020-01-02", None, "2020-01-04"], utc=True)),
        "objects": pd.Series([1, 2, None, 4], dtype=object),
    }


@wants_pandas
class Frames:
    """Rows of frames, however a table is reached."""

    def rows_of(self, table):
        got = table.select(raw=True)
        return dict(zip(numbers(got.rows), zip(got.keys.tolist(), numbers(got.payloads))))

    def test_columns_of_each_type(self):
        for name, (column, key_type, keys) in column_kinds().items():
            columns = {"k": getattr(column, "array", column), "p": range(10, 10 + len(keys))}
            frame = pd.DataFrame(columns, index=[7] * len(keys))
            with self.subTest(name), self.table(key_type=key_type) as table:
                rows = table.insert_frame(frame, "k", "p")
                wanted = dict(zip(numbers(rows), zip(keys, range(10, 10 + len(keys)))))
                self.assertEqual(self.rows_of(table), wanted)

    def test_the_index_has_the_keys(self):
        for name, (column, key_type, keys) in column_kinds().items():
            if name == "objects":
                continue
            frame = pd.DataFrame({"p": range(len(keys))}, index=pd.Index(column))
            with self.subTest(name), self.table(key_type=key_type) as table:
                rows = table.insert_frame(frame, payload="p")
                self.assertEqual(self.rows_of(table), dict(zip(numbers(rows), zip(keys, range(len(keys))))))

    def test_progress(self):
        told = []
        with self.table(key_type="int64") as table, mock.patch("crackd.progress.STEP", 2):
            table.insert_frame(pd.DataFrame({"k": [5, 6, 7]}), "k", progress=lambda *it: told.append(it))
        self.assertEqual(told, [(2, 3), (3, 3)])

    def test_payloads(self):
        with self.table(key_type="int64") as table:
            frame = pd.DataFrame({"k": [5, 6], 3: pd.array([LEAST, GREATEST], dtype="Int64")}, index=[30, 40])
            self.assertEqual(len(table.insert_frame(frame, "k", 3)), 2)
            self.assertEqual(len(table.insert_frame(frame, "k")), 2)
            self.assertEqual(len(table.insert_frame(pd.Series([7, 8], index=[50, 60]))), 2)
            self.assertEqual(table.select().payloads.tolist(), [LEAST, GREATEST, 0, 1, 7, 8])
            self.assertEqual(table.select().keys.tolist(), [5, 6, 5, 6, 50, 60])
            for wrong in ([1.0, 2.0], ["1", "2"], [True, False]):
                self.assertRaises(TypeError, table.insert_frame, pd.DataFrame({"k": [1, 2], "p": wrong}), "k", "p")
            self.assertEqual(len(table), 6)

    def test_the_first_gap_is_named(self):
        for name, column in with_gaps().items():
            frame = pd.DataFrame({"k": getattr(column, "array", column), "p": range(4)}, index=list("abcd"))
            with self.subTest(name), self.table(key_type="int64") as table:
                with self.assertRaisesRegex(ValueError, "column 'k' has a gap at row 2, index 'c'"):
                    table.insert_frame(frame, "k", "p")
                self.assertRaisesRegex(ValueError, "'k' has a gap at row 2", table.insert_frame, frame, "p", "k")
                with self.assertRaisesRegex(ValueError, "the index has a gap at row 2"):
                    table.insert_frame(pd.DataFrame({"p": range(4)}, index=pd.Index(column)), payload="p")
                self.assertEqual(len(table), 0)

    def test_what_is_no_column(self):
        with self.table() as table:
            frame = pd.DataFrame({"k": [1], "p": [2]})
            self.assertRaises(KeyError, table.insert_frame, frame, "x", "p")
            twice = pd.DataFrame([[1, 2]], columns=["k", "k"])
            self.assertRaisesRegex(ValueError, "several columns 'k'", table.insert_frame, twice, "k")
            levels = frame.set_index(["k", "p"])
            self.assertRaisesRegex(TypeError, "several levels", table.insert_frame, levels)
            self.assertRaisesRegex(TypeError, "a Series has no columns", table.insert_frame, frame["k"], "k")
            for wrong in ([1, 2], {"k": [1]}, np.arange(3), 5, None):
                self.assertRaises(TypeError, table.insert_frame, wrong, 0)
            self.assertEqual(len(table), 0)

    def test_columns_whose_names_are_numbers_or_empty(self):
        for key, payload in [(0, 1), (1, 0), ("", 0), (0, "")]:
            with self.subTest(key=key, payload=payload), self.table(key_type="int64") as table:
                frame = pd.DataFrame({key: [5, 6], payload: [70, 80]}, index=[100, 200])
                table.insert_frame(frame, key, payload)
                self.assertEqual([table.sum(5, 6), table.sum(6, 7), table.count()], [70, 80, 2])

    def test_no_rows(self):
        with self.table(key_type="int64") as table:
            self.assertEqual(len(table.insert_frame(pd.DataFrame({"k": []}, dtype="int64"), "k")), 0)
            frame = table.select().to_pandas()
            self.assertEqual((len(frame), list(frame.columns), frame.index.name), (0, ["key", "payload"], "row"))

    def test_rows_as_a_frame(self):
        for name, (column, key_type, keys) in column_kinds().items():
            with self.subTest(name), self.table(key_type=key_type) as table:
                rows = table.insert_frame(pd.DataFrame({"k": column}), "k")
                frame = table.select().to_pandas()
                self.assertEqual((frame.index.name, str(frame.index.dtype)), ("row", "uint64"))
                self.assertEqual((str(frame["key"].dtype), str(frame["payload"].dtype)), (key_type, "int64"))
                self.assertEqual(frame.index.tolist(), sorted(numbers(rows)))
                again = self.copied(table, frame)
                self.assertEqual(again, sorted((key, payload) for key, payload in self.rows_of(table).values()))

    def copied(self, table, frame):
        """The rows of a new table of a frame."""
        with crackd.Table.from_pandas(frame, "key", "payload") as other:
            self.assertEqual(other.key_type, table.key_type)
            return sorted(self.rows_of(other).values())

    def test_dates_that_pandas_does_not_have(self):
        several = ("15m", "25us", "10ns", "1000ns")
        for unit in ("Y", "M", "W", "D", "h", "m", "s", "ms", "us", "ns", "ps", "fs", "as", *several):
            dtype = f"datetime64[{unit}]"
            with self.subTest(unit), self.table(key_type=dtype) as table:
                near = np.array([-1, 0, 1], "int64").view(dtype)
                table.insert_many(near, [1, 2, 3])
                try:
                    found = table.select().to_pandas()["key"].to_numpy()
                except ValueError:
                    self.assertIn(unit, ("Y", "M", "W", "D", "h", "m", "ps", "fs", "as", *several))
                else:
                    self.assertTrue((found == near).all())
                table.insert_many(np.array([LEAST + 1, GREATEST], "int64").view(dtype), [4, 5])
                if unit != "ns":
                    self.assertRaises(ValueError, table.select().to_pandas)


# A stand-in for an Arrow library


class Data:
    """An object with a stream of Arrow: its columns by name, as pairs of a format and batches of items, None where one
    is missing. `offset` items precede each batch in its buffers, and `skipped` rows of each batch precede those that
    count, of which the one at the place `gap` is missing in all columns. `alive` is how many structures aren't
    released."""

    def __init__(self, columns, offset=0, nulls=None, is_struct=True, fault=None, skipped=0, gap=None):
        self.columns, self.offset, self.nulls, self.is_struct, self.fault = columns, offset, nulls, is_struct, fault
        self.skipped, self.gap = skipped, gap
        self.batches = len(next(iter(columns.values()))[1]) if columns else 0
        self.alive, self.kept, self.next = 0, [], 0

    def __arrow_c_stream__(self, requested_schema=None):
        self.next = 0
        stream = arrow.Stream()
        fields = dict(arrow.Stream._fields_)
        stream.get_schema, stream.get_next = fields["get_schema"](self.schema), fields["get_next"](self.batch)
        said = ctypes.create_string_buffer(b"the disk is gone")
        stream.get_last_error = fields["get_last_error"](lambda _: ctypes.addressof(said))
        stream.release = self.releasing(arrow.Stream)
        self.kept.append(stream)
        self.alive += 1
        make = ctypes.pythonapi.PyCapsule_New
        make.argtypes, make.restype = [ctypes.c_void_p, ctypes.c_char_p, ctypes.c_void_p], ctypes.py_object
        return make(ctypes.addressof(stream), b"arrow_array_stream", None)

    def releasing(self, kind):
        """The function that releases a structure of this kind."""

        def release(pointer):
            self.alive -= 1
            pointer.contents.release = dict(kind._fields_)["release"]()

        found = dict(kind._fields_)["release"](release)
        self.kept.append(found)
        return found

    def children(self, kind, them):
        pointers = (ctypes.POINTER(kind) * len(them))(*map(ctypes.pointer, them))
        self.kept.append((pointers, them))
        return ctypes.cast(pointers, ctypes.POINTER(ctypes.POINTER(kind)))

    def schema(self, _, pointer):
        found = []
        for name, (form, _) in self.columns.items():
            # "c>l" is a dictionary of "l" whose places are "c"
            form, _, values = form.partition(">")
            found.append(arrow.Schema(format=form.encode(), name=name.encode()))
            if values:
                self.kept.append(arrow.Schema(format=values.encode()))
                found[-1].dictionary = ctypes.pointer(self.kept[-1])
        made = pointer.contents
        ctypes.memset(pointer, 0, ctypes.sizeof(arrow.Schema))
        if self.is_struct:
            made.format, made.n_children, made.children = b"+s", len(found), self.children(arrow.Schema, found)
        else:
            made.format, made.dictionary = found[0].format, found[0].dictionary
        made.release = self.releasing(arrow.Schema)
        self.alive += 1
        return 0

    def column(self, form, items):
        """An array of a column, whose items begin after some others."""
        form, _, of_values = form.partition(">")
        if of_values:
            values, places = items
            made, skipped = self.column(form, places), self.skipped
            self.skipped = 0
            self.kept.append(self.column(of_values, values))
            made.dictionary, self.skipped = ctypes.pointer(self.kept[-1]), skipped
            return made
        dtype = arrow.NUMBERS.get(form) or arrow.DATES.get(form.partition(":")[0], ("i8",))[0]
        there = [it is not None for it in items]
        before = self.offset + self.skipped
        values = np.array([7] * before + [0 if it is None else it for it in items], dtype)
        bits = np.packbits(np.array([True] * before + there, bool), bitorder="little")
        buffers = (ctypes.c_void_p * 2)(None if self.nulls == "none" else bits.ctypes.data, values.ctypes.data)
        self.kept.append((values, bits, buffers))
        made = arrow.Array(length=self.skipped + len(items), offset=self.offset, n_buffers=2)
        made.null_count = -1 if self.nulls == "unknown" else there.count(False)
        made.buffers = ctypes.cast(buffers, ctypes.POINTER(ctypes.c_void_p))
        return made

    def batch(self, _, pointer):
        ctypes.memset(pointer, 0, ctypes.sizeof(arrow.Array))
        if self.next == self.batches:
            return 0
        if self.fault == self.next:
            return 5
        found = [self.column(form, batches[self.next]) for form, batches in self.columns.values()]
        self.next += 1
        made = pointer.contents
        if self.is_struct:
            bits = np.packbits(np.arange(found[0].length) != self.skipped + (self.gap or 0), bitorder="little")
            buffers = (ctypes.c_void_p * 1)(None if self.gap is None else bits.ctypes.data)
            self.kept.append((buffers, bits))
            made.length, made.n_buffers, made.n_children = found[0].length - self.skipped, 1, len(found)
            made.offset, made.null_count = self.skipped, -1
            made.buffers = ctypes.cast(buffers, ctypes.POINTER(ctypes.c_void_p))
            made.children = self.children(arrow.Array, found)
        else:
            ctypes.memmove(pointer, ctypes.byref(found[0]), ctypes.sizeof(arrow.Array))
            self.kept.append(found)
        made.release = self.releasing(arrow.Array)
        self.alive += 1
        return 0


@wants_numpy
class OfArrow:
    """Rows of Arrow's data, however a table is reached."""

    LIMITS = {"c": "int8", "C": "uint8", "s": "int16", "S": "uint16", "i": "int32", "I": "uint32", "l": "int64"}
    LIMITS |= {"L": "uint64"}

    def filled(self, data, *columns, key_type="int64"):
        """The keys and payloads of a table of some data, in order."""
        with self.table(key_type=key_type) as table:
            rows = table.insert_frame(data, *columns)
            got = table.select()
            self.assertEqual((data.alive, sorted(numbers(rows))), (0, numbers(got.rows)))
            found = dict(zip(numbers(got.rows), zip(got.keys.tolist(), numbers(got.payloads))))
            return [found[it] for it in numbers(rows)]

    def test_integers_of_each_type(self):
        for form, dtype in self.LIMITS.items():
            least, greatest = int(np.iinfo(dtype).min), int(np.iinfo(dtype).max)
            for offset in (0, 1, 8, 13):
                data = Data({"k": (form, [[least, 1], [], [greatest]]), "p": ("l", [[5, 6], [], [LEAST]])}, offset)
                with self.subTest(form, offset=offset):
                    kind = "uint64" if np.dtype(dtype).kind == "u" else "int64"
                    wanted = [(least, 5), (1, 6), (greatest, LEAST)]
                    self.assertEqual(self.filled(data, "k", "p", key_type=kind), wanted)
                    self.assertEqual(self.filled(data, 0, 1, key_type=kind), wanted)

    def test_categories(self):
        """Columns whose values are in a dictionary, of which each batch has its own."""
        for offset, skipped in [(0, 0), (1, 0), (8, 3), (13, 1)]:
            keys = [([30, -10, 20], [2, 0, 0]), ([], []), ([5], [0])]
            payloads = [([1, 2, LEAST], [2, 0, 1]), ([7], []), ([9], [0])]
            data = Data({"k": ("c>l", keys), "p": ("I>l", payloads)}, offset, skipped=skipped)
            with self.subTest(offset=offset):
                self.assertEqual(self.filled(data, "k", "p"), [(20, LEAST), (30, 1), (30, 2), (5, 9)])
        data = Data({"k": ("s>g", [([0.5, -1.5], [1, 0, 1])])}, is_struct=False)
        self.assertEqual(self.filled(data, key_type="float64"), [(-1.5, 0), (0.5, 1), (-1.5, 2)])
        days = np.array([19_000, 0]).astype("datetime64[D]").tolist()
        data = Data({"k": ("L>tdD", [([19_000, 0], [0, 1])])})
        self.assertEqual(self.filled(data, key_type="datetime64[D]"), list(zip(days, range(2))))
        with self.table() as table:
            for column, error in [
                (("c>l", [([1, None], [0, 1])]), ValueError),
                (("c>l", [([1, 2], [0, None])]), ValueError),
                (("g>l", [([1, 2], [0, 1])]), TypeError),
            ]:
                self.assertRaises(error, table.insert_frame, Data({"k": column}))
            self.assertEqual(table.count(), 0)

    def test_floats(self):
        for form in "efg":
            data = Data({"k": (form, [[-0.5, np.inf]])})
            self.assertEqual(self.filled(data, key_type="float64"), [(-0.5, 0), (np.inf, 1)])

    def test_dates(self):
        forms = {"tdD": "D", "tdm": "ms", "tss:": "s", "tsm:UTC": "ms", "tsu:Europe/Berlin": "us", "tsn:": "ns"}
        for form, unit in forms.items():
            least = -(2**31) if form == "tdD" else LEAST + 1
            data, dtype = Data({"k": (form, [[least, 0], [1]])}), f"datetime64[{unit}]"
            wanted = np.array([least, 0, 1], "int64").view(dtype).tolist()
            self.assertEqual(self.filled(data, "k", key_type=dtype), list(zip(wanted, range(3))))

    def test_a_stream_without_columns_of_its_own(self):
        data = Data({"": ("i", [[3], [1, 2]])}, 3, is_struct=False)
        self.assertEqual(self.filled(data), [(3, 0), (1, 1), (2, 2)])

    def test_the_first_gap_is_named(self):
        for nulls in (None, "unknown"):
            for offset, is_struct in ((0, True), (5, True), (8, False)):
                data = Data({"k": ("l", [[1, 2], [3, 4, None, None]])}, offset, nulls, is_struct)
                with self.assertRaisesRegex(ValueError, "has a gap at row 4"):
                    self.filled(data)
                self.assertEqual(data.alive, 0)
        data = Data({"k": ("l", [[1, 2]]), "p": ("l", [[1, None]])}, nulls="unknown")
        self.assertRaisesRegex(ValueError, "column 'p' has a gap at row 1", self.filled, data, "k", "p")
        self.assertEqual(self.filled(data, "k"), [(1, 0), (2, 1)])

    def test_batches_that_begin_amid_their_columns(self):
        columns = {"k": ("s", [[1, 2], [3]]), "p": ("l", [[5, 6], [7]])}
        gaps = {"k": ("l", [[1, 2], [3, None]])}
        for skipped, offset in [(1, 0), (8, 0), (13, 3)]:
            with self.subTest(skipped=skipped):
                found = self.filled(Data(columns, offset, skipped=skipped), "k", "p")
                self.assertEqual(found, [(1, 5), (2, 6), (3, 7)])
                with self.assertRaisesRegex(ValueError, "has a gap at row 3"):
                    self.filled(Data(gaps, offset, skipped=skipped))

    def test_a_row_that_is_missing_as_a_whole(self):
        for skipped in (0, 9):
            data = Data({"k": ("l", [[1, 2], [3, 4]])}, skipped=skipped, gap=1)
            self.assertRaisesRegex(ValueError, "has a gap at row 1", self.filled, data)
            self.assertEqual(data.alive, 0)

    def test_columns_without_a_list_of_gaps(self):
        self.assertEqual(self.filled(Data({"k": ("l", [[1], [2]])}, 3, "none")), [(1, 0), (2, 1)])

    def test_no_rows(self):
        self.assertEqual(self.filled(Data({"k": ("l", [])})), [])
        self.assertEqual(self.filled(Data({"k": ("l", [[]])})), [])

    def test_what_is_no_column(self):
        data = Data({"k": ("l", [[1]]), "t": ("u", [[1]])})
        for column, error in (("x", KeyError), (2, KeyError), (-1, KeyError), (1.0, TypeError), (True, TypeError)):
            self.assertRaises(error, self.filled, data, column)
            self.assertEqual(data.alive, 0)
        self.assertRaisesRegex(TypeError, "column 't' has the Arrow type 'u'", self.filled, data, "t")
        self.assertRaisesRegex(TypeError, "column 't' has the Arrow type 'u'", self.filled, data, "k", "t")

    def test_a_stream_that_fails(self):
        for at in (0, 1):
            data = Data({"k": ("l", [[1], [2]])}, fault=at)
            self.assertRaisesRegex(OSError, "the Arrow stream ended: the disk is gone", self.filled, data)
            self.assertEqual(data.alive, 0)


@wants_numpy
class Gaps(unittest.TestCase):
    """Bits that say which items of an array of Arrow are missing."""

    def test_each_gap_at_each_offset(self):
        column = arrow.Column.__new__(arrow.Column)
        column.name = "k"
        for offset, more, length in itertools.product((0, 1, 7, 8, 9), (0, 1, 7, 8), (1, 2, 7, 8, 9, 17)):
            before = offset + more
            for gap in (None, *range(length)):
                is_there = [False] * before + [at != gap for at in range(length)]
                bits = np.packbits(np.array(is_there), bitorder="little")
                buffers = (ctypes.c_void_p * 2)(bits.ctypes.data, None)
                of_array = {"length": length + more, "null_count": -1, "offset": offset, "n_buffers": 2}
                own = arrow.Array(**of_array, buffers=ctypes.cast(buffers, ctypes.POINTER(ctypes.c_void_p)))
                if gap is None:
                    column.check_whole(own, more, length, 100)
                else:
                    with self.assertRaisesRegex(ValueError, f"^column 'k' has a gap at row {100 + gap}$"):
                        column.check_whole(own, more, length, 100)


@wants_library
class InProcessFrames(Frames, InProcess, unittest.TestCase):
    """In the process."""

    def test_tables_of_frames(self):
        for name, (column, key_type, keys) in column_kinds().items():
            frame = pd.DataFrame({"k": column, "p": range(10, 10 + len(keys))})
            for options in ({}, {"partitions": 2}):
                with self.subTest(name), crackd.Table.from_pandas(frame, "k", "p", **options) as table:
                    wanted = dict(zip(numbers(table.row_numbers), zip(keys, range(10, 10 + len(keys)))))
                    self.assertEqual((self.rows_of(table), table.key_type), (wanted, key_type))
                    self.assertEqual(table.zone, "Europe/Berlin" if name == "zoned" else None)
                    if name == "zoned":
                        # summer and winter differ
                        shown = column.dt.tz_localize(None).to_numpy()
                        self.assertEqual(sorted(table.select().keys), sorted(shown))
                        self.assertEqual(sorted(table.select().to_pandas()["key"]), sorted(column))
                        self.assertEqual(table.get(table.row_numbers[1]).key, column[1])
        with crackd.Table.from_pandas(pd.Series([5, 6], index=[2, 1])) as table:
            self.assertEqual(table.select(2, 3).payloads.tolist(), [5])
        self.assertRaises(TypeError, crackd.Table.from_pandas, np.arange(3))
        self.assertRaises(TypeError, crackd.Table.from_pandas, Data({"k": ("l", [[1]])}))


@wants_library
class InProcessArrow(OfArrow, InProcess, unittest.TestCase):
    """In the process."""

    def test_tables_of_data(self):
        data = Data({"k": ("L", [[UNSIGNED, 1], [0]]), "p": ("s", [[1, 2], [3]])})
        with crackd.Table.from_arrow(data, "k", "p", partitions=2) as table:
            self.assertEqual((table.key_type, data.alive), ("uint64", 0))
            self.assertEqual([table.get(it) for it in table.row_numbers], [(UNSIGNED, 1), (1, 2), (0, 3)])
        with crackd.Table.from_arrow(data) as table:
            self.assertEqual([table.get(it).payload for it in table.row_numbers], [0, 1, 2])
        self.assertRaises(TypeError, crackd.Table.from_arrow, np.arange(3))


@wants_shards
class InShardsFrames(Frames, InShards, unittest.TestCase):
    """In several shards of the process."""


@wants_shards
class InShardsArrow(OfArrow, InShards, unittest.TestCase):
    """In several shards of the process."""


@wants_program
@wants_library
class OverTcpFrames(Frames, OverTcp, unittest.TestCase):
    """Over TCP."""


@wants_program
class OverTcpArrow(OfArrow, OverTcp, unittest.TestCase):
    """Over TCP."""


@wants_program
@wants_library
class OverAsyncioFrames(Frames, OverAsyncio, unittest.TestCase):
    """Over TCP, by asyncio."""


@wants_program
class OverAsyncioArrow(OfArrow, OverAsyncio, unittest.TestCase):
    """Over TCP, by asyncio."""


class OnACluster:
    """On a cluster."""

    @classmethod
    def setUpClass(cls):
        cls.stack = contextlib.ExitStack()
        cls.client = cls.stack.enter_context(local(WORKERS))

    @classmethod
    def tearDownClass(cls):
        cls.stack.close()

    @contextlib.contextmanager
    def table(self, sample=(), rows=0, **options):
        with cluster.Table(self.client, sample, rows, **options) as table:
            yield table


@wants_library
@wants_cluster
class OnAClusterFrames(OnACluster, Frames, unittest.TestCase):
    """On a cluster."""


@wants_library
@wants_cluster
class OnAClusterArrow(OnACluster, OfArrow, unittest.TestCase):
    """On a cluster."""


if __name__ == "__main__":
    unittest.main()
