"""Which keys, payloads, row numbers and options are accepted, alone and in lists and arrays, and which errors others
raise."""

import array
import datetime
import enum
import fractions
import math
import pickle
import unittest

from clusters import wants_cluster, wants_pandas
from test_cluster import MODULE, OnWorkers, begin, end
from ways import InProcess, InShards, OverTcp, crackd, np, wants_library, wants_numpy, wants_program, wants_shards

from crackd.keys import Keys, kind_of

GREATEST, UNSIGNED = 2**63 - 1, 2**64 - 1
KINDS = ("int64", "uint64", "float64")


def numbers(it):
    return [int(each) for each in it]


class Colour(enum.IntEnum):
    RED = 1


def no_integers():
    """Values that are no integers, of which some look like one."""
    values = [True, False, 1.0, "1", b"1", None, [1], 1j, fractions.Fraction(1)]
    return values + ([] if np is None else [np.True_, np.float64(1), np.timedelta64(1, "s"), np.datetime64(1, "s")])


def no_lists():
    """Values with a length that are no lists of integers, though some are memory."""
    return [bytes(8), bytearray(8), memoryview(bytes(8)), "12345678"]


class Arguments:
    """What the methods of a table accept, however it is reached."""

    def test_what_is_no_integer_is_refused_alone_and_in_lists(self):
        for kind in ("int64", "uint64"):
            with self.subTest(kind), self.table(key_type=kind) as table:
                row = table.insert(1, 10)
                for value in no_integers():
                    with self.subTest(value=value):
                        self.refuses_keys(table, row, value)
                        self.refuses_payloads_and_rows(table, row, value)
                self.assertEqual((table.count(), table.sum(1, 2), table.count(0, 1)), (1, 10, 0))

    def refuses_keys(self, table, row, key):
        self.assertRaises(TypeError, table.insert, key, 1)
        self.assertRaises(TypeError, table.update, row, key, 1)
        for kind in (list, tuple):
            for keys in (kind([key, 1]), kind([1, key])):
                self.assertRaises(TypeError, table.insert_many, keys, [1, 1])
                self.assertRaises(TypeError, table.update_many, [row, row], keys, [1, 1])

    def refuses_payloads_and_rows(self, table, row, value):
        self.assertRaises(TypeError, table.insert, 1, value)
        self.assertRaises(TypeError, table.update, row, 1, value)
        self.assertRaises(TypeError, table.insert_many, [1, 2], [5, value])
        self.assertRaises(TypeError, table.update_many, [row, row], [1, 2], [value, 5])
        self.assertRaises(TypeError, table.delete, value)
        self.assertRaises(TypeError, table.update, value, 1, 1)
        self.assertRaises(TypeError, table.delete_many, [value, row])
        self.assertRaises(TypeError, table.update_many, [value, row], [1, 1], [1, 1])

    def test_bytes_and_text_are_no_lists(self):
        for kind in KINDS:
            with self.subTest(kind), self.table(key_type=kind) as table:
                row = table.insert(0, 10)
                for value in no_lists():
                    ones = [1] * len(value)
                    self.assertRaises(TypeError, table.insert_many, value, ones)
                    self.assertRaises(TypeError, table.insert_many, ones, value)
                    self.assertRaises(TypeError, table.delete_many, value)
                    self.assertRaises(TypeError, table.update_many, value, ones, ones)
                    self.assertRaises(TypeError, table.update_many, ones, value, ones)
                    self.assertRaises(TypeError, table.update_many, ones, ones, value)
                for value in (b"", bytearray(), ""):
                    self.assertRaises(TypeError, table.insert_many, value, [])
                    self.assertRaises(TypeError, table.insert_many, [], value)
                    self.assertRaises(TypeError, table.delete_many, value)
                self.assertEqual((table.count(), table.sum(), table.delete(row)), (1, 10, True))

    def test_integers_of_other_types(self):
        values = [Colour.RED, 1] if np is None else [Colour.RED, np.int8(1), np.uint64(1), 1]
        with self.table() as table:
            rows = [table.insert(value, value) for value in values]
            self.assertTrue(all(table.update_many(rows, values, values)))
            self.assertEqual((table.sum(1, 2), table.count()), (len(values), len(values)))
            three = array.array("q", [0, 1, 2])
            for many in (range(3), three, memoryview(three), {0: 5, 1: 5, 2: 5}):
                self.assertEqual(len(table.insert_many(many, many)), 3)
            self.assertEqual(table.sum(2), 8)

    def test_numbers_that_do_not_fit_are_named_and_cut(self):
        with self.table() as table:
            for number in (2**63, -(2**63) - 1, 10**400, -(10**5000)):
                with self.subTest(number.bit_length()):
                    for call, *words in [(table.insert, number, 1), (table.insert, 1, number)]:
                        with self.assertRaises(OverflowError) as caught:
                            call(*words)
                        self.assertLess(len(str(caught.exception)), 200)
                    self.assertRaises(OverflowError, table.insert_many, [1, number], [1, 1])
                    self.assertRaises(OverflowError, table.insert_many, [1, 1], [1, number])
            self.assertRaises(OverflowError, table.delete, -1)
            self.assertRaises(OverflowError, table.delete, 2**64)
            rows = [table.insert(key, payload) for key in (-(2**63), GREATEST) for payload in (-(2**63), GREATEST)]
            self.assertEqual((table.sum(None, 0), table.sum(GREATEST), table.delete(rows[0])), (-1, -1, True))

    def test_keys_of_floats_are_exact(self):
        exact = [0, -1, 2**53, 2**70, -(2**1000), 0.1, -0.0, 5e-324, math.inf, -math.inf, fractions.Fraction(1, 4)]
        exact += [] if np is None else [np.float32(0.1), np.int64(2**62), np.uint8(3), np.longdouble(0.5)]
        wrong = [2**53 + 1, -(2**53) - 1, 10**400, -(10**400), 10**5000, fractions.Fraction(1, 3)]
        wrong += [fractions.Fraction(10**5000, 3), fractions.Fraction(1, 3**9999)]
        wrong += [] if np is None else [np.int64(2**53 + 1), np.longdouble(2) ** 63 + np.longdouble(1)]
        with self.table(key_type="float64") as table:
            for key in exact:
                table.insert(key, 1)
            self.assertEqual(len(table.insert_many(exact, [1] * len(exact))), len(exact))
            wanted = sorted(2 * [float(it) for it in exact])
            self.assertEqual(sorted(map(float, table.select().keys)), wanted)
            for key in wrong:
                self.assertRaises(OverflowError, table.insert, key, 1)
                self.assertRaises(OverflowError, table.insert_many, [1.0, key], [1, 1])
            for key in (True, "1", b"1", None, [1.0], 1j, math.nan, *([np.True_, np.float32("nan")] if np else [])):
                self.assertRaises((TypeError, ValueError), table.insert, key, 1)
                self.assertRaises((TypeError, ValueError), table.insert_many, [1.0, key], [1, 1])
            self.assertRaises(OverflowError, table.insert_many, range(2**53, 2**53 + 2), [1, 1])
            for sign in () if np is None else (-1, 1):
                self.assertRaises(OverflowError, table.insert_many, np.array([0, sign * (2**53 + 1)]), [1, 1])
                self.assertTrue(table.delete(table.insert_many(np.array([sign * 2**53]), [1])[0]))
            self.assertEqual(table.count(), 2 * len(exact))

    @wants_numpy
    def test_arrays_of_bools_and_spans_are_refused(self):
        for kind in KINDS:
            with self.subTest(kind), self.table(key_type=kind) as table:
                row, one = table.insert(0, 10), np.ones(1, "u8")
                for value in (np.zeros(1, bool), np.zeros(1, "m8[s]"), np.zeros(1, "M8[s]"), np.zeros(1, "S8")):
                    self.assertRaises(TypeError, table.insert_many, value, one)
                    self.assertRaises(TypeError, table.insert_many, one, value)
                    self.assertRaises(TypeError, table.delete_many, value)
                    self.assertRaises(TypeError, table.count_many, value, None)
                    self.assertRaises(TypeError, table.sum_many, None, value)
                mixed = np.array([1, True], object)
                self.assertRaises(TypeError, table.insert_many, mixed, [1, 1])
                self.assertRaises(TypeError, table.count_many, mixed, None)
                self.assertEqual((table.count(), table.delete(row)), (1, True))

    @wants_numpy
    def test_an_array_of_objects_is_as_a_list(self):
        keys = np.array([5, 2**40, -1], object)
        with self.table() as table:
            rows = table.insert_many(keys, keys)
            self.assertEqual((table.sum(), numbers(table.count_many(keys, None))), (2**40 + 4, [2, 1, 3]))
            self.assertTrue(all(table.delete_many(np.array(numbers(rows), object))))
            self.assertRaises(TypeError, table.insert_many, np.array([1, None], object), [1, 1])

    @wants_pandas
    def test_columns_of_pandas_whose_items_may_be_missing(self):
        import pandas

        for dtype in ("Int64", "UInt8", "Int16"):
            whole, gap = pandas.Series([3, 1, 2], [9, 9, 9], dtype), pandas.Series([3, None, None], dtype=dtype)
            with self.subTest(dtype), self.table(whole) as table:
                rows = pandas.Series(numbers(table.insert_many(whole, whole)), dtype="UInt64")
                self.assertEqual((table.sum(2), numbers(table.count_many(whole, None))), (5, [1, 3, 2]))
                self.assertEqual(numbers(table.count_many(whole.array, None)), [1, 3, 2])
                calls = [(table.insert_many, gap, whole), (table.insert_many, whole, gap), (table.delete_many, gap)]
                calls += [(table.count_many, gap, None), (table.sum_many, None, gap)]
                calls += [(table.update_many, rows, gap, whole), (table.update_many, rows, whole, gap)]
                for call, *words in calls:
                    self.assertRaisesRegex(ValueError, "item 1 of the column is missing", call, *words)
                self.assertTrue(all(table.update_many(rows, whole, whole)) and all(table.delete_many(rows)))
        with self.table(key_type="float64") as table:
            table.insert_many(pandas.Series([0.5, 2], dtype="Float64"), [1, 2])
            self.assertEqual(table.sum(1), 2)
            self.assertRaises(TypeError, table.insert_many, pandas.Series([True, False], dtype="boolean"), [1, 2])

    @wants_numpy
    def test_dates_of_python_are_keys(self):
        zone = datetime.timezone(datetime.timedelta(hours=-5))
        day, noon = datetime.date(2020, 1, 1), datetime.datetime(2020, 1, 1, 12)
        zoned = datetime.datetime(2020, 1, 1, 12, tzinfo=zone)
        with self.table([noon]) as table:
            rows = [table.insert(key, 2**at) for at, key in enumerate((day, noon, zoned))]
            many = table.insert_many([day, noon, zoned, np.datetime64(noon)], [8, 16, 32, 64])
            self.assertEqual(table.select().keys.dtype, np.dtype("M8[us]"))
            self.assertEqual((table.sum(noon), table.sum(zoned), table.sum(day, noon)), (118, 36, 9))
            self.assertEqual(table.sum(None, datetime.datetime(2020, 1, 1, 17)), 91)
            self.assertTrue(table.update(rows[1], zoned, 1))
            self.assertTrue(all(table.update_many(many[1:3], [zoned, noon], [0, 0])))
            self.assertEqual((table.sum(noon), table.sum(zoned), table.sum(None, noon)), (69, 5, 9))
            for key in (5, 0.5, True, "2020-1-1", "now", None, np.datetime64("NaT"), np.timedelta64(5, "s"), [day]):
                self.assertRaises((TypeError, ValueError), table.insert, key, 1)
                self.assertRaises((TypeError, ValueError), table.insert_many, [noon, key], [1, 1])
            self.assertRaises(TypeError, table.insert_many, np.array([b"2020-01-01"]), [1])

    @wants_numpy
    def test_dates_that_are_not_exact_or_do_not_fit(self):
        sizes = {"D": 86_400 * 10**9, "h": 3600 * 10**9, "s": 10**9, "us": 1000, "ns": 1}
        for own in sizes:
            with self.subTest(own), self.table(key_type=f"datetime64[{own}]") as table:
                for other in sizes:
                    for number in (1, -1, 24, 86_400, 86_400 * 10**9, 2**62, -(2**62), GREATEST, -GREATEST):
                        found, rest = divmod(number * sizes[other], sizes[own])
                        kind = OverflowError if abs(found) > GREATEST else ValueError if rest else None
                        self.one_date(table, np.datetime64(number, other), kind or np.datetime64(found, own))
        with self.table(key_type="datetime64[s]") as table:
            # the least integer of 64 bits is NaT
            self.one_date(table, np.datetime64(-(2**62), "2s"), OverflowError)
            self.one_date(table, np.datetime64(-(2**62) + 1, "2s"), np.datetime64(-(2**63) + 2, "s"))
            table.insert_many([np.datetime64(2**62, "s"), np.datetime64(0, "ns")], [1, 2])
            self.assertEqual(sorted(table.select().keys.astype(int)), [0, 2**62])
        with self.table(key_type="datetime64[as]") as table:
            for year in (1969, 1971, 2020):
                self.assertRaises(OverflowError, table.insert, np.datetime64(year - 1970, "Y"), 1)
                self.assertRaises(OverflowError, table.insert_many, np.array([year - 1970]).view("M8[Y]"), [1])
            for unit in ("Y", "M", "W", "D", "s"):
                table.insert_many(np.array([0]).view(f"M8[{unit}]"), [1])
            self.assertEqual(table.select().keys.astype(int).tolist(), [0] * 5)

    def one_date(self, table, key, wanted):
        """A date as one key, in a list, in an array, and as one among several."""
        lists = [[key], np.array([key]), [key, np.datetime64(0, "D")], np.array([key, key])]
        if isinstance(wanted, type):
            self.assertRaises(wanted, table.insert, key, 1)
            for keys in lists:
                self.assertRaises(wanted, table.insert_many, keys, [1] * len(keys))
            return
        rows = [table.insert(key, 1), *(row for keys in lists for row in table.insert_many(keys, [1] * len(keys)))]
        self.assertEqual(np.count_nonzero(table.select().keys == wanted), 6)
        table.delete_many(rows)

    @wants_numpy
    def test_dates_of_another_byte_order(self):
        keys = np.array(["1969-12-31T23", "2020-01-01T00"], ">M8[h]")
        with self.table(keys) as table:
            table.insert_many(keys, [1, 2])
            self.assertEqual((table.sum(keys[1]), table.sum_many(keys, None)), (2, [3, 2]))
            self.assertEqual(table.select().keys.tolist(), keys.tolist())

    @wants_numpy
    def test_keys_in_months_and_years(self):
        with self.table(key_type="datetime64[D]") as table:
            table.insert_many(np.array(["1969-03", "1970-01", "2000-03"], "M8[M]"), [1, 2, 4])
            table.insert_many(np.array(["1900", "2400"], "M8[Y]"), [8, 16])
            days = ["1900-01-01", "1969-03-01", "1970-01-01", "2000-03-01", "2400-01-01"]
            self.assertEqual(sorted(table.select().keys.astype(str)), days)
        with self.table(key_type="datetime64[M]") as table:
            table.insert_many(np.array(["1969-03-01", "2000-02-01"], "M8[s]"), [1, 2])
            table.insert(datetime.date(2020, 5, 1), 4)
            self.assertEqual(table.select().keys.astype(str).tolist(), ["1969-03", "2000-02", "2020-05"])
            for key in (datetime.date(2020, 5, 2), datetime.datetime(2020, 5, 1, 0, 0, 1), np.datetime64("2020-05-31")):
                self.assertRaises(ValueError, table.insert, key, 1)
                self.assertRaises(ValueError, table.insert_many, [key], [1])

    @wants_pandas
    def test_times_of_pandas_are_keys(self):
        import pandas

        stamp = pandas.Timestamp("2020-01-01 00:00:00.000000007")
        index = pandas.DatetimeIndex([stamp, stamp + pandas.Timedelta(1, "ns")])
        zoned = index.tz_localize("UTC").tz_convert("Europe/Berlin")
        for sample, zone in [([stamp], None), (index, None), (zoned, "UTC"), (pandas.Series(zoned), "UTC")]:
            # in UTC times without a zone are those of UTC
            with self.table(sample, zone=zone) as table:
                table.insert(stamp, 1), table.insert(zoned[1], 2)
                for at, keys in enumerate((index, list(index), zoned, list(zoned), pandas.Series(zoned, [5, 5]))):
                    table.insert_many(keys, [4 << 2 * at, 8 << 2 * at])
                self.assertEqual(table.select().keys.dtype, np.dtype("M8[ns]"))
                self.assertEqual((table.sum(None, index[1]), table.sum(index[1])), (0b10101010101, 0b101010101010))
                self.assertRaises(ValueError, table.insert, pandas.NaT, 1)
                self.assertRaises(ValueError, table.insert_many, [stamp, pandas.NaT], [1, 1])
        for sample in (zoned, list(zoned), pandas.Series(zoned)):
            with self.table(sample) as table:
                self.assertEqual(table.zone, "Europe/Berlin")
                shown = zoned.tz_localize(None)
                for at, keys in enumerate((shown, list(shown), zoned, list(zoned), pandas.Series(shown, [5, 5]))):
                    table.insert_many(keys, [1 << 2 * at, 2 << 2 * at])
                wanted = (0b101010101, 0b1010101010)
                for end in (shown[1], zoned[1]):
                    self.assertEqual((table.sum(None, end), table.sum(end)), wanted)
                self.assertEqual(set(table.select().keys), set(shown.to_numpy()))
        with self.table(key_type="datetime64[us]") as table:
            self.assertRaises(ValueError, table.insert, stamp, 1)
            self.assertRaises(ValueError, table.insert_many, index, [1, 1])
            table.insert(stamp.floor("us"), 1)
            self.assertEqual(table.count(), 1)


class Kinds(unittest.TestCase):
    """The kind of keys that a sample has."""

    def test_kinds_of_lists(self):
        for keys in (range(0), range(5, 5), (), {}):
            self.assertEqual(kind_of(keys), Keys.named("int64"))
        for keys, name in [([], "int64"), ([1], "int64"), ([-1, GREATEST], "int64"), ([2**63], "uint64")]:
            self.assertEqual(kind_of(keys), Keys.named(name))
        # one large key makes the type unsigned, wherever it is in the list
        for large, name in [(2**63 - 1, "int64"), (2**63, "uint64"), (UNSIGNED, "uint64")]:
            down = range(large, large - 3, -1)
            for keys in ([large, 0], [0, large], [5, large, 7], (1, 2, large), down, {large: 0, 1: 0}):
                self.assertEqual((keys, kind_of(keys).name), (keys, name))
        for keys in ([1.5], [1, 1.5], [fractions.Fraction(1)], (0.5,)):
            self.assertEqual(kind_of(keys), Keys("f"))
        for keys in ([True], [1, True], [0.5, False], ["a"], [None], [1, None], [1j], b"ab", bytearray(1), "", "ab"):
            self.assertRaises(TypeError, kind_of, keys)
        self.assertRaises(TypeError, Keys.named, None)

    @wants_numpy
    def test_kinds_of_dates(self):
        day, time = datetime.date(2020, 1, 1), datetime.datetime(2020, 1, 1)
        hour = np.datetime64("2020-01-01T00", "h")
        for keys, unit in [([day], "D"), ([time], "us"), ([day, time], "us"), ([hour], "h"), ([hour, day], "h")]:
            self.assertEqual(kind_of(keys), Keys.named(f"datetime64[{unit}]"))
            self.assertEqual(kind_of(np.array(keys, object)), Keys.named(f"datetime64[{unit}]"))
        for keys in ([day, 5], [day, None], [np.timedelta64(5, "s")], [np.True_], np.array([5]).view("M8")):
            self.assertRaises(TypeError, kind_of, keys)
        kind = Keys.named("datetime64[25s]")
        self.assertEqual((pickle.loads(pickle.dumps(kind)), kind.name), (kind, "datetime64[25s]"))

    @wants_numpy
    def test_kinds_of_numbers_of_numpy(self):
        kinds = [([np.int8(1)], "i"), ([np.uint64(2**63)], "u"), ([np.float32(1)], "f"), ([np.int8(1), 2.0], "f")]
        for keys, kind in kinds:
            self.assertEqual(kind_of(keys), Keys(kind))


class Options(unittest.TestCase):
    """Options that are no integers."""

    @wants_library
    def test_limits_of_a_table(self):
        for value in (1.5, "5", True, b"5"):
            self.assertRaisesRegex(TypeError, "history must be an integer", crackd.Table, history=value)
            self.assertRaisesRegex(TypeError, "cells must be an integer", crackd.Table, cells=value)
        self.assertRaisesRegex(TypeError, "cells must be an integer", crackd.Table, cells=None)
        for value in (1.5, True, "5"):
            self.assertRaisesRegex(TypeError, "partitions must be an integer", crackd.Table, [1, 2], partitions=value)
        crackd.Table(history=100, cells=100).close()

    @wants_program
    def test_limits_of_a_server(self):
        for value in (1.5, "5", True):
            self.assertRaisesRegex(TypeError, "history must be an integer", crackd.serve, history=value)
            self.assertRaisesRegex(TypeError, "cells must be an integer", crackd.serve, cells=value)
            self.assertRaisesRegex(TypeError, "workers must be an integer", crackd.serve, workers=value)


@wants_shards
class InShardsArguments(Arguments, InShards, unittest.TestCase):
    """In the process, in several shards."""


@wants_library
class InProcessArguments(Arguments, InProcess, unittest.TestCase):
    """In the process."""


@wants_program
class OverTcpArguments(Arguments, OverTcp, unittest.TestCase):
    """Over TCP."""


@wants_library
@wants_cluster
class OnACluster(OnWorkers, Arguments, unittest.TestCase):
    """On a cluster of its own, and what opens a table there."""

    setUpClass, tearDownClass = staticmethod(begin), staticmethod(end)

    def test_limits_of_a_cluster(self):
        from crackd import cluster

        for value in (1.5, "5", True):
            for name in ("history", "cells", "shards"):
                with self.assertRaisesRegex(TypeError, f"{name} must be an integer"):
                    cluster.Table(MODULE["client"], [1, 2], **{name: value})

    @wants_pandas
    def test_what_is_no_collection_of_dask(self):
        import pandas
        from crackd import cluster
        from dask import bag, delayed

        frame = pandas.DataFrame({"key": [1, 2]})
        for given in (frame, frame["key"], np.arange(5), [1, 2], None, "key", bag.from_sequence([1, 2]), delayed([1])):
            with self.assertRaisesRegex(TypeError, "Dask dataframe or array"):
                cluster.Table.from_dask(MODULE["client"], given, "key")

    @wants_pandas
    def test_columns_of_dask_as_those_of_pandas(self):
        import pandas
        from crackd import cluster
        from dask import dataframe

        times = pandas.Series(pandas.to_datetime(["2020-01-01", "2020-01-02", "2020-01-03"]))
        times = times.dt.tz_localize("Asia/Tokyo")
        rows = pandas.DataFrame({"key": pandas.Series([3, 1, 2], dtype="Int64"), "time": times})
        rows["gap"] = pandas.Series([1, None, 2], dtype="Int64")
        frame = dataframe.from_pandas(rows, npartitions=2)
        with cluster.Table.from_dask(MODULE["client"], frame, "key", "key") as table:
            self.assertEqual((table.sum(2), table.count()), (5, 3))
        with cluster.Table.from_dask(MODULE["client"], frame, "time", "key") as table:
            self.assertEqual(table.sum(datetime.datetime(2020, 1, 1, 15)), 3)
            self.assertEqual(table.sum(None, times[2]), 4)
        with self.assertRaisesRegex(ValueError, "missing"):
            cluster.Table.from_dask(MODULE["client"], frame, "gap")


if __name__ == "__main__":
    unittest.main()
