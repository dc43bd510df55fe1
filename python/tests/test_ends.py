"""Ends of ranges of every type, at each limit and one beside it, compared with integers and fractions of Python."""

import datetime
import fractions
import itertools
import math
import unittest

from clusters import wants_cluster, wants_pandas
from test_cluster import OnWorkers, begin, end
from ways import InProcess, InShards, OverTcp, crackd, np, wants_library, wants_numpy, wants_program, wants_shards

LEAST, GREATEST, UNSIGNED = -(2**63), 2**63 - 1, 2**64 - 1
LARGEST_FLOAT = 1.7976931348623157e308
SECOND = 10**18
SIZES = {"W": 604_800 * SECOND, "D": 86_400 * SECOND, "h": 3600 * SECOND, "m": 60 * SECOND, "s": SECOND}
SIZES |= {"ms": 10**15, "us": 10**12, "ns": 10**9, "ps": 10**6, "fs": 1000, "as": 1}
UNITS = ["Y", "M", *SIZES, "2D", "7M", "25s"]
MONTHS = [31, 28, 31, 30, 31, 30, 31, 31, 30, 31, 30, 31]


def leaps(year):
    """How many leap years there are up to a year."""
    return year // 4 - year // 100 + year // 400


def days(month):
    """The days from 1970 to a month, which is counted from January 1970."""
    year, rest = 1970 + month // 12, month % 12
    is_leap = leaps(year) - leaps(year - 1)
    return 365 * (year - 1970) + leaps(year - 1) - leaps(1969) + sum(MONTHS[:rest]) + (is_leap if rest > 1 else 0)


def moment(number, unit):
    """The attoseconds from 1970 to a date."""
    name = unit.lstrip("0123456789")
    number *= int(unit[: -len(name)] or 1)
    if name in SIZES:
        return number * SIZES[name]
    return days(number * (12 if name == "Y" else 1)) * SIZES["D"]


def nearest(at, unit):
    """The last date in a unit that isn't after a moment, by bisection."""
    low, high = LEAST + 1, GREATEST
    while low < high:
        middle = -(-(low + high) // 2)
        low, high = (middle, high) if moment(middle, unit) <= at else (low, middle - 1)
    return low


def numbers(it):
    return [int(each) for each in it]


def date(number, unit):
    return np.datetime64(number, unit)


class EndsOfNumbers:
    """Ends of ranges of numbers, however the table is reached."""

    def compare(self, table, keys, ends):
        """Each end as the low and as the high one, alone and among many. Row number `at` has the payload 2**at."""
        wanted = [[sum(2**at for at, key in enumerate(keys) if key >= end) for end in ends]]
        wanted.append([sum(2**at for at, key in enumerate(keys) if key < end) for end in ends])
        self.assertEqual([table.sum(end) for end in ends], wanted[0])
        self.assertEqual([table.sum(None, end) for end in ends], wanted[1])
        self.assertEqual([table.count(None, end) for end in ends], [it.bit_count() for it in wanted[1]])
        self.assertEqual(table.sum_many(ends, None), wanted[0])
        self.assertEqual(numbers(table.count_many(None, ends)), [it.bit_count() for it in wanted[1]])
        for at in range(0, len(ends), 5):
            self.assertEqual(sum(numbers(table.select(ends[at]).payloads)), wanted[0][at])

    def test_ends_of_integers_and_floats_at_the_limits(self):
        kinds = {
            "int64": [LEAST, LEAST + 1, -1, 0, 1, 2**53, 2**53 + 1, GREATEST - 1, GREATEST],
            "uint64": [0, 1, 2**53, 2**53 + 1, GREATEST, 2**63, UNSIGNED - 1, UNSIGNED],
            "float64": [-math.inf, -1.7e308, -2.0**53, -0.5, 0.0, 5e-324, 2.0**53, 2.0**53 + 2, 1.7e308, math.inf],
        }
        near = [2**53, GREATEST, UNSIGNED, 2**64, 10**30, 2**1023]
        ends = [sign * (it + more) for it in near for more in (-1, 0, 1) for sign in (-1, 1)] + [0, 1, -1]
        ends += [0.5, -0.5, 1e300, -1e300, 2.0**63, -(2.0**63), 2.0**64, math.inf, -math.inf, 5e-324, -0.0]
        ends += [fractions.Fraction(1, 3), fractions.Fraction(-1, 10**400), fractions.Fraction(2**64 + 1, 2)]
        for kind, keys in kinds.items():
            with self.subTest(kind), self.table(key_type=kind) as table:
                table.insert_many(keys, [2**at for at in range(len(keys))])
                self.compare(table, keys, ends if kind == "float64" else ends + [10**400, -(10**400)])

    def test_ends_beyond_all_floats_are_named(self):
        far = [10**309, 10**5000, *(fractions.Fraction(it, 3) for it in (10**400, 10**5000)), 2**1024 - 2**970]
        far += [] if np is None else [np.longdouble(2) ** 1024]
        keys = [-math.inf, -LARGEST_FLOAT, 0.0, LARGEST_FLOAT, math.inf]
        with self.table(key_type="float64") as table:
            table.insert_many(keys, [1, 2, 4, 8, 16])
            for end in [*far, *(-it for it in far)]:
                self.not_a_float(table, end)
            # integers that round to a finite float aren't beyond all floats
            last = 2**1024 - 2**970 - 1
            ends = [math.inf, LARGEST_FLOAT, last, int(LARGEST_FLOAT) + 1, 0, -last, -math.inf]
            self.assertEqual([table.sum(it) for it in ends], [16, 24, 16, 16, 28, 30, 31])
            self.assertEqual(table.sum_many(None, ends), [15, 7, 15, 15, 3, 1, 0])

    def not_a_float(self, table, end):
        """An end that no float holds, in each method that takes ranges: an error that says so, and is short."""
        with self.subTest(sign=end > 0):
            for name in ("count", "sum", "mean", "select", "select_chunks", "delete_range"):
                call = getattr(table, name)
                for words in [(end,), (None, end), (end, end), (end, math.inf)]:
                    with self.assertRaisesRegex(OverflowError, "^the end .* of a range doesn't fit into a float") as it:
                        call(*words)
                    self.assertLess(len(str(it.exception)), 200)
            for name in ("count_many", "sum_many"):
                call = getattr(table, name)
                for words in [([end], None), (None, [0.5, end]), ([None, -math.inf], [0, end])]:
                    self.assertRaisesRegex(OverflowError, "doesn't fit into a float", call, *words)
            for name in ("count_by", "sum_by"):
                self.assertRaisesRegex(OverflowError, "doesn't fit into a float", getattr(table, name), [end, 0, end])
            self.assertEqual(table.count(), 5)

    @wants_numpy
    def test_ends_of_numpy_keep_their_digits(self):
        whole = [0, 1, 2**7, 2**31, 2**53, 2**53 + 1, GREATEST, UNSIGNED]
        ends = [np.dtype(f"{sign}{size}") for sign in "iu" for size in (1, 2, 4, 8)]
        ends = [it.type(number) for it in ends for number in whole if number <= np.iinfo(it).max]
        ends += [np.int64(LEAST), np.int8(-128), np.float32(0.1), np.float64(2.0**63), np.float16(1.5)]
        exact = [it.item() for it in ends] + [2**63 + 1, fractions.Fraction(1, 2), math.inf, -math.inf]
        long = np.longdouble
        ends += [long(2) ** 63 + long(1), long(0.5), long(math.inf), long(-math.inf)]
        for kind in ("int64", "uint64", "float64"):
            keys = [0, 1, 2**31, 2**53] + ([] if kind == "float64" else [2**53 + 1, GREATEST])
            keys += [2**63, 2**63 + 1] if kind == "uint64" else []
            with self.subTest(kind), self.table(key_type=kind) as table:
                table.insert_many(keys, [2**at for at in range(len(keys))])
                wanted = [sum(2**at for at, key in enumerate(keys) if key >= end) for end in exact]
                self.assertEqual([table.sum(end) for end in ends], wanted)
                self.assertEqual(table.sum_many(ends, None), wanted)

    @wants_numpy
    def test_arrays_of_ends_that_are_no_keys(self):
        arrays = [np.array([LEAST, -1, 0, 1, GREATEST]), np.array([0, 1, 2**63, UNSIGNED], np.uint64)]
        arrays += [np.array([-math.inf, -1.5, 0.5, 2.0**63, math.inf]), np.array([-128, 127], np.int8)]
        arrays += [np.array([-0.5, 3e38], np.float32), np.array([True, 0.5, 5, 10**30], object)[1:]]
        for kind, keys in (("int64", [LEAST, -1, 0, GREATEST]), ("uint64", [0, 1, UNSIGNED]), ("float64", [-1.5, 0.5])):
            with self.subTest(kind), self.table(key_type=kind) as table:
                table.insert_many(keys, [1] * len(keys))
                for ends in arrays:
                    exact = ends.tolist()
                    above = [sum(key >= end for key in keys) for end in exact]
                    self.assertEqual(numbers(table.count_many(ends, None)), above)
                    self.assertEqual(table.sum_many(None, ends), [len(keys) - it for it in above])
                    both = numbers(table.count_many(ends[:-1], ends[1:]))
                    self.assertEqual(both, [low - high for low, high in zip(above, above[1:])])

    def test_a_low_end_above_its_high_end_is_named(self):
        for kind, pairs in {
            "int64": [(3, 1), (0.7, 0.5), (10**5000, 2**69), (-(2**69), -(2**70)), (math.inf, 5), (GREATEST, LEAST)],
            "uint64": [(3, 1), (-1, -2), (2**70, 2**69), (UNSIGNED, 0), (math.inf, 10**400)],
            "float64": [(0.0, -5e-324), (2**53 + 1, 2**53), (fractions.Fraction(1, 9**9999), 0), (math.inf, -math.inf)],
        }.items():
            with self.subTest(kind), self.table(key_type=kind) as table:
                table.insert_many([0, 1, 2], [1, 1, 1])
                for low, high in pairs:
                    self.swapped(table, low, high)

    def swapped(self, table, low, high):
        """Both ends in turn, in each method that takes ranges: an error, which names the range among many."""
        for name in ("count", "sum", "select"):
            self.assertRaisesRegex(ValueError, "^the low end .* is above the high end", getattr(table, name), low, high)
            getattr(table, name)(high, low), getattr(table, name)(low, low)
        for name in ("count_many", "sum_many"):
            lows, highs = [None, high, low, low], [low, low, low, high]
            for kind in (list, tuple) if np is None else (list, tuple, np.array):
                with self.assertRaisesRegex(ValueError, "^range 3: the low end .* is above the high end"):
                    getattr(table, name)(kind(lows), kind(highs))
                getattr(table, name)(kind(lows[:3]), kind(highs[:3]))

    @wants_numpy
    def test_arrays_of_swapped_ends(self):
        for dtype in ("i8", "u8", "f8", "i2", "u4", "f4", "M8[s]", "M8[D]"):
            kind = {"i": "int64", "u": "uint64", "f": "float64", "M": "datetime64[s]"}[dtype[0]]
            lows, highs = np.array([1, 2, 5, 9], "i8").astype(dtype), np.array([3, 2, 4, 8], "i8").astype(dtype)
            with self.subTest(dtype), self.table(key_type=kind) as table:
                for name in ("count_many", "sum_many"):
                    self.assertRaisesRegex(ValueError, "^range 2: ", getattr(table, name), lows, highs)
                    self.assertEqual(numbers(getattr(table, name)(lows[:2], highs[:2])), [0, 0])

    def test_what_is_no_end(self):
        values = [True, False, "5", b"5", [2], 1j, math.nan]
        values += [] if np is None else [np.True_, np.float32(math.nan), np.timedelta64(5, "ns"), np.longdouble("nan")]
        for kind in ("int64", "uint64", "float64"):
            with self.subTest(kind), self.table(key_type=kind) as table:
                table.insert_many([0, 1], [1, 1])
                for end in values:
                    for name in ("count", "sum", "select"):
                        self.assertRaises((TypeError, ValueError), getattr(table, name), end)
                        self.assertRaises((TypeError, ValueError), getattr(table, name), None, end)
                    for ends in ([end], [end, 1]):
                        self.assertRaises((TypeError, ValueError), table.count_many, ends, None)
                        self.assertRaises((TypeError, ValueError), table.sum_many, None, ends)
                self.assertRaisesRegex(ValueError, "NaN can't be the end of a range", table.count, math.nan)
                for ends in (b"\1\2", bytearray(8), memoryview(b"12"), "12", b"", ""):
                    self.assertRaises(TypeError, table.count_many, ends, None)
                    self.assertRaises(TypeError, table.sum_many, None, ends)


@wants_numpy
class EndsOfDates:
    """Ends of ranges of dates, however the table is reached."""

    def test_every_unit_against_every_unit(self):
        keys = [LEAST + 1, LEAST + 2, -1, 0, 1, 7, GREATEST - 1, GREATEST]
        for unit in UNITS:
            with self.subTest(unit), self.table(key_type=f"datetime64[{unit}]") as table:
                table.insert_many(np.array(keys).view(f"M8[{unit}]"), [2**at for at in range(len(keys))])
                for other in UNITS:
                    self.against(table, [moment(it, unit) for it in keys], other)

    def against(self, table, moments, unit):
        near = {nearest(it, unit) + more for it in moments for more in (-1, 0, 1, 2)} | {LEAST + 1, -1, 0, 1, GREATEST}
        near = sorted(it for it in near if LEAST < it <= GREATEST)
        ends, exact = np.array(near).view(f"M8[{unit}]"), [moment(it, unit) for it in near]
        wanted = [sum(2**at for at, key in enumerate(moments) if key >= end) for end in exact]
        whole = sum(2**at for at in range(len(moments)))
        self.assertEqual(table.sum_many(ends, None), wanted)
        self.assertEqual(table.sum_many(None, list(ends)), [whole - it for it in wanted])
        self.assertEqual(
            numbers(table.count_many(ends[:-1], ends[1:])),
            [(low - high).bit_count() for low, high in zip(wanted, wanted[1:])],
        )
        for at in self.some(len(ends)):
            self.assertEqual((table.sum(ends[at]), table.sum(None, ends[at])), (wanted[at], whole - wanted[at]))
            self.assertEqual(table.count(ends[at], ends[-1]), (wanted[at] - wanted[-1]).bit_count())
            self.assertEqual(sum(table.select(None, ends[at]).payloads.tolist()), whole - wanted[at])

    some = staticmethod(range)

    def test_an_end_inside_a_month_or_a_year(self):
        ends = [np.datetime64("2020-01-31"), "2020-02-01T00:00:00.000000000000000001", "2020-02", "2020-02-01"]
        ends += [datetime.datetime(2020, 2, 29, 12), datetime.date(2020, 1, 1), datetime.date(2020, 1, 2)]
        keys = {"M": ["2019-12", "2020-01", "2020-02", "2020-03", "2021-01"], "Y": ["2019", "2020", "2021"]}
        wanted = {"M": [3, 2, 3, 3, 2, 4, 3], "Y": [1, 1, 1, 1, 1, 2, 1]}
        for unit, these in keys.items():
            these = np.array(these, f"M8[{unit}]")
            with self.subTest(unit), self.table(these) as table:
                table.insert_many(these, [1] * len(these))
                self.assertEqual([table.count(end) for end in ends], wanted[unit])
                self.assertEqual([table.sum(None, end) for end in ends], [len(these) - it for it in wanted[unit]])
                self.assertEqual(numbers(table.count_many(ends, None)), wanted[unit])

    def test_text_is_an_end_of_dates(self):
        times = ["2020-01-01", "2020-01-01T12", "2020-01-01T12:30", "2020-01-01T12:30:00.25", "2020-01-01T12:30:00.5"]
        with self.table(key_type="datetime64[us]") as table:
            table.insert_many(np.array(times, "M8[us]"), [1] * 5)
            for at, text in enumerate(times):
                for each in (text, text.replace("T", " ")):
                    self.assertEqual((table.count(each), table.count(None, each)), (5 - at, at))
            self.assertEqual((table.count("2020"), table.count("2020-01"), table.count("+2020-01-01 12:30")), (5, 5, 3))
            self.assertEqual(numbers(table.count_many(times, None)), [5, 4, 3, 2, 1])
            self.assertEqual(numbers(table.count_many(np.array(times), None)), [5, 4, 3, 2, 1])
            for each in ("2020-01-01T12:30:00.25Z", "2020-01-01 13:30:00.25+01", "2020-01-01T07:00:00.25-0530"):
                self.assertEqual((table.count(each), table.count(None, each)), (2, 3))
            near = "2020-01-01T12:30:00.250000000000000001"
            self.assertEqual((table.count(near), table.count(None, near[:-1] + "0")), (1, 3))
            wrong = ["", "now", "NaT", "2020-1-1", "20-01-01", "2020-13", "2020-01-01T12.5", "2020-01-01 12:30.5", "٢٠"]
            wrong += [f"2020-01-01T{it}" for it in ("12:30:00.", "12:30:00.5x", "12:30:00z", "25", "12:30:00.5+1:00")]
            for text in wrong:
                self.assertRaises(ValueError, table.count, text)
                self.assertRaises(ValueError, table.count_many, [text], None)

    def test_far_ends_are_as_no_ends(self):
        keys = np.array(["1700-01-01", "1970-01-01", "2200-01-01"], "M8[ns]")
        with self.table(keys) as table:
            table.insert_many(keys, [1, 2, 4])
            for early in ("1601-01-01", "-9999-01-01", datetime.datetime.min, datetime.date.min):
                for end in (np.datetime64(early), early):
                    self.assertEqual((table.sum(end), table.sum(None, end)), (7, 0))
                    self.assertEqual((table.sum_many([end], None), table.sum_many(None, [end])), ([7], [0]))
            for late in ("2300-01-01", "9999-12-31T23:59:59", datetime.datetime.max, datetime.date.max):
                for end in (np.datetime64(late), late):
                    self.assertEqual((table.sum(end), table.sum(None, end)), (0, 7))
                    self.assertEqual((table.sum_many([end], None), table.sum_many(None, [end])), ([0], [7]))
            self.assertEqual(table.sum("1601-01-01", "2300-01-01"), 7)
            self.assertRaises(ValueError, table.sum, "2300-01-01", "2299-01-01")
            self.assertRaises(ValueError, table.sum, "1601-01-01", "1600-01-01")

    def test_times_with_zones_are_in_utc(self):
        zone = datetime.timezone(datetime.timedelta(hours=2))
        for unit in ("s", "us", "ns", "h"):
            with self.subTest(unit), self.table(key_type=f"datetime64[{unit}]") as table:
                table.insert_many(np.array(["2020-01-01T00", "2020-01-01T01", "2020-01-01T02"], "M8[h]"), [1, 2, 4])
                end = datetime.datetime(2020, 1, 1, 3, tzinfo=zone)
                self.assertEqual((table.sum(end), table.sum(None, end), table.sum_many([end], None)), (6, 1, [6]))
                last = datetime.datetime.max.replace(tzinfo=datetime.timezone(datetime.timedelta(hours=-5)))
                self.assertEqual((table.sum(None, last), table.sum(last)), (7, 0))

    @wants_pandas
    def test_ends_of_pandas_keep_their_nanoseconds(self):
        import pandas

        begin = pandas.Timestamp("2020-01-01 00:00:00.000001")
        keys = np.datetime64("2020-01-01T00:00:00.000001", "ns") + np.arange(10)
        end = begin + pandas.Timedelta(3, "ns")
        with self.table(keys) as table:
            table.insert_many(keys, np.arange(10))
            for it in (end, end.tz_localize("UTC"), end.tz_localize("Europe/Berlin") + pandas.Timedelta(1, "h")):
                self.assertEqual((table.count(it), table.count(None, it), table.sum(it)), (7, 3, 42))
                self.assertEqual(table.select(it).payloads.tolist(), list(range(3, 10)))
            ends = pandas.DatetimeIndex([begin, end, end + pandas.Timedelta(2, "ns")])
            zoned = ends.tz_localize("UTC").tz_convert("Asia/Tokyo")
            for many in (ends, pandas.Series(ends, index=[7, 7, 7]), zoned, pandas.Series(zoned), list(zoned)):
                self.assertEqual(numbers(table.count_many(many, None)), [10, 7, 5])
                self.assertEqual(table.sum_many(None, many), [0, 3, 10])
            self.assertRaises(ValueError, table.count, pandas.NaT)
            self.assertRaises(ValueError, table.count_many, pandas.Series([end, pandas.NaT]), None)
        with self.table(key_type="datetime64[us]") as table:
            table.insert_many(np.array(["2020-01-01T00:00:00.000001", "2020-01-01T00:00:00.000002"], "M8[us]"), [1, 2])
            self.assertEqual((table.sum(end), table.sum(None, end)), (2, 1))
            self.assertEqual(table.sum_many(pandas.Series([begin, end]), None), [3, 2])

    def test_swapped_dates_are_named(self):
        with self.table(key_type="datetime64[M]") as table:
            low, high = np.datetime64("2020-01-31"), np.datetime64("2020-01-30")
            for name in ("count", "sum", "select"):
                self.assertRaisesRegex(ValueError, "2020-01-31 is above", getattr(table, name), low, high)
            for name, kind in itertools.product(("count_many", "sum_many"), (list, np.array)):
                lows, highs = kind([high, high, low]), kind([low, high, high])
                self.assertRaisesRegex(ValueError, "^range 2: ", getattr(table, name), lows, highs)

    def test_what_is_no_date(self):
        with self.table(key_type="datetime64[s]") as table:
            for end in (5, 5.0, True, None, [], "text", b"2020", np.datetime64("NaT"), np.timedelta64(5, "s")):
                if end is not None:
                    self.assertRaises((TypeError, ValueError), table.count, end)
                    self.assertRaises((TypeError, ValueError), table.select, None, end)
                self.assertRaises((TypeError, ValueError), table.sum_many, [end, 5], None)
            five = np.array([5])
            for ends in (five, five.view("M8"), five.view("m8[s]"), np.array(["NaT"], "M8[s]"), "2020", b"2020"):
                self.assertRaises((TypeError, ValueError), table.count_many, ends, None)
                self.assertRaises((TypeError, ValueError), table.sum_many, None, ends)
            self.assertRaisesRegex(ValueError, "NaT can't be the end of a range", table.count, np.datetime64("NaT"))
        with self.table() as table:
            for end in (np.datetime64("2020-01-01"), np.datetime64(5, "ns"), datetime.date(2020, 1, 1)):
                self.assertRaises(TypeError, table.count, end)
                self.assertRaises(TypeError, table.count_many, [end], None)


@wants_shards
class InShardsNumbers(EndsOfNumbers, InShards, unittest.TestCase):
    """In the process, in several shards."""


@wants_library
class InProcessNumbers(EndsOfNumbers, InProcess, unittest.TestCase):
    """In the process."""


@wants_shards
class InShardsDates(EndsOfDates, InShards, unittest.TestCase):
    """In the process, in several shards."""


@wants_library
class InProcessDates(EndsOfDates, InProcess, unittest.TestCase):
    """In the process."""


@wants_program
class OverTcpNumbers(EndsOfNumbers, OverTcp, unittest.TestCase):
    """Over TCP."""


@wants_program
class OverTcpDates(EndsOfDates, OverTcp, unittest.TestCase):
    """Over TCP."""


class Few(OnWorkers):
    """On a cluster of its own, fewer cases, since each call takes milliseconds."""

    setUpClass, tearDownClass = staticmethod(begin), staticmethod(end)

    @staticmethod
    def some(count):
        return range(0, count, max(1, count // 2))

    def test_every_unit_against_every_unit(self):
        keys = [LEAST + 1, -1, 0, GREATEST]
        for unit in ("Y", "s", "ns"):
            with self.subTest(unit), self.table(key_type=f"datetime64[{unit}]") as table:
                table.insert_many(np.array(keys).view(f"M8[{unit}]"), [2**at for at in range(len(keys))])
                for other in ("M", "D", "ns", "as"):
                    self.against(table, [moment(it, unit) for it in keys], other)


@wants_library
@wants_cluster
class OnAClusterCases(Few, EndsOfNumbers, EndsOfDates, unittest.TestCase):
    """On a cluster."""


if __name__ == "__main__":
    unittest.main()
