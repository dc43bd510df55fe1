"""Dates as text, and types of keys compared with each other, by days that are counted here."""

import datetime
import fractions
import itertools
import pickle
import unittest

from kinds import DATE_TYPES, days_before
from ways import InProcess, InShards, OverTcp, crackd, np, wants_numpy, wants_program, wants_shards

from crackd.keys import Keys

# texts, with the year, month, day, and seconds of that day
TEXTS = {
    "0001-01-01": (1, 1, 1, 0),
    "0000-03": (0, 3, 1, 0),
    "-0001-12-31": (-1, 12, 31, 0),
    "-9999": (-9999, 1, 1, 0),
    "+2020-02-29": (2020, 2, 29, 0),
    "+10000-01-01": (10_000, 1, 1, 0),
    "9999-12-31T23:59:59": (9999, 12, 31, 86_399),
    "+123456-07-04 01:02:03": (123_456, 7, 4, 3723),
    "-123456-07": (-123_456, 7, 1, 0),
    "1600-02-29T23": (1600, 2, 29, 82_800),
    "1900-03-01 00:01": (1900, 3, 1, 60),
    "1970-01-01T00:00:00.000000000000000001": (1970, 1, 1, fractions.Fraction(1, 10**18)),
    "1969-12-31 23:59:59.9": (1969, 12, 31, fractions.Fraction(863_999, 10)),
    "2020-01-31T12:30:00.5": (2020, 1, 31, fractions.Fraction(90_001, 2)),
    "2262-04-11T23:47:16.854775808": (2262, 4, 11, 85_636 + fractions.Fraction(854_775_808, 10**9)),
    "2020-01-31T12:30Z": (2020, 1, 31, 45_000),
    "2020-01-01T00:00+01:00": (2019, 12, 31, 82_800),
    "2020-02-28 23:59:59.5-0030": (2020, 2, 29, fractions.Fraction(3599, 2)),
    "1969-12-31T23-23": (1970, 1, 1, 79_200),
}
NO_TEXTS = ["", "now", "today", "NaT", "nat", "2020-1-1", "20-01-01", "2020-01-01T", "2020-01-01 ", " 2020", "2020-"]
NO_TEXTS += ["2020-13-01", "2020-00-01", "2021-02-29", "2020-01-32", "2020-01-01T24:00", "2020-01-01T12:60"]
NO_TEXTS += ["2020-01-01Z", "2020-01-01+01:00", "2020-01-01T00:00+1", "2020-01-01T00:00+24:00", "2020-01-01T00:00 Z"]
NO_TEXTS += ["2020-01-01T00:00+01:60", "2020-01-01T00:00z", "202001", "10000", "10000-01-01", "20200101", "2020Z"]
NO_TEXTS += ["2020-01-01T12:30:00.", "2020-01-01T12:30.5", "2020-01-01.5"]
NO_TEXTS += ["2020-01-01T12:30:00.1234567890123456789", "1234567-01-01", "123", "2020/01/01", "20200101x", "\u0662020"]


@wants_numpy
class Dates:
    """Ends of ranges that are text, and keys of other units."""

    UNITS = DATE_TYPES

    def test_each_text_beside_the_dates_around_it(self):
        for text, (year, month, day, seconds) in TEXTS.items():
            moment = (days_before(year, month) + day - 1) * 86_400 + seconds
            for unit, size in [("D", 86_400), ("s", 1), ("us", fractions.Fraction(1, 10**6))]:
                # the least number of units that isn't before the moment
                least = -(-moment // size)
                with self.subTest(text, unit=unit):
                    if -(2**63) < least - 2 and least + 2 < 2**63:
                        keys = np.arange(least - 2, least + 2, dtype="int64").view(f"datetime64[{unit}]")
                        with self.table(splits=keys[1:4:2], key_type=f"datetime64[{unit}]") as table:
                            table.insert_many(keys, [1, 2, 4, 8])
                            self.assertEqual((table.sum(text), table.sum(None, text)), (12, 3))
                            self.assertEqual(table.sum_many([text, None, keys[0]], [None, text, text]), [12, 3, 3])
                            self.assertEqual(table.count_by([keys[0], text, None]).tolist(), [2, 2])

    def test_what_is_no_date(self):
        with self.table(key_type="datetime64[s]") as table:
            table.insert(np.datetime64("2020-01-01"), 1)
            for text in NO_TEXTS:
                with self.subTest(text):
                    self.assertRaises(ValueError, table.count, text)
                    self.assertRaises(ValueError, table.sum, None, text)
                    self.assertRaises(ValueError, table.count_many, [text], None)
                    self.assertRaises(ValueError, table.count_by, ["1900", text])
                    self.assertRaises(ValueError, table.insert, text, 1)
                    self.assertRaises(ValueError, table.insert_many, ["2020", text], [1, 2])
                    self.assertRaises(ValueError, table.insert_many, np.array(["2020", text]), [1, 2])
                    self.assertRaises(ValueError, table.update, 0, text, 1)
                    self.assertRaises(ValueError, table.move, 0, text)
            said = "a year of more than four digits needs a sign"
            self.assertRaisesRegex(ValueError, said, table.count, "202001", None)
            self.assertEqual(table.count(), 1)

    def test_many_texts_are_keys(self):
        days = np.arange(-719_528, 2_932_897, 99_999).view("M8[D]")
        for unit, ends in [("D", [""]), ("us", ["T12:30", "T00:00:01", " 23:59:59.25", "T23:59:59.999999"])]:
            texts = [f"{it}{end}" for it in days.astype(str) for end in ends]
            seconds = {"": 0, "T12:30": 45_000, "T00:00:01": 1, " 23:59:59.25": 86_399.25}
            seconds["T23:59:59.999999"] = 86_399.999999
            micros = [int(it) * 86_400 * 10**6 + round(seconds[end] * 10**6) for it in days.view("i8") for end in ends]
            with self.table(key_type="datetime64[us]") as table:
                for given in (texts, np.array(texts), iter(texts)):
                    rows = table.insert_many(given, range(len(texts)))
                    self.assertEqual([table.get(it).key.view("i8") for it in rows[::9]], micros[::9])
                    self.assertEqual(table.delete_range(), len(texts))
                for wrong in ("2021-02-29", "2020-01-01T25:00", "2020-01-01\n2020-01-01", "NaT", "x"):
                    self.assertRaises(ValueError, table.insert_many, [*texts, wrong], range(len(texts) + 1))
                self.assertEqual(len(table), 0)

    def test_each_text_is_a_key(self):
        for text, (year, month, day, seconds) in TEXTS.items():
            moment = (days_before(year, month) + day - 1) * 86_400 + seconds
            for unit, size in [("D", 86_400), ("s", 1), ("us", fractions.Fraction(1, 10**6))]:
                number = moment / fractions.Fraction(size)
                with self.subTest(text, unit=unit), self.table(key_type=f"datetime64[{unit}]") as table:
                    if number.denominator > 1:
                        self.assertRaises(ValueError, table.insert, text, 1)
                        self.assertRaises(ValueError, table.insert_many, [text], [1])
                        continue
                    key = np.int64(int(number)).view(f"datetime64[{unit}]")
                    rows = [table.insert(text, 1), *table.insert_many([text, key], [2, 4])]
                    rows.append(table.insert_many(np.array([text]), [8])[0])
                    self.assertEqual(table.select().keys.tolist(), [key.item()] * 4)
                    self.assertTrue(table.update(rows[0], text, 16) and table.update_many(rows[1:2], [text], [32])[0])
                    moved = table.move(rows[2], text)
                    self.assertEqual((table.get(moved).key, table.sum(text, None), table.sum(key)), (key, 60, 60))


    def test_the_epoch_of_each_unit_in_each_other(self):
        # some units are more than 2**63 times as long as others
        for own in self.UNITS:
            with self.table(key_type=own) as table:
                for other in DATE_TYPES:
                    with self.subTest(own, other=other):
                        zeros = np.zeros(3, other)
                        rows = table.insert_many(zeros, [1, 2, 4])
                        rows = [*rows, *table.insert_many([zeros[0], datetime.date(1970, 1, 1)], [8, 16])]
                        self.assertEqual(table.sum(zeros[0], np.int64(1).view(own)), 31)
                        self.assertEqual(table.sum_many(zeros[:2], None), [31, 31])
                        self.assertEqual(table.count_by([None, zeros[1], None]).tolist(), [0, 5])
                        self.assertTrue(all(table.update_many(rows[:3], zeros, [0, 0, 0])))
                        self.assertEqual((table.sum(), len(table)), (24, 5))
                        table.delete_many(rows)

    def test_keys_that_do_not_fit_are_named(self):
        far, near = np.datetime64("9999-01-01"), np.datetime64("2020-01-01T00:00:00.5", "ms")
        with self.table(key_type="datetime64[ns]") as table:
            said = "the key 9999-01-01 doesn't fit into datetime64.ns."
            day = datetime.date(9999, 1, 1)
            for keys in ([far], [near, far], np.array([far]), np.array([near, far], object), [day]):
                self.assertRaisesRegex(OverflowError, said, table.insert_many, keys, [1] * len(keys))
            self.assertRaisesRegex(OverflowError, said, table.insert, far, 1)
        with self.table(key_type="datetime64[s]") as table:
            said = "the key 2020-01-01T00:00:00.500 isn't exact as datetime64.s."
            for keys in ([near], [far, near], np.array([near]), np.array([far, near], object)):
                self.assertRaisesRegex(ValueError, said, table.insert_many, keys, [1] * len(keys))
            self.assertRaisesRegex(ValueError, said, table.insert, near, 1)
            self.assertEqual(table.count(), 0)


@wants_numpy
class Kinds(unittest.TestCase):
    """Which kinds of keys are the same."""

    NAMES = ["int64", "uint64", "float64", *DATE_TYPES]

    def test_each_beside_each(self):
        for one, other in itertools.product(self.NAMES, repeat=2):
            kinds = Keys.named(one), Keys.named(other)
            self.assertEqual((kinds[0] == kinds[1], len(set(kinds))), (one == other, 1 if one == other else 2))
        for name in self.NAMES:
            kind = Keys.named(name)
            self.assertEqual((kind.name, repr(kind)), (name, f"Keys({name})"))
            for same in (Keys.named(kind), Keys.named(np.dtype(name)), pickle.loads(pickle.dumps(kind))):
                self.assertEqual((same, hash(same)), (kind, hash(kind)))
            self.assertNotEqual(kind, name)
            turned = np.dtype(name).newbyteorder()
            self.assertEqual((Keys.of_dtype(turned), Keys.of_dtype(turned).name), (kind, name))

    def test_smaller_types(self):
        for kind, names in {"int64": ("i1", "i2", "i4", "i8"), "uint64": ("u1", "u8"), "float64": ("f2", "f4")}.items():
            for name in names:
                self.assertEqual(Keys.named(name), Keys.named(kind))
        self.assertEqual((Keys.named(int), Keys.named(float)), (Keys("i"), Keys("f")))
        for name in ("bool", "g", "D", "S3", "U3", "O", "m8[s]", "datetime64", None, "x", 5, object, [("a", "i8")]):
            self.assertRaises(TypeError, Keys.named, name)


@wants_numpy
class InProcessDates(Dates, InProcess, unittest.TestCase):
    """In this process."""


@wants_shards
class InShardsDates(Dates, InShards, unittest.TestCase):
    """In several shards."""

    UNITS = ("datetime64[W]", "datetime64[ns]")


@wants_numpy
@wants_program
class OverTcpDates(Dates, OverTcp, unittest.TestCase):
    """Over TCP."""

    UNITS = ("datetime64[D]", "datetime64[us]")


if __name__ == "__main__":
    unittest.main()
